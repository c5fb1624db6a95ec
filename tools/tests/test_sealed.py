"""Tests of tools/host evidence, and of tools/gate release and program-sum over a small repository with a pretended program: what an archive
has, that it is the same each time, what is refused, and that nothing is left then."""
import hashlib
import importlib
import os
import pathlib
import re
import signal
import subprocess
import sys
import tarfile
import unittest
from unittest import mock

import support
from rtadmit_tools import command_line, sealed
from support import run, top, trace, verb

releasing, summing = verb("gate", "release"), verb("gate", "program-sum")
LEAF, SHORT = top / "examples/leaf.toml", "verdict=no\nshort leaf from_ns=0 got_ns=2000 of_ns=3000\n"
GATE_TELLS = "commit=" + "0123456789" * 4 + " logic=0123456789abcdef"
UNPROVED = "Unproved: the program that was asked is a build without proofs, and nothing on this page is proved."
TRACE = trace("0,cpu0,start,leaf 0,cpu0,run,leaf 2,cpu0,stop, 10,,end,")
ANSWERS = {
    "admit": "verdict=yes\npart leaf period=10 budget=3 computed\n"
             "witness leaf budget=2 start=2 span=75 task=- replay=t2 release=2 deadline=77 got=5 of=9\n",
    "certify": (top / "examples/leaf.cert").read_text(), "check": "verdict=yes\n", "responses": "verdict=yes\n",
    "slack": "verdict=yes\nslack leaf t1 work=7 most=7\nslack leaf t2 work=9 most=12\n", "audit": (1, SHORT),
    "tally": (1, f"{SHORT}vcpu leaf begun=1 judged=1 short=1 over=0 least_ns=2000 most_ns=2000\n"), "version": "rtadmit 1.2.3\n",
}


def digest(path):
    return hashlib.sha256(pathlib.Path(path).read_bytes()).hexdigest()


class Case(support.Case):
    """A folder that gets the archives."""

    def setUp(self):
        super().setUp()
        self.out = self.folder / "out"
        self.out.mkdir()
        self.addCleanup(signal.signal, signal.SIGTERM, signal.getsignal(signal.SIGTERM))

    def nothing(self, cause, **words):
        """Refused, and nothing is left."""
        before = sorted(self.out.iterdir())
        self.no(cause, self.made(**words))
        self.assertEqual(sorted(self.out.iterdir()), before)

    def packed(self, name):
        """The entries of an archive."""
        with tarfile.open(self.out / name) as packed:
            return packed.getmembers()

    def nothing_where_it_is_stopped(self, name):
        before = sorted(self.out.iterdir())
        with mock.patch.object(sealed, "pack", lambda *_: os.kill(os.getpid(), signal.SIGTERM)):
            self.assertEqual(self.made(name)[0], 128 + signal.SIGTERM)
        self.assertEqual(sorted(self.out.iterdir()), before)


class Evidence(Case):
    def setUp(self):
        super().setUp()
        self.trace = self.file("t.csv", TRACE)
        self.answer()

    def answer(self, **changes):
        """Makes a program, and what a gate says of it."""
        self.program = self.asked(ANSWERS | changes)
        self.told = f"program sha256={digest(self.program)} {GATE_TELLS}\n"
        self.gate = self.file("gate", "".join(f"line {at}\n" for at in range(1, 31)) + self.told)

    def made(self, name="e", file=LEAF, trace=True, more=None):
        more = ["--gate", self.gate] if more is None else more
        return run("host", "evidence", file, *[self.trace] * trace, self.out / name, "--program", self.program, *more)

    def text(self, name):
        return (self.out / "e" / name).read_text()

    def test_what_it_has(self):
        status, out, err = self.made()
        folder, archive = self.out / "e", self.out / "e.tar.gz"
        self.assertEqual((status, out, err), (0, f"{folder}\n{archive} sha256={digest(archive)}\n", ""))
        has = {"system.toml": LEAF.read_text(), "trace.csv": TRACE, "certificate.json": ANSWERS["certify"],
               "version.txt": f"rtadmit 1.2.3\n{self.told}", "gate.txt": "".join(f"line {at}\n" for at in range(12, 31)) + self.told}
        self.assertEqual({path.name for path in folder.iterdir()}, {*has, "SUMS", "report.html", "verdicts.txt"})
        for name, text in has.items():
            self.assertEqual(self.text(name), text, name)
        self.assertEqual(subprocess.run(["sha256sum", "-c", "--quiet", "--strict", "SUMS"], cwd=folder).returncode, 0)
        self.assertEqual(len(self.text("SUMS").splitlines()), len(has) + 2)
        self.assertIn("The recording: no.", self.text("report.html"))
        self.assertIn("logic <code>0123456789abcdef</code>", self.text("report.html"))
        told, asked = self.text("verdicts.txt").split("\n\n"), (
            "rtadmit admit system.toml", "rtadmit certify system.toml >certificate.json", "rtadmit check system.toml certificate.json",
            "tools/second-checker system.toml certificate.json", "rtadmit responses system.toml", "rtadmit slack system.toml leaf",
            "rtadmit audit system.toml trace.csv", "rtadmit tally system.toml trace.csv")
        heads = [entry.split("\n")[0] for entry in told]
        lacking = [f"not asked: this program has no `{command}`" for command in ("isolate", "steal")]
        self.assertEqual(heads, [*(f"$ {words}" for words in asked), *lacking])
        self.assertEqual(told[6], f"$ rtadmit audit system.toml trace.csv\n{SHORT}status 1")

    def test_the_same_twice(self):
        """Under another name, with another mask of rights, of files with other names and times, and a gate beside the program."""
        self.assertEqual(self.made("e")[0], 0)
        os.utime(self.trace, (1_000_000_000, 1_000_000_000))
        self.gate.rename(self.folder / "GATE")
        self.addCleanup(os.umask, os.umask(0o077))
        self.assertEqual(self.made("again", self.file("other.toml", LEAF.read_text()), more=[])[0], 0)
        self.assertEqual((self.out / "e.tar.gz").read_bytes(), (self.out / "again.tar.gz").read_bytes())
        entries = self.packed("e.tar.gz")
        self.assertEqual(({entry.mtime for entry in entries}, [entry.name for entry in entries[:2]]), ({0}, ["evidence", "evidence/SUMS"]))

    def test_a_no_without_a_trace(self):
        no = "verdict=no\noverfull part leaf at=50\n"
        self.program = self.asked({"admit": (1, no), "certify": (1, no)})
        self.assertEqual(self.made(file=top / "examples/guest-short.toml", trace=False, more=["--unproved"])[0], 0)
        self.assertFalse({"trace.csv", "certificate.json"} & {path.name for path in (self.out / "e").iterdir()})
        self.assertIn(f"$ rtadmit certify system.toml\n{no}status 1\n", self.text("verdicts.txt"))
        self.assertNotIn("audit", self.text("verdicts.txt"))

    def test_what_is_not_shown_to_be_proved(self):
        """A build without proofs, also where a line that somebody typed has its sum; and a program of which no gate tells."""
        self.nothing("no line of a gate tells its sum", more=[])
        self.assertEqual(self.made("f", more=["--unproved"])[0], 0)
        self.assertTrue((self.out / "f/verdicts.txt").read_text().startswith("Not shown to be proved: no line of a gate is known"))
        self.answer(version="rtadmit 1.2.3 unproved\n")
        self.nothing("'rtadmit 1.2.3 unproved': nothing of it is proved; --unproved takes it")
        self.assertEqual(self.made(more=["--gate", self.gate, "--unproved"])[0], 0)
        self.assertFalse((self.out / "e/gate.txt").exists())
        for name in ("verdicts.txt", "version.txt", "report.html"):
            self.assertIn(UNPROVED, self.text(name).replace("<b>", ""))
        self.assertNotIn("0123456789", self.text("version.txt"))

    def test_what_is_refused(self):
        for text, cause in (("some line\nFAILED\n", f"{self.gate}:2: the gate failed, or did not come to its end"),
                            (self.told.replace(" logic=", "+changes logic="), "over changes that were not committed"),
                            (f"program sha256={'0' * 64} {GATE_TELLS}\n", "is not what the gate left: its sum is")):
            self.gate.write_text(text)
            self.nothing(cause)
        spoilt = (top / "examples/leaf-spoilt.cert").read_text()
        for cause, changes in (
            (f"{LEAF}: the program does not judge it: fault=NotToml file=1 (status 3)", {"admit": (3, "fault=NotToml file=1\n")}),
            (f"{self.trace}: the program does not judge it: fault=NoEnd row=5 file=2 (status 3)",
             {"audit": (3, "fault=NoEnd row=5 file=2\n")}),
            ("the certificate is answered verdict=yes by `check`, and verdict=no flaw=Cover part leaf by tools/second-checker",
             {"certify": spoilt}),
        ):
            self.answer(**changes)
            self.nothing(cause)
        (self.out / "e").mkdir()
        (self.out / "f.tar.gz").write_text("")
        for name in ("e", "f"):
            self.nothing("is there already", name=name)
        self.answer()
        self.nothing_where_it_is_stopped("g")
        os.remove(self.program)
        self.nothing("program: No such file or directory", name="g")


PROGRAM = "#!/bin/sh\necho rtadmit 7.1\n"
FILES = {
    "README.md": "# page\n", "docs/a.md": "a\n", "docs/b.md": "b\n", "examples/compare": "#!/bin/sh\nexit 0\n", "tools/host": "h\n",
    "tools/gate": "g\n", "tools/rtadmit_tools/host/why.py": "w\n", "tools/rtadmit_tools/gate/cases.py": "c\n", "crates.txt": "a\n",
    "crates/a/src/a.rt": "fn\n", releasing.VERSION: 'pub const VERSION: &str = "7.1";\n', ".gitignore": "*.log\n",
}


class Release(Case):
    def setUp(self):
        super().setUp()
        self.top = self.folder / "checkout"
        for name, text in {**FILES, "docs/stray.log": "not committed\n"}.items():
            self.file(f"checkout/{name}", text)
        (self.top / "examples/compare").chmod(0o755)
        self.git("init", "-q")
        self.commit()
        self.program = self.file("program", PROGRAM)
        self.program.chmod(0o755)
        self.stand_in(releasing, summing, TOP=self.top)
        self.stand_in(summing, logic=lambda: "0123456789abcdef")
        self.gate = self.file("gate.txt", f"crate a: proved\n{self.line()}")

    def git(self, *words):
        words = ["git", "-c", "user.name=a", "-c", "user.email=a@b", *words]
        return subprocess.run(words, cwd=self.top, stdout=subprocess.PIPE, text=True, check=True).stdout.strip()

    def commit(self, **files):
        for name, text in files.items():
            (self.top / name).write_text(text)
        self.git("add", "-A")
        self.git("commit", "-q", "-m", "all")

    def line(self):
        status, line, err = run("gate", "program-sum", "--program", self.program)
        self.assertEqual((status, err), (0, ""))
        return line

    def made(self, folder="r", program=None):
        return run("gate", "release", self.out / folder, "--gate", self.gate, "--program", program or self.program)

    def test_what_a_release_has(self):
        status, out, err = self.made()
        self.assertEqual((status, err), (0, ""))
        folder = self.out / "r"
        files = sorted(str(path.relative_to(folder)) for path in folder.rglob("*") if path.is_file())
        kept = [name for name in FILES if name.startswith(("README", "docs", "examples", "tools/host", "tools/rtadmit_tools/host"))]
        self.assertEqual(files, sorted([*kept, "GATE", "RELEASE", "rtadmit"]))
        about = (folder / "RELEASE").read_text()
        for line in (f"sha256 {digest(self.program)}\n", f"commit: {self.git('rev-parse', 'HEAD')}",
                     "version: rtadmit 7.1\nlogic: 0123456789abcdef\n", f"last line: program sha256={digest(self.program)} commit="):
            self.assertIn(line, about)
        self.assertTrue(out.startswith(about))
        self.assertEqual(((folder / "GATE").read_text(), (folder / "rtadmit").read_text()), (self.line(), PROGRAM))
        self.assertEqual(sorted(path.name for path in self.out.iterdir()), ["r", "r.tar.gz"])

    def test_the_same_archive_twice(self):
        """Another place, other times of the files, another mask of rights: the same bytes."""
        self.assertEqual(self.made("r")[0], 0)
        for path in self.top.rglob("*"):
            if path.is_file() and ".git" not in path.parts:
                os.utime(path, (1_000_000_000, 1_000_000_000))
        self.addCleanup(os.umask, os.umask(0o077))
        self.assertEqual(self.made("again/r")[0], 0)
        self.assertEqual((self.out / "r.tar.gz").read_bytes(), (self.out / "again/r.tar.gz").read_bytes())
        entries = {entry.name: entry for entry in self.packed("r.tar.gz")}
        self.assertEqual(list(entries), sorted(entries, key=pathlib.PurePath))
        whose = {(entry.uid, entry.gid, entry.uname, entry.gname, entry.mtime) for entry in entries.values()}
        self.assertEqual(whose, {(0, 0, "", "", int(self.git("log", "-1", "--format=%ct")))})
        modes = [entries[name].mode for name in ("r/rtadmit", "r/examples/compare", "r/docs/a.md", "r/docs")]
        self.assertEqual(modes, [0o755, 0o755, 0o644, 0o755])

    def test_a_gate_or_a_program_that_does_not_fit(self):
        line, no_end = self.line().strip(), "the gate failed, or did not come to its end"
        for text, cause in (
            ("", no_end), ("crate a: proved\n", no_end), (f"{line}\ncrate b: not proved\n", no_end), (line[:-1], no_end),
            (f"{line} and more\n", no_end), ("program sha256=7 commit=7\n", no_end),
            (line.partition(" logic=")[0], "this line of a gate tells no logic"),
            (line.replace(" logic=", "+changes logic="), "changes that were not committed"),
        ):
            with self.subTest(text):
                self.gate.write_text(text)
                self.nothing(cause)
        self.gate.unlink()
        self.nothing("gate.txt: No such file")
        self.gate.write_text(line)
        self.nothing("is not what the gate left", program=self.script("echo rtadmit 7.1 # another", "other"))
        nowhere = self.folder / "nowhere"
        self.nothing("nowhere: No such file", program=nowhere)
        self.refused("nowhere: No such file", "gate", "program-sum", "--program", nowhere)

    def test_another_commit_or_version(self):
        (self.top / "docs/a.md").write_text("changed\n")
        self.assertRegex(self.line(), r"\+changes logic=")
        self.nothing("the checkout has changes that are not committed")
        self.commit()
        self.nothing("and another one is checked out")
        self.commit(**{releasing.VERSION: 'pub const VERSION: &str = "7.2";\n'})
        self.gate.write_text(self.line())
        self.nothing("says that it is 'rtadmit 7.1'")
        self.program.write_text(PROGRAM.replace("7.1", "7.1 unproved"))
        told = run("gate", "program-sum", "--program", self.program)
        self.assertEqual(told, (1, "", f"{self.program}: says of itself that it is 'rtadmit 7.1 unproved'\n"))
        self.nothing("nothing of it is proved")

    def test_what_is_there_or_older(self):
        (self.out / "r").mkdir()
        (self.out / "q.tar.gz").write_text("")
        for folder in ("r", "q"):
            self.nothing("is there already", folder=folder)
        os.utime(self.program, (1_000_000_000, 1_000_000_000))
        self.nothing("is newer than", folder="p")

    def test_where_a_step_fails_or_it_is_stopped(self):
        for module, step in ((releasing, "fill"), (sealed, "pack"), (releasing, "try_elsewhere")):
            with mock.patch.object(module, step, side_effect=OSError(28, "No space left on device", "somewhere")):
                self.nothing("somewhere: No space left on device")
        self.nothing_where_it_is_stopped("r")
        self.commit(**{"examples/compare": "#!/bin/sh\nexit 1\n"})
        self.gate.write_text(self.line())
        self.nothing("an example prints something else")


class Kept(unittest.TestCase):
    def test_each_tool_of_a_command(self):
        """What the pages of a release run is in it."""
        with mock.patch.object(sys, "path", [str(top / "examples"), *sys.path]):
            commands = "\n".join(command for command, _ in importlib.import_module("page").entries())
        self.assertLessEqual(set(re.findall(r"(?<![\w/.])tools/[a-z-]+", commands)), set(releasing.KEPT))
        self.assertLessEqual(set(re.findall(r"tools/host ([a-z-]+)", commands)), set(command_line.verbs("host")))
