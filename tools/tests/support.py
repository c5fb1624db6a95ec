"""What the tests of the tools share: a verb run as on the command line, a folder for files, system files and traces of a few words, and
programs to ask."""
import contextlib
import importlib
import io
import os
import pathlib
import re
import shlex
import subprocess
import sys
import tempfile
import unittest
from unittest import mock

sys.dont_write_bytecode = True
top = pathlib.Path(__file__).resolve().parents[2]
sys.path.insert(0, str(top / "tools"))
from rtadmit_tools import command_line, sources

recorded = top / "tools" / "tests" / "recorded"


def verb(kind, name):
    """The module of a verb."""
    return importlib.import_module(f"rtadmit_tools.{kind}.{name.replace('-', '_')}")


def run(kind, *words):
    """The status of a run of a verb with its words, and what it wrote on both outputs."""
    out, err = io.StringIO(), io.StringIO()
    with contextlib.redirect_stdout(out), contextlib.redirect_stderr(err):
        try:
            status = command_line.main(kind, words)
        except SystemExit as ended:
            status = ended.code
    return status, out.getvalue(), err.getvalue()


def program():
    """A program to ask, or None: the one that RTADMIT names, or the proved one where it is built."""
    for path in (os.environ.get("RTADMIT"), top / "crates/rtadmit/out/rtadmit"):
        if path and os.access(path, os.X_OK):
            return str(path)
    return None


needs_program = unittest.skipUnless(program(), "no program is named (RTADMIT) or built")


def system(*lines, format=1):
    """The text of a system file. A core is `NAME SCHED`; a part is `NAME PARENT SCHED PERIOD[/BUDGET] [extra]` with its tasks behind it,
    each `NAME:PERIOD:WORK`, where it has them with `:DEADLINE` and `:JITTER`."""
    told = [f"format = {format}"]
    for name, first, *more in map(str.split, lines):
        told += [f'[[{"part" if more else "core"}]]', f'name = "{name}"', f'{"parent" if more else "sched"} = "{first}"']
        if more:
            period, _, budget = more[1].partition("/")
            given = [f"budget = {budget}"] * bool(budget) + ["extra = true"] * ("extra" in more)
            told += [f'sched = "{more[0]}"', f"period = {period}", *given]
        for task in (word.split(":") for word in more if ":" in word):
            keys = ("period", "work", "deadline", "jitter")
            told += ["[[part.task]]", f'name = "{task[0]}"', *(f"{key} = {value}" for key, value in zip(keys, task[1:]) if value)]
    return "\n".join(told) + "\n"


def trace(rows, unit="at"):
    """The text of a trace, of rows with blanks between them."""
    return "\n".join([f"{unit},core,what,vcpu", *rows.split()]) + "\n"


def texts(picture):
    return re.findall(r"<text [^>]*>([^<]*)</text>", picture)


def peak(lines, *words):
    """The most memory, in KiB, of a run of a verb of tools/host over lines that come through a pipe."""
    code = (
        "import sys; sys.path.insert(0, sys.argv[1]); import support; status = support.command_line.main('host', sys.argv[2:]); "
        "print(status, next(line.split()[1] for line in open('/proc/self/status') if line.startswith('VmHWM')), file=sys.stderr)")
    words = [sys.executable, "-B", "-c", code, pathlib.Path(__file__).parent, *words]
    ran = subprocess.run(words, input="".join(lines), stdout=subprocess.DEVNULL, stderr=subprocess.PIPE, text=True)
    status, most = ran.stderr.split("\n")[-2].split()
    assert status == "0", ran.stderr
    return int(most)


class Case(unittest.TestCase):
    """Tests with a folder of their own, which is left out of what a verb says."""

    def setUp(self):
        held = tempfile.TemporaryDirectory()
        self.addCleanup(held.cleanup)
        self.folder = pathlib.Path(held.name)

    def file(self, name, text):
        path = self.folder / name
        path.parent.mkdir(parents=True, exist_ok=True)
        path.write_text(text)
        return path

    def script(self, text, name="program"):
        """The path of a program that is a few lines of shell."""
        path = self.file(name, f"#!/bin/sh\n{text}\n")
        path.chmod(0o755)
        return str(path)

    def answering(self, text, status=0):
        """The path of a program that reads its file and answers this, whatever it is asked."""
        return self.script(f"cat \"$2\" >/dev/null\nprintf %s {shlex.quote(text)}\nexit {status}")

    def asked(self, answers, other=2):
        """The path of a program that answers by its command, and where that is said by its second file or its part too: a text, or a
        status and a text; to all else by a status alone."""
        pairs = [(0, told) if isinstance(told, str) else told for told in answers.values()]
        cases = "".join(f"'{key}'{'' if ' ' in key else '*'}) printf %s {shlex.quote(text)}; exit {status} ;;\n"
                        for key, (status, text) in zip(answers, pairs))
        return self.script(f'case "$1 $3" in\n{cases}*) exit {other} ;;\nesac')

    def ran(self, kind, *words):
        return tuple(told if isinstance(told, int) else told.replace(f"{self.folder}/", "") for told in run(kind, *words))

    def no(self, cause, told, status=1):
        """What is told is a status, what came of it, here nothing, and last why."""
        self.assertEqual((told[0], [*filter(None, told[1:-1])]), (status, []), told[-1])
        self.assertIn(cause, told[-1])

    def refused(self, cause, kind, *words, status=1):
        self.no(cause, self.ran(kind, *words), status)

    def stand_in(self, *modules, **names):
        """Puts something in place of names of modules, up to the end of the test."""
        for module in modules:
            patch = mock.patch.multiple(module, **names)
            patch.start()
            self.addCleanup(patch.stop)


class Checkout(Case):
    """Checks of sources over a repository of a few files in place of this one."""

    def setUp(self):
        super().setUp()
        self.top = self.folder / "top"
        self.stand_in(sources, TOP=self.top)

    def write(self, files):
        for name, text in files.items():
            self.file(f"top/{name}", text)

    def told(self, *words):
        """The status of a verb of tools/gate, and the lines that it prints."""
        status, out, _ = run("gate", *words)
        return status, out.splitlines()
