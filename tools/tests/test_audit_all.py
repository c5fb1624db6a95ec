"""Tests of tools/host audit-all: pieces of random recordings beside the whole, by a plain judge that counts moment by moment; the folder in
each way that it is given; a recording that goes on, is cut off, or has a piece that is missing; and refusals."""
import io
import os
import pathlib
import random
import shutil
import subprocess
import tempfile
import time
import unittest
from unittest import mock

import recordings
import support
import test_split
from rtadmit_tools.program import Answer, Program
from support import needs_program, program, run, top, trace, verb

tool = verb("host", "audit-all")
LINUX = top / "examples/linux"
# A has 3 of 10, and B what it can get; and the same, where nothing is short or over
PARTS = {"A": ("cpu0", 10, 3, False), "B": ("cpu0", 10, 4, True)}
LOOSE = {name: (core, period, 1, True) for name, (core, period, _, _) in PARTS.items()}
# four periods of A and of B; A is short from 10 on, and over from 30 on
ROWS = ("0,cpu0,start,A 0,cpu0,start,B 0,cpu0,run,A 3,cpu0,run,B 10,cpu0,run,A 12,cpu0,run,B 20,cpu0,run,A 23,cpu0,run,B 30,cpu0,run,A "
        "34,cpu0,run,B 40,,end,")
TEXT = trace(ROWS)
BROKEN = ["verdict=no", "short A from_ns=10000 got_ns=2000 of_ns=3000", "over A from_ns=30000 got_ns=4000 of_ns=3000"]
COUNTS = ["vcpu A begun=4 judged=4 short=1 over=1 least_ns=2000 most_ns=4000",
          "vcpu B begun=4 judged=4 short=0 over=0 least_ns=6000 most_ns=8000"]


def lines_of(judged, parts):
    """What `tally` tells of a trace, by the plain judge, with each broken period."""
    broken = sorted(judged.broken, key=lambda told: (told[0], list(parts).index(told[1])))
    yield from ["verdict=no"] if broken else ["verdict=yes", f"periods={len(judged.clear)}"]
    yield from (f"{kind} {vcpu} from_ns={at * 1000} got_ns={got * 1000} of_ns={parts[vcpu][2] * 1000}" for at, vcpu, kind, got in broken)
    for vcpu in parts:
        begun = [judged.got[period] * 1000 for period in judged.periods if period[0] == vcpu]
        clear = [judged.got[period] * 1000 for period in judged.clear if period[0] == vcpu]
        short, over = (sum(told[1:3] == (vcpu, kind) for told in broken) for kind in ("short", "over"))
        most = f"least_ns={min(clear, default='-')} most_ns={max(begun, default='-')}"
        yield f"vcpu {vcpu} begun={len(begun)} judged={len(clear)} short={short} over={over} {most}"


class Judge:
    """A program that answers `tally` of small traces by the plain judge, and `audit`; without `tally` where that is said, and with texts
    changed."""
    words = ["./rtadmit"]

    def __init__(self, parts, has_tally=True, change=lambda text: text):
        self.parts, self.has_tally, self.asked, self.change = parts, has_tally, [], change

    def ask(self, command, file, trace):
        if command == "tally" and not self.has_tally:
            return Answer(2, "usage: rtadmit\n")
        if not os.path.isfile(trace):
            return Answer(3, "fault=BadHeader row=1 file=2\n") if trace == os.devnull else Answer(5, "absent file=2\n")
        self.asked.append(pathlib.Path(trace).name)
        text = pathlib.Path(trace).read_text()
        text = text.replace("at_ns", "at").replace("000,", ",") if text.startswith("at_ns") else text
        lines = list(lines_of(test_split.Judged(text, self.parts), self.parts))
        counts = [line for line in lines if line.startswith("vcpu")] if command == "tally" else []
        return Answer(int(lines[0] == "verdict=no"), self.change("\n".join([*lines[:2], *counts]) + "\n"))

    def admit(self, system):
        return Answer(0, "verdict=yes\npart A period=10 budget=3 computed\n")


class Case(support.Case):
    def setUp(self):
        super().setUp()
        self.system, self.pieces = self.folder / "system.toml", self.folder / "out"

    def cut(self, text, parts, microseconds):
        """Cuts a text, beside its system file."""
        self.system.write_text(test_split.system_of(parts))
        return test_split.cut(text, parts, microseconds, self.pieces)

    def answered(self, judge, *words):
        """The status, the lines, and what was complained of."""
        with mock.patch.object(tool, "program_of", lambda _: judge):
            status, out, err = self.ran("host", "audit-all", self.system, *(words or [self.pieces]))
        return status, out.splitlines(), err

    def whole(self, text, parts):
        """The status and the lines that are to be told of a recording."""
        lines = list(lines_of(test_split.Judged(text, parts), parts))
        return int(lines[0] == "verdict=no"), lines


class Pieces(Case):
    def test_by_hand(self):
        self.cut(TEXT, PARTS, 20)
        self.assertEqual(self.answered(Judge(PARTS)), (1, [*BROKEN, *COUNTS], ""))
        without = "not asked: this program has no `tally`: of each piece the first broken period is told\n"
        self.assertEqual(self.answered(Judge(PARTS, has_tally=False)), (1, BROKEN, without))
        # a budget that is computed is the program's
        self.system.write_text(self.system.read_text().replace("budget = 3\n", ""))
        self.assertEqual(self.answered(Judge(PARTS))[1], [*BROKEN, *COUNTS])

    def test_nanoseconds(self):
        """Counted from the start of a recording on, which is no multiple of a thousand."""
        self.system.write_text(test_split.system_of(PARTS))
        rows = " ".join(f"{int(at) * 1000 + 5},{rest}" for at, rest in (row.split(",", 1) for row in ROWS.split()))
        words = [self.file("trace.csv", trace(rows, "at_ns")), self.pieces, "--system", self.system, "--seconds=0.00002"]
        self.assertEqual(run("host", "split", *words)[0], 0)
        later = [line.replace("000 got", "005 got") for line in BROKEN]
        self.assertEqual(self.answered(Judge(PARTS)), (1, [*later, *COUNTS], ""))

    def test_random_recordings_are_answered_as_the_whole(self):
        """By the plain judge, and by the program where there is one."""
        for seed in range(12):
            rng = random.Random(seed)
            parts = test_split.random_parts(rng)
            text = test_split.random_trace(parts, rng)
            for microseconds in (20, 150):
                self.cut(text, parts, microseconds)
                for judge in (Judge(parts), *[Program([program()])] * (program() is not None and microseconds == 150)):
                    self.assertEqual(self.answered(judge, self.pieces, "--jobs=2"), (*self.whole(text, parts), ""), (seed, microseconds))
                shutil.rmtree(self.pieces)

    def test_the_names_in_any_order(self):
        names = [str(path) for path in self.cut(TEXT, PARTS, 10)]
        for some in (names, names[::-1], names[1:2]):
            judge = Judge(PARTS)
            with mock.patch("sys.stdin", io.StringIO("".join(f"{name}\n" for name in some))):
                self.assertEqual(self.answered(judge, "-")[:2], self.whole(TEXT, PARTS))
            self.assertEqual(sorted(judge.asked), sorted(pathlib.Path(name).name for name in names))

    @needs_program
    def test_with_the_program(self):
        """The recording of examples/linux in pieces of a tenth of a second, and a minute of 24 VCPUs in pieces of 7: verdict, first broken
        period and counts are those of the whole, and each broken period those that are worked out by hand."""
        self.system.write_text(recordings.system())
        minute = self.file("minute.csv", "".join(recordings.rows(60)))
        for file, recording, seconds, told in (
            (LINUX / "reserved.toml", LINUX / "trace.csv", "0.1", None), (LINUX / "overrun.toml", LINUX / "trace.csv", "0.1", None),
            (self.system, minute, "7", list(recordings.told(60))),
        ):
            with tempfile.TemporaryDirectory() as folder:
                run("host", "split", recording, folder, "--system", file, "--seconds", seconds)
                status, out, _ = run("host", "audit-all", file, folder, "--program", program())
                whole, lines = Program([program()]).ask("tally", file, recording), out.splitlines()
                told_once = [*lines[:2], *(line for line in lines[2:] if line.startswith("vcpu"))]
                self.assertEqual((status, told_once), (whole.status, whole.lines))
                self.assertEqual(lines, told or lines)


class Elsewhere(Case):
    def test_the_lines_for_parallel(self):
        """Run by a shell, they keep the answers, which are taken in place of asking."""
        self.cut(TEXT, PARTS, 20)
        answers = [Judge(PARTS).ask("tally", "", self.pieces / f"piece-00000{at}.csv") for at in (1, 2)]
        cases = "".join(f"*{at}.csv) printf '%s' '{answer.text}'; exit {answer.status} ;;\n" for at, answer in enumerate(answers, 1))
        asked = self.script(f"case $3 in\n{cases}esac\nexit 3", "a program")
        status, out, _ = run("host", "audit-all", f"--program='{asked}'", self.system, self.pieces, "--parallel")
        self.assertEqual((status, len(out.splitlines())), (0, 2))
        self.assertIn(f"'{asked}' tally {self.system} {self.pieces}/piece-000001.csv >{self.pieces}/piece-000001.csv.told; echo", out)
        subprocess.run(["sh"], input=out, text=True, check=True)
        self.assertEqual(self.answered(Judge(PARTS), self.pieces, "--told"), (*self.whole(TEXT, PARTS), ""))
        told = self.pieces / "piece-000002.csv.told"
        told.write_text(told.read_text().rsplit("status")[0])
        cause = "out/piece-000002.csv.told: no whole answer about the piece as it stands\n"
        self.assertEqual(self.answered(Judge(PARTS), self.pieces, "--told"), (3, [], cause))

    def test_while_the_recording_goes_on(self):
        """A piece is asked about before the name of the next one is there."""
        names, log = self.cut(TEXT, LOOSE, 20), self.folder / "log"
        count = "vcpu {0} begun={1} judged={1} short=0 over=0 least_ns=2000 most_ns=8000".format
        told = "\\n".join(["verdict=yes", "periods=4", count("A", 2), count("B", 2)])
        asked = self.script(f"[ $3 = /dev/null ] && exit 3\necho $3 >>{log}\nprintf '{told}\\n'")
        words = [top / "tools/host", "audit-all", self.system, "-", "--program", asked]
        with subprocess.Popen(words, text=True, stdin=subprocess.PIPE, stdout=subprocess.PIPE, stderr=subprocess.PIPE) as ran:
            ran.stdin.write(f"{names[0]}\n")
            ran.stdin.flush()
            until = time.monotonic() + 60
            while not log.exists() and time.monotonic() < until:
                time.sleep(0.02)
            early = log.read_text()
            out, err = ran.communicate(f"{names[1]}\n")
        self.assertEqual(early, f"{names[0]}\n")
        self.assertEqual((ran.returncode, out.splitlines()), (0, ["verdict=yes", "periods=8", count("A", 4), count("B", 4)]), err)

    def test_a_recording_that_is_cut_off(self):
        """In a row, or by the table: a no stands; where nothing is broken so far, that is no yes."""
        for torn in (TEXT.rsplit("40,,end,", 1)[0] + "39,cpu0,st", TEXT[:-12]):
            self.system.write_text(test_split.system_of(LOOSE))
            words = [self.file("trace.csv", torn), self.pieces, "--system", self.system, "--seconds", "0.00002"]
            status, _, err = run("host", "split", *words)
            self.assertEqual((status, "(pieces that were whole before, and are kept: 1)" in err), (1, True))
            self.assertEqual(self.answered(Judge(LOOSE))[:2], (3, [
                "verdict=unknown", "periods=4", "vcpu A begun=2 judged=2 short=0 over=0 least_ns=2000 most_ns=3000",
                "vcpu B begun=2 judged=2 short=0 over=0 least_ns=7000 most_ns=8000"]))
            shutil.rmtree(self.pieces)
        self.cut(TEXT, PARTS, 20)
        table = self.pieces / "table.csv"
        table.write_text(table.read_text().rsplit("end,", 1)[0])
        status, lines, err = self.answered(Judge(PARTS))
        self.assertEqual(((status, lines), "the recording was cut off, or is still being cut" in err), (self.whole(TEXT, PARTS), True))
        self.system.write_text(test_split.system_of(LOOSE))
        status, lines, _ = self.answered(Judge(LOOSE))
        self.assertEqual((status, lines[:2]), (3, ["verdict=unknown", "periods=8"]))


class Refusals(Case):
    def is_refused(self, cause, change=lambda text: text):
        self.no(cause, self.answered(Judge(PARTS, change=change)), status=3)

    def test_answers_and_tables_that_do_not_fit(self):
        self.cut(TEXT, PARTS, 20)
        first, table = "out/piece-000001.csv: ", self.pieces / "table.csv"
        told = "the broken periods that are found in it are not those that the program tells: short A from_ns=10000"
        for old, new, cause in (
            ("A begun=2", "A begun=1", "the program counts 1 periods of A, and the table has 2"), ("short=1", "short=2", told),
            ("vcpu B", "vcpu C", "the program does not count each part that stands on a core"), ("got_ns=2000", "got_ns=1000", told),
        ):
            self.is_refused(first + cause, lambda text: text.replace(old, new))
        good = table.read_text()
        for text, cause in (
            ("piece\n", "table.csv:1: no table of tools/host split"),
            (good.replace(",0,20000,", ",x,20000,", 1), "table.csv:2: no row of a table"),
            (good.replace(",A,0,2", ",A,0"), "table.csv:2: no row of a table"),
            (good + "end,,,40000,,,\n", "table.csv:7: a row behind the last one"),
            (good.replace("000001.csv,0,20000,20000,B", "000001.csv,0,20000,20000,A"), "table.csv:3: another row of A"),
        ):
            table.write_text(text)
            self.is_refused(cause)
        table.write_text(good)
        (self.pieces / "piece-000001.csv").unlink()
        self.is_refused(f"{first}the program does not judge it: absent file=2 (status 5)")
        table.unlink()
        self.is_refused("out/table.csv: No such file or directory")
        for words in ([self.pieces, "--jobs=0"], [self.pieces, "--parallel", "--told"], ["-", "--told"]):
            self.assertEqual(self.answered(Judge(PARTS), *words)[0], 2)
