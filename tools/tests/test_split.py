"""Tests of tools/host split: random traces, whole and in pieces, by a plain judge that stands here (the tests of tools/host audit-all ask
the program too); the seams by hand; memory; a recording that goes on or is cut off; and refusals."""
import csv
import io
import os
import pathlib
import random
import subprocess
import sys
import tempfile
import unittest

import support
from support import needs_program, peak, program, run, top, trace, verb

tool = verb("host", "split")
FRONT = "at,core,what,vcpu\n"


# A plain judge, moment by moment


class Walk:
    """The host of a trace, row by row; a row that breaks a rule is an error."""

    def __init__(self):
        self.starts, self.blocked, self.holders = {}, set(), {}

    def act(self, at, core, what, vcpu):
        started, holds = vcpu in self.starts, self.holders.get(core) == vcpu
        keeps = {
            "start": not started, "wake": vcpu in self.blocked, "block": started and vcpu not in self.blocked and not holds,
            "run": started and vcpu not in self.blocked, "stop": self.holders.get(core) is not None,
        }
        assert keeps[what], (at, core, what, vcpu)
        if what == "start":
            self.starts[vcpu] = at
        elif what == "wake":
            self.blocked.remove(vcpu)
        elif what == "block":
            self.blocked.add(vcpu)
        else:
            self.holders[core] = vcpu if what == "run" else None


class Judged:
    """What a trace in microseconds is judged: how many periods, and which are broken how. `parts` has for each VCPU its core, its period,
    its budget, and whether it has extra time."""

    def __init__(self, text, parts):
        header, *lines = text.splitlines()
        assert header == "at,core,what,vcpu", header
        *rows, (self.end, *_) = [(int(at), *rest) for at, *rest in csv.reader(lines)]
        self.got, self.slept, self.starts = {}, set(), {}
        self.count(rows, parts)
        self.periods = [(vcpu, k) for vcpu in self.starts for k in range(self.end) if self.starts[vcpu] + k * parts[vcpu][1] < self.end]
        self.clear = [p for p in self.periods if self.begins(parts, *p) + parts[p[0]][1] <= self.end and p not in self.slept]
        self.broken = sorted(self.breaches(parts))

    def count(self, rows, parts):
        walk, rows = Walk(), list(rows)
        assert [row[0] for row in rows] == sorted(row[0] for row in rows)
        for moment in range(self.end):
            while rows and rows[0][0] <= moment:
                walk.act(*rows.pop(0))
            for vcpu, start in walk.starts.items():
                period = vcpu, (moment - start) // parts[vcpu][1]
                self.got[period] = self.got.get(period, 0) + (walk.holders.get(parts[vcpu][0]) == vcpu)
                if vcpu in walk.blocked:
                    self.slept.add(period)
        self.starts = {vcpu: start for vcpu, start in walk.starts.items() if start < self.end}
        for row in rows:
            assert row[0] == self.end
            walk.act(*row)

    def begins(self, parts, vcpu, k):
        return self.starts[vcpu] + k * parts[vcpu][1]

    def breaches(self, parts):
        for vcpu, k in self.periods:
            _, _, budget, extra = parts[vcpu]
            if (vcpu, k) in self.clear and self.got[vcpu, k] < budget:
                yield self.begins(parts, vcpu, k), vcpu, "short", self.got[vcpu, k]
            if not extra and self.got[vcpu, k] > budget:
                yield self.begins(parts, vcpu, k), vcpu, "over", self.got[vcpu, k]


# Random hosts and traces


def random_parts(rng):
    cores = [f"c{i}" for i in range(rng.randint(1, 3))]
    periods = (1, 2, 7, 10, 20, 33, 60, 100)
    drawn = [(rng.choice(cores), rng.choice(periods)) for _ in range(rng.randint(1, 6))]
    return {f"v{i}": (core, period, rng.randint(1, max(1, period // 3)), rng.random() < 0.3) for i, (core, period) in enumerate(drawn)}


def moves(walk, parts, rng):
    """What may happen next, so that the rules are kept."""
    vcpu = rng.choice(list(parts))
    core = parts[vcpu][0]
    if vcpu not in walk.starts:
        return (core, "start", vcpu) if rng.random() < 0.5 else None
    if walk.holders.get(core) == vcpu and rng.random() < 0.6:
        return core, "stop", ""
    if vcpu in walk.blocked:
        return core, "wake", vcpu
    return core, "block" if walk.holders.get(core) != vcpu and rng.random() < 0.3 else "run", vcpu


def random_trace(parts, rng):
    """A trace that keeps the rules. Often several rows are at one moment, and now and then nothing happens for a while."""
    walk, at, lines = Walk(), rng.randint(0, 50), []
    for _ in range(rng.randint(0, 250)):
        at += rng.choice((0, 0, 1, 1, 2, 3, 5, 8)) if rng.random() < 0.98 else rng.randint(50, 400)
        row = moves(walk, parts, rng)
        if row:
            walk.act(at, *row)
            lines.append(f"{at},{','.join(row)}")
    return trace(" ".join([*lines, f"{at + rng.choice((0, 1, 20, 150))},,end,"]))


# What is cut


def system_of(parts):
    """The text of a system file of these parts."""
    cores = sorted({part[0] for part in parts.values()})
    return support.system(*(f"{core} edf" for core in cores), *(
        f"{name} {core} edf {period}/{budget} {'extra' * extra} t:1000000:1" for name, (core, period, budget, extra) in parts.items()))


def cut(text, parts, microseconds, folder, room=tool.MOST_BYTES):
    """Cuts a text into pieces of at most so many bytes. The names that were told."""
    told, cores = [], sorted({part[0] for part in parts.values()})
    named = cores, [(name, part[0], part[1]) for name, part in parts.items()]
    tool.split("trace", io.StringIO(text), named, microseconds * 1000, folder, told.append, room)
    return told


def table_of(folder):
    """The table without its last row, moments in microseconds, and the end that its last row tells."""
    with open(folder / "table.csv", newline="") as file:
        *rows, last = csv.DictReader(file)
    assert last.pop("piece") == "end" and not last["vcpu"]
    for row in rows:
        row.update({key: int(row[key]) // 1000 for key in ("from_ns", "to_ns", "end_ns", "first_ns")}, periods=int(row["periods"]))
    return rows, int(last["end_ns"]) // 1000


def pieces_of(folder):
    """The pieces that the table tells: the recording's moment of the moment 0 of each, and its text."""
    found = {row["piece"]: row["from_ns"] for row in table_of(folder)[0]}
    assert {"table.csv", *found} == set(os.listdir(folder))
    return [(since, (folder / name).read_text()) for name, since in sorted(found.items())]


class Random(unittest.TestCase):
    def test_each_period_is_judged_once_and_as_in_the_whole(self):
        """The same periods are judged and the same are broken, whole and in pieces; and a piece has no others, but for such as sleep."""
        broken = cut_up = 0
        for seed in range(70):
            rng = random.Random(seed)
            parts = random_parts(rng)
            text = random_trace(parts, rng)
            length, room = rng.choice((7, 40, 100, 101, 350, 5000)), rng.choice((tool.MOST_BYTES, 2500))
            with tempfile.TemporaryDirectory() as made, self.subTest(seed=seed, length=length, room=room):
                folder = pathlib.Path(made)
                told = cut(text, parts, length, folder, room)
                whole, pieces, (rows, end) = Judged(text, parts), pieces_of(folder), table_of(folder)
                self.assertEqual({path.name for path in told}, {row["piece"] for row in rows})
                self.each_period_is_told_once(parts, whole, rows, end)
                found, judged = [], 0
                for (since, piece), name in zip(pieces, sorted({row["piece"] for row in rows})):
                    self.assertLessEqual(len(piece), room)
                    part = Judged(piece, parts)
                    judged += len(part.clear)
                    found += [(at + since, *rest) for at, *rest in part.broken]
                    self.others_sleep(part, [row for row in rows if row["piece"] == name])
                self.assertEqual((sorted(found), judged), (whole.broken, len(whole.clear)))
            broken, cut_up = broken + len(whole.broken), cut_up + (len(pieces) > 1)
        self.assertGreater(broken, 1000)
        self.assertGreater(cut_up, 45)

    def each_period_is_told_once(self, parts, whole, rows, end):
        """The table has each period of a trace once, and where it says."""
        told = []
        for row in rows:
            period = parts[row["vcpu"]][1]
            begins = [row["first_ns"] + k * period for k in range(row["periods"])]
            told += [(row["vcpu"], at) for at in begins]
            self.assertLessEqual(row["from_ns"], begins[0])
            self.assertLess(begins[-1], row["to_ns"])
            self.assertLessEqual(min(begins[-1] + period, end), row["end_ns"])
        self.assertEqual((end, sorted(told)), (whole.end, sorted((vcpu, whole.begins(parts, vcpu, k)) for vcpu, k in whole.periods)))

    def others_sleep(self, part, rows):
        had = {row["vcpu"]: (row["first_ns"] - row["from_ns"], row["periods"]) for row in rows}
        for vcpu, k in part.periods:
            self.assertEqual(part.starts[vcpu], had[vcpu][0])
            if k >= had[vcpu][1]:
                self.assertEqual(((vcpu, k) in part.slept, part.got[vcpu, k]), (True, 0))


AB = {"A": ("cpu0", 10, 3, False), "B": ("cpu0", 4, 2, True)}
CARRIED = trace(
    "2,cpu0,start,A 3,cpu0,start,B 3,cpu0,block,B 4,cpu0,run,A 18,cpu0,run,A 20,cpu0,stop, 21,cpu0,wake,B 24,cpu0,run,B 31,,end,")
CARRIED_OVER = [
    # the first stretch is [2, 14): A leaves its piece at 22, and B, blocked, at 15
    (2, "0,cpu0,start,A 1,cpu0,start,B 1,cpu0,block,B 2,cpu0,run,A 16,cpu0,run,A 18,cpu0,stop, 20,cpu0,block,A 20,,end,"),
    # B goes over to it at 15, blocked, and leaves it at 27 with the core; A, which came at 22, stays up to the end
    (14, "1,cpu0,start,B 1,cpu0,block,B 7,cpu0,wake,B 8,cpu0,start,A 10,cpu0,run,B 13,cpu0,stop, 13,cpu0,block,B 17,,end,"),
    (26, "1,cpu0,start,B 1,cpu0,run,B 5,,end,"),
]
# rows, the length of a stretch, and the rows of each piece behind its moment 0
SEAMS = (
    # a VCPU goes over before the rows of that moment
    ("0,cpu0,start,A 0,cpu0,run,A 10,cpu0,stop, 10,cpu0,block,A 20,,end,", 10, [
        (0, "0,cpu0,start,A 0,cpu0,run,A 10,cpu0,stop, 10,cpu0,block,A 10,,end,"),
        (10, "0,cpu0,start,A 0,cpu0,run,A 0,cpu0,stop, 0,cpu0,block,A 10,,end,")]),
    # nothing begins at the end
    ("0,cpu0,start,A 10,,end,", 10, [(0, "0,cpu0,start,A 10,,end,")]), ("10,cpu0,start,A 10,,end,", 10, []), ("10,,end,", 10, []),
    # who starves without an event has its periods in pieces
    ("0,cpu0,start,A 75,,end,", 20, [*((since, "0,cpu0,start,A 20,cpu0,block,A 20,,end,") for since in (0, 20, 40)),
                                     (60, "0,cpu0,start,A 15,,end,")]),
    # a core idles in a piece while a VCPU of another piece has it; A is in the second from 10 on and B from 9 on, up to 17
    ("0,cpu0,start,A 1,cpu0,start,B 9,cpu0,run,B 11,cpu0,run,A 13,cpu0,run,B 14,cpu0,stop, 16,,end,", 8, [
        (0, "0,cpu0,start,A 1,cpu0,start,B 9,cpu0,block,B 10,cpu0,block,A 10,,end,"),
        (8, "1,cpu0,start,B 1,cpu0,run,B 2,cpu0,start,A 3,cpu0,run,A 5,cpu0,run,B 6,cpu0,stop, 8,,end,")]),
    # traces one behind another: each VCPU starts anew in the next one; of one without an end the piece that is whole is kept
    *((f"{front}at,core,what,vcpu 40,cpu0,start,A 45,cpu0,run,A 60,,end,", 10, [
        *first, (40, "0,cpu0,start,A 5,cpu0,run,A 10,cpu0,stop, 10,cpu0,block,A 10,,end,"), (50, "0,cpu0,start,A 0,cpu0,run,A 10,,end,")])
      for front, first in (
        ("0,cpu0,start,A 13,cpu0,run,A 15,,end, ", [(0, "0,cpu0,start,A 10,cpu0,block,A 10,,end,"),
                                                    (10, "0,cpu0,start,A 3,cpu0,run,A 5,,end,")]),
        ("0,cpu0,start,A 13,cpu0,run,A 15,cpu0,stop, ", [(0, "0,cpu0,start,A 10,cpu0,block,A 10,,end,")]), ("", []))),
)


class Seams(support.Case):
    def pieces(self, text, microseconds, parts=None, room=tool.MOST_BYTES):
        with tempfile.TemporaryDirectory() as folder:
            cut(text, parts or AB, microseconds, pathlib.Path(folder), room)
            return [(since, " ".join(piece.splitlines()[1:])) for since, piece in pieces_of(pathlib.Path(folder))]

    def test_seams(self):
        for rows, length, pieces in SEAMS:
            with self.subTest(rows):
                self.assertEqual(self.pieces(trace(rows), length), pieces)
        with self.assertRaisesRegex(tool.Refused, "trace:5: TimeFalls"):
            self.pieces(trace("0,cpu0,start,A 50,,end, at,core,what,vcpu 40,cpu0,start,A 60,,end,"), 10)

    def test_a_period_that_begins_where_a_stretch_ends_is_in_the_next_one(self):
        """No period of A begins in [10, 20)."""
        self.assertEqual(self.pieces(trace("0,cpu0,start,A 0,cpu0,start,B 30,,end,"), 10, AB | {"A": ("cpu0", 20, 1, False)}), [
            (0, "0,cpu0,start,A 0,cpu0,start,B 12,cpu0,block,B 20,cpu0,block,A 20,,end,"),
            (10, "2,cpu0,start,B 10,cpu0,block,B 10,,end,"), (20, "0,cpu0,start,A 0,cpu0,start,B 10,,end,")])

    def test_a_stretch_ends_early_where_its_piece_is_half_full(self):
        runs = " ".join(f"{at},cpu0,run,A" for at in range(1, 90))
        found = self.pieces(trace(f"0,cpu0,start,A {runs} 90,,end,"), 1000, room=800)
        self.assertGreater(len(found), 2)
        self.assertTrue(all(len(FRONT + rows) < 800 for _, rows in found))

    def test_the_order_in_which_pieces_are_done_is_that_of_their_ends(self):
        parts = {"A": ("cpu0", 50, 1, False), "B": ("cpu0", 4, 1, False)}
        told = cut(trace("0,cpu0,start,A 0,cpu0,start,B 70,,end,"), parts, 10, self.folder / "out")
        self.assertEqual([path.name for path in told], [f"piece-{number:06d}.csv" for number in (2, 3, 4, 1, 5, 6, 7)])

    def test_nanoseconds_stay_nanoseconds(self):
        out = self.folder / "out"
        cut(trace("5,cpu0,start,A 4005,cpu0,run,A 20007,,end,", "at_ns"), AB, 10, out)
        wanted = trace("0,cpu0,start,A 0,cpu0,run,A 10000,cpu0,stop, 10000,cpu0,block,A 10000,,end,", "at_ns")
        self.assertEqual((out / "piece-000002.csv").read_text(), wanted)
        self.assertEqual((out / "table.csv").read_text().split()[1:], [
            "piece-000001.csv,5,10005,10005,A,5,1", "piece-000002.csv,10005,20005,20005,A,10005,1",
            "piece-000003.csv,20005,20007,20007,A,20005,1", "end,,,20007,,,"])

    def test_each_spelling_of_a_trace_is_read(self):
        """Quotes, ends of lines of three kinds, empty lines, and a byte order mark; of what is carried over by hand."""
        self.assertEqual(self.pieces(CARRIED, 12), CARRIED_OVER)
        spelt = "\ufeff" + CARRIED.replace("\n", "\r\n\n").replace("run,A", '"run","A"').replace("24,", '"24",')
        recording, file = self.file("trace", spelt.replace("wake,B\r\n", "wake,B\r")), self.file("system", system_of(AB))
        self.assertEqual(run("host", "split", recording, self.folder / "out", "--system", file, "--seconds=0.000012")[0], 0)
        self.assertEqual([(since, " ".join(text.splitlines()[1:])) for since, text in pieces_of(self.folder / "out")], CARRIED_OVER)

    def test_a_day_of_moments(self):
        parts = {"A": ("cpu0", 1_000_000, 5, False)}
        cut(trace("7,cpu0,start,A 86400000000,cpu0,run,A 86400000007,,end,"), parts, 900_000_000, self.folder)
        rows, end = table_of(self.folder)
        self.assertEqual((len(rows), end, {row["periods"] for row in rows}), (96, 86_400_000_007, {900}))
        self.assertTrue(all(row["end_ns"] - row["from_ns"] <= 901_000_000 for row in rows))

    def test_memory_does_not_grow_with_the_recording(self):
        """Of two VCPUs that run in turn; by 2 MB at most, where the recording has 2."""
        file = self.file("system", system_of(AB))
        lines = lambda rows: trace(" ".join(["0,cpu0,start,A 0,cpu0,start,B", *(f"{at},cpu0,run,{'AB'[at % 2]}" for at in range(rows)),
                                             f"{rows},,end,"]))
        few, many = (peak([lines(rows)], "split", "-", self.folder / f"out-{rows}", f"--system={file}", "--seconds=0.0005")
                     for rows in (2_000, 120_000))
        self.assertEqual(len(os.listdir(self.folder / "out-120000")), 241)
        self.assertLess(many, few + 1_000)


# the line at which a word of the page refuses rows
RULES = (
    ("AfterEnd", 3, "5,,end, 6,cpu0,stop,"), ("BadRow", 3, "0,cpu0,start,A 1,,run,A"), ("BadRow", 3, "0,cpu0,start,A 01,cpu0,run,A"),
    *(("BadRow", 3, f"0,cpu0,start,A 1{rest}") for rest in (",cpu0,runs,A", ",cpu0,run", ",cpu0,stop,A", ",cpu0,end,", ',cpu0,run,"A', "")),
    ("BadRow", 3, f"0,cpu0,start,A 1,cpu0,run,{'A' * 9000}"), ("BadRow", 3, "0,cpu0,start,A ١,cpu0,run,A"),
    ("OutOfRange", 3, "0,cpu0,start,A 1000000000000001,,end,"), ("OutOfRange", 3, "0,cpu0,start,A " + "9" * 40 + ",,end,"),
    ("OutOfRange", 3, "0,cpu0,start,A 20000000,,end,"), ("TimeFalls", 3, "5,cpu0,start,A 4,cpu0,run,A"),
    ("Unknown", 3, "0,cpu0,start,A 0,cpu9,run,A"), ("Unknown", 3, "0,cpu0,start,A 0,cpu0,start,inner"),
    ("Unknown", 3, "0,cpu0,start,A 0,cpu9,run,C"), ("WrongCore", 3, "0,cpu0,start,A 0,cpu1,run,A"),
    ("StartedTwice", 3, "0,cpu0,start,A 1,cpu0,start,A"),
    *(("NotStarted", 3, f"0,cpu0,start,A 0,cpu0,{what},B") for what in ("run", "wake", "block")),
    ("NotBlocked", 3, "0,cpu0,start,A 1,cpu0,wake,A"), ("NotRunnable", 4, "0,cpu0,start,A 1,cpu0,block,A 2,cpu0,run,A"),
    ("NotRunnable", 4, "0,cpu0,start,A 1,cpu0,block,A 2,cpu0,block,A"), ("StillRunning", 4, "0,cpu0,start,A 0,cpu0,run,A 2,cpu0,block,A"),
    ("CoreIdle", 3, "0,cpu0,start,A 1,cpu0,stop,"), ("NoEnd", 4, "0,cpu0,start,A 0,cpu0,run,A"),
)


class Refusals(support.Case):
    TWO = ("cpu0 edf", "cpu1 edf", "A cpu0 edf 10", "B cpu0 edf 10", "inner A edf 10")

    def setUp(self):
        super().setUp()
        self.out, self.system = self.folder / "out", self.file("system.toml", support.system(*self.TWO))

    def run_tool(self, text, seconds="0.00002"):
        """A run over a text into an empty folder."""
        for path in self.out.glob("*"):
            path.unlink()
        return self.ran("host", "split", self.file("trace.csv", text), self.out, "--system", self.system, "--seconds", seconds)

    def test_each_rule_by_its_line(self):
        texts = [(word, line, trace(rows)) for word, line, rows in RULES]
        texts += [("BadHeader", 1, "at,core,event,vcpu\n0,cpu0,start,A\n"), ("BadHeader", 1, ""),
                  ("StartedTwice", 4, f"{FRONT}\n0,cpu0,start,A\n1,cpu0,start,A\n"),
                  ("BadRow", 4, f"{FRONT}0,cpu0,start,A\n0,cpu0,run,A\rB\n")]
        for word, line, text in texts:
            with self.subTest(word=word, text=text[:80]):
                status, out, err = self.run_tool(text)
                self.assertEqual((status, out), (1, ""))
                self.assertTrue(err.startswith(f"trace.csv:{line}: {word}: "), err)
                self.assertEqual([path.name for path in self.out.glob("*")], [] if word == "BadHeader" else ["table.csv"])

    @needs_program
    def test_the_words_are_those_of_the_program(self):
        self.system.write_text(system_of({"A": ("cpu0", 10, 3, False), "B": ("cpu0", 10, 3, False)}))
        lines = "0,cpu0,start,A 0,cpu0,start,B 1,cpu0,run,A 2,cpu0,stop, 2,cpu0,block,A 3,cpu0,wake,A 4,,end,".split()
        for seed in range(40):
            rng = random.Random(seed)
            rows = rng.sample(lines, rng.randint(1, 7)) if seed % 2 else [*lines[:rng.randint(0, 7)], rng.choice(lines)]
            status, _, err = self.run_tool(trace(" ".join(rows)))
            asked = subprocess.run([program(), "audit", self.system, self.folder / "trace.csv"], capture_output=True, text=True)
            said = asked.stdout.split() if asked.returncode == 3 else []
            wanted = f"trace.csv:{said[1].removeprefix('row=')}: {said[0].removeprefix('fault=')}: " if said else ""
            self.assertEqual((status, err[:len(wanted)]), (int(bool(said)), wanted), rows)

    def test_words_and_files(self):
        text = trace("0,cpu0,start,A 9,,end,")
        for seconds, cause in (
            ("0.0000005", "--seconds is no whole number of microseconds, and the recording counts these"),
            ("999.999991", "a trace holds 1000 seconds, and the longest period has 1e-05: give at most 1000"),
        ):
            self.assertEqual(self.run_tool(text, seconds), (1, "", f"trace.csv: {cause}\n"))
            self.assertFalse(self.out.exists())
        for seconds in ("0", "-1", "1e3", "ten", "0.0"):
            self.assertEqual(self.run_tool(text, seconds)[0], 2)
        self.assertEqual(self.run_tool(text, "999.99999")[0], 0)
        self.refused("out: is not empty", "host", "split", self.folder / "trace.csv", self.out, "--system", self.system, "--seconds=1")
        for system, cause in (
            (support.system(*self.TWO).replace("period = 10", "period = 0", 1), "no system file, by what it has: the period of A is 0"),
            ("format = 1\n[[core]]\n", "no system file, by what it has: "), (None, "No such file or directory"),
        ):
            self.system.unlink() if system is None else self.system.write_text(system)
            self.assertTrue(self.run_tool(text)[2].startswith(f"system.toml: {cause}"))

    def test_a_period_that_no_piece_holds(self):
        cause = "trace:13: a period has more rows than a piece holds \\(pieces that were whole before, and are kept: 0\\)"
        with self.assertRaisesRegex(tool.Refused, cause):
            cut(trace("0,cpu0,start,A " + "1,cpu0,run,A " * 20 + "2,,end,"), AB, 10, self.out, 200)
        self.assertEqual(os.listdir(self.out), ["table.csv"])


class Pipe(support.Case):
    def test_a_piece_is_told_while_the_recording_goes_on(self):
        self.file("system.toml", support.system(*Refusals.TWO))
        words = [sys.executable, "-B", str(top / "tools/host"), "split", "-", "--system", "system.toml", "--seconds", "0.00002", "out"]
        pipes = dict.fromkeys(("stdin", "stdout", "stderr"), subprocess.PIPE)
        with subprocess.Popen(words, cwd=self.folder, text=True, **pipes) as ran:
            ran.stdin.write(f"{FRONT}0,cpu0,start,A\n5,cpu0,run,A\n25,cpu0,run,A\n")
            ran.stdin.flush()
            self.assertEqual(ran.stdout.readline(), "out/piece-000001.csv\n")
            self.assertEqual((self.folder / "out/piece-000001.csv").read_text().splitlines()[-1], "20,,end,")
            rest, complaint = ran.communicate("30,,end,\n")
        self.assertEqual((ran.returncode, rest, complaint), (0, "out/piece-000002.csv\n", ""))
        self.assertEqual(table_of(self.folder / "out")[1], 30)
