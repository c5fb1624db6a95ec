"""Tests of tools/host timeline: what it tells of each period, traces that are too dense for boxes, and what it refuses."""
import itertools
import re
import resource
import subprocess
import sys

import support
from support import needs_program, program, run, system, texts, top, trace, verb

tool = verb("host", "timeline")


class Case(support.Case):
    def drawn(self, rows, *words, parts=None, unit="at", program=None):
        """The status of a run over rows, the texts of the picture, and what standard error has."""
        recording = self.file("trace.csv", trace(rows, unit))
        if parts:
            text = system("cpu0 edf", *(f"{name} cpu0 edf {given} t:100000000:1" for name, given in parts.items()))
            words = [*words, f"--system={self.file('system.toml', text)}"]
        status, self.picture, err = self.ran("host", "timeline", recording, *words)
        return status, texts(self.picture), err

    def periods(self, rows, *words, **more):
        """What is told of the periods, in a line."""
        status, told, err = self.drawn(rows, *words, **more)
        self.assertEqual((status, err), (0, ""))
        return ", ".join(text for text in told if "/" in text and "below" not in text)


ROWS = (
    "0,cpu0,start,A 0,cpu0,start,B 0,cpu0,run,A 30,cpu0,run,B 70,cpu0,run,A 130,cpu0,run,B 150,cpu0,stop, 150,cpu0,block,B 150,cpu0,run,A "
    "180,cpu0,wake,B 180,cpu0,run,B 200,cpu0,run,A 230,cpu0,run,B 280,cpu0,run,A 300,cpu0,run,B 340,cpu0,run,A 360,cpu0,stop, 450,,end,")
ONE = "0,cpu0,start,A 0,cpu0,run,A 60,cpu0,stop, 100,,end,"
TURNS = " ".join(["0,cpu0,start,A", *(f"{100 * i},cpu0,run,A {100 * i + 20},cpu0,stop," for i in range(20)), "2000,,end,"])
LONG = "0,cpu0,start,A 900000000,cpu0,run,A 900000007,cpu0,stop, 900000100,,end,"
SLEEPS = "0,cpu0,start,A 0,cpu0,start,B 0,cpu0,start,C 0,cpu0,run,A 0,cpu0,block,B 1000000000,,end,"


class Periods(Case):
    def test_what_each_period_got(self):
        for told, rows, parts, *words in (
            # A had 60, 60, 50 and 20 of its 30 with leave for more; B 40, 40 while it was blocked, 50 and 40. The fifth is cut
            ("60/30, 60/30, 50/30, 20/30 short, 0/30 so far, 40/40, 40/40, 50/40 over, 40/40, 0/40 so far", ROWS,
             {"A": "100/30 extra", "B": "100/40"}),
            ("20/20, 20/20, 20/20, 20/20", TURNS, {"A": "100/20"}, "--from=350", "--until=620"),
            # a run and a sleep of 90 million periods before what is drawn, and as much behind it, and a start long before it
            (", ".join(["10/3 over"] * 5 + ["0/3"] * 5 + ["0/1 short"]), SLEEPS, {"A": "10/3", "B": "10/3", "C": "500000000/1"},
             "--from=399999985", "--until=400000025"),
            (", ".join(["0/3 short"] * 2 + ["7/3"] + ["0/3 short"] * 9), LONG, {"A": "10/3 extra"}, "--from=899999980"),
        ):
            self.assertEqual(self.periods(rows, *words, parts=parts), told)
        told = self.drawn(ONE.replace("60,", "60000,").replace("100,", "100000,"), parts={"A": "100/30"}, unit="at_ns")[1]
        self.assertLessEqual({"60000/30000 over", "30000 of 100000"}, set(told))

    def test_the_picture_of_the_pages(self):
        for of, picture, words in (
            ("docs/pictures/timeline.csv", "docs/pictures/timeline.svg", [f"--system={top / 'docs/pictures/timeline.toml'}"]),
            ("examples/linux/trace.csv", "examples/linux/timeline.svg",
             [f"--system={top / 'examples/linux/reserved.toml'}", "--until=160000"]),
        ):
            self.assertEqual(run("host", "timeline", top / of, *words), (0, (top / picture).read_text(), ""))

    def test_around_a_period(self):
        """Five periods, of which the middle one is framed, by the words of the audit's answer; at the start three."""
        told = self.drawn(TURNS, "--around=A@700000", parts={"A": "100/20"})[1]
        self.assertEqual((told.count("20/20"), {"500", "1000"} - set(told)), (5, set()))
        self.assertRegex(self.picture, rf'<rect x="{96 + 880 * 2 / 5:.2f}" [^>]*stroke-dasharray')
        self.assertEqual(self.periods(TURNS, "--around=A@0", parts={"A": "100/20"}), "20/20, 20/20, 20/20")

    def test_a_budget_that_is_left_out(self):
        """It is asked of the program, where it is not given."""
        asked = f"--program={self.answering(f'verdict=yes{chr(10)}part A period=100 budget=45 computed{chr(10)}')}"
        self.assertEqual(self.periods(ONE, asked, parts={"A": "100"}), "60/45 over")
        self.assertEqual(self.periods(ONE, asked, "--budget=A=70", parts={"A": "100"}), "60/70 short")
        self.answering("verdict=no\noverfull part A at=7\n", 1)
        status, told, err = self.drawn(ONE, asked, parts={"A": "100"})
        self.assertEqual((status, err), (0, "system.toml: admit gives no budgets: verdict=no overfull part A at=7 (status 1)\n"))
        self.assertIn("60/?", told)

    @needs_program
    def test_with_the_program(self):
        """A task of 1 in every hundred million slots needs one slot of every 100."""
        self.assertEqual(self.periods(ONE, f"--program={program()}", parts={"A": "100"}), "60/1 over")


class Dense(Case):
    """Traces with more periods and spans than pixels."""

    def busy(self, count, names, period=1000):
        """A core that is never idle, on which each VCPU has its turn in each period."""
        turn = period // len(names)
        turns = [f"{place * period + i * turn},cpu0,run,{name}" for place in range(count) for i, name in enumerate(names)]
        return " ".join([*(f"0,cpu0,start,{name}" for name in names), *turns, f"{count * period},,end,"])

    def test_a_busy_core_is_drawn_as_busy(self):
        self.drawn(self.busy(5000, "ABCD"))
        heights = {}
        for path in re.findall(r'<path d="([^"]*)"', self.picture)[:4]:
            for x, height in re.findall(r"M([\d.]+) [\d.]+h2v([\d.]+)h-2z", path):
                heights[x] = heights.get(x, 0) + float(height)
        self.assertEqual(len(heights), 440)
        self.assertTrue(all(abs(height - 30) < 0.1 for height in heights.values()), set(heights.values()))

    def test_what_is_told_of_a_band(self):
        told = self.drawn(self.busy(5000, "AB"), parts={"A": "1000/600", "B": "1000/400"})[1]
        for text in ("600 of 1000", "got 500 to 500", "5000 short, 0 over", "400 of 1000", "0 short, 5000 over"):
            self.assertIn(text, told)
        # 4400 periods of 10 in 440 columns: in the first column the ten periods got 1 to 10, in the others 5 each
        runs = " ".join(f"{10 * at},cpu0,run,A {10 * at + (at + 1 if at < 10 else 5)},cpu0,stop," for at in range(4400))
        told = self.drawn(f"0,cpu0,start,A {runs.replace('100,cpu0,stop, 100', '100')} 44000,,end,", parts={"A": "10/5 extra"})[1]
        self.assertEqual([text for text in told if text.startswith("got") or " short," in text], ["got 1 to 10", "4 short, 0 over"])
        # a period of 3 pixels is a box, and one of less is in a band
        for length, is_band in ((880, False), (881, True)):
            told = self.drawn(f"0,cpu0,start,A {length},,end,", parts={"A": "3/1"})[1]
            self.assertEqual(any(text.startswith("got ") for text in told), is_band)

    def test_ten_thousand_periods_of_eight_vcpus(self):
        """Within 5 seconds of processor time."""
        names = [f"vcpu{i}" for i in range(8)]
        before = resource.getrusage(resource.RUSAGE_SELF).ru_utime
        told = self.drawn(self.busy(10_000, names), parts=dict.fromkeys(names, "1000/125"))[1]
        self.assertLess(resource.getrusage(resource.RUSAGE_SELF).ru_utime - before, 5)
        self.assertLess(len(self.picture), 1_000_000)
        self.assertEqual(told.count("got 125 to 125"), 8)

    def test_long_texts_fit(self):
        """Names of 32 letters; and the words of the scale do not run into each other."""
        name = "W" * 32
        self.drawn(f"0,cpu0,start,{name} 10,,end,", parts={name: "10/3"})
        found = re.search(rf'<text x="([\d.]+)" [^>]*font-family="monospace">{name}</text>', self.picture)
        self.assertGreaterEqual(float(found[1]), 32 * 0.602 * 12)
        self.drawn("0,cpu0,start,A 999999999999,,end,", unit="at_ns")
        marks = re.findall(r'<text x="([\d.]+)" y="24" text-anchor="middle"[^>]*>(\d+)</text>', self.picture)
        self.assertGreater(len(marks), 3)
        for (first, text), (second, other) in itertools.pairwise(marks):
            self.assertGreater(float(second) - float(first), 6.4 * (len(text) + len(other)) / 2)


# the colours as they are seen by all, without the red and without the green cones (matrices of Machado, Oliveira and Fernandes, 2009)
SEEN = (
    ((1, 0, 0), (0, 1, 0), (0, 0, 1)),
    ((0.152286, 1.052583, -0.204868), (0.114503, 0.786281, 0.099216), (-0.003882, -0.048116, 1.051998)),
    ((0.367322, 0.860646, -0.227968), (0.280085, 0.672501, 0.047413), (-0.011820, 0.042940, 0.968881)),
)


class Colours(Case):
    """How far the colours are apart in CIE L*a*b*. About 2 is a difference that can just be seen."""

    @staticmethod
    def seen(colour, matrix):
        values = [int(colour[place:place + 2], 16) / 255 for place in (1, 3, 5)]
        linear = [value / 12.92 if value <= 0.04045 else ((value + 0.055) / 1.055) ** 2.4 for value in values]
        red, green, blue = (min(1, max(0, sum(a * b for a, b in zip(row, linear)))) for row in matrix)
        root = lambda value: value ** (1 / 3) if value > 0.008856 else 7.787 * value + 16 / 116
        x = root((0.4124 * red + 0.3576 * green + 0.1805 * blue) / 0.95047)
        y = root(0.2126 * red + 0.7152 * green + 0.0722 * blue)
        z = root((0.0193 * red + 0.1192 * green + 0.9505 * blue) / 1.08883)
        return 116 * y - 16, 500 * (x - y), 200 * (y - z)

    def apart(self, first, second):
        """The least distance of two colours, over all who look."""
        return min(sum((a - b) ** 2 for a, b in zip(self.seen(first, matrix), self.seen(second, matrix))) ** 0.5 for matrix in SEEN)

    def test_all_are_told_apart(self):
        """Of the cores, of what is marked, and of both and the ground. The red and green of before were not."""
        of_cores, marked = tool.COLOURS, tool.COLOUR_OF.values()
        for pairs, least in ((itertools.combinations(of_cores, 2), 25), (itertools.combinations(marked, 2), 25),
                             (itertools.product(of_cores, [*marked, "#ffffff"]), 15)):
            for first, second in pairs:
                self.assertGreater(self.apart(first, second), least, (first, second))
        self.assertLess(self.apart("#76b7b2", "#86bcb6"), 15)


class Refusals(Case):
    def test_what_is_refused(self):
        """Rows that break the rules, as tools/host split refuses them, which its tests go through; here the VCPUs and cores are those that
        the trace names."""
        start, end, part = "0,cpu0,start,A", "9,,end,", {"A": "100/20"}
        for cause, rows, *words in (
            *((f"trace.csv:3: {cause}", f"{start} {row} {end}") for cause, row in (
                ("WrongCore: A stands on cpu0", "5,cpu1,run,A"), ("BadRow: a line of more than", "5,cpu0,run," + "A" * 140_000))),
            ("trace.csv:2: NotStarted: A was not started", f"5,cpu0,run,A {end}"), ("trace.csv: its last row is no `end`", start),
            ("/nowhere/system.toml: No such file or directory\n", end, "--system=/nowhere/system.toml"),
            ("nothing is between", TURNS, "--from=2000"), ("nothing is between", TURNS, "--from=500", "--until=500"),
            ("--around needs the system file", TURNS, "--around=A@700000"),
        ):
            self.no(cause, self.drawn(rows, *words))
        self.no("more than 3000000 periods of A", self.drawn("0,cpu0,start,A 900000000,,end,", parts=part))
        self.assertEqual(self.drawn(ONE, "--budget=C=7", parts=part)[::2], (1, "system.toml: it has no part C\n"))
        self.refused("no system file", "host", "timeline", self.folder / "trace.csv", f"--system={self.file('bad', '[[part]]')}")
        self.refused("trace.csv:1: BadHeader", "host", "timeline", self.file("trace.csv", "at,core,event,vcpu\n0,,end,\n"))
        for words in (["--around=A@1", "--from=1"], ["--around=A"], ["--budget=A=1"], ["--budget=A"]):
            self.assertEqual(self.drawn(ONE, *words, parts=part if words == ["--budget=A"] else None)[0], 2)

    def test_what_the_format_lets_pass(self):
        """Quotes, line ends of both kinds, empty lines, and a byte order mark; and a pipe."""
        text = '\ufeffat,core,what,vcpu\r\n\r\n0,"cpu0",start,A\r\n5,cpu0,run,A\n6,cpu0,run,A\n\n9,,end,\r\n\r\n'
        ended = subprocess.run([sys.executable, "-B", str(top / "tools/host"), "timeline", "-"], input=text.encode(), capture_output=True)
        self.assertEqual((ended.returncode, ended.stderr), (0, b""))
        self.assertIn(b">A</text>", ended.stdout)
