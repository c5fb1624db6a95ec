"""Tests of curves: what it marks, by numbers that are worked out by hand, what it refuses, and that its texts fit."""
import re
import time
import xml.dom.minidom

import support
from support import needs_program, program, run, system, texts, top

XEN = """verdict=yes
part Domain-0-0 period=10000 budget=4000 given
part audio-0 period=5000 budget=600 computed
witness audio-0 budget=599 start=599 span=20000 task=- replay=frame release=599 deadline=20599 got=1797 of=1800
part video-0 period=10000 budget=2858 computed
witness video-0 budget=2857 start=2857 span=80000 task=encode replay=encode release=2857 deadline=82857 got=7999 of=8000
"""
TASKS = "t1:50:7 t2:75:9"
LEAF, RATE, GIVEN = (system("cpu0 edf", f"leaf cpu0 {given} {TASKS}") for given in ("edf 10", "rm 10", "edf 10/3"))


def yes(budget, span=None, task="-", name="leaf", period=10, how="computed", witness=None):
    """A yes with a budget, and where a span is told the window in which a slot less is too few."""
    less = budget - 1 if witness is None else witness
    told = f"witness {name} budget={less} start={less} span={span} task={task} replay=skipped\n"
    return f"verdict=yes\npart {name} period={period} budget={budget} {how}\n" + told * bool(span)


class Case(support.Case):
    def drawn(self, text, name, answer, *words, status=0):
        """The status, the picture and standard error, with a program that answers so."""
        file, out = self.file("system.toml", text) if isinstance(text, str) else text, self.folder / "out.svg"
        out.unlink(missing_ok=True)
        ended, _, err = self.ran("host", "curves", file, name, out, "--program", self.answering(answer, status), *words)
        return ended, out.read_text() if out.exists() else None, err

    def tells(self, told, *given, **more):
        """A picture that has these texts."""
        ended, picture, err = self.drawn(*given, **more)
        self.assertEqual((ended, err), (0, ""))
        self.assertEqual(set(told) - set(texts(picture)), set())
        self.fits(picture)
        return picture

    def fits(self, picture):
        """Each text ends within the picture, with wide letters taken as wide."""
        top_node = xml.dom.minidom.parseString(picture).documentElement
        width, height = (float(top_node.getAttribute(key)) for key in ("width", "height"))
        for node in top_node.getElementsByTagName("text"):
            text, size, x = node.firstChild.data, float(node.getAttribute("font-size")), float(node.getAttribute("x"))
            long = size * sum(1 if letter in "MWmw" else 0.6 for letter in text)
            begin = {"start": x, "middle": x - long / 2, "end": x - long}[node.getAttribute("text-anchor")]
            inside = begin >= 0 and begin + long <= width or node.getAttribute("transform")
            self.assertTrue(inside and float(node.getAttribute("y")) <= height, text)


class Pictures(Case):
    def test_earliest_deadline_first(self):
        """The numbers are those that docs/use/certificate.md goes through by hand. Each step is drawn: the demand rises at 50 and 75 alone,
        from 0 to 7 and to 16."""
        picture = self.tells((
            "leaf", "period 10 µs, budget 3 µs (computed); earliest deadline first", "length of the window in slots (µs)",
            "least supply with a budget of 3; 19 in the marked window", "least supply with one slot less, 2; 12 in the marked window",
            "demand: work that must be done within a window; 16 in the marked window",
            "marked window of 75 slots: 4 missing with a budget of 2",
        ), LEAF, "leaf", yes(3, 75))
        self.assertFalse([text for text in texts(picture) if "close" in text])
        paths = re.findall(r'<path d="([^"]*)"', picture)
        self.assertEqual((len(paths), paths[-1].count("V"), paths[-1].count("H")), (3, 2, 3), paths)

    def test_fixed_priority(self):
        """Under rm the leaf needs 4 slots: the request of t2 is 16, then 23 from 51 on; with 4 slots it is met in 46. With each slot a task
        is done as soon as it and those above it are; of equals the first in the file is above."""
        self.tells((
            "period 10 µs, budget 4 µs (computed); rate monotonic, task t2", "least supply with a budget of 4; 27 in the marked window",
            "least supply with one slot less, 3; 19 in the marked window",
            "request of t2: its work and what ranks above it; 23 in the marked window",
            "marked window of 75 slots, by which the task must be done: 4 missing with a budget of 3",
            "first window in which a budget of 4 is enough: 46 slots",
        ), RATE, "leaf", yes(4, 75, "t2"))
        told = ("no window is marked: another task is the one that is short", "first window in which a budget of 4 is enough: 25 slots")
        self.tells(told, RATE, "leaf", yes(4, 75, "t2"), "--task=t1")
        three = "a:90:1:50 b:70:2:60 c:70:4:50"
        for part, *windows in (
            (f"rm 1/1 {three}", 7, 2, 6), (f"dm 1/1 {three}", 1, 7, 5), (f"listed 1/1 {three}", 1, 3, 7),
            # in 11 slots with a jitter of 3 there may be two jobs of a; and a job that is done at its deadline
            ("listed 1/1 a:10:1:10:3 b:20:9", 1, 11), ("rm 1/1 a:5:5", 5),
        ):
            for task, window in zip("abc", windows):
                told = (f"first window in which a budget of 1 is enough: {window} slots",)
                self.tells(told, system("cpu0 edf", f"leaf cpu0 {part}"), "leaf", yes(1, period=1, how="given"), f"--task={task}")

    def test_given_budgets_and_refused_parts(self):
        """2 slots of the example are too few at 75, where 12 of 16 come; under rm 3 are, for t2."""
        no = "verdict=no\noverfull part leaf {}\n".format
        for sched, more in (("edf", "earliest deadline first"), ("dm", "deadline monotonic, task t2")):
            self.tells((f"period 10 µs, budget 5 µs (given); {more}", "no window is marked: the budget is given"),
                       system("cpu0 edf", f"leaf cpu0 {sched} 10/5 {TASKS}"), "leaf", yes(5, how="given"))
        for part, answer, *told in (
            (f"edf 10/2 {TASKS}", no("at=75"), "period 10 µs, budget 2 µs (given, and too small); earliest deadline first",
             "marked window of 75 slots: 4 missing with a budget of 2"),
            (f"rm 10/3 {TASKS}", no("task=t2"), "marked window of 75 slots, by which the task must be done: 4 missing with a budget of 3"),
            ("edf 10 t:10:3:5 u:10:3:5", no("at=5"), "period 10 µs, no budget is enough; earliest deadline first",
             "marked window of 5 slots: 1 missing with a budget of 10"),
            # with a jitter of 2 they may be due 3 slots behind their releases
            ("edf 10 t:10:2:5:2 u:10:2:5:2", no("at=3"), "marked window of 3 slots: 1 missing with a budget of 10"),
        ):
            self.assertEqual(self.tells(told, system("cpu0 edf", f"leaf cpu0 {part}"), "leaf", answer, status=1).count("<path "), 2)

    def test_the_picture_of_the_guide(self):
        """Three slots of 1800 are too little to see: there is a plot of their own."""
        picture = self.tells(("the same, close around the marked window",), top / "examples/xen.toml", "audio-0", XEN)
        self.assertEqual(picture, (top / "docs/pictures/curves.svg").read_text())
        self.assertIn("curves examples/xen.toml audio-0 docs/pictures/curves.svg", (top / "docs/use/guide.md").read_text())

    @needs_program
    def test_with_the_program(self):
        out = self.folder / "out.svg"
        for file, name in (("xen", "audio-0"), ("xen", "video-0"), ("xen", "Domain-0-0"), ("rate", "leaf"), ("rate-short", "leaf"),
                           ("jitter", "leaf"), ("frames", "guest")):
            self.assertEqual(run("host", "curves", top / f"examples/{file}.toml", name, out, "--program", program()), (0, "", ""), name)
            self.assertEqual(out.read_text() == (top / "docs/pictures/curves.svg").read_text(), name == "audio-0")


class Wide(Case):
    """Long spans and long names. The short windows are found by hand: 3 of 10 slots give 299999979 of 999999937; of one task of 4 slots in
    10 a budget of 4 gives ever less, and in ten to the thirtieth slots a slot of the other task is missing."""
    NAME, TASK = "W" * 32, "M" * 32

    def test_spans_and_names(self):
        seconds = f"{self.TASK}:999999937:300000000 b:999999:1000::5"
        short = "least supply with one slot less, 3; 299999979 in the marked window"
        begun = time.monotonic()
        for part, answer, *told in (
            (f"edf 10 {seconds}", yes(4, 999999937, "-", self.NAME), short),
            (f"rm 10 {seconds}", yes(4, 999999937, self.TASK, self.NAME), short),
            (f"edf 10 {self.TASK}:10:4 b:1000000000:1", yes(5, 10**30, name=self.NAME)),
            (f"dm 999999937 {self.NAME}:999999937:300000000 {self.TASK}:1000000000:1000",
             yes(650000469, 10**9, self.TASK, self.NAME, 999999937), "the same, close around the first window that is enough"),
        ):
            self.assertLess(len(self.tells(told, system("cpu0 edf", f"{self.NAME} cpu0 {part}"), self.NAME, answer)), 300_000)
        self.assertLess(time.monotonic() - begun, 20)


class Refusals(Case):
    def test_what_is_refused(self):
        cause, no = "the curves are not those of the program's answer", "verdict=no\noverfull "
        for told, text, answer, *more in (
            *((cause, LEAF, yes(*window)) for window in ((3, 74), (4, 75), (2, 75))), (cause, LEAF, yes(3, "0")),
            *((cause, RATE, yes(*window)) for window in ((4, 74, "t2"), (4, 50, "t1"), (3, 75, "t2"))),
            (cause, GIVEN, f"{no}part leaf at=75\n", 1),
            ("tells a period of 20", LEAF, yes(3, 75, period=20)), ("no window that is short with 2 slots", LEAF, yes(3)),
            ("no window that is short with 2 slots", LEAF, yes(3, 75, witness=1)), ("tells nothing of leaf", LEAF, "verdict=yes\n"),
            ("leaf has no task t9", RATE, yes(4, 75, "t9")), ("is under edf", LEAF, yes(3, 75, "t1")),
            ("`overfull core cpu0 at=20`, and tells no budget of leaf", LEAF, f"{no}core cpu0 at=20\n", 1),
            ("`overfull part other task=t`", LEAF, f"{no}part other task=t\n", 1),
            ("wide part leaf (status 4)", LEAF, "verdict=wide\nwide part leaf\n", 4),
            ("fault=NotToml file=1 (status 3)", LEAF, "fault=NotToml file=1\n", 3),
            ("it has no part leaf", system("cpu0 edf"), yes(3)), ("no system file", "part = 3\n", yes(3)),
            ("this tool does not read", "[[part]\n", yes(3)), ("leaf has no tasks", system("cpu0 edf", "leaf cpu0 edf 10"), yes(3)),
            ("4 are asked for, and 9 slots a period give 8", system("cpu0 edf", "leaf cpu0 edf 10 t:10:4"), yes(10, 10)),
            (cause, system("cpu0 edf", "leaf cpu0 edf 10 t:10:4"), yes(7, 10**30)),
            ("its curve is of all tasks, not of t1", LEAF, yes(3, 75), 0, "--task=t1"), ("No such file", top / "absent", yes(3)),
        ):
            with self.subTest(told):
                status, words = (more or [0])[0], more[1:]
                self.no(told, self.drawn(text, "leaf", answer, *words, status=status))
        self.assertEqual(self.drawn(LEAF, "leaf", yes(3), "--other")[0], 2)
