"""Tests of the verbs of tools/gate that make inputs, ask the program and compare: what they make and find by hand, the loop that they
share, and programs that answer wrong, which are a few lines of shell."""
import argparse
import contextlib
import csv
import io
import pathlib
import tomllib
import unittest

import support
from rtadmit_tools import comparing
from rtadmit_tools.comparing import core, part, task, tree
from rtadmit_tools.program import Answer, Program, program_of
from rtadmit_tools.system_file import System
from support import needs_program, program, trace

generated, responses, slacks, tallies, isolations, halts, schedules, interfaces = (support.verb("gate", name) for name in (
    "generated", "responses", "slacks", "tallies", "isolations", "halts", "schedules", "interfaces"))


def guest(sched, period, budget, *tasks):
    return responses.Guest(sched, period, budget, responses.tasks_of(*tasks))


# given one slot of two, a job of three waits two slots at first, and then for each second: seven in all; 6 are too few
HALF, LATE, ONE = guest("rm", 2, 1, (9, 8, 3)), guest("rm", 2, 1, (9, 6, 3)), guest("rm", 1, 1, (9, 8, 3))
RESPONSE = "echo verdict=yes; echo response leaf t0 worst={0} limit=8 replay={0}"

LEAF = part("g0", "mid", "edf", 10, 4, [task("t0", 20, 2, deadline=12, jitter=4)])
HOST = System(None, tree([core()], [part("mid", "cpu0", "edf", 5), LEAF]))
# lets a work of 5 pass, and tells what stands in MOST
SLACK = """work=$(sed -n 's/^work = //p' "$2")
if [ "$1" = slack ]; then echo verdict=yes; echo slack g0 t0 work="$work" most=MOST; else [ "$work" -le 5 ]; fi"""
BORNE_OUT = {"tasks": 1, "short of the room": 1}

SYSTEM = support.system("c edf", "a c edf 2/1", "b c edf 2/1 extra")
TRACE = trace("0,c,start,a 0,c,run,a 1400,c,stop, 2000,c,run,a 2500,c,stop, 4100,c,block,a 4200,c,wake,a 6100,c,run,a 6400,c,stop, "
              "6500,,end,", "at_ns")
LINES = ["vcpu a begun=4 judged=2 short=1 over=1 least_ns=500 most_ns=1400",
         "vcpu b begun=0 judged=0 short=0 over=0 least_ns=- most_ns=-"]

STOLEN = ["verdict=no", "stolen a from_ns=2000 got_ns=1500 of_ns=1000", "vcpu a begun=4 kept=1 denied=2 most_ns=1900",
          "vcpu b begun=0 kept=0 denied=0 most_ns=-"]
# B with 2 in 5 behind A, which has 2 of every 4, and what makes it isolated
BEHIND = ([4], 0, 1, 2, "edf", responses.tasks_of((5, 5, 2)))
IS_TOLD = """if [ $1 = admit ]; then {}; else {}; fi""".format(
    "echo verdict=yes; echo part leaf period=2 budget=1 computed; echo part v0 period=4 budget=2 given", "echo verdict={}; echo {}")
# two guests of 6 in 10 on one core, and their run: B has 4, and what B gets is seen 2 slots too late
GUESTS = tree([core()], [part(name, "cpu0", "edf", 10, 6, [task("t", 100, 6)]) for name in "AB"])
EARLY, START = (GUESTS, [], "early", 10), (GUESTS, [(0, "A", "start")], 10)
LACKS = """verdict=no
core cpu0 given=10 jobs=2 missed=1
first B release=0 deadline=10 got=4 of=6
part A given=6 jobs=0 missed=0
part B given=4 jobs=0 missed=0"""
RUN = "0,cpu0,start,A 0,cpu0,run,A 6,cpu0,stop, 10,,end,"

CORE = [((10, 4), (10, 6))]
BOTH, SUM = ["isolated c0v0 last=10 of=10", "isolated c0v1 last=10 of=10"], "core c0 budgets=10 shortest=10"


def says(status, *lines):
    """A program that prints these lines."""
    return "\n".join([*(f"echo '{line}'" for line in lines), f"exit {status}"])


def tally(*lines):
    """A program whose audit is a no, and whose tally tells these lines behind it."""
    return f"echo verdict=no; echo over a; [ $1 = audit ] && exit 1\n{says(1, *lines)}"


def kept_of(room, made):
    """What is said of cores by their answer, where it fits them."""
    isolations.kept_of(room, made)
    return []


four_guests = generated.made(7, 1)[0]
# how a program is looked at, over what, the program, what is met, and a part of what does not hold
ROWS = (
    (generated.certified, "", "echo verdict=yes", {}, "check system.toml larger.json: status 0 in place of 1"),
    (generated.certified, "", "echo verdict=yes; echo more", {}, "check says more than yes"),
    (generated.certified, "", "echo loudly >&2", {}, "standard error"), (generated.certified, "", "exit 1", {}, None),
    (generated.never_misses, four_guests, '[ "$4" != worst ]', {}, "simulate"),
    (generated.never_misses, four_guests, "exit 0", {"let pass": 1}, None), (generated.never_misses, four_guests, "exit 1", {}, None),
    (generated.satisfied, "", '[ "$1" != audit ]', {}, "audit"), (generated.satisfied, "", "exit 0", {}, None),
    (responses.as_met, HALF, RESPONSE.format(7), {"answered": 1}, None),
    (responses.as_met, HALF, RESPONSE.format(6), {}, "wanted Answer(status=0"),
    (responses.as_met, LATE, "echo verdict=yes", {}, "wanted Answer(status=1"),
    (responses.as_met, LATE, says(1, "verdict=no", "overfull part leaf task=t0"), {"refused": 1}, None),
    (responses.as_met, ONE, "echo loudly >&2; " + RESPONSE.format(3), {}, "loudly"),
    *((slacks.borne_out, (HOST, is_open), SLACK.replace("MOST", "5"), BORNE_OUT, None) for is_open in (False, True)),
    *((slacks.borne_out, (HOST, False), SLACK.replace("MOST", most), {}, f"with {with_} it is otherwise")
      for most, with_ in (("4", 5), ("6", 6))),
    (slacks.borne_out, (HOST, False), SLACK.replace("MOST", "9"), {}, "from the work to the room"),
    (slacks.borne_out, (HOST, False), SLACK.replace("g0 t0", "g0 t1"), {}, "status 0"),
    (slacks.borne_out, (HOST, False), SLACK.replace("MOST", "5").replace("g0 t0", "g0 t1"), {}, "does not tell its tasks"),
    (slacks.borne_out, (HOST.changed("g0.t0.work=6"), False), SLACK.replace("MOST", "6"), {}, "not refused as admit is"),
    (tallies.told_as_counted, (SYSTEM, TRACE), tally(*LINES), {"not satisfied": 1}, None),
    *((tallies.told_as_counted, (SYSTEM, TRACE), tally(*lines), {}, "counted:")
      for lines in (LINES[:1], [LINES[0].replace("least_ns=500", "least_ns=0"), LINES[1]], [])),
    (tallies.stolen_as_counted, (SYSTEM, TRACE), says(1, *STOLEN), {"denied": 1}, None),
    (tallies.stolen_as_counted, (SYSTEM, TRACE), says(1, *STOLEN).replace("kept=1", "kept=2"), {}, "counted:"),
    (halts.small, BEHIND, IS_TOLD.format("no", "exposed leaf by=block"), {"block": 1, "late where it is exposed": 1}, None),
    (halts.small, BEHIND, IS_TOLD.format("yes", "isolated leaf last=2 of=2"), {}, "a job of it can be late"),
    (halts.small, BEHIND, says(1, "verdict=no", "overfull part leaf at=5"), {"not admitted": 1}, None),
    (schedules.simulated, EARLY, says(1, LACKS), {"missed": 1}, None),
    *((schedules.simulated, EARLY, says(1, text), {}, "slot by slot:")
      for text in (LACKS.replace("missed=1", "missed=0"), LACKS.replace("got=4", "got=3"), "verdict=yes")),
    (schedules.as_slot_by_slot, START, says(0, *trace(RUN.replace("6,", "7,")).split()), {}, "slot by slot:"),
    (kept_of, CORE, says(0, "verdict=yes", *BOTH, SUM), {}, None),
    *((kept_of, CORE, says(0, "verdict=yes", *BOTH, *more), {}, "does not tell the budgets and the shortest period")
      for more in ((), (SUM, SUM), [SUM.replace("10 ", "9 ")])),
    (kept_of, CORE, says(1, "verdict=no", BOTH[0], "exposed c0v1 by=block", SUM), {}, "or they do not decide"),
    # each part on a core has its line, with its period, and no other has one; and the verdict is that of the lines
    *((kept_of, CORE, says(status, f"verdict={'no' if status else 'yes'}", *told), {}, "does not tell of each VCPU") for status, *told in (
        (1, *BOTH), (0, BOTH[0], "isolated c0v2 last=10 of=10"), (0, *BOTH, "isolated on-c0v0 last=1 of=40"),
        (0, "isolated c0v0 last=10 of=9", BOTH[1]), (1, *BOTH[::-1]), (0, "exposed c0v0 by=ties last=10 of=10", BOTH[1]))),
)


class Answers(support.Case):
    def test_each_row(self):
        for look, made, script, met, wrong in ROWS:
            with self.subTest(script=script, look=look.__name__):
                asked = Program([self.script(script)])
                found, broken = comparing.looked_at(asked, look, None, False, (0, made))
                self.assertEqual((dict(found), broken is None), (met, wrong is None), broken)
                self.assertIn(wrong or "", broken or "")


class Loop(support.Case):
    def compared(self, look, inputs, keep=None, **how):
        """Whether all is well, and what is printed."""
        out = io.StringIO()
        with contextlib.redirect_stdout(out):
            is_well = comparing.compare(argparse.Namespace(program="true", keep=keep), "rows", look, inputs, **how)
        return is_well, out.getvalue().splitlines()

    def test_what_is_met_is_counted(self):
        look = lambda room, made: ["odd"] * (made % 2)
        self.assertEqual(self.compared(look, range(5), least={"odd": 2}), (True, ["rows: 5 of 5 hold; 2 odd (at least 2)"]))
        self.assertEqual(self.compared(look, range(5), least={"odd": 3})[0], False)
        self.assertEqual(self.compared(look, range(1), least={"odd": 1}), (False, ["rows: 1 of 1 hold; 0 odd (at least 1)"]))

    def test_what_does_not_hold_is_told_and_kept(self):
        def look(room, made):
            room.write("file", f"{made}\udc80")
            comparing.need(made != 1, "it is one\udc80")
            return []

        is_well, told = self.compared(look, range(3), self.folder / "kept")
        self.assertEqual((is_well, told), (False, ["rows: input 1: it is one\\udc80", "-- file", "1�", "rows: 2 of 3 hold"]))
        self.assertEqual([path.name for path in (self.folder / "kept").iterdir()], ["look-1"])
        self.assertEqual(self.compared(look, range(3), shows=False)[1], ["rows: input 1: it is one\\udc80", "rows: 2 of 3 hold"])


class Made(unittest.TestCase):
    def test_they_are_the_same_on_each_run(self):
        slack_files = lambda seed, count: [system.text() for system, _ in slacks.made(seed, count, 60, False)]
        for makes in (generated.made, tallies.made, schedules.some_runs, schedules.some_workloads, slack_files, halts.hosts):
            made = lambda seed: list(makes(seed, 3))
            self.assertEqual(made(7), made(7))
            self.assertNotEqual(made(7), made(8))
            self.assertNotEqual(made(7)[0], made(7)[1])

    def test_what_is_generated(self):
        """Each task has a job at each of two moments; one of two systems has a guest with extra time."""
        for system, releases in generated.made(11, 5):
            jobs = [row.split(",", 1) for row in releases.splitlines()[1:]]
            first, second = ([job for at, job in jobs if at == moment] for moment in ("0", "100"))
            self.assertEqual((first, len(first)), (second, sum(len(leaf["task"]) for leaf in system["part"])))
        self.assertEqual([generated.three_guests(place)["part"][1]["extra"] for place in range(4)], [True, False, True, False])


CASES = pathlib.Path(__file__).resolve().parents[2] / "tests/cases"


def cases(command, file):
    """The worked cases of a command that are answered over a system whose budgets are given: the system, the rows, the other words, and
    what is printed with which status."""
    for folder in sorted((CASES / command).iterdir()):
        files = all((folder / name).is_file() for name in ("stdout", file))
        if files and not (folder / "stdout").read_text().startswith(("fault", "absent")):
            system = tomllib.loads((folder / "system.toml").read_text())
            status = int((folder / "status").read_text()) if (folder / "status").is_file() else 0
            if all("budget" in one for one in system.get("part", ())):
                rows = [[int(at), *rest] for at, *rest in list(csv.reader((folder / file).read_text().splitlines()))[1:]]
                more = (folder / "args").read_text().split()[3:]
                yield folder.name, {"part": []} | system, rows, more, Answer(status, (folder / "stdout").read_text())


class Found(unittest.TestCase):
    """What a plain search finds."""

    def test_responses(self):
        for of, worst in (
            (ONE, [3]), (HALF, [7]),
            # a task waits for those that go first
            (guest("listed", 1, 1, (9, 9, 2), (8, 8, 3)), [2, 5]),
            # its jobs at 0 and 2 take the slots 0 and 2, and the other task has 1 and 3
            (guest("rm", 1, 1, (3, 3, 1, 1), (8, 6, 2)), [1, 4]),
        ):
            self.assertEqual(responses.search(of), (worst, set()))
        self.assertEqual(responses.search(LATE)[1], {0})

    def test_counts_and_interfaces(self):
        self.assertEqual(tallies.counts(SYSTEM, TRACE), (LINES, 2, 2))
        self.assertEqual([bin(slots) for slots in interfaces.lists(2, 1, 1)], ["0b10101"])
        self.assertEqual(interfaces.least_in_windows(2, 1, 2), [0, 0, 0, 1, 1])
        # of two jobs that are released together the one that goes first has the slot
        jobs = [(0, 0, 2, 1), (1, 0, 1, 1)]
        self.assertEqual([interfaces.is_in_time(sched, jobs, 0b11) for sched in ("edf", "dm", "rm", "listed")], [True, True, False, False])

    def test_runs_of_the_worked_cases(self):
        trees, workloads = list(cases("simulate", "releases.csv")), list(cases("rtds", "workload.csv"))
        self.assertGreater(min(len(trees), len(workloads)), 5)
        for name, system, rows, (pattern, slots), answer in trees:
            jobs = [(at, leaf, of, int(work), int(*early or [0])) for at, leaf, of, work, *early in rows]
            self.assertEqual(schedules.run_tree(system, jobs, pattern, int(slots)), answer, name)
        for name, system, rows, (slots,), answer in workloads:
            self.assertEqual(schedules.run_rtds(system, [tuple(row) for row in rows], int(slots)), answer.text, name)

    def test_what_can_happen_on_small_cores(self):
        for core, place, last, tie, reaches in (
            (((4, 2), (6, 3)), 1, 6, True, True),
            # the least of the sum, and in the other order of the file
            (((6, 3), (4, 2)), 0, 6, True, False), (((10, 4), (10, 6)), 0, 10, False, False), (((5, 2), (10, 6)), 0, 5, True, True),
            # three of equal periods, and one alone
            (((3, 1), (3, 1), (3, 1)), 2, 3, False, False), (((5, 5),), 0, 5, True, False), (((5, 2),), 0, 2, True, False),
            (((5, 2),), 0, 1, True, True),
        ):
            self.assertEqual(isolations.reaches_short(core, place, last, tie), reaches, (core, place, last))

    def test_jobs_that_are_late_in_guests_that_halt(self):
        for core, sched, tasks, is_late in (
            # behind one that takes two whole budgets of four slots at once, and at a period of 2 for both
            (((2, 1), (4, 2)), "edf", [(5, 5, 2)], True), (((2, 1), (2, 1)), "edf", [(5, 5, 2)], False),
            # alone, awake with nothing to do until its budget is used: of five slots two are left, and three with another budget
            (((2, 1),), "rm", [(5, 5, 3)], True), (((3, 2),), "rm", [(5, 5, 3)], False), (((3, 2),), "edf", [(5, 5, 4)], True),
            # a job that comes late is due as if it had not, and one that ranks below another waits
            (((1, 1),), "edf", [(6, 3, 2, 1)], False), (((1, 1),), "edf", [(6, 3, 2, 2)], True),
            (((1, 1),), "dm", [(4, 2, 1), (6, 3, 2)], False), (((1, 1),), "listed", [(6, 3, 2), (4, 2, 1)], True),
        ):
            self.assertEqual(halts.can_be_late(core, 0, sched, responses.tasks_of(*tasks), False), is_late, (core, sched, tasks))


def taken(period, budget, slots):
    """The most that a VCPU takes of the last slots before one of its periods ends."""
    return slots // period * budget + min(budget, slots % period)


class StandIn:
    """A room in which `isolate` answers by a search for the least number of slots that is enough for a VCPU and all others; and the same
    wrong."""

    def __init__(self, taken=taken, own=True, past=0, tie=lambda other, place: other > place):
        self.taken, self.own, self.past, self.tie = taken, own, past, tie

    def write(self, name, system):
        self.core = [(part["period"], part["budget"]) for part in system["part"]]
        return name

    def least(self, place, in_order):
        period, budget = self.core[place]
        for slots in range(budget, period + self.past + 1):
            others = sum(self.taken(*vcpu, slots - (in_order and self.tie(other, place)))
                         for other, vcpu in enumerate(self.core) if other != place)
            if self.own * budget + others <= slots:
                return slots
        return None

    def run(self, command, path):
        assert command == "isolate", command
        lines = []
        for place, (period, _) in enumerate(self.core):
            alone, in_order = (self.least(place, tie) for tie in (False, True))
            how = "isolated c0v{}" if alone else "exposed c0v{} by=ties" if in_order else "exposed c0v{} by=block"
            lines.append(how.format(place) + (f" last={alone or in_order} of={period}" if alone or in_order else ""))
        status = any(line.startswith("exposed") for line in lines)
        return Answer(int(status), "\n".join([f"verdict={'no' if status else 'yes'}", *lines]) + "\n")


class Isolations(support.Case):
    @staticmethod
    def fault(room, core):
        try:
            isolations.small(room, core)
        except comparing.Broken as fault:
            return str(fault)
        return None

    def test_a_wrong_search_is_seen_on_a_small_core(self):
        self.stand_in(isolations, exposed=lambda *_: [], sums=lambda *_: None)
        for name, room in {
            "right": StandIn(),
            "without the part of a begun period": StandIn(lambda period, budget, slots: slots // period * budget),
            "the own budget left out": StandIn(own=False),
            "a number of slots above the period": StandIn(past=4),
            "ties for the later one": StandIn(tie=lambda other, place: other < place),
            "ties for both": StandIn(tie=lambda other, place: True),
            "one budget alone": StandIn(lambda period, budget, slots: min(budget, slots)),
            "exposed where equal periods fit": StandIn(lambda period, budget, slots: -(-slots // period) * budget + (slots == period)),
        }.items():
            said = next(filter(None, (self.fault(room, core) for core in isolations.small_cores(2))), "")
            self.assertRegex(said, "^$" if name == "right" else "all that can happen says something else|no order of ties makes it short")

    @needs_program
    def test_some_small_cores_and_random_runs(self):
        looks = [(isolations.small, core) for core in list(isolations.small_cores(2))[::25]]
        looks += [(isolations.over_workloads, made) for made in isolations.random_systems(3, 8)]
        looks += [(halts.small, made) for made in halts.small_guests(3, 8)] + [(halts.over_runs, made) for made in halts.hosts(3, 8)]
        found = [comparing.looked_at(program_of(program()), look, None, False, (0, made)) for look, made in looks]
        self.assertEqual([wrong for _, wrong in found if wrong], [])
        self.assertGreater(sum(met["periods of isolated VCPUs"] for met, _ in found), 20)
