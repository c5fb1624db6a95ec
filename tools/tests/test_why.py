"""Tests of why: what it tells of the node, each kind of change, the copies that it writes, and what it refuses. The program that it asks is
a judge of a few lines, by the definitions, for small systems."""
import contextlib
import math
import subprocess
import tomllib
from unittest import mock

import support
from rtadmit_tools import formulas, system_file
from rtadmit_tools.program import Answer, program_of
from rtadmit_tools.system_file import System
from support import needs_program, program, run, system, top, verb

tool = verb("host", "why")
CORES = ("cpu0 edf", "cpu1 edf")
GUESTS = ("A cpu0 edf 10 a:40:11", "B cpu0 rm 5 b:20:6", "C cpu0 edf 5/2 c:100:10", "D cpu1 edf 10/5 d:100:10")
HOST = system(*CORES, *GUESTS)


class Judge:
    """Answers `admit` for small systems by trying every window and every budget."""

    def ask(self, command, path):
        with open(path, "rb") as file:
            return self.admit(System(path, tomllib.load(file)))

    def admit(self, system):
        budgets, told = {}, []
        for name in system.visited():
            node = system.nodes[name]
            served = [(child, system.nodes[child].period) for child in node.children]
            tasks = node.tasks or [formulas.Task(child, period, period, budgets[child], 0) for child, period in served]
            tried = [node.budget] if node.budget else range(1, node.period + 1)
            spots = [self.refused(node, tasks, budget) for budget in tried]
            if None not in spots:
                return Answer(1, f"verdict=no\noverfull {node.kind} {name} {spots[-1]}\n")
            budgets[name] = tried[spots.index(None)]
        for part in system.parts():
            told.append(f"part {part.name} period={part.period} budget={budgets[part.name]} {'given' if part.budget else 'computed'}\n")
        return Answer(0, "verdict=yes\n" + "".join(told))

    @staticmethod
    def refused(node, tasks, budget):
        """What is short with a budget, or None."""
        given = lambda window: formulas.supply(node.period, budget, window)
        if node.sched == "edf":
            last = math.lcm(node.period, *(task.period for task in tasks)) + node.period
            windows = {window for task in tasks for window in range(task.room, last + 1, task.period)}
            short = next((window for window in sorted(windows) if formulas.demand(tasks, window) > given(window)), None)
            return None if short is None else f"at={short}"
        order = [tasks[place] for place in formulas.ranks(node.sched, tasks)]
        for task in tasks:
            above = order[:order.index(task)]
            if not any(formulas.request(task, above, window) <= given(window) for window in range(1, task.room + 1)):
                return f"task={task.name}"
        return None


class Case(support.Case):
    def setUp(self):
        super().setUp()
        self.path = self.file("system.toml", HOST)

        self.stand_in(tool, program_of=lambda _: Judge())

    def judged(self, text, *words):
        """The status, and the lines."""
        self.path.write_text(text)
        status, out, err = run("host", "why", self.path, *words)
        self.assertEqual(err, "")
        return status, out.splitlines()

    def changes(self, text, *words):
        """The changes that are told, each with the line before it."""
        lines = self.judged(text, *words)[1]
        words = [(before.strip(), line.partition(" --copy ")[2]) for before, line in zip(lines, lines[1:])]
        return {told.split(" | ")[0]: before for before, told in words if told}


class Words(Case):
    def test_what_is_told_of_the_node(self):
        """Of a core: A needs 4 of 10, since 3 * 4 is 12 in 40; B 2 of 5, since 3 * 2 is 6 in 20. So 12 slots of 10 are asked for. Of a part
        under a fixed priority: with 3 of 10, in 75 slots 6 * 3 + 1 come; the two jobs of t1 and the one of t2 are 23."""
        for text, told in (
            (HOST, """
The core cpu0, under earliest deadline first, has every slot.
In a window of 10 slots up to 12 slots of work must be done, and 10 are sure to come: 2 are missing.

    part  period  budget    share  jobs  asked for
    A         10       4   40.00%     1          4
    B          5       2   40.00%     2          4
    C          5       2   40.00%     2          4
    all                   120.00%               12
"""),
            ((top / "examples/rate-short.toml").read_text(), """
The part leaf, under rate monotonic, has 3 slots of every 10.
t2 must be done within 75 slots, in which it and what ranks above it ask for up to 23. 19 are sure to come: 4 are missing, and no shorter \
window is enough.

    task  period  deadline  jitter  work   share  jobs  asked for
    t1        50        50       0     7  14.00%     2         14
    t2        75        75       0     9  12.00%     1          9
    all                                   26.00%               23
"""),
        ):
            status, lines = self.judged(text)
            self.assertEqual((status, "\n".join(lines[1:]).partition(told)[:2]), (1, ("", told)), lines)

    def test_a_part_that_no_budget_serves(self):
        """Two tasks of 3 slots within 5 of 10."""
        text = system("cpu0 edf", "P cpu0 edf 4 x:10:3:5 y:10:3:5")
        lines = self.judged(text)[1]
        self.assertIn("The part P, under earliest deadline first, has no budget that is enough, not all 4 slots of every 4.", lines)
        self.assertIn("In a window of 5 slots up to 6 slots of work must be done, and 5 are sure to come: 1 is missing.", lines)
        self.assertEqual(set(self.changes(text)), {"P.x.work=2", "P.y.work=2"})

    def test_yes_and_wide(self):
        self.assertEqual(self.judged((top / "examples/guest.toml").read_text()), (0, [f"{self.path}: yes. There is nothing to explain."]))
        with mock.patch.object(Judge, "admit", lambda *_: Answer(4, "verdict=wide\nwide part leaf\n")):
            status, lines = self.judged((top / "examples/wide.toml").read_text())
        self.assertEqual((status, lines[0]), (4, f"{self.path}: verdict=wide wide part leaf"))
        self.assertIn("of the 6 periods in it has 44 digits", lines[2])


class Changes(Case):
    def test_each_kind(self):
        """Two slots of ten are to be saved: A may have 2, with a of 3 * 2; B 1 of 5, with b of 3 * 1; C needs 1 of 5. Each is a file that
        the program takes, with the comments of this one; with one slot of work more it is not."""
        told = {
            "C.budget=open": "C: 1 of every 5 is computed, where 2 was given", "A.a.work=6": "a of A: 6, where it was 11",
            "B.b.work=3": "b of B: 3, where it was 6",
            **{f"{name}.parent=cpu1": f"{name}, 40.00% of a core, to cpu1" for name in "ABC"},
        }
        self.assertEqual(self.changes("# the first\n" + HOST), told)
        for change in told:
            what, sign, value = change.partition("work=")
            for tried, is_yes in ((change, True), (f"{what}work={int(value or 0) + 1}", False))[:1 + bool(sign)]:
                status, out, _ = run("host", "why", self.path, f"--copy={tried}")
                self.assertEqual((status, out.count("# the first")), (0, 1))
                self.assertEqual(Judge().admit(System("copy", tomllib.loads(out))).is_yes, is_yes, tried)

    def test_other_systems(self):
        """The changes that are told, or some of them, and some that are not."""
        rows = (
            # x has 4 slots of work and y 3 within 5: y has to go first, and 3 + 4 is in time for x. By equal periods x goes first again
            (("cpu0 edf", "P cpu0 listed 1 x:10:4 y:10:3:5"), {
                "P.sched=dm": "P: deadline monotonic, where it was in the order of the file",
                "P.sched=edf": "P: earliest deadline first, where it was in the order of the file",
                "P.x.work=2": "x of P: 2, where it was 4", "P.y.work=1": "y of P: 1, where it was 3",
            }, ["P.sched=rm"]),
            # 2 of 4 and 3 of 6 fill the core. Where A goes first, it has 4 slots of the 6 in which B needs 3
            (("cpu0 rm", "A cpu0 edf 4/2 t:60:1", "B cpu0 edf 6/3 t:60:1"),
             {"cpu0.sched=edf": "cpu0: earliest deadline first, where it was rate monotonic"}, ["cpu0.sched=dm"]),
            # the least loaded core is told
            ((*CORES, "cpu2 edf", *GUESTS), {"A.parent=cpu2": "A, 40.00% of a core, to cpu2"}, ["A.parent=cpu1"]),
            # v needs 2 of 5, so mid 9 of 10; with 1 of 5 it is 8
            (("cpu0 edf", "mid cpu0 edf 10", "v mid edf 5 v:20:4", "D cpu0 edf 10/2 d:100:1"),
             {"v.v.work=3": "v of v: 3, where it was 4"}, []),
            # D and E ask for 12 of 10 on cpu1, so no one change makes it a yes
            ((*CORES, *GUESTS, "E cpu1 edf 10/7 e:100:10"),
             {"A.a.work=6": "a of A: 6, where it was 11 (then: verdict=no overfull core cpu1 at=10)"}, []),
        )
        for lines, told, others in rows:
            found = self.changes(system(*lines))
            self.assertEqual(({change: found.get(change) for change in told}, found.keys() & others), (told, set()), found)
        self.assertIn("No change that was tried makes it a yes by itself. With any one of these the program comes to another node:",
                      self.judged(system(*rows[-1][0]))[1])
        # one slot of every 6 gives 7 in 50, and one of every 7 gives 6
        text = (top / "examples/guest-short.toml").read_text()
        self.assertEqual(self.changes(text)["leaf.period=6"], "leaf: 6, where it was 10")

    def test_a_stand_in_keeps_its_budget_and_its_period(self):
        """It is known by the one task that the tools write."""
        stand_in = system_file.part_text("", "C", "cpu0", 5, 2, stand_in=True).split("[[part.task]]")[1]
        text = HOST.replace('\nname = "c"\nperiod = 100\nwork = 10\n', stand_in)
        self.assertIn("(C: the task is invented, so budget and period stay as they are.)", self.judged(text)[1])
        self.assertEqual({change for change in self.changes(text) if change.startswith("C.")}, {"C.parent=cpu1"})
        other = text.replace('name = "any"\nperiod = 1000000', 'name = "any"\nperiod = 100')
        self.assertIn("C.budget=open", self.changes(other))

    def test_how_many_are_told_and_tried(self):
        six = [f"P{at} cpu0 edf 10 t:40:5" for at in range(6)]
        text = system(*CORES, *six)
        self.assertIn("    and 1 more (--all)", self.judged(text)[1])
        self.assertEqual((len(self.changes(text)), len(self.changes(text, "--all"))), (5, 6), self.changes(text))
        tasks = " ".join(f"t{at}:40:{2 if at < 30 else 3}" for at in range(31))
        lines = self.judged(system("cpu0 edf", f"P cpu0 edf 1 {tasks}"))[1]
        self.assertIn("No change that was tried helps by itself.", lines)
        self.assertIn("(Of the tasks and parts the 24 with the greatest shares were tried.)", lines)

    def test_words_that_work_where_one_stands(self):
        elsewhere = self.folder / "a folder"
        elsewhere.mkdir()
        for folder, why, asked, *words in (
            (top, "tools/host why", "./rtadmit"), (elsewhere, f"{top}/tools/host why", str(top / "rtadmit")),
            (top, "tools/host why", "./rtadmit --unproved", "--program=./rtadmit  --unproved"),
            (top, "tools/host why", "'a b'", "--program='a b'"),
        ):
            with contextlib.chdir(folder):
                told = [line.strip() for line in self.judged(HOST, *words)[1] if " --copy " in line]
                self.assertEqual(len(told), 6)
                for line in told:
                    self.assertRegex(line, rf"^{why} {self.path} --copy \S+ \| {asked} admit /dev/stdin$")
                ran = subprocess.run(["bash", "-c", told[0].split(" | ")[0]], capture_output=True, text=True)
            self.assertEqual((ran.returncode, ran.stderr), (0, ""))
            self.assertTrue(Judge().admit(System("copy", tomllib.loads(ran.stdout))).is_yes, told[0])


class Copies(Case):
    def test_a_copy_keeps_the_comments_and_all_else(self):
        commented = HOST.replace('name = "C"', 'name = "C" # the third').replace("budget = 2\n", "budget = 2  # of 5\n")
        self.path.write_text(f"# --name a=A\n{commented}")
        task = 'sched = "edf"\nperiod = 10\n[[part.task]]\nname = "a"'
        for change, old, new in (
            ("C.budget=open", "budget = 2  # of 5\n", ""), ("C.budget=3", "budget = 2  # of 5", "budget = 3  # of 5"),
            ("B.b.work=2", "work = 6", "work = 2"), ("A.sched=dm", task, task.replace("edf", "dm")),
            ("B.period=4", "period = 5", "period = 4"),
            ("A.budget=4", 'name = "A"\n', 'name = "A"\nbudget = 4\n'), ("A.parent=cpu1", 'parent = "cpu0"', 'parent = "cpu1"'),
            ("cpu0.sched=rm", 'sched = "edf"', 'sched = "rm"'),
        ):
            self.assertEqual(run("host", "why", self.path, "--copy", change), (0, f"# --name a=A\n{commented.replace(old, new, 1)}", ""))

    def test_a_file_of_inline_tables_keeps_the_comments_of_its_front(self):
        part = "{name = 'A', parent = 'c', sched = 'edf', period = 9, task = [{name = 't', period = 9, work = 1}]}"
        text = f"# --name a=A\nformat = 1\ncore = [{{name = 'c', sched = 'edf'}}]\n# two\npart = [{part}]\n"
        self.path.write_text(text)
        out = run("host", "why", self.path, "--copy", "A.period=8")[1]
        self.assertTrue(out.startswith("# --name a=A\n"), out)
        self.assertEqual(tomllib.loads(out), tomllib.loads(text.replace("period = 9, task", "period = 8, task")))

    def test_the_program_is_asked_about_the_same_system(self):
        """A copy of each example says the same."""
        self.stand_in(tool, program_of=program_of)
        asked, copy = self.script('[ "$2" = /dev/stdin ] && cat >"${0%/*}/copy"\necho verdict=yes'), self.folder / "copy"
        for path in sorted((top / "examples").glob("*.toml")):
            if path.stem != "refused":
                self.assertEqual(run("host", "why", path, f"--program={asked}")[0], 0)
                self.assertEqual(tomllib.loads(copy.read_text()), tomllib.loads(path.read_text()), path)


class Refusals(Case):
    def test_what_has_no_answer(self):
        told = lambda line: f"echo verdict=no; echo '{line}'; exit 1"
        over = told("overfull core cpu0 at=20")
        self.path.write_text((top / "examples/pair-over.toml").read_text())
        self.stand_in(tool, program_of=program_of)
        for script, cause in (
            ("echo 'verdict=no'; exit 3", "the program does not judge it: verdict=no (status 3)"),
            ("exit 9", "the program does not judge it: status 9 (status 9)"),
            (told("overfull core cpu9 at=20"), "tells no node of the file"),
            ("echo absent file=1; exit 5", "the program does not judge it: absent file=1 (status 5)"),
            (told("overfull core cpu0 at=10"),
             "the formulas do not say what the program does: 5 slots are asked for in 10 slots, and 10 are sure"),
            (told("overfull part A at=40"), "5 slots are asked for in 40 slots, and 15 are sure"),
            ('[ "$2" = /dev/stdin ] && exit 0; ' + over, "a copy as this tool reads it is answered status 0, and the file"),
        ):
            self.refused(cause, "host", "why", self.path, f"--program={self.script(script)}", status=3)
        status, out, err = run("host", "why", self.path, f"--program={self.script(over)}")
        self.assertEqual((status, err), (1, ""))
        self.assertTrue(out.endswith("\n\nNo change that was tried helps by itself.\n"), out)

    def test_a_program_that_changes_its_mind(self):
        self.path.write_text(HOST)
        admit = Judge.admit
        no = lambda judge, system: admit(judge, system if "D" not in system.nodes else System("", tomllib.loads(HOST)))
        with mock.patch.object(Judge, "admit", no):
            cause = "C.budget=open helped on its core, and in the whole file it does not: verdict=no overfull core cpu0 at=10\n"
            self.refused(cause, "host", "why", self.path, status=3)

    def test_words(self):
        self.assertEqual(run("host", "why", self.path, "--some")[0], 2)
        cause = "system.toml: 'A.work=3' is no change of a part or a task of it\n"
        self.refused(cause, "host", "why", self.path, "--copy=A.work=3", status=3)
        for change in ("B.x.work=2", "X.period=2", "B.period", "B.work=2", "B.period=2.5", "B.period=-2", "B.parent=cpu7", "B.sched=fast",
                       "cpu1.period=3"):
            self.refused("", "host", "why", self.path, f"--copy={change}", status=3)

    @needs_program
    def test_with_the_program(self):
        """By hand: of 10000 slots 3667, 4000 and 2668 are asked for; camera may have 3332, and 3 * 3332 is 9996."""
        self.stand_in(tool, program_of=program_of)
        status, out, _ = run("host", "why", top / "examples/crowded.toml", f"--program={program()}")
        self.assertEqual(status, 1)
        for change in ("camera.frame.work=9996 |", "radio.packet.work=5496 |", "control.loop.work=1749 |"):
            self.assertIn(change, out)
