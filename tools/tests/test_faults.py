"""Tests of what why tells of a refused file: a row for each kind of fault, and all faults of the worked cases."""
import json
import re

import support
from rtadmit_tools import faults
from support import needs_program, program, run, system, top

HOST = system("cpu0 edf", "cpu1 edf", "A cpu0 edf 10/5 t:100:10", "B cpu0 edf 10 t:100:10")
A_TASK = '[[part.task]]\nname = "t"\nperiod = 100\nwork = 10\n'
# the change, the program's fault, and the line, the table, the key and the cause that are told
SYSTEM = (
    ('"A"', '"A', "NotToml", "9: Illegal character '\\n', at column 10"),
    ("format = 1", "format = 99999999999999999999", "NotToml", "1: a whole number past 64 bits"),
    ('[[part]]\nname = "B"', '[[parts]]\nname = "B"', "UnknownKey at=top",
     "18: the top table, parts: parts is no key here; part may be meant"),
    ("budget =", "bugdet =", "UnknownKey at=part 1", "13: part 1, A, bugdet: bugdet is no key here; budget may be meant"),
    ("work = 10", "work = 10\njitter = 1", "UnknownKey at=part 1 task 1", "18: part 1 task 1, t, jitter: jitter is a key of format 2"),
    ("period = 10\nbudget", "budget", "MissingKey at=part 1", "8: part 1, A, period: period is not there"),
    ('sched = "edf"', 'sched = "edf"\nsupply_budget = 3', "MissingKey at=core 1",
     "2: core 1, cpu0, supply_period: supply_period is not there"),
    ("budget = 5", 'budget = "5"', "WrongKind at=part 1", '13: part 1, A, budget: "5" is text, and a whole number is asked'),
    ("budget = 5", "budget = 11", "OutOfRange at=part 1", "13: part 1, A, budget: 11 is not from 1 to 10"),
    ("work = 10", "work = 101", "OutOfRange at=part 1 task 1", "17: part 1 task 1, t, work: 101 is not from 1 to 100"),
    ('sched = "edf"', 'sched = "fp"', "OutOfRange at=core 1", '4: core 1, cpu0, sched: "fp" is none of edf, rm, dm, listed'),
    ('"A"', '"9A"', "BadName at=part 1", '9: part 1, 9A, name: "9A" is no name'),
    ('"B"', '"A"', "NameTaken at=part 2", "19: part 2, A, name: part 1 has the name A too"),
    ('parent = "cpu0"', 'parent = "cpu9"', "NoSuchParent at=part 1",
     "10: part 1, A, parent: cpu9 is no core and no part before this one; cpu1 may be meant"),
    ('"B"\nparent = "cpu0"', '"B"\nparent = "A"', "Mixed at=part 2", "20: part 2, B, parent: A has tasks, and so no part may stand on it"),
    (f"{A_TASK}[[part]]", "[[part]]", "Empty at=part 1", "8: part 1, A, task: it has no task, and no part stands on it"),
    (HOST[:HOST.index("[[part]]")], "format = 1\ncore = []\n", "Empty at=top", "2: the top table, core: there is no core"),
    (HOST[HOST.index("[[core]]"):HOST.index("[[part]]")], '[[core]]\nname = "x"\n' * 65, "TooMany at=top",
     "2: the top table, core: there are 65, and there may be 64"),
    ('sched = "edf"', 'sched = "rm"', "NotRtds core=cpu0", "4: core 1, cpu0, sched: a core under RTDS is under edf"),
    ("budget = 5", "budget = 5", "WrongKind at=part 1", "8: part 1, A: this tool finds no such fault there by its own reading"),
    (None, "part = {\n}\n", "Empty at=part 2", " spelled in a way of TOML 1.1 that this tool does not read"),
)
TRACE, WORK, RELEASES = "at,core,what,vcpu\n0,cpu0,start,A\n", "at,vcpu,what\n0,A,start\n", "at,part,task,work\n0,A,t,10\n"
SCRIPT = "op,part,parent,sched,period,budget,tasks\n"
TASK = '{"budget":1,"computed":true,"falls":[],"hits":[],"kind":"part","period":9,"place":0,"points":["3","x"],"witness":null}'
# what the file is, its text, the program's fault, and the line, the row, the field and the cause that are told
SECOND = (
    ("trace", "at,core,event,vcpu\n", "BadHeader row=1",
     "1: row 1: at,core,event,vcpu is the header, and at,core,what,vcpu or at_ns,core,what,vcpu is asked"),
    *(("trace", TRACE + rows, fault, told) for rows, fault, told in (
        ("\n\n1,,end,\n2,cpu0,stop,\n", "AfterEnd row=4", "6: row 4, what: the trace ends on line 5"),
        ("1,,run,A\n", "BadRow row=3", "3: row 3, core: it is empty, and may not be so at run"),
        ("1,cpu0,runs,A\n", "BadRow row=3", '3: row 3, what: "runs" is none of start, wake, block, run, stop, end; run may be meant'),
        ("1000000001,,end,\n", "OutOfRange row=3", "3: row 3, at: 1000000001 passes 1000000000"),
        ("9,cpu0,run,A\n4,cpu0,stop,\n", "TimeFalls row=4", "4: row 4, at: 4 is less than 9 on line 3"),
        ("0,cpu9,run,A\n", "Unknown row=3", '3: row 3, core: "cpu9" is no core of the system file; cpu1 may be meant'),
        ("0,cpu1,run,A\n", "WrongCore row=3", "3: row 3, core: A stands on cpu0 and not on cpu1"),
        ("1,cpu0,start,A\n", "StartedTwice row=3", "3: row 3, what: A was started on line 2"),
        ("0,cpu0,run,B\n", "NotStarted row=3", "3: row 3, what: B was not started"),
        ("1,cpu0,wake,A\n", "NotBlocked row=3", "3: row 3, what: A is runnable since line 2"),
        ("1,cpu0,block,A\n2,cpu0,run,A\n", "NotRunnable row=4", "4: row 4, what: A is blocked since line 3"),
        ("0,cpu0,run,A\n2,cpu0,block,A\n", "StillRunning row=4", "4: row 4, what: A has the core since line 3"),
        ("1,cpu0,stop,\n", "CoreIdle row=3", "3: row 3, what: nothing has cpu0"),
        ("0,cpu0,run,A\n", "NoEnd row=4", "3: row 4: no row says end, and the file ends"))),
    ("workload", f"{WORK}0,A,block\n", "BadOrder row=3", "3: row 3, at: block of A: its row before is start at 0, on line 2"),
    ("workload", f"{WORK}1,A,run\n", "BadRow row=3", '3: row 3, what: "run" is none of start, wake, block'),
    ("releases", f"{RELEASES}50,A,t,10\n", "TooEarly row=3",
     "3: row 3, at: it arrives at 50, and the job on line 2 at 0: 100 apart is asked"),
    ("releases", f"{RELEASES}100,A,t,11\n", "OutOfRange row=3", "3: row 3, work: 11 is not from 1 to 10, for t of A"),
    ("releases", f"{RELEASES}100,A,u,1\n", "Unknown row=3", '3: row 3, task: "u" is no task of A'),
    *(("script", SCRIPT + row, "BadRow row=2", f"2: row 2, {told}") for row, told in (
        ("add,C,cpu0,edf,10,,t:9:9:0\n", 'tasks: "t:9:9:0" is not NAME:PERIOD:DEADLINE:JITTER:WORK'),
        ("add,C,cpu0,edf,10,,t:9:9:0:10\n", 'tasks: "t:9:9:0:10": work: 10 is not from 1 to 9'),
        ("remove,C,,edf,,,\n", 'sched: "edf" stands there, and at remove it is empty'))),
    ("guests", f"{SCRIPT}add,A,,edf,10,1,t:9:9:0:1\n", "BadGuest row=2",
     "2: row 2, part: a core, a part or an earlier guest has the name A"),
    ("guests", f"{SCRIPT}add,C,,edf,10,11,t:9:9:0:1\n", "BadGuest row=2", "2: row 2, budget: 11 is not from 1 to 10"),
    ("certificate", "{\n  oops}", "NotJson", "2: Expecting property name enclosed in double quotes, at column 3"),
    ("certificate", '{"format":1}', "WrongShape", " the top: it is no object with its 2 keys alone: nodes"),
    ("certificate", '{"format":1.0,"nodes":[]}', "BadNumber", " format: 1.0 is no plain decimal number below 2^64"),
    ("certificate", f'{{"format":1,"nodes":[{TASK}]}}', "BadNumber", ' node 1, points 2: "x" is no plain decimal number below 2^128'),
    ("certificate", f'{{"format":1,"nodes":[{",".join([TASK] * 577)}]}}', "TooMany", " nodes: there are 577, and there may be 576"),
)
# a second line, which has the rule of the page
RULES = {"budget = 11": "budget: optional, 1 to period; ", "1,cpu0,stop,\n": "CoreIdle: stop where nothing has the core"}


class Rows(support.Case):
    def told(self, fault, told, rule, *words):
        """What is told of a fault, which is what the program says."""
        words = [self.folder / "host.toml", *words, "--program", self.answering(f"fault={fault}\n", 3)]
        status, out, err = self.ran("host", "why", *words)
        lines = out.splitlines()
        self.assertEqual((status, err, lines[2][:len(told)]), (3, "", told), out)
        self.assertTrue("".join(lines[3:4]).startswith(rule), out)
        return lines[0]

    def test_faults_of_a_system_file(self):
        for old, new, fault, told in SYSTEM:
            self.file("host.toml", HOST + new if old is None else HOST.replace(old, new, 1))
            self.told(f"{fault} file=1", f"host.toml:{told}", RULES.get(new, ""))

    def test_faults_of_a_second_file(self):
        """It is read as what it looks like, and as what it is said to be."""
        self.file("host.toml", HOST)
        for kind, text, fault, told in SECOND:
            second, rule = self.file("second", text), next((rule for rows, rule in RULES.items() if text == TRACE + rows), "")
            for words in ([], ["--as", kind])[kind in ("script", "guests"):]:
                head = self.told(f"{fault} file=2", f"second:{told}", rule, second, *words)
                self.assertTrue(head.startswith(f"second, read as {kind}: "), head)

    def test_each_word_of_the_pages_has_a_row(self):
        told = {fault.split()[0] for _, _, fault, _ in SYSTEM}
        self.assertLessEqual({cells[0] for cells in faults.rows_of("formats.md", "Faults of a system file")[2:]}, told)
        told = {fault.split()[0] for kind, _, fault, _ in SECOND if kind == "trace"}
        self.assertEqual({cells[0] for cells in faults.rows_of("formats.md", "Faults of a trace")[2:]}, told)


@needs_program
class Cases(support.Case):
    KINDS = {"audit": "trace", "tally": "trace", "simulate": "releases", "rtds": "workload", "session": "script", "check": "certificate",
             "place": "guests"}

    def test_each_fault_of_the_worked_cases_is_found(self):
        """But for what JSON nests too deep, and what Python's reader of TOML does not read."""
        count, missed = 0, []
        for folder in sorted((top / "tests/cases").glob("*/*first_faults_*")):
            table, args = json.loads((folder / "rows.json").read_text()), (folder / "args").read_text().split("\n")
            for path in folder.glob("*.toml"):
                self.file(path.name, path.read_text())
            for text, answer, status in table["rows"]:
                if status != 3 or "NoSuchLeaf" in answer:
                    continue
                file = self.file(table["file"], table.get("front", "") + text)
                second = [] if "file=1" in answer else [file, "--as", self.KINDS[args[0]]]
                told, out, _ = run("host", "why", self.folder / args[1], *second, "--program", program())
                count += 1
                if told != 3 or answer.strip() not in out or re.search("finds no such fault|does not read", out):
                    missed.append((text, answer, told, out))
        self.assertEqual((missed, count > 100), ([], True))

    def test_second_files_that_are_taken(self):
        """A trace, and a script of which rows are refused."""
        words = ["host", "why", top / "examples/xen.toml", top / "examples/xen.csv", "--program", program()]
        self.assertEqual(run(*words)[:2], (0, f"{words[3]}, read as trace: verdict=yes periods=8. It is taken.\n"))
        folder = top / "tests/cases/session/each_fault_of_an_addition"
        status, out, _ = run("host", "why", folder / "system.toml", folder / "script.csv", "--program", program())
        self.assertEqual((status, out.count("script.csv:"), out.count("finds no such")), (0, 15, 0))
        self.assertIn("script.csv:5: row 5, parent: \"none\", as the host stands at this row.\n", out)
