"""Tests of from-linux and to-linux, over what chrt and taskset print of real threads of the machine at hand."""
import os
import re
import tomllib
from unittest import mock

import support
from support import needs_program, program, recorded, run, system, top, verb

from_linux = verb("host", "from-linux")
THREADS = top / "examples" / "linux" / "threads.txt"
UNBOUND = (recorded / "linux-unbound.txt").read_text()


def thread(tid, name, runtime=6000000, period=20000000, deadline=None, cpus="3", policy="SCHED_DEADLINE"):
    """A thread as the record has it."""
    return (
        f"thread {tid} {name}\npid {tid}'s current scheduling policy: {policy}\npid {tid}'s current scheduling priority: 0\n"
        f"pid {tid}'s current runtime/deadline/period parameters: {runtime}/{deadline or period}/{period}\n"
        f"pid {tid}'s current affinity list: {cpus}\n"
    )


class FromLinux(support.Case):
    def made(self, text, *words):
        """The text of the file that is made, and its parts."""
        status, out, err = run("host", "from-linux", self.file("record", text), *words)
        self.assertEqual((status, err), (0, ""))
        return out, tomllib.loads(out)["part"]

    def test_the_recorded_threads(self):
        """They were made by tools/host record with the reservations of examples/linux/reserved.toml."""
        out, parts = self.made(THREADS.read_text(), "--stand-in", "log")
        file = tomllib.loads((top / "examples/linux/reserved.toml").read_text())
        self.assertEqual(tomllib.loads(out)["core"], file["core"])
        keys = ("name", "parent", "period", "budget")
        self.assertEqual(*([{key: part[key] for key in keys} for part in some] for some in (parts, file["part"])))
        self.assertEqual(["sched" in part for part in parts], [False, False, False, False, True])

    def test_names_and_what_is_left_out(self):
        text = thread(7, "CPU 0/KVM") + thread(8, "CPU 0/KVM", cpus="2") + thread(9, "cpu3") + thread(10, "9p") + thread(11, "work er")
        given = ["--name", "7=audio-0", "--name", "10=work-er"]
        for words, names in (([], ["CPU-0-KVM-7", "CPU-0-KVM-8", "cpu3-9", "thread-10", "work-er"]),
                             (given, ["audio-0", "CPU-0-KVM-8", "cpu3-9", "work-er", "work-er-11"])):
            self.assertEqual([part["name"] for part in self.made(text, *words)[1]], names)
        other = "thread 5 sh\npid 5's current scheduling policy: SCHED_OTHER\npid 5's current affinity list: 0-3\n"
        flags = ((7, "a", "RESET_ON_FORK"), (9, "c", "FLAG_RECLAIM"))
        flagged = [thread(tid, name, policy=f"SCHED_DEADLINE|SCHED_{flag}") for tid, name, flag in flags]
        out, parts = self.made(other + flagged[0] + thread(8, "b") + flagged[1] + thread(10, "d"), "--extra=b", "--without=10")
        self.assertEqual([(part["name"], part.get("extra")) for part in parts], [("a", None), ("b", True), ("c", True)])
        self.assertIn("# 'd', thread 10, is left out.\n", out)

    def test_what_is_refused(self):
        bound, whole = UNBOUND.replace("list: 0-3", "list: 2"), thread(7, "a")
        other, many = "thread 5 sh\npid 5's current scheduling policy: SCHED_OTHER\n", "thread 27776 (sleep) may use the processors 0-3"
        lacking = "record:1: thread 7 (a): its policy, its times or its processors are missing"
        for text, cause, *words in (
            (UNBOUND, f"record:1: {many}: give it one of its own by a cpuset (docs/use/guide.md)\n"),
            (bound, "record:6: thread 27777 (sleep) has a deadline of 10000000 ns, below its period of 20000000"),
            (bound.replace("1000000/10000000/", "1000000/20000000/"), "record:11: thread 27778 (CPU 0/KVM) has a runtime of 2500001 ns"),
            (thread(7, "a", period=20000001), "(a) has a period of 20000001 ns"),
            (thread(7, "a", runtime=0), "has not 1 <= runtime <= period"),
            (thread(7, "a", period=2000000000000), "has not 1 <= runtime <= period"),
            (other, "record: no thread reserves time (SCHED_DEADLINE). To begin, write a file"),
            (other, "record: no thread 5 reserves time, and a word tells of it", "--without=5"),
            *((whole, f"record: no part is c, which {word} tells", f"{word}=c") for word in ("--stand-in", "--extra")),
            (whole.split("\n", 1)[1], "record:1: no line `thread 7 NAME` is above"), (whole + whole, "record:6: thread 7 stands twice"),
            ("thread 7 a\nchrt: failed to get pid 7's policy: No such process\n", "record:2: no line of a record"),
            *(("".join(line for line in whole.splitlines(True) if gone not in line), lacking)
              for gone in ("policy", "parameters", "affinity")),
        ):
            self.refused(cause, "host", "from-linux", self.file("record", text), *words)
        for words in (["--name=7"], ["--name=x=a"], ["--name=7=7"], ["--name=7=a", "--name=8=a"], ["--without=x"]):
            self.assertEqual(run("host", "from-linux", THREADS, *words)[:2], (2, ""), words)
        self.assertEqual(run("host", "from-linux", "/nowhere/record"), (1, "", "/nowhere/record: No such file or directory\n"))

    def test_this_machine(self):
        """What the kernel tells of this test's own thread is its policy, and of two made-up threads what they reserve."""
        libc, number = from_linux.ctypes.CDLL(None, use_errno=True), from_linux.GETATTR.get(os.uname().machine)
        if number is None:
            self.skipTest("a machine of another kind")
        self.assertEqual(from_linux.reservation(libc, number, 0)[0], os.sched_getscheduler(0))
        with self.assertRaises(ProcessLookupError):
            from_linux.reservation(libc, number, 999_999_999)
        held = {7: (6, (6000000, 20000000, 20000000), False), os.getpid(): (6, (4000000, 40000000, 40000000), True)}
        self.stand_in(from_linux, reservation=lambda libc, number, tid: held.get(tid, (0, None, False)))
        for cpus, told in (({3}, None), ({0, 1, 2, 5}, "0-2,5"), ({0, 2}, "0,2")):
            with mock.patch.object(os, "sched_getaffinity", lambda tid: cpus):
                status, out, err = run("host", "from-linux", "--name", f"{os.getpid()}=own")
            self.assertEqual((status, f"may use the processors {told}:" in err), (int(bool(told)), bool(told)), err)
            if not told:
                own = [part for part in tomllib.loads(out)["part"] if part["name"] == "own"]
                self.assertEqual(own, [{"name": "own", "parent": "cpu3", "period": 40000, "budget": 4000, "extra": True}])


HOST = system("cpu2 edf", "cpu3 edf", "guest-0 cpu3 edf 20000", "guest-1 cpu3 edf 10000/3000", "inner guest-1 edf 100")
HOST = HOST.replace('"guest-1"', '"guest-1" # the second', 1)
ANSWER = """\
verdict=yes
part guest-0 period=20000 budget=6000 computed
part guest-1 period=10000 budget=3000 given
part inner period=100 budget=1 computed
"""
ONE, MAP = ["--map", "guest-0=7058"], ["--map", "guest-0=7058", "--map", "guest-1=7059"]


def told_calls(share, runtime, other, more=""):
    return 0, (
        f"# cpu3: {share} of at most 90.0%\n"
        f"chrt -R -d -T {runtime}000000 -D 20000000 -P 20000000 -p 0 7058\n"
        f"chrt -R -d -T {other}000000 -D 10000000 -P 10000000 -p 0 7059\n{more}"
    ), ""


class ToLinux(support.Case):
    def call(self, *words, text=HOST, answer=ANSWER, status=0):
        return self.ran("host", "to-linux", self.file("host.toml", text), "--program", self.answering(answer, status), *words)

    def test_a_call_a_thread(self):
        """Also with a tick, which an audit lets pass where a part has extra time."""
        says = "# an audit lets the tick pass where a part has extra = true (--audit)\n"
        extra = HOST.replace('sched = "edf"\nperiod', 'sched = "edf"\nextra = true\nperiod')
        self.assertEqual(self.call(*MAP), told_calls("60.0%", 6, 3))
        self.assertEqual(self.call(*MAP, "--tick", "1000"), told_calls("75.0%", 7, 4, says))
        self.assertEqual(self.call(*MAP, "--tick", "2000"), told_calls("90.0%", 8, 5, says))
        self.assertEqual(self.call(*MAP, "--tick", "2000", text=extra), told_calls("90.0%", 8, 5))
        told = self.call(*ONE, "--without", "guest-1", "--limit", "300000/1000000")
        self.assertEqual(told, (0, "# cpu3: 30.0% of at most 30.0%\nchrt -R -d -T 6000000 -D 20000000 -P 20000000 -p 0 7058\n", ""))

    def test_the_file_for_an_audit(self):
        out = self.folder / "audit.toml"
        self.assertEqual(self.call(*MAP, "--tick", "2000", "--audit", out)[0], 0)
        told = HOST.replace('"guest-0"', '"guest-0"\nextra = true').replace("# the second", "# the second\nextra = true")
        self.assertEqual(out.read_text(), told)
        inline = HOST.replace('[[core]]\nname = "cpu2"\nsched = "edf"\n', "", 1).replace('name = "guest-0"', '"name" = "guest-0"', 1)
        self.assertEqual(self.call(*MAP, "--audit", out, text=inline)[0], 0)
        self.assertEqual([part.get("extra") for part in tomllib.loads(out.read_text())["part"]], [True, True, None])

    def test_what_is_refused(self):
        at = lambda period: {"text": HOST.replace("20000", period), "answer": ANSWER.replace("20000 budget=6000", f"{period} budget=60")}
        for words, more, cause in (
            ([*MAP, "--tick", "2001"], {}, "host.toml:9: cpu3: its parts reserve 90.1%, and the kernel grants 90.0%"),
            ([*MAP, "--tick", "7001"], {}, "host.toml:14: guest-1: its budget of 3000 and a tick of 7001 pass its period of 10000"),
            ([*MAP, "--limit", "599000/1000000"], {}, "cpu3: its parts reserve 60.0%, and the kernel grants 59.9%"),
            (MAP, {"answer": ANSWER.replace("6000", "1")}, "host.toml:9: guest-0 has a budget of 1 microseconds"),
            *((MAP, at(period), f"host.toml:9: guest-0 has a period of {period}") for period in ("99", "4194305")),
            (ONE, {}, "host.toml:14: guest-1 has no thread: --map guest-1=TID"),
            ([*MAP, "--map", "inner=7"], {}, "host.toml: no part on a core is inner, which --map tells"),
            ([*MAP, "--without", "inner"], {}, "host.toml: no part on a core is inner, which --without tells"),
            (MAP, {"answer": "verdict=wide\n", "status": 4}, "host.toml: not admitted, so there is nothing to set: status 4, verdict=wide"),
            (MAP, {"text": HOST.replace('"edf"', '"dm"', 1)}, "cpu2 is not a whole processor under edf, as Linux has it"),
        ):
            self.no(cause, self.call(*words, **more))
        for words, more in ((["--limit", "600000/1000000"], {}), (["--tick", "2001", "--limit", "950000/1000000"], {}),
                            ([], {"answer": ANSWER.replace("6000", "2")}), ([], at("100")), ([], at("4194304"))):
            self.assertEqual(self.call(*MAP, *words, **more)[0], 0)
        for words in ([], [*MAP, "--without", "guest-0"], *([f"--map={word}"] for word in ("a", "a=x", "a=0")), ["--map=a=7", "--map=b=7"],
                      [*MAP, "--tick=-1"], *([*MAP, f"--limit={word}"] for word in ("95", "2/1", "1/0"))):
            self.assertEqual(self.call(*words)[:2], (2, ""), words)

    @needs_program
    def test_there_and_back(self):
        """The calls for examples/linux/reserved.toml are the reservations that were recorded."""
        threads = re.findall("^thread (.*) (.*)$", THREADS.read_text(), re.M)
        words = [word for tid, name in threads for word in ("--map", f"{name}={tid}")]
        status, out, err = run("host", "to-linux", top / "examples/linux/reserved.toml", "--program", program(), *words)
        self.assertEqual((status, err), (0, ""))
        told = re.findall("pid (.*)'s current runtime/deadline/period parameters: (.*)/(.*)/(.*)", THREADS.read_text())
        calls = [(tid, *times) for *times, tid in re.findall("-T (.*) -D (.*) -P (.*) -p 0 (.*)", out)]
        self.assertEqual(sorted(calls), sorted(told))
