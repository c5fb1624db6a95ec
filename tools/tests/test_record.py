"""Tests of tools/host record that need neither root nor a trace filesystem: its words, what it asks of the kernel's files, on pretended
ones, its refusals, and how it ends."""
import contextlib
import itertools
import os
import pathlib
import shutil
import signal
from unittest import mock

import support
from support import run, verb

tool = verb("host", "record")
make_folder = os.mkdir
CALC = "calc@3=6000/20000"
FIRST = {"cpuset.cpus": "0-3,5", "cpuset.mems": "0", "cpuset.cpu_exclusive": "0", "cpuset.sched_load_balance": "1"}
SECOND = {"cgroup.controllers": "cpuset cpu", "cgroup.subtree_control": "cpu"}
STATS = "entries: 7\noverrun: 0\ncommit overrun: 0\ndropped events: 0\nread events: 7\n"
LINES = (
    "  python3-9    [000] ...1. 0.500000: tracing_mark_write: rtadmit: asleep comm=calc pid=11 cpu=3 runtime=6000 period=20000",
    "  <idle>-0     [001] dNh4. 1.000000: sched_wakeup: comm=calc pid=11 prio=-1 target_cpu=003",
    "  sh-7         [003] d..2. 1.000002: sched_switch: sh:7 [1] R ==> calc:11 [-1]",
    "  calc-11      [003] d..2. 1.000007: sched_switch: calc:11 [-1] R ==> sh:7 [1]",
)
WHOLE, TORN = "\n".join(LINES) + "\n", "\n".join([*LINES, LINES[-1]]) + "\n"


class Kernel:
    """Pretended files of the kernel's: folders get the files that the kernel would make, and what is done is kept. `told` has what it says
    in place of what is written, and `states` those of the processes."""

    def __init__(self, root, settings, mounts="", told=None, states=None, stats=STATS):
        self.root, self.done, self.told, self.stats = root, [], told or {}, stats
        self.states = {"11": "S", "99": "R"} | (states or {})
        self.mounts = f"tracefs {root} tracefs rw 0 0\n" + mounts.replace("ROOT", str(root))
        make_folder(root)
        make_folder(root / "instances")
        for name, text in settings.items():
            (root / name).write_text(text)

    def mkdir(self, folder, *_):
        make_folder(folder)
        folder = pathlib.Path(folder)
        if folder.parent.name == "instances":
            for event in ("sched_switch", "sched_wakeup", "sched_migrate_task"):
                (folder / "events/sched" / event).mkdir(parents=True)
            (folder / "per_cpu/cpu0").mkdir(parents=True)
            (folder / "per_cpu/cpu0/stats").write_text(self.stats)
            (folder / "trace").write_text(WHOLE)

    def write(self, path, text):
        self.done.append(f"{pathlib.Path(path).relative_to(self.root)} {text}".strip().replace("instances/rtadmit/", "buffer/"))
        pathlib.Path(path).write_text(self.told.get(str(text), str(text)))

    def read(self, path):
        if path == "/proc/mounts":
            return self.mounts
        found = pathlib.Path(path)
        return f"7 (a) X (b) {self.states[found.parent.name]} 1 7" if found.name == "stat" else found.read_text().strip()

    def child(self):
        """A recorded thread that is none."""
        kernel = self

        class Child(tool.Child):
            def __init__(self, stack, thread, seed):
                self.thread, self.pid = thread, 11

            def reserve(self, tasks):
                kernel.done.append(f"reserve {pathlib.Path(tasks).relative_to(kernel.root)}")

            def start(self):
                kernel.done.append("wake")

        return Child

    @contextlib.contextmanager
    def stands_in(self):
        names = {"remove": shutil.rmtree, "write": self.write, "read": self.read, "Child": self.child(), "child": lambda stack, live: 99}
        with mock.patch.object(tool.os, "mkdir", self.mkdir), mock.patch.object(os, "sched_getaffinity", lambda _: {3}), \
                mock.patch.multiple(tool, **names):
            yield


class Case(support.Case):
    def setUp(self):
        super().setUp()
        self.out = self.folder / "recording"
        for number in tool.STOPS:
            self.addCleanup(signal.signal, number, signal.getsignal(number))

    def recorded(self, kernel):
        with kernel.stands_in():
            return run("host", "record", self.out, CALC, "--seconds=0.01")

    def pretended(self, record, *words):
        """The status of a run where the recording is pretended, and what it wrote on standard error."""
        with mock.patch.object(tool, "record", record):
            status, _, err = self.ran("host", "record", self.out, CALC, *words)
        return status, err


class Files(Case):
    def test_what_is_asked_of_the_kernel(self):
        """By both versions of control groups. All threads sleep before the buffer is on; the marks stand before the first wakeup and behind
        the last event; each setting is as it was in the end."""
        switches = "prev_pid==11 || next_pid==11"
        for settings, mounts, groups, after in (
            (FIRST, "cgroup /b cgroup rw,cpu 0 0\ncgroup ROOT cgroup rw,cpuset 0 0\n", [
                "cpuset.cpu_exclusive 1", "rtadmit_3/cpuset.cpus 3", "rtadmit_3/cpuset.mems 0", "rtadmit_3/cpuset.cpu_exclusive 1",
                "rtadmit_rest/cpuset.cpus 0,1,2,5", "rtadmit_rest/cpuset.mems 0", "rtadmit_rest/cpuset.cpu_exclusive 1",
                "cpuset.sched_load_balance 0", "reserve rtadmit_3/tasks"], ["cpuset.sched_load_balance 1", "cpuset.cpu_exclusive 0"]),
            (SECOND, "cgroup2 ROOT cgroup2 rw 0 0\n", [
                "cgroup.subtree_control +cpuset", "rtadmit_3/cpuset.cpus 3", "rtadmit_3/cpuset.cpus.partition root",
                "reserve rtadmit_3/cgroup.procs"], ["cgroup.subtree_control -cpuset"]),
        ):
            kernel = Kernel(self.folder / f"of-{len(settings)}", settings, mounts)
            self.assertEqual(self.recorded(kernel), (0, "", ""))
            self.assertEqual(kernel.done, [
                "buffer/tracing_on 0", f"buffer/buffer_size_kb {tool.BUFFER_KB}", "buffer/trace_clock mono", *groups,
                *(f"buffer/events/sched/{event}/{line}" for event, chosen in (
                    ("sched_switch", switches), ("sched_wakeup", "pid==11"), ("sched_migrate_task", "pid==11"))
                  for line in (f"filter {chosen}", "enable 1")),
                "buffer/tracing_on 1", "buffer/trace_marker rtadmit: asleep comm=calc pid=11 cpu=3 runtime=6000 period=20000", "wake",
                "buffer/trace_marker rtadmit: stopped", "buffer/tracing_on 0", *after])
            self.assertEqual(self.out.read_text(), WHOLE.lstrip())
            left = {path.name: path.read_text() for path in kernel.root.iterdir() if path.is_file()}
            self.assertEqual((left, os.listdir(kernel.root / "instances")), (settings | ({
                "cgroup.subtree_control": "-cpuset"} if settings is SECOND else {}), []))

    def test_what_is_refused(self):
        """With nothing left of its own, and a group of another's untouched."""
        mounts, there = "cgroup2 ROOT cgroup2 rw 0 0\n", []
        for cause, more in (
            ("is no partition of its own: root invalid", {"told": {"root": "root invalid (Cpu list in cpuset.cpus not exclusive)"}}),
            ("no cpuset controller is mounted", {"mounts": "proc /proc proc rw 0 0\ncgroup ROOT cgroup rw,cpu 0 0\n"}),
            ("no cpuset controller is mounted", {"settings": SECOND | {"cgroup.controllers": "cpu"}}),
            ("calc does not sleep before the recording", {"states": {"11": "R"}}),
            ("the filler of processor 3 does not run", {"states": {"99": "S"}}),
            *((f"events were lost on cpu0: {line}", {"stats": f"entries: 7\n{line}\n"})
              for line in ("overrun: 1", "commit overrun: 1", "dropped events: 1")),
            ("rtadmit_3 is there: another recording runs, or one was killed", {}),
        ):
            kernel = Kernel(self.folder / str(len(there)), **({"settings": SECOND, "mounts": mounts} | more))
            there.append(kernel)
            if not more:
                make_folder(kernel.root / "rtadmit_3")
            status, _, err = self.recorded(kernel)
            self.assertEqual((status, cause in err, self.out.exists()), (3, True, False), err)
            self.assertEqual((kernel.root / "rtadmit_3").exists(), not more)

    def test_a_filler(self):
        """It has the lowest priority, and ends when it is ended."""
        tasks = self.folder / "tasks"
        with contextlib.ExitStack() as stack:
            pid = tool.child(stack, lambda: tool.fill(tasks))
            while not tasks.exists() or not tasks.read_text():
                pass
            self.assertEqual((tasks.read_text(), os.sched_getscheduler(pid)), (str(pid), os.SCHED_IDLE))
        with self.assertRaises(ProcessLookupError):
            os.kill(pid, 0)

    def test_the_times_of_a_thread_that_halts(self):
        """Work up to WORK, sleep up to two periods, not the same again and again; the same seed gives the same times, and another name
        others."""
        log, logs = (tool.thread_of(f"{name}@0=4000/40000/2000") for name in ("log", "logs"))
        seeds = ((log, 7), (log, 7), (log, 8), (logs, 7))
        first, *others = (list(itertools.islice(thread.random_times(seed), 500)) for thread, seed in seeds)
        self.assertEqual([first == other for other in others], [True, False, False])
        self.assertTrue(all(1 <= work <= 2000 and 1 <= sleep <= 80000 for work, sleep in first))
        self.assertTrue(any(sleep > 40000 for _, sleep in first) and any(sleep < 40000 for _, sleep in first))
        self.assertGreater(len(set(first)), 490)


class Ends(Case):
    def test_a_recording_in_which_a_switch_is_missing_is_made_again(self):
        """Where none is whole the last is kept, and so is a text that is refused for another cause."""
        missing = "in each of 2 recordings; of the last one, in recording, line 5: no thread of the map has processor 3"
        for texts, tries, kept, said in (
            ([WHOLE], 8, WHOLE, ""), ([TORN, TORN, WHOLE], 8, WHOLE, ""), ([TORN, TORN], 2, TORN, missing), (["text\n"], 8, "text\n", "")):
            left = iter(texts)
            status, err = self.pretended(lambda *_: next(left), f"--tries={tries}")
            self.assertEqual((status, self.out.read_text(), list(left), bool(err), said in err), (0, kept, [], bool(said), True), err)

    def test_what_each_end_answers(self):
        def refuse(*_):
            raise tool.NotAllowed("no tracefs")

        def stop(threads, seconds, seed, pause):
            os.kill(os.getpid(), signal.SIGTERM)
            pause.wait(10)

        self.assertEqual(self.pretended(refuse), (3, "no tracefs\n"))
        self.assertEqual(self.pretended(stop), (128 + signal.SIGTERM, "stopped, and nothing is written\n"))
        self.assertFalse(self.out.exists())
        self.out = self.folder / "none/below"
        self.assertEqual(self.pretended(lambda *_: "text\n")[0], 1)
        for words in ("calc", "calc=1/2", "3@3=6/20", "calc@3=20/6", "calc@3=1/6", "calc@3=6/20/7", "calc@3=6/20/0", "c" * 16 + "@3=6/20",
                      "calc@3=6/20 calc@2=6/20", "calc@3=6/20 --tries=0"):
            self.assertEqual(run("host", "record", self.out, *words.split())[0], 2, words)

    def test_without_root(self):
        """The real recording, by a user who may not: refused before anything is changed."""
        reader, writer = os.pipe()
        child, status = os.fork(), 77
        if child == 0:
            try:
                if os.geteuid() == 0:
                    os.setgroups([])
                    os.setgid(65534)
                    os.setuid(65534)
                status, _, err = run("host", "record", "/nowhere/recording", "calc@0=6000/20000", "--seconds=0.01")
                os.write(writer, err.encode())
            finally:
                os._exit(status)
        os.close(writer)
        with os.fdopen(reader) as file:
            told = file.read()
        ended = os.waitstatus_to_exitcode(os.waitpid(child, 0)[1])
        if ended == status:
            self.skipTest("root can't be left here")
        self.assertEqual((ended, told != ""), (3, True), told)
