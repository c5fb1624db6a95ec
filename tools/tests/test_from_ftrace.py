"""Tests of tools/host from-ftrace: lines for each kind of event and each refusal, where a trace may start and end, gaps, a kernel's own
account of reservations, and the recording of examples/linux, whole and cut at each line."""
import gzip
import itertools
import random
import subprocess
import sys
import types
from unittest import mock

import support
from support import peak, program, run, system, top, trace

MAP = ["--cpu=3=cpu3", "--cpu=2=cpu2", "--thread=11=A"]
TWO = [*MAP, "--thread=beat=B"]
# a period of 10 ms, and a budget that is more than a tick
SERVED = {"A": "10000/5000"}
LINUX = top / "examples" / "linux"
LINUX_MAP = ["--cpu=2=cpu2", "--cpu=3=cpu3", *(f"--thread={name}={name}" for name in ("video", "audio", "calc", "pack", "log"))]
HOST = [sys.executable, "-B", str(top / "tools/host")]
AS_IT_COMES = [*HOST, "from-ftrace", "-", *MAP, "--as-it-comes"]


def switch(at, before, after, cpu=3):
    """A switch as the kernel prints it; a thread is `name pid state`, and the next one `name pid`."""
    (name, pid, state), (next_name, next_pid) = before.rsplit(" ", 2), after.rsplit(" ", 1)
    text = f"prev_comm={name} prev_pid={pid} prev_prio=-1 prev_state={state} ==> next_comm={next_name} next_pid={next_pid} next_prio=-1"
    return f"{name:>16}-{pid:<7} [{cpu:03}] d..2. {at}: sched_switch: {text}"


def wakeup(at, thread, cpu=3):
    name, pid = thread.rsplit(" ", 1)
    return f"          <idle>-0       [001] dNh4. {at}: sched_wakeup: comm={name} pid={pid} prio=-1 target_cpu={cpu:03}"


def mark(at, text):
    return f"         python3-9       [000] ...1. {at}: tracing_mark_write: rtadmit: {text}"


def timer(at, expires, which="0000000012345678"):
    """The timer of a reservation that is started while whatever has the processor has it; `expires` is in nanoseconds."""
    text = f"hrtimer={which} function=dl_task_timer expires={expires} softexpires={expires} mode=ABS|HARD was_armed=0"
    return f"            calc-11      [003] d.h2. {at}: hrtimer_start: {text}"


def asleep(at, thread, cpu=3):
    """The mark of tools/host record for a thread."""
    name, pid = thread.rsplit(" ", 1)
    return mark(at, f"asleep comm={name} pid={pid} cpu={cpu} runtime=2000 period=10000")


# threads 11 and 12 sleep from before the recording on
SLEEPS, BEAT_SLEEPS = asleep("0.500000", "calc 11"), asleep("0.500000", "beat 12")
WOKEN, RUN = wakeup("1.000000", "calc 11"), switch("1.000000", "sh 7 R", "calc 11")
OUT, ASLEEP = switch("1.000001", "calc 11 R", "sh 7"), switch("1.000001", "calc 11 S", "sh 7")
LOST = "CPU:3 [LOST 5 EVENTS]"


def turn(second):
    """It wakes at a moment, runs for 300 microseconds, and sleeps again."""
    at = [f"{round(second * 10**6) + more:07}" for more in (0, 5, 305)]
    woken, ran, out = (f"{text[:-6]}.{text[-6:]}" for text in at)
    return [wakeup(woken, "calc 11"), switch(ran, "sh 7 R", "calc 11"), switch(out, "calc 11 S", "sh 7")]


def turns(count, apart=0.2):
    """A thread that sleeps, and has so many turns then."""
    return [SLEEPS, *(line for place in range(1, count + 1) for line in turn(1 + place * apart))]


class Case(support.Case):
    def translated(self, lines, *words, served=None, named=MAP):
        """A run over lines; where some are served, by a system file with their periods and budgets, and by a tick of 4 ms."""
        if served:
            file = self.file("served.toml", system("cpu2 edf", "cpu3 edf", *(f"{name} cpu3 edf {given}" for name, given in served.items())))
            words = [*words, f"--system={file}", "--tick=4000"]
        return self.ran("host", "from-ftrace", self.file("recording", "".join(f"{line}\n" for line in lines)), *named, *words)

    def rows(self, *lines, **more):
        """The rows of the trace without its header, in a line."""
        status, out, err = self.translated(lines, **more)
        self.assertEqual(status, 0, err)
        return " ".join(out.splitlines()[1:])

    def is_refused(self, line, cause, *lines, **more):
        told = self.translated(lines, **more)
        self.no(cause, told)
        self.assertTrue(told[2].startswith(f"recording:{line}: " if line else "recording: "), told)

    def gap(self, line, cause, *lines):
        """A gap is told, whatever stands behind it, here a sleep of a second and a start."""
        status, _, err = self.translated([*lines, *turn(990), *turn(991)], served=SERVED)
        told = [text for text in err.splitlines() if text.startswith("recording:") and text[10].isdigit() and "no mark says" not in text]
        self.assertEqual((status, len(told)), (0, 1), err)
        self.assertRegex(told[0], rf"^recording:{line}: .*{cause}")


class Events(Case):
    def test_what_each_event_tells(self):
        name, begun = "my prev_pid=9 11", "0,cpu3,start,A 0,cpu3,run,A"
        for lines, wanted, *named in (
            ([SLEEPS, wakeup("5.000100", "calc 11"), switch("5.000107", "swapper/3 0 R", "calc 11"),
              switch("5.000300", "calc 11 R+", "migration/3 9"), switch("5.000320", "migration/3 9 S", "calc 11"),
              switch("5.000500", "calc 11 S", "swapper/3 0"), wakeup("5.000900", "calc 11"),
              switch("5.000903", "swapper/3 0 R", "calc 11"), switch("5.001000", "calc 11 R", "sh 7")],
             "0,cpu3,start,A 7,cpu3,run,A 200,cpu3,stop, 220,cpu3,run,A 400,cpu3,stop, 400,cpu3,block,A 800,cpu3,wake,A 803,cpu3,run,A "
             "900,cpu3,stop, 900,,end,"),
            # a wakeup of a thread that is not asleep; one that ends is asleep for good; the first wakeup of a new thread
            ([SLEEPS, WOKEN, RUN, wakeup("1.000003", "calc 11"), switch("1.000008", "calc 11 R", "sh 7")], f"{begun} 8,cpu3,stop, 8,,end,"),
            ([SLEEPS, WOKEN, RUN, switch("1.000005", "calc 11 X", "sh 7")], f"{begun} 5,cpu3,stop, 5,cpu3,block,A 5,,end,"),
            ([SLEEPS, WOKEN.replace("sched_wakeup:", "sched_wakeup_new:")], "0,cpu3,start,A 0,,end,"),
            # other threads, processors and events are no rows
            ([SLEEPS, switch("1.000000", "sh 7 R", "cc 8", cpu=0), wakeup("1.000002", "sh 7", cpu=0),
              "              sh-7       [000] d..2. 1.000003: sched_waking: comm=calc pid=11 prio=-1 target_cpu=003",
              wakeup("1.000005", "calc 11"),
              "     kworker/3:1-44 (     2) [003] d..2. 1.000009: sched_stat_runtime: comm=calc pid=11 runtime=9 [ns]"],
             "0,cpu3,start,A 4,,end,"),
            # until all started, a thread is as one that is not in the map
            ([SLEEPS, WOKEN, switch("1.000002", "sh 7 R", "calc 11"), switch("1.000005", "calc 11 R", "dog 13"),
              switch("1.000007", "dog 13 S", "sh 7")], "0,cpu3,start,A 2,cpu3,run,A 5,cpu3,stop, 7,,end,"),
            # a switch between two threads of the map has no stop
            ([SLEEPS, BEAT_SLEEPS, WOKEN, RUN, wakeup("1.000003", "beat 12"), switch("1.000004", "calc 11 D", "beat 12"),
              switch("1.000009", "beat 12 R", "sh 7")],
             f"{begun} 3,cpu3,start,B 4,cpu3,run,B 4,cpu3,block,A 9,cpu3,stop, 9,,end,", TWO),
            # names with blanks, dashes and signs
            ([asleep("0.500000", name), wakeup("1.000000", name), switch("1.000000", "a-b c=d 7 R", name),
              switch("1.000001", f"{name} R", "a-b c=d 7")], f"{begun} 1,cpu3,stop, 1,,end,"),
            # two processors
            ([asleep("0.500000", "calc 11", cpu=2), BEAT_SLEEPS, wakeup("1.000000", "calc 11", cpu=2),
              switch("1.000000", "sh 7 R", "calc 11", cpu=2), wakeup("1.000001", "beat 12"), switch("1.000001", "cc 8 R", "beat 12"),
              switch("1.000002", "calc 11 R", "sh 7", cpu=2)],
             "0,cpu2,start,A 0,cpu2,run,A 1,cpu3,start,B 1,cpu3,run,B 2,cpu2,stop, 2,,end,", TWO),
        ):
            with self.subTest(wanted):
                self.assertEqual(self.rows(*lines, named=(named or [MAP])[0]), wanted)

    def test_other_texts(self):
        """What trace-cmd prints, also with the name of a buffer, what `perf script` of Linux 6.1 prints, and `perf sched script`, which has
        sched_waking for sched_wakeup; whole microseconds in nine digits are microseconds."""
        perf = "\n".join((
            "            sh f     7 [003]   782.000000:       sched:sched_switch: prev_comm=calc prev_pid=11 prev_prio=-1 prev_state=S "
            "==> next_comm=sh f next_pid=7 next_prio=125",
            "     migration/0    18 [000]   783.380089:       sched:sched_wakeup: comm=calc pid=11 prio=-1 target_cpu=003",
            "            sh f     7 [003]   783.380093: sched:sched_switch: prev_comm=sh f prev_pid=7 prev_prio=0 prev_state=R "
            "==> next_comm=calc next_pid=11 next_prio=-1",
            "            calc    11 [003]   783.380094: sched:sched_stat_runtime: comm=calc pid=11 runtime=28172 [ns]",
            "            calc 11/11 [003]   783.380099:  1 sched:sched_switch: calc:11 [-1] R ==> sh f:7 [125]",
        ))
        told = trace("0,cpu3,start,A 4,cpu3,run,A 10,cpu3,stop, 10,,end,")
        for text, wanted, *served in (
            ("cpus=4\nCPU 0 is empty\n"
             "         python3-9       [001]  0.500000000: print: tracing_mark_write: rtadmit: asleep comm=calc pid=11 cpu=3 "
             "runtime=1 period=2\n"
             "          <idle>-0     [001]  1.000000000: sched_wakeup:         calc:11 [-1] success=1 CPU:003\n"
             "          <idle>-0     [003]  1.000000250: sched_switch:         swapper/3:0 [120] R ==> calc:11 [-1]\n"
             "            calc-11    [003] d..2.  1.000001500: sched_switch:         calc:11 [-1] S ==> swapper/3:0 [120]\n"
             "          <idle>-0     [003]  1.000002000: sched_wakeup:         calc:11 [-1] CPU:003",
             trace("0,cpu3,start,A 250,cpu3,run,A 1500,cpu3,stop, 1500,cpu3,block,A 2000,cpu3,wake,A 2000,,end,", "at_ns")),
            ("g_tc:          bash-9230  [003]  4722.285855314: sched_switch:         calc:11 [120] S ==> swapper/0:0 [120]\n"
             "g_tc:             bash-9234  [002]  4724.285855314: sched_wakeup:         calc:11 [120] CPU:003\n"
             "g_tc:  callgrind-amd64-3469  [003]  4724.285858751: sched_switch:         callgrind-amd64:3469 [120] R ==> calc:11 [120]",
             trace("0,cpu3,start,A 3437,cpu3,run,A 3437,,end,", "at_ns"), SERVED),
            (f"{SLEEPS}\n          <idle>-0     [001]  1.000000000: sched_wakeup: calc:11 [-1] CPU:003", trace("0,cpu3,start,A 0,,end,")),
            (perf, told, SERVED), (perf.replace("sched_wakeup:", "sched_waking:"), told, SERVED),
            (perf.replace("783.380093:", "783.380093859:").replace("783.380094:", "783.380094000:"),
             trace("0,cpu3,start,A 4859,cpu3,run,A 10000,cpu3,stop, 10000,,end,", "at_ns"), SERVED),
        ):
            self.assertEqual(self.translated([text], served=(served or [None])[0])[1], wanted)
        self.gap(5, "lost", *perf.split("\n")[:4], "            perf 26259 [003]   783.380096: PERF_RECORD_LOST lost 12")


class Starts(Case):
    """A start is where a period begins for sure."""

    def slept(self, sleep, *more, served="10000/5000"):
        """Whether it starts behind a sleep of so many microseconds."""
        begin = 2_000_100 + sleep
        lines = [switch("2.000000", "sh 7 R", "calc 11"), *more, switch("2.000100", "calc 11 S", "sh 7"),
                 wakeup(f"{begin // 10**6}.{begin % 10**6:06}", "calc 11")]
        return self.translated(lines, served={"A": served})[1] == trace("0,cpu3,start,A 0,,end,")

    def test_how_long_a_sleep_is_enough(self):
        """Of two periods, as it may have run over its budget, and then owes the next one; where a tick is more than a budget, of more of
        them. Where timers are recorded and none is started it did not run over, and one is enough; else one behind the timer's end."""
        elsewhere, own = timer("2.000001", 2_900_000_000, which="1"), timer("2.000099", 2_007_000_000)
        for budget, least, *timers in ((10_000, 20_000), (4_001, 20_000), (4_000, 40_000), (1_000, 100_000),
                                       (5_000, 10_000, elsewhere), (5_000, 16_900, elsewhere, own)):
            served = f"10000/{budget}"
            found = [self.slept(sleep, *timers, served=served) for sleep in (least - 1, least)]
            self.assertEqual(found, [False, True], (budget, timers))

    def test_the_end_of_a_throttle(self):
        """A thread that never sleeps starts where its timer ends, though it has the core later; in the recording's unit. A timer that seems
        to be another's, since a switch is missing, counts again behind the gap."""
        lines = [switch("2.000000", "sh 7 R", "calc 11"), timer("2.004000", 2_009_000_700), switch("2.004003", "calc 11 R", "sh 7")]
        again = [switch("2.011000", "sh 7 R", "calc 11"), switch("2.012000", "calc 11 R", "sh 7")]
        torn = [RUN, OUT, timer("2.004000", 2_009_000_000), switch("2.004003", "calc 11 R", "sh 7"), again[0],
                timer("2.015000", 2_019_000_000), switch("2.015003", "calc 11 R", "sh 7"), switch("2.021000", "sh 7 R", "calc 11")]
        self.assertEqual(self.rows(*lines, *again, served=SERVED), "0,cpu3,start,A 2000,cpu3,run,A 3000,cpu3,stop, 3000,,end,")
        self.assertEqual(self.rows(*torn, served=SERVED), "0,cpu3,start,A 2000,cpu3,run,A 2000,,end,")
        # it has the core before; it keeps the core; another one starts that timer too; it is further away than a period
        for wrong in (
            [*lines, switch("2.008000", "sh 7 R", "calc 11"), again[1]], [*lines[:2], switch("2.012000", "calc 11 R", "sh 7")],
            [RUN, OUT, timer("1.900000", 2_950_000_000), *lines, *again],
            [lines[0], timer("2.004000", 2_014_000_001), *lines[2:], switch("2.014100", "sh 7 R", "calc 11")],
        ):
            self.is_refused(None, "has no start", *wrong, served=SERVED)

    def test_who_has_no_start(self):
        sleeps, unknown = [ASLEEP, wakeup("3.000000", "calc 11")], "its period or its budget is not known: give the system file by --system"
        for cause, lines, more in (
            *(("record with tools/host record", lines, {"served": SERVED}) for lines in (
                [OUT], [ASLEEP, wakeup("1.000006", "calc 11")], [WOKEN, switch("1.000001", "sh 7 R", "calc 11")])),
            (unknown, sleeps, {}), (unknown, sleeps, {"served": {"A": "10000"}}),
            ("it slept throughout", [SLEEPS, switch("1.000000", "sh 7 R", "cc 8")], {}),
            ("A (thread 11) has no start", [BEAT_SLEEPS, WOKEN], {}),
            ("B (thread beat) has no start", [SLEEPS, WOKEN, wakeup("1.000001", "beat 12")], {"named": TWO}),
            ("B (thread beat) has no start: no event is of it", [SLEEPS, WOKEN], {"named": TWO}),
        ):
            self.is_refused(None, cause, *lines, **more)

    def test_a_mark_that_is_not_true(self):
        self.is_refused(2, "did not", switch("0.400000", "sh 7 R", "calc 11"), SLEEPS)
        self.is_refused(2, "did not", SLEEPS, SLEEPS)
        self.gap(2, "wakeup is missing", SLEEPS, RUN, OUT)
        self.gap(2, "had not been switched in", SLEEPS, switch("1.000000", "calc 11 R", "sh 7"))
        wrong = "in every 10000 us, and its period in the system file is 20000 us"
        self.is_refused(1, wrong, SLEEPS, WOKEN, served={"A": "20000/1"})


class Kernel:
    """A processor under SCHED_DEADLINE that stops threads at its ticks: threads that work and sleep at random, the lines that it writes,
    and where it begins periods of each. Time counts steps of 10 microseconds. A thread that wakes keeps what is left and its deadline,
    unless that is past or what is left is more than its share up to there; one whose runtime is used up waits for its deadline."""

    TICK = 400

    def __init__(self, kinds, chance, steps):
        self.chance, self.lines, self.begins, self.now, self.current = chance, [], {name: set() for name in kinds}, 0, None
        begun = {"left": 0, "due": 0, "waits": False}
        self.threads = {
            name: types.SimpleNamespace(name=name, pid=10 + place, q=q, p=p, wakes=chance.randint(0, p), **begun)
            for place, (name, (q, p)) in enumerate(kinds.items())}
        while self.now < steps:
            self.step(self.threads.values())
        self.lines.append(mark(self.at, "stopped"))

    @property
    def at(self):
        return f"{1 + self.now // 100_000}.{self.now % 100_000 * 10:06}"

    def some(self, most):
        return self.chance.choice((1, 1, 5)) * self.chance.randint(1, most)

    def replenish(self, thread):
        self.begins[thread.name].add(thread.due)
        while thread.left <= 0:
            thread.left, thread.due = thread.left + thread.q, thread.due + thread.p
        thread.waits = False

    def wake(self, thread):
        self.lines.append(wakeup(self.at, f"{thread.name} {thread.pid}"))
        thread.wakes, thread.work, until = None, self.some(thread.q), thread.due - self.now
        if not thread.waits and (until <= 0 or thread.left * thread.p > until * thread.q):
            thread.left, thread.due = thread.q, self.now + thread.p
            self.begins[thread.name].add(self.now)

    def to(self, thread):
        """Gives the processor to a thread, or to none."""
        before, self.current = self.current, thread
        if before and before.left <= 0:
            before.waits = True
            self.lines.append(timer(self.at, 10**9 + before.due * 10_000, which=f"{before.pid:016}"))
        out, into = (f"{each.name} {each.pid}" if each else "sh 7" for each in (before, thread))
        self.lines.append(switch(self.at, f"{out} {'S' if before and before.wakes is not None else 'R'}", into))

    def step(self, threads):
        for thread in (each for each in threads if each.waits and each.due <= self.now):
            self.replenish(thread)
        for thread in (each for each in threads if each.wakes is not None and each.wakes <= self.now):
            self.wake(thread)
        stopped = self.current if self.current and self.now % self.TICK == 0 and self.current.left <= 0 else None
        ready = (each for each in threads if each.wakes is None and not each.waits and each is not stopped)
        best = min(ready, key=lambda each: each.due, default=None)
        if best is not self.current:
            self.to(best)
        self.now += 1
        if thread := self.current:
            thread.left, thread.work = thread.left - 1, thread.work - 1
            if thread.work <= 0:
                thread.wakes = self.now + self.some(thread.p)
                self.to(None)


class Accounts(Case):
    """Each start in a recording of that kernel, cut anywhere, is where it begins a period of the thread."""

    KINDS = ({"A": (500, 2000), "B": (600, 3000)}, {"A": (150, 1000), "B": (900, 3000)})

    def starts(self, kernel, lines, kinds):
        """The step of each start of these threads, by its VCPU, and the lines on standard error; or nothing where there is no trace."""
        served = {name: f"{period * 10}/{budget * 10}" for name, (budget, period) in kinds.items()}
        named = ["--cpu=3=cpu3", *(f"--thread={kernel.threads[name].pid}={name}" for name in kinds)]
        _, out, err = self.translated(lines, served=served, named=named)
        rows = [(int(at), what, name) for at, _, what, name in (row.split(",") for row in out.splitlines()) if at.isdigit()]
        self.assertEqual(rows, sorted(rows, key=lambda row: row[0]))
        first = kernel.now - rows[-1][0] // 10 if rows else 0
        return [(name, first + at // 10) for at, what, name in rows if what == "start"], err.splitlines()

    def test_each_start_is_the_kernels(self):
        counts = {True: 0, False: 0}
        for seed in range(6):
            kinds = self.KINDS[seed % 2]
            kernel = Kernel(kinds, random.Random(seed), 40_000)
            for timers in (True, False):
                lines = [line for line in kernel.lines if timers or "dl_task_timer" not in line]
                for cut, of in itertools.product(range(0, len(lines), 17), "AB"):
                    for name, at in self.starts(kernel, lines[cut:], {of: kinds[of]})[0]:
                        self.assertIn(at, kernel.begins[name], (seed, timers, cut))
                        counts[timers] += 1
        self.assertGreater(min(counts.values()), 20, counts)

    def test_a_sleep_of_one_period_behind_an_overrun(self):
        """4.1 ms in 20 ms: it works 7.9 ms up to its first sleep, between two ticks, and owes most of the period in which it wakes."""
        chance = mock.Mock(**{"choice.return_value": 1, "randint.side_effect": [0, 790, 2001, 10, 4000, 10, 4000]})
        kinds = {"A": (410, 2000)}
        kernel = Kernel(kinds, chance, 8000)
        self.assertEqual(kernel.begins["A"], {0, 2000, 6801})
        for lines in (kernel.lines, [line for line in kernel.lines if "dl_task_timer" not in line]):
            self.assertEqual(self.starts(kernel, lines[1:], kinds), ([("A", 6801)], []))


class Gaps(Case):
    """A recording goes on behind a gap, as a trace of its own, and the front of it may be passed over."""

    # lines 8 and 18 do not follow from the lines before them; the stretch between them is the longest
    TORN = (SLEEPS, *turn(1), *turn(2), switch("2.500000", "calc 11 S", "sh 7"), *turn(3), *turn(5), *turn(8),
            switch("8.500000", "calc 11 S", "sh 7"), *turn(9))

    def test_where_a_trace_ends(self):
        """Where the recording was stopped: a thread that waits to the end is seen to wait, and what follows the stop is no row. Where no
        mark tells that, it is said."""
        lines, stopped = (SLEEPS, WOKEN, switch("1.000004", "sh 7 R", "calc 11")), mark("1.000010", "stopped")
        for more, words, end, said in (
            ([], [], "4,,end,", "recording:3: no mark says when the recording was stopped"), ([], ["--until=1.000003"], "3,,end,", ""),
            ([stopped], [], "10,,end,", ""), ([stopped], ["--until=1.000007"], "7,,end,", ""), ([stopped], ["--until=2"], "10,,end,", ""),
            ([switch("1.000009", "calc 11 R", "sh 7"), mark("1.200000", "stopped")], [], "9,cpu3,stop, 200000,,end,", ""),
            ([mark("1.200000", "stopped"), switch("1.200001", "calc 11 S", "sh 7")], [], "4,cpu3,run,A 200000,,end,", ""),
        ):
            status, out, err = self.translated([*lines, *more], *words)
            self.assertEqual((status, out.split()[-len(end.split()):], err[:len(said) or None]), (0, end.split(), said))

    def test_from(self):
        lines = [SLEEPS, *turn(1), *turn(2), *turn(3)]
        self.assertEqual(self.translated(lines, "--from=1.000001", served=SERVED)[1], trace(
            "0,cpu3,start,A 5,cpu3,run,A 305,cpu3,stop, 305,cpu3,block,A 1000000,cpu3,wake,A 1000005,cpu3,run,A 1000305,cpu3,stop, "
            "1000305,cpu3,block,A 1000305,,end,"))
        self.assertIn("has no start", self.translated(lines, "--from=2.9", served=SERVED)[2])

    def test_three_stretches(self):
        """All of them, the longest alone, and the pieces that tools/host split cuts them into, with the moments of the recording."""
        status, out, err = self.translated(self.TORN, served=SERVED)
        missing = "no thread of the map has processor 3, and another thread is switched out: an event is missing"
        longest = "recording: whole from 2.500000 until 8.000305, lines 8 to 17"
        self.assertEqual((status, err.splitlines()), (0, [
            f"recording:8: {missing}", f"recording:18: {missing}", "recording: whole from 0.500000 until 2.000305, lines 1 to 7", longest,
            "recording: whole from 8.500000 until 9.000305, lines 18 to 21",
            "recording:21: no mark says when the recording was stopped: the trace ends with the last event, and what waited to the end "
            "may not be seen (docs/use/audit.md)", "recording: 3 traces stand one behind another: tools/host split cuts them"]))
        told = [row for row in out.splitlines() if "start" in row or "end" in row or "what" in row]
        self.assertEqual(told, [row for begin, end in ((0, 1000305), (2000000, 7000305), (8000000, 8000305)) for row in (
            "at,core,what,vcpu", f"{begin},cpu3,start,A", f"{end},,end,")])
        recording, pieces = self.file("trace.csv", out), self.folder / "pieces"
        status, out, err = self.translated(self.TORN, "--longest-whole", served=SERVED)
        self.assertEqual((status, err.splitlines()[2:]), (0, [longest]))
        self.assertEqual((out.splitlines()[1], out.splitlines()[-1]), ("0,cpu3,start,A", "5000305,,end,"))
        file = self.folder / "served.toml"
        self.assertEqual(run("host", "split", recording, pieces, f"--system={file}", "--seconds=900")[0], 0)
        self.assertEqual((pieces / "table.csv").read_text().splitlines()[1:], [
            "piece-000001.csv,0,1000305000,1000305000,A,0,101", "piece-000002.csv,2000000000,7000305000,7000305000,A,2000000000,501",
            "piece-000003.csv,8000000000,8000305000,8000305000,A,8000000000,1", "end,,,8000305000,,,"])
        if program():
            file.write_text(system("cpu3 edf", "A cpu3 edf 10000/1000 t:50000:1"))
            count = "vcpu A begun=603 judged=0 short=0 over=0 least_ns=- most_ns=300000"
            answer = run("host", "audit-all", file, pieces, f"--program={program()}")
            self.assertEqual(answer, (0, f"verdict=yes\nperiods=0\n{count}\n", ""))

    def test_who_does_not_start_behind_a_gap(self):
        """It starts where it sleeps with a mark, and behind the gap it does not sleep: it is missing there, and that is told."""
        lines = [SLEEPS, BEAT_SLEEPS, *turn(1)[:2], wakeup("1.000100", "beat 12"), turn(1)[2], LOST, *turn(2), *turn(3)]
        status, out, err = self.translated(lines, served={"A": "10000/5000", "B": "10000/1"}, named=TWO)
        self.assertEqual((status, out.count("start,A"), out.count("start,B")), (0, 2, 1))
        self.assertIn("whole from 2.000000 until 3.000305, lines 8 to 13, without B\n", err)

    def test_what_is_lost(self):
        """A loss ends a trace with the last event of its processor; it lasts up to the event behind it, so none begins in between. Where
        the second processor's buffer begins later than the first one's, all before that is not whole."""
        status, out, err = self.translated([SLEEPS, *turn(1), *turn(2), wakeup("2.900000", "sh 7", cpu=2), LOST, *turn(3)], served=SERVED)
        self.assertEqual((status, out.splitlines()[-1]), (0, "1000305,,end,"))
        self.assertIn(f"recording:9: events were lost: {LOST}\nrecording: whole from 0.500000 until 2.000305, lines 1 to 7\n", err)
        for begin, gaps in (("1.5", 1), ("2.000000", 1), ("2.000001", 0)):
            err = self.translated([SLEEPS, *turn(1), LOST, *turn(2), *turn(3), *turn(4)], f"--from={begin}", served=SERVED)[2]
            self.assertEqual(err.count("events were lost"), gaps, begin)
        head, begun = "# entries-in-buffer/entries-written: 10/99   #P:4", "##### CPU 2 buffer started ####"
        status, out, err = self.translated([head, SLEEPS, *turn(1), begun, *turn(2), *turn(3)], served=SERVED)
        self.assertEqual((status, out.splitlines()[1]), (0, "0,cpu3,start,A"))
        self.assertIn("recording:1: events were lost: 99 were written and 10 are kept\n", err)
        self.assertIn("recording: whole from 2.000000 until 3.000305, lines 7 to 12\n", err)
        self.rows("# tracer: nop", "# entries-in-buffer/entries-written: 2/2   #P:4", begun, "", SLEEPS, WOKEN)

    def test_how_a_gap_is_seen(self):
        for line in ("##### CPU 2 buffer started ####", "CPU:3 [LOST 12 EVENTS]", "CPU:3 [LOST EVENTS]", "CPU:3 [12 EVENTS DROPPED]",
                     "mine:    CPU:3 [EVENTS DROPPED]"):
            self.gap(2, "lost", WOKEN, line)
        self.gap(1, "lost", "# entries-in-buffer/entries-written: 90/91   #P:4", *[WOKEN] * 90)
        self.gap(2, "missing", RUN, switch("1.000001", "sh 7 R", "cc 8"))
        self.gap(3, "missing", RUN, OUT, switch("1.000002", "calc 11 R", "sh 7"))
        self.gap(3, "wakeup is missing", RUN, ASLEEP, switch("1.000002", "sh 7 R", "calc 11"), switch("1.000003", "calc 11 R", "sh 7"))

    def test_memory(self):
        """60,000 lines that come through a pipe take no more memory than 6,000, but for 2 MB; as they come too."""
        for more in ([], ["--as-it-comes"]):
            used = [peak([f"{line}\n" for line in turns(count, 0.01)], "from-ftrace", "-", *MAP, *more) for count in (2_000, 20_000)]
            self.assertLess(used[1] - used[0], 2_000, used)


class AsItComes(Case):
    """A recording that goes on."""

    def piped(self, lines, *words):
        """A run that has the lines on standard input."""
        return subprocess.run([*AS_IT_COMES, *words], input="\n".join(lines) + "\n", capture_output=True, text=True)

    def test_rows_are_written_while_it_is_read(self):
        """What is 100 ms older than the newest event, and 10 ms that wait for late ones, has been written; in the end the rows are the
        same in nanoseconds. From a pipe they are those of a file."""
        lines = turns(4)
        with subprocess.Popen(AS_IT_COMES, text=True, stdin=subprocess.PIPE, stdout=subprocess.PIPE, stderr=subprocess.PIPE) as ran:
            ran.stdin.write("\n".join(lines[:8]) + "\n")
            ran.stdin.flush()
            front = "".join(ran.stdout.readline() for _ in range(5))
            ran.stdin.write("\n".join(lines[8:]) + "\n")
            ran.stdin.close()
            rest, err = ran.stdout.read(), ran.stderr.read()
        self.assertEqual(front, trace("0,cpu3,start,A 5000,cpu3,run,A 305000,cpu3,stop, 305000,cpu3,block,A", "at_ns"))
        whole = self.rows(*lines)
        told = " ".join(f"{int(at) * 1000},{row}" for at, row in (row.split(",", 1) for row in whole.split()))
        self.assertEqual((ran.returncode, front + rest), (0, trace(told, "at_ns")))
        self.assertIn("no mark says when the recording was stopped", err)
        ran = subprocess.run(AS_IT_COMES[:-1], input="\n".join(lines) + "\n", capture_output=True, text=True)
        self.assertEqual((ran.returncode, ran.stdout), (0, trace(whole)))

    def test_events_that_come_late_are_put_in_order(self):
        """The buffers of two processors, one emptied behind the other; 10 ms late is in time, and more is not."""
        woken = [[wakeup(f"1.0{at}0000", "calc 11"), wakeup(f"1.0{at}0000", "beat 12", cpu=2)] for at in range(5)]
        lines = [SLEEPS, BEAT_SLEEPS, *sum(woken, [])]
        self.assertEqual(self.piped([*lines[:3], lines[4], lines[3], *lines[5:]]).stdout, self.piped(lines).stdout)
        ran = self.piped([*lines[:3], *lines[4:9], lines[3], *lines[9:]])
        self.assertEqual((ran.returncode, "-:9: time falls" in ran.stderr), (1, True))

    def test_a_gap_leaves_a_trace_without_an_end(self):
        """Then tools/host split keeps its pieces that are whole, and goes on with the next trace."""
        lines, file = turns(4), self.file("system.toml", system("cpu3 edf", "A cpu3 edf 10000/1000 t:50000:1"))
        words = [f"--system={file}"]
        ran = self.piped([*lines, LOST, *turn(9), *turn(10)], *words)
        front = self.piped(lines, *words).stdout.rsplit("\n", 2)[0] + "\n"
        self.assertEqual((ran.returncode, ran.stdout.startswith(front)), (0, True), ran.stderr)
        self.assertEqual(ran.stdout.removeprefix(front).splitlines()[:2], ["at_ns,core,what,vcpu", "8800000000,cpu3,start,A"])
        self.assertIn("-:14: events were lost", ran.stderr)
        self.assertEqual(self.piped([*lines, LOST], *words).stdout, front)
        pieces = self.folder / "pieces"
        status, out, err = run("host", "split", self.file("trace.csv", ran.stdout), pieces, *words, "--seconds=0.5")
        self.assertEqual((status, len(out.splitlines()), err), (0, 2, ""))
        self.assertEqual([row[:40] for row in (pieces / "table.csv").read_text().splitlines()[1:]], [
            "piece-000001.csv,0,500000000,500000000,A", "piece-000003.csv,8800000000,8800305000,8", "end,,,8800305000,,,"])


class Refusals(Case):
    def test_lines_that_do_not_serve(self):
        first, head = wakeup("1.000001", "calc 11"), "# entries-in-buffer/entries-written: 3/3   #P:4"
        moved = "     migration/3-25      [003] d..2. 1.000002: sched_migrate_task: comm=calc pid=11 prio=-1 orig_cpu=3 dest_cpu=2"
        self.rows(head, SLEEPS, WOKEN, RUN)
        self.rows(SLEEPS, moved, wakeup("1.000003", "calc 11"))
        self.assertEqual(self.rows(SLEEPS, first, wakeup("1001.000001", "calc 11")).split()[-1], "1000000000,,end,")
        for line, cause, *lines in (
            (None, "its head tells 3 events, and 2 are there", head, SLEEPS, WOKEN), (None, "no event", "# tracer: nop"),
            (1, "processor 5", wakeup("1.000000", "calc 11", cpu=5)), (1, "processor 5", switch("1.000000", "sh 7 R", "calc 11", cpu=5)),
            (1, "processor 5", switch("1.000000", "calc 11 R", "sh 7", cpu=5)),
            (3, "migrates from processor 3 to 2", RUN, ASLEEP, wakeup("1.000002", "calc 11", cpu=2)),
            (3, "migrates from processor 3 to 2", RUN, ASLEEP, switch("1.000002", "cc 8 R", "calc 11", cpu=2)),
            (4, "migrates from processor 3 to 2", SLEEPS, WOKEN, RUN, moved),
            (2, "time falls", first, WOKEN), (3, "1000 seconds", SLEEPS, first, wakeup("1001.000002", "calc 11")),
            (1, "no line", "at, core"), (1, "no line", wakeup("1.0001", "calc 11")),
            (1, "no line", wakeup("9" * 5000 + ".000000", "calc 11")),
            (1, "no text of a sched_wakeup", wakeup("1.000000", "calc " + "1" * 5000)),
            *((1, f"no text of a {what}", f"   <idle>-0  [003] d..2. 1.000000: {what}: calc 11")
              for what in ("sched_switch", "sched_wakeup")),
        ):
            self.is_refused(line, cause, *lines)
        twice = [wakeup("1.000000", "beat 12"), wakeup("1.000001", "beat 13")]
        self.is_refused(2, "12 and 13", *twice, named=[*MAP[:2], "--thread=beat=B"])

    def test_looks(self):
        """A file that is no text of events is refused by what it looks like, with what to do."""
        line = b"            bash-28066   [000] d..2.            3: sched_switch: prev_comm=bash prev_pid=28066\n"
        for content, *causes in (
            (gzip.compress(b"text"), "packed by gzip", "gzip -dc FILE"), (b"\xfd7zXZ\0\0", "packed by xz", "xz -dc FILE"),
            (b"\x28\xb5\x2f\xfd...", "packed by zstd", "zstd -dc FILE"), (b"BZh91AY", "packed by bzip2", "bzip2 -dc FILE"),
            (b"\x17\x08\x44tracing6\0", "trace-cmd's own file", "trace-cmd report"), (b"PERFILE2h\0", "perf's own file", "perf script"),
            (b"\n\r\n", "no event"), (b"", "no event"), (b"at,core,what,vcpu\n0,,end,\n", "a trace already"), (b"abc\0def", "zero bytes"),
            (b"a" * 9_000, "more than 8191 bytes"), (b"# clock: counter\n", "its clock counts no time"),
            (b"# tracer: nop\n" + line, ":2: its clock counts no time", "echo mono > trace_clock"),
        ):
            path = self.folder / "recording"
            path.write_bytes(content)
            status, out, err = run("host", "from-ftrace", path, *MAP)
            self.assertEqual((status, out, [cause for cause in causes if cause not in err]), (1, "", []))

    def test_words_and_files(self):
        cpu, thread = MAP[0], MAP[2]
        for words in (
            [cpu], [thread], ["--cpu=x=cpu3", thread], ["--cpu=3=3", thread], [cpu, "--thread=11=" + "A" * 33], [*MAP, "--thread=12=A"],
            [*MAP, "--cpu=3=cpu4"], [*MAP, "--from=soon"], [*MAP, "--until=-1"],
            *([*MAP, "--as-it-comes", word] for word in ("--any-length", "--longest-whole")),
        ):
            self.assertEqual(run("host", "from-ftrace", "nowhere", *words)[:2], (2, ""), words)
        self.refused("/nowhere/recording", "host", "from-ftrace", "/nowhere/recording", *MAP)
        for text, cause in (("part = 1", "no system file"), (system("cpu3 edf"), "it has no part A")):
            self.refused(f"other.toml: {cause}", "host", "from-ftrace", "nowhere", *MAP, f"--system={self.file('other.toml', text)}")

    def test_what_is_written_where(self):
        """Nothing on a refusal; and a trace of any length where that is said."""
        out = self.folder / "trace"
        told = self.translated([SLEEPS, WOKEN, wakeup("0.9", "calc 11")], f"--out={out}")
        self.assertEqual((*told[:2], told[2][:14], out.exists()), (1, "", "recording:3: n", False))
        self.assertEqual(self.translated([SLEEPS, WOKEN, mark("1.000000", "stopped")], f"--out={out}"), (0, "", ""))
        self.assertEqual(out.read_text(), trace("0,cpu3,start,A 0,,end,"))
        lines = [SLEEPS, wakeup("1.000001", "calc 11"), mark("90001.000001", "stopped")]
        self.assertEqual(self.translated(lines)[:2], (1, ""))
        self.assertEqual(self.translated(lines, "--any-length"), (0, trace("0,cpu3,start,A 90000000000,,end,"), ""))


class Cuts(Case):
    """The recording of the examples, and what is left of it without its first lines: no verdict depends on the cut, since each is refused
    or makes the trace of the whole, where the periods come of the marks or of the system file too."""

    def test_cuts(self):
        lines, whole = (LINUX / "recording.txt").read_text().splitlines(), (LINUX / "trace.csv").read_text()
        first = next(place for place, line in enumerate(lines) if "tracing_mark_write" in line)
        by_file = [f"--system={LINUX / 'reserved.toml'}"]
        found = lambda lines, words: self.translated(lines, *words, named=LINUX_MAP)
        for words in ([], by_file):
            self.assertEqual(run("host", "from-ftrace", LINUX / "recording.txt", *LINUX_MAP, *words), (0, whole, ""))
            told = [found(lines[cut:], words)[1] for cut in range(first + 4)]
            self.assertEqual(told, [whole] * (first + 1) + [""] * 3)
        self.assertEqual({found(lines[cut:], by_file)[:2] for cut in range(first + 4, len(lines), 9)}, {(1, "")})
        behind = [found(lines[:first] + lines[first + cut:], by_file)[1] for cut in range(0, len(lines) - first, 9)]
        self.assertEqual((behind[0], set(behind[1:])), (whole, {""}))
