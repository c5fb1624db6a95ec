"""Records what a Linux kernel does with threads that have a runtime in every period (SCHED_DEADLINE).

A THREAD is NAME@CPU=RUNTIME/PERIOD, which runs whenever it is let, or NAME@CPU=RUNTIME/PERIOD/WORK, which works that long and then sleeps
to its next period. With --random it works as guests do that halt: for a random time up to WORK, and then it sleeps for a random time up to
two periods, in step with nothing; a SEED gives the same times again. All times are microseconds. OUT gets the text of the kernel's trace
buffer: the switches and wakeups of these threads, which tools/host from-ftrace turns into a trace (docs/use/audit.md).

A recording in which a switch is missing, by the rules of tools/host from-ftrace, is made again, up to N times in all; where the last one
has a gap too it is written, and standard error tells the line. Root is needed. Everything is put back as it was, also where the recording
fails or is stopped (SIGINT, SIGTERM, SIGHUP); nothing is written then. The status is 1 where OUT can't be written; 3 where the machine
does not allow the recording, with the cause on standard error; and 128 + the signal where it was stopped."""
import argparse
import contextlib
import ctypes
import os
import pathlib
import platform
import random
import re
import signal
import struct
import sys
import tempfile
import time
from collections import namedtuple

from ..command_line import Refused, ended
from .from_ftrace import Map, Rows, translate

REFUSED = 3
SETATTR = {"x86_64": 314, "aarch64": 274, "riscv64": 274}
SCHED_DEADLINE, SET_DEATH_SIGNAL, SET_NAME = 6, 1, 15
PREFIX, BUFFER_KB = "rtadmit", 4096
STOPS = (signal.SIGINT, signal.SIGTERM, signal.SIGHUP)
LIBC = ctypes.CDLL(None, use_errno=True)


class NotAllowed(Refused):
    """The machine does not allow what the recording needs."""

    def __init__(self, cause):
        super().__init__(None, None, cause)


class Stopped(Exception):
    """A signal asked for an early end: its number."""


class Thread(namedtuple("Thread", "name cpu runtime period work")):
    """A thread to record: its reservation, and its work in each period where it sleeps. Microseconds."""

    def reserve(self):
        """Puts the caller under SCHED_DEADLINE. Answers 0 or the number of the error."""
        number = SETATTR.get(platform.machine())
        if number is None:
            return 38
        wanted = struct.pack("=IIQiIQQQ", 48, SCHED_DEADLINE, 0, 0, 0, self.runtime * 1000, self.period * 1000, self.period * 1000)
        return 0 if LIBC.syscall(number, 0, wanted, 0) == 0 else ctypes.get_errno()

    def asleep_mark(self, pid):
        return f"asleep comm={self.name} pid={pid} cpu={self.cpu} runtime={self.runtime} period={self.period}"

    def random_times(self, seed):
        """How long a thread that halts as guests do works and then sleeps, again and again: the same for the same seed and name."""
        chance = random.Random(f"{seed} {self.name}")
        while True:
            yield chance.randint(1, self.work), chance.randint(1, 2 * self.period)

    def live(self, start, seed):
        """Works, from a moment in nanoseconds on, and sleeps where it has a work: to its next period, or for random times."""
        while self.work is None:
            pass
        for work, sleep in self.random_times(seed) if seed is not None else ():
            spend(work)
            time.sleep(sleep / 1e6)
        while True:
            spend(self.work)
            start += self.period * 1000
            time.sleep(max(0, start - time.monotonic_ns()) / 1e9)


def thread_of(text):
    """The thread that a word of the command line asks for."""
    found = re.fullmatch(r"([A-Za-z][A-Za-z0-9_-]{0,14})@(\d+)=(\d+)/(\d+)(?:/(\d+))?", text)
    if not found:
        raise argparse.ArgumentTypeError(f"{text!r} is not NAME@CPU=RUNTIME/PERIOD or NAME@CPU=RUNTIME/PERIOD/WORK")
    thread = Thread(found[1], *(number and int(number) for number in found.groups()[1:]))
    if not 2 <= thread.runtime <= thread.period <= 4_000_000:
        raise argparse.ArgumentTypeError(f"{text!r}: not 2 <= RUNTIME <= PERIOD <= 4000000")
    if thread.work is not None and not 1 <= thread.work <= thread.runtime:
        raise argparse.ArgumentTypeError(f"{text!r}: not 1 <= WORK <= RUNTIME")
    return thread


def spend(microseconds):
    """Works until the caller has had the processor for so long."""
    until = time.thread_time_ns() + microseconds * 1000
    while time.thread_time_ns() < until:
        pass


# Files of the kernel
def read(path):
    with open(path) as file:
        return file.read().strip()


def write(path, text):
    """Writes to a file of the kernel; its refusal is told with the file and what was asked."""
    try:
        with open(path, "w") as file:
            file.write(str(text))
    except OSError as fault:
        raise NotAllowed(f"{path}: {text!r} is refused: {fault.strerror}") from None


def make(stack, folder):
    """A folder of the kernel's, which goes away with the stack."""
    try:
        os.mkdir(folder)
    except FileExistsError:
        raise NotAllowed(f"{folder} is there: another recording runs, or one was killed (docs/use/audit.md)") from None
    except OSError as fault:
        raise NotAllowed(f"{folder} can't be made: {fault.strerror}") from None
    stack.callback(remove, folder)


def remove(folder):
    """A group is busy for a moment after its last thread died."""
    for _ in range(100):
        try:
            return os.rmdir(folder)
        except FileNotFoundError:
            return None
        except OSError:
            time.sleep(0.02)
    return print(f"{folder} could not be removed; rmdir it", file=sys.stderr)


def change(stack, path, text):
    """Writes to a setting of the kernel's, which gets its old value back with the stack."""
    old = read(path)
    if old != str(text):
        stack.callback(write, path, old)
        write(path, text)


# The core's own cpuset
def mounted(mounts, kind, option=None):
    """Where a filesystem of a kind is mounted, by the text of /proc/mounts."""
    rows = (line.split()[1:4] for line in mounts.splitlines())
    return next((folder for folder, found, options in rows if found == kind and option in (None, *options.split(","))), None)


def cpus_of(text):
    """The processors of a list such as 0-2,5."""
    ranges = (piece.partition("-") for piece in filter(None, text.split(",")))
    return {cpu for first, _, last in ranges for cpu in range(int(first), int(last or first) + 1)}


def own_cores(stack, mounts, cpus):
    """Gives each processor a cpuset of its own. Answers the file that takes a thread's id, by processor."""
    first, second = mounted(mounts, "cgroup", "cpuset"), mounted(mounts, "cgroup2")
    if first:
        return own_cores_first(stack, first, cpus)
    if second and "cpuset" in read(f"{second}/cgroup.controllers").split():
        return own_cores_second(stack, second, cpus)
    raise NotAllowed("no cpuset controller is mounted, neither of the first nor of the second version of control groups")


def own_cores_first(stack, root, cpus):
    """The first version: the root stops balancing over all processors, and the others get a set too, to be balanced."""
    rest = cpus_of(read(f"{root}/cpuset.cpus")) - set(cpus)
    change(stack, f"{root}/cpuset.cpu_exclusive", 1)
    for name, members in [*((str(cpu), [cpu]) for cpu in cpus), *[("rest", sorted(rest))] * bool(rest)]:
        folder = f"{root}/{PREFIX}_{name}"
        make(stack, folder)
        write(f"{folder}/cpuset.cpus", ",".join(map(str, members)))
        write(f"{folder}/cpuset.mems", read(f"{root}/cpuset.mems"))
        write(f"{folder}/cpuset.cpu_exclusive", 1)
    change(stack, f"{root}/cpuset.sched_load_balance", 0)
    return {cpu: f"{root}/{PREFIX}_{cpu}/tasks" for cpu in cpus}


def own_cores_second(stack, root, cpus):
    """The second version: a partition is a set of processors of its own."""
    if "cpuset" not in read(f"{root}/cgroup.subtree_control").split():
        stack.callback(write, f"{root}/cgroup.subtree_control", "-cpuset")
        write(f"{root}/cgroup.subtree_control", "+cpuset")
    for cpu in cpus:
        folder = f"{root}/{PREFIX}_{cpu}"
        make(stack, folder)
        write(f"{folder}/cpuset.cpus", cpu)
        write(f"{folder}/cpuset.cpus.partition", "root")
        state = read(f"{folder}/cpuset.cpus.partition")
        if state != "root":
            raise NotAllowed(f"{folder} is no partition of its own: {state}")
    return {cpu: f"{root}/{PREFIX}_{cpu}/cgroup.procs" for cpu in cpus}


# The trace buffer
def mount_tracefs(stack, mounts):
    """Where the trace filesystem is; it is mounted for the time where it is nowhere."""
    folder = mounted(mounts, "tracefs")
    if folder is None:
        folder = tempfile.mkdtemp(prefix=PREFIX)
        stack.callback(os.rmdir, folder)
        if LIBC.mount(b"tracefs", folder.encode(), b"tracefs", 0, None) != 0:
            raise NotAllowed(f"the trace filesystem can't be mounted: {os.strerror(ctypes.get_errno())}")
        stack.callback(LIBC.umount, folder.encode())
    return folder


def own_buffer(stack, tracefs):
    folder = f"{tracefs}/instances/{PREFIX}"
    make(stack, folder)
    for name, text in (("tracing_on", 0), ("buffer_size_kb", BUFFER_KB), ("trace_clock", "mono")):
        write(f"{folder}/{name}", text)
    return folder


def choose_events(buffer, pids):
    switch = " || ".join(f"prev_pid=={pid} || next_pid=={pid}" for pid in pids)
    wakeup = " || ".join(f"pid=={pid}" for pid in pids)
    for event, chosen in (("sched_switch", switch), ("sched_wakeup", wakeup), ("sched_migrate_task", wakeup)):
        write(f"{buffer}/events/sched/{event}/filter", chosen)
        write(f"{buffer}/events/sched/{event}/enable", 1)


def mark(buffer, text):
    write(f"{buffer}/trace_marker", f"rtadmit: {text}\n")


def whole(buffer):
    for folder in sorted(os.listdir(f"{buffer}/per_cpu")):
        for line in read(f"{buffer}/per_cpu/{folder}/stats").splitlines():
            what, _, count = line.partition(": ")
            if what in ("overrun", "commit overrun", "dropped events") and count != "0":
                raise NotAllowed(f"events were lost on {folder}: {line}; record fewer seconds or fewer threads")
    return read(f"{buffer}/trace") + "\n"


# The processes of the recorder's: they end with it, and by nothing else
def child(stack, live):
    """A process that lives so, and is ended with the stack: its number."""
    pid = os.fork()
    if pid == 0:
        try:
            for number in STOPS:
                signal.signal(number, signal.SIG_IGN)
            LIBC.prctl(SET_DEATH_SIGNAL, signal.SIGKILL, 0, 0, 0)
            live()
        finally:
            os._exit(1)
    stack.callback(end, pid)
    return pid


def end(pid):
    with contextlib.suppress(ProcessLookupError):
        os.kill(pid, signal.SIGKILL)
    os.waitpid(pid, 0)


def fill(tasks):
    """Runs on a core where nothing else does."""
    LIBC.prctl(SET_NAME, b"filler", 0, 0, 0)
    os.sched_setscheduler(0, os.SCHED_IDLE, os.sched_param(0))
    write(tasks, os.getpid())
    while True:
        pass


def check_state(pid, state, cause):
    """Refuses a process that is not in a state, by the text of its /proc/PID/stat: the name before it may hold anything."""
    if read(f"/proc/{pid}/stat").rpartition(")")[2].split()[0] != state:
        raise NotAllowed(cause)


class Child:
    """A recorded thread, seen from the recorder: it reserves, tells so, sleeps until the recording is on, and then runs."""

    def __init__(self, stack, thread, seed):
        self.thread = thread
        self.ready, ready = os.pipe()
        go, self.go = os.pipe()

        def live():
            LIBC.prctl(SET_NAME, thread.name.encode(), 0, 0, 0)
            os.read(go, 1)
            os.write(ready, bytes([thread.reserve()]))
            thread.live(int.from_bytes(os.read(go, 8), "little"), seed)

        self.pid = child(stack, live)
        for number in (ready, go):
            os.close(number)
        for number in (self.ready, self.go):
            stack.callback(os.close, number)

    def reserve(self, tasks):
        """Moves the thread to its core and lets it reserve its time."""
        write(tasks, self.pid)
        os.write(self.go, b"r")
        error = (os.read(self.ready, 1) or b"\x03")[0]
        if error != 0:
            raise NotAllowed(f"SCHED_DEADLINE is refused for {self.thread.name}: {os.strerror(error)}")

    def check_asleep(self):
        """The mark is to be true."""
        check_state(self.pid, "S", f"{self.thread.name} does not sleep before the recording")

    def start(self):
        os.write(self.go, time.monotonic_ns().to_bytes(8, "little"))


# The recording
class Pause:
    """Waits, and ends early by an exception where a signal asked for it. A signal acts nowhere else, so no step is cut."""

    def __init__(self):
        self.asked = None
        for number in STOPS:
            signal.signal(number, self.ask)

    def ask(self, number, _):
        self.asked = number

    def wait(self, seconds):
        until = time.monotonic() + seconds
        while time.monotonic() < until:
            if self.asked is not None:
                raise Stopped(self.asked)
            time.sleep(max(0, min(0.02, until - time.monotonic())))


def run_marked(buffer, children, seconds, pause):
    """Lets the threads run for so long, between the marks that say that they slept and that the recording was stopped."""
    for child in children:
        child.check_asleep()
    write(f"{buffer}/tracing_on", 1)
    for child in children:
        mark(buffer, child.thread.asleep_mark(child.pid))
    for child in children:
        child.start()
    pause.wait(seconds)
    mark(buffer, "stopped")
    write(f"{buffer}/tracing_on", 0)


def record(threads, seconds, seed, pause):
    """The text of the trace buffer after the threads ran for so long."""
    cpus = sorted({thread.cpu for thread in threads})
    with contextlib.ExitStack() as stack:
        mounts = read("/proc/mounts")
        buffer = own_buffer(stack, mount_tracefs(stack, mounts))
        tasks = own_cores(stack, mounts, cpus)
        longest = max(thread.period for thread in threads) / 1e6
        # the kernel takes a reservation off its cores up to a period after its thread has ended, and not off other cores
        stack.callback(time.sleep, longest + 0.1)
        children = [Child(stack, thread, seed) for thread in threads]
        for each in children:
            each.reserve(tasks[each.thread.cpu])
        fillers = {cpu: child(stack, lambda file=file: fill(file)) for cpu, file in tasks.items()}
        # the recorder stays off the recorded processors, where there are others, so that all threads start at once
        if others := os.sched_getaffinity(0) - set(cpus):
            os.sched_setaffinity(0, others)
        pause.wait(2 * longest)
        for cpu, pid in fillers.items():
            check_state(pid, "R", f"the filler of processor {cpu} does not run")
        choose_events(buffer, [each.pid for each in children])
        run_marked(buffer, children, seconds, pause)
        return whole(buffer)


def gaps_of(text, threads):
    gaps, named = [], Map("", {thread.cpu: f"cpu{thread.cpu}" for thread in threads}, {thread.name: thread.name for thread in threads})
    with tempfile.TemporaryFile("w+") as file, contextlib.suppress(Refused):
        translate(enumerate(text.splitlines(), 1), named, Rows("", file), missing=gaps.append)
    return gaps


def record_whole(given, pause):
    """The text of the first recording without a gap, or of the last that is tried."""
    for _ in range(given.tries):
        text = record(given.threads, given.seconds, given.random, pause)
        gaps = gaps_of(text, given.threads)
        if not gaps:
            return text
    told = f"of the last one, in {given.out}, line {gaps[0].line}: {gaps[0]}"
    print(f"an event is missing in each of {given.tries} recordings; {told}", file=sys.stderr)
    return text


def several(text):
    if not text.isdecimal() or int(text) == 0:
        raise argparse.ArgumentTypeError(f"{text!r} is no whole number from 1 on")
    return int(text)


def add_words(parser):
    parser.add_argument("out", metavar="OUT", help="gets the text of the trace buffer")
    parser.add_argument("threads", nargs="+", type=thread_of, metavar="THREAD", help="NAME@CPU=RUNTIME/PERIOD[/WORK]")
    parser.add_argument("--seconds", type=float, default=2, metavar="S", help="for how long; 2 where it is not said")
    parser.add_argument("--random", type=int, metavar="SEED", help="threads with a WORK work and sleep as guests that halt do")
    parser.add_argument("--tries", type=several, default=8, metavar="N", help="how often to record at the most, until no event is missing")


def run(given):
    if len({thread.name for thread in given.threads}) < len(given.threads):
        given.refuse("two threads have one name")
    try:
        text = record_whole(given, Pause())
    except Stopped as stopped:
        print("stopped, and nothing is written", file=sys.stderr)
        return 128 + stopped.args[0]

    def write_out():
        pathlib.Path(given.out).write_text(text)

    return ended(write_out)
