"""A system file out of the threads that reserve time on a Linux host (SCHED_DEADLINE), as those of KVM's virtual processors.

Without RECORD it looks at each thread of this machine. RECORD is the text of the same, recorded anywhere by

    ps -eLo cls=,tid=,comm= | grep '^ *DLN' |
        while read -r class tid name; do echo "thread $tid $name"; LC_ALL=C chrt -p "$tid"; LC_ALL=C taskset -cp "$tid"; done >RECORD

Each processor to which such threads are bound becomes a core, and each thread a part on it, with its runtime as the budget. A part is
called as its thread, with `-` for each sign that no name has, and the thread's number behind it where that would not tell it from others;
or as --name says. A thread that may use what others leave (SCHED_FLAG_RECLAIM) gets `extra = true`; `chrt` does not print that, so of a
RECORD --extra says it. What the threads of a guest ask for is left open, and `rtadmit admit` refuses the file until that is there. A
thread of which nothing is known but its runtime gets one slot a second by --stand-in.

Refused, by the name of the thread and, where there is one, the line, and nothing written: a deadline below the period; a runtime or a
period that is no whole number of microseconds; a thread that may use more than one processor; a record that lacks something of a thread,
or has other lines."""
import ctypes
import os
import platform
import re
import struct
import sys
from dataclasses import dataclass

from ..command_line import Refused, WrongWords, pairs, several
from ..system_file import LIMIT, NAME, lines_of, part_text, system_text

SCHED_DEADLINE, RECLAIM = 6, 2
GETATTR = {"x86_64": 315, "aarch64": 275, "riscv64": 275}
THREAD = re.compile(r"thread ([0-9]{1,9})(?: (.*))?")
FORMS = {key: re.compile(f"pid ([0-9]{{1,9}})'s current {form}") for key, form in {
    "policy": r"scheduling policy: (\w+)(?:\|\S+)?",
    "priority": "scheduling priority: ([0-9]+)",
    "times": "runtime/deadline/period parameters: ([0-9]{1,19})/([0-9]{1,19})/([0-9]{1,19})",
    "affinity": "affinity list: ([0-9,-]+)",
}.items()}
ABOUT = "The threads of a Linux host under SCHED_DEADLINE, by tools/host from-linux"
HINT = """no thread reserves time (SCHED_DEADLINE). To begin, write a file with a core for each processor and a part for each
thread that is to reserve time, as examples/linux/tick.toml (those of KVM are called CPU 0/KVM and so on: ps -eLo tid,comm), without
budgets; ask rtadmit admit, and let tools/host to-linux print the calls that reserve what it computes (docs/use/guide.md, "Linux \
and KVM")"""


@dataclass
class Thread:
    """A thread: its number, its name, its policy, its times in nanoseconds, the processors that it may use, and its line."""

    tid: int
    name: str | None
    line: int | None = None
    policy: str | None = None
    times: tuple | None = None
    affinity: str | None = None
    reclaims: bool = False

    def __str__(self):
        return f"thread {self.tid} ({self.name})"


# What is recorded
def read_record(path):
    threads = {}
    for line, text in lines_of(path):
        if head := THREAD.fullmatch(text):
            if int(head[1]) in threads:
                raise Refused(path, line, f"thread {head[1]} stands twice")
            threads[int(head[1])] = Thread(int(head[1]), head[2] or "", line)
            continue
        key, found = next(((key, found) for key, form in FORMS.items() if (found := form.fullmatch(text))), (None, None))
        if not found:
            raise Refused(path, line, "no line of a record: neither `thread TID NAME`, nor of `chrt -p`, nor of `taskset -cp`")
        thread = threads.get(int(found[1]))
        if thread is None:
            raise Refused(path, line, f"no line `thread {found[1]} NAME` is above")
        if key != "priority":
            setattr(thread, key, tuple(map(int, found.groups()[1:])) if key == "times" else found[2])
        thread.reclaims |= key == "policy" and "RECLAIM" in text
    for thread in threads.values():
        if thread.policy is None or (thread.policy == "SCHED_DEADLINE" and None in (thread.times, thread.affinity)):
            raise Refused(path, thread.line, f"{thread}: its policy, its times or its processors are missing")
    return [thread for thread in threads.values() if thread.policy == "SCHED_DEADLINE"]


# What this machine has
def list_of(cpus):
    """The text of a set of processors, as taskset prints it."""
    firsts, lasts = ([cpu for cpu in sorted(cpus) if cpu + step not in cpus] for step in (-1, 1))
    return ",".join(str(first) if first == last else f"{first}-{last}" for first, last in zip(firsts, lasts))


def reservation(libc, number, tid):
    """The policy of a thread, its times in nanoseconds, and whether it reclaims. Fails where it has ended, or may not be looked at."""
    held = ctypes.create_string_buffer(48)
    if libc.syscall(number, tid, held, 48, 0) != 0:
        raise OSError(ctypes.get_errno(), os.strerror(ctypes.get_errno()), f"thread {tid}")
    _, policy, flags, _, _, *times = struct.unpack("=IIQiIQQQ", held.raw)
    return policy, tuple(times), bool(flags & RECLAIM)


def read_machine():
    number = GETATTR.get(platform.machine())
    if sys.platform != "linux" or number is None:
        raise Refused("this machine", None, f"no Linux of a known kind ({platform.machine()}): give a RECORD")
    libc, threads = ctypes.CDLL(None, use_errno=True), []
    for process in sorted(filter(str.isdecimal, os.listdir("/proc")), key=int):
        try:
            for tid in sorted(map(int, os.listdir(f"/proc/{process}/task"))):
                found = reservation(libc, number, tid)
                if found[0] == SCHED_DEADLINE:
                    with open(f"/proc/{process}/task/{tid}/comm", errors="surrogateescape") as file:
                        name = file.read().rstrip("\n")
                    threads.append(Thread(tid, name, None, "SCHED_DEADLINE", found[1], list_of(os.sched_getaffinity(tid)), found[2]))
        except (FileNotFoundError, ProcessLookupError):
            continue
    return threads


# The file
def plain(name):
    """A thread's name as a system file may have it, or nothing."""
    return re.sub(r"[^A-Za-z0-9_-]", "-", name) if re.match("[A-Za-z]", name) else ""


def names_of(threads, given):
    """The name of each thread's part: as given, else its own where only it has that, else with its number."""
    taken = [plain(thread.name) for thread in threads] + list(given.values())
    names = {}
    for thread in threads:
        own = plain(thread.name)
        alone = NAME.fullmatch(own) and taken.count(own) == 1 and not re.fullmatch("cpu[0-9]+", own)
        names[thread.tid] = given.get(thread.tid, own if alone else f"{own or 'thread'}-{thread.tid}")
    return names


def wrong_with(thread):
    runtime, deadline, period = thread.times
    if deadline < period:
        return f"has a deadline of {deadline} ns, below its period of {period}: a part has its budget by the end of its period"
    for what, value in (("runtime", runtime), ("period", period)):
        if value % 1000:
            return f"has a {what} of {value} ns, which is no whole number of microseconds"
    if not 1000 <= runtime <= period <= deadline or period > LIMIT * 1000:
        return f"has not 1 <= runtime <= period <= {LIMIT} microseconds"
    if not thread.affinity.isdecimal():
        return f"may use the processors {thread.affinity}: give it one of its own by a cpuset (docs/use/guide.md)"
    return None


def text_of(where, threads, given, stand_ins, left_out, extras):
    for tid in [*given, *left_out]:
        if tid not in {thread.tid for thread in threads}:
            raise Refused(where, None, f"no thread {tid} reserves time, and a word tells of it")
    more = [f"{thread.name!a}, thread {thread.tid}, is left out." for thread in threads if thread.tid in left_out]
    threads = [thread for thread in threads if thread.tid not in left_out]
    if not threads:
        raise Refused(where, None, HINT)
    names, parts = names_of(threads, given), []
    for option, words in (("--stand-in", stand_ins), ("--extra", extras)):
        for name in words:
            if name not in names.values():
                raise Refused(where, None, f"no part is {name}, which {option} tells")
    for thread in threads:
        if cause := wrong_with(thread):
            raise Refused(where, thread.line, f"{thread} {cause}")
        name, (runtime, _, period) = names[thread.tid], thread.times
        about = f"thread {thread.tid}, which is called {thread.name!a}"
        extra = thread.reclaims or name in extras
        parts.append(part_text(about, name, f"cpu{int(thread.affinity)}", period // 1000, runtime // 1000, extra, name in stand_ins))
    return system_text(ABOUT, "the kernel", more, (int(thread.affinity) for thread in threads), parts)


def add_words(parser):
    parser.add_argument("record", nargs="?", metavar="RECORD", help="what was recorded; without it this machine is looked at")
    several(parser, "--name", "TID=NAME", "a name for the part of a thread")
    several(parser, "--stand-in", "NAME", "a part of which only the runtime is known")
    several(parser, "--extra", "NAME", "a part whose thread may use what others leave")
    several(parser, "--without", "TID", "a thread to leave out", type=int)


def run(given):
    names = pairs(given.name, "--name")
    for tid, name in names.items():
        if not re.fullmatch("[0-9]{1,9}", tid) or not NAME.fullmatch(name):
            raise WrongWords(f"--name {tid}={name} is not TID=NAME, with a name of 1 to 32 letters, digits, _ and -, a letter first")
    threads = read_machine() if given.record is None else read_record(given.record)
    where = given.record or "this machine"
    return text_of(where, threads, {int(tid): name for tid, name in names.items()}, given.stand_in, given.without, given.extra)
