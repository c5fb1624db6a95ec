"""Prints the calls of `chrt` that let each thread reserve the budget with which its part of a system file is admitted.

It asks the program and prints for each core its share, beside the kernel's limit, and a call for each part on it: thread TID gets the
budget as its runtime, and the period as its period and its deadline, in nanoseconds. -R lets the thread make others, which get no
reservation; without it the kernel refuses that. A part that stands on a part is a reservation inside its guest, and has no call. `extra`
says nothing here. --without names a part that is no thread, as one that stands for what the kernel keeps for others: it has no call, and
does not count as reserved.

--tick adds to each runtime what a kernel without HRTICK can be late in stopping a thread: one tick, as 4000 with 250 ticks a second. The
kernel takes back in later periods what a thread ran too long, so without it a thread may lack up to a tick in a period. A thread
may use its tick, so an audit with FILE calls it `over` where its part has no `extra`; --audit writes the file to audit such a host with,
which is FILE with `extra = true` for each thread. --limit is what the kernel lets all threads of a core reserve: kernel.sched_rt_runtime_us
of every kernel.sched_rt_period_us, less the 5% that a newer kernel keeps for ordinary threads; else it is 900000/1000000.

Refused, with the file and the line, and nothing printed: a file that is not admitted; a part on a core that has no thread in the map, and
a name in the words that is no such part; a runtime below 1024 ns or, with the tick, above the period; a period that is not 100 to 4194304
microseconds; a core whose parts reserve more than the limit; a core that is not a whole processor under edf, as Linux has it."""
import copy
import pathlib
import re
from fractions import Fraction

from ..command_line import Refused, WrongWords, pairs, several
from ..places import rewritten
from ..program import add_program, program_of
from ..system_file import System, admitted, read_system

LEAST_NS = 1024
PERIODS = (100, 4_194_304)
TID = re.compile("[1-9][0-9]{0,8}")


def runtime_of(path, server, tick):
    least, most = PERIODS
    if not least <= server.period <= most:
        raise Refused(path, server.line, f"{server.name} has a period of {server.period}, and the kernel takes {least} to {most}")
    if (server.budget + tick) * 1000 < LEAST_NS:
        cause = f"{server.name} has a budget of {server.budget} microseconds, and the kernel takes {LEAST_NS} ns and more"
        raise Refused(path, server.line, f"{cause}: write budget = 2 into the file, and ask again")
    if server.budget + tick > server.period:
        cause = f"its budget of {server.budget} and a tick of {tick} pass its period of {server.period}: give it a longer one"
        raise Refused(path, server.line, f"{server.name}: {cause}")
    return server.budget + tick


def percent(share):
    tenths = -(-share * 1000 // 1)
    return f"{tenths // 10}.{tenths % 10}%"


def calls(path, program, threads, without, tick, limit):
    cores, every, _ = admitted(path, program, "Linux")
    for option, names in (("--map", threads), ("--without", without)):
        if unknown := [name for name in names if name not in [server.name for server in every]]:
            raise Refused(path, None, f"no part on a core is {unknown[0]}, which {option} tells")
    told = []
    for core in cores:
        servers = [server for server in every if server.core == core and server.name not in without]
        share, lines = Fraction(0), []
        for server in servers:
            if server.name not in threads:
                raise Refused(path, server.line, f"{server.name} has no thread: --map {server.name}=TID")
            runtime = runtime_of(path, server, tick)
            share += Fraction(runtime, server.period)
            period = server.period * 1000
            lines.append(f"chrt -R -d -T {runtime * 1000} -D {period} -P {period} -p 0 {threads[server.name]}\n")
        if share > limit:
            cause = f"{core}: its parts reserve {percent(share)}, and the kernel grants {percent(limit)} (--limit)"
            raise Refused(path, servers[0].line, cause)
        told += [f"# {core}: {percent(share)} of at most {percent(limit)}\n", *lines] if servers else []
    if tick and any(not server.extra for server in every if server.name in threads):
        told.append("# an audit lets the tick pass where a part has extra = true (--audit)\n")
    return "".join(told)


def audited(path, names):
    """The file with which a host of threads that may use a tick more is audited."""
    system = read_system(path)
    tree = copy.deepcopy(system.tree)
    for part in tree["part"]:
        part.update({"extra": True} if part["name"] in names else {})
    return rewritten(pathlib.Path(path).read_bytes().decode(), system, System(path, tree))


def add_words(parser):
    parser.add_argument("file", metavar="FILE", help="the system file")
    several(parser, "--map", "NAME=TID", "the thread of a part", required=True)
    several(parser, "--without", "NAME", "a part that is no thread")
    parser.add_argument("--tick", type=int, default=0, metavar="MICROSECONDS", help="what the kernel may be late (0)")
    parser.add_argument("--audit", metavar="OUT", help="gets the file with which a host set with a tick is audited")
    parser.add_argument("--limit", default="900000/1000000", metavar="RUNTIME/PERIOD", help="what the kernel lets a core's threads reserve")
    add_program(parser)


def run(given):
    threads = pairs(given.map, "--map")
    limit = re.fullmatch("([0-9]{1,9})/([1-9][0-9]{0,8})", given.limit)
    for is_wrong, told in (
        *((not TID.fullmatch(tid), f"--map {name}={tid}: {tid!r} is no number of a thread") for name, tid in threads.items()),
        *((name in threads, f"--without {name}: --map gives it a thread") for name in given.without),
        (not limit or int(limit[1]) > int(limit[2]), f"--limit {given.limit!r} is not RUNTIME/PERIOD, with a runtime up to the period"),
        (not 0 <= given.tick <= 1_000_000, "--tick is not from 0 to 1000000"),
    ):
        if is_wrong:
            raise WrongWords(told)
    told = calls(given.file, program_of(given.program), threads, given.without, given.tick, Fraction(int(limit[1]), int(limit[2])))
    if given.audit:
        pathlib.Path(given.audit).write_text(audited(given.file, threads), newline="")
    return told
