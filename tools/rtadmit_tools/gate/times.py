"""Passes the lines of a gate on, each stamped with the seconds since it began, and prints what each crate cost at the end.

    bash .ci/run 2>&1 | tools/gate times

Once a second it reads from /proc the processor time of what the gate has started: of each check of the proof of a crate, of its tests, of
a wrong body (its check runs in a temporary folder rt-edit-*), and of each build of a proved program. What ended between two readings
counts as at the last one, so a process that takes less than a second may be missed. `gate` is all that the gate's processes and those
before them have taken, by the kernel's own count, and `other` what of it is none of the above: the programs, their tests and the tools.

The status is that of this verb; `set -o pipefail` gives that of the gate."""
import os
import pathlib
import re
import sys
import threading
import time
from collections import defaultdict

KINDS = ("proof", "tests", "wrong bodies", "programs")
EVERY = 1.0


class Process:
    """What /proc says of a process: who started it, its words, its folder, and the ticks that it has taken, alone and with its children
    that have ended."""

    def __init__(self, proc, pid):
        at = pathlib.Path(proc, pid)
        stat = (at / "stat").read_text(encoding="utf-8", errors="replace")
        numbers = stat[stat.rindex(")") + 2 :].split()
        self.pid, self.parent = int(pid), int(numbers[1])
        self.ticks, self.start = sum(map(int, numbers[11:14])), int(numbers[19])
        self.words = (at / "cmdline").read_bytes().decode(errors="replace").split("\0")[:-1]
        self.folder, *self.outputs = (link_of(at / name) for name in ("cwd", "fd/1", "fd/2"))

    def what(self):
        """The crate and the kind of a check or a build, or None."""
        words = self.words
        is_rattle = os.path.basename("".join(words[:1])) == "rattle" and words[1:2] in (["check"], ["build"])
        if not is_rattle or "--crate-name" not in words[:-1]:
            return None
        edit = re.search(r"/rt-edit-[^/]*( \(deleted\))?$", self.folder)
        kind = "wrong bodies" if edit else "tests" if "--test" in words else "programs" if "--crate-checked" in words else "proof"
        return words[words.index("--crate-name") + 1], kind


def link_of(path):
    try:
        return os.readlink(path)
    except OSError:
        return ""


def processes(proc):
    for name in filter(str.isdigit, os.listdir(proc)):
        try:
            yield Process(proc, name)
        except (OSError, ValueError, IndexError):
            continue


class Meter:
    """The processor time of the gate before a pipe, reading by reading."""

    def __init__(self, proc, pipe, own):
        self.proc, self.pipe, self.own = proc, pipe, own
        # by process and its start the most ticks seen: of each check, with its crate and kind, and of the gate's first processes
        self.checks, self.gates = {}, {}

    def read(self):
        found, below = {it.pid: it for it in processes(self.proc)}, defaultdict(list)
        for it in found.values():
            below[it.parent].append(it)
        before = {pid for pid, it in found.items() if pid != self.own and self.pipe in it.outputs}

        def taken(it):
            return it.ticks + sum(map(taken, below[it.pid]))

        def walk(it):
            if what := it.what():
                known = self.checks.get((it.pid, it.start), (what, 0))
                self.checks[it.pid, it.start] = known[0], max(known[1], taken(it))
            else:
                for child in below[it.pid]:
                    walk(child)

        for it in [found[pid] for pid in before if found[pid].parent not in before]:
            key = it.pid, it.start
            self.gates[key] = max(self.gates.get(key, 0), taken(it))
            walk(it)

    def table(self, second, elapsed):
        crates = defaultdict(lambda: dict.fromkeys(KINDS, 0))
        for (crate, kind), ticks in self.checks.values():
            crates[crate][kind] += ticks
        rows = [(name, [*row.values()]) for name, row in sorted(crates.items(), key=lambda it: -sum(it[1].values()))]
        total = [sum(row[place] for _, row in rows) for place in range(len(KINDS))]
        gate = max(sum(self.gates.values()), sum(total))
        lines = [f"{'crate':<18}" + "".join(f"{kind + ' s':>16}" for kind in (*KINDS, "sum"))]
        for name, row in [*rows, ("all crates", total)]:
            lines.append(f"{name:<18}" + "".join(f"{it / second:>16.0f}" for it in [*row, sum(row)]))
        return [*lines, f"other {(gate - sum(total)) / second:.0f} s, gate {gate / second:.0f} s of processor time, in {elapsed:.0f} s"]


def run(given):
    began, ended = time.monotonic(), threading.Event()
    meter = Meter("/proc", os.readlink("/proc/self/fd/0"), os.getpid())

    def sample():
        while not ended.wait(EVERY):
            meter.read()

    meter.read()
    sampler = threading.Thread(target=sample, daemon=True)
    sampler.start()
    for line in sys.stdin.buffer:
        print(f"{time.monotonic() - began:8.1f} {line.decode(errors='replace').rstrip()}", flush=True)
    ended.set()
    sampler.join()
    return "\n".join(meter.table(os.sysconf("SC_CLK_TCK"), time.monotonic() - began)) + "\n"
