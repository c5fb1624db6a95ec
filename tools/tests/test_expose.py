"""Tests of tools/host expose: the workload by a plain run of RTDS that stands here, refusals, and what it prints with the program."""
import contextlib
import csv
import re
import shlex

import support
from support import needs_program, program, run, system, top


def cores_text(*cores):
    """A system of cores, each with its VCPUs as periods and budgets."""
    return system(*(f"c{core} edf" for core in range(len(cores))), *(
        f"c{core}v{place} c{core} edf {period}/{budget} any:1000000:1"
        for core, vcpus in enumerate(cores) for place, (period, budget) in enumerate(vcpus)))


def run_of(core, rows, slots):
    """Who has the core at each slot, by places: of those that are started, not blocked and have budget left the one whose period ends
    first, and of several the first."""
    starts, asleep, had, held = {}, set(), {}, []
    for slot in range(slots):
        for at, place, what in rows:
            if at == slot and what == "start":
                starts[place] = slot
            elif at == slot:
                (asleep.add if what == "block" else asleep.discard)(place)
        able = []
        for place in starts.keys() - asleep:
            period, budget = core[place]
            number = (slot - starts[place]) // period
            if had.get((place, number), 0) < budget:
                able.append((starts[place] + (number + 1) * period, place, number))
        _, *holder = min(able, default=(None,))
        if holder:
            had[tuple(holder)] = had.get(tuple(holder), 0) + 1
        held.append(holder[0] if holder else None)
    return held


def is_by_block(pairs, place):
    """Whether no number of slots of a VCPU's period is enough for it and all others, also where ties go to the first in the file."""
    period, budget = pairs[place]
    taken = lambda other, slots: slots // pairs[other][0] * pairs[other][1] + min(pairs[other][1], slots % pairs[other][0])
    others = [other for other in range(len(pairs)) if other != place]
    return not any(budget + sum(taken(other, slots - (other > place)) for other in others) <= slots for slots in range(budget, period + 1))


class Expose(support.Case):
    def expose(self, answers, place, core):
        """The status, what is printed, the workload, and what is complained of, with a program that answers so."""
        file, out = self.file("system.toml", cores_text(core)), self.folder / "out.csv"
        out.unlink(missing_ok=True)
        status, told, err = self.ran("host", "expose", file, f"c0v{place}", out, "--program", self.asked(answers))
        return status, told, out.read_text() if out.exists() else None, err

    def workload(self, core, place):
        """The rows of the workload of a VCPU that others expose as they block, by places; its slots, and where the short period begins."""
        parts = "".join(f"part c0v{at} period={period} budget={budget} given\n" for at, (period, budget) in enumerate(core))
        _, out, text, err = self.expose({
            "isolate": (1, f"verdict=no\nexposed c0v{place} by=block\n"), "admit": f"verdict=yes\n{parts}", "rtds": "",
            "tally": (1, f"verdict=no\nvcpu c0v{place} begun=3 judged=1 short=1 over=0 least_ns=0 most_ns=0\n")}, place, core)
        self.assertEqual(err, "")
        header, *rows = csv.reader(text.splitlines())
        self.assertEqual(header, ["at", "vcpu", "what"])
        slots, begins = re.search(r", (\d+) slots\nshort \S+ from_ns=(\d+)000 got_ns=0 ", out).groups()
        return [(int(at), int(name[3:]), what) for at, name, what in rows], int(slots), int(begins)

    def test_by_hand(self):
        """(4, 2) before (6, 3): the first takes two whole budgets of the last six slots, and two are left where three are needed. With the
        other one behind it in the file, whose period ends a slot before."""
        rows = [(0, 1, "start"), (1, 1, "block"), (2, 0, "start"), (3, 0, "block"), (12, 0, "wake"), (12, 1, "wake")]
        self.assertEqual(self.workload(((4, 2), (6, 3)), 1), (rows, 18, 12))
        self.assertEqual(run_of(((4, 2), (6, 3)), rows, 18)[12:], [0] * 4 + [1] * 2)
        self.assertIn((17 % 4, 1, "start"), self.workload(((6, 3), (4, 2)), 0)[0])

    def test_each_that_is_exposed_is_short(self):
        """All cores of two with periods up to 8 whose shares fit, and some of three, by the plain run."""
        count, some = 0, [(period, budget) for period in range(2, 9) for budget in range(1, period)]
        cores = [[one, two] for one in some for two in some] + [[one, two, (5, 1)] for one in some[::2] for two in some[::3]]
        for core in (core for core in cores if sum(budget / period for period, budget in core) <= 1):
            for place in (place for place in range(len(core)) if is_by_block(core, place)):
                rows, slots, begins = self.workload(core, place)
                self.assertLess(run_of(core, rows, slots)[begins:].count(place), core[place][1], (core, place))
                self.assertLessEqual(slots, 3 * max(period for period, _ in core))
                count += 1
        self.assertGreater(count, 60)

    def test_what_is_refused(self):
        """And nothing is written."""
        two, block = ((4, 2), (6, 3)), (1, "verdict=no\nexposed c0v0 by=block\n")
        short = "vcpu c0v0 begun=3 judged={} short={} over=0 least_ns={} most_ns=0\n"
        parts = "verdict=yes\npart c0v0 period=4 budget=2 given\npart c0v1 period=6 budget=3 given\n"
        for cause, told, *more in (
            ("c0v0 is not exposed by=block: it is isolated by 10 of its 4 slots", "verdict=yes\nisolated c0v0 last=10 of=10\n"),
            ("c0v0 is not exposed by=block: it is exposed by ties alone", (1, "verdict=no\nexposed c0v0 by=ties last=4 of=4\n")),
            ("c0v9 is no part that stands on a core", "verdict=yes\nisolated c0v0 last=1 of=4\n", 9),
            ("this program has no `isolate`", (2, "usage: rtadmit admit FILE\n")),
            ("`isolate` is refused: verdict=no overfull core c0 at=10 (status 1)", (1, "verdict=no\noverfull core c0 at=10\n")),
            ("`isolate` is refused: fault=NotRtds core=c0 file=1 (status 3)", (3, "fault=NotRtds core=c0 file=1\n")),
            ("`isolate` tells what this tool does not know: isolated c0v0", "verdict=yes\nisolated c0v0\n"),
            ("what this tool does not know", (1, "verdict=no\nexposed c0v0 by=block last=1 of=4\n")),
            ("system.toml: the longest period of c0 is more than 333333, and a run has at most 1000000 slots\n", block, 0,
             ((333_334, 166_668), (4, 1))),
            *(("c0v0 comes out as not short, against what is proved", block, 0, two, short.format(*counts))
              for counts in ((1, 0, 0), (2, 1, 0), (1, 1, 2000))),
            ("`rtds` or `tally` does not answer", block, 0, two, ""),
        ):
            with self.subTest(cause):
                place, core, counts = [*more, *(0, two, "")[len(more):]]
                answers = {"isolate": told, "admit": parts, "rtds": "", "tally": (1, f"verdict=no\n{counts}")}
                self.no(cause, self.expose(answers, place, core))
        self.assertEqual(run("host", "expose", self.folder / "system.toml", "c0v1")[0], 2)

    @needs_program
    def test_with_the_program(self):
        """From the top of the checkout and from elsewhere, with a blank in the names; a second time over the same file it is refused."""
        trace, asked = self.folder / "trace.csv", ["--program", shlex.quote(program())]
        file = self.file("a host.toml", cores_text([(4, 2), (6, 3)], [(5, 1)]))
        for number, (folder, words) in enumerate(((top, "./rtadmit"), (self.folder, str(top / "rtadmit")))):
            out = self.folder / f"out {number}.csv"
            with contextlib.chdir(folder):
                told = run("host", "expose", file, "c0v1", out, "--trace", trace, *asked)
            self.assertEqual(told, (0, (
                f"exposed c0v1 by=block: {out}, 18 slots\nshort c0v1 from_ns=12000 got_ns=2000 of_ns=3000\n"
                f"{words} rtds '{file}' '{out}' 18 | {words} tally '{file}' /dev/stdin\n"), ""))
            self.assertEqual(run("host", "expose", file, "c0v1", out, *asked), (1, "", f"{out}: is there already\n"))
        told = run("host", "ask", "audit", file, trace, *asked)
        self.assertEqual(told, (1, "verdict=no\nshort c0v1 from_ns=12000 got_ns=2000 of_ns=3000\n", ""))
