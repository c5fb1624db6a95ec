"""Tests of tools/host one-period: hosts by hand, the longest period beside a walk over all, and what it refuses."""
import math
import unittest

import support
from support import needs_program, program, system, verb

longest = verb("host", "one-period").longest
# A needs 2 of every 4, and B 1 of every 2; at a period of 3 these are 1 and 2
HALTING = "c edf", "A c edf 4 a:8:2", "B c edf 2 b:5:2"
# A needs 3 of every 8 beside G, and 2 of every 6
GIVEN = "d edf", "G d edf 4/2 g:1000:1", "D d edf 8 a:16:3"
# as A and B of HALTING, but all is given
FIXED = "e edf", "E e edf 4/2 a:8:2", "F e edf 2/1 b:5:2"
TOLD = {
    "c": "c: a period of 3 for A, B; the budgets take 100.00% of it, and took 100.00%",
    "d": "d: a period of 6 for D; the budgets take 83.33% of it, and took 87.50%",
    "e": "e: no period serves for it, as each budget is given",
}


class Longest(unittest.TestCase):
    def test_beside_a_walk(self):
        """Over needs that grow with the period, some of them not known, and none from some period on."""
        for seed in range(2000):
            high, given, shortest = 1 + seed % 17, seed % 5, (math.inf, 3 + seed % 11)[seed % 2]
            steps = [0, *(seed >> at & 1 for at in range(high))]
            needs = [None if (at * seed) % 7 == 3 else sum(steps[:at + 1]) if at < 4 + seed % 23 else math.inf for at in range(high + 1)]
            serves = [at for at in range(1, high + 1) if needs[at] is not None and given + needs[at] <= min(at, shortest)]
            self.assertEqual(longest(high, given, shortest, needs.__getitem__), max(serves, default=None), (seed, needs))


class OnePeriod(support.Case):
    def one_period(self, text, *words, asked=None):
        return self.ran("host", "one-period", self.file("host.toml", text), *words, "--program", asked or program())

    @needs_program
    def test_hosts_by_hand(self):
        for host, words, status, cores, periods in (
            (HALTING, (), 0, "c", {"period = 4\n": "period = 3\n", "period = 2\n": "period = 3\n"}),
            ((*GIVEN, *HALTING), ("--core", "d"), 0, "d", {"period = 8\n[[part.task]]": "period = 6\n[[part.task]]"}),
            ((*FIXED, *GIVEN), (), 1, "ed", {"period = 8\n[[part.task]]": "period = 6\n[[part.task]]"}),
        ):
            text = "# a host\n" + system(*host)
            copy = text
            for old, new in periods.items():
                copy = copy.replace(f"sched = \"edf\"\n{old}", f"sched = \"edf\"\n{new}")
            told = "".join(f"host.toml: {TOLD[core]}\n" for core in cores)
            self.assertEqual(self.one_period(text, *words), (status, copy, told))
            if not status and not words:
                self.assertEqual(self.one_period(copy), (0, copy, "host.toml: nobody is exposed\n"))
        # beside 5 of every 8 A has 1 of every 4; at 6, 7 and 8 it needs 3, 4 and 5
        full = system("c edf", "A c edf 4 a:8:1", "B c edf 8/5 t:1000:1")
        self.assertEqual(self.one_period(full), (1, full, "host.toml: c: no period serves for A\n"))

    def test_what_is_refused(self):
        parts, exposed = "verdict=yes\npart A period=4 budget=2 computed\npart B period=2 budget=1 computed\n", "verdict=no\n{}core c x=1\n"
        lines = "exposed A by=block\nexposed B by=block\n"
        for cause, isolate, *words in (
            ("`isolate` is refused: verdict=no overfull core c at=10 (status 1)", (1, "verdict=no\noverfull core c at=10\n")),
            ("x is no core", (1, exposed.format(lines)), "--core", "x"),
            ("against what is proved, the budgets of c fit and somebody is exposed", (1, exposed.format(lines))),
        ):
            asked = self.asked({"admit": parts.replace("budget=2", "budget=1"), "isolate": isolate})
            self.no(cause, self.one_period(system(*HALTING), *words, asked=asked))
