"""Tests of periods: what it prints of the program's answers, what it draws, and what it refuses."""
import support
from support import run, system, texts

# the least budgets at each period, by hand
BUDGETS = {7: 2, 8: 3, 9: 3, 10: 3, 11: 4, 12: 4, 13: 4, 14: 4}
NOTHING = (1, "verdict=no\nnothing over=1 wide=0\n")


def best(period, budget):
    return 0, f"verdict=yes\nchoose leaf period={period} budget={budget}\n"


class Periods(support.Case):
    def told(self, answers, low, high, *words):
        """The status, what is printed, the texts of the picture and standard error, with a program that answers `choose FILE leaf LOW HIGH`
        so, and anything else by the usage."""
        cases = "".join(f"'choose leaf {at[0]} {at[1]}') printf '{text}'; exit {status};;\n" for at, (status, text) in answers.items())
        asked = self.script(f'case "$1 $3 $4 $5" in\n{cases}*) echo usage; exit 2;;\nesac')
        file, out = self.file("system.toml", system("cpu0 edf", "leaf cpu0 edf 10 t1:50:7 t2:75:9")), self.folder / "out.svg"
        out.unlink(missing_ok=True)
        status, printed, err = run("host", "periods", file, "leaf", low, high, out, *words, f"--program={asked}")
        return status, printed.splitlines(), texts(out.read_text()) if out.exists() else None, err

    def test_each_period_and_the_best(self):
        each = {(period, period): best(period, budget) for period, budget in BUDGETS.items()}
        status, lines, drawn, err = self.told({(7, 14): best(7, 2), **each}, 7, 14)
        self.assertEqual((status, err), (0, ""))
        shares = [f"period={period} budget={budget} share={budget / period:.6f}" for period, budget in BUDGETS.items()]
        self.assertEqual(lines, [*shares, "best period=7 budget=2 share=0.285714"])
        for text in ("what the tasks ask for in the long run: 0.260000", "best: a budget of 2 in a period of 7, 0.285714"):
            self.assertIn(text, drawn)
        # some of many, with both ends and the best among them
        for most, found, periods in ((3, best(8, 3), [7, 8, 10, 14]), (2, best(7, 2), [7, 14]), (8, best(7, 2), [*BUDGETS])):
            lines = self.told({(7, 14): found, **each}, 7, 14, f"--most={most}")[1]
            self.assertEqual([line.split()[0] for line in lines], [*(f"period={period}" for period in periods), "best"])

    def test_periods_at_which_nothing_passes(self):
        status, lines, drawn, _ = self.told({(7, 8): best(8, 3), (7, 7): NOTHING, (8, 8): best(8, 3)}, 7, 8)
        told = ["period=7 nothing", "period=8 budget=3 share=0.375000", "best period=8 budget=3 share=0.375000"]
        self.assertEqual((status, lines, "no budget passes at a period with a mark above" in drawn), (0, told, True))
        status, lines, drawn, _ = self.told({(7, 7): NOTHING}, 7, 7)
        self.assertEqual((status, lines, "best" in " ".join(drawn)), (0, ["period=7 nothing", "best nothing"], False))

    def test_what_is_refused(self):
        for answers, low, high, told in (
            ({(7, 14): (3, "fault=NoSuchLeaf file=1\n")}, 7, 14, "fault=NoSuchLeaf file=1 (status 3)"), ({}, 14, 7, "usage (status 2)"),
            ({(7, 7): best(7, 2), (7, 8): best(7, 3), (8, 8): best(8, 3)}, 7, 8,
             "at period 7 it tells a budget of 2, and of 3 for the range"),
        ):
            self.no(told, self.told(answers, low, high))
        for words in ((7, "x"), (7, 8, "--most=1")):
            self.assertEqual(self.told({}, *words)[0], 2)
