"""Tests of tools/second-checker and of tools/gate checkers: what docs/use/certificate.md goes through by hand, and the statuses."""
import json
import random
import subprocess

import support
from support import run, top, verb

checkers = verb("gate", "checkers")
LEAF = (top / "examples/leaf.toml").read_text()
# the example of docs/use/certificate.md, taken from its text
GOOD = next(line for line in (top / "docs/use/certificate.md").read_text().splitlines() if line.startswith('    {"format":1')).strip()
YES = (0, "verdict=yes\n")


class Case(support.Case):
    def told(self, *words):
        """The status, and what is printed."""
        ran = subprocess.run([top / "tools/second-checker", *words], capture_output=True, text=True)
        self.assertEqual(ran.stderr, "")
        return ran.returncode, ran.stdout

    def checked(self, certificate, system=LEAF):
        return self.told(self.file("system.toml", system), self.file("certificate.json", certificate))

    def spoilt(self, told, *nodes, system=LEAF):
        """What is told where the keys of nodes are others: a yes, or a flaw."""
        value = json.loads(GOOD)
        for node, keys in zip(value["nodes"], nodes):
            node |= keys
        self.assertEqual(self.checked(json.dumps(value), system), (1, f"verdict=no\nflaw={told}\n") if told else YES, nodes)


class Rules(Case):
    def test_each_rule(self):
        for told, *nodes in (
            (None,), ("Nodes", {"place": 1}), ("Budget part leaf", {"budget": 11}), ("Budget core cpu0", {}, {"budget": 2}),
            (None, {"points": ["36", "65", "86", "137", "161"]}), ("Cover part leaf", {"points": ["35", "65", "86", "137", "160"]}),
            ("Cover part leaf", {"points": ["35", "65", "86", "151", "161"]}), ("Cover part leaf", {"points": []}),
            ("Cover core cpu0", {}, {"points": ["2", "12"]}), ("Least part leaf", {"witness": "74"}),
            ("Least core cpu0", {}, {"witness": "1"}),
        ):
            self.spoilt(told, *nodes)

    def test_under_rm(self):
        """Hits 25 and 46; with 3 slots the falls 1, 65 and 76 of the second task. The core then serves 4 of 10: 4 are due in 11."""
        system = LEAF.replace('sched = "edf"\nperiod', 'sched = "rm"\nperiod')
        keys = {"budget": 4, "points": [], "hits": [25, 46], "falls": [1, 65, 76], "witness": "1"}
        for told, changed in (
            (None, {}), ("Hit part leaf task=1", {"hits": [24, 46]}), ("Hit part leaf task=2", {"hits": [25, 45]}),
            *(("Least part leaf", {"falls": falls}) for falls in ([1, 76], [1, 66, 76], [65, 76], [1, 65], [1, 65, 77])),
        ):
            self.spoilt(told, keys | changed, {"points": ["4", "12"]}, system=system)

    def test_faults_of_the_text(self):
        for old, new, word in (
            ('{"format":1,', '{"format":1.0,', "BadNumber"), ('"format":1', '"format":"1"', "WrongShape"), ('"35"', '"035"', "BadNumber"),
            ('"35"', "35", "WrongShape"), ('"budget":3', '"budget":-0', "BadNumber"), ("}]}", "}]", "NotJson"),
            *(('"budget":3', f'"budget":{first},"budget":3', word) for first, word in (
                ("1e400", "NotJson"), ('"\\ud800"', "NotJson"), ("[]", None))),
        ):
            self.assertEqual(self.checked(GOOD.replace(old, new, 1)), (3, f"fault={word} file=2\n") if word else YES, new)

    def test_files_and_words(self):
        good, folder, long, absent = top / "examples/leaf.toml", self.folder / "folder", self.folder / "long", self.folder / "absent"
        folder.mkdir()
        with open(long, "wb") as out:
            out.truncate(67_108_865)
        for path, status, text in ((absent, 5, "absent file={}\n"), (folder, 6, ""), (long, 7, "toolong file={}\n")):
            self.assertEqual(self.told(path, path), (status, text.format(1)))
            self.assertEqual(self.told(good, path), (status, text.format(2)))
        self.assertEqual(self.told(top / "examples/refused.toml", absent), (3, "fault=UnknownKey at=core 1 file=1\n"))
        self.assertEqual(self.told(good, top / "examples/leaf-spoilt.cert"), (1, "verdict=no\nflaw=Cover part leaf\n"))
        self.assertEqual(self.told("one"), (2, "usage: tools/second-checker FILE CERT\n"))
        status, text = self.told("--help")
        self.assertEqual((status, text[:46]), (0, "A second checker of certificates: answers as `"))


class Comparing(Case):
    def test_a_program_that_always_says_yes(self):
        status, told, _ = run("gate", "checkers", "--count=1", "--program", self.script("echo verdict=yes"))
        self.assertEqual(status, 1)
        self.assertIn("; 0 flaw=Nodes (at least 1)", told)
        self.assertIn("\nsecond-checker: [Answer(status=1", told)

    def test_the_same_seed_gives_the_same_systems(self):
        chances = [random.Random(seed) for seed in (7, 7, 8)]
        first, again, other = ([checkers.spell(checkers.draw_system(chance)) for _ in range(5)] for chance in chances)
        self.assertEqual((first == again, first == other), (True, False))
