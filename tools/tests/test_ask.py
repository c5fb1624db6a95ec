"""Tests of tools/host ask: a row for each text of docs/use/formats.md, as an object by docs/use/answer.schema.json, and annotations."""
import contextlib
import json
import shlex
import unittest

import support
from rtadmit_tools.program import ALONE
from support import needs_program, program, run, top, verb

try:
    import jsonschema
except ImportError:
    jsonschema = None

STATUS = verb("host", "ask").STATUS
SCHEMA = json.loads((top / "docs/use/answer.schema.json").read_text())
LEAF, SHARED, RELEASES = "examples/leaf.toml", "examples/shared.toml", "examples/xen-releases.csv"
# the words, the status, the text, and the object's lines, as KIND KEY=VALUE .., or a key of its own
TEXTS = (
    ("admit F", 0, "verdict=yes\npart leaf period=10 budget=3 given\npart a-1 period=10 budget=3 computed\n"
     "witness a-1 budget=2 start=2 span=75 task=- replay=t2 release=2 deadline=77 got=5 of=9\n"
     "witness b budget=2 start=2 span=75 task=t replay=skipped\n",
     "part name=leaf how=given period=10 budget=3", "part name=a-1 how=computed period=10 budget=3",
     "witness name=a-1 budget=2 start=2 span=75 task=None replay=t2 release=2 deadline=77 got=5 of=9",
     "witness name=b budget=2 start=2 span=75 task=t replay=skipped"),
    ("admit F", 1, "verdict=no\noverfull core cpu0 at=20\n", "overfull node=core name=cpu0 at=20"),
    ("certify F", 1, "verdict=no\noverfull part p task=t\n", "overfull node=part name=p task=t"),
    ("certify F", 0, '{"format": 1, "nodes": []}\n', {"certificate": {"format": 1, "nodes": []}}),
    ("responses F", 4, "verdict=wide\nwide part p\n", "wide node=part name=p"), ("check F C", 0, "verdict=yes\n"),
    ("check F C", 1, "verdict=no\nflaw=Nodes\n", "flaw flaw=Nodes"),
    ("check F C", 1, "verdict=no\nflaw=Hit core c task=2\n", "flaw node=core name=c flaw=Hit task=2"),
    ("simulate F R worst 9", 1, "verdict=no\ncore c given=9 jobs=1 missed=0\npart p given=2 jobs=3 missed=1\n"
     "first t release=0 deadline=5 got=1 of=2\n", "core name=c given=9 jobs=1 missed=0", "part name=p given=2 jobs=3 missed=1",
     "first task=t release=0 deadline=5 got=1 of=2"),
    ("rtds F W 9", 0, "at,core,what,vcpu\n0,c,start,A\n3,c,stop,\n9,,end,\n",
     {"events": [dict(zip(("at", "core", "what", "vcpu"), row))
                 for row in ((0, "c", "start", "A"), (3, "c", "stop", None), (9, None, "end", None))]}),
    ("rtds F W 9", 3, "fault=NotRtds core=c file=1\n", "fault fault=NotRtds core=c file=1"),
    ("audit F T", 0, "verdict=yes\nperiods=2\n", "periods periods=2"),
    ("audit F T", 1, "verdict=no\nshort A from_ns=1 got_ns=2 of_ns=3\n", "short name=A from_ns=1 got_ns=2 of_ns=3"),
    ("tally F T", 1, "verdict=no\nover A from_ns=1 got_ns=4 of_ns=3\nvcpu A begun=1 judged=0 short=0 over=1 least_ns=- most_ns=4\n",
     "over name=A from_ns=1 got_ns=4 of_ns=3", "vcpu name=A begun=1 judged=0 short=0 over=1 least_ns=None most_ns=4"),
    ("steal F T", 1, "verdict=no\nstolen A from_ns=1 got_ns=4 of_ns=3\nvcpu A begun=1 kept=0 denied=1 most_ns=4\n"
     "vcpu B begun=0 kept=0 denied=0 most_ns=-\n", "stolen name=A from_ns=1 got_ns=4 of_ns=3",
     "vcpu name=A begun=1 kept=0 denied=1 most_ns=4", "vcpu name=B begun=0 kept=0 denied=0 most_ns=None"),
    ("isolate F", 1, "verdict=no\nisolated A last=9 of=10\nexposed B by=ties last=9 of=10\nexposed C by=block\n"
     "core c budgets=12 shortest=10\n", "isolated name=A last=9 of=10", "exposed name=B by=ties last=9 of=10", "exposed name=C by=block",
     "core name=c budgets=12 shortest=10"),
    ("bulk 8", 0, "verdict=yes\nguests=8 cores=1 budgets=2 jobs=3 missed=0 pending=4\n",
     "guests guests=8 cores=1 budgets=2 jobs=3 missed=0 pending=4"),
    ("responses F", 0, "verdict=yes\nresponse p t worst=5 limit=9 replay=5\nresponse p u worst=5 limit=9 replay=skipped\n",
     "response name=p task=t worst=5 limit=9 replay=5", "response name=p task=u worst=5 limit=9 replay=skipped"),
    ("interface F p 4", 0, "verdict=yes\ninterface p period=9 deadline=4 budget=0\n", "interface name=p period=9 deadline=4 budget=0"),
    ("choose F p 4 9", 0, "verdict=yes\nchoose p period=9 budget=4\n", "choose name=p period=9 budget=4"),
    ("choose F p 4 9", 1, "verdict=no\nnothing over=5 wide=1\n", "nothing over=5 wide=1"),
    ("session F S", 0, "verdict=yes\n1 yes\n2 refused NameTaken\n3 overfull part p at=9\n4 wide core c\npart p period=9 budget=4 given\n",
     "yes row=1", "refused row=2 fault=NameTaken", "overfull row=3 node=part name=p at=9", "wide row=4 node=core name=c",
     "part name=p how=given period=9 budget=4"),
    ("place F G", 0, 'format = 1\n\n[[core]]\nname = "c"\nsched = "edf"\n',
     {"system": {"format": 1, "core": [{"name": "c", "sched": "edf"}]}}),
    ("place F G", 1, "verdict=no\nunplaced g\n", "unplaced name=g"),
    ("slack F p", 0, "verdict=yes\nslack p t work=7 most=44\n", "slack name=p task=t work=7 most=44"),
    ("version", 0, "rtadmit 1.1.0 unproved\n", {"lines": [{"kind": "version", "version": "1.1.0 unproved"}]}),
    ("admit", 2, "usage: rtadmit admit FILE\n", {"lines": [{"kind": "usage", "text": "usage: rtadmit admit FILE"}]}), ("", 2, ""),
    *((words, 3, f"{text}\n", f"fault {text}") for words, text in (
        ("admit F", "fault=NotToml file=1"), ("admit F", "fault=WrongKind at=top file=1"), ("audit F T", "fault=BadHeader row=1 file=2"),
        ("check F C", "fault=NotJson file=2"), ("interface F p 4", "fault=BadDeadline file=1"))),
    ("admit F", 3, "fault=OutOfRange at=part 5 task 2 file=1\n",
     {"lines": [{"kind": "fault", "fault": "OutOfRange", "at": "part 5 task 2", "file": 1}]}),
    ("admit F", 5, "absent file=1\n", "absent file=1"), ("audit F T", 7, "toolong file=2\n", "toolong file=2"), ("admit F", 6, ""),
    ("admit F", 9, ""),
)
# words over the examples, the status, the text, and how the annotations begin behind `::error` and where they are
ANNOTATED = (
    (f"admit {LEAF}", 0, "verdict=yes\npart leaf period=10 budget=3 computed\n"),
    (f"admit {LEAF}", 1, "verdict=no\noverfull part leaf at=20\n", f"file={LEAF},line=7::admit: overfull part leaf at=20"),
    (f"isolate {SHARED}", 1, "verdict=no\nisolated A last=7 of=10\nexposed B by=block\n",
     f"file={SHARED},line=21::isolate: exposed B by=block"),
    ("admit examples/refused.toml", 3, "fault=UnknownKey at=core 1 file=1\n",
     "file=examples/refused.toml,line=7::admit: fault=UnknownKey at=core 1 file=1: core 1, cpu0, colour: colour is no key here"),
    (f"slack {LEAF} none", 3, "fault=NoSuchLeaf file=1\n", f"file={LEAF}::slack: fault=NoSuchLeaf file=1"),
    (f"audit {SHARED} examples/shared-short.csv", 1, "verdict=no\nshort B from_ns=3000 got_ns=3000 of_ns=4000\n",
     "file=examples/shared-short.csv,line=5::audit: short B from_ns=3000 got_ns=3000 of_ns=4000"),
    (f"steal {SHARED} examples/shared-short.csv", 1, "verdict=no\nstolen B from_ns=3000 got_ns=7000 of_ns=6000\n",
     "file=examples/shared-short.csv,line=5::steal: stolen B from_ns=3000 got_ns=7000 of_ns=6000"),
    (f"audit {SHARED} {LEAF}", 3, "fault=BadHeader row=1 file=2\n",
     f"file={LEAF},line=1::audit: fault=BadHeader row=1 file=2: row 1: "),
    (f"check {LEAF} examples/leaf-spoilt.cert", 1, "verdict=no\nflaw=Cover part leaf\n",
     "file=examples/leaf-spoilt.cert::check: flaw=Cover part leaf"),
    ("session examples/host.toml examples/edits.csv", 0, "verdict=yes\n1 overfull core cpu0 at=20000\n2 yes\n5 refused NoSuchLeaf\n",
     "file=examples/edits.csv,line=2::session: 1 overfull core cpu0 at=20000",
     "file=examples/edits.csv,line=6::session: 5 refused NoSuchLeaf: row 6, part: "),
    ("place examples/cores.toml examples/guests.csv", 1, "verdict=no\nunplaced vm3\n",
     "file=examples/guests.csv,line=4::place: unplaced vm3"),
    (f"simulate {LEAF} {RELEASES} late 9", 1, "verdict=no\npart leaf given=2 jobs=3 missed=1\nfirst t1 release=0 deadline=5 got=1 of=2\n",
     f"file={LEAF},line=7::simulate: first t1 release=0 deadline=5 got=1 of=2"),
    ("admit no,thing%", 5, "absent file=1\n", "file=no%2Cthing%25::admit: absent file=1"),
    (f"admit {LEAF}", 6, "", f"::admit {LEAF}: status 6 (ReadFault)"),
    ("admit", 2, "usage: rtadmit admit FILE\n", "::admit: usage: rtadmit admit FILE (Usage)"),
)


def line_of(text):
    kind, *pairs = text.split(" ")
    words = dict(pair.split("=") for pair in pairs)
    return {"kind": kind} | {key: None if word == "None" else int(word) if word.isdigit() else word for key, word in words.items()}


class Asked(support.Case):
    def ask(self, words, status, text, *more):
        """The status, and what is told of a program's answer."""
        with contextlib.chdir(top):
            found, out, err = run("host", "ask", *words.split(), *more, "--program", self.answering(text, status))
        self.assertEqual((found, err), (status, ""))
        return out

    def test_each_text(self):
        """Each kind of a line is in the schema, and in a row; and the schema refuses others."""
        kinds, wholes = set(), []
        for words, status, text, *told in TEXTS:
            with self.subTest(words, text=text):
                found = json.loads(self.ask(words, status, text, "--json"))
                own = told[0] if told and isinstance(told[0], dict) else {"lines": list(map(line_of, told))}
                verdict = text.partition("\n")[0].partition("=")[2] if text.startswith("verdict=") else None
                self.assertEqual(found, {
                    "words": words.split(), "status": status, "answer": STATUS[status], "verdict": verdict, "lines": [], **own})
                kinds.update(line["kind"] for line in found["lines"])
                wholes.append(found)
        schema = {line["properties"]["kind"]["const"] for line in SCHEMA["properties"]["lines"]["items"]["anyOf"]}
        self.assertEqual((schema, kinds), ({*ALONE, "usage", "version"}, schema))
        if jsonschema is None:
            self.skipTest("Python's jsonschema is not installed")
        schema, (whole, *_) = jsonschema.Draft202012Validator(SCHEMA), wholes
        wrong = [{"kind": "part"}, {"kind": "none"}, {**whole["lines"][0], "budget": "3"}, {**whole["lines"][0], "more": 1}]
        changes = ({"status": 10}, {"verdict": "maybe"}, {"answer": None}, {"more": 1}, *({"lines": [line]} for line in wrong))
        self.assertTrue(all(map(schema.is_valid, wholes)))
        self.assertEqual([change for change in changes if schema.is_valid(whole | change)], [])

    def test_a_text_that_there_is_not(self):
        for text in ("verdict=yes\nguest A period=1\n", "part A B C D\n"):
            asked = self.answering(text)
            self.refused("a line that docs/use/formats.md does not have", "host", "ask", "admit", "F", "--json", "--program", asked)

    def test_annotations(self):
        for words, status, text, *wanted in ANNOTATED:
            told = self.ask(words, status, text, "--annotate").splitlines()
            self.assertEqual([line.removeprefix("::error").removeprefix(" ")[:len(start)] for line, start in zip(told, wanted)], wanted)
            self.assertEqual(len(told), len(wanted), told)

    @needs_program
    def test_with_the_program(self):
        ask = lambda *words: run("host", "ask", *words, "--program", shlex.quote(program()))
        self.assertEqual(ask("admit", top / LEAF)[1].splitlines()[0], "verdict=yes")
        status, told, err = ask("admit", top / "examples/crowded.toml", "--json")
        self.assertEqual((status, json.loads(told)["verdict"], err), (1, "no", ""))
        self.assertEqual(ask("admit", top / LEAF, "--annotate"), (0, "", ""))
        self.assertEqual((ask("--json")[0], ask("admit", "--json", "--annotate")[0]), (2, 2))
        self.assertEqual(ask("version")[1].split()[0], "rtadmit")
