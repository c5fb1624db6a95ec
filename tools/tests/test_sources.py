"""Tests of the checks of sources, by crates of a few lines: tools/gate goals (which names are counts), inner (which definitions a reader
meets) and unused (what calls what), beside pages that let files stay or name functions. The gate runs them over this repository."""
from support import Checkout


def block(head, *body, by="    "):
    """A block as `rt fmt` lays it out, of lines of which each may be several; without a body `x` is its own."""
    lines = "\n".join(body or ["x"]).split("\n")
    return "\n".join([f"{head} {{" if "\n" not in head else f"{head}\n{{", *(f"{by}{line}" for line in lines), "}"])


def ensures(head, clause, *body):
    return block(f"{head}\n    ensures {{ {clause} }}", *body)


PROOF = """\
use Rattle.std.proofs.Common.{ap-2}
use Rattle.low.proofs.half.Goals as goal

-- goal.take-requires-3 stands in a comment
pub take-requires-2 : goal.take-requires-2
take-requires-2 c = c.in_ok-take-2.ensures c.deref.ensures

after : (c : goal.After-cores-2) (d : goal.After-cores) → c.in-Ok-Some.field-0-0 ≡ c.field-2.result
after c d = refl

pub returns-in-110-clause-tells : goal.returns-in-110-clause-tells
returns-in-110-clause-tells c = c.take-in-110.ensures c.if-x-lt5.true

pub finish-requires-2-clause-state : goal.finish-requires-2-clause-state
finish-requires-2-clause-state c = goals.other-2 c
"""


class Goals(Checkout):
    def test_goals_and_values(self):
        """A literal, a place in a variant and a word with a digit are no counts; a call of `field` that is counted is one."""
        none = "use Rattle.high.proofs.half.Goals as goal\n\npub returns : goal.returns\nreturns c = refl\n"
        invariant = "use Rattle.high.proofs.half.Given as goal\n\nabbrev pub invariant-loop-i-2 : goal.invariant-loop-i-2\n"
        goals = ["5: take-requires-2", "8: After-cores-2", "14: finish-requires-2-clause-state"]
        self.write({"crates/low/proofs/half/Answers.antt": PROOF})
        for crate, text, words, told in (
            ("low", PROOF, [], goals), ("low", PROOF, ["--values"], ["6: in_ok-take-2", "8: field-2", "15: other-2"]),
            ("high", none, ["high"], []), ("high", invariant, ["high"], ["3: invariant-loop-i-2"]),
        ):
            place = f"crates/{crate}/proofs/half/Answers.antt"
            self.write({place: text})
            self.assertEqual(self.told("goals", *words), (int(bool(told)), [f"{place}:{line}" for line in told]))


SPECS = {
    "low/specs/Lib": "pub mod Words\npub mod Steps\npub mod Kinds\npub mod inner\n",
    "low/specs/Words": """\
-- What callers see.
use Rattle.std.specs.Prelude.{ℕ, ◌+◌}
use Rattle.low.specs.Kinds.{Kind}
-- in_comment
abbrev pub of_function : ℕ → ℕ
of_function n = through n
pub through : ℕ → ℕ
through n = n + 1
pub record OfType (n : ℕ) : Type 0 where
  pub small : n ≡ 0
unfoldable pub of_method : ℕ → Kind
of_method n = first
pub of_trait : ℕ
of_trait = 3
""",
    "low/specs/Kinds": "pub data Kind : Type 0 where\n  first : Kind\n  second : (n : ℕ) → Kind\n",
    "low/specs/Steps": """\
-- What serves within.
use Rattle.low.specs.Words.{through as next}
abbrev pub of_private : ℕ
of_private = next 0
abbrev pub in_body : ℕ
in_body = 1
pub in_comment : ℕ
in_comment = 2
abbrev pub of_other_specs : ℕ
of_other_specs = 3
pub of_other_source : ℕ
of_other_source = 4
abbrev pub of_other_proof : ℕ
of_other_proof = 5
""",
    "low/specs/inner": "pub mod Hidden\n",
    "low/specs/inner/Hidden": "abbrev pub of_nobody : ℕ\nof_nobody = 0\n",
    "low/proofs/Lemmas": "use Rattle.low.specs.Steps.{in_body, in_comment}\n",
    "high/specs/Words": "use Rattle.low.specs.Steps as low\n\nabbrev pub met_there : ℕ\nmet_there = low.of_other_specs\n",
    "high/proofs/Lemmas": "use Rattle.low.specs.Steps.{of_other_proof, of_other_specs}\n",
}
SOURCES = {
    "low/src/lib": "mod words;\n\npub use words::{Shape, Square, double};\n",
    "low/src/words": "\n".join([
        "ghost use Rattle.low.specs.Words.{OfType, of_function, of_method, of_trait};",
        "ghost use Rattle.low.specs.Steps.{in_body, in_comment, of_private};",
        "/// in_comment",
        ensures("pub fn double(x: u64) -> u64", "result ≡ of_function x", "prove!(in_body == 1);", "x // in_comment"),
        ensures("fn helper(x: u64) -> u64", "result ≡ of_private"),
        ensures("pub(crate) fn shared(x: u64) -> u64", "result ≡ of_private"),
        block("pub fn not_handed_out(\n    x: u64,\n) -> u64", "invariant at_start { in_body ≡ 1 }", "x").replace("u64\n{", "u64 {"),
        block("pub struct Square", "side: u64,", "pub ghost small: { OfType side },"),
        block("impl Square", "/// Of a side.", ensures("pub fn kind(&self) -> u64", "result ≡ of_method self.now", "in_body"),
              block("pub fn side(&self) -> u64", "in_body"), ensures("fn private(&self) -> u64", "result ≡ of_private", "3")),
        block("struct Circle", "ghost small: { of_private ≡ 0 },"),
        block("impl Shape for Square", ensures("fn area(&self) -> u64", "result ≡ of_trait", "in_body")),
        block("impl Shape for Circle", "ghost sides = { of_private };"),
        block("trait Hidden", "fn area(&self) -> u64\n    ensures { result ≡ of_private };"),
        block("impl Hidden for Square", ensures("fn area(&self) -> u64", "result ≡ of_private", "3")),
        block("pub trait Shape", "ghost sides: { ℕ };"), ""]),
    "high/src/lib": "\n".join([
        "ghost use Rattle.high.specs.Words.{met_there};", "ghost use Rattle.low.specs.Steps.{of_other_source};",
        ensures("pub fn met(x: u64) -> u64", "result ≡ met_there"),
        ensures("fn helper(x: u64) -> u64", "result ≡ of_other_source"), ""]),
}
PAGE = "# A page\n\n## Inside a crate\n\nThose stay ({stay}).\n\n## Another part\n\n`low/Steps`, `low/Words`\n"


class Inner(Checkout):
    def inner(self, *words, stay="none", **texts):
        """The status and what is said of the crates above, with these texts in place of theirs."""
        files = {f"crates/{name}.{'rt' if name in SOURCES else 'antt'}": text for name, text in (SPECS | SOURCES).items()}
        self.write(files | {"docs/work/architecture.md": PAGE.replace("{stay}", stay)} | texts)
        status, lines = self.told("inner", *words)
        return status, [line.removeprefix("crates/low/specs/Steps.antt:") for line in lines]

    def test_what_no_reader_meets_and_what_may_stay(self):
        """A page lets stay what other proofs name, and nothing else."""
        private = ["Only private functions use:", "3: of_private", "5: in_body", "7: in_comment"]
        of_proofs = ["Only proofs of other crates name:", "13: of_other_proof"]
        self.assertEqual(self.inner(), (1, private + of_proofs))
        self.assertEqual(self.inner(stay="`low/Steps`"), (1, private))
        self.assertEqual(self.inner("--files"), (1, [private[0], " 3 of 6", of_proofs[0], " 1 of 6"]))

    def test_where_more_or_less_is_handed_out(self):
        """Without its line in lib.rt a type and its methods serve nobody else, nor does a trait that no other type has."""
        source = SOURCES["low/src/words"].replace("fn helper", "pub fn double")
        steps = SPECS["low/specs/Steps"].partition("abbrev pub in_body")[0]
        other = dict.fromkeys(("crates/high/proofs/Lemmas.antt", "crates/high/src/lib.rt", "crates/high/specs/Words.antt"), "")
        self.assertEqual(self.inner(**{"crates/low/src/words.rt": source, "crates/low/specs/Steps.antt": steps}, **other), (0, []))
        told = self.inner(**{"crates/low/src/lib.rt": "mod words;\n\npub use words::{double};\n"})[1]
        self.assertEqual([line.rpartition(" ")[2] for line in told if "Words.antt" in line], ["OfType", "of_method", "of_trait"])
        self.assertIn("crates/low/specs/Kinds.antt:1: Kind", told)


CRATES = {
    # the second has the name of another crate's function, which that crate's own callers mean
    "base": [block("pub fn twice(x: u64) -> u64", "2 * x"), block("pub fn settle(x: u64) -> u64")],
    "low": [
        "mod more;\npub use base::twice;\n\n/// Reached, by its import.",
        "pub fn reached(x: u64) -> u64\n    requires small { unused_too x ≡ x }",
        "    ensures {\n        result ≡ record x {\n          y = unused x;\n        } }\n{\n    prove!(unused(x) == x);",
        "    invariant same {\n        unused(x) ≡ x\n    }\n    // unused(x)\n    settle(x)\n}",
        "/// Named in contracts, in comments and in proofs alone.", block("pub fn unused(x: u64) -> u64", "helper(x)"),
        block("fn helper(x: u64) -> u64"), block("fn settle(x: u64) -> u64"),
        block("pub trait Shape", "fn area(&self) -> u64\n    ensures { result ≤ 9 };\n// as many\nfn corners(&self) -> u64;"),
        "pub struct Square { side: u64 }",
        block("impl Square", block("pub fn new(side: u64) -> Square", "Square { side }"),
              block("pub fn unused_too(&self) -> u64", "self.side")),
        block("impl Shape for Square", block("fn area(&self) -> u64", "multiply(self.side)"), "// in no name that is reached",
              block("fn corners(&self) -> u64", "4")),
        block("fn multiply(x: u64) -> u64", "x * x"), "pub struct Circle { radius: u64 }",
        block("impl Circle", block("pub fn new(radius: u64) -> Circle", "Circle { radius }")),
        block("impl Shape for Circle", block("fn area(&self) -> u64", "3 * self.radius")),
    ],
    # of a name that is not imported where it is said
    "low/src/more": [block("pub fn value(x: u64) -> u64")],
    "rtadmit": ["use low::{reached, Square};", block("fn main(rt: HostRuntime) -> ExitCode", "let value = reached(3);",
                                                     "let square = Square::new(value);", "low::twice(square.area())")],
    "low_tests": ["use low::unused;", block("fn a_test()", "unused(1);")],
}
TABLE = """\
# A page

## What no command calls

| Crate | Functions | For whom |
|---|---|---|
| `base` | `settle` | who wants `reached` |
{row}

## Another part

| `low` | `reached` | who reads on |
"""
GOOD = "| `low`, `rtadmit` | `unused`, `Square::corners`; `Circle`, `value`, `unused_too` | others |"


class Unused(Checkout):
    def unused(self, row, *words):
        """What is said of the crates above, beside a page with a row more."""
        self.write({f"crates/{name if '/' in name else f'{name}/src/lib'}.rt": "\n".join([*lines, ""]) for name, lines in CRATES.items()})
        self.write({"docs/work/architecture.md": TABLE.format(row=row), "crates.txt": "base:\nlow: base\nlow_tests: low\nrtadmit: low\n"})
        return self.told("unused", *words)

    def test_list(self):
        """A private function that only such ones call is listed, and need not be named."""
        status, told = self.unused(GOOD, "--list")
        names = ["settle", "unused", "helper", "unused_too", "corners", "new", "area", "value"]
        self.assertEqual((status, [line.removesuffix(" tests").split()[-1] for line in told]), (0, names))
        self.assertEqual(told[1:3], [f"low                crates/low/src/lib.rt:{end}" for end in ("20 3 pub unused tests", "23 3 helper")])

    def test_what_is_named(self):
        """`settle` of `low` is not that of `base`."""
        page, unnamed = "docs/work/architecture.md", {"lib.rt:20": "unused", "lib.rt:23": "helper", "more.rt:1": "value"}
        for row, told in (
            (GOOD, []),
            (GOOD.replace(", `value`", "").replace("`unused`, ", ""),
             [f"crates/low/src/{at}: no command reaches {it}, and {page} does not name it" for at, it in unnamed.items()]),
            (GOOD + "\n| `low` | `gone`, `twice` | nobody |",
             [f"{page} names {it}, which `low` does not have" for it in ("gone", "twice")]),
            (GOOD + "\n| `low` | `Square`, `settle` | others |",
             [f"{page} names {name}, and a command reaches crates/low/src/lib.rt:{line}"
              for line, name in ((37, "Square"), (45, "Square"), (26, "settle"))]),
        ):
            self.assertEqual(self.unused(row), (int(bool(told)), told))
