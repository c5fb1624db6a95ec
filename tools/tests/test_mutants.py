"""tools/gate mutants: the texts of edits, wrong bodies that are tried in one check or made by rule, what an answer depends on, and runs
that are stopped; by a made-up rt."""
import os
import pathlib
import shutil
import subprocess
import time
from unittest import mock

from support import Checkout, run, top

# A check prints what stands in the sources behind `rt: `, a line for each piece between ` ;; `, or names the first line with `wrong`. Then
# of each function that it is given it says what EACH has. It notes its words, and keeps the sources. must-fail says of each edit what
# stands in it behind `says: `.
RT = r"""[ "$1" = version ] && { echo "kit 1"; exit 0; }
if [ "$1" = check ]; then
    echo "check $(basename "$PWD") $*" >>"$RAN"
    cat src/lib.rt >"$RAN.$(grep -c ^check "$RAN").rt"
    line=$(sed -n '/wrong/{=;q;}' src/lib.rt)
    [ -z "$line" ] || { echo "src/lib.rt:$line:5: error[type]: it is wrong"; exit 1; }
    sed -n 's/.*rt: //; T; s/ ;; /\n/g; p' $(find src -name '*.rt' | sort)
    for word; do
        case "$word" in [a-z]*) [ -z "$EACH" ] || echo "fn $(basename "$PWD")::$word: $EACH" ;; esac
    done
    echo only=1 proved=0
    exit 1
fi
echo "$2 $(ls crates/$2/must-fail | tr '\n' ' ')" >>"$RAN"
for edit in crates/$2/must-fail/*.edit; do
    said="$(sed -n 's/^says: //p' "$edit")"
    [ -z "$said" ] || echo "rt: must-fail $2/$(basename "$edit"): $said"
done"""
REFUSED = "refused, as it must be: src/lib.rt:1:1: error"
NAMED = "refused, as it must be (only because a proof file names what the edit took away, so this says little): x"
EDIT = "file: src/lib.rt\nold: a = 1\nnew: a = 2\n"


class Crates(Checkout):
    """A repository of two crates, low and high, with a room beside it."""

    def setUp(self):
        super().setUp()
        self.place, self.log = self.folder / "room", self.folder / "ran"
        self.write({f"crates/{name}/src/lib.rt": "let a = 1;\nlet b = 2;\nlet b = 2;\n" for name in ("low", "high")})
        self.write({"crates.txt": "# lowest first\nlow:\nhigh: low csv\n", "HANDLES": "Handles allowed: none.\n"})
        self.script(RT, "bin/rt")
        found = mock.patch.dict(os.environ, PATH=f"{self.folder / 'bin'}:{os.environ['PATH']}", RAN=str(self.log), EACH="")
        found.start()
        self.addCleanup(found.stop)

    def edits(self, **texts):
        """Edits of tests/mutants, by their crates and names with __ between these: each the text of the edit and what rt says of it."""
        self.write({f"tests/mutants/{name.replace('__', '/')}.edit": f"{text}says: {says}\n" for name, (text, says) in texts.items()})

    def tried(self, *words):
        """The status, and what is printed."""
        return run("gate", "mutants", *words, "--room", self.place)[:2]

    def noted(self):
        """What the made-up rt noted."""
        return self.log.read_text().splitlines()


class Texts(Crates):
    def test_edits_that_apply_are_passed_in_silence(self):
        self.write({"tests/mutants/low/one.edit": EDIT,
                    "crates/low/must-fail/two.edit": "file: src/lib.rt\nold: a = 1\nnew: a = 3\nold: a = 3\nnew:\n"})
        self.assertEqual(self.told("mutants", "--texts"), (0, []))

    def test_what_is_wrong_is_told(self):
        """A later pair reads what the earlier one left."""
        file, not_once = "file: src/lib.rt\nold: ", "an 'old:' text is in src/lib.rt {} times, and not once: {}"
        rows = {
            "tests/mutants/low/gone": (f"{file}c = 1\nnew: c = 2\n", not_once.format(0, "c = 1")),
            "crates/high/must-fail/twice": (f"{file}b = 2\nnew: b = 3\n", not_once.format(2, "b = 2")),
            "tests/mutants/low/again": (f"{file}a = 1\nnew: a = 2\nold: a = 1\nnew: a = 3\n", not_once.format(0, "a = 1")),
            "tests/mutants/low/absent": ("file: src/no.rt\nold: a\nnew: b\n", "there is no file src/no.rt"),
            "tests/mutants/low/outside": ("file: src/../lib.rt\nold: a\nnew: b\n", "src/../lib.rt is no file of src/, specs/ or proofs/"),
            "tests/mutants/low/empty": ("file: src/lib.rt\n", "it has no 'old:' and 'new:' pair"),
            "tests/mutants/low/one": (EDIT, "crates/low/must-fail/one.edit has that name"), "crates/low/must-fail/one": (EDIT, None),
        }
        self.write({f"{name}.edit": text for name, (text, _) in rows.items()})
        self.write({"tests/mutants/nobody/one.edit": EDIT, "tests/mutants/low/one.txt": ""})
        status, lines = self.told("mutants", "--texts")
        self.assertEqual((status, sorted(lines)), (1, sorted([
            *(f"{name}.edit: {cause}" for name, (_, cause) in rows.items() if cause), "tests/mutants/nobody: there is no crate nobody",
            "tests/mutants/low/one.txt: an edit is a file tests/mutants/NAME/WHAT.edit"])))


SOURCE = """use a::b;

/// Adds.
pub fn add(a: u32) -> u32
    requires { a < 9 }
    ensures sum { let b = a in
        result ≡ b + 1 }
{
    if a == 3 {
        return 4;
    }
    a + 1
}

trait Holds {
    fn held(&self) -> u32
        ensures { result ≡ 1 };
}

impl<'a> Held<'a> {
    fn had(&self) -> u32 {
        self.count
    }
}

impl Holds for Held<'_> {
    fn held(&self) -> u32 {
        self.kept
    }
}
"""
NOTE, GONE = "note: src/a/b.rt:9:9: it is not proved", "proofs/a/b/add/Answers.antt:3:5: error: `goal.x` is not in scope"
ADD, CALLS = "fn low::a::b::add", "it calls `low::a::b::sum`, which is not proved"
# what a check says, and what is told of the body of `add`
SAID = (
    (f"{ADD}: proved", "LET THROUGH (NOT REFUSED: the changed functions are still proved)"),
    (f"fn low::a::b::other: not proved ;; {NOTE} ;; {ADD}: no proof: expected answers", "refused"),
    (f"{ADD}: proved ;; fn low::a::b::fn::add::map+FnMut::call_mut: not proved", "refused"),
    (f"{GONE} ;; {ADD}: not proved", f"refused only because a proof names what it took away (a::b::add: not proved; {GONE})"),
    (f"{GONE} ;; {NOTE} ;; {ADD}: not proved", "refused"), (f"{ADD}: not proved; {CALLS}", "refused"),
    *((said, None) for said in (f"{ADD}: could not tell", f"{ADD}: no proof: {CALLS}", "fn low::a::b::add_all: proved",
                                "fn low::a::add: proved", "fn low::a::b::Held::add: proved", "fn other::a::b::add: proved")),
)


class Together(Crates):
    """Bodies of different functions are tried in one check; what it does not tell of is tried alone."""

    def setUp(self):
        super().setUp()
        self.write({"crates/low/src/a/b.rt": SOURCE})

    def body(self, *changes):
        pairs = "".join(f"old: {old}\nnew: {new}\n" for old, new in changes)
        return f"file: src/a/b.rt\n{pairs}", REFUSED

    def test_what_a_check_says_of_a_body(self):
        for place, (said, told) in enumerate(SAID):
            with self.subTest(said):
                shutil.rmtree(self.top / "tests", ignore_errors=True)
                self.edits(**{f"low__e{place}": self.body(("a + 1", f"a // rt: {said}"))})
                lines = self.tried()[1].splitlines()
                self.assertEqual(lines[0], f"low/e{place}: {told or 'refused'}")
                self.assertEqual(self.noted()[-1], "check low check --jobs 1 --only a::b::add" if told else f"low e{place}.edit ")

    def test_methods_and_rounds(self):
        """No two bodies of a check change one function, and of a trait's method the module is what rt takes."""
        self.edits(
            low__a=self.body(("a + 1", "a // rt: fn low::a::b::add: not proved")), low__b=self.body(("a == 3", "a == 2")),
            low__c=self.body(("self.count", "0 // rt: fn low::a::b::Held::had: not proved")),
            low__d=self.body(("self.kept", "0 // rt: fn low::a::b::HeldHolds::held: proved")))
        status, said = self.tried()
        self.assertEqual((status, said.split("\n")[:5]), (1, [
            "low/a: refused", "low/c: refused", "low/d: LET THROUGH (NOT REFUSED: the changed functions are still proved)",
            "low/b: refused", "3 refused"]))
        self.assertEqual(self.noted(), [
            "check low check --jobs 1 --only a::b --only a::b::Held::had --only a::b::add", "check low check --jobs 1 --only a::b::add",
            "low b.edit "])
        self.assertEqual((self.place / "crates/low/src/a/b.rt").read_text(), SOURCE)

    def test_what_changes_more_than_bodies_is_tried_alone(self):
        pairs = [("a < 9", "a < 8"), ("use a", "use c"), ("/// Adds", "/// Takes"), ("ensures { result", "ensures { 1 + result")]
        self.edits(**{f"low__e{place}": self.body(pair) for place, pair in enumerate(pairs)})
        self.assertEqual((self.tried()[0], self.noted()), (0, ["low e0.edit e1.edit e2.edit e3.edit "]))

    def test_a_body_that_does_not_compile_is_told_and_the_others_are_tried(self):
        source = "".join(f"fn {name}() -> u32 {{\n    1 // {name}\n}}\n" for name in ("one", "two"))
        self.write({"crates/low/src/lib.rt": source})
        self.edits(**{f"low__{name}": (f"file: src/lib.rt\nold: 1 // {name}\nnew: {new}\n", REFUSED)
                      for name, new in (("one", "wrong"), ("two", "2 // rt: fn low::two: not proved"))})
        said = self.tried()[1]
        self.assertIn("low/one: CANNOT BE APPLIED (BAD EDIT: src/lib.rt:2:5: error[type]: it is wrong)", said)
        self.assertIn("low/two: refused\n", said)
        self.assertEqual([(self.folder / f"ran.{at}.rt").read_text() for at in (1, 2)], [
            source.replace("1 // one", "wrong").replace("1 // two", "2 // rt: fn low::two: not proved"),
            source.replace("1 // two", "2 // rt: fn low::two: not proved")])


# a line, a rule, and the line that it makes
RULES = (
    ("    if a <= b && c {", "may not be equal", "    if a < b && c {"), ("    a < b", "may be equal", "    a <= b"),
    *((f"    a {sign} b", "the other sign", f"    a {other} b") for sign, other in zip(("<", "==", "&&", "+"), (">", "!=", "||", "-"))),
    ("    a.first()", "the other word", "    a.last()"),
    ("    a.max(b)", "the other word", "    a.min(b)"), ("    true", "the other word", "    false"), ("    a[9]", "one more", "    a[10]"),
    ("    a[9]", "one less", "    a[8]"), ("    f(&a, b.c)", "swapped", "    f(b.c, &a)"), ("    a * b", "the one for both", "    a"),
    ("    Some(f(a))", "none", "    None"), ("    if a(b) {", "not", "    if !(a(b)) {"), ("    if a(b) {", "always", "    if true {"),
    ("    a += b;", "dropped", None),
)
LEFT = ("    // a < b", "    prove!(a < 1);", "    invariant same { a ≤ 1 }", "    a as u64", "    u32::MAX", "    if let Some(a) = b {")
HEADS = "    ensures { result ≤ 9 }\n{\n    prove!(\n        a < 9\n    );\n    a\n}\n"


class Made(Crates):
    """Wrong bodies that are made by rule."""

    def made(self, source, *words):
        """Each body that is made of a source: its line, its function, its rule, and the line behind the head with which it is tried."""
        self.write({"crates/low/src/lib.rt": source})
        with mock.patch.dict(os.environ, EACH="not proved"):
            lines, found = iter(self.tried("--plant", *(words or ["--number", "999"]), "low")[1].splitlines()), []
        for at, check in enumerate(self.noted(), 1):
            tried = (self.folder / f"ran.{at}.rt").read_text().split("\n")
            for _ in range(check.count("--only")):
                line, name, rule = next(lines).removeprefix("low/src/lib.rt:").removesuffix(": refused").replace(": ", " ", 1).split(" ", 2)
                head = next(at for at, text in enumerate(tried) if text.startswith(f"fn {name}("))
                found.append((int(line), name, rule, tried[head + 1]))
        self.log.unlink()
        shutil.rmtree(self.place)
        return found

    def test_what_each_rule_makes_of_a_line(self):
        functions = [f"fn f{at}() {{\n{line}\n}}\n" for at, line in enumerate([*(line for line, *_ in RULES), *LEFT])]
        found = self.made("".join(functions))
        for at, (_, rule, made) in enumerate(RULES):
            self.assertIn((3 * at + 2, f"f{at}", rule, made or "}"), found)
        self.assertEqual({name for _, name, *_ in found}, {f"f{at}" for at in range(len(RULES))})

    def test_constants(self):
        """A head, a contract and a proof stay as they are."""
        found = [(line, name, rule) for line, name, rule, _ in self.made(
            f"fn least(a: u64) -> u64\n{HEADS}\nfn found(a: u64) -> Result<Option<u64>, Gone>\n    requires {{ a < 1 }}\n{{\n    a\n}}\n")]
        self.assertEqual(sorted(found), [(4, "least", "always 0"), (4, "least", "always 1"), (13, "found", "always Ok(None)")])

    def test_a_seed_makes_the_same_bodies(self):
        source = "".join(f"fn f{at}() {{\n{line}\n}}\n" for at, (line, *_) in enumerate(RULES))
        first, again, other = (self.made(source, "--number", "5", "--seed", seed) for seed in (7, 7, 8))
        self.assertEqual((len(first), first), (5, again))
        self.assertNotEqual(first, other)

    def test_what_is_told(self):
        """What a check does not tell is no fault."""
        for said, status, last in (("not proved", 0, "3 refused\n"), ("proved", 1, "LET THROUGH: low/src/lib.rt:"),
                                   ("could not tell", 0, "3 NOT TRIED: low/")):
            self.write({"crates/low/src/lib.rt": f"// rt: fn low::one: {said}\nfn one() -> u32 {{\n    7\n}}\n"})
            found = self.tried("--plant", "--number", "3", "low")
            self.assertEqual(found[0], status, found)
            self.assertIn(last, found[1])
        self.assertEqual(self.tried("--plant", "nobody")[0], 2)


class Tries(Crates):
    def test_each_answer_is_told_and_summed_up(self):
        through, bad = "NOT REFUSED: the crate is still proved with this edit", "BAD EDIT: there is no file"
        self.edits(low__one=(EDIT, REFUSED), low__two=(EDIT, NAMED), high__three=(EDIT, through), high__four=(EDIT, bad),
                   high__five=(EDIT, ""))
        status, said = self.tried()
        self.assertEqual(status, 1)
        self.assertIn("low/one: refused\n", said)
        for kind in ("refused", "refused only because", "LET THROUGH: high/three", "CANNOT BE APPLIED: high/four", "NOT TRIED: high/five"):
            self.assertIn(f"\n1 {kind}", said)

    def test_what_is_known_is_not_tried_again(self):
        """A change is tried where it reaches; a crate of many is tried a dozen at a time."""
        self.edits(low__one=(EDIT, REFUSED), low__two=(EDIT, ""), high__two=(EDIT, REFUSED))
        self.assertEqual(self.tried("low")[0], 1)
        self.edits(low__two=(EDIT, NAMED))
        self.assertIn("low/one: refused", self.tried("low")[1])
        for crate in ("high", "low"):
            self.write({f"crates/{crate}/src/lib.rt": "let a = 1;\n"})
            self.tried()
        self.edits(**{f"low__e{number:02}": (f"{EDIT}number: {number}\n", REFUSED) for number in range(13)})
        self.tried("low")
        rows, both = self.noted(), "low one.edit two.edit "
        self.assertEqual(rows[:5], [both, "low two.edit ", "high two.edit ", "high two.edit ", both])
        self.assertEqual([len(line.split()) - 1 for line in rows[5:]], [12, 1])
        self.assertFalse((self.top / "crates/low/must-fail").exists())
        self.assertEqual((self.place / "crates/low/src/lib.rt").read_text(), "let a = 1;\n")

    def test_kept_proofs_are_those_of_the_checkout(self):
        self.edits(low__one=(EDIT, REFUSED))
        self.write({f"crates/{name}/out/kept": "kept" for name in ("low", "high")})
        self.tried("low")
        self.assertEqual([(self.place / f"crates/{name}/out/kept").exists() for name in ("low", "high")], [True, False])

    def test_a_run_that_is_stopped_goes_on_where_it_was(self):
        self.edits(high__one=(EDIT, REFUSED), low__two=(EDIT, REFUSED))
        waits = '[ "$2" = high ] || [ -e "$RAN.2" ] || { touch "$RAN.2"; sleep 60; }; echo "$2 '
        self.script(RT.replace('echo "$2 ', waits), "bin/rt")
        shutil.copytree(top / "tools/rtadmit_tools", self.top / "tools/rtadmit_tools")
        shutil.copy(top / "tools/gate", self.top / "tools/gate")
        words = [self.top / "tools/gate", "mutants", "--room", self.place]
        started = subprocess.Popen(words, stdout=subprocess.DEVNULL, stderr=subprocess.DEVNULL)
        while not pathlib.Path(f"{self.log}.2").exists() and started.poll() is None:
            time.sleep(0.02)
        started.terminate()
        self.assertEqual(started.wait(10), 130)
        self.assertEqual(subprocess.run(words, capture_output=True).returncode, 0)
        self.assertEqual(self.noted(), ["high one.edit ", "low two.edit "])

    def test_words_and_rooms_that_it_does_not_take(self):
        self.edits(low__one=(EDIT, REFUSED))
        self.file("room/mine", "")
        for words in (["nobody"], ["--texts", "low"], ["--room", self.top / "room"], ["--room", self.place]):
            self.assertEqual(run("gate", "mutants", *words)[0], 2, words)
