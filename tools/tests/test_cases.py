"""Tests of tools/gate cases, over cases of their own and a program that is a few lines of shell."""
import json
import shutil

import support
from rtadmit_tools import comparing

tool = support.verb("gate", "cases")

# prints a file, what stands in its folder, its words, or more than it should
PROGRAM = """case "$1" in
    print) cat "$2" ;;
    fail) cat "$2"; exit 3 ;;
    list) ls; echo spoilt > left-behind ;;
    count) echo "$#"; for word in "$@"; do echo "<$word>"; done ;;
    grumble) cat "$2"; echo loudly >&2 ;;
    read) cat; exec sleep "$2" ;;
esac"""


def case(args=None, **files):
    """The files of a case; `rows` are those of its table, with the other keys of the table as the last."""
    if "rows" in files:
        *rows, table = files.pop("rows")
        files["rows.json"] = json.dumps({"rows": rows, **table})
    return files if args is None else {"args": args, **files}


# how many pass, and the files
GOOD = (
    (1, case("print\nsystem\n", system="x\ny", stdout="x\ny")), (1, case("fail\nsystem\n", system="x", stdout="x", status="3\n")),
    (1, case("count\n\n b \n", stdout="3\n<count>\n<>\n< b >\n")), (1, case("", stdout="")), (1, case("\n", stdout="")),
    # only copies of the files lie where it runs, and nothing is on standard input
    (1, case("list\n", system="x", stdout="system\n", status="0\n")), (1, case("read\n0\n", stdout="")),
    (2, case("fail\nsystem\n", rows=(["", "x  z", 3], ["y", "x y z", 3], {"file": "system", "front": "x ", "back": " z"}))),
    (1, case("list\n", system="y", rows=(["x", "system\ntrace\n", 0], {"file": "trace"}))),
    (2, case("print\nsystem\n", rows=(["x"], ["y", "y", 0], {"file": "system", "printed": "x", "status": 0}))),
    (2, case(system="x", rows=([["fail", "system"]], [["print", "system"], "x", 0], {"printed": "x", "status": 3}))),
    (1, case(rows=([[], "", 0], {}))),
)
TABLE, KEYS = "its rows.json is no table", "its rows.json has no row, or a key of no table"
# what is told, by its front and whole, and the files
BAD = (
    (["standard output differs:", "    -'z\\n'", "    +'y\\n'"], case("print\nsystem\n", system="x\ny\n", stdout="x\nz\n")),
    (["standard output differs:", "    -'x\\n'", "    +'x'"], case("print\nsystem\n", system="x", stdout="x\n")),
    (["status 3 in place of 0"], case("fail\nsystem\n", system="x", stdout="x")),
    (["grumble system: standard error is b'loudly\\n'"], case("grumble\nsystem\n", system="x", stdout="x")),
    (["it has no file args"], case(stdout="")), (["it has no file stdout"], case("list\n")),
    (["its status is no number below 256: 'yes'"], case("list\n", stdout="", status="yes\n")),
    (["it has rows.json and what is printed beside it"], case("list\n", stdout="", rows=(["", "", 0], {"file": "x"}))),
    (["it has no file args"], case(rows=(["x", "x", 0], {"file": "system"}))),
    (["it has args beside words of its own"], case("list\n", rows=([["list"], "", 0], {}))),
    *(([KEYS], case("list\n", rows=rows)) for rows in ((["", "", 0], {"file": "x", "head": ""}), ({"file": "x"},), ({},))),
    *(([f"{TABLE}: {fault}"], case("list\n", rows=rows)) for fault, *rows in (
        ("ValueError", ["", ""], {"file": "x"}), ("KeyError('file')", ["x", "", 0], {}), ("TypeError", [0, "", 0], {"file": "x"}),
        ("KeyError('printed')", [""], {"file": "x", "status": 0}))),
    *(([f"{TABLE}: {fault}"], {"args": "list\n", "rows.json": text}) for fault, text in (("JSONDecodeError", ""), ("TypeError", "[]"))),
    ([TABLE], case(rows=([[0], "", 0], {}))),
)


class Cases(support.Case):
    def setUp(self):
        super().setUp()
        self.program, self.cases = self.script(PROGRAM), self.folder / "tests/cases"
        self.stand_in(tool, CASES=self.cases, FORMER=self.folder / "cases")

    def told(self, *names, **cases):
        """The status and the lines where these are the cases, with __ for the / of their names, besides what is on standard error."""
        shutil.rmtree(self.cases, ignore_errors=True)
        for name, files in cases.items():
            for file, text in files.items():
                self.file(f"tests/cases/{name.replace('__', '/')}/{file}", text)
        status, out, err = support.run("gate", "cases", "--program", self.program, *names)
        return status, (out or err).splitlines()

    def test_those_that_pass(self):
        for count, files in GOOD:
            self.assertEqual(self.told(command__good=files), (0, [f"cases: {count} of {count} hold"]), files)
            self.assertFalse((self.cases / "command/good/left-behind").exists())

    def test_those_that_fail(self):
        for (front, *lines), files in BAD:
            status, (first, *told) = self.told(command__bad=files)
            self.assertEqual((status, told), (1, [*lines, "cases: 0 of 1 hold"]), files)
            self.assertTrue(first.startswith(f"cases: command/bad: {front}"), first)
        self.stand_in(comparing, SECONDS=0.2)
        status, (first, *_) = self.told(command__bad=case("read\n5\n", stdout=""))
        self.assertEqual((status, "timed out after 0.2 seconds" in first), (1, True), first)

    def test_names(self):
        """Of folders and of cases; a row that differs is told by its number."""
        good, bad = (case("print\nsystem\n", system="x", stdout=printed) for printed in "xy")
        cases = {"one__good": good, "one__bad": bad, "two__good": good,
                 "three": case(rows=([["count"], "1\n<count>\n", 0], [[], "", 0], {}))}
        self.assertEqual(self.told("one/good", **cases), (0, ["cases: 1 of 1 hold"]))
        self.assertEqual(self.told("two", "three", **cases), (0, ["cases: 3 of 3 hold"]))
        self.assertEqual(self.told("one", **cases)[1][-1], "cases: 1 of 2 hold")
        self.assertEqual(self.told(**cases)[1][-1], "cases: 4 of 5 hold")
        table = case("print\nsystem\n", rows=(["x", "x", 0], ["y", "z", 0], {"file": "system"}))
        lines = ["cases: command/table, row 2: standard output differs:", "    -'z'", "    +'y'", "cases: 1 of 2 hold"]
        self.assertEqual(self.told(command__table=table), (1, lines))

    def test_refusals(self):
        self.assertEqual(self.told("one/other", "one/good", one__good=case("", stdout="")), (1, ["no case has the name one/other"]))
        self.assertIn("there is no case in ", self.told()[1][0])
        self.cases.mkdir()
        self.refused("there is no case in ", "gate", "cases", "--program", self.program)
        for name in ("args", "stdout"):
            self.file(f"tests/cases/one/{name}", "")
        self.refused("none: No such file or directory", "gate", "cases", "--program", self.folder / "none")
        (self.folder / "cases").mkdir()
        self.refused("no case runs there", "gate", "cases", "--program", self.program)
