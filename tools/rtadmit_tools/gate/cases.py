"""Runs each worked case of tests/cases with the program, and compares what it prints and its status with what the case says.

A case is a folder tests/cases/COMMAND/CASE, named for what it shows:

    args          the words, one a line; an empty line is an empty word
    stdout        what is printed, byte for byte
    status        the exit status; 0 where there is no such file
    other files   lie where the program runs, under their names

or a table of runs, which has rows.json in place of stdout and status:

    {"file": NAME, "front": TEXT, "back": TEXT, "rows": [[TEXT, PRINTED, STATUS], ..]}

In each run the file NAME is the front, the row's text and the back. A row may be words in place of the text: [[WORD, ..], PRINTED, STATUS]
runs with them, and a table of words alone has neither args nor "file". PRINTED and STATUS may be left out of rows where the table has
them, as "printed" and "status". Each row counts as a case.

What is printed and the status come from the rules, by hand, and never from a run of the program. Nothing may come on standard error. A NAME
is COMMAND/CASE, or COMMAND for all of its cases. Ends with 1 where a case differs, lacks its words or its text, where there is no case, and
where a folder cases/ stands at the top, of which none would run."""
import difflib
import json
import shutil
from collections import namedtuple

from .. import comparing
from ..command_line import TOP, Refused
from ..comparing import Broken, compare, need

# the words, the content of the files that are no copies, what is printed, and the status; or why there is no such run
Run = namedtuple("Run", "name case words own printed status fault", defaults=[(), {}, b"", 0, None])
CASES, FORMER = TOP / "tests/cases", TOP / "cases"
OWN = ("args", "stdout", "status", "rows.json")
TABLE = {"file", "front", "back", "printed", "status", "rows"}


def status_of(said):
    need(str(said).isascii() and str(said).isdigit() and int(said) < 256, f"its status is no number below 256: {said!r}")
    return int(said)


def rows_of(name, case, args):
    try:
        table = json.loads((case / "rows.json").read_text())
        for number, (told, *rest) in enumerate(table["rows"], 1):
            printed, status = rest or (table["printed"], table["status"])
            is_text = not isinstance(told, list)
            need(is_text == (args is not None), "it has no file args" if is_text else "it has args beside words of its own")
            own = {table["file"]: (table.get("front", "") + told + table.get("back", "")).encode()} if is_text else {}
            words = args if is_text else [word + "" for word in told]
            yield Run(f"{name}, row {number}", case, words, own, printed.encode(), status_of(status))
    except (ValueError, KeyError, TypeError, AttributeError) as fault:
        raise Broken(f"its rows.json is no table: {fault!r}") from fault
    need(table["rows"] and set(table) <= TABLE, "its rows.json has no row, or a key of no table")


def read_case(name, case):
    has = {path.name for path in case.iterdir()}
    if "rows.json" in has:
        need(not has & {"stdout", "status"}, "it has rows.json and what is printed beside it")
        return list(rows_of(name, case, words_of(case) if "args" in has else None))
    for lacking in {"args", "stdout"} - has:
        raise Broken(f"it has no file {lacking}")
    status = status_of((case / "status").read_text().strip()) if "status" in has else 0
    return [Run(name, case, words_of(case), {}, (case / "stdout").read_bytes(), status)]


def words_of(case):
    return (case / "args").read_bytes().decode().removesuffix("\n").split("\n") if (case / "args").stat().st_size else []


def runs_of(case):
    name = str(case.relative_to(CASES))
    try:
        return read_case(name, case)
    except Broken as fault:
        return [Run(name, case, fault=fault)]


def differing(wanted, printed):
    """The lines that differ, those that are wanted behind a minus."""
    sides = ([repr(line)[1:] for line in piece.splitlines(keepends=True)] for piece in (wanted, printed))
    lines = difflib.unified_diff(*sides, lineterm="", n=0)
    return [line[:200] for line in lines if line[:2] not in ("--", "++", "@@")][:20]


def as_told(room, run):
    """Runs it where its files lie. What is printed and the status are those of the case."""
    if run.fault:
        raise run.fault
    for file in run.case.iterdir():
        if file.name not in OWN:
            (shutil.copytree if file.is_dir() else shutil.copyfile)(file, room.folder / file.name)
    for name, content in run.own.items():
        room.write(name, content)
    answer = room.run(*run.words)
    printed, wrong = answer.text.encode(errors="surrogateescape"), []
    if answer.status != run.status:
        wrong.append(f"status {answer.status} in place of {run.status}")
    if printed != run.printed:
        wrong += ["standard output differs:", *differing(run.printed, printed)]
    need(not wrong, "\n    ".join(wrong))


def cases():
    """The folders that hold a case: below the folder of a command, or that folder where it has files itself."""
    for command in sorted(CASES.iterdir()) if CASES.is_dir() else []:
        below = sorted(command.iterdir()) if command.is_dir() else []
        yield from [command] if any(path.is_file() for path in below) else below


def add_words(parser):
    parser.add_argument("names", metavar="NAME", nargs="*", help="cases or commands, in place of all cases")
    comparing.add_words(parser)


def run(given):
    if FORMER.exists():
        raise Refused(FORMER, None, "no case runs there: they stand in tests/cases/COMMAND/CASE")
    there = list(cases())
    named = [CASES / name for name in given.names]
    unknown = [str(path.relative_to(CASES)) for path in named if not any(path in (case, case.parent) for case in there)]
    if unknown or not there:
        raise Refused(None, None, f"no case has the name {', '.join(unknown)}" if unknown else f"there is no case in {CASES}")
    chosen = [case for case in there if not named or case in named or case.parent in named]
    return int(not compare(given, "cases", as_told, [run for case in chosen for run in runs_of(case)], shows=False))
