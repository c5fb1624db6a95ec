"""Any answer of the program, as its text, as one JSON object, or as lines that a CI system shows.

WORDS are the program's: tools/host ask admit FILE --json. Without --json and --annotate its text is printed as it is. The status is the
program's; it is 1 as well where this tool refuses.

--json prints an object by docs/use/answer.schema.json: the words, the status with its name in docs/use/formats.md, the verdict or null,
and the other lines of the text, each as an object. Its `kind` is the first word of the line, its words that stand alone have keys as
`name`, and KEY=VALUE is what it says; a whole number is a number, and `-` is null. In an answer of `session` the number in front is `row`.
What is no such text has a key of its own: `events` of `rtds`, `system` of `place`, `certificate` of `certify`.

--annotate prints a line for each thing that is not a yes, as GitHub's runners show it, and nothing for a yes:

    ::error file=FILE,line=LINE::COMMAND: the program's line, and of a fault what tools/host why finds

The file and the line are those in which the fault is; of a row of a script that is not taken, of a guest that has no core and of a
period that is short, over or denied it is the second file, with the row, or the first row from that moment on; else it is the system
file, with the line of the name. What is not found is left out."""
import csv
import io
import itertools
import json
import os
import pathlib
import re
import sys
import tomllib

from .. import faults
from ..command_line import Refused
from ..program import add_program, line_object, program_of, value_of
from ..system_file import line_of

STATUS = ("Yes", "No", "Usage", "BadFile", "Wide", "Absent", "ReadFault", "TooLong", "WriteFault", "NoMemory")
SECOND = {
    "check": "certificate", "simulate": "releases", "rtds": "workload", "audit": "trace", "tally": "trace", "steal": "trace",
    "session": "script", "place": "guests",
}
NOT_YES = {"overfull", "wide", "flaw", "short", "over", "stolen", "exposed", "first", "nothing", "unplaced", "refused", "fault", "absent",
           "toolong"}


def objects(lines):
    for line in lines:
        told = line_object(line)
        if told is None:
            raise Refused(None, None, f"the program answers a line that docs/use/formats.md does not have: {line}")
        yield told


def object_of(words, answer):
    told = {"words": words, "status": answer.status, "answer": STATUS[answer.status], "verdict": None, "lines": []}
    lines, command = answer.lines, words[0] if words else ""
    if lines and lines[0] in ("verdict=yes", "verdict=no", "verdict=wide"):
        told["verdict"] = lines.pop(0).partition("=")[2]
        told["lines"] = list(objects(lines))
    elif answer.status == 2 and lines:
        told["lines"] = [{"kind": "usage", "text": answer.text.strip()}]
    elif answer.status == 0 and command == "version":
        told["lines"] = [{"kind": "version", "version": lines[0].partition(" ")[2]}]
    elif answer.status == 0 and command == "certify":
        told["certificate"] = json.loads(answer.text)
    elif answer.status == 0 and command == "place":
        told["system"] = tomllib.loads(answer.text)
    elif answer.status == 0 and command == "rtds":
        told["events"] = [{key: value_of(value) if key[:2] == "at" else value or None for key, value in row.items()}
                          for row in csv.DictReader(io.StringIO(answer.text))]
    else:
        told["lines"] = list(objects(lines))
    return told


def line_of_row(path, holds):
    """The line of the first row of a file of rows for which it holds."""
    with open(path, encoding="utf-8-sig", errors="replace", newline="") as file:
        reader = csv.reader(file)
        return next((reader.line_num for row in reader if row and holds(row)), None)


def fault_place(told):
    """The file, the line and the cause that the first line of what is told of a fault has."""
    found = re.match(r"(.+?)(?::(\d+))?: (.*)", told[0])
    return found[1], found[2] and int(found[2]), found[3].removeprefix(", ")


def place_of(line, command, files, answer):
    """The file and the line that a line of an answer is about, and the cause of a fault; None for what is not known."""
    kind, (first, second) = line["kind"], (*files, None, None)[:2]
    if kind == "fault" and ("at" in line or line["file"] == 2 or line["fault"] in ("NotToml", "NotRtds")):
        return fault_place(faults.lines_of(first, second if line["file"] == 2 else None, SECOND.get(command), answer))
    if kind == "refused":
        return fault_place(faults.of_second(first, second, "script", line["fault"], line["row"] + 1))
    if "row" in line:
        numbers = itertools.count()
        return second, line_of_row(second, lambda row: next(numbers) == line["row"]), None
    if kind in ("short", "over", "stolen"):
        with open(second, encoding="utf-8-sig") as file:
            unit = 1 if file.readline().startswith("at_ns") else 1000
        return second, line_of_row(second, lambda row: row[0].isdecimal() and int(row[0]) * unit >= line["from_ns"]), None
    if kind == "unplaced":
        return second, line_of_row(second, lambda row: row[1:2] == [line["name"]]), None
    if kind == "flaw":
        return second, None, None
    return first, line_of(pathlib.Path(first).read_text(errors="replace"), line["name"]) if "name" in line else None, None


def escaped(text, more=""):
    for letter in "%\r\n" + more:
        text = text.replace(letter, f"%{ord(letter):02X}")
    return text


def annotations(words, answer):
    """A line for each thing that is not a yes."""
    told, name, found = object_of(words, answer)["lines"], None, []
    files = words[1:3] if words[0] in SECOND else words[1:2]
    can_look = all(map(os.path.isfile, files))
    for text, line in zip(answer.lines[-len(told):], told):
        name = line["name"] if line["kind"] in ("core", "part") else name
        if line["kind"] in NOT_YES:
            line = {"name": name, **line} if line["kind"] == "first" else line
            file, number, cause = place_of(line, words[0], files, answer) if can_look else (files[line.get("file", 1) - 1], None, None)
            found.append((file, number, f"{words[0]}: {text}{f': {cause}' if cause else ''}"))
    if answer.status and not found:
        found = [(None, None, f"{' '.join(words)}: {answer.shown} ({STATUS[answer.status]})")]
    for file, number, what in found:
        place = ",".join(f"{key}={escaped(str(value), ':,')}" for key, value in (("file", file), ("line", number)) if value)
        yield f"::error{' ' * bool(place)}{place}::{escaped(what)}\n"


def add_words(parser):
    parser.add_argument("words", nargs="*", metavar="WORDS", help="the words of the program, as admit FILE")
    how = parser.add_mutually_exclusive_group()
    how.add_argument("--json", action="store_true", help="prints the answer as one JSON object")
    how.add_argument("--annotate", action="store_true", help="prints a line of GitHub's form for each thing that is not a yes")
    add_program(parser)


def run(given):
    text = sys.stdin.read() if "/dev/stdin" in given.words else None
    answer = program_of(given.program).ask(*(given.words or [""]), text=text)
    if answer.status not in range(len(STATUS)):
        raise Refused(None, None, f"the program does not answer as rtadmit does: status {answer.status}")
    if given.json:
        return json.dumps(object_of(given.words, answer)) + "\n", answer.status
    return "".join(annotations(given.words or [""], answer)) if given.annotate else answer.text, answer.status
