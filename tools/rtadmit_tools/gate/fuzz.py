"""Runs each command of the program over hostile files and words for a bounded time.

The program's usage line tells its commands and their words. First come great files, each once: deep nesting, long lines, many tables,
keys, rows and points; with --heavy at their full sizes (a line of 64 MiB, a million tables, ten million rows), which takes minutes. Then,
for N seconds (60), calls that are good (those of examples/README.md, and some that are made) are spoilt: files cut, doubled, spliced,
bytes flipped, numbers made huge, keys doubled, brackets nested, lines made long; words spoilt, dropped or doubled; a file that is none; an
output that is full or closed.

Each run may have 2048 MiB of memory, with --heavy 8192, and has to end by itself within the limit (20 seconds, six times that for great
files), with one of the ten statuses and the text that goes with it, with nothing on standard error and by no signal. With --beside another
program has to answer the same to the commands that it has. Each failure, the largest run, and of files of each number of digits of bytes
the slowest run, is kept in a folder with its words. The seed is printed: with it and --case the same case runs again. Ends with 1 where a
run failed, and with 2 where every run was answered by the usage line."""
import os
import pathlib
import random
import re
import resource
import shutil
import tempfile
import time
from collections import Counter

from ..command_line import TOP, Refused
from ..comparing import module_of, program_to_compare
from ..program import Program, add_program

inputs, page, runs = (module_of(file) for file in ("bench/inputs.py", "examples/page.py", "bench/runs.py"))

# What the statuses are told by, in their order: the front of the text.
FRONTS = [
    (b"verdict=yes\n", b'{"format"', b"at,core,what,vcpu\n", b"at_ns,core,what,vcpu\n", b"format = ", b"rtadmit "),
    *((front,) for front in (b"verdict=no\n", b"", b"fault=", b"verdict=wide\n", b"absent file=", b"", b"toolong file=", b"", b"")),
]
EMPTY = (6, 9)
NUMBERS = [0, 1, 2, 3, 10, 100, 255, 256, 257, 511, 512, 513, 577, 1000, 65536, 10**6, 10**6 + 1, 10**9, 10**9 + 1, 10**12, 10**12 + 1]
NUMBERS += [2**k + d for k in (31, 32, 63, 64, 127, 128) for d in (-1, 0, 1)] + [int("9" * 40)]
ODD = ["-1", "-0", "+1", "01", "00", "1.0", "1e0", "1e400", "1_000", "0x10", "0b1", "nan", "inf", "true", "null"]
ODD += ['"1"', "", " ", "[]", "{}", "1979-05-27"]
WORDS = "format core part part.task name sched parent period budget extra task deadline jitter work supply_period supply_budget edf rm dm"
WORDS += " listed at at_ns vcpu what early start wake block run stop end nodes budget computed falls hits kind place points witness"
WORDS = [word.encode() for word in (WORDS + " cpu0 v0 t0 early late worst add remove change").split()]
PIECES = [b"\0", b"\xff", b"\xef\xbb\xbf", b"\r\n", b"\n\n", *rb'''" ' """ , ; : [ ] { } [[ ]] = . \ \u0000 #'''.split()]
FILLINGS = [b"a", b"9", b" ", b"\n", b"#", b",", b'"', b"\xc3\xa9", b"\t"]
FILES = ["/dev/null", "/dev/zero", "/proc/self/mem", "/", "/no/such", "/dev/null/x", "", "x" * 300, "x" * 5000, b"\xff\xfe", "\n"]
ROWS = b"op,part,parent,sched,period,budget,tasks\n"
SCRIPT = ROWS + b"add,C,cpu0,edf,200,1,t:1000:1000:0:1\nchange,C,,rm,200,,t:1000:900:5:1;u:2000:2000:0:1\nremove,C,,,,,\n"
GUESTS = ROWS + b"add,C,,edf,200,1,t:1000:1000:0:1\nadd,D,,rm,200,,t:1000:900:5:1;u:2000:2000:0:1\n"
CERTIFICATE = (
    b'{"format":1,"nodes":[{"budget":3,"computed":true,"falls":[],"hits":[],"kind":"part","period":10,"place":0,'
    b'"points":["50","75","100","161"],"witness":"75"},{"budget":1,"computed":false,"falls":[],"hits":[],"kind":"core",'
    b'"period":1,"place":0,"points":["10","12"],"witness":null}]}\n'
)


class File(bytes):
    """A word that stands for a file of these bytes."""


# Good calls: a list of words each, where a File is written to a file.
def hosts():
    """A few small hosts, with jitter in one and levels in another."""
    late, nested = inputs.small(), inputs.tree()
    late.parts[0].tasks[0].jitter = 5
    nested.parts = [part for part in nested.parts if part.name[0] != "l" or part.name.endswith(("0_0", "1_3"))]
    for _ in range(2):
        parents = {part.parent for part in nested.parts}
        nested.parts = [part for part in nested.parts if part.tasks or part.name in parents]
    return inputs.small(), late, inputs.shared(1, 2), inputs.shared(2, 3), inputs.frames(), nested


def made_calls(program, forms, dice):
    """A call of every form over every host of a few. Its certificate is its own, or one that is about another."""
    calls = []
    for host in hosts():
        slots, first = dice.choice([0, 100, 3000]), host.parts[0].tasks
        certificate = program.ask("certify", "/dev/stdin", text=host.text())
        beside = {
            "FILE": File(host.text().encode()),
            "CERT": File(certificate.text.encode() if certificate.status == 0 else CERTIFICATE),
            "RELEASES": File(inputs.releases(host, 3000, first != [] and first[0].jitter > 0).encode()),
            "WORKLOAD": File(inputs.workload(host, 3000).encode()),
            "TRACE": File(inputs.trace(host, 2000, dice.choice([1, 1000])).encode()),
            "SCRIPT": File(SCRIPT),
            "GUESTS": File(GUESTS),
            "PATTERN": dice.choice([b"early", b"late", b"worst"]),
            "PART": host.leaves()[0].name.encode(),
            "SLOTS": str(slots).encode(),
            "LOW": b"5",
        }
        calls += [[form[0].encode()] + [beside.get(word, dice.choice([b"10", b"14"])) for word in form[1:]] for form in forms]
    return calls


def page_calls(program):
    """The calls of the pages of examples, each file that it names as a File."""
    for words in filter(None, page.words(program.path)):
        paths = [TOP / os.fsdecode(word) for word in words]
        is_file = [place and word and path.is_file() for place, (word, path) in enumerate(zip(words, paths))]
        yield [File(path.read_bytes()) if named else word for named, word, path in zip(is_file, words, paths)]


# How a good call is spoilt.
def number(dice):
    if dice.random() < 0.3:
        return dice.choice(ODD).encode()
    return str(dice.choice(NUMBERS) + dice.choice([0, 0, 0, 1, -1])).encode()


def place_in(dice, data):
    """A place in the data: at the beginning of a line as often as anywhere."""
    at = dice.randint(0, len(data))
    return data.rfind(b"\n", 0, at) + 1 if dice.random() < 0.5 else at


def span_in(dice, data):
    return sorted((place_in(dice, data), place_in(dice, data)))


def put(dice, data, piece):
    """The data with a piece put in, which is made behind the choice of its place."""
    at = place_in(dice, data)
    return data[:at] + piece() + data[at:]


def other_in(dice, data, pattern, other):
    """The data with another piece in place of one that is found, or behind all where none is."""
    found = list(re.finditer(pattern, data))
    start, end = dice.choice(found).span() if found else (len(data), len(data))
    return data[:start] + other() + data[end:]


def drop(dice, data, _):
    a, b = span_in(dice, data)
    return data[:a] + data[b:]


def double(dice, data, _):
    a, b = span_in(dice, data)
    return data[:b] + data[a:b] * dice.choice([1, 1, 2, 10, 600]) + data[b:] if len(data) < 10**5 else data


def splice(dice, data, others):
    other = dice.choice(others)
    a, b = span_in(dice, other)
    return put(dice, data, lambda: other[a:b])


def flip(dice, data, _):
    flipped = bytearray(data)
    for _ in range(dice.choice([1, 1, 3, 20]) * bool(data)):
        flipped[dice.randrange(len(flipped))] = dice.randrange(256)
    return bytes(flipped)


def renumber(dice, data, _):
    return other_in(dice, data, rb"\d+", lambda: number(dice))


def equal_key(dice, data, _):
    """A line, or a member of an object, stands twice, the second time perhaps with another value."""
    found = list(re.finditer(rb'^[^\n={}]*=[^\n]*\n|"\w+":[^,{}\[\]]+,', data, re.M))
    if not found:
        return data
    one = dice.choice(found)
    return data[: one.end()] + (one[0] if dice.random() < 0.5 else renumber(dice, one[0], _)) + data[one.end() :]


def shuffle_lines(dice, data, _):
    lines = data.splitlines(keepends=True)
    if lines:
        lines.insert(dice.randrange(len(lines)), lines.pop(dice.randrange(len(lines))))
    return b"".join(lines)


def nest(dice, data, _):
    depth, at = dice.choice([5, 100, 200, 3000]), place_in(dice, data)
    open_, close = dice.choice([(b"[", b"]"), (b"{a=", b"}"), (b'{"a":', b"}"), (b"[[", b"]]"), (b"a.", b""), (b"x=[", b"]"), (b'"', b'"')])
    return data[:at] + open_ * depth + data[at : at + 3] + close * depth + data[at + 3 :]


# each as often as it is to be chosen
SPOILS = [
    lambda dice, data, _: data[: place_in(dice, data)] if dice.random() < 0.7 else data[place_in(dice, data) :],
    drop,
    double,
    splice,
    flip,
    *[renumber] * 3,
    *[lambda dice, data, _: other_in(dice, data, rb"[A-Za-z_][A-Za-z_0-9.]*", lambda: dice.choice(WORDS))] * 2,
    equal_key,
    shuffle_lines,
    nest,
    lambda dice, data, _: put(dice, data, lambda: dice.choice(FILLINGS) * dice.choice([33, 300, 70000])),
    lambda dice, data, _: put(dice, data, lambda: dice.choice(PIECES)),
]


def spoil_word(dice, word):
    others = number(dice), number(dice), dice.choice(WORDS)
    return dice.choice([*others, word + b" ", word[:-1], b"", b"\xff" + word, word.upper(), b"9" * 5000, word * 2])


def spoil(dice, words, others):
    """The call with one to four things spoilt."""
    words = list(words)
    for _ in range(dice.choice([1, 1, 2, 4])):
        files = [place for place, word in enumerate(words) if isinstance(word, File)]
        place = dice.choice(files) if files and dice.random() < 0.8 else dice.randrange(len(words))
        if isinstance(words[place], File) and dice.random() < 0.95:
            words[place] = File(dice.choice(SPOILS)(dice, words[place], others))
        elif isinstance(words[place], File):
            words[place] = os.fsencode(dice.choice(FILES))
        elif place and dice.random() < 0.8:
            words[place] = spoil_word(dice, words[place])
        elif dice.random() < 0.3:
            words.insert(place, dice.choice(words) if dice.random() < 0.5 else words[place])
        elif dice.random() < 0.3 and len(words) > 1:
            words.pop(dice.randrange(1, len(words)))
    return [word if isinstance(word, File) else word.replace(b"\0", b"") for word in words]


# Great files: what the file is, which word of which form it is, and its bytes in pieces of a size that is 1 at most.
def count(size, most):
    return max(1, int(most * size))


def legal_rows(size):
    yield b"at,core,what,vcpu\n0,c,start,v\n"
    for _ in range(8):
        yield b"0,c,run,v\n" * count(size, 830_000)
    yield b"1,,end,\n"


def numbered(front, line, behind, most):
    """Lines that each have a number of their own."""

    def pieces(size):
        yield front
        for at in range(1, count(size, most) + 1, 10_000):
            yield b"".join(line.replace(b"%d", b"%d" % k) for k in range(at, min(at + 10_000, count(size, most) + 1)))
        yield behind

    return pieces


def filled(front, filling, behind, most):
    return lambda size: (front, filling * count(size, most), behind)


def nested(open_, inner, close, most, front=b"", behind=b""):
    return lambda size: (front, open_ * count(size, most), inner, close * count(size, most), behind)


HEAD = b'format = 1\n[[core]]\nname = "c"\nsched = "edf"\n'
TINY = HEAD + b'[[part]]\nname = "v"\nparent = "c"\nsched = "edf"\nperiod = 10\nbudget = 3\n'
TINY += b'[[part.task]]\nname = "t"\nperiod = 50\nwork = 7\n'
LINE = 67_000_000
NODE = b'{"format":1,"nodes":[{"budget":3,"computed":false,"falls":[],"hits":[],"kind":"part","period":10,"place":0,"points":["50"'
TRACED, RELEASED = b"at,core,what,vcpu\n", b"at,part,task,work\n"
GREAT = [
    ("arrays in arrays", "FILE", nested(b"[", b"", b"]", 2 * 10**7, b"x = ", b"\n")),
    ("tables in tables", "FILE", nested(b"{a=", b"1", b"}", 10**7, b"x = ", b"\n")),
    ("a long dotted key", "FILE", filled(b"a", b".a", b" = 1\n", 2 * 10**7)),
    ("a long dotted header", "FILE", filled(b"[a", b".a", b"]\n", 2 * 10**7)),
    ("a long comment", "FILE", filled(HEAD + b"#", b"a", b"\n", LINE)),
    ("a long text", "FILE", filled(b'format = 1\nx = "', b"a", b'"\n', LINE)),
    ("a long key", "FILE", filled(b"", b"a", b" = 1\n", LINE)),
    ("a long number", "FILE", filled(b"format = ", b"9", b"\n", LINE)),
    ("blanks", "FILE", filled(TINY, b" ", b"\n", LINE)),
    ("empty lines", "FILE", filled(TINY, b"\n", b"", LINE)),
    ("a million cores", "FILE", filled(b"format = 1\n", b"[[core]]\n", b"", 10**6)),
    ("a million parts", "FILE", filled(HEAD, b"[[part]]\n", b"", 10**6)),
    ("a million tasks", "FILE", filled(TINY, b'[[part.task]]\nname = "u"\nperiod = 9\nwork = 1\n', b"", 10**6)),
    ("a million tables", "FILE", numbered(TINY, b"[t%d]\n", b"", 10**6)),
    ("a million keys", "FILE", numbered(b"", b"k%d = 1\n", TINY, 10**6)),
    ("one byte too long", "FILE", filled(TINY, b"#", b"", 67_108_865 - len(TINY))),
    ("legal rows", "TRACE", legal_rows),
    ("ten million rows", "TRACE", filled(TRACED, b"1,,,\n", b"", 10**7)),
    ("ten million rows of more than 64 MiB", "TRACE", filled(TRACED + b"0,c,start,v\n", b"0,c,run,v\n", b"1,,end,\n", 10**7)),
    ("empty rows", "TRACE", filled(TRACED, b"\n", b"1,,end,\n", LINE)),
    ("a long field", "TRACE", filled(TRACED + b"0,c,start,", b"v", b"\n", LINE)),
    ("a long quoted field", "TRACE", filled(TRACED + b'0,c,start,"', b"v\n", b"", LINE // 2)),
    ("quotes", "TRACE", filled(TRACED + b"0,c,start,", b'"', b"\n", LINE)),
    ("fields", "TRACE", filled(TRACED, b",", b"\n", LINE)),
    ("a long moment", "TRACE", filled(TRACED, b"9", b",c,start,v\n", LINE)),
    ("rows of one task", "RELEASES", filled(RELEASED, b"0,v,t,1\n", b"", 8 * 10**6)),
    ("a long work", "RELEASES", filled(RELEASED + b"0,v,t,", b"9", b"\n", LINE)),
    ("rows of releases", "RELEASES", numbered(RELEASED, b"%d00,v,t,1\n", b"", 4 * 10**6)),
    ("blocks and wakes", "WORKLOAD", numbered(b"at,vcpu,what\n0,v,start\n", b"%d1,v,block\n%d2,v,wake\n", b"", 2 * 10**6)),
    ("lists in lists", "CERT", nested(b"[", b"", b"]", 3 * 10**7)),
    ("objects in objects", "CERT", nested(b'{"a":', b"1", b"}", 10**7)),
    ("a long text", "CERT", filled(b'{"format":1,"nodes":"', b"a", b'"}\n', LINE)),
    ("a long number", "CERT", filled(b'{"format":', b"9", b',"nodes":[]}\n', LINE)),
    ("a million nodes", "CERT", filled(b'{"format":1,"nodes":[0', b",0", b"]}\n", 10**7)),
    ("a million keys", "CERT", numbered(b"{", b'"k%d":1,', b'"format":1}\n', 4 * 10**6)),
    ("millions of points", "CERT", numbered(NODE, b',"%d"', b'],"witness":null}]}\n', 5 * 10**6)),
    ("one long point", "CERT", filled(NODE + b',"', b"9", b'"],"witness":null}]}\n', LINE)),
    ("a long row", "SCRIPT", filled(ROWS + b"add,C,c,edf,20,1,t:9:9:0:1", b";t:9:9:0:1", b"\n", 6 * 10**6)),
    ("a long row", "GUESTS", filled(ROWS + b"add,C,,edf,20,1,t:9:9:0:1", b";t:9:9:0:1", b"\n", 6 * 10**6)),
]
# the other words of a form; the rest is a number
BESIDE = {
    "FILE": File(TINY), "RELEASES": File(RELEASED), "WORKLOAD": File(b"at,vcpu,what\n"), "TRACE": File(TRACED + b"0,,end,\n"),
    "CERT": File(CERTIFICATE), "SCRIPT": File(SCRIPT), "GUESTS": File(GUESTS), "PATTERN": b"late", "PART": b"v", "SLOTS": b"1000",
}


# Runs
class Fuzz:
    """Runs calls, judges each, keeps those that failed, and remembers the largest and for each size of files the slowest."""

    def __init__(self, given, program, beside, folder, scratch):
        self.given, self.program, self.beside, self.folder, self.scratch = given, program, beside, folder, scratch
        self.commands = {form[0] for form in forms_of(program)}
        # the commands that both programs have; their usage lines may differ in the others
        self.compared = {form[0] for form in forms_of(beside)} if beside else set()
        self.statuses, self.failures, self.ran = {}, 0, 0
        # by how many digits the number of bytes of the files has
        self.slowest, self.largest = {}, (0, "")

    def told(self, program, words, out, limit):
        text, complaint = self.scratch / "out", self.scratch / "err"
        text.write_bytes(b"")
        if out == "closed":
            reader, writer = os.pipe()
            os.close(reader)
        else:
            writer = os.open("/dev/full" if out == "full" else text, os.O_WRONLY)
        with open(writer, "wb") as to, open(complaint, "wb") as err:
            ended = runs.run([*program.words, *words], to, err, limit, 8192 if self.given.heavy else 2048)
        return ended, text.read_bytes(), complaint.read_bytes()

    def wrong_with(self, ended, text, complaint, out, limit):
        status = ended.status
        if status is None:
            return f"was not done after {limit:.0f} seconds"
        if not 0 <= status < len(FRONTS):
            return f"was ended by signal {-status}" if status < 0 else f"ended with status {status}"
        if complaint:
            return f"wrote to standard error: {complaint[:80]!r}"
        if out != "file":
            return "" if status in (2, 8, *EMPTY) else f"ended with status {status} where nothing can be written"
        if status in EMPTY and text or status == 8:
            return f"ended with status {status} and {len(text)} bytes"
        is_right = text.startswith(FRONTS[status]) and (not text or text.endswith(b"\n"))
        return "" if is_right else f"ended with status {status} and a text that begins with {text[:40]!r}"

    def keep(self, name, words, paths, note):
        """Leaves the files and words of a call in the folder."""
        place = self.folder / name
        shutil.rmtree(place, ignore_errors=True)
        place.mkdir(parents=True)
        for path in paths.values():
            shutil.copy(path, place)
        shown = " ".join(f"file{i}" if isinstance(word, File) else repr(word) for i, word in enumerate(words))
        (place / "words").write_text(f"{shown}\n{note}\n")
        return place

    def try_call(self, name, words, out="file", great=None, limit=None):
        """Runs a call whose files are written here; one without bytes stands at `great` already."""
        limit = limit or self.given.limit
        paths = {i: great if great and not word else self.scratch / f"file{i}" for i, word in enumerate(words) if isinstance(word, File)}
        for i, path in paths.items():
            if path != great:
                path.write_bytes(words[i])
        call = [paths.get(i, word) for i, word in enumerate(words)]
        ended, text, complaint = self.told(self.program, call, out, limit)
        command = words[0].decode(errors="backslashreplace") if words else ""
        self.statuses.setdefault(command if command in self.commands else "other words", Counter())[ended.status] += 1
        self.ran += 1
        wrong = self.wrong_with(ended, text, complaint, out, limit)
        if not wrong and command in self.compared and out == "file":
            other, other_text, _ = self.told(self.beside, call, out, limit)
            usage = other.status == ended.status == 2
            if other.status is not None and not usage and (other.status, other_text) != (ended.status, text):
                wrong = f"status {ended.status} and {text[:60]!r}, beside status {other.status} and {other_text[:60]!r}"
        if wrong:
            place = self.keep(f"failure-{self.failures}", words, paths, f"{name}: {wrong}")
            print(f"{name}, {command}: {wrong}; kept in {place}", flush=True)
            self.failures += 1
        digits = len(str(sum(map(os.path.getsize, paths.values()))))
        if ended.seconds > self.slowest.get(digits, (0.0, ""))[0]:
            self.slowest[digits] = ended.seconds, f"{name}, {command}"
            self.keep(f"slowest-{digits}", words, paths, f"{name}: {ended.seconds:.2f} seconds")
        if ended.kibibytes > self.largest[0]:
            self.largest = ended.kibibytes, f"{name}, {command}"
            self.keep("largest", words, paths, f"{name}: {ended.kibibytes} KiB")
        return ended

    def try_great(self, forms):
        """Each great file once, at every form that takes its kind."""
        great = self.scratch / "great"
        for title, kind, pieces in GREAT:
            if not runs.in_a_child(lambda: great.write_bytes(b"".join(pieces(1.0 if self.given.heavy else 0.001)))):
                raise Refused(None, None, f"{title}: the file was not made")
            for form in forms:
                if kind in form and self.given.only in (None, form[0]):
                    words = [form[0].encode(), *(File() if word == kind else BESIDE.get(word, b"10") for word in form[1:])]
                    ended = self.try_call(title, words, great=great, limit=6 * self.given.limit)
                    if self.given.heavy:
                        told = f"status {ended.status}, {ended.seconds:.2f} seconds, {ended.kibibytes} KiB"
                        print(f"{title}, {os.path.getsize(great)} bytes, {form[0]}: {told}", flush=True)

    def try_case(self, number, calls):
        """The case of this number: a call of one command after the other, spoilt."""
        dice = random.Random(f"{self.given.seed} {number}")
        command = sorted(calls)[number % len(calls)]
        others = [word for call in calls[command] for word in call if isinstance(word, File)] or [b"1"]
        words = spoil(dice, dice.choice(calls[command]), others)
        self.try_call(f"case {number}", words, dice.choice(["file"] * 18 + ["full", "closed"]))

    def summary(self):
        for command, statuses in sorted(self.statuses.items()):
            yield f"{command}: " + ", ".join(f"status {status} {times} times" for status, times in sorted(statuses.items(), key=str))
        for digits, (seconds, name) in sorted(self.slowest.items()):
            yield f"slowest over files of fewer than {10**digits:,} bytes: {seconds:.2f} seconds ({name})"
        yield f"{self.ran} runs, {self.failures} failures;"
        own = resource.getrusage(resource.RUSAGE_SELF).ru_maxrss
        yield f"largest {self.largest[0]} KiB ({self.largest[1]}), and less than {own} KiB, what this tool has itself, can't be told"


def forms_of(program):
    line = program.ask().text
    if not line.startswith("usage: "):
        raise Refused(program.path, None, f"answers {line[:60]!r} without words, and no usage line")
    return [form.split() for form in line.removeprefix("usage: rtadmit ").strip().split(" | ")]


def add_words(parser):
    parser.add_argument("--seconds", type=float, default=60, metavar="N", help="how long calls are spoilt")
    parser.add_argument("--seed", type=int, default=random.SystemRandom().randrange(10**6), metavar="N", help="for the same cases again")
    parser.add_argument("--case", type=int, metavar="N", help="the case of this number alone")
    parser.add_argument("--limit", type=float, default=20, metavar="SECONDS", help="by which a run has to end")
    parser.add_argument("--heavy", action="store_true", help="great files at their full sizes")
    parser.add_argument("--beside", metavar="PROGRAM", help="another program, which has to answer the same")
    parser.add_argument("--only", metavar="COMMAND", help="no other command")
    parser.add_argument("--keep", metavar="FOLDER", help="where the files of failures are kept, and of the largest and the slowest runs")
    add_program(parser)


def run(given):
    program, beside = program_to_compare(given), given.beside and Program([os.path.abspath(shutil.which(given.beside) or given.beside)])
    folder = pathlib.Path(given.keep or tempfile.mkdtemp(prefix="rtadmit-fuzz-"))
    print(f"seed {given.seed}; what is kept stands in {folder}", flush=True)
    forms, dice, calls = forms_of(program), random.Random(given.seed), {}
    for words in [*page_calls(program), *made_calls(program, forms, dice)]:
        command = words[0].decode(errors="replace")
        if command in (form[0] for form in forms) and given.only in (None, command):
            calls.setdefault(command, []).append(words)
    if not calls:
        raise Refused(None, None, f"there is no command {given.only}")
    with tempfile.TemporaryDirectory(prefix="rtadmit-fuzz-run-") as scratch:
        fuzz = Fuzz(given, program, beside, folder, pathlib.Path(scratch))
        if given.case is not None:
            fuzz.try_case(given.case, calls)
        else:
            fuzz.try_great(forms)
            until, number = time.monotonic() + given.seconds, 0
            while time.monotonic() < until:
                fuzz.try_case(number, calls)
                number += 1
    status = 1 if fuzz.failures else 2 if all(set(statuses) <= {2} for statuses in fuzz.statuses.values()) else 0
    return "\n".join(fuzz.summary()) + "\n", status
