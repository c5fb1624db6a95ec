"""Tries wrong bodies that the gate does not try, those of tests/mutants/CRATE/ or some made by rule: the prover has to refuse each.

Tried are those of the crates that are named, or of all; --texts tries none, and tells whether each of tests/mutants/ and of
crates/*/must-fail can be applied. It works on a copy of the crates in a room that it keeps, and never in this checkout. What is known of
an edit is kept there, by a sum of the edit, of its crate's files, of those of the crates below and of the toolchain. So a run that was
stopped goes on where it was, but for those that it had begun, and one after a change tries anew what the change can reach.

Wrong bodies of different functions are tried together, in one check of those functions alone, which tells of each whether it is proved.
An edit of anything but bodies is tried by `rt must-fail`, and costs a proof of its crate.

Told is of each edit whether it is refused (or only because a proof names what the edit took away, which says little of the contract), let
through, or cannot be applied. The status is 1 where one is let through, can't be applied or was not tried, and 2 where there is no try.

An edit is a file NAME.edit as `rt must-fail` takes it: lines 'file: src/lib.rt', and pairs of lines 'old: TEXT' and 'new: TEXT', each TEXT
exactly once in that file as the pairs before left it.

--plant tries no edits, and of each crate some wrong bodies that it makes of the sources: a line with another sign, number, word or order of
arguments, a condition that is turned round or always holds, a statement that is dropped, an answer that is a constant. Where one is let
through look whether it answers the same as the real one; what does not compile, and what a check does not tell, counts as nothing."""
import contextlib
import hashlib
import json
import os
import pathlib
import re
import shutil
import signal
import subprocess
from collections import namedtuple

from .. import bodies, plants, sources
from ..command_line import Refused, counted

REFUSED = 2
FOLDER = "tests/mutants"
AT_ONCE = 12
# the bodies of one check, and the seconds that it has for each before it is halved
TOGETHER, SECONDS = 40, 60
WORDS = {
    "refused": "refused",
    "named": "refused only because a proof names what {} took away",
    "through": "LET THROUGH",
    "bad": "CANNOT BE APPLIED",
    "untried": "NOT TRIED",
}
# what `rt must-fail` says of an edit that is not just refused
KINDS = {"BAD EDIT": "bad", "NOT REFUSED": "through", "only because a proof file names": "named"}


# the texts of edits
# an edit of a crate: its name, its text, and the texts of the files that it makes, by their paths, or why it cannot be applied
Edit = namedtuple("Edit", "name text made")


def made_by(text, crate):
    """The texts that an edit makes of the files of a crate's folder, by their paths; or why it cannot be applied."""
    path, old, texts, pairs = "", "", {}, 0
    for line in text.split("\n"):
        if line.startswith("file: "):
            path, old = line.removeprefix("file: ").strip(), ""
            if os.path.normpath(path) != path or path.partition("/")[0] not in sources.ROOMS:
                return f"{path} is no file of src/, specs/ or proofs/"
            if not (crate / path).is_file():
                return f"there is no file {path}"
            texts.setdefault(path, (crate / path).read_text(encoding="utf-8"))
        elif line.startswith("old: "):
            old = line.removeprefix("old: ")
        elif line.startswith("new:"):
            if not path or not old:
                return "a 'new:' line stands before any 'file:' or 'old:' line"
            if (found := texts[path].count(old)) != 1:
                return f"an 'old:' text is in {path} {found} times, and not once: {old.strip()[:80]}"
            texts[path] = texts[path].replace(old, line.removeprefix("new:").removeprefix(" "))
            old, pairs = "", pairs + 1
    return texts if pairs else "it has no 'old:' and 'new:' pair"


def edits_in(folder, crate):
    texts = {path.stem: path.read_text(encoding="utf-8", errors="replace") for path in sorted(folder.glob("*.edit"))}
    return [Edit(name, text, made_by(text, crate)) for name, text in texts.items()]


def faults_of_texts():
    """What is wrong with the edits of all crates, a line each, and how many edits there are."""
    top, faults, number = sources.TOP, [], 0
    for path in sorted((top / FOLDER).rglob("*")):
        place = path.relative_to(top / FOLDER).parts
        if path.is_file() and (len(place) != 2 or path.suffix != ".edit"):
            faults.append(f"{path.relative_to(top)}: an edit is a file {FOLDER}/NAME/WHAT.edit")
        elif place[0] not in sources.crates() and len(place) == 1:
            faults.append(f"{path.relative_to(top)}: there is no crate {place[0]}")
    for crate in sources.crates():
        seen, folder = {}, top / "crates" / crate
        places = folder.relative_to(top) / "must-fail", pathlib.Path(FOLDER, crate)
        for place, edit in [(place / f"{edit.name}.edit", edit) for place in places for edit in edits_in(top / place, folder)]:
            number += 1
            faults += [f"{place}: {edit.made}"] * isinstance(edit.made, str)
            faults += [f"{place}: {it} has that name" for it in [seen.setdefault(edit.name, place)] if it != place]
    return faults, number


# what an edit's answer depends on
def crates_below():
    """For each crate the repository's crates that it stands on, directly or not."""
    found = {}
    for name, used in sources.used_crates().items():
        own = [it for it in used if it in found]
        found[name] = {*own}.union(*(found[it] for it in own))
    return found


def sum_of(*parts):
    return hashlib.sha256(repr(parts).encode()).hexdigest()


def sums_of(crates, toolchain):
    """For each crate a sum of all that the check of its edits reads but the edit."""
    below, own = crates_below(), {}
    for crate in {*crates}.union(*(below[crate] for crate in crates)):
        paths = sorted(path for room in sources.ROOMS for path in (sources.TOP / "crates" / crate / room).rglob("*") if path.is_file())
        own[crate] = sum_of(*((str(path.relative_to(sources.TOP)), path.read_bytes()) for path in paths))
    return {crate: sum_of(toolchain, own[crate], *((it, own[it]) for it in sorted(below[crate]))) for crate in crates}


class Results:
    """What is known of the edits, kept in the room: for each key the kind of its answer and the prover's words."""

    def __init__(self, file):
        self.file, self.known = file, {}
        with contextlib.suppress(OSError, ValueError):
            self.known = json.loads(file.read_text())

    def keep(self, key, kind, said):
        self.known[key] = [kind, said]
        part = self.file.with_suffix(".part")
        part.write_text(json.dumps(self.known, indent=0, sort_keys=True))
        os.replace(part, self.file)


# the room
def fill(room, tried):
    """Makes the room's crates those of the checkout. Where one that is needed has no kept proofs, it gets those of the checkout."""
    top, below, crates = sources.TOP, crates_below(), sources.crates()
    needed = {*tried}.union(*(below[crate] for crate in tried))
    shutil.rmtree(room / "tmp", ignore_errors=True)
    (room / "tmp").mkdir()
    for name in ("crates.txt", "HANDLES"):
        shutil.copyfile(top / name, room / name)
    for gone in {path.name for path in (room / "crates").glob("*")} - {*crates}:
        shutil.rmtree(room / "crates" / gone)
    for crate in crates:
        of, to = top / "crates" / crate, room / "crates" / crate
        for part in sources.ROOMS:
            shutil.rmtree(to / part, ignore_errors=True)
        for part in [*sources.ROOMS, *(["out"] if crate in needed and not (to / "out").is_dir() else [])]:
            if (of / part).is_dir():
                shutil.copytree(of / part, to / part)


# the tries
def run_rt(room, words, seconds=None, folder="."):
    """The output of rt, or None where it ran out of time. What it starts ends with this tool."""
    made = subprocess.Popen(
        ["rt", *words], cwd=room / folder, env=dict(os.environ, TMPDIR=str(room / "tmp")), stdin=subprocess.DEVNULL,
        stdout=subprocess.PIPE, stderr=subprocess.STDOUT, text=True, errors="replace", start_new_session=True,
    )
    try:
        return made.communicate(timeout=seconds)[0]
    except subprocess.TimeoutExpired:
        return None
    finally:
        with contextlib.suppress(ProcessLookupError):
            os.killpg(made.pid, signal.SIGKILL)


def tried_alone(room, crate, edits):
    """The kind and the prover's words of each edit of a crate, by its name, as `rt must-fail` tells them."""
    folder = room / "crates" / crate / "must-fail"
    shutil.rmtree(folder, ignore_errors=True)
    folder.mkdir()
    for edit in edits:
        (folder / f"{edit.name}.edit").write_text(edit.text)
    text = run_rt(room, ["must-fail", crate])
    shutil.rmtree(folder, ignore_errors=True)
    found = dict.fromkeys((edit.name for edit in edits), ("untried", ["rt said nothing", *filter(str.strip, text.split("\n"))][-1]))
    for name, said in re.findall(rf"^rt: must-fail {re.escape(crate)}/(\S+)\.edit: (.*)$", text, re.M):
        found[name] = next((kind for words, kind in KINDS.items() if words in said), "refused"), said
    return found


def checked(room, crate, texts, some):
    """What a check of the functions that these bodies change prints, with all of them in the sources, and whose each line is."""
    folder = room / "crates" / crate
    changed, owners = bodies.written(texts, some)
    paths = sorted({bodies.path_of(function) for it in some for function in it.functions()})
    for path, text in changed.items():
        (folder / path).write_text(text, encoding="utf-8")
    try:
        words = ["check", "--jobs", "1", *(word for path in paths for word in ("--only", path))]
        return run_rt(room, words, 300 + SECONDS * len(some), folder), owners
    finally:
        for path in changed:
            (folder / path).write_text(texts[path], encoding="utf-8")


def tried_together(room, crate, texts, some):
    """The kind and the prover's words of each body that the check tells of, by its name; those of which it says nothing are left out."""
    found = {}
    while some:
        said, owners = checked(room, crate, texts, some)
        if said is not None and re.search(r"^(only=|rattle: no verdict)", said, re.M):
            rows = bodies.verdicts(crate, said)
            return found | {it.name: told for it in some if (told := bodies.answer(rows, it))}
        wrong = bodies.blamed(said or "", owners)
        found |= {name: ("bad", f"BAD EDIT: {line}") for name, line in wrong.items()}
        some = [it for it in some if it.name not in wrong]
        if not wrong:
            half = len(some) // 2
            parts = (some[:half], some[half:]) if half else ()
            return found | {name: it for part in parts for name, it in tried_together(room, crate, texts, part).items()}
    return found


def texts_of(folder):
    return {str(path.relative_to(folder)): path.read_text(encoding="utf-8") for path in (folder / "src").rglob("*.rt")}


def tried(room, crate, edits, alone):
    """The kind and the prover's words of the edits of a crate, by their names, some at a time. Wrong bodies are tried together. What no
    check of some together tells is tried alone, where that is asked for."""
    texts = texts_of(room / "crates" / crate)
    some = [bodies.body_of(edit.name, texts, edit.made) for edit in edits if isinstance(edit.made, dict)]
    left = {edit.name: edit for edit in edits}
    for others in counted(bodies.rounds([it for it in some if it], TOGETHER), f"{crate}, checks of some together"):
        said = tried_together(room, crate, texts, others)
        left = {name: edit for name, edit in left.items() if name not in said}
        yield said
    if not alone:
        yield dict.fromkeys(left, ("untried", "a check does not tell of it"))
        return
    parts = [[*left.values()][at : at + AT_ONCE] for at in range(0, len(left), AT_ONCE)]
    for part in counted(parts, f"{crate}, proofs of the crate with {AT_ONCE} edits"):
        yield tried_alone(room, crate, part)


def try_all(room, edits, toolchain, alone):
    """The edits of each kind. `edits` has those of each crate; `alone` says whether they may be tried alone."""
    results, sums, kinds = Results(room / "results.json"), sums_of(edits, toolchain), {kind: [] for kind in WORDS}

    def show(crate, name, kind, said):
        kinds[kind].append(f"{crate}/{name}")
        print(f"{crate}/{name}: {WORDS[kind].format('it')}" + f" ({said[:200]})" * (kind != "refused"), flush=True)

    for crate, some in edits.items():
        keys = {edit.name: sum_of(sums[crate], edit.text) for edit in some}
        for name, key in keys.items():
            if key in results.known:
                show(crate, name, *results.known[key])
        for answers in tried(room, crate, [edit for edit in some if keys[edit.name] not in results.known], alone):
            for name, (kind, said) in answers.items():
                show(crate, name, kind, said)
                if kind != "untried":
                    results.keep(keys[name], kind, said)
    return kinds


def summed_up(kinds, faults):
    """The last lines, and the status: 1 where there are edits of a kind that is a fault."""
    lines = []
    for kind, names in kinds.items():
        if names or kind == "refused":
            which = "" if kind in ("refused", "named") else f": {', '.join(names)}"
            lines.append(f"{len(names)} {WORDS[kind].format('they')}{which}\n")
    return "".join(lines), int(any(kinds[kind] for kind in faults))


def ready(room):
    if room == sources.TOP or sources.TOP in room.parents:
        raise Refused(None, None, f"the room {room} lies in this checkout: tell another folder")
    if room.is_dir() and any(room.iterdir()) and not (room / "crates.txt").is_file():
        raise Refused(None, None, f"the room {room} holds other things: tell an empty folder, or one of an earlier run")
    room.mkdir(parents=True, exist_ok=True)


def interrupt(_signal, _frame):
    raise KeyboardInterrupt


def kept(crate):
    return edits_in(sources.TOP / FOLDER / crate, sources.TOP / "crates" / crate)


def made(crate, number, seed):
    """So many wrong bodies that are made of a crate, as edits."""
    found = plants.some(texts_of(sources.TOP / "crates" / crate), number, seed)
    return [Edit(name, text, {path: text}) for name, path, text in found]


def add_words(parser):
    cache = pathlib.Path(os.environ.get("XDG_CACHE_HOME") or pathlib.Path.home() / ".cache")
    parser.add_argument("crates", nargs="*", metavar="CRATE", help="the crates whose edits are tried, in place of all")
    told = "where the copy and the results are kept (~/.cache/rtadmit-mutants)"
    parser.add_argument("--room", type=pathlib.Path, metavar="FOLDER", default=cache / "rtadmit-mutants", help=told)
    parser.add_argument("--texts", action="store_true", help="only whether each edit can be applied")
    parser.add_argument("--plant", action="store_true", help="try wrong bodies that are made, in place of edits")
    parser.add_argument("--number", type=int, default=40, metavar="N", help="how many are made of each crate (40)")
    parser.add_argument("--seed", type=int, default=1, metavar="N", help="which are made (1)")


def run(given):
    signal.signal(signal.SIGTERM, interrupt)
    if given.texts:
        if given.crates or given.plant:
            raise Refused(None, None, "--texts looks at all edits, and takes no crate and no --plant")
        faults, number = faults_of_texts()
        return sources.told([*faults, *["there is no edit to look at"] * (not number)])
    there = sources.crates() if given.plant else [path.name for path in (sources.TOP / FOLDER).iterdir() if path.is_dir()]
    known = sorted(crate for crate in there if not crate.endswith("_tests"))
    if unknown := [crate for crate in given.crates if crate not in known]:
        raise Refused(None, None, f"{unknown[0]} is none of these crates: {' '.join(known)}")
    if not shutil.which("rt"):
        raise Refused(None, None, "rt is not on the PATH: it comes with the Rattle toolchain kit that README.md names")
    toolchain = subprocess.run(["rt", "version"], capture_output=True, text=True).stdout.strip()
    room, crates = given.room.resolve(), given.crates or known
    ready(room)
    fill(room, crates)
    edits = {crate: made(crate, given.number, given.seed) if given.plant else kept(crate) for crate in crates}
    faults = ["through"] if given.plant else ["through", "bad", "untried"]
    return summed_up(try_all(room, edits, toolchain, not given.plant), faults)
