"""Gives each command each of its files as one that can't be read or is too long, and looks at what the program answers.

A file is absent, a folder, below a file, unreadable, as long as a file may be, and one byte longer. The answers are those of
docs/use/formats.md: absent is status 5 and too long status 7, each with its line; what can't be read is status 6 and nothing written;
a file of zeros as long as it may be is refused for what it holds, with status 3. The files before it are good.
Ends with 1 where a run answered otherwise."""
import os
import shutil
import tempfile

from ..command_line import TOP
from ..comparing import add_words, compare, need, program_to_compare

LIMIT = 67_108_864
NOBODY = 65534
EXAMPLES = TOP / "examples"

# the words of each command; those that name a file of examples/ are its files
CALLS = """\
admit leaf.toml
certify leaf.toml
check leaf.toml leaf.cert
simulate guest-short.toml guest-light.csv worst 50
rtds shared.toml shared-wakes.csv 12
audit shared.toml shared.csv
responses rate.toml
interface tree.toml ctl 200
choose leaf.toml leaf 5 14
session host.toml edits.csv
place cores.toml guests.csv
isolate shared.toml
slack leaf.toml leaf
tally shared.toml shared.csv
steal shared.toml shared.csv
"""

# each way to spoil file k: where it stands then, the status, and the text (None: any)
WAYS = (
    ("absent", 5, "absent file={k}\n"),
    ("folder", 6, ""),
    ("good/below", 6, ""),
    ("closed", 6, ""),
    ("longest", 3, None),
    ("longer", 7, "toolong file={k}\n"),
)


def calls():
    """Each call with one of its files spoilt in one way: the words, the place of that file among them, its number, and the way."""
    for words in map(str.split, CALLS.splitlines()):
        files = [place for place, word in enumerate(words) if (EXAMPLES / word).is_file()]
        yield from ((words, place, number, way) for number, place in enumerate(files, 1) for way in WAYS)


def refused(room, call):
    """Runs the call, as nobody where this runs as root, since root reads every file."""
    words, spoilt, number, (path, status, text) = call
    room.folder.chmod(0o755)
    for word in words:
        if (EXAMPLES / word).is_file():
            shutil.copy(EXAMPLES / word, room.folder)
    (room.folder / "folder").mkdir()
    (room.folder / room.write("good", "format = 1\n")).chmod(0o644)
    (room.folder / room.write("closed", "format = 1\n")).chmod(0)
    for name, length in (("longest", LIMIT), ("longer", LIMIT + 1)):
        os.truncate(room.folder / room.write(name, ""), length)
    asked = [*words[:spoilt], path, *words[spoilt + 1:]]
    answer = room.run(*asked, **{"user": NOBODY} if os.geteuid() == 0 else {})
    is_told = text is None or answer.text == text.format(k=number)
    need(answer.status == status and is_told, f"{' '.join(asked)}: status {answer.status}, {answer.text[:80]!r}")


def run(given):
    with tempfile.TemporaryDirectory(prefix="rtadmit-refusals-") as folder:
        given.program = shutil.copy(program_to_compare(given).path, folder)
        for path in (folder, given.program):
            os.chmod(path, 0o755)
        return int(not compare(given, "calls", refused, calls()))
