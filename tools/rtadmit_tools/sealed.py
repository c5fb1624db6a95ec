"""What gives away or files what a gate left: the line by which the gate tells its program, of what a program is, and a folder with an
archive of the same bytes each time."""
import gzip
import hashlib
import io
import os
import pathlib
import re
import shutil
import signal
import sys
import tarfile
import tempfile
from collections import namedtuple

from .command_line import TOP, Refused
from .program import built_program, is_built

# the last line of what a gate printed into a file: the sum of the program that it left, the commit, and the logic that proved it
Gate = namedtuple("Gate", "path line sum commit logic")
FIRST_FORM = re.compile(r"program sha256=[0-9a-f]{64} commit=[0-9a-f]{40,64}(\+changes)?")
GATE_LINE = re.compile(r"program sha256=([0-9a-f]{64}) commit=([0-9a-f]{40,64})(\+changes)? logic=([0-9a-f]{16})")
UNPROVED = " unproved"


def sum_of(path):
    with open(path, "rb") as file:
        return hashlib.file_digest(file, "sha256").hexdigest()


# The gate
def gate_of(path):
    """The last line of what a gate printed. Refused where it tells no program."""
    lines = pathlib.Path(path).read_text(errors="replace").rstrip().split("\n")
    found = GATE_LINE.fullmatch(lines[-1])
    if FIRST_FORM.fullmatch(lines[-1]):
        raise Refused(path, len(lines), "this line of a gate tells no logic, as those before version 1.1.0: run the gate anew")
    if not found:
        raise Refused(path, len(lines), f"the gate failed, or did not come to its end: its last line tells no program, but {lines[-1]!r}")
    if found[3]:
        raise Refused(path, len(lines), "the gate ran over changes that were not committed")
    return Gate(str(path), lines[-1], found[1], found[2], found[4])


class Origin(namedtuple("Origin", "path sum version gate is_asked_for")):
    """What a program is: its sum, the answer of its `version`, the gate that left it, as far as one is known, and whether one that no gate
    left was asked for."""

    @property
    def is_unproved(self):
        return self.version.endswith(UNPROVED)

    @property
    def mark(self):
        """What each page has to say first where no gate left the program."""
        if self.is_unproved:
            return "Unproved: the program that was asked is a build without proofs, and nothing on this page is proved."
        return "" if self.gate else "Not shown to be proved: no line of a gate is known that tells the sum of the program that was asked."


def version_of(program):
    answer = program.ask("version")
    return answer.text.strip() if answer.status == 0 else "a program without `version`"


def file_of(program):
    """The file of a program; of the script at the top of this folder that which it runs."""
    path = shutil.which(program.path) or program.path
    is_script = not is_built(path) and os.path.exists(path) and os.path.samefile(path, TOP / "rtadmit")
    return is_script and built_program() or path


def add_origin(parser):
    parser.add_argument("--gate", metavar="GATE", help="what the gate printed; without it GATE beside the program, as in a release")
    parser.add_argument("--unproved", action="store_true", help="takes a build without proofs too, and marks each page of it")


def origin_of(program, gate, unproved):
    """What a program is, by the line of the gate that tells its sum. A build without proofs is refused, but where it is asked for."""
    path = file_of(program)
    digest, version = sum_of(path), version_of(program)
    if version.endswith(UNPROVED):
        if not unproved:
            raise Refused(path, None, f"`version` says {version!r}: nothing of it is proved; --unproved takes it, and marks each page")
        return Origin(path, digest, version, None, True)
    beside = pathlib.Path(path).with_name("GATE")
    gate = gate or (beside if beside.exists() else None)
    told = gate and gate_of(gate)
    if told and told.sum != digest:
        raise Refused(path, None, f"is not what the gate left: its sum is {digest}, and {gate} tells {told.sum}")
    return Origin(path, digest, version, told, unproved)


# The folder and its archive
def end_by_signal():
    """Lets a folder that is being made go where its maker is told to end."""
    signal.signal(signal.SIGTERM, lambda *_: sys.exit(128 + signal.SIGTERM))


def entry_of(packed, path, name, moment):
    entry = packed.gettarinfo(path, name)
    entry.uid = entry.gid = 0
    entry.uname = entry.gname = ""
    entry.mtime = moment
    entry.mode = 0o755 if entry.isdir() or entry.mode & 0o100 else 0o644
    return entry


def pack(folder, archive, inside, moment):
    """Packs a folder under a name, the same bytes for the same files and moment."""
    with open(archive, "wb") as file, gzip.GzipFile("", "wb", 9, file, mtime=0) as squeezed, \
            tarfile.open(fileobj=squeezed, mode="w", format=tarfile.GNU_FORMAT) as packed:
        for path in sorted([folder, *folder.rglob("*")]):
            entry = entry_of(packed, path, str(inside / path.relative_to(folder)), moment)
            packed.addfile(entry, io.BytesIO(path.read_bytes()) if entry.isfile() else None)


def archive_of(folder):
    """The archive beside a folder. Refused where one of them is there."""
    archive = folder.with_name(folder.name + ".tar.gz")
    for path in (folder, archive):
        if path.exists():
            raise Refused(path, None, "is there already")
    return archive


def seal(folder, inside, moment, fill, look=lambda archive: None):
    """Makes a folder, which `fill` fills, and its archive, which `look` looks at; both, or nothing is left. Answers the archive."""
    archive = archive_of(folder)
    folder.parent.mkdir(parents=True, exist_ok=True)
    with tempfile.TemporaryDirectory(prefix=f".{folder.name}-", dir=folder.parent) as place:
        made, packed = pathlib.Path(place, folder.name), pathlib.Path(place, archive.name)
        made.mkdir()
        fill(made)
        pack(made, packed, pathlib.PurePath(inside), moment)
        look(packed)
        os.rename(made, folder)
        os.rename(packed, archive)
    return archive
