"""Prints which program a gate leaves, as the gate's last line, which release, report and evidence read.

The line is `program sha256=SUM commit=COMMIT logic=HASH`: the sum of the program (the proved one where none is named), the commit that is
checked out, with `+changes` behind it where files are changed that are not committed, and the hash by which `rt version` tells the logic
that proves here. The gate prints it last of all, so it stands there only where all else passed. The status is 1, and no such line is
printed, where there is no program, no commit or no rt, or where the program says of itself that it is unproved."""
import subprocess

from ..command_line import TOP, Refused
from ..program import add_program, built_program, program_of
from ..sealed import UNPROVED, file_of, sum_of, version_of


def said(*words):
    ran = subprocess.run(words, cwd=TOP, stdout=subprocess.PIPE, text=True)
    if ran.returncode:
        raise Refused(None, None, f"{' '.join(words)} failed")
    return ran.stdout.strip()


def logic():
    return said("rt", "version").split()[-1]


def line_of(program):
    path = file_of(program)
    digest = sum_of(path)
    if version_of(program).endswith(UNPROVED):
        raise Refused(path, None, f"says of itself that it is {version_of(program)!r}")
    changes = "+changes" if said("git", "status", "--porcelain") else ""
    return f"program sha256={digest} commit={said('git', 'rev-parse', 'HEAD')}{changes} logic={logic()}"


def add_words(parser):
    add_program(parser)


def run(given):
    return line_of(program_of(given.program or built_program() or str(TOP / "crates/rtadmit/out/rtadmit"))) + "\n"
