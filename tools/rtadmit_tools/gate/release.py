"""Makes a folder for someone who only wants the program, and tries it elsewhere.

FILE holds what the gate printed (`bash .ci/run | tee FILE`). Its last line, by tools/gate program-sum, tells the sum of the program that
the gate left, the commit that it ran over and the logic that proved it. The program (the proved one where none is named) has to have that
sum and the version that its source tells, and that commit has to be checked out.

FOLDER must not be there yet. It gets the program as `rtadmit`, README.md, docs/, examples/ with the script that runs them, tools/host with
its verbs and tools/second-checker; RELEASE: the program's sum and version, the commit and the logic, and the gate's last line; and that
line as GATE, by which report and evidence know the program. FOLDER.tar.gz beside it holds the same, and the same bytes each time: sorted,
with the moment of the commit and no owner. Both are made in a place of their own beside FOLDER. There the archive is unpacked, and
examples/compare runs the pages of examples. Where all print what the pages say, both get their names.

Else, and where anything is refused or fails, nothing is left: no last line of a gate that passed, another sum, commit or version, a build
without proofs, changes that are not committed, sources that are newer than the program, or a FOLDER that is there."""
import pathlib
import re
import shutil
import subprocess
import tarfile
import tempfile

from ..command_line import TOP, Refused
from ..program import add_program, program_of
from ..sealed import archive_of, end_by_signal, origin_of, seal
from .program_sum import said

KEPT = ["README.md", "docs", "examples", "tools/host", "tools/rtadmit_tools", "tools/second-checker", "tools/rtadmit.bash-completion"]
LEFT_OUT = ["tools/rtadmit_tools/gate"]
VERSION = "crates/rt_report/src/version.rt"


def version():
    return "rtadmit " + re.search(r'^pub const VERSION: &str = "(.+)";$', (TOP / VERSION).read_text(), re.MULTILINE)[1]


def check(origin):
    if said("git", "status", "--porcelain"):
        raise Refused(None, None, "the checkout has changes that are not committed")
    if said("git", "rev-parse", "HEAD") != origin.gate.commit:
        raise Refused(None, None, f"the gate ran over commit {origin.gate.commit}, and another one is checked out")
    if origin.version != version():
        raise Refused(origin.path, None, f"says that it is {origin.version!r}, and {VERSION} tells {version()!r}")
    built = pathlib.Path(origin.path).stat().st_mtime
    for source in [TOP / "crates.txt", *TOP.glob("crates/*/src/**/*.rt")]:
        if source.stat().st_mtime > built:
            raise Refused(source, None, f"is newer than {origin.path}: prove and build it anew, as ./rtadmit says how")


def about(size, origin):
    return f"""program: rtadmit, {size} bytes, sha256 {origin.sum}
commit: {origin.gate.commit}, {said('git', 'log', '-1', '--format=%cs')}
version: {origin.version}
logic: {origin.gate.logic}
gate: passed over this commit; its last line: {origin.gate.line}

README.md says what the program answers, docs/proof/claims.md what is proved of it; docs/use/guide.md goes from a Xen host to a verdict;
docs/use/formats.md has the files, the words and the statuses. `examples/compare` runs every example here, and ends with 0
where each prints what its page says. Pages and folders of README.md that are not here (crates/, tools/gate) stand
in the repository at this commit.
"""


def fill(folder, content, origin):
    """Puts all into a new folder: of the checkout what is committed and nothing that lies beside it."""
    for name in said("git", "ls-files", "-z", "--", *KEPT, *(f":!{path}" for path in LEFT_OUT)).strip("\0").split("\0"):
        (folder / name).parent.mkdir(parents=True, exist_ok=True)
        shutil.copy(TOP / name, folder / name)
    (folder / "rtadmit").write_bytes(content)
    (folder / "rtadmit").chmod(0o755)
    (folder / "RELEASE").write_text(about(len(content), origin))
    (folder / "GATE").write_text(origin.gate.line + "\n")


def try_elsewhere(archive, name):
    """Unpacks the archive in another place and runs its pages of examples. Refused where that fails."""
    with tempfile.TemporaryDirectory() as place:
        with tarfile.open(archive) as packed:
            packed.extractall(place, filter="data")
        if subprocess.run([f"{place}/{name}/examples/compare"], cwd="/").returncode != 0:
            raise Refused(None, None, "an example prints something else than its page says, or has no command: nothing is left")


def add_words(parser):
    parser.add_argument("folder", metavar="FOLDER", type=pathlib.Path, help="becomes the folder")
    parser.add_argument("--gate", required=True, metavar="FILE", help="what the gate printed")
    add_program(parser)


def run(given):
    end_by_signal()
    folder = given.folder.resolve()
    archive_of(folder)
    origin = origin_of(program_of(given.program), given.gate, unproved=False)
    check(origin)
    content = pathlib.Path(origin.path).read_bytes()
    moment = int(said("git", "log", "-1", "--format=%ct"))
    archive = seal(folder, folder.name, moment, lambda made: fill(made, content, origin), lambda packed: try_elsewhere(packed, folder.name))
    return (folder / "RELEASE").read_text() + f"{archive}: each example prints what its page says\n"
