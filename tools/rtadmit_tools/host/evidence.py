"""Evidence to file of a host, and of a recording of it: what was asked, what was answered, and by which program.

GATE holds what the gate printed (`bash .ci/run | tee GATE`). Its last line, by tools/gate program-sum, tells the sum of the program that
the gate left, the commit and the logic; the program that is asked has to have that sum. OUT must not be there yet; it becomes a folder with

    system.toml, trace.csv    copies of FILE and TRACE
    certificate.json          what `certify` writes, where it is a yes (docs/use/certificate.md)
    verdicts.txt              each command that was asked, its answer and its status; of commands that the program does not have, that
    report.html               the page of tools/host report
    version.txt               the answer of `version`, and the sum, the commit and the logic of the program
    gate.txt                  the last 20 lines of GATE
    SUMS                      the SHA-256 of all of these, as `sha256sum -c SUMS` reads it

and OUT.tar.gz, beside it, holds the same under the name `evidence`: the same bytes each time from the same inputs, program and tools. The
program is asked over the copies, so that the words of verdicts.txt can be said again inside the folder.

Refused, with nothing left: a gate that failed; a program of another sum; a file that the program does not judge; a trace that it refuses;
a certificate over which it and tools/second-checker differ; an OUT that is there; and a program of which no line of a gate tells, or that
says of itself that it is unproved. --unproved takes these two, without gate.txt, and verdicts.txt, report.html and version.txt then begin
by saying so. A host that is not admitted, and a trace that holds something against it, are evidence too, with status 0."""
import contextlib
import pathlib
import shutil
import subprocess
import sys
import tempfile

from ..command_line import TOP, Refused
from ..program import Answer, Program, add_program, program_of
from ..sealed import add_origin, archive_of, end_by_signal, origin_of, seal, sum_of
from ..system_file import read_admitted
from . import report

SYSTEM, TRACE, CERTIFICATE = "system.toml", "trace.csv", "certificate.json"
CLOSING = 20


def certified(program):
    """What the program answers to `certify` and `check`, and the second checker to the certificate, each behind its words. Refused where
    the checkers differ."""
    answer = program.ask("certify", SYSTEM)
    if answer.status:
        return [(f"rtadmit certify {SYSTEM}", answer)] * (answer.status != 2)
    pathlib.Path(CERTIFICATE).write_text(answer.text)
    first = program.ask("check", SYSTEM, CERTIFICATE)
    ran = subprocess.run([sys.executable, "-B", TOP / "tools/second-checker", SYSTEM, CERTIFICATE], stdout=subprocess.PIPE, text=True)
    second = Answer(ran.returncode, ran.stdout)
    if second != first:
        told = f"{first.shown} by `check`, and {second.shown} by tools/second-checker"
        raise Refused(None, None, f"the certificate is answered {told}")
    checked = [(f"rtadmit check {SYSTEM} {CERTIFICATE}", first), (f"tools/second-checker {SYSTEM} {CERTIFICATE}", second)]
    return [(f"rtadmit certify {SYSTEM} >{CERTIFICATE}", Answer(0, "")), *checked]


def verdicts(asked, mark):
    admit, *others = [(f"rtadmit {words}", answer) for words, answer in asked.answers]
    answers = [admit, *certified(asked.program), *others]
    told = [f"$ {words}\n{answer.text}status {answer.status}\n" for words, answer in answers]
    return "\n".join([f"{mark}\n"] * bool(mark) + told + [f"{note}\n" for note in asked.notes if note.startswith("not asked")])


def fill(folder, given, program, origin):
    shutil.copyfile(given.file, folder / SYSTEM)
    if given.trace:
        shutil.copyfile(given.trace, folder / TRACE)
    with contextlib.chdir(folder):
        asked = report.Asked(SYSTEM, given.trace and TRACE, program)
        if given.trace and asked.audit.status not in (0, 1, 4):
            raise Refused(given.trace, None, f"the program does not judge it: {asked.audit.shown} (status {asked.audit.status})")
        texts = {"verdicts.txt": verdicts(asked, origin.mark), "report.html": report.Page(asked, origin).text()}
    told = [origin.mark, origin.version, origin.gate.line if origin.gate else f"program sha256={origin.sum}"]
    texts["version.txt"] = "".join(f"{line}\n" for line in told if line)
    if origin.gate:
        closing = pathlib.Path(origin.gate.path).read_text(errors="replace").rstrip().split("\n")[-CLOSING:]
        texts["gate.txt"] = "\n".join(closing) + "\n"
    for name, text in texts.items():
        (folder / name).write_text(text, encoding="utf-8")
    (folder / "SUMS").write_text("".join(f"{sum_of(path)}  {path.name}\n" for path in sorted(folder.iterdir())))


def add_words(parser):
    report.add_files(parser)
    parser.add_argument("out", metavar="OUT", type=pathlib.Path, help="becomes the folder")
    add_origin(parser)
    add_program(parser)


def run(given):
    end_by_signal()
    out = given.out.resolve()
    archive_of(out)
    asked = program_of(given.program)
    origin = origin_of(asked, given.gate, given.unproved)
    if not (origin.gate or given.unproved):
        raise Refused(origin.path, None, "no line of a gate tells its sum: --gate GATE, or --unproved, which marks each page")
    with tempfile.TemporaryDirectory() as place:
        copy = pathlib.Path(shutil.copy(origin.path, pathlib.Path(place, "rtadmit")))
        copy.chmod(0o755)
        if sum_of(copy) != origin.sum:
            raise Refused(origin.path, None, "changed meanwhile")
        program = Program([str(copy), *asked.words[1:]])
        read_admitted(given.file, program)
        archive = seal(out, "evidence", 0, lambda folder: fill(folder, given, program, origin))
    return f"{out}\n{archive} sha256={sum_of(archive)}\n"
