"""Prints the calls of Xen's `xl` that give each VCPU of a system file the budget with which the file is admitted.

It asks the program and prints a call of `xl sched-rtds` for each part that stands on a core, in the order of the file: the part `audio-0`
is VCPU 0 of the domain `audio`, and -e says whether it has extra time. It is another domain where a comment of the file says so, by a line
`# --name DOMAIN=NAME` as from-xl writes it, or by --name, which goes before the file. A file that the program writes (`place`) has no
comments: --names OTHER reads them in the file that it was made of. Quote a word with a blank: --name 'vm 3=vm3'. A part that stands on a
part is a reservation inside its guest, and has no call.

Where the program knows `isolate`, standard error has a line for each VCPU that it calls exposed: one whose budget is not proved safe
when others of its core sleep (docs/use/no.md). The calls are printed all the same.

Refused, with the file and the line, and nothing printed: a file that is not admitted; a part that is not named for a domain and a VCPU's
number; a comment `# --name` that tells no domain and name, or one of them twice; a period or a budget below the 10 microseconds that
Xen asks for; a core that is not a whole processor under edf, as RTDS has it."""
import pathlib
import re
import shlex
import sys

from ..command_line import Refused, pairs, several
from ..program import add_program, program_of
from ..system_file import admitted

LEAST = 10
VCPU = re.compile(r"(.+)-(0|[1-9][0-9]*)")
NAMED = re.compile(r"# --name (.*)")


def named_in(path, file):
    """The domain that each name stands for, as the comments of tools/host from-xl tell it."""
    domains = {}
    for line, found in enumerate(map(NAMED.fullmatch, file.split("\n")), 1):
        if not found:
            continue
        try:
            words = shlex.split(found[1])
        except ValueError:
            words = []
        domain, sign, name = words[0].rpartition("=") if len(words) == 1 else ("", "", "")
        if not (sign and domain and name):
            raise Refused(path, line, "this comment is not --name DOMAIN=NAME, in one word: mend it or take it out")
        if name in domains or domain in domains.values():
            raise Refused(path, line, f"this comment tells {name if name in domains else domain} a second time")
        domains[name] = domain
    return domains


def call(path, server, domains):
    found = VCPU.fullmatch(server.name)
    if not found:
        raise Refused(path, server.line, f"{server.name} is not named DOMAIN-NUMBER, for a VCPU")
    for what, value in (("period", server.period), ("budget", server.budget)):
        if value < LEAST:
            cause = f"{server.name} has a {what} of {value}, and Xen takes {LEAST} and more"
            more = ", or for a stand-in what the host has" if what == "budget" else ""
            raise Refused(path, server.line, f"{cause}: write {what} = {LEAST} or more into the file{more}, and ask again")
    domain = shlex.quote(domains.get(found[1], found[1]))
    return f"xl sched-rtds -d {domain} -v {found[2]} -p {server.period} -b {server.budget} -e {int(server.extra)}\n"


def tell_exposed(path, program):
    """Says on standard error which VCPUs are exposed, where the program answers that."""
    for line in program.ask("isolate", path).told("exposed"):
        told = f"{line['name']} is exposed (by={line['by']}): its budget is not proved safe when others of its core sleep (docs/use/no.md)"
        print(f"{path}: {told}", file=sys.stderr)


def calls(path, program, domains, names):
    """The calls for all VCPUs of an admitted file, with the names of domains that are given and those of the comments of a file."""
    _, servers, text = admitted(path, program, "Xen's RTDS")
    if not servers:
        raise Refused(path, None, "no VCPU")
    named = named_in(names or path, pathlib.Path(names).read_text(errors="surrogateescape") if names else text) | domains
    told = [call(path, server, named) for server in servers]
    known = {VCPU.fullmatch(server.name)[1] for server in servers}
    if unknown := [name for name in domains if name not in known]:
        raise Refused(path, None, f"no part is named for a domain {unknown[0]}, which --name tells")
    tell_exposed(path, program)
    return "".join(told)


def add_words(parser):
    parser.add_argument("file", metavar="FILE", help="the system file")
    several(parser, "--name", "DOMAIN=NAME", "the domain that a name of the file stands for")
    parser.add_argument("--names", metavar="OTHER", help="the file whose comments tell the domains, in place of FILE")
    add_program(parser)


def run(given):
    domains = {name: domain for domain, name in pairs(given.name, "--name", "last").items()}
    return calls(given.file, program_of(given.program), domains, given.names)
