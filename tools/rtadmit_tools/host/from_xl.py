"""A system file out of what Xen's `xl` prints of a host under RTDS.

    xl sched-rtds -v all >SCHED; xl vcpu-list >VCPUS

Each processor to which VCPUs are pinned becomes a core, and each VCPU a part on it: VCPU 0 of the domain `audio` is `audio-0`, with
the period, the budget and the extra time that it has. What its threads ask for is left open, and `rtadmit admit` refuses the file until
that is there. A VCPU of which nothing is known but its budget gets one slot a second by --stand-in; keep its budget in the file, since the
least one for that slot is no answer about the VCPU. PART is the name in the file, as Domain-0-0. --name gives a domain another name in
the file, and the file says so, for tools/host to-xl; quote a word with a blank: --name 'vm 3=vm3'.

A VCPU that is offline is left out, and the file says so. Refused, with the file and the line, and nothing written: a VCPU that is not
pinned to one processor, or stands in only one of the texts, and a domain whose name the file cannot have, all such at once; a text without
the line `Cpupool ..: sched=RTDS`, since it may lack other domains of the pool; and any line of no such text."""
import re
import shlex
from dataclasses import dataclass

from ..command_line import Refused, pairs, refuse_all, several
from ..system_file import LIMIT, NAME, lines_of, part_text, system_text

POOL = re.compile(r"Cpupool (.+): sched=(\S+)")
SCHED_HEAD = re.compile(r"Name\s+ID\s+VCPU\s+Period\s+Budget(\s+Extratime)?")
DOMAINS_HEAD = re.compile(r"Name\s+ID\s+Period\s+Budget.*")
SCHED_ROW = re.compile(r"(\S.*?)\s+([0-9]{1,9})\s+([0-9]{1,9})\s+([0-9]{1,10})\s+([0-9]{1,10})(?:\s+(yes|no))?")
VCPUS_HEAD = re.compile(r"Name\s+ID\s+VCPU\s+CPU\s+State\s+Time\(s\)\s+Affinity \(Hard / Soft\)")
VCPUS_ROW = re.compile(r"(\S.*?)\s+([0-9]{1,9})\s+([0-9]{1,9})\s+([0-9]{1,9}|-)\s+([a-z-]{3})\s+([0-9.]+)\s+(\S+) / (\S+)")
ABOUT = "What `xl sched-rtds -v all` and `xl vcpu-list` printed, by tools/host from-xl"
NAMED = "tools/host to-xl reads from here which domain has another name in this file:"


@dataclass
class Vcpu:
    """A VCPU as `xl sched-rtds` tells it, with its line there, and its line and its processors in `xl vcpu-list`."""

    domain: str
    number: int
    period: int
    budget: int
    extra: bool
    line: int
    listed: int | None = None
    is_online: bool = False
    processors: str = ""


def rows(path, head, row, passed_over=()):
    """The rows of a text behind each head, by the domain's number and the VCPU's, with their lines."""
    below, found = False, {}
    for line, text in lines_of(path):
        text = text.strip()
        if not text or any(form.fullmatch(text) for form in passed_over):
            below = below and not text
        elif head.fullmatch(text):
            below = True
        elif not below or not (told := row.fullmatch(text)):
            raise Refused(path, line, "no line of this text" if below else "a line before the head of the list")
        elif (int(told[2]), int(told[3])) in found:
            raise Refused(path, line, f"VCPU {told[3]} of {told[1]} stands twice")
        else:
            found[int(told[2]), int(told[3])] = line, told
    return found


def read_sched(path):
    """The VCPUs of what `xl sched-rtds -v all` prints, by domain's number and VCPU's."""
    pools = []
    for line, text in lines_of(path):
        pool = POOL.fullmatch(text.strip())
        if pool and pool[2] != "RTDS":
            raise Refused(path, line, f"the pool {pool[1]} is under {pool[2]}, and not under RTDS")
        if DOMAINS_HEAD.fullmatch(text.strip()):
            raise Refused(path, line, "these are whole domains: give what `xl sched-rtds -v all` prints")
        if SCHED_HEAD.fullmatch(text.strip()) and not pools:
            raise Refused(path, line, "no line `Cpupool ..: sched=RTDS` is above: give all VCPUs, as `xl sched-rtds -v all` prints them")
        pools += [pool[1]] if pool else []
    found = {
        key: Vcpu(row[1], key[1], int(row[4]), int(row[5]), row[6] == "yes", line)
        for key, (line, row) in rows(path, SCHED_HEAD, SCHED_ROW, (POOL,)).items()
    }
    if not found:
        raise Refused(path, None, "no VCPU under RTDS")
    return found


class Host:
    """The VCPUs of both texts: which core each is on, and what it is called."""

    def __init__(self, sched, vcpus, names):
        self.sched, self.vcpus, self.names = sched, vcpus, names
        self.servers, self.places = read_sched(sched), rows(vcpus, VCPUS_HEAD, VCPUS_ROW)
        self.parts, self.domains = {}, {}
        if unknown := [name for name in names if name not in {vcpu.domain for vcpu in self.servers.values()}]:
            raise Refused(sched, None, f"no VCPU of a domain {unknown[0]}, which --name tells")

    def called(self, vcpu):
        return self.names.get(vcpu.domain, vcpu.domain)

    def part(self, vcpu):
        return f"{self.called(vcpu)}-{vcpu.number}"

    def place(self, key, vcpu):
        """Takes where a VCPU may run, and tells what is wrong with it."""
        line, row = self.places.get(key, (None, None))
        if row is None:
            yield Refused(self.sched, vcpu.line, f"VCPU {vcpu.number} of {vcpu.domain} does not stand in {self.vcpus}")
        elif row[1] != vcpu.domain:
            cause = f"domain {key[0]} is {row[1]} here, and {vcpu.domain} in {self.sched}: print both at one time"
            yield Refused(self.vcpus, line, cause)
        else:
            vcpu.listed, vcpu.is_online, vcpu.processors = line, row[4] != "-", row[7]
            if vcpu.is_online and not vcpu.processors.isdecimal():
                cause = f"{self.part(vcpu)} is pinned to no single processor (it may run on {vcpu.processors})"
                yield Refused(self.vcpus, line, f"{cause}: xl vcpu-pin {shlex.quote(vcpu.domain)} {vcpu.number} CPU")

    def wrong(self, key, vcpu):
        yield from self.place(key, vcpu)
        name, short = self.part(vcpu), self.called(vcpu)
        if not NAME.fullmatch(name):
            cause = "no name of a system file (1 to 32 letters, digits, _ and -, a letter first): give another by"
            yield Refused(self.sched, vcpu.line, f"{name} is {cause} --name {shlex.quote(f'{vcpu.domain}=NAME')}")
        elif self.parts.setdefault(name, vcpu) is not vcpu:
            yield Refused(self.sched, vcpu.line, f"{name} is the name of two VCPUs: give one another by --name")
        elif self.domains.setdefault(short, vcpu.domain) != vcpu.domain:
            yield Refused(self.sched, vcpu.line, f"{short} is the name of two domains: give one another by --name")
        if vcpu.is_online and not 1 <= vcpu.budget <= vcpu.period <= LIMIT:
            yield Refused(self.sched, vcpu.line, f"{name} has not 1 <= budget <= period <= {LIMIT}")

    def text(self, stand_ins):
        refuse_all(cause for key, vcpu in self.servers.items() for cause in self.wrong(key, vcpu))
        if unknown := [name for name in stand_ins if name not in self.parts]:
            raise Refused(self.sched, None, f"no part is called {unknown[0]}; --stand-in wants the part, as {next(iter(self.parts))}")
        online = {name: vcpu for name, vcpu in self.parts.items() if vcpu.is_online}
        if not online:
            raise Refused(self.vcpus, None, "every VCPU is offline")
        more = [f"{name} is offline and left out." for name in self.parts if name not in online]
        if self.names:
            more += [NAMED, *(f"--name {shlex.quote(f'{domain}={name}')}" for domain, name in self.names.items())]
        parts = []
        for name, vcpu in online.items():
            about = f"VCPU {vcpu.number} of the domain {vcpu.domain}"
            parts.append(part_text(about, name, f"cpu{int(vcpu.processors)}", vcpu.period, vcpu.budget, vcpu.extra, name in stand_ins))
        return system_text(ABOUT, "Xen", more, (int(vcpu.processors) for vcpu in online.values()), parts)


def add_words(parser):
    parser.add_argument("sched", metavar="SCHED", help="what `xl sched-rtds -v all` prints")
    parser.add_argument("vcpus", metavar="VCPUS", help="what `xl vcpu-list` prints")
    several(parser, "--name", "DOMAIN=NAME", "another name for a domain")
    several(parser, "--stand-in", "PART", "a VCPU of which only the budget is known")


def run(given):
    return Host(given.sched, given.vcpus, pairs(given.name, "--name", "last")).text(given.stand_in)
