"""Cuts a long recording into traces that `audit` takes.

TRACE is a trace of any length (docs/use/formats.md): its moments may pass 1,000 seconds, up to 1,000,000,000,000,000,000 ns, and it may
have more than 64 MiB. `-` is standard input. Memory does not grow with it. Several traces may stand one behind another, as
tools/host from-ftrace writes them where events are missing, with moments that go on: no piece goes over from one to the next, and of a
trace without an end the pieces are kept that are whole. OUT is a folder, which is made or is empty. It gets the pieces,
`piece-000001.csv` and so on, and a table of them, `table.csv`.

A stretch has N seconds, a decimal number. Where a piece has come to 32 MiB, its stretch ends there. A period belongs to the stretch in
which it begins, and lies whole in the piece of that stretch, unless the end of the recording cuts it (docs/use/audit.md). A piece's name
is written to standard output once the piece is whole and in the table:

    tools/host split recording.csv --system system.toml --seconds 600 out | tools/host audit-all system.toml -

Refused, with the line: rows that break the rules of a trace, by the words of docs/use/formats.md; a period with more rows than a piece
holds; more than 999,999 pieces. What was whole before stands and is in the table, and what was not is removed. Refused at once: N and the
longest period together are more than 1,000 seconds; N that is no whole number of the trace's unit."""
import argparse
import heapq
import os
import pathlib
import re

from ..command_line import Refused
from ..trace import LONGEST_NS, Host, Reader, opened, parts_of

MOST_BYTES, MOST_PIECES = 67_108_864, 999_999
# for the `end` of a piece
ROOM_TO_END = 32
SECONDS = re.compile(r"(\d{1,9})(?:\.(\d{1,9}))?")
TABLE = ["piece", "from_ns", "to_ns", "end_ns", "vcpu", "first_ns", "periods"]


class Folder:
    """Where pieces go, and their table. A piece has its name only once it is whole."""

    def __init__(self, path, header, unit, tell):
        self.path, self.header, self.unit, self.tell = pathlib.Path(path), header, unit, tell
        self.pieces = self.whole = 0
        self.path.mkdir(exist_ok=True)
        if any(self.path.iterdir()):
            raise FileExistsError(0, "is not empty", str(path))
        self.table = open(self.path / "table.csv", "w")
        self.row(*TABLE)

    def row(self, *fields):
        self.table.write(",".join(map(str, fields)) + "\n")

    def finish(self, piece, end):
        """Gives a piece its name, and tells of it."""
        path = piece.path.with_suffix(".csv")
        os.replace(piece.path, path)
        for vcpu, first, periods in sorted(piece.lived, key=lambda lived: lived[0].place):
            moments = (moment * self.unit for moment in (piece.origin, piece.to, end))
            self.row(path.name, *moments, vcpu.name, first * self.unit, periods)
        self.table.flush()
        self.whole += 1
        self.tell(path)

    def close(self, end):
        """Closes the table, with its last row where the end of the recording is known."""
        if end is not None:
            self.row("end", "", "", end * self.unit, "", "", "")
        self.table.close()


class Piece:
    """The piece of a stretch: where the stretch begins and ends, how many VCPUs have a period in it now, and which had, with the first and
    the number of those periods. Its file is made with its first row."""

    def __init__(self, origin, folder, room):
        folder.pieces += 1
        if folder.pieces > MOST_PIECES:
            raise Refused(None, None, f"more than {MOST_PIECES} pieces: give more seconds")
        self.path = folder.path / f"piece-{folder.pieces:06d}.part"
        self.origin, self.folder, self.room, self.to, self.file = origin, folder, room, None, None
        self.bytes, self.living, self.lived = 0, 0, []

    def write(self, at, what, core, name=""):
        self.put(f"{at - self.origin},{core},{what},{name}\n")

    def put(self, text):
        self.bytes += len(text)
        if self.bytes > self.room - ROOM_TO_END:
            raise Refused(None, None, "a period has more rows than a piece holds")
        if self.file is None:
            self.file = open(self.path, "w", 1 << 16)
            self.bytes += self.file.write(self.folder.header + "\n")
        self.file.write(text)

    def leave(self, vcpu, periods):
        """Notes what a VCPU had in it that has no more."""
        self.living -= 1
        if periods:
            self.lived.append((vcpu, vcpu.first, periods))

    def close(self, end):
        """Ends the piece. One in which no period is stands for nothing."""
        if self.lived:
            self.file.write(f"{end - self.origin},,end,\n")
            self.file.close()
            self.folder.finish(self, end)
        else:
            self.drop()

    def drop(self):
        if self.file is not None:
            self.file.close()
            self.path.unlink(missing_ok=True)


class Cutter:
    """The pieces of a trace, and which of them each VCPU is in. Once a stretch has ended, each VCPU goes over from its piece to the newest
    one where its next period begins."""

    def __init__(self, host, length, folder, room):
        self.host, self.length, self.folder, self.room = host, length, folder, room
        self.newest, self.open, self.going, self.last = None, [], [], 0
        # the moment of the next cut or of the next VCPU that goes over, whichever is first
        self.due = None
        for vcpu in host.vcpus.values():
            vcpu.piece, vcpu.first, vcpu.leaves = None, 0, False

    def take(self, at, row):
        """A row that keeps the rules: what is due up to its moment, and then what it does."""
        if self.due is not None and at >= self.due:
            self.come_to(at)
        if self.newest is not None and self.newest.bytes * 2 >= self.room and at > self.last:
            self.cut(at)
            self.come_to(at)
        self.last = at
        what, core, vcpu = row.what, row.core, row.vcpu
        holder = core.holder
        if holder is not None and (what == "stop" or what == "run" and holder.piece is not vcpu.piece):
            holder.piece.write(at, "stop", core.name)
        self.host.act(at, row)
        if what == "start":
            if self.newest is None:
                self.begin(at)
            self.enter(at, vcpu)
        elif vcpu is not None:
            vcpu.piece.write(at, what, core.name, vcpu.name)

    def enter(self, at, vcpu):
        """A period of a VCPU begins in the newest piece."""
        vcpu.piece, vcpu.first, vcpu.leaves = self.newest, at, False
        vcpu.piece.living += 1
        state = "block" if vcpu.blocked else "run" if vcpu.core.holder is vcpu else None
        for what in filter(None, ("start", state)):
            vcpu.piece.write(at, what, vcpu.core.name, vcpu.name)

    def leave(self, at, vcpu):
        """The last period of a VCPU in its piece ends. From there on it is blocked in it."""
        piece = vcpu.piece
        if vcpu.core.holder is vcpu:
            piece.write(at, "stop", vcpu.core.name)
        if not vcpu.blocked:
            piece.write(at, "block", vcpu.core.name, vcpu.name)
        piece.leave(vcpu, (at - vcpu.first) // vcpu.period)
        if piece.living == 0:
            self.open.remove(piece)
            piece.close(at)

    def begin(self, at):
        self.newest = Piece(at, self.folder, self.room)
        self.open.append(self.newest)
        self.due = at + self.length

    def cut(self, at):
        """A stretch ends: each VCPU leaves its piece where its next period begins. A piece that has none stands for nothing."""
        self.newest.to = at
        if self.newest.living == 0:
            self.open.remove(self.newest)
        for vcpu in self.host.vcpus.values():
            if vcpu.start is not None and not vcpu.leaves:
                vcpu.leaves = True
                heapq.heappush(self.going, (at + (vcpu.start - at) % vcpu.period, vcpu.place, vcpu))
        self.begin(at)

    def come_to(self, moment):
        """Cuts, and lets VCPUs go over, in the order of time, up to a moment and at it. What is at one moment is cut first."""
        if (moment - self.newest.origin) // self.length + self.folder.pieces > MOST_PIECES:
            raise Refused(None, None, f"OutOfRange: up to this moment there are more than {MOST_PIECES} pieces: give more seconds")
        while True:
            self.due = self.newest.origin + self.length
            cuts = not self.going or self.due <= self.going[0][0]
            if not cuts:
                self.due = self.going[0][0]
            if self.due > moment:
                return
            if cuts:
                self.cut(self.due)
            else:
                at, _, vcpu = heapq.heappop(self.going)
                self.leave(at, vcpu)
                self.enter(at, vcpu)

    def end(self, at):
        """The trace ends. What is due at its end is not done, since no period of it begins below the end."""
        if self.due is not None and at > self.due:
            self.come_to(at - 1)
        for vcpu in self.host.vcpus.values():
            if vcpu.start is not None:
                vcpu.piece.leave(vcpu, -((vcpu.first - at) // vcpu.period))
        while self.open:
            piece = self.open.pop(0)
            piece.to = at if piece.to is None else piece.to
            piece.close(at)

    def drop(self):
        for piece in self.open:
            piece.drop()


def length_of(path, seconds_ns, longest, unit):
    """The length of a stretch in the trace's unit. The longest period, in nanoseconds, counts in it too."""
    if seconds_ns % unit:
        raise Refused(path, None, "--seconds is no whole number of microseconds, and the recording counts these")
    if seconds_ns + longest > LONGEST_NS:
        most = (LONGEST_NS - longest) / 1e9
        raise Refused(path, None, f"a trace holds 1000 seconds, and the longest period has {longest / 1e9:g}: give at most {most:g}")
    return seconds_ns // unit


def split(path, file, system, seconds_ns, out, tell, room=MOST_BYTES):
    """Cuts the recording of a file into pieces in the folder `out`. `system` has the names of cores, and name, core and period of parts."""
    cores, parts = system
    reader = Reader(path, file, several=True)
    parts = [(name, core, 1000 * period // reader.unit) for name, core, period in parts]
    length = length_of(path, seconds_ns, max((period for *_, period in parts), default=0) * reader.unit, reader.unit)
    folder, end, more = Folder(out, reader.header, reader.unit, tell), None, True
    try:
        while more:
            cutter = Cutter(Host(cores, parts), length, folder, room)
            for at, row in reader.rows(cutter.host):
                if row.what == "end":
                    cutter.end(at)
                else:
                    cutter.take(at, row)
            more = reader.more
            cutter.drop()
        end = reader.moment
    except Refused as refused:
        place = "" if str(refused).startswith(f"{path}:") else f"{path}:{reader.line}: "
        raise Refused(None, None, f"{place}{refused} (pieces that were whole before, and are kept: {folder.whole})") from None
    finally:
        cutter.drop()
        folder.close(end)


def seconds(text):
    found = SECONDS.fullmatch(text)
    told = int(found[1]) * 1_000_000_000 + int((found[2] or "").ljust(9, "0")) if found else 0
    if told == 0:
        raise argparse.ArgumentTypeError(f"{text!r} is no number of seconds, as 600 or 0.5")
    return told


def add_words(parser):
    parser.add_argument("trace", metavar="TRACE", help="the recording, a trace of any length; - for standard input")
    parser.add_argument("out", metavar="OUT", help="a folder, made or empty, that gets the pieces and table.csv")
    parser.add_argument("--system", required=True, metavar="FILE", help="the system file, for the periods of the VCPUs")
    parser.add_argument("--seconds", required=True, type=seconds, metavar="N", help="how long a stretch is")


def run(given):
    cores, parts = parts_of(given.system)
    with opened(given.trace) as file:
        split(given.trace, file, (cores, [(part.name, part.parent, part.period) for part in parts]), given.seconds, given.out,
              lambda path: print(path, flush=True))
