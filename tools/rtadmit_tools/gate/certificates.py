"""Certifies a guest of forty tasks whose certificate is past 11 MB, and has the program check it.

The answers are those of docs/use/formats.md and docs/use/certificate.md: the certificate proves the system, also with a space behind each
comma; with the last point of the guest one lower it has the flaw Cover, and without its end it is no JSON text. Each call has a minute.
Ends with 1 where one answered otherwise."""
from ..command_line import Refused
from ..comparing import add_words, compare, core, need, part, program_to_compare, task, tree
from ..system_file import tree_text

LONG = 11_000_000


def system():
    """A guest with the whole processor. Eight tasks each ask for 1 slot in 16, 24, 56, 344 and 14456, in all for
    1/2 + 1/3 + 1/7 + 1/43 + 1/1807 of it, which is less than 1 by 1/(2 * 3 * 7 * 43 * 1807) alone."""
    periods = [8 * (2, 3, 7, 43, 1807)[number // 8] for number in range(40)]
    tasks = [task(f"t{number}", period, 1, deadline=8 if period == 16 else period) for number, period in enumerate(periods)]
    return tree([core()], [part("guest", "cpu0", "edf", 1, 1, tasks)], 1)


def last_point_lower(text):
    """The last point of the first node is one past its horizon."""
    before, behind = text.split('"],"witness"', 1)
    points, last = before.rsplit('"', 1)
    return f'{points}"{int(last) - 1}"],"witness"{behind}'


WAYS = (
    ("as written", lambda text: text, 0, "verdict=yes\n"),
    ("with spaces", lambda text: text.replace(",", ", "), 0, "verdict=yes\n"),
    ("last point lower", last_point_lower, 1, "verdict=no\nflaw=Cover part guest\n"),
    ("cut off", lambda text: text[:-2], 3, "fault=NotJson file=2\n"),
)


def checked(room, made):
    certificate, (name, changed, status, wanted) = made
    files = room.write("system.toml", system()), room.write("certificate.json", changed(certificate))
    printed = room.want(status, "check", *files)
    need(printed == wanted, f"{name}: {printed!r}")


def run(given):
    answer = program_to_compare(given).ask("certify", "/dev/stdin", text=tree_text(system()))
    if answer.status or len(answer.text) < LONG:
        raise Refused("certify", None, f"status {answer.status}, {len(answer.text)} bytes")
    return int(not compare(given, f"checks of a certificate of {len(answer.text)} bytes", checked, [(answer.text, way) for way in WAYS]))
