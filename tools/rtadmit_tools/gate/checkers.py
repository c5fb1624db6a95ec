"""Compares the program's `check` with tools/second-checker over certificates, good and spoilt.

Small systems are drawn from the seed, of one or two cores with and without a supply, of inner parts and leaves under every order, with
deadlines, jitter, given budgets and computed ones. The program certifies each that it admits. The certificates are then compared as they
are, written otherwise, with one value changed, an entry dropped or repeated, a value of another kind, bytes changed, and beside a system
that was changed in place of them; and so are some texts at the limits of the format. Both have to tell the same text with the same
status. Ends with 1 where they differ, or where an answer never came."""
import copy
import functools
import json
import random
import subprocess

from .. import comparing
from ..command_line import TOP
from ..comparing import SCHEDS, compare, core, module_of, need, part, program_to_compare, task, tree
from ..program import Answer
from ..system_file import tree_text

SECOND = "tools/second-checker"
ANSWERS = ["verdict=yes", *(f"flaw={word}" for word in ("Nodes", "Budget", "Wide", "Cover", "Hit", "Least"))]
ANSWERS += [f"fault={word}" for word in ("NotJson", "WrongShape", "BadNumber", "TooMany")]
LONGEST, BY_COMMAND = 8_000, 40


# Systems
def draw_task(chance, number, server_period, share):
    """A task that asks for about a share of the processor."""
    period = server_period * chance.randint(2, 6) + chance.choice([0, 0, 1, server_period // 2])
    work = max(1, int(period * share))
    deadline = period if chance.random() < 0.5 else chance.randint(max(work, period // 2), period)
    jitter = chance.randint(0, min(deadline - work, server_period)) if chance.random() < 0.4 else 0
    return task(f"t{number}", period, work, deadline=deadline, jitter=jitter)


def draw_leaf(chance, name, parent, period):
    sched, budget = chance.choice(SCHEDS), chance.randint(period // 2, period) if chance.random() < 0.3 else None
    count = chance.randint(1, 4)
    return part(name, parent, sched, period, budget, [draw_task(chance, number, period, 0.25 / count) for number in range(count)])


def draw_system(chance):
    cores, parts = [core(f"cpu{number}", chance.choice(SCHEDS)) for number in range(chance.randint(1, 2))], []
    for table in cores:
        if chance.random() < 0.3:
            period = chance.randint(1, 6)
            table |= {"supply_period": period, "supply_budget": chance.randint(max(1, period - 1), period)}
    for number in range(chance.randint(1, 3)):
        parent, period = chance.choice(cores)["name"], chance.randint(3, 12)
        if chance.random() < 0.4:
            inner = chance.randint(2, 5)
            budget = chance.randint(1, inner) if chance.random() < 0.4 else None
            parts.append(part(f"inner{number}", parent, chance.choice(SCHEDS), inner, budget))
            parent = parts[-1]["name"]
        parts.append(draw_leaf(chance, f"leaf{number}", parent, period))
    return tree(cores, parts)


def spell(system):
    return tree_text(system).encode()


def changed_system(chance, system):
    """A neighbour: one value of one table is another."""
    system = copy.deepcopy(system)
    table = chance.choice([*system["core"], *(table for leaf in system["part"] for table in (leaf, *leaf["task"]))])
    key = chance.choice([key for key, value in table.items() if key != "task" and value is not None])
    if isinstance(table[key], int):
        table[key] += chance.choice([-1, 1, 1])
    elif key == "sched":
        table[key] = chance.choice(SCHEDS)
    elif chance.random() < 0.5:
        table[key] = None
    else:
        table[key] = chance.choice(["", "other", 1, "a" * 33])
    return spell(system)


# Certificates
def text_of(value):
    return json.dumps(value, separators=(",", ":")).encode()


def near(chance, text):
    """A number close to another, or at a limit."""
    value = int(text) + chance.choice([-1, 1, -2, 2, 7])
    return max(0, chance.choice([value, value, value, 0, 2**32, 2**64 - 1, 2**64, 2**128 - 1, 2**128]))


def change_value(chance, value):
    """Another value of the same kind for one key of one node."""
    node = chance.choice(value["nodes"])
    key = chance.choice(list(node))
    old = node[key]
    if isinstance(old, bool):
        node[key] = not old
    elif isinstance(old, int):
        node[key] = near(chance, old)
    elif key == "kind":
        node[key] = chance.choice(["part", "core", "inner"])
    elif isinstance(old, list):
        change_entry(chance, value)
    else:
        node[key] = None if old and chance.random() < 0.3 else str(near(chance, old or 0))


def change_entry(chance, value):
    """One entry of an array of numbers is changed, dropped, repeated or put in."""
    arrays = [(node, key) for node in value["nodes"] for key in ("points", "hits", "falls")]
    node, key = chance.choice([(node, key) for node, key in arrays if node[key]] or arrays)
    place, spelled = chance.randint(0, max(0, len(node[key]) - 1)), (str if key == "points" else int)
    here, around = node[key][place:place + 1], [int(entry) for entry in node[key][max(0, place - 1):place + 1]] or [0, 9]
    ways = {
        "put": lambda: [spelled(chance.randint(min(around), max(around) + 1)), *here],
        "drop": lambda: [],
        "repeat": lambda: here * 2,
        "change": lambda: [spelled(near(chance, here[0]))],
    }
    node[key][place:place + 1] = ways[chance.choice([*ways, "change"] if here else ["put"])]()


def change_kind(chance, value):
    """A value anywhere is one of another kind, or of a spelling that is none."""
    holders = [value, *value["nodes"], *(node[key] for node in value["nodes"] for key in ("points", "hits", "falls") if node[key])]
    holder = chance.choice(holders)
    key = chance.choice(list(holder) if isinstance(holder, dict) else range(len(holder)))
    holder[key] = chance.choice([None, True, "x", "", "01", "7", 7, -1, 1.5, 1.0, {}, [], [7], ["7"], "+7", " 7", "٣"])


def change_nodes(chance, value):
    """A node or a key is dropped, repeated, or at another place."""
    nodes = value["nodes"]
    place = chance.randrange(len(nodes))
    way = chance.choice(["drop", "repeat", "turn", "key", "more"])
    if way in ("drop", "repeat"):
        nodes[place:place + 1] = [nodes[place]] * (2 * (way == "repeat"))
    elif way == "turn":
        nodes.reverse()
    else:
        holder = chance.choice([value, nodes[place]])
        holder.update(more=1) if way == "more" else holder.pop(chance.choice(list(holder)))


def refine(chance, value):
    """Entries more in covers and chains, which prove as much."""
    for node in value["nodes"]:
        for key in ("points", "falls"):
            chain = [int(entry) for entry in node[key]]
            for low, high in zip(chain[:], chain[1:]):
                if high - low > 1 and chance.random() < 0.3:
                    chain.append(chance.randint(low + 1, high - 1))
            node[key] = [str(entry) if key == "points" else entry for entry in sorted(chain)]


def spoil_bytes(chance, text):
    """One byte is changed, dropped, repeated or put in, or the text ends early."""
    place, byte = chance.randrange(len(text)), bytes([chance.choice(b'0123456789-+.eE"\\[]{},: ntfu\t\x00\x7f\xc3\xff')])
    behind = chance.choice([byte + text[place + 1:], text[place + 1:], text[place:place + 1] + text[place:], byte + text[place:], b""])
    return text[:place] + behind


def spell_otherwise(chance, text):
    """The same value: with spaces, other orders of keys, escapes, or a key that stands twice."""
    way = chance.randrange(4)
    if way == 0:
        return json.dumps(json.loads(text), indent=1).encode() + b" \r\n\t"
    if way == 1:
        return text_of(json.loads(text, object_pairs_hook=lambda pairs: dict(reversed(pairs))))
    if way == 2:
        return text.replace(b'"part"', b'"\\u0070art"').replace(b'"points"', b'"p\\u006fints"')
    first = chance.choice([b"[]", b"1e400", b'"\\ud800"', b'"\\ud83d\\ude00"', b"-0", b"{}"])
    return text.replace(b'"budget":', b'"budget":[' + first + b'],"budget":')


def spoilt(chance, text):
    """Certificates made of a good one, one for each way and some for more."""
    yield text
    yield spell_otherwise(chance, text)
    for change in (refine, change_value, change_value, change_entry, change_entry, change_kind, change_kind, change_nodes):
        value = json.loads(text)
        change(chance, value)
        yield text_of(value)
    yield spoil_bytes(chance, text)


# What the drawn ones seldom have: each rule just kept and just broken, and texts at the limits of the format

CORE = b'format=2\n[[core]]\nname="c"\nsched="edf"\n'
NODE = {"budget": 1, "computed": False, "falls": [], "hits": [], "kind": "core", "period": 1, "place": 0, "points": ["3"], "witness": None}
BELOW = dict(NODE, points=["3", "12"])
MOST = str(2**128 - 1)
PRIMES = [999_999_937, 999_999_929, 999_999_893, 999_999_883]


def with_leaf(sched, period, budget, *tasks):
    """A system of one leaf on a full core; a task is its period, deadline, jitter and work."""
    tables = [task(f"t{number}", each, work, deadline=due, jitter=jitter) for number, (each, due, jitter, work) in enumerate(tasks)]
    return tree_text(tree([core("c")], [part("p", "c", sched, period, budget, tables)])).encode()


def certificate_of(*nodes, format=1):
    return text_of({"format": format, "nodes": list(nodes)})


def of_deadlines():
    file = with_leaf("edf", 10, None, (50, 50, 0, 7))
    leaf = dict(NODE, kind="part", computed=True, budget=2, period=10, witness="50")
    for points in (["44", "94", "144", "194"], ["0", "44", "94"], [MOST], ["44", MOST], [], ["44", "94", MOST]):
        for witness in ("49", "50", "0", MOST, None):
            yield file, certificate_of(dict(leaf, points=points, witness=witness), BELOW)
    for more in ({"falls": [1]}, {"hits": [1]}, {"budget": 0}, {"budget": 10}, {"budget": 11}, {"computed": False}):
        yield file, certificate_of(dict(leaf, points=["50", "94"], **more), BELOW)
    file, leaf = with_leaf("edf", 20, 20, (50, 50, 0, 7)), dict(NODE, kind="part", budget=20, period=20)
    for last in (71, 110, 120, 121, 2**127):
        yield file, certificate_of(dict(leaf, points=["50", str(last)]), dict(BELOW, points=["3", "41"]))
    for prime in (337, 347):
        file = with_leaf("edf", 1, 1, *((period, period, 0, 1) for period in [*PRIMES, prime]))
        yield file, certificate_of(dict(NODE, kind="part"), BELOW)
    busy = with_leaf("edf", 10, None, *[(1000, 1000, 900, 100)] * 256)
    for first in ("1", "100", MOST):
        yield busy, certificate_of(dict(leaf, period=10, budget=10, computed=True, points=sorted({first, MOST}), witness=MOST), BELOW)
    others = (["2"], ["0", "3"], ["1", MOST], [MOST], ["3", "2"], ["3", "3"])
    for more in (*({"points": points} for points in others), {"hits": [1]}, {"falls": [1]}, {"witness": "1"}):
        yield CORE, certificate_of(dict(NODE, **more))


def of_priorities():
    """Under fixed priorities. The leaf of two tasks is that of docs/use/certificate.md."""
    node = dict(NODE, kind="part", period=10, points=[], computed=True, budget=2)
    chains = [[1, 51], [1, 50], [1, 52], [0, 51], [0, 1, 51], [51], [1], [], [1, 20, 20, 51], [1, 20, 51], [1, 2**64 - 1]]
    for work in (7, 4):
        file = with_leaf("listed", 10, None, (60, 60, 10, work))
        for falls in chains:
            yield file, certificate_of(dict(node, hits=[50], falls=falls, witness="0"), BELOW)
        for hit in (0, 1, 49, 51, 2**64 - 1):
            yield file, certificate_of(dict(node, hits=[hit], falls=[1, 51], witness="0"), BELOW)
    for witness in ("1", MOST, None):
        yield file, certificate_of(dict(node, hits=[50], falls=[1, 51], witness=witness), BELOW)
    file, above = with_leaf("rm", 10, None, (50, 50, 0, 7), (75, 75, 0, 9)), dict(BELOW, points=["4", "12"])
    for falls in ([1, 65, 76], [1, 76], [1, 64, 76], [1, 66, 76], [1, 65, 75], [1, 60, 65, 70, 76]):
        for hits in ([25, 46], [46, 25], [25], [25, 46, 46], [24, 46], [25, 45]):
            yield file, certificate_of(dict(node, budget=4, hits=hits, falls=falls, witness="1"), above)
    file = with_leaf("dm", 10, 10, (50, 40, 10, 7))
    for hit in (30, 31, 40):
        yield file, certificate_of(dict(node, computed=False, budget=10, hits=[hit]), above)
    for sched in (b"rm", b"dm", b"listed"):
        for more in ({"points": []}, {}, {"points": [], "hits": [1]}, {"points": [], "falls": [1]}, {"points": [], "witness": "0"}):
            yield CORE.replace(b"edf", sched), certificate_of(dict(NODE, **more))


def of_texts():
    """Texts of a certificate that are one at the least apart from a good one, over a lone core."""
    for count in (0, 1, 2, 576, 577):
        yield certificate_of(*[NODE] * count)
    yield certificate_of(*[7] * 577)
    for format in (1, 2, 0, -1, 1.0, "1", None, True, [1], 2**64):
        yield certificate_of(format=format)
    good = certificate_of(NODE)
    for depth in (126, 127, 128, 5000):
        yield b"[" * depth + b"]" * depth
        yield b'{"nodes":' + b"[" * (depth - 1) + b"]" * (depth - 1) + b"," + good[1:]
    numbers = b"-0 1e0 1E400 -1e400 1e308 2e308 1e-400 NaN Infinity -Infinity +1 01 .5 5."
    texts = rb"""'x' "\ud800" "\udc00" "\ud800\ud800" "\ud83d\ude00" "\u00zz" "\x" "\\ud800" """
    for number in (*numbers.split(), b"1" + b"0" * 400):
        yield good.replace(b'"budget":1', b'"budget":' + number)
        yield good.replace(b'"budget":1', b'"budget":' + number + b',"budget":1')
    for text in (*texts.split(), b'"\x01"', b'"\x7f"', b'"\xff"', b'"\xed\xa0\x80"'):
        yield good.replace(b'"kind"', text + b':1,"kind"')
        yield good.replace(b'"budget":1', b'"budget":' + text + b',"budget":1')
    yield from (b"", b" ", b"null", b"[]", b"{}", b"\xef\xbb\xbf" + good, good.decode().encode("utf-16"), b"/**/" + good)
    yield from (good + b"\n", good + b"\x00", good + b"{}", good[:-1] + b",}")


def at_limits():
    """Pairs of a system and a certificate."""
    yield from of_deadlines()
    yield from of_priorities()
    yield from ((CORE, text) for text in of_texts())
    for file in (b"\xef\xbb\xbf" + CORE, b"\xff" + CORE, CORE.replace(b"2", b"3"), b"", CORE + b"[[core]]\n", CORE + b"part=[1]\n"):
        yield file, certificate_of(NODE)


# The comparison
def pairs(program, chance, count):
    """At least so many pairs of a system and a certificate: those at the limits, and then those of systems that are drawn."""
    made = list(at_limits())
    while len(made) < count:
        system = draw_system(chance)
        told = program.ask("certify", "/dev/stdin", text=tree_text(system))
        if told.status == 0 and len(told.text) <= LONGEST:
            certificate = told.text.encode()
            made += [(spell(system), text) for text in spoilt(chance, certificate)]
            made += [(changed_system(chance, system), certificate) for _ in range(3)]
    return made


second_checker = functools.cache(lambda: module_of(SECOND))


def as_second(room, numbered):
    """What is answered to a pair, which is the same by both; by the command of the second checker too, now and then."""
    number, (file, certificate) = numbered
    paths = [room.folder / room.write(*named) for named in (("system.toml", file), ("certificate.json", certificate))]
    first = room.run("check", *paths)
    seconds = [Answer(*second_checker().answer(*paths))]
    if number % BY_COMMAND == 0:
        ran = subprocess.run([TOP / SECOND, *paths], stdin=subprocess.DEVNULL, stdout=subprocess.PIPE, text=True)
        seconds.append(Answer(ran.returncode, ran.stdout))
    need(all(second == first for second in seconds), f"check: {first}\nsecond-checker: {seconds}")
    line = first.lines[-1] if first.text else f"status {first.status}"
    return [line.split(" ")[0] + " of the system" * ("file=1" in line)]


def add_words(parser):
    parser.add_argument("--seed", type=int, default=1, metavar="N", help="for other systems, spoilt otherwise; 1 where none is named")
    parser.add_argument("--count", type=int, default=600, metavar="N", help="how many certificates; 600 where none is named")
    comparing.add_words(parser)


def run(given):
    made = enumerate(pairs(program_to_compare(given), random.Random(given.seed), given.count))
    return int(not compare(given, "certificates", as_second, made, dict.fromkeys(ANSWERS, 1)))
