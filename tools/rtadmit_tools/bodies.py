"""Wrong bodies of different functions in one check: which functions each changes, sources that hold many, and what a check says."""
import re
from collections import namedtuple

from .sources import pieces

OF_PROOF = re.compile(r"^(?:note: )?\S+:\d+:\d+: ")
NAMED = re.compile(r"^(?:note: )?(?:\./)?proofs/.*(?:has no field|is not in scope|has no `|was not admitted)")
# what says nothing of the body itself: another function that it calls has no proof, or the prover gave up
UNSURE = re.compile(r"could not tell|no proof: (?:it (?:calls|passes) |the borrow checker's part)")
ERROR = re.compile(r"^(?:\./)?(src/\S+\.rt):(\d+):\d+: error")


def module_of(path):
    """The module of a file of src/, as `a::b` of src/a/b.rt, and the empty text of the root."""
    words = path.removeprefix("src/").removesuffix(".rt").split("/")
    return "" if words in (["lib"], ["main"]) else "::".join(words)


def pieces_of(path, text):
    return pieces(module_of(path), text)


def path_of(function):
    """What `rt check --only` takes for a function. Of a trait's method that is the module, since its symbol is made up."""
    words = [function.module, *([] if function.trait else [function.owner, function.name])]
    return "::".join(filter(None, words)) or function.name


def has(function, symbol):
    """Whether a symbol that a check prints, less the crate's name, is the function's or that of a closure in it."""
    front, owner = f"{function.module}::" if function.module else "", re.escape(function.owner)
    around = rf"\w*{owner}\w*::" if function.trait else f"{owner}::" if owner else ""
    return bool(re.fullmatch(rf"{re.escape(front)}(?:fn::)?{around}{re.escape(function.name)}(?:::.*)?", symbol))


class Body(namedtuple("Body", "name changes")):
    """A change of bodies alone: for each file the places of its pieces, with the new ones."""

    def functions(self):
        return [piece.function for places in self.changes.values() for piece in places.values()]

    def takes(self):
        """What no other one of the same check may have: the places, and the names, by which the check tells functions."""
        return {(path, at) for path, places in self.changes.items() for at in places} | {(it.module, it.name) for it in self.functions()}


def body_of(name, sources, texts):
    """A change as a Body, of the sources and of the texts that it makes of some, or None where it changes more than bodies."""
    changes = {}
    for path, text in texts.items():
        old, new = (pieces_of(path, it) if path.startswith("src/") else [] for it in (sources.get(path, ""), text))
        if not old or [(it.function, it.head) for it in old] != [(it.function, it.head) for it in new]:
            return None
        changes[path] = {at: after for at, (before, after) in enumerate(zip(old, new)) if before != after}
    return Body(name, changes) if any(changes.values()) else None


def rounds(some, most):
    lists = []
    for it in some:
        takes = it.takes()
        free = next((one for one in lists if len(one[0]) < most and not takes & one[1]), None)
        if free:
            free[0].append(it)
            free[1].update(takes)
        else:
            lists.append(([it], takes))
    return [others for others, _ in lists]


def written(sources, some):
    """The sources with these bodies, by their paths, and the body of each changed line, by path and number."""
    texts, owners = {}, {}
    for path in {path for it in some for path in it.changes}:
        lines, mine = [], {at: it for it in some for at in it.changes.get(path, {})}
        for at, piece in enumerate(pieces_of(path, sources[path])):
            first = len(lines) + 1
            lines += (mine[at].changes[path][at] if at in mine else piece).lines
            # the line of the closing brace stands in the next piece
            owners.update({(path, line): mine[at] for line in range(first, len(lines) + 2)} if at in mine else {})
        texts[path] = "\n".join(lines)
    return texts, owners


def blamed(said, owners):
    """The names of the bodies at whose lines the front end found an error, each with its words."""
    found = {}
    for line in said.split("\n"):
        if (at := ERROR.match(line)) and (it := owners.get((at[1], int(at[2])))):
            found.setdefault(it.name, line)
    return found


def verdicts(crate, said):
    """What a check says of each function of the crate: its symbol, less the crate's name, its verdict, and the lines above."""
    found, above = [], []
    for line in said.split("\n"):
        if at := re.match(rf"fn {re.escape(crate)}::(\S+): (.*)", line):
            found.append((at[1], at[2], above))
            above = []
        else:
            above.append(line)
    return found


def answer(rows, it):
    """The kind of what a check says of a body, and its words, or None where it can't tell of a function that the body changes."""
    refused, unsure = [], False
    for function in it.functions():
        mine = [row for row in rows if has(function, row[0])]
        if not mine:
            return None
        unsure = unsure or any(UNSURE.match(row[1]) for row in mine)
        refused += [row for row in mine if not row[1].startswith("proved") and not UNSURE.match(row[1])]
    if not refused:
        return None if unsure else ("through", "NOT REFUSED: the changed functions are still proved")
    told = [line for _, _, above in refused for line in above if OF_PROOF.match(line)]
    other = [line for line in told if not NAMED.match(line)]
    words = "; ".join([f"{refused[0][0]}: {refused[0][1]}", *(other or told)[:1]])
    return "named" if told and not other else "refused", words
