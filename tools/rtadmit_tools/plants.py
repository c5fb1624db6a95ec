"""Wrong bodies by rule: each is a body of a crate with one line of its code changed, dropped, or all of it a constant."""
import random
import re

from . import sources

NUMBER = r"(?<![\w.'])\d+(?![\w.'])"
WORD = r"[&*]?\w[\w.]*"
OTHERS = {"==": "!=", "&&": "||", "+": "-", "*": "+", "/": "*", "<": ">", "<=": ">=", "first": "last", "min": "max", "true": "false"}
OTHERS |= {right: left for left, right in OTHERS.items() if right not in OTHERS}
# each rule by its name: what it changes in a line, and into what
RULES = {
    "may be equal": (r" ([<>]) ", lambda it: f" {it[1]}= "),
    "may not be equal": (r" ([<>])= ", lambda it: f" {it[1]} "),
    "the other sign": (r" (==|!=|&&|\|\||[-+*/]|[<>]=?) ", lambda it: f" {OTHERS[it[1]]} "),
    "the other word": (r"\b(first|last|min|max)(?=\()|\b(true|false)\b", lambda it: OTHERS[it[0]]),
    "one more": (NUMBER, lambda it: str(int(it[0]) + 1)),
    "one less": (NUMBER, lambda it: str(max(0, int(it[0]) - 1))),
    "swapped": (rf"\b(\w+)\(({WORD}), ({WORD})", lambda it: f"{it[1]}({it[3]}, {it[2]}"),
    "the one for both": (rf"({WORD}) [-+*/] {WORD}(?![\w.(\[])", lambda it: it[1]),
    "none": (r"\bSome\((?:[^()]|\([^()]*\))*\)(?! =)", lambda it: "None"),
    "not": (r"\b(if|while) (?!let )(.+) \{$", lambda it: f"{it[1]} !({it[2]}) {{"),
    "always": (r"\bif (?!let )(.+) \{$", lambda it: "if true {"),
    "dropped": (r"^ *(?!let |return|break|continue|[})])\S.*;$", lambda it: ""),
}
CONSTANTS = {"bool": ["false", "true"], "Option": ["None"], **{f"u{bits}": ["0", "1"] for bits in (8, 16, 32, 64, "size")}}
GIVES = re.compile(r"-> (?:Result<)?(\w+)")


def changed_lines(lines):
    """Each change of one line by a rule: its place, the rule, and the new line."""
    for place, code in sources.code(lines):
        code = code.rstrip()
        for rule, (pattern, made) in RULES.items():
            for found in re.finditer(pattern, code):
                line = code[: found.start()] + made(found) + code[found.end() :]
                if line != code:
                    yield place, rule, line


def constants(head):
    """The constants that a function may give, by its head."""
    given = next((found for line in head if (found := GIVES.search(line)) and not line.lstrip().startswith("//")), None)
    values = CONSTANTS.get(given[1], []) if given else []
    return [f"Ok({value})" for value in values] if given and "Result<" in given[0] else values


def planted(text):
    """Each wrong body of a source: a name that tells its line and its rule, the lines that it changes as a slice, and the new lines."""
    at = 0
    for piece in sources.pieces("", text):
        body, at = at + len(piece.head), at + len(piece.lines)
        if piece.function:
            name = piece.function.name
            for place, rule, line in changed_lines(piece.body):
                yield f"{body + place + 1} {name}: {rule}", slice(body + place, body + place + 1), [line] if line else []
            for value in constants(piece.head):
                yield f"{body + 1} {name}: always {value}", slice(body, at), [f"{re.match(' *', piece.head[0])[0]}    {value}"]


def some(texts, number, seed):
    """So many of the wrong bodies of some sources, the same for the same seed: the name, the path and the text of each. Of those of one
    name the first counts."""
    every = {}
    for path, text in sorted(texts.items()):
        for name, place, lines in planted(text):
            every.setdefault(f"{path}:{name}", (path, place, lines))
    for name in random.Random(seed).sample(sorted(every), min(number, len(every))):
        path, place, lines = every[name]
        made = texts[path].split("\n")
        made[place] = lines
        yield name, path, "\n".join(made)
