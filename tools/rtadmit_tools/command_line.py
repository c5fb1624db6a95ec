"""The command line of tools/host and tools/gate: one way to take words, to refuse, to show progress and to end.

A verb is a module of rtadmit_tools.host or rtadmit_tools.gate, with _ for each - of its name. Its docstring is its help, and begins with
a line that says what it does. It has `run(given)`, which answers a status, a text that is printed, or both as a pair; no answer is
status 0. Where it takes words it has `add_words(parser)`, and what `given.refuse(cause)` tells is behind its usage. Where its help tells
another status for a refusal than 1, it has that as REFUSED."""
import argparse
import importlib
import os
import pathlib
import signal
import sys

TOP = pathlib.Path(__file__).resolve().parents[2]
USAGE = 2


class Refused(Exception):
    """There is no answer: the file and the line, where there are such, and the cause."""

    def __init__(self, file, line, cause):
        place = "" if file is None else f"{file}: " if line is None else f"{file}:{line}: "
        super().__init__(f"{place}{cause}")


class WrongWords(Refused):
    def __init__(self, cause):
        super().__init__(None, None, cause)


def refuse_all(causes):
    """Refuses for all these causes at once, a line each, where there are any."""
    if told := "\n".join(map(str, causes)):
        raise Refused(None, None, told)


def verbs(kind):
    """The verbs of an entry point in order, each with the first line of its help."""
    found = {}
    for path in sorted((pathlib.Path(__file__).parent / kind).glob("[!_]*.py")):
        with open(path) as module:
            found[path.stem.replace("_", "-")] = module.readline().strip().strip('"')
    return found


def overview(kind):
    package = importlib.import_module(f"rtadmit_tools.{kind}")
    lines = [f"    {verb:<18}{told}" for verb, told in verbs(kind).items()]
    return "\n".join([f"tools/{kind} VERB WORDS", "", package.__doc__, "", *lines, "", f"tools/{kind} VERB --help says more of one.", ""])


def parser_of(kind, verb, module):
    parser = argparse.ArgumentParser(
        prog=f"tools/{kind} {verb}", description=module.__doc__, formatter_class=argparse.RawDescriptionHelpFormatter,
        epilog=f"Where it refuses, the status is {getattr(module, 'REFUSED', 1)}, with the cause on standard error; for wrong words 2.",
    )
    parser.set_defaults(refuse=parser.error)
    getattr(module, "add_words", lambda parser: None)(parser)
    return parser


def written(text):
    """Whether a text could be written to standard output."""
    try:
        sys.stdout.write(text)
        sys.stdout.flush()
    except OSError as fault:
        unwritten(fault)
        return False
    return True


def unwritten(fault):
    """Tells that standard output takes no more, and keeps Python from trying it again when it ends."""
    print(f"standard output: {fault.strerror}", file=sys.stderr)
    os.dup2(os.open(os.devnull, os.O_WRONLY), sys.stdout.fileno())


def ended(answer, refused=1):
    """What an answer of a verb prints, and its status."""
    try:
        told = answer()
    except Refused as cause:
        print(cause, file=sys.stderr)
        return USAGE if isinstance(cause, WrongWords) else refused
    except BrokenPipeError as fault:
        unwritten(fault)
        return refused
    except OSError as fault:
        print(f"{fault.filename}: {fault.strerror}" if fault.filename else fault.strerror or fault, file=sys.stderr)
        return refused
    except KeyboardInterrupt:
        return 128 + signal.SIGINT
    text, status = told if isinstance(told, tuple) else (told, 0) if isinstance(told, str) else ("", told or 0)
    return status if not text or written(text) else refused


def main(kind, arguments=None):
    """Runs the verb that the words name. The status."""
    words = sys.argv[1:] if arguments is None else [str(word) for word in arguments]
    if not words or words[0] in ("-h", "--help"):
        print(overview(kind), end="", file=sys.stdout if words else sys.stderr)
        return 0 if words else USAGE
    if words[0] not in verbs(kind):
        print(f"tools/{kind}: there is no verb {words[0]}; tools/{kind} --help lists them", file=sys.stderr)
        return USAGE
    module = importlib.import_module(f"rtadmit_tools.{kind}.{words[0].replace('-', '_')}")
    given = parser_of(kind, words[0], module).parse_args(words[1:])
    return ended(lambda: module.run(given), getattr(module, "REFUSED", 1))


def several(parser, option, metavar, told, **more):
    """An option that may be given several times."""
    parser.add_argument(option, action="append", default=[], metavar=metavar, help=f"{told}; may be given several times", **more)


def pairs(words, option, order="first"):
    """The words KEY=VALUE of an option as a map, where neither a key nor a value stands twice; `order` says which = counts."""
    found = {}
    for word in words:
        key, sign, value = word.rpartition("=") if order == "last" else word.partition("=")
        if not (sign and key and value):
            raise WrongWords(f"{option} {word!r} is not KEY=VALUE")
        if key in found or value in found.values():
            raise WrongWords(f"{option} {word!r}: {key if key in found else value} stands twice")
        found[key] = value
    return found


def counted(items, what, whole=None):
    """The items; meanwhile a terminal's standard error is shown how many of them are done, and nothing elsewhere is."""
    items = items if hasattr(items, "__len__") or whole is not None else list(items)
    whole = len(items) if whole is None else whole
    shown = sys.stderr.isatty()
    for place, item in enumerate(items):
        if shown:
            print(f"\r\033[K{what}: {place} of {whole}", end="", file=sys.stderr, flush=True)
        yield item
    if shown:
        print("\r\033[K", end="", file=sys.stderr, flush=True)
