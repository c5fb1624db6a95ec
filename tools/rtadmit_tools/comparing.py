"""What the verbs of tools/gate share that make inputs, ask the program about them and compare: numbers of a seed, tables of a small system,
a folder in which the program runs, and the loop that tells what does not hold and how often each thing was met."""
import concurrent.futures
import functools
import importlib.machinery
import importlib.util
import os
import pathlib
import shutil
import subprocess
import sys
import tempfile
from collections import Counter

from .command_line import TOP, counted
from .formulas import SCHEDS
from .program import Answer, add_program, program_of
from .system_file import tree_text

SECONDS, SHOWN = 60, 2000
SCHEDS = tuple(SCHEDS)


class Numbers:
    """Numbers that look random, and are the same for the same seed."""

    def __init__(self, seed):
        self.state = seed

    def below(self, bound):
        self.state = (self.state * 6364136223846793005 + 1442695040888963407) % 2**64
        return (self.state >> 33) % bound

    def of(self, choices):
        return choices[self.below(len(choices))]


def core(name="cpu0", sched="edf", **supply):
    return {"name": name, "sched": sched, **supply}


def part(name, parent, sched, period, budget=None, tasks=(), **more):
    return {"name": name, "parent": parent, "sched": sched, "period": period, "budget": budget, "task": list(tasks), **more}


def task(name, period, work, **more):
    return {"name": name, "period": period, "work": work, **more}


def tree(cores, parts, format=2):
    """The tables of a system file. A value that is None stands for a key that is not there."""
    return {"format": format, "core": list(cores), "part": list(parts)}


class Broken(Exception):
    """Something that does not hold."""


def need(true, told):
    if not true:
        raise Broken(told)


class Room:
    """A folder in which the program runs over files."""

    def __init__(self, program, folder):
        self.program, self.folder = program, pathlib.Path(folder)

    def write(self, name, content):
        """Writes a text, bytes or the tables of a system file. The name, as a word."""
        content = tree_text(content) if isinstance(content, dict) else content
        (self.folder / name).write_bytes(content if isinstance(content, bytes) else content.encode(errors="surrogateescape"))
        return name

    def run(self, *words, **more):
        """The answer to these words. Nothing may come on standard error."""
        how = {"cwd": self.folder, "stdin": subprocess.DEVNULL, "capture_output": True, "timeout": SECONDS} | more
        ran = subprocess.run([*self.program.words, *(word if isinstance(word, bytes) else str(word) for word in words)], **how)
        need(not ran.stderr, f"{' '.join(map(str, words))}: standard error is {ran.stderr[:200]!r}")
        return Answer(ran.returncode, ran.stdout.decode(errors="surrogateescape"))

    def want(self, status, *words):
        """What is printed, where the status is this one."""
        answer = self.run(*words)
        need(answer.status == status, f"{' '.join(map(str, words))}: status {answer.status} in place of {status}: {answer.text[:200]!r}")
        return answer.text

    def shown(self):
        """The files, each behind its name; of a long one the front."""
        for path in sorted(path for path in self.folder.iterdir() if path.is_file()):
            with open(path, "rb") as file:
                yield f"\n-- {path.name}\n{file.read(SHOWN).decode(errors='replace')}"


def looked_at(program, look, keep, shows, numbered):
    """What `look` met in an input, in a fresh room, and what does not hold, or None. Then the folder `keep`, or none, gets the files."""
    number, made = numbered
    with tempfile.TemporaryDirectory(prefix="rtadmit-") as folder:
        room = Room(program, folder)
        try:
            return Counter(look(room, made)), None
        except (Broken, subprocess.TimeoutExpired) as wrong:
            if keep:
                shutil.copytree(folder, pathlib.Path(keep) / f"{look.__name__}-{number}", dirs_exist_ok=True)
            return Counter(), "".join([str(wrong), *(room.shown() if shows else [])]).encode(errors="backslashreplace").decode()


def program_to_compare(given):
    """The program that is named, by a path that holds in every folder."""
    program = program_of(given.program)
    program.words[0] = os.path.abspath(shutil.which(program.path) or program.path)
    return program


def compare(given, what, look, inputs, least=None, heavy=False, shows=True):
    """Looks at each input, several side by side, and tells what does not hold, with the files, and how often each thing was met. Whether
    all is well: each holds, and each thing of `least` was met as often. What is heavy is looked at in processes of its own."""
    inputs, least = list(enumerate(inputs)), least or {}
    met, broken, pools = Counter(dict.fromkeys(least, 0)), 0, concurrent.futures
    look_at = functools.partial(looked_at, program_to_compare(given), look, given.keep, shows)
    with (pools.ProcessPoolExecutor if heavy else pools.ThreadPoolExecutor)(os.cpu_count()) as pool:
        for (number, made), (here, wrong) in zip(inputs, counted(pool.map(look_at, inputs), what, len(inputs))):
            met.update(here)
            broken += bool(wrong)
            if wrong:
                print(f"{what}: {getattr(made, 'name', f'input {number}')}: {wrong}")
    told = [f"{count} {thing}" + f" (at least {least.get(thing)})" * (thing in least) for thing, count in met.items()]
    print("; ".join([f"{what}: {len(inputs) - broken} of {len(inputs)} hold", *told]))
    return not broken and all(met[thing] >= number for thing, number in least.items())


def add_words(parser):
    add_program(parser)
    parser.add_argument("--keep", metavar="FOLDER", help="where something does not hold, the files of that input are kept there")


def module_of(file):
    """A module of this checkout that stands outside of the package."""
    name = pathlib.Path(file).stem.replace("-", "_")
    loader = importlib.machinery.SourceFileLoader(name, str(TOP / file))
    module = importlib.util.module_from_spec(importlib.util.spec_from_loader(name, loader))
    sys.modules[name] = module
    loader.exec_module(module)
    return module
