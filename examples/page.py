"""The commands of README.md, examples/README.md, docs/use/guide.md and docs/use/no.md, what each is told to print, and the words that they
give the program.

A command stands behind `    $ `, and what it prints in the lines below it, up to the first that is not set in. It stands
at the top of the checkout and calls the program as `./rtadmit`."""
import os, pathlib, re, shlex, subprocess, tempfile

top = pathlib.Path(__file__).resolve().parent.parent
pages = [top / "README.md", top / "examples" / "README.md", top / "docs/use/guide.md", top / "docs/use/no.md"]


def entries():
    """Each command of the pages with the text that is told of it."""
    text = "\n\n".join(page.read_text() for page in pages) + "\n"
    found = re.findall(r"^    \$ (.*)\n((?:    (?!\$ ).*\n)*)", text, re.M)
    return [(command, re.sub("^    ", "", told, flags=re.M)) for command, told in found]


def run(command, program, env=None):
    """What a command prints, with another program in place of `./rtadmit`, also where it prints the words that call it."""
    words = shlex.quote(str(program))
    named = re.sub(r"(?<![^\s;|&(])\./rtadmit(?=[\s;]|$)", lambda _: words, command)
    ran = subprocess.run(["bash", "-c", named], cwd=top, env=env, stdin=subprocess.DEVNULL, stdout=subprocess.PIPE)
    return ran.stdout.decode(errors="surrogateescape").replace(f"| {words} admit", "| ./rtadmit admit")


RECORDER = """#!/bin/sh
printf '%s\\0' "$#" "$@" >>"$WORDS_TO"
exec "$PROGRAM" "$@"
"""


def words(program):
    """The words of each call that the pages make, as bytes, each list once and in order."""
    with tempfile.TemporaryDirectory() as scratch:
        recorder = pathlib.Path(scratch) / "recorder"
        recorder.write_text(RECORDER)
        recorder.chmod(0o755)
        env = dict(os.environ, WORDS_TO=f"{scratch}/words", PROGRAM=str(program))
        for command, _ in entries():
            run(command, recorder, env)
        told = pathlib.Path(f"{scratch}/words").read_bytes().split(b"\0")
    calls = []
    while told[0]:
        count = int(told[0])
        calls.append(tuple(told[1 : 1 + count]))
        told = told[1 + count :]
    return list(dict.fromkeys(calls))
