"""The manual page and the completion for bash know the same words as docs/use/formats.md, and complete what stands at each place."""
import re
import shutil
import subprocess
import unittest

import support
from support import command_line, run, top

FORMATS = (top / "docs/use/formats.md").read_text()
MANUAL = (top / "docs/use/rtadmit.1").read_text()
FORMS = re.search(r"^    usage: (.*)$", FORMATS, re.M)[1].removeprefix("rtadmit ").split(" | ")
COMMANDS = sorted(form.split()[0] for form in FORMS)


class Manual(unittest.TestCase):
    def test_forms_and_statuses(self):
        section = lambda name: re.search(rf"^\.SH {name}\n(.*?)(?=^\.SH |\Z)", MANUAL, re.M | re.S)[1]
        for name, form in (("SYNOPSIS", r"^\.B rtadmit (\w+)(?:\n\.I (.*))?$"),
                           ("COMMANDS", r'^\.TP\n\.BI? "?(\w+) ?"?(?: "?([A-Z ]+)"?)?$')):
            self.assertEqual([" ".join(words).strip() for words in re.findall(form, section(name), re.M)], FORMS)
        table = re.findall(r"^\| (\d) \| \w+ \|", FORMATS, re.M)
        self.assertEqual(re.findall(r"^\.TP\n\.B (\d)$", section("EXIT STATUS"), re.M), table)

    @unittest.skipUnless(shutil.which("groff"), "no groff")
    def test_it_is_set_without_a_warning(self):
        ran = subprocess.run(["groff", "-man", "-Tutf8", "-ww", top / "docs/use/rtadmit.1"], capture_output=True, text=True)
        self.assertEqual((ran.returncode, ran.stderr), (0, ""))
        self.assertIn("virtual machines", " ".join(ran.stdout.split()))


class Help(unittest.TestCase):
    def test_each_verb_says_what_it_does(self):
        for kind in ("host", "gate"):
            overview = run(kind, "--help")[1]
            for name, told in command_line.verbs(kind).items():
                status, out, err = run(kind, name, "--help")
                self.assertEqual((status, err, f"tools/{kind} {name} " in out, told in out), (0, "", True, True), name)
                self.assertRegex(overview, rf"\n    {name} +{re.escape(told)}\n")
            self.assertEqual([run(kind)[0], run(kind, "none")[0]], [2, 2])


class Completion(support.Case):
    SCRIPT = f'source "{top / "tools/rtadmit.bash-completion"}"; ' + (
        'while read -r line; do eval "COMP_WORDS=($line)"; COMP_CWORD=$((${#COMP_WORDS[@]} - 1)); COMPREPLY=(); _rtadmit; '
        '(IFS="|"; echo "${COMPREPLY[*]}"); done')

    def offers(self, *rows):
        """What is offered for the last of some words, of many at once."""
        for name in ("a.toml", "a b.toml", "t.csv", "c.cert", "c.json", "notes.txt", "more/d.toml"):
            self.file(name, "")
        asked = "".join(" ".join(f"'{word}'" for word in ("./rtadmit", *words)) + "\n" for words, _ in rows)
        ran = subprocess.run(["bash", "-c", self.SCRIPT], cwd=self.folder, input=asked, capture_output=True, text=True)
        self.assertEqual((ran.returncode, ran.stderr), (0, ""))
        found = [sorted(filter(None, line.split("|"))) for line in ran.stdout.splitlines()]
        self.assertEqual([(words, offered) for (words, _), offered in zip(rows, found, strict=True)], list(rows))

    def test_it_has_the_forms_of_the_usage_line(self):
        forms = re.search(r'^_rtadmit_forms="(.*?)"$', (top / "tools/rtadmit.bash-completion").read_text(), re.M | re.S)[1]
        self.assertEqual(forms.replace("\\\n", "").split(" | "), FORMS)

    def test_commands_and_the_fronts_of_names(self):
        self.offers(([""], sorted([*COMMANDS, "--unproved"])), (["a"], ["admit", "audit"]), (["--unproved", ""], COMMANDS),
                    (["admit", "more/"], ["more/d.toml"]), (["admit", "a "], ["a b.toml"]), (["admit", "nothing"], []),
                    (["simulate", "a.toml", "t.csv", "l"], ["late"]))

    def test_files_of_each_place(self):
        kinds = {"FILE": ["a b.toml", "a.toml", "more"], "CERT": ["c.cert", "c.json", "more"], "PATTERN": ["early", "late", "worst"]}
        kinds |= dict.fromkeys(("RELEASES", "WORKLOAD", "TRACE", "SCRIPT", "GUESTS"), ["more", "t.csv"])
        kinds |= dict.fromkeys(("SLOTS", "N", "PART", "DEADLINE", "LOW", "HIGH"), [])
        rows = []
        for command, *places in map(str.split, FORMS):
            for at, place in enumerate([*places, None]):
                words = [command, *["x"] * at, ""]
                rows += [(words, kinds.get(place, [])), (["--unproved", *words], kinds.get(place, []))]
        self.offers(*rows)
