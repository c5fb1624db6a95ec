"""Tests of from-xl, to-xl and from-xenalyze, over texts of the documented forms."""
import re
import tomllib

import support
from support import needs_program, program, recorded, run, system, top

SCHED, VCPUS = recorded / "xl-sched-rtds.txt", recorded / "xl-vcpu-list.txt"
NAMES = ["--name", "web.example.org=web", "--name", "vm 3=vm3"]
XL = top / "examples" / "xl"


class FromXl(support.Case):
    def says(self, causes, *words, sched=None, vcpus=None):
        """Refused for these causes, over the recorded texts or others."""
        texts = [of.read_text() if text is None else text for of, text in ((SCHED, sched), (VCPUS, vcpus))]
        status, out, err = self.ran("host", "from-xl", *map(self.file, ("sched", "vcpus"), texts), *(words or NAMES))
        self.assertEqual((status, out), (1, ""))
        self.assertEqual([cause for cause in causes if cause not in err], [], err)
        return err

    def test_two_pools(self):
        status, out, err = run("host", "from-xl", SCHED, VCPUS, *NAMES, "--stand-in", "Domain-0-0")
        self.assertEqual((status, err), (0, ""))
        tree = tomllib.loads(out)
        self.assertEqual((tree["format"], tree["core"]), (2, [{"name": f"cpu{n}", "sched": "edf"} for n in (0, 1, 2, 3, 10)]))
        told = [tuple(map(part.get, ("name", "parent", "period", "budget", "extra", "sched"))) for part in tree["part"]]
        self.assertEqual(told, [
            ("Domain-0-0", "cpu0", 10000, 4000, True, "edf"), ("vm1-0", "cpu1", 300, 150, True, None),
            ("vm1-1", "cpu2", 400, 200, None, None), ("vm1-2", "cpu1", 10000, 4000, True, None),
            ("web-0", "cpu10", 10000, 2000, None, None), ("vm3-0", "cpu3", 100000, 10, None, None)])
        self.assertEqual(tree["part"][0]["task"], [{"name": "any", "period": 1000000, "work": 1}])
        for text, count in (("# open: write", 5), ("# jitter = ...", 5), ("Keep the budget: what is computed is for this slot alone", 1),
                            ("Keep that of a stand-in: its task is invented.", 1), ("# Domain-0-1 is offline and left out.\n", 1),
                            ("# --name web.example.org=web\n# --name 'vm 3=vm3'\n", 1)):
            self.assertEqual(out.count(text), count, text)
        self.assertNotIn("--name", run("host", "from-xl", XL / "sched-rtds.txt", XL / "vcpu-list.txt")[1])
        # before there was extra time
        sched = re.sub(" +(yes|no|Extratime)$", "", SCHED.read_text(), flags=re.M)
        status, out, _ = run("host", "from-xl", self.file("sched", sched), VCPUS, *NAMES)
        self.assertEqual((status, "extra" in out), (0, False))

    def test_what_is_refused_where_a_text_is_changed(self):
        """Each by itself, and several at once."""
        pin = "is pinned to no single processor (it may run on"
        rows = (
            ("18.2  1 /", "18.2  1-2 /", f"vcpus:4: vm1-0 {pin} 1-2): xl vcpu-pin vm1 0 CPU"),
            ("2.0  3 /", "2.0  all /", f"vcpus:9: vm3-0 {pin} all): xl vcpu-pin 'vm 3' 0 CPU"),
            ("100000        10", "100000         0", "sched:11: vm3-0 has not 1 <= budget <= period"),
            ("100000        10", "2000000000    10", "sched:11: vm3-0 has not 1 <= budget <= period"),
            (f"vm1{' ' * 34}2     0", f"vm1{' ' * 34}2     7", "sched:5: VCPU 0 of vm1 does not stand in"),
            (f"vm 3{' ' * 33}7     0", f"vm8 {' ' * 33}7     0", "vcpus:9: domain 7 is vm8 here, and vm 3 in"),
        )
        for some in (*([row] for row in rows), rows[:3]):
            texts = SCHED.read_text() + "\0" + VCPUS.read_text()
            for old, new, _ in some:
                self.assertEqual(texts.count(old), 1)
                texts = texts.replace(old, new)
            sched, vcpus = texts.split("\0")
            self.says([cause for *_, cause in some], sched=sched, vcpus=vcpus)

    def test_texts_of_another_kind(self):
        sched, vcpus = SCHED.read_text(), VCPUS.read_text()
        for first, second, cause in (
            (sched + sched.splitlines()[-1], vcpus, "sched:12: VCPU 0 of vm 3 stands twice"),
            (sched, vcpus + vcpus.splitlines()[-1], "vcpus:10: VCPU 0 of vm 3 stands twice"),
            (sched.split("\n", 1)[1], vcpus, "sched:1: no line `Cpupool ..: sched=RTDS` is above"),
            (sched.replace("RTDS", "Credit"), vcpus, "sched:1: the pool Pool-0 is under Credit"),
            (sched.replace("   ID VCPU ", "   ID "), vcpus, "sched:2: these are whole domains"), ("", vcpus, "sched: no VCPU under RTDS"),
            (sched, sched, "vcpus:1: a line before the head"), (vcpus, vcpus, "sched:1: a line before the head"),
            (sched.replace(f"Domain-0{' ' * 29}0    1     10000", "Domain-0    0    1 "), vcpus, "sched:4: no line of this text"),
            (sched.replace("10000      4000        yes", "9" * 5000 + " 4000 yes", 1), vcpus, "sched:3: no line of this text"),
        ):
            self.says([cause], sched=first, vcpus=second)

    def test_names(self):
        err = self.says(["sched:8: web.example.org-0 is no name of a system file", "--name web.example.org=NAME\n", "--name 'vm 3=NAME'"],
                        "--stand-in=vm1-0")
        self.assertEqual(len(err.splitlines()), 2)
        self.says(["sched:8: vm1-0 is the name of two VCPUs"], "--name", "web.example.org=vm1", "--name", "vm 3=vm3")
        change = lambda text: re.sub(r"(web.example.org +4 +)0", r"\g<1>3", text.read_text().replace("vm 3 ", "vm3  "))
        self.says(["sched:8: vm1 is the name of two domains: give one another by --name"], "--name", "web.example.org=vm1",
                  sched=change(SCHED), vcpus=change(VCPUS))
        for words, cause in ((["--stand-in", "vm9-0"], "no part is called vm9-0; --stand-in wants the part, as Domain-0-0"),
                             (["--stand-in", "Domain-0"], "no part is called Domain-0; --stand-in wants"),
                             (["--name", "vm9=vm8"], "no VCPU of a domain vm9, which --name tells")):
            self.says([f"sched: {cause}"], *NAMES, *words)
        for words in ([SCHED], [SCHED, VCPUS, "--name", "vm1"], [SCHED, VCPUS, "--name", "vm1=a", "--name", "vm1=b"]):
            self.assertEqual(run("host", "from-xl", *words)[:2], (2, ""))
        self.assertEqual(run("host", "from-xl", "/nowhere/sched", VCPUS), (1, "", "/nowhere/sched: No such file or directory\n"))


HOST = system("cpu1 edf", "audio-0 cpu1 edf 5000 extra", "Domain-0-1 cpu1 edf 10000/4000", "inner Domain-0-1 edf 5")
ANSWER = """\
verdict=yes
part audio-0 period=5000 budget=600 computed
witness audio-0 budget=599 start=599 span=20000 task=- replay=skipped
part Domain-0-1 period=10000 budget=4000 given
part inner period=5 budget=1 computed
"""


class ToXl(support.Case):
    def call(self, text=HOST, answer=ANSWER, status=0, words=()):
        return self.ran("host", "to-xl", self.file("host.toml", text), "--program", self.answering(answer, status), *words)

    def test_a_call_a_vcpu(self):
        """Who is exposed is said beside the calls."""
        calls = "xl sched-rtds -d audio -v 0 -p 5000 -b 600 -e 1\nxl sched-rtds -d Domain-0 -v 1 -p 10000 -b 4000 -e 0\n"
        self.assertEqual(self.call(), (0, calls, ""))
        exposed = ("host.toml: audio-0 is exposed (by=block): its budget is not proved safe when others of its core sleep "
                   "(docs/use/no.md)\n")
        answer = ANSWER + "isolated Domain-0-1 last=9 of=9\nexposed audio-0 by=block\n"
        self.assertEqual(self.call(answer=answer), (0, calls, exposed))

    def test_the_names_of_domains(self):
        named, other = "# --name 'a b=audio'\n# --name c=gone\n" + HOST, self.file("other", "# --name 'a b=audio'\n")
        for text, words, told in (
            (HOST, ["--name", "a b=audio"], "-d 'a b' -v 0"), (named, [], "-d 'a b' -v 0 -p 5000"), (named, [], "-d Domain-0 -v 1"),
            (named, ["--name", "d=audio"], "-d d -v 0 -p 5000"), (HOST, ["--names", other], "-d 'a b' -v 0 -p 5000"),
        ):
            self.assertIn(told, self.call(text, words=words)[1])
        self.assertEqual(self.call(words=["--name", "a=video"])[2], "host.toml: no part is named for a domain video, which --name tells\n")
        not_one = "1: this comment is not --name"
        for comments, cause in (
            (["a b=audio"], f"{not_one} DOMAIN=NAME"), (["'a b"], not_one), (["audio"], not_one), (["=audio"], not_one),
            (["a=audio", "b=audio"], "2: this comment tells audio a second time"),
            (["a=audio", "a=video"], "2: this comment tells a a second time"),
        ):
            self.no(f"host.toml:{cause}", self.call("".join(f"# --name {comment}\n" for comment in comments) + HOST))

    def test_what_from_xl_writes_is_called_as_the_domain_is(self):
        made = run("host", "from-xl", SCHED, VCPUS, *NAMES)[1].replace("# sched =", "sched =")
        names = [part["name"] for part in tomllib.loads(made)["part"]]
        status, out, err = self.call(made, "verdict=yes\n" + "".join(f"part {name} period=100 budget=50 given\n" for name in names))
        self.assertEqual((status, err), (0, ""))
        self.assertEqual(re.findall("-d (.*) -v (.*) -p", out), [
            ("Domain-0", "0"), ("vm1", "0"), ("vm1", "1"), ("vm1", "2"), ("web.example.org", "0"), ("'vm 3'", "0")])

    def test_what_is_refused(self):
        self.assertEqual(self.call(answer=ANSWER.replace("budget=600", "budget=10"))[0], 0)
        few = ("host.toml:6: audio-0 has a budget of 9, and Xen takes 10 and more: write budget = 10 or more into the file, or for a "
               "stand-in what the host has")
        for old, new, cause in (
            ("600", "9", few), ("5000", "9", "host.toml:6: audio-0 has a period of 9"),
            ("audio-0", "audio", "host.toml:6: audio is not named DOMAIN-NUMBER"), ("audio-0", "audio-00", "audio-00 is not named"),
            ('"cpu1"\nsched = "edf"', '"cpu1"\nsched = "rm"', "cpu1 is not a whole processor"),
            ("[[part]]", "supply_period = 9\nsupply_budget = 9\n[[part]]", "cpu1 is not a whole processor"),
        ):
            self.no(cause, self.call(HOST.replace(old, new, 1), ANSWER.replace(old, new)))
        for status, answer, told in (
            (1, "verdict=no\noverfull core cpu1 at=7\n", "status 1, verdict=no; overfull core cpu1 at=7"),
            (3, "fault=Empty at=part 1 file=1\n", "status 3, fault=Empty at=part 1 file=1"), (6, "", "status 6, no text"),
        ):
            told = f"host.toml: not admitted, so there is nothing to set: {told}\n"
            self.assertEqual(self.call(answer=answer, status=status), (1, "", told))
        file = self.file("host.toml", HOST)
        for words, told in ((["/nowhere/host.toml", "--program", "true"], "/nowhere/host.toml: No such file or directory\n"),
                            ([file, "--program", "/nowhere/rtadmit"], "/nowhere/rtadmit: No such file or directory\n"),
                            ([file, "--program", "true"], "true: this program does not answer as rtadmit does\n")):
            self.assertEqual(run("host", "to-xl", *words), (1, "", told))
        self.assertEqual(run("host", "to-xl")[:2], (2, ""))


@needs_program
class RoundTrip(support.Case):
    """What xl prints becomes a file, its tasks are filled in, and the calls carry budgets that become the same file again."""

    def from_xl(self, sched):
        return run("host", "from-xl", sched, XL / "vcpu-list.txt", "--stand-in", "Domain-0-0")[1]

    def to_xl(self, text):
        return run("host", "to-xl", self.file("host.toml", text), "--program", program())

    def filled(self, text):
        """The file with the tasks of examples/xen.toml, and the budgets of the two guests left out."""
        (head, stand_in, *parts), (_, _, *known) = (told.split("[[part]]\n") for told in (text, (top / "examples/xen.toml").read_text()))
        for part, told in zip(parts, known, strict=True):
            tasks, sched = told[told.index("[[part.task]]"):], re.search("^sched = .*\n", told, re.M)[0]
            stand_in += "[[part]]\n" + re.sub("budget = .*\n", "", part) + sched + tasks
        return f"{head}[[part]]\n{stand_in}"

    def test_there_and_back(self):
        opened = self.from_xl(XL / "sched-rtds.txt")
        self.assertEqual(tomllib.loads(self.filled(opened)), tomllib.loads((top / "examples/xen.toml").read_text()) | {"format": 2})
        status, out, err = self.to_xl(self.filled(opened))
        self.assertEqual((status, out), (0, (
            "xl sched-rtds -d Domain-0 -v 0 -p 10000 -b 4000 -e 1\n"
            "xl sched-rtds -d audio -v 0 -p 5000 -b 600 -e 0\n"
            "xl sched-rtds -d video -v 0 -p 10000 -b 2858 -e 0\n"
        )))
        self.assertIn("audio-0 is exposed (by=block)", err)
        sched = (XL / "sched-rtds.txt").read_text()
        for name, number, period, budget, extra in re.findall("-d (.*) -v (.*) -p (.*) -b (.*) -e (.*)", out):
            row = f"{name:33} \\g<1> {number:>4} {period:>9} {budget:>9} {('no', 'yes')[int(extra)]:>10}"
            sched = re.sub(rf"^{name} +(\d+) +{number} .*$", row, sched, flags=re.M)
        again = self.from_xl(self.file("sched", sched))
        told = [(part["name"], part["budget"], part.get("extra", False)) for part in tomllib.loads(again)["part"]]
        self.assertEqual(told, [("Domain-0-0", 4000, True), ("audio-0", 600, False), ("video-0", 2858, False)])
        self.no("fault=MissingKey at=part 2 file=1", self.to_xl(opened))


def named(*pairs, cpus="1"):
    return [word for cpu in cpus for word in ("--cpu", f"{cpu}=cpu{cpu}")] + [word for pair in pairs for word in ("--vcpu", pair)]


A, AB, TWO = named("d1v0=A"), named("d1v0=A", "d2v0=B"), named("d1v0=A", cpus="12")
MAP, XEN = named("d1v0=audio-0", "d2v0=video-0", "d3v1=net-1", cpus="12"), named("d0v0=Domain-0-0", "d1v0=audio-0", "d2v0=video-0")
START = "   0.000001000 -x d1v0 rtds:repl_budget d1v0, deadline = 9, budget = 4"
RUNS = "]  0.000002000 -x d1v0 runstate_change d1v0 runnable->running"


class FromXenalyze(support.Case):
    def rows(self, lines, words):
        status, out, err = self.ran("host", "from-xenalyze", self.file("dump", "\n".join(lines) + "\n"), *words)
        self.assertEqual(status, 0, err)
        return " ".join(out.split("\n")[1:-1]), err

    def test_dumps(self):
        for dump, words, trace in ((recorded / "xenalyze.txt", MAP, recorded / "xenalyze.csv"),
                                   (XL / "xenalyze.txt", XEN, top / "examples/xen.csv")):
            self.assertEqual(run("host", "from-xenalyze", dump, *words), (0, trace.read_text(), ""))

    def test_by_hand(self):
        """A switch at one moment needs no stop; a late replenishment is no start."""
        wakes = ["]  0.000001000 -x d9v9 runstate_change d1v0 blocked->runnable", START.replace("d1v0 rtds", "d9v9 rtds"), RUNS]
        on_time, last = START.replace("000001", "000004"), "]  0.000005000 -x d1v0 runstate_change d1v0 running->offline"
        for words, lines, told, said in (
            (AB, [START, START.replace("repl_budget d1v0", "repl_budget d2v0"),
                  "]  0.000003000 -x d1v0 runstate_change d1v0 running->runnable",
                  "]  0.000003000 -x d2v0 runstate_change d2v0 runnable->running",
                  "]  0.000005000 -x d2v0 runstate_change d2v0 running->runnable",
                  "]  0.000005000 -x d32767v1 runstate_change d32767v1 runnable->running"],
             "0,cpu1,start,A 0,cpu1,run,A 0,cpu1,start,B 2,cpu1,run,B 4,cpu1,stop, 4,,end,", ""),
            (A, [START, "]  0.000002000 -x d1v0 runstate_change d1v0 running->blocked",
                 "]  0.000002000 -x d32767v1 runstate_change d1v0 blocked->runnable", RUNS],
             "0,cpu1,start,A 0,cpu1,run,A 1,cpu1,stop, 1,cpu1,block,A 1,cpu1,wake,A 1,cpu1,run,A 1,,end,", ""),
            (A, [*wakes, on_time, last], "0,cpu1,start,A 0,cpu1,run,A 1,cpu1,stop, 1,cpu1,block,A 1,,end,", ""),
            (A, [*wakes, last], "0,cpu1,start,A 1,cpu1,run,A 4,cpu1,stop, 4,cpu1,block,A 4,,end,",
             "each replenishment of d1v0 comes with a wake-up"),
        ):
            rows, err = self.rows(lines, words)
            self.assertEqual((rows, bool(err)), (told, bool(said)))
            self.assertIn(said, err)

    def test_what_is_refused(self):
        change = "runstate_change d1v0 runnable"
        for cause, words, *lines in (
            ("dump:2: records were lost", AB, START, "]  0.000002000 -x d1v0 lost_records count 7 d1v0"),
            ("dump:3: d1v0 is running, and leaves the state runnable", AB, START, RUNS, RUNS),
            ("dump:3: d1v0 has processor 1, and d2v0 runs on it", AB, START, RUNS, RUNS.replace("d1v0", "d2v0")),
            ("dump:3: d1v0 has processor 1, and another VCPU runs", AB, START, RUNS, RUNS.replace("d1v0", "d32767v1")),
            ("dump:3: d1v0 runs on processor 1, and ran on 2", TWO, START, f"]  0.000001500 --x d1v0 {change[:-8]}running->runnable", RUNS),
            ("dump:2: processor 3 is not in the map", AB, START, RUNS.replace("-x", "---x")),
            ("dump:2: time falls on processor 1", AB, RUNS, START),
            ("dump: a trace holds 1000 seconds", A, START, RUNS.replace("0.000002000", "1000.000001001")),
            ("dump: no replenishment of d2v0", AB, START, RUNS), ("dump: no runstate_change of d1v0", A, START),
            ("dump: d1v0 never runs", TWO, START, RUNS.replace("runnable->running", "runnable->blocked")),
            ("dump:1: no text of a runstate_change", AB, f"]  0.000002000 -x d1v0 {change}"),
            ("dump:1: no text of a rtds:repl_budget", AB, "]  0.000002000 -x d1v0 rtds:repl_budget"),
            ("dump:1: no line of `xenalyze --dump-all`", AB, f"]  2000 -x d1v0 {change}->running"),
            ("dump:1: runnable->lost are no states", AB, f"]  0.000002000 -x d1v0 {change}->lost"),
            ("dump: no line of", AB, "at,core,what,vcpu"),
        ):
            self.refused(cause, "host", "from-xenalyze", self.file("dump", "\n".join(lines) + "\n"), *words)

    def test_the_budgets_of_a_file(self):
        text = (top / "examples/xen.toml").read_text().replace("period = 5000\n", "period = 5000\nbudget = 600\n")
        text = text.replace('"listed"\nperiod = 10000\n', '"listed"\nperiod = 10000\nbudget = 2858\n')
        dump, words = (XL / "xenalyze.txt").read_text(), [*XEN, "--system", self.file("host.toml", text)]
        self.assertEqual(self.rows(dump.splitlines(), words), (" ".join((top / "examples/xen.csv").read_text().splitlines()[1:]), ""))
        other = dump.replace("budget = 600000", "budget = 500000").replace("budget = 2858000", "budget = 1")
        for cause, text, words in (
            ("d1v0 tells no budget, and audio-0 has 600000", dump.replace(", budget = 600000", ""), words),
            ("dump:2: d1v0 is given 500000 ns, and audio-0 has 600000 in", other, words),
            ("dump:3: d2v0 is given 1 ns, and video-0 has 2858000 in", other, words),
            ("no part is other, which --vcpu tells", dump, [str(word).replace("audio-0", "other") for word in words]),
        ):
            self.refused(cause, "host", "from-xenalyze", self.file("dump", text), *words)

    def test_wrong_words(self):
        for words in (named(), ["--cpu", "x=cpu1", "--vcpu", "d1v0=A"], ["--cpu", "1=1", "--vcpu", "d1v0=A"], named("1=A"),
                      named("d1v0=A", "d2v0=A")):
            self.assertEqual(run("host", "from-xenalyze", "dump", *words)[:2], (2, ""), words)
        self.assertEqual(run("host", "from-xenalyze", "/nowhere/dump", *MAP), (1, "", "/nowhere/dump: No such file or directory\n"))
