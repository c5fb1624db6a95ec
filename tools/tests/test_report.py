"""Tests of tools/host report: what stands on the page, that all of it is the program's, and, where a browser is installed, that it opens
without an error and that no text is outside its box."""
import hashlib
import html.parser
import json
import re
import shutil
import subprocess
import unittest

import support
from support import needs_program, program, run, top

BROWSER = next(filter(None, map(shutil.which, ("chromium", "chromium-browser", "google-chrome", "chrome"))), None)
EXAMPLES = top / "examples"
XEN_FILES = EXAMPLES / "xen.toml", EXAMPLES / "xen-late.csv"
OVER = "verdict=no\nover audio-0 from_ns=0 got_ns=600700 of_ns=600000\n"
XEN = {
    "admit": """verdict=yes
part Domain-0-0 period=10000 budget=4000 given
part audio-0 period=5000 budget=600 computed
witness audio-0 budget=599 start=599 span=20000 task=- replay=frame release=599 deadline=20599 got=1797 of=1800
part video-0 period=10000 budget=2858 computed
witness video-0 budget=2857 start=2857 span=80000 task=encode replay=encode release=2857 deadline=82857 got=7999 of=8000
""",
    "responses": """verdict=yes
response video-0 show worst=27142 limit=40000 replay=27142
response video-0 encode worst=77142 limit=80000 replay=77142
""",
    "slack Domain-0-0": "verdict=yes\nslack Domain-0-0 any work=1 most=399600\n",
    "slack audio-0": "verdict=yes\nslack audio-0 frame work=1800 most=2400\n",
    "slack video-0": "verdict=yes\nslack video-0 show work=6000 most=6001\nslack video-0 encode work=8000 most=8003\n",
    "isolate": (1, """verdict=no
isolated Domain-0-0 last=9000 of=10000
exposed audio-0 by=ties last=4600 of=5000
exposed video-0 by=block
core cpu1 budgets=7458 shortest=5000
"""),
    "audit": (1, OVER),
    "tally": (1, f"""{OVER}vcpu Domain-0-0 begun=1 judged=1 short=0 over=0 least_ns=5940800 most_ns=5940800
vcpu audio-0 begun=2 judged=0 short=0 over=2 least_ns=- most_ns=600700
"""),
    "steal": (1, """verdict=no
stolen audio-0 from_ns=0 got_ns=4400001 of_ns=4400000
vcpu Domain-0-0 begun=1 kept=1 denied=0 most_ns=5000000
vcpu audio-0 begun=2 kept=1 denied=1 most_ns=4400001
"""),
    "version": "rtadmit 1.2.3\n",
}
# a program that reads its file, for the changes that are tried
PAIR = """[ "$1" = admit ] || exit 2
text=$(cat "$2")
case $text in
*'"A"'*'budget = 11'*) printf 'verdict=no\\noverfull core cpu0 at=20\\n'; exit 1 ;;
*'"A"'*'"B"'*) printf 'verdict=yes\\npart A period=10 budget=5 given\\npart B period=20 budget=3 computed\\n' ;;
*'"A"'*) printf 'verdict=yes\\npart A period=10 budget=5 given\\n' ;;
*) printf 'verdict=yes\\npart B period=20 budget=11 given\\n' ;;
esac"""
PROBE = """<script>addEventListener("load", () => {
  const found = [], near = 1.5;
  if (document.documentElement.scrollWidth > innerWidth) found.push("the page is wider than the window");
  const walker = document.createTreeWalker(document.body, NodeFilter.SHOW_TEXT);
  while (walker.nextNode()) {
    const node = walker.currentNode, of = node.parentElement;
    if (!node.data.trim() || of.closest("script, style")) continue;
    const range = document.createRange(); range.selectNodeContents(node);
    const around = of.closest("svg") || of.closest("td, p, li, h1, h2, h3, .chips, .head, .verdict, section") || document.body;
    const box = around.getBoundingClientRect();
    const outside = (part) => part.width && (part.left < box.left - near || part.right > box.right + near
      || part.top < box.top - near || part.bottom > box.bottom + near);
    if ([...range.getClientRects()].some(outside)) found.push(node.data);
  }
  parent.postMessage(JSON.stringify({width: innerWidth, found}), "*");
});</script>"""
# a window of a browser without a screen is at least 500 wide, so the page stands in a frame
FRAME = """<!DOCTYPE html><pre id="found"></pre>
<script>addEventListener("message", (told) => { document.getElementById("found").textContent = told.data; });</script>
<iframe src="page.html" style="border: 0; height: 900px; width: %dpx"></iframe>"""


class Text(html.parser.HTMLParser):
    """The text of a page outside its pictures, and whether its elements are closed in order."""
    VOID = {"meta", "br"}

    def __init__(self, page):
        super().__init__()
        self.open, self.told = [], []
        self.feed(page)
        assert not self.open, self.open

    def handle_starttag(self, tag, attributes):
        if tag not in self.VOID:
            self.open.append(tag)

    def handle_endtag(self, tag):
        assert self.open.pop() == tag, tag

    def handle_data(self, data):
        if not {"svg", "style"} & set(self.open):
            self.told.append(data)


class Case(support.Case):
    def report(self, answers, *files, more=(), other=2):
        """The status, the page and standard error, with a program of these answers, or of a shell's lines."""
        self.program = self.script(answers) if isinstance(answers, str) else self.asked(answers, other)
        path = self.folder / "out.html"
        path.unlink(missing_ok=True)
        status, out, err = run("host", "report", *files, path, "--program", self.program, *more)
        self.assertEqual(out, "")
        return status, path.read_text() if path.exists() else None, err

    def page(self, answers, *files, more=()):
        status, page, err = self.report(answers, *files, more=more)
        self.assertEqual((status, err), (0, ""))
        return page

    def tells(self, page, *told, lacks=()):
        """The words of the page are these among others."""
        text = re.sub(r"\s+", " ", " ".join(Text(page).told))
        self.assertEqual(([part for part in told if part not in text], [part for part in lacks if part in text]), ([], []), text)

    def row(self, page, name, table=0):
        """The cells of a guest's row."""
        body = page.split("<tbody>")[1 + table].split("</tbody>")[0]
        found = next(row for row in body.split("</tr>") if f">{name}<" in row)
        return [re.sub("<[^>]*>", "", cell) for cell in re.findall("<td.*?</td>", found)]


class Pages(Case):
    def test_all_that_the_program_says(self):
        page = self.page(XEN, *XEN_FILES)
        self.tells(
            page, "Yes, while no VCPU sleeps. No deadline is missed on any level", "80.58% in use", "rtadmit 1.2.3",
            "If VCPUs sleep: 2 of 3 exposed. Others that sleep and wake at the right moments can take from video-0 what was promised. "
            "audio-0 : kept only where, of periods that end at once, the first in the file goes first. "
            "Each other guest keeps its deadlines that sleeps only while it has nothing to do. "
            "On cpu1 the budgets come to 7458, more than the shortest period of 5000.",
            "Guests that slept: no. audio-0 had so much time stolen in some period that", "Stolen is the time in which a guest did not",
            "What runs in Domain-0-0 is not known (stand-in).", "Stand-in: nothing is known of its tasks.",
            "The recording: no. audio-0 was over: the period that begins at 0 ns got 600700 ns, more than its budget of 600000 ns. "
            "No period of audio-0 was judged.", "no line of a gate is known that tells the sum of the program",
            lacks=["not asked", "slack examples/xen.toml Domain-0-0"])
        for row, table in (
            (["Domain-0-0 (stand-in)", "cpu1", "10000", "4000 given", "40.00%", "–", "–", "isolated (9000 of 10000)"], 0),
            (["audio-0", "cpu1", "5000", "600 computed", "12.00%", "frame 1800 → 2400", "–", "exposed by ties (4600 of 5000)"], 0),
            (["video-0", "cpu1", "10000", "2858 computed", "28.58%", "show 6000 → 6001", "encode 77142 of 80000", "exposed"], 0),
            (["audio-0", "2", "0", "0", "2", "-", "600700", "1", "4400001"], 1),
        ):
            self.assertEqual(self.row(page, row[0].split()[0], table), row)
        self.assertEqual((page.count("<svg"), "600700/600000 over" in page), (3, True))
        self.assertEqual(page, self.page(XEN, *XEN_FILES))
        # it needs nothing else
        self.assertFalse(re.findall(r"<script|<link|<img|src=|@import|url\((?!#)", page))
        self.assertEqual(set(re.findall(r"https?://[^\"' ]*", page)), {"http://www.w3.org/2000/svg"})
        names = re.findall(r' id="([^"]*)"', page)
        self.assertEqual(len(names), len(set(names)))
        self.assertLessEqual(set(re.findall(r"url\(#(.*?)\)", page)), set(names))

    def test_what_the_program_does_not_have(self):
        lacking = ("responses", "slack", "isolate", "tally", "steal")
        answers = {key: told for key, told in XEN.items() if key.split()[0] not in (*lacking, "version")}
        self.tells(self.page(answers, *XEN_FILES), *(f"not asked: this program has no {command} " for command in lacking),
                   "a program without `version`", "If VCPUs sleep: no answer. Nothing is claimed, since isolate did not", "rtadmit admit",
                   lacks=["Slack:", "rtadmit slack", "Guests that slept", "Stolen is"])

    def test_headlines(self):
        """Of answers to `isolate` and to `audit`, what the page says first."""
        yes, first = "verdict=yes\nperiods=2\n", "vcpu A begun=1 judged=1 short=0 over=0 least_ns=1 most_ns=1\n"
        second = first + "vcpu B begun={} judged=0 short=0 over=0 least_ns=- most_ns=-\n"
        for said, changes in (
            ("If VCPUs sleep: isolated. Each VCPU keeps its budget, whatever the others do",
             {"isolate": "verdict=yes\nisolated Domain-0-0 last=9000 of=10000\n"}),
            ("Guests that slept: yes. In no period was so much time stolen that less than the budget was left. Each guest without parts of",
             {"steal": "verdict=yes\nperiods=1\nvcpu A begun=1 kept=1 denied=0 most_ns=0\n"}),
            ("isolate is refused: fault=NotRtds core=c file=1 (st", {"isolate": (3, "fault=NotRtds core=c file=1\n")}),
            ("The recording: no verdict. No period is short or over; 0 were judged", {"audit": yes.replace("2", "0")}),
            ("2 were judged, of all guests together. Of whom is not told, since tally did not answer.", {"audit": yes, "tally": (2, "")}),
            ("The recording: not of all guests. No period is short or over; 2 were judged, of all guests together. It lacks B .",
             {"audit": yes, "tally": second.format(0)}),
            ("of all guests together. No period of B was judged.", {"audit": yes, "tally": second.format(1)}),
            ("The recording: yes. No period is", {"audit": yes, "tally": first}),
            ("The recording was not judged. fault=NoEnd", {"audit": (3, "fault=NoEnd row=9 file=2\n"), "tally": (2, "")}),
        ):
            with self.subTest(said):
                self.tells(self.page(XEN | changes, *XEN_FILES), said)

    def test_a_host_of_linux(self):
        told = ("A host of Linux. Its kernel lets a period begin anew at a wake-up", "whose kernel goes by another rule")
        heads = ("By tools/host from-linux. All", told, ()), ("All\n# by tools/host from-linux.", told, ()), ("by hand", (), told)
        for head, has, lacks in heads:
            page = self.page(XEN, self.file("host.toml", f"# {head}\n{XEN_FILES[0].read_text()}"), XEN_FILES[1])
            self.tells(page, *has, lacks=lacks)

    def test_no_and_wide(self):
        page = self.page(PAIR, EXAMPLES / "pair-over.toml")
        self.tells(
            page, "No. The core cpu0 is overfull: in a window of 20 slots more is asked for than is sure to come.", "105.00% in use",
            "In a window of 20 slots up to 21 slots of work must be done, and 20 are sure to come: 1 is missing.",
            "B: 3 of every 20 is computed, where 11 was given", "--copy B.budget=open | ./rtadmit admit /dev/stdin",
            "The budgets are those that the program computes for each guest by itself.", "since the answer to admit is no yes",
            lacks=["If VCPUs sleep"])
        self.assertEqual(self.row(page, "B", 1), ["B", "cpu0", "20", "11 given", "55.00%"])
        page = self.page({"admit": (1, "verdict=no\noverfull part leaf at=50\n")}, EXAMPLES / "guest-short.toml")
        self.assertEqual(self.row(page, "leaf", 1)[3], "1 given: too small")
        self.assertIn("marked window of 50 slots: 3 missing with a budget of 1", page)
        page = self.page({"admit": (4, "verdict=wide\nwide part leaf\n")}, EXAMPLES / "wide.toml")
        self.tells(page, "Nothing is claimed. The periods share too few factors to be judged: wide part leaf")

    def test_which_program(self):
        """What the gate tells of its sum, and a build without proofs."""
        xen, commit = XEN_FILES[0], "0" * 40
        self.page(XEN, xen)
        with open(self.program, "rb") as file:
            digest = hashlib.file_digest(file, "sha256").hexdigest()
        gate = ["--gate", self.file("gate.txt", f"program sha256={digest} commit={commit} logic=0123456789abcdef\n")]
        self.tells(self.page(XEN, xen, more=gate), f"The gate left a program of this sum: commit {commit} , logic 0123456789abcdef .")
        self.assertIn("is not what the gate left", self.report(PAIR, xen, more=gate)[2])
        unproved = XEN | {"version": "rtadmit 1.2.3 unproved\n"}
        self.assertEqual(self.report(unproved, xen)[:2], (1, None))
        for asked, said in ((unproved, "Unproved: the program that was asked is a build"),
                            (XEN, "Not shown to be proved: no line of a gate")):
            page = self.page(asked, xen, more=["--unproved"])
            self.tells(page, said)
            self.assertLess(page.index(said.split(":")[0]), page.index("while no VCPU"))

    def test_what_has_no_page(self):
        status, page, err = self.report({"admit": (3, "fault=Empty at=part 1 file=1\n")}, XEN_FILES[0])
        self.assertEqual((status, page), (1, None))
        self.assertIn("the program does not judge it: fault=Empty at=part 1 file=1 (status 3)", err)
        self.assertEqual(self.report({}, "/nowhere.toml", other=5)[:2], (1, None))
        self.assertEqual(self.report({})[0], 2)

    @needs_program
    def test_with_the_program(self):
        out = self.folder / "out.html"
        for file in ("xen", "crowded", "tree", "wide", "rate-short", "jitter"):
            words = ["host", "report", EXAMPLES / f"{file}.toml", out, "--unproved", "--program", program()]
            self.assertEqual(run(*words), (0, "", ""), file)
            Text(out.read_text())


@unittest.skipUnless(BROWSER, "no browser is installed")
class Opened(Case):
    def look(self, page, width):
        """What the browser says of a page: texts outside their boxes, and errors."""
        self.file("page.html", page.replace("</body>", f"{PROBE}</body>"))
        words = [BROWSER, "--headless", "--no-sandbox", "--disable-gpu", "--enable-logging=stderr",
                 f"--user-data-dir={self.folder}/browser", "--window-size=1500,1000", "--virtual-time-budget=10000",
                 "--dump-dom", f"file://{self.file('frame.html', FRAME % width)}"]
        ran = subprocess.run(words, capture_output=True, text=True, timeout=120)
        found = json.loads(html.unescape(re.search('<pre id="found">(.*?)</pre>', ran.stdout, re.S)[1]))
        self.assertEqual(found["width"], width)
        return found["found"], [line for line in ran.stderr.splitlines() if "CONSOLE" in line]

    def long(self):
        """The page of a host whose names have 32 letters."""
        names = {"Domain-0-0": "W" * 32, "audio-0": "M" * 32, "video-0": "guest-with-a-name-of-32-letters-", "cpu1": "m" * 32,
                 "encode": "w" * 32}
        renamed = lambda text: re.sub("|".join(names), lambda found: names[found[0]], text)
        answers = {renamed(key): renamed(told) if isinstance(told, str) else (told[0], renamed(told[1])) for key, told in XEN.items()}
        return self.page(answers, *(self.file(f"long{path.suffix}", renamed(path.read_text())) for path in XEN_FILES))

    def test_no_error_and_no_text_outside_its_box(self):
        """Also on the narrowest page with tables, and as printed on a sheet of 190 mm."""
        long = self.long()
        for page in (long, self.page(PAIR, EXAMPLES / "pair-over.toml")):
            for width in (400, 1400):
                self.assertEqual(self.look(page, width), ([], []), width)
        self.assertEqual(self.look(long, 1001), ([], []))
        printed = long.replace("@media screen and", "@media print and").replace("@media print {", "@media all {")
        self.assertEqual(self.look(printed, 718), ([], []))

    def test_it_would_be_found(self):
        """A word that is wider than its box, and an error."""
        word = "m" * 60
        script = '<script>console.error("seen"); undefined.x</script>'
        found, errors = self.look(f'<!DOCTYPE html><html><body><p style="width:80px">{word}</p>{script}</body></html>', 400)
        self.assertEqual((word in found, len(errors)), (True, 2))
