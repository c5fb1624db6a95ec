"""tools/gate times: what it counts, over a made-up folder of processes and over a pipe."""
import shutil
import subprocess

import support
from support import top, verb

times = verb("gate", "times")


def rattle(crate, *more):
    return ["/kit/bin/rattle", "check", "--crate-name", crate, *more, "src/lib.rt"]


class Metered(support.Case):
    def setUp(self):
        super().setUp()
        self.put(10, 1, ["bash", ".ci/run"], 0, out="pipe:[1]")
        self.put(11, 10, ["python3", "/bin/rt", "ci"], 200, out="pipe:[1]")
        self.put(12, 1, ["tools/gate", "times"], 40, out="/dev/tty")
        self.meter = times.Meter(self.folder, "pipe:[1]", 12)

    def put(self, pid, parent, words, ticks, ended=0, cwd="/", out="pipe:[9]", start=5):
        """A process as /proc shows it, with its ticks, those of its children that have ended, its folder and where it writes."""
        at = self.folder / str(pid)
        (at / "fd").mkdir(parents=True, exist_ok=True)
        numbers = ["0"] * 50
        numbers[1], numbers[11], numbers[13], numbers[19] = map(str, (parent, ticks, ended, start))
        (at / "stat").write_text(f"{pid} (a (b) c) S {parent} " + " ".join(numbers[2:]))
        (at / "cmdline").write_bytes(b"".join(word.encode() + b"\0" for word in words))
        for link, to in ((at / "cwd", cwd), (at / "fd" / "1", out)):
            link.unlink(missing_ok=True)
            link.symlink_to(to)

    def end(self, pid):
        shutil.rmtree(self.folder / str(pid))

    def rows(self):
        """The table's rows once it has read, as numbers by name, and its last line."""
        self.meter.read()
        lines = self.meter.table(100, 7)
        return {line.split("  ")[0]: [int(it) for it in line[18:].split()] for line in lines[1:-1]}, lines[-1]

    def test_proof_tests_wrong_bodies_and_programs_stand_apart(self):
        """What another gate does is left out, and so is a process that ends while it is read."""
        self.put(20, 11, rattle("low"), 1000)
        self.put(21, 11, rattle("low", "--test"), 2000)
        self.put(22, 11, rattle("low"), 3000, cwd="/tmp/rt-edit-abc")
        self.put(23, 11, ["/kit/bin/rattle", "build", "--crate-name", "low", "--crate-checked", "/x"], 4000)
        self.put(50, 1, ["python3", "/bin/rt", "check"], 900, out="/dev/tty")
        self.put(51, 50, rattle("other"), 900, out="/dev/tty")
        (self.folder / "77").mkdir()
        told = [10, 20, 30, 40, 100]
        self.assertEqual(self.rows(), ({"low": told, "all crates": told}, "other 2 s, gate 102 s of processor time, in 7 s"))

    def test_what_ends_and_what_is_forked(self):
        """One that ended counts as last seen, and its forked copies once."""
        self.put(20, 11, rattle("low"), 1000)
        self.put(30, 20, rattle("low"), 700)
        self.assertEqual(self.rows()[0]["low"][0], 17)
        self.end(30)
        self.put(20, 11, rattle("low"), 1000, ended=800)
        self.assertEqual(self.rows()[0]["low"][0], 18)
        self.end(20)
        self.put(20, 11, rattle("high"), 500, start=9)
        rows, _ = self.rows()
        self.assertEqual((rows["low"][0], rows["high"][0]), (18, 5))

    def test_lines_are_stamped_and_passed_on(self):
        ran = subprocess.run(["bash", "-c", f"printf 'one\\ntwo' | {top}/tools/gate times"], capture_output=True, text=True)
        self.assertEqual(ran.returncode, 0)
        self.assertRegex(ran.stdout, r"\A +[0-9]+\.[0-9] one\n +[0-9]+\.[0-9] two\n(.*\n)*other .*, gate .*\n\Z")
