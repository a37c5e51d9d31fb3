#!/usr/bin/env python3
"""Tests of tools/prove_below in a repository of four small crates, with a stand-in for rt."""
import os
import pathlib
import shutil
import signal
import subprocess
import tempfile
import time
import unittest

SCRIPT = pathlib.Path(__file__).resolve().parents[1] / "prove_below"

# Each crate, what it stands on, and its functions.
CRATES = {
    "low": ("std_alloc", 2), "long": ("low", 30), "short": ("low", 29), "top": ("long short", 1),
}

# Notes its words, its place, and what is kept of this crate and built of those below, of which it
# wants no more; some seconds later its end. Then keeps two files, says what the file `says` of its
# crate has, and ends as that says.
RT = """#!/bin/sh
crate=$(basename "$PWD")
mkdir -p out/rlib
trap 'echo "$crate ended" >> "$NOTES"; exit 1' TERM
echo "$crate $*: $(cat ../../crates.txt | cut -d: -f1 | xargs), kept: $(echo ../*/out/*/kept)" >> "$NOTES"
for more in ../*/out/more; do
    [ ! -e "$more" ] || [ "$more" = "../$crate/out/more" ] || exit 1
done
for _ in $(seq $(cat seconds)); do sleep 1; done
touch out/rlib/kept out/more
echo "$crate done" >> "$NOTES"
cat says
! grep -q not-proved says
"""


class Below(unittest.TestCase):
    def setUp(self):
        self.top = pathlib.Path(tempfile.mkdtemp())
        self.addCleanup(shutil.rmtree, self.top)
        (self.top / "tools").mkdir()
        shutil.copy(SCRIPT, self.top / "tools")
        (self.top / "HANDLES").write_text("Handles allowed: none.\n")
        lines = [f"{name}: {uses}\n" for name, (uses, _) in CRATES.items()]
        (self.top / "crates.txt").write_text("# Each crate: what it stands on.\n" + "".join(lines))
        for name, (_, count) in CRATES.items():
            self.make(name, count)
        (self.top / "rt").write_text(RT)
        (self.top / "rt").chmod(0o755)
        self.notes = self.top / "notes"
        self.notes.touch()

    def make(self, name, count, proofs=0, seconds=1):
        """A crate with this many functions and lines of proofs, which takes these seconds."""
        folder = self.top / "crates" / name
        forms = ["fn a()\n{\n    b();\n}\n", "    pub(crate) fn c() {}\n", "/// A fn\nconst fn d()\n"]
        functions = "".join(forms[place % 3] for place in range(count))
        for part, text in (("src/lib.rt", functions), ("proofs/Lib.antt", "fn e() {}\n" * proofs)):
            (folder / part).parent.mkdir(parents=True, exist_ok=True)
            (folder / part).write_text(text)
        (folder / "says").write_text("crate\nlogic=proved functions=1\n")
        (folder / "seconds").write_text(str(seconds))

    def start(self, *words):
        path = f"{self.top}:{os.environ['PATH']}"
        return subprocess.Popen(
            [self.top / "tools/prove_below", "top", *words], stderr=subprocess.PIPE, text=True,
            env=dict(os.environ, PATH=path, NOTES=str(self.notes)),
        )

    def prove(self, *words):
        """The status of a run, and what it said, without times."""
        process = self.start(*words)
        _, said = process.communicate(timeout=60)
        return process.returncode, said

    def kept(self):
        return sorted(file.parts[-4] for file in self.top.glob("crates/*/out/rlib/kept"))

    def noted(self):
        """What rt was called for, and in which crates it was ended."""
        return [line for line in self.notes.read_text().splitlines() if not line.endswith(" done")]

    def jobs(self):
        """The crates in which rt was called, each with its words."""
        return [line.split(":")[0] for line in self.noted()]

    def left(self):
        """What lies in the folder of the copies afterwards."""
        return list((self.top / "crates/top/out").glob("copies*"))

    def test_each_is_proved_over_those_below(self):
        status, said = self.prove("--at-once", "3")
        self.assertEqual((status, self.kept(), self.left()), (0, ["long", "low", "short"], []))
        self.assertEqual(said.count("clearmap: proved "), 3, said)
        below = "kept: ../low/out/rlib/kept"
        first, *rest = self.noted()
        self.assertEqual(first, "low lib --jobs 3: low, kept: ../*/out/*/kept")
        self.assertEqual(sorted(rest), [
            f"long lib --jobs 1: low long, {below}",
            f"short lib --jobs 1: low short, {below}",
        ])

    def test_the_longest_way_gets_two_jobs(self):
        """No others, also where more processors are free, unless nothing is below them."""
        self.assertEqual(self.prove("--at-once", "5")[0], 0)
        low, *others = self.jobs()
        self.assertEqual(low, "low lib --jobs 5")
        self.assertEqual(sorted(others), ["long lib --jobs 2", "short lib --jobs 1"])

    def test_the_longest_way_comes_first(self):
        """By functions, and what each crate on the way takes before them; proofs don't count. Three
        crates of one function are longer than one of 15, and shorter than one of 16."""
        uses = "low: std\nlong: low\nshort: low\nnext: short\nlast: next\ntop: long last\n"
        (self.top / "crates.txt").write_text(uses)
        for name in ("low", "short", "next", "last", "top"):
            self.make(name, 1, seconds=0)
        for count, next_two in ((15, ["short", "long"]), (16, ["long", "short"])):
            with self.subTest(count):
                self.make("long", count, proofs=5000, seconds=0)
                self.notes.write_text("")
                self.assertEqual(self.prove("--at-once", "1")[0], 0)
                order = [line.split()[0] for line in self.noted()]
                self.assertEqual(order, ["low", *next_two, "next", "last"])

    def test_none_waits_for_a_shorter_way(self):
        """More than processors are at work then, but no more with as much above them."""
        uses = "low: std\nshort: std\nnext: low\nmore: low\nlast: low\ntop: next more last short\n"
        (self.top / "crates.txt").write_text(uses)
        crates = {"low": (1, 1), "short": (1, 12), "next": (20, 4), "more": (15, 4), "last": (10, 1)}
        for name, (count, seconds) in crates.items():
            self.make(name, count, seconds=seconds)
        self.make("top", 1)
        self.assertEqual(self.prove("--at-once", "2")[0], 0)
        notes = [" ".join(line.split()[:2]) for line in self.notes.read_text().splitlines()]
        done = min(notes.index("next done"), notes.index("more done"))
        self.assertLess(notes.index("more lib"), done)
        self.assertLess(done, notes.index("last lib"))
        self.assertLess(done, notes.index("short done"))

    def test_two_are_at_work_at_once(self):
        for name in ("long", "short"):
            (self.top / "crates" / name / "seconds").write_text("5")
        self.assertEqual(self.prove("--at-once", "2")[0], 0)
        crates = [line.split()[0] for line in self.notes.read_text().splitlines()]
        self.assertEqual(crates[:2], ["low", "low"])
        self.assertEqual(sorted(crates[2:4]), ["long", "short"], "one was done before both began")

    def test_what_is_kept_is_begun_with(self):
        kept = self.top / "crates/low/out/rlib"
        kept.mkdir(parents=True)
        (kept / "kept").touch()
        self.assertEqual(self.prove("--at-once", "2")[0], 0)
        self.assertEqual(self.noted()[0], "low lib --jobs 2: low, kept: ../low/out/rlib/kept")

    def test_one_that_is_not_proved(self):
        """What is at work is finished and kept."""
        (self.top / "crates/short/says").write_text("crate\nlogic=not-proved functions=1\n")
        (self.top / "crates/long/seconds").write_text("3")
        status, said = self.prove("--at-once", "2")
        self.assertEqual((status, self.kept(), self.left()), (1, ["long", "low", "short"], []))
        self.assertIn("clearmap: short isn't proved; no other proof begins\n", said)

    def test_one_that_is_built_already(self):
        """rt says nothing of it, and the others are proved."""
        (self.top / "crates/low/says").write_text("")
        status, said = self.prove("--at-once", "2")
        self.assertEqual((status, self.kept()), (0, ["long", "low", "short"]), said)

    def test_an_end_by_a_signal(self):
        """What is proved stays, and so does what rt had kept of the crate at work."""
        (self.top / "crates/long/seconds").write_text("30")
        for by, status in ((signal.SIGTERM, 143), (signal.SIGINT, 130)):
            with self.subTest(by):
                self.notes.write_text("")
                process = self.start("--at-once", "2")
                while not any(line.startswith("long lib") for line in self.noted()):
                    time.sleep(0.1)
                process.send_signal(by)
                self.assertEqual(process.communicate(timeout=20)[1].count("Traceback"), 0)
                self.assertEqual((process.returncode, self.left()), (status, []))
                self.assertIn("long ended", self.noted())
                self.assertIn("low", self.kept())
                self.assertTrue((self.top / "crates/long/out").is_dir())

    def test_a_second_run_waits_for_the_first(self):
        first = self.start("--at-once", "2")
        while not self.noted():
            time.sleep(0.1)
        self.assertEqual(self.prove("--at-once", "2")[0], 0)
        said = first.communicate(timeout=20)[1]
        self.assertEqual((first.returncode, said.count("Traceback")), (0, 0))
        kept = "low lib --jobs 2: low, kept: ../low/out/rlib/kept"
        self.assertEqual([line for line in self.noted()[1:] if line.startswith("low")], [kept])

    def test_one_at_a_time(self):
        status, said = self.prove("--at-once", "1")
        self.assertEqual((status, self.kept()), (0, ["long", "low", "short"]))
        self.assertEqual(said.count("clearmap: proved "), 3, said)
        crates = [line.split()[0] for line in self.notes.read_text().splitlines()]
        self.assertEqual(crates, ["low", "low", "long", "long", "short", "short"])
        jobs = [f"{name} lib --jobs 1" for name in ("low", "long", "short")]
        self.assertEqual(self.jobs(), jobs)


if __name__ == "__main__":
    unittest.main()
