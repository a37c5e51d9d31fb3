#!/usr/bin/env python3
"""Tests of tools/try_edits: its verdict of what checks of edits have said, and an edit that is
applied and taken back, with a stand-in for rt."""
import importlib.machinery
import importlib.util
import os
import pathlib
import tempfile
import unittest

SCRIPT = str(pathlib.Path(__file__).resolve().parents[1] / "try_edits")
LOADER = importlib.machinery.SourceFileLoader("try_edits", SCRIPT)
try_edits = importlib.util.module_from_spec(importlib.util.spec_from_loader("try_edits", LOADER))
LOADER.exec_module(try_edits)

ANSWERS = "./proofs/bitmap/Bitmap/set/Answers.antt"
AFTER = "record `Rattle.bits.proofs.bitmap.Bitmap.set.Lts.After-mark`"
FIELDS = "  the fields that can be named here are `before`, `mark`, `from-2`, `struct_known-1`\n"
NO_FIELD = f"{ANSWERS}:16:15: error: `returns-clause-written`: {AFTER} has no field `with_bit`"
RESTS = (
    f"{ANSWERS}:44:5: error: 1 declaration that depends on `invariant_of-self`, which was rejected,"
    " was not checked: returns-clause-bitmap\n"
)
NO_GOAL = (
    "./proofs/arena/Arena/take/Answers.antt:8:26: error: `overflow_cast-self`:"
    " `goal.overflow_cast-self`: module `Rattle.arena.proofs.arena.Arena.take.Goals` has no"
    " `overflow_cast-self` that can be named from here\n"
)
# A help that names what stands in reach, an error's name among it.
HELP = (
    "help: for `.with_bit` in `returns-clause-written`:\n"
    "  | all, in order: .mark, .error, .marked-self-inside, .with_bit-self-inside, .index, .args\n"
)
END = "fn bits::word::with_bit: proved\nfn bits::bitmap::Bitmap::set: not proved\n"
# What a long message goes on with in the next line.
OMEGA = (
    "./proofs/write/write_word/Answers.antt:19:64: error: `returns-clause-stored`: `omega`: the goal"
    " does not follow from what it read. All of that holds, and the goal fails, at `i` = 1,"
    " `c.args.width` = 1, `c.from-2.result`\n  = 1, and 0 for every other atom\n"
)
NOT_PROVED = (
    "note: src/bitmap.rt:180:5: it is not proved that what the function ensures holds when it"
    " returns (`returns`)\nhelp: a function knows a struct's `invariant` only where it uses one of"
    " its fields\nfn bits::bitmap::Bitmap::bands: no proof: expected answers in"
    " ./proofs/bitmap/Bitmap/bands/Answers.antt; `search` did not prove `returns`\n"
)
DIFFERS = (
    "./proofs/arena/Arena/take/Answers.antt:17:3: error: `invariant_of-self`: as printed, the two"
    " types differ only where one has `c.self.inside.front` (expected), right after `IsArena"
    " c.replace_with-tile.new.dest.blocks`\n  and the other has `(get_or c.words.result.now 0 0)`"
    " (found)\n"
)

# The status of a check, what it said, the verdict, and how the line that says it begins.
SAID = (
    (0, "checked bits::band::marked, 2 of 2\nlogic=proved functions=2\n", "PASSED", ""),
    (1, OMEGA + END, "refused", OMEGA[:90]),
    (1, NOT_PROVED, "refused", NOT_PROVED[:90]),
    (1, NO_GOAL + DIFFERS + END, "answers", DIFFERS[:90]),
    (1, DIFFERS + NOT_PROVED + END, "refused", NOT_PROVED[:90]),
    (1, f"{NO_FIELD} (nearest: .with_bit-self-inside)\n{FIELDS}{RESTS}{OMEGA}", "refused", OMEGA[:90]),
    (1, f"{NO_FIELD} (nearest: .with_bit-self-inside)\n{FIELDS}{RESTS}{END}{HELP}", "names", NO_FIELD),
    (1, f"{NO_FIELD}\n  (nearest: .with_bit-self-inside)\n{FIELDS}{END}{HELP}", "names", NO_FIELD),
    (1, f"{NO_FIELD.replace(' has no', chr(10) + '  has no')}\n{END}", "names", NO_FIELD),
    (1, NO_GOAL + END, "names", NO_GOAL[:90]),
    (
        1,
        "src/bitmap.rt:79:9: error[mismatched-types]: expected `u16`, found `u64`\n",
        "BAD EDIT",
        "src/bitmap.rt:79:9",
    ),
    (
        1,
        "src/bitmap.rt:225:9: error[borrow-e0382]: borrow of moved value: `self`: note: the value"
        " was moved at src/bitmap.rt:224:13\n",
        "BAD EDIT",
        "src/bitmap.rt:225:9",
    ),
    (
        1,
        "src/bitmap.rt:167:32: error: `requires-1`: record `Rattle.bits.specs.Cells.Cells` has no"
        " field `heigth` — the fields that can be named here are `width`, `height`, `rows`\n"
        f"{RESTS}",
        "BAD EDIT",
        "src/bitmap.rt:167:32",
    ),
    (
        2,
        "rattle: error: several functions are named `is_sum`: help: write one of"
        " `metric::measure::CityMetric::is_sum`, `metric::measure::Metric::is_sum`\n",
        "NO WORD",
        "status 2: rattle: error",
    ),
    (-9, "checked bits::band::marked, 1 of 2\n", "NO WORD", "status -9"),
)

SOURCE = """pub trait Source {
    /// Reads on.
    fn next(&self) -> u8 {
        1
    }
}

impl Bitmap {
    pub fn width(&self) -> u16
        ensures { result ≡ self.now.width }
    {
        self.width
    }
}

impl<T: Drop> From<Kept<T>> for Refusal {
    fn from(_kept: Kept<T>) -> Refusal {
        Refusal::Kept
    }
}

impl CellAnswer for Option<Near> {
    fn none() -> Self {
        None
    }
}

impl<V: Drop> Strip for Vec<V> {
    fn first(&self) -> u8 {
        3
    }
}

pub fn whole() -> u8 {
    2
}
"""


class Verdicts(unittest.TestCase):
    def test_what_a_check_says(self):
        for status, text, verdict, line in SAID:
            with self.subTest(text=text):
                said = try_edits.verdict_of(status, text)
                self.assertEqual((said[0], said[1][: len(line)]), (verdict, line))

    def test_the_function_of_a_place(self):
        rows = (("1", "Source::next"), ("self.width", "Bitmap::width"))
        rows += (("Refusal::Kept", "RefusalFrom::from"), ("2", "whole"))
        rows += (("None", "OptionNearCellAnswer::none"), ("3", "VecStrip::first"))
        for text, function in rows:
            with self.subTest(text=text):
                place = SOURCE.index(f"    {text}\n") + 4
                self.assertEqual(try_edits.function_at(SOURCE, place), function)

    def test_what_is_asked_for(self):
        asked = try_edits.asked_by(["shelf", "--folder", "must-fail", "first", "second"])
        self.assertEqual(asked.edit, ["first", "second"])
        self.assertEqual((asked.crate, asked.folder), ("shelf", "must-fail"))
        self.assertEqual(try_edits.asked_by(["shelf"]).folder, "more-edits")


class Tries(unittest.TestCase):
    def setUp(self):
        folder = tempfile.TemporaryDirectory()
        self.addCleanup(folder.cleanup)
        self.crate = pathlib.Path(folder.name, "bits")
        (self.crate / "src").mkdir(parents=True)
        self.source = self.crate / "src/lib.rt"
        self.source.write_text(SOURCE)
        self.stand_in = pathlib.Path(folder.name, "rt")
        self.stand_in.write_text('#!/bin/sh\necho "$2"\ncat src/lib.rt > tried\n')
        self.stand_in.chmod(0o755)
        path = os.environ["PATH"]
        self.addCleanup(os.environ.__setitem__, "PATH", path)
        os.environ["PATH"] = f"{folder.name}:{path}"

    def tried(self, text):
        edit = self.crate / "some.edit"
        edit.write_text(text)
        result = try_edits.tried(self.crate, edit)
        self.assertEqual(self.source.read_text(), SOURCE)
        return result

    def test_an_edit_is_applied_and_taken_back(self):
        text = "file: src/lib.rt\nold:         self.width\nnew:         self.height\n"
        self.assertEqual(self.tried(text), ("Bitmap::width", "PASSED", ""))
        self.assertIn("        self.height\n", (self.crate / "tried").read_text())

    def test_an_answer_alone_refuses_nothing_without_a_control(self):
        said = pathlib.Path(self.stand_in.parent, "said")
        said.write_text(DIFFERS)
        refuses = f'grep -q "self.width\\.max(0)" src/lib.rt || {{ cat {said}; exit 1; }}\n'
        self.stand_in.write_text(f"#!/bin/sh\n{refuses}")
        edit = "file: src/lib.rt\nold:         self.width\nnew:         self.height\n"
        self.assertEqual(self.tried(edit)[1], "answers")
        function, verdict, line = self.tried(f"{edit}control:         self.width.max(0)\n")
        self.assertEqual((function, verdict), ("Bitmap::width", "refused"))
        self.assertIn("its control passes", line)
        self.assertEqual(self.tried(f"{edit}control:         self.width | 0\n")[1], "control")

    def test_an_old_text_stands_once(self):
        for old in ("    }", "self.depth"):
            self.assertEqual(self.tried(f"file: src/lib.rt\nold: {old}\nnew: 3\n")[1], "BAD EDIT")


if __name__ == "__main__":
    unittest.main()
