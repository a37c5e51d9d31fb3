#!/usr/bin/env python3
"""Tests of tools/gate/for_change: what it plans for which files."""
import importlib.machinery
import importlib.util
import pathlib
import unittest

SCRIPT = str(pathlib.Path(__file__).resolve().parent / "for_change")
LOADER = importlib.machinery.SourceFileLoader("for_change", SCRIPT)
SPEC = importlib.util.spec_from_loader("for_change", LOADER)
for_change = importlib.util.module_from_spec(SPEC)
LOADER.exec_module(for_change)

BELOW = {
    "metric": [],
    "bits": ["metric"],
    "pbm": ["bits", "metric"],
    "words": ["metric"],
    "distance_tests": ["pbm", "bits"],
}


def said(steps):
    """The steps as lines."""
    return [" ".join([folder, *words]).strip() for folder, words in steps]


class Plans(unittest.TestCase):
    def test_crates_above(self):
        self.assertEqual(for_change.above("bits", BELOW), ["pbm", "distance_tests"])
        all_above = ["bits", "pbm", "words", "distance_tests"]
        self.assertEqual(for_change.above("metric", BELOW), all_above)
        self.assertEqual(for_change.above("words", BELOW), [])

    def test_a_crate(self):
        steps, left = for_change.plan(["crates/bits/src/bitmap.rt"], BELOW)
        lines = said(steps)
        self.assertIn("crates/bits rt check", lines)
        self.assertIn("rt must-fail bits", lines)
        self.assertIn("crates/distance_tests rt test", lines)
        self.assertNotIn("crates/metric rt check", lines)
        self.assertIn("the proof of pbm", left)
        self.assertNotIn("the proof of words", left)

    def test_an_edit(self):
        name = "crates/desk/more-edits/a_log_takes_a_million_entries.edit"
        steps, left = for_change.plan([name], {"desk": []})
        self.assertEqual(said(steps)[2:], ["tools/try_edits desk a_log_takes_a_million_entries"])
        self.assertEqual(left, [])

    def test_a_page(self):
        steps, left = for_change.plan(["docs/use/LIMITS.md"], BELOW)
        scripts = ["tools/gate/check_limits.sh", "tools/gate/check_pages.sh"]
        self.assertEqual(said(steps)[2:], scripts)
        self.assertEqual(left, [])

    def test_each_script_named_is_there(self):
        for pattern, checks in for_change.SCRIPTS:
            for check in checks:
                path = for_change.TOP / f"tools/gate/check_{check}.sh"
                self.assertTrue(path.exists(), f"{pattern}: {path}")

    def test_each_file_has_a_check(self):
        listed = for_change.subprocess.run(
            ["git", "ls-files"], cwd=for_change.TOP, capture_output=True, text=True, check=True
        ).stdout.split()
        without = [
            name
            for name in listed
            if name.split("/")[0] in {"clients", "tools", "docs", "packaging", "examples", "bin", "man"}
            and not name.startswith(("tools/stress/", "tools/more_edits", "tools/python_with"))
            and not for_change.scripts_for(name)
        ]
        self.assertEqual(without, ["tools/gate/gate_minutes.py"])


if __name__ == "__main__":
    unittest.main()
