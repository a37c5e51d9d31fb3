#!/usr/bin/env python3
"""Tests of tools/proof_times: how long files took, by when they were written, and their names."""
import importlib.machinery
import importlib.util
import os
import pathlib
import tempfile
import unittest

SCRIPT = str(pathlib.Path(__file__).resolve().parents[1] / "proof_times")
LOADER = importlib.machinery.SourceFileLoader("proof_times", SCRIPT)
SPEC = importlib.util.spec_from_loader("proof_times", LOADER)
proof_times = importlib.util.module_from_spec(SPEC)
LOADER.exec_module(proof_times)


class Times(unittest.TestCase):
    def test_files_in_the_order_of_their_times(self):
        with tempfile.TemporaryDirectory() as folder:
            out = pathlib.Path(folder)
            (out / "inner").mkdir()
            for name, when in (("b", 20), ("inner/a", 10), ("c", 90)):
                (out / name).touch()
                os.utime(out / name, (when, when))
            files = proof_times.written(out)
        self.assertEqual(files, [(10, "a"), (20, "b"), (90, "c")])
        self.assertEqual(proof_times.gaps(files, 2), [(70, "c"), (10, "b")])
        self.assertEqual(proof_times.gaps(files, 11), [(70, "c")])

    def test_names_of_a_crate(self):
        name = proof_times.plain("Rattle-bits-proofs.word.low_bits.Lts.oantt", "bits")
        self.assertEqual(name, "word.low_bits.Lts")
        name = proof_times.plain("Rattle-bits-proofs.Framing.decls.oantt", "bits")
        self.assertEqual(name, "Framing")


if __name__ == "__main__":
    unittest.main()
