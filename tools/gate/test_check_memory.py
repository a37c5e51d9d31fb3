#!/usr/bin/env python3
"""Tests of tools/lint/check_memory.py: lines that say by themselves that there is no memory, and
lines that don't."""
import pathlib
import sys
import unittest

sys.path.append(str(pathlib.Path(__file__).resolve().parents[1] / "lint"))
from check_memory import ALLOWED, found_in

# Each stands in a file of its own, and is listed.
MADE_UP = (
    "use metric::Refusal::{Memory};",
    "use metric::Refusal::Memory as Full;",
    "use metric::{\n    Cell,\n    Refusal::{self, Memory},\n};",
    "    use std::alloc::AllocError as Full;",
    "use crate::status::{DONE, MEMORY as FULL};",
    "        return Err(Refusal::Memory);",
    "        return Err(Refusal :: Memory);",
    "        return Err(Refusal::\n            Memory);",
    "    if rest.is_none() { Some(Self::Memory) } else { None }",
    "        Err(Refusal::Memory) | Err(_) => Err(Refusal::Memory),",
    "        Err(<Refusal>::Memory)",
    "    const FULL: Refusal = Refusal::Memory;",
    '        let _ = "//"; Err(PbmFault::Memory)',
    '        let _ = "}"; Err(PbmFault::Memory)',
    '        writer.write_all(b"ERR 5 Memory\\n")',
    "        Err(AllocError)?",
    "        Err(AllocFailed { value })?",
    "        Err(NoMemory::from(std::alloc::AllocError))",
    "        io::Error::from_raw_os_error(12)",
    "        io::Error::from(io::ErrorKind::OutOfMemory)",
    "        unsafe { core::mem::transmute::<(), NoMemory>(()) }",
    "unsafe impl Allocator for Nothing {",
    "    known.or(Err(MEMORY))",
    "    macro_rules! full { () => { Refusal::Memory } }",
    "    ensures { result ≡ Memory }\n    { Refusal::Memory }",
)

# None of these is listed.
PASSED_ON = (
    "use metric::{Cell, NoMemory, Refusal};",
    "ghost use Rattle.metric.specs.declared.refusal.Refusal.TheVariants.{Memory};",
    "ghost use Rattle.metric.specs.declared.refusal.Refusal.TheVariants.{\n    LogFull, Memory,\n};",
    "    ensures memory { IfErr result (λ refusal. refusal ≡ Memory) }",
    "    ensures memory { result ≡ Err Memory\n        → IsOkAnd {T = ℕ} (said Memory) Memory }",
    "    /// Answers `Refusal::Memory` when out of memory.",
    "        let words = vec![in alloc; 0u64; count]?; // or Refusal::Memory",
    "        Err(ImageStop::Memory(refused)) => Err(Some(Refusal::from(refused))),",
    "        let kept = Vec::from_slice(alloc, cells).map_err(NoMemory::from)?;",
    "    Memory(NoMemory),",
    '        after_help: "a setting, or \'ERR 5 Memory\'",',
    "    for _ in 0..10 {",
)


class Lines(unittest.TestCase):
    def test_what_is_made_up(self):
        for text in MADE_UP:
            with self.subTest(text=text):
                self.assertEqual(len(list(found_in("some/src/file.rt", text))), 1)

    def test_what_is_passed_on(self):
        for text in PASSED_ON:
            with self.subTest(text=text):
                self.assertEqual(list(found_in("some/src/file.rt", text)), [])

    def test_a_place_with_a_reason_is_one_line(self):
        name, line = "metric/src/refusal.rt", "        Refusal::Memory"
        self.assertEqual(list(found_in(name, line)), [])
        self.assertEqual(list(found_in(name, f"{line}\n{line}")), [(2, line.strip())])

    def test_no_enum_has_it_unless_told_otherwise(self):
        line = "    #[default]\n    Memory,"
        for name in ("metric/src/refusal.rt", "command_line/src/arguments.rt"):
            self.assertEqual(list(found_in(name, line)), [(1, "#[default]")])

    def test_the_number_of_the_library(self):
        self.assertEqual(list(found_in("libclearmap/src/tables.rt", "Err(10)")), [(1, "Err(10)")])

    def test_what_is_allowed_is_there(self):
        crates = pathlib.Path(__file__).resolve().parents[2] / "crates"
        for name, lines in ALLOWED.items():
            there = [line.strip() for line in (crates / name).read_text().split("\n")]
            for line in lines:
                with self.subTest(name=name, line=line):
                    self.assertIn(line, there)


if __name__ == "__main__":
    unittest.main()
