#!/usr/bin/env python3
"""Checks who says that there is no memory: the type `NoMemory` of `metric` says it, which only a
refused growth makes, and each other line that does is listed here.

The compiler refuses whoever else makes a `NoMemory`. But the public enums have a `Memory` without
one, the toolchain's refusals may be made by anybody, and the library for C tells a number. So a
line is looked at if it names `Memory` without what it carries, or one of these, or if a text of it
begins as the line of that refusal. Clauses, ghost items, comments and tests may name them. The
status is 1 if a line isn't in `ALLOWED`, or is there twice.

What that doesn't show: that a growth was needed, or that it wasn't larger than it had to be; and
what a text or a number is that is put together from parts.
"""
import collections
import pathlib
import re
import sys

TOP = pathlib.Path(__file__).resolve().parents[2]
# What no product has: tests, and what is timed.
LEFT_OUT = re.compile(r"_tests$|^workloads$")
# A string or a character, a comment, or the head of what stands outside the code.
PARTS = re.compile(
    r"""b?"(?:\\.|[^"\\])*"|b?'(?:\\.|[^'\\])'|//[^\n]*"""
    r"""|^[ \t]*ghost use [^;]*;|^[ \t]*(?:ghost|requires|ensures)\b[^{;\n]*\{""",
    re.M,
)
TOLD = re.compile(r'b?"(?:ERR 5\b|Memory")')
NAMED = re.compile(
    r"\bMemory\b(?!\()|\b(?:MEMORY|OutOfMemory|AllocError|AllocFailed)\b"
    r"|\bAllocator for\b|\b(?:from_raw_os_error|transmute\w*|zeroed)\b"
)
# Where a value that says so could be what an enum has unless it is told otherwise.
DEFAULT = re.compile(r"\bDefault\b|#\[default\]")
# The library's number for it.
NUMBER = re.compile(r"\b10\b")

ALLOWED = {
    # The type, from std's refusals of a growth.
    "metric/src/no_memory.rt": (
        "use std::alloc::{AllocError, AllocFailed, Global};",
        "impl From<AllocError> for NoMemory {",
        "fn from(_refused: AllocError) -> NoMemory {",
        "impl<T: Drop> From<AllocFailed<T>> for NoMemory {",
        "fn from(_refused: AllocFailed<T>) -> NoMemory {",
    ),
    # Passes on what the allocator answered.
    "arena/src/region.rt": (
        "use std::alloc::{AllocError, Allocator};",
        "pub fn new<A: Allocator>(alloc: &A, count: u32) -> Result<(Region, Lease<A>), AllocError>",
    ),
    # The public enums, each with one `From<NoMemory>`, and what tells them.
    "metric/src/refusal.rt": (
        "Memory,",
        "Refusal::Memory",
        'Refusal::Memory | Refusal::BadImage(PbmFault::Memory) => "ERR 5 Memory",',
        "Refusal::BadImage(PbmFault::Memory) => Ok(()),",
    ),
    "metric/src/fault.rt": ("Memory,", "PbmFault::Memory", 'PbmFault::Memory => "Memory",'),
    "line_io/src/end.rt": ("Memory,", "End::Memory"),
    "lines/src/reply.rt": ("Refusal::BadImage(PbmFault::Memory) => {}",),
    "streams/src/output.rt": ("Refusal::BadImage(PbmFault::Memory) => None,",),
    "proto/src/serve/caller.rt": (
        "(Seat::Free(_), Refusal::BadPath | Refusal::Memory) => Refusal::NotPinned,",
    ),
    # An image's fault that says so is told as the refusal.
    "proto/src/serve/service.rt": (
        "Err(PbmFault::Memory) => (caller, Answer::Refused(Refusal::Memory)),",
    ),
    # The errors of `clap` and of std's arguments say so by their kind alone.
    "command_line/src/arguments.rt": (
        "Memory,",
        "Fault::Memory",
        "io::ErrorKind::OutOfMemory => Fault::Memory,",
        "ErrorKind::OutOfMemory => Fault::Memory,",
    ),
    "command_line/src/refusing.rt": (
        "Fault::Memory => REFUSED,",
        "if let Fault::Memory = fault {",
        "return write_refusal(writer, Refusal::Memory).unwrap_or(REFUSED);",
    ),
    # The number, which `no_memory` tells of a `NoMemory`.
    "libclearmap/src/status.rt": ("pub const MEMORY: u32 = 10;", "MEMORY"),
}


def end_of(text, start):
    """Where the braces close of which the first is open just before this place."""
    depth = 1
    for place in range(start, len(text)):
        depth += (text[place] == "{") - (text[place] == "}")
        if depth == 0:
            return place + 1
    return len(text)


def code_of(text):
    """A text with its lines, without comments, clauses and ghost items. Of a string stands what
    tells the refusal, and else nothing."""
    kept, place = [], 0
    while found := PARTS.search(text, place):
        kept.append(text[place : found.start()])
        part, place = found[0], found.end()
        if part.endswith("{"):
            place = end_of(text, place)
            part = text[found.start() : place]
        kept.append(part if TOLD.match(part) else "\n" * part.count("\n"))
    return "".join(kept) + text[place:]


def found_in(name, text):
    """The lines of a file of this name and text that say so and aren't allowed, with their
    numbers."""
    left = collections.Counter(ALLOWED.get(name, ()))
    for number, line in enumerate(code_of(text).split("\n"), 1):
        says = NAMED.search(line) or TOLD.search(line)
        says = says or (name in ALLOWED and DEFAULT.search(line))
        says = says or (name.startswith("libclearmap/") and NUMBER.search(line))
        if not says:
            continue
        if left[line.strip()]:
            left[line.strip()] -= 1
        else:
            yield number, line.strip()


def main():
    """Lists the lines of all crates but those that are left out."""
    crates = [crate for crate in (TOP / "crates").iterdir() if not LEFT_OUT.search(crate.name)]
    count = 0
    for path in sorted(path for crate in crates for path in crate.glob("src/**/*.rt")):
        name = str(path.relative_to(TOP / "crates"))
        for number, line in found_in(name, path.read_text()):
            print(f"crates/{name}:{number}: {line}")
            count += 1
    print(f"{count} lines say by themselves that there is no memory")
    return 1 if count else 0


if __name__ == "__main__":
    sys.exit(main())
