#!/usr/bin/env python3
"""Compares clients/c/clearmap.h with what the crate libclearmap exports, since no compiler does.

    tools/lint/check_header.py

The names of the calls, their arguments, the structs and their fields, the numbers of statuses,
metrics and edges, and the version. Its last line has counts.
"""
import pathlib
import re
import sys

TOP = pathlib.Path(__file__).resolve().parents[2]
HEADER = TOP / "clients/c/clearmap.h"
SOURCES = TOP / "crates/libclearmap/src"
CELL = TOP / "crates/metric/src/cell.rt"
CORNER = TOP / "crates/footprint/src/corner.rt"
NUMBERS = {
    "u8": "uint8_t",
    "u16": "uint16_t",
    "i16": "int16_t",
    "i32": "int32_t",
    "u32": "uint32_t",
    "u64": "uint64_t",
    "usize": "size_t",
}


def c_type(rust):
    """The C type of a number or a struct: `ClearmapNear` and `Near` are `clearmap_near`."""
    if rust in NUMBERS:
        return NUMBERS[rust]
    words = re.findall(r"[A-Z][a-z0-9]*", rust.removeprefix("Clearmap"))
    return "_".join(["clearmap", *(word.lower() for word in words)])


def c_arguments(arguments):
    """What C passes for the arguments of an export: a slice is a pointer and its length."""
    told = []
    for name, rust in re.findall(r"(\w+): ([^,]+),?", arguments):
        found = re.fullmatch(r"(&(?:mut )?)?(\[)?(\w+)\]?", rust.strip())
        if rust.strip() == "Global":
            continue
        reference, is_slice, item = found.groups()
        if not reference:
            told.append(f"{c_type(item)} {name}")
            continue
        told.append(f"{'' if 'mut' in reference else 'const '}{c_type(item)} *{name}")
        if is_slice:
            told.append(f"size_t {name}_length")
    return told


def exported(text):
    """The exports of the sources: for each name its arguments and its result, as C has them."""
    pattern = r'#\[unsafe\(no_mangle\)\]\npub extern "C" fn (\w+)\((.*?)\n?\) -> (\w+)'
    return {
        name: (c_arguments(given), c_type(result))
        for name, given, result in re.findall(pattern, text, re.S)
    }


def declared(header):
    """The calls that the header declares, but for those of clearmap.c. A metric and an edge have
    names in C for numbers of 32 bits."""
    pattern = r"^(\w+) (clearmap_\w+)\(([^)]*)\);"
    numbers = re.sub(r"\bclearmap_(metric|edge) \1\b", r"uint32_t \1", header)
    return {
        name: ([" ".join(given.split()) for given in arguments.split(",")], result)
        for result, name, arguments in re.findall(pattern, numbers, re.M)
    }


def rust_structs(text):
    found = re.findall(
        r"#\[repr\(C\)\]\n(?:#\[[^\n]*\]\n)*pub struct (\w+) \{(.*?)\n\}", text, re.S
    )
    return {
        c_type(name): [
            f"{c_type(rust)} {field}" for field, rust in re.findall(r"pub (\w+): (\w+)", fields)
        ]
        for name, fields in found
    }


def c_structs(header):
    told = {}
    for _, fields, name in re.findall(r"typedef struct (\w+) \{(.*?)\} (\w+);", header, re.S):
        told[name] = [
            f"{kind} {field.strip()}"
            for kind, names in re.findall(r"(\w+) ([\w, ]+);", fields)
            for field in names.split(",")
        ]
    return told


def rust_constants(status, near, setting):
    told = dict(re.findall(r"pub const (\w+): u32 = (\d+);", status))
    for number, name in re.findall(r"(\d|_) => (?:MetricKind|Edge)::(\w+)", setting):
        told[name.upper()] = number
    # The last of each kind is numbered by the check of a setting: one more than the one before it.
    told["CHESS"], told["WALL"] = str(int(told["CITY"]) + 1), str(int(told["OPEN"]) + 1)
    told["NO_OBSTACLE"] = {"u32::MAX": "UINT32_MAX"}[
        re.search(r"NO_OBSTACLE: u32 = (\S+);", near)[1]
    ]
    told["NOWHERE"] = "(" + re.search(r"NOWHERE: i16 = (\S+);", near)[1] + ")"
    return told


def c_constants(header):
    told = dict(re.findall(r"CLEARMAP_(\w+) = (\d+)", header))
    told.update(re.findall(r"#define CLEARMAP_(NO_OBSTACLE|NOWHERE) (\S+)", header))
    return told


def c_version(header):
    parts = [
        re.search(rf"#define CLEARMAP_VERSION_{part} (\d+)", header)[1]
        for part in ("MAJOR", "MINOR", "PATCH")
    ]
    return {
        "version": re.search(r'#define CLEARMAP_VERSION "(.*)"', header)[1],
        "parts": ".".join(parts),
    }


def main():
    header = re.sub(r"/\*.*?\*/", "", HEADER.read_text(), flags=re.S)
    texts = {path.stem: path.read_text() for path in sorted(SOURCES.glob("*.rt"))}
    sources = "\n".join([*texts.values(), CELL.read_text(), CORNER.read_text()])
    sources = re.sub(r"^\s*///.*\n", "", sources, flags=re.M)
    version = re.search(
        r'^version = "(.*)"', (TOP / "clients/python/pyproject.toml").read_text(), re.M
    )[1]
    calls = {name: call for name, call in declared(header).items() if call[1] == "uint32_t"}
    pairs = {
        "call": (exported(sources), calls),
        "struct": (rust_structs(sources), c_structs(header)),
        "constant": (
            rust_constants(texts["status"], texts["near"], texts["setting"]),
            c_constants(header),
        ),
        "version": ({"version": version, "parts": version}, c_version(header)),
    }
    wrong = 0
    for kind, (source, told) in pairs.items():
        for name in sorted(source.keys() | told.keys()):
            if source.get(name) != told.get(name):
                wrong += 1
                print(
                    f"{kind} {name}: the source has {source.get(name)}, the header {told.get(name)}"
                )
    counts = ", ".join(
        f"{len(source)} {kind}s" for kind, (source, _) in pairs.items() if kind != "version"
    )
    print(f"clearmap.h: {counts}, {wrong} wrong")
    return 1 if wrong else 0


if __name__ == "__main__":
    sys.exit(main())
