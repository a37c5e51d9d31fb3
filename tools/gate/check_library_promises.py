#!/usr/bin/env python3
"""Measures or compares what clients/c/clearmap.h says of the library besides its answers.

    tools/gate/check_library_promises.py [FOLDER]

The stack and the memory that calls take (clients/c/measure_calls.c), the library's globals and
names, two libraries of this kind in one program, and the structs, numbers and texts of statuses in
C and in Python. FOLDER holds the built library. Needs gcc and binutils. Its last line has counts.
"""
import ctypes
import pathlib
import re
import subprocess
import sys
import tempfile

TOP = pathlib.Path(__file__).resolve().parents[2]
HEADER = (TOP / "clients/c/clearmap.h").read_text()
sys.path.insert(0, str(TOP / "clients/python"))

from clearmap import library, requests  # noqa: E402 (after the path)
from clearmap.grids import EDGES  # noqa: E402

# What the C library gives, and what a compiler takes from it unasked.
WANTED = {"malloc", "realloc", "free", "memcpy", "memmove", "memset", "memcmp", "abort"}
# What the toolchain puts into each shared library.
TOOLCHAIN = {"completed.0", "__dso_handle", "__TMC_END__"}
STRUCTS = {
    "clearmap_bytes": (library.Bytes, {}),
    "clearmap_bits": (library.Bits, {}),
    "clearmap_near": (library.CNear, {}),
    "clearmap_found": (library.CFound, {"x": "cell.x", "y": "cell.y"}),
}
# Another library of this kind: its own rattle_alloc has nothing to do with clearmap's.
OTHER = """
#include "clearmap.h"
#include <stddef.h>
static int calls;
void *rattle_alloc(size_t size, size_t align) { calls += (int)(size + align); return NULL; }
void *rattle_realloc(void *old, size_t size) { calls += (int)size; return old; }
void rattle_dealloc(void *place) { calls += place != NULL; }
int main(void) {
    const uint8_t cells[2] = {1, 0};
    const clearmap_bytes map = {2, 1, 2, 1, 1};
    uint32_t told[2];
    uint32_t status = clearmap_bytes_distances(cells, 2, &map, 0, 0, 0, 1, told, 2);
    return status || calls || told[0] != 0 || told[1] != 1;
}
"""
checks = wrong = 0


def check(right, text):
    """Counts a check, and says what isn't so."""
    global checks, wrong
    checks += 1
    if not right:
        wrong += 1
        print(text)


def run(*words):
    done = subprocess.run(list(map(str, words)), capture_output=True, text=True, timeout=120)
    if done.returncode:
        raise SystemExit(f"{' '.join(map(str, words))}: {done.returncode}\n{done.stderr}")
    return done.stdout


def build(text, folder, *more):
    """A program of this C, or of the file."""
    source = folder / "built.c"
    if not isinstance(text, pathlib.Path):
        source.write_text(text)
        text = source
    run("gcc", "-std=c11", "-O2", "-I", TOP / "clients/c", text, *more, "-pthread",
        "-o", folder / "built")  # fmt: skip
    return folder / "built"


def told(pattern):
    """Numbers of the header's comment, wherever its lines break."""
    return [int(number) for number in re.search(pattern, HEADER.replace("\n * ", " ")).groups()]


# ---- Stack and memory


def check_calls(folder, archive):
    (most_stack,) = told(r"stack grows by at most (\d+) KB")
    page = (TOP / "docs/use/LIBRARY.md").read_text()
    check(f"at most {most_stack} KB of stack" in page, "LIBRARY tells of another stack")
    wraps = "-Wl,--wrap=malloc,--wrap=calloc,--wrap=realloc,--wrap=free"
    program = build(TOP / "clients/c/measure_calls.c", folder, archive, wraps)
    stack, columns = 0, []
    for line in run(program).splitlines():
        name, *numbers = line.split()
        width, height, deep, requests_made, asked, held = map(int, numbers)
        stack = max(stack, deep)
        check(deep <= 1024 * most_stack, f"{line}: over {most_stack} KB of stack")
        check(held == 0, f"{line}: {held} bytes aren't freed")
        if name.endswith(("distances", "nearest", "costs")):
            columns.append(check_memory(line, width, height, asked))
        else:
            check(requests_made == 0, f"{line}: {requests_made} requests for memory")
    (most, _) = told(r"at most (\d+) bytes per column and (\d+) more")
    check(max(columns) > 0.9 * most, f"the most bytes a column are {max(columns):.0f}")
    return f"{stack} bytes of stack, {max(columns):.0f} a column"


def check_memory(line, width, height, asked):
    """The bytes for each column, besides the copy of the map and the rest that is told."""
    most, rest = told(r"at most (\d+) bytes per column and (\d+) more")
    copy = (width + 63) // 64 * 8 * height
    check(copy <= asked <= copy + most * width + rest, f"{line}: {asked} bytes of memory")
    return (asked - copy - rest) / width


# ---- Names and globals


def symbols(file):
    """The symbols of a file: pairs of a type and a name."""
    rows = (line.split() for line in run("nm", file).splitlines())
    return [(row[-2], row[-1]) for row in rows if len(row) > 1]


def writable(file):
    """What of a file can be written: names, or sections that have none. What the loader alone
    writes, before a program begins, isn't."""
    rows = re.findall(r"^\w+ .{7} (\.\S+|\*COM\*)\t(\w+) +(?:\.hidden )?(\S+)$",
                      run("objdump", "-t", file), re.M)  # fmt: skip
    return {
        name
        for section, size, name in rows
        if re.match(r"\.(data|bss|tdata|tbss)(?!\.rel\.ro)|\*COM\*", section)
        and (int(size, 16) or name != section)
    }


def check_names(archive, shared):
    for file in (archive, shared):
        for name in sorted(writable(file) - TOOLCHAIN):
            check(False, f"{file.name}: {name} can be written")
    sections = r"^\.(?:data|bss|tdata|tbss)(?!\.rel\.ro)\S* +(\d+)"
    sizes = re.findall(sections, run("size", "-A", archive), re.M)
    check(not any(map(int, sizes)), f"{archive.name} has {sizes} bytes of globals")
    given = {name for kind, name in symbols(archive) if kind in "TWVRDBuiC"}
    check(len(given) == 29, f"{archive.name} gives {len(given)} names")
    for name in sorted(given):
        check(name.startswith("clearmap_"), f"{archive.name}: {name} may clash")
    for name in sorted({name for kind, name in symbols(archive) if kind == "U"} - given):
        check(name in WANTED | {"_GLOBAL_OFFSET_TABLE_"}, f"{archive.name} needs {name}")


# ---- C next to Python


def numbers_of(folder):
    """The sizes, offsets and numbers that a compiler takes from the header."""
    wanted = re.findall(r"^\s+(CLEARMAP_\w+) = -?\d+", HEADER, re.M)
    wanted += ["CLEARMAP_NO_OBSTACLE", "CLEARMAP_NOWHERE"]
    for name, (kind, inner) in STRUCTS.items():
        wanted.append(f"sizeof({name})")
        for field, _ in kind._fields_:
            wanted.append(f"offsetof({name}, {inner.get(field, field)})")
            wanted.append(f"sizeof((({name} *)0)->{inner.get(field, field)})")
    lines = "".join(f'printf("%lld\\n", (long long){word});' for word in wanted)
    text = f'#include "clearmap.h"\n#include <stdio.h>\nint main(void) {{ {lines} }}\n'
    return dict(zip(wanted, map(int, run(build(text, folder)).split())))


def check_structs(of_c):
    for name, (kind, inner) in STRUCTS.items():
        check(of_c[f"sizeof({name})"] == ctypes.sizeof(kind), f"{kind.__name__} has another size")
        for field, _ in kind._fields_:
            at, where = getattr(kind, field), inner.get(field, field)
            pair = of_c[f"offsetof({name}, {where})"], of_c[f"sizeof((({name} *)0)->{where})"]
            check(pair == (at.offset, at.size), f"{kind.__name__}.{field} lies elsewhere in C")
        fields = re.search(rf"typedef struct {name} {{(.*?)}} {name};", HEADER, re.S)[1]
        fields = re.sub(r"/\*.*?\*/", "", fields, flags=re.S)
        count = len(re.findall(r"\w+(?=[,;])", fields)) + len(inner) - bool(inner)
        check(count == len(kind._fields_), f"{kind.__name__} has fields that C hasn't, or not all")


def check_numbers(of_c):
    """Each number of the header that the package has by the same name, its metrics and edges."""
    names = {name.removeprefix("CLEARMAP_"): number for name, number in of_c.items()}
    shared = [name for name in names if hasattr(library, name)]
    check({"DONE", "CROOKED", "MEMORY", "NO_OBSTACLE", "NOWHERE"} <= set(shared), "names are gone")
    for name in shared:
        check(getattr(library, name) == names[name], f"library.{name} is another number in C")
    for numbered in (requests.METRICS, EDGES):
        for number, name in enumerate(numbered):
            check(names[name.upper()] == number, f"{name} is another number in C")


def check_texts(shared, of_c):
    """Each text begins as the header's comment on its status, but for that of DONE."""
    calls = ctypes.CDLL(str(shared))
    calls.clearmap_status_text.restype = ctypes.c_char_p
    pattern = r"CLEARMAP_(\w+) = (\d+),? +/\* (.*?) \*/"
    comments = re.findall(pattern, HEADER[: HEADER.index("Metrics, edges")], re.S)
    check(len(comments) == 17, f"{len(comments)} statuses in the header")
    for name, number, comment in comments:
        text = calls.clearmap_status_text(int(number)).decode()
        start = " ".join(comment.split()[:5])
        check(name == "DONE" or text.startswith(start.rstrip(",;")), f"{name} says: {text}")


def main():
    folder = pathlib.Path(sys.argv[1] if len(sys.argv) > 1 else TOP / "crates/libclearmap/out")
    archive, shared = folder.resolve() / "libclearmap.a", folder.resolve() / "libclearmap.so.2"
    with tempfile.TemporaryDirectory() as scratch:
        scratch = pathlib.Path(scratch)
        of_c = numbers_of(scratch)
        check_structs(of_c)
        check_numbers(of_c)
        check_texts(shared, of_c)
        check_names(archive, shared)
        measured = check_calls(scratch, archive)
        run(build(OTHER, scratch, archive))
    print(f"promises of the library: {checks} checks, {measured}, {wrong} wrong")
    return 1 if wrong else 0


if __name__ == "__main__":
    sys.exit(main())
