"""Builds the twin of the queries in Rust: the sources of `clearance`, and what it calls of `bits`
and `pbm`.

Comments, clauses and imports are left out, so that no change of theirs changes the twin. Which
modules there are is read from the root of `clearance`.
"""
import pathlib
import re
import subprocess

from program import HERE, ROOT

RUSTC = "rustc -O -C target-cpu=x86-64-v2 -A warnings".split()
CLAUSE = re.compile(r"^\s*(?:requires|ensures)\b[^{\n]*\{", re.M)
FIELD = re.compile(r"^\s*ghost \w+ *[:=] *\{", re.M)  # one that only contracts see
TACTIC = re.compile(r"#!?\[(?=tactic\b)")
IMPORT = re.compile(r"^\s*(?:pub |ghost )?use [^;]*;\n", re.M)


def module_names(root):
    """The modules that the root of a crate declares."""
    return re.findall(r"^(?:pub )?mod (\w+);", (ROOT / "crates" / root).read_text(), re.M)


def end_of(text, start, pair):
    """The index after the bracket that closes the one at `start`."""
    depth = 0
    for place in range(start, len(text)):
        depth += (text[place] == pair[0]) - (text[place] == pair[1])
        if depth == 0:
            return place + 1
    raise ValueError(f"nothing closes the {pair[0]} of {text[start:start + 60]!r}")


def without(text, pattern, pair, after=""):
    """A text without what a pattern finds: each match ends with a bracket, which is closed later;
    with it goes one of the marks `after` it."""
    while match := pattern.search(text):
        end = end_of(text, match.end() - 1, pair)
        end += text[end : end + 1] in tuple(after)
        text = text[: match.start()] + text[end:]
    return text


def rust_of(source):
    """A source in Rust, without comments, clauses, imports and tactics."""
    text = re.sub(r"//.*", "", source)
    text = without(text, CLAUSE, "{}")
    text = without(text, FIELD, "{}", ",;")
    return IMPORT.sub("", without(text, TACTIC, "[]"))


def loops():
    """The sources of the twin, as paths below `crates`."""
    searches = (f"clearance/src/{name}" for name in module_names("clearance/src/lib.rt"))
    below = ["metric/src/limits", "metric/src/edge", "bits/src/word"]
    return [*below, *searches, "pbm/src/raw_row", "pbm/src/raw_raster"]


def build_twin(folder):
    """The program `twin` in a folder."""
    folder = pathlib.Path(folder)
    parts = [(HERE / "queries" / "twin_head.rs").read_text()]
    for name in loops():
        text = rust_of((ROOT / "crates" / f"{name}.rt").read_text())
        if name.startswith("pbm"):  # the twin's own reader calls what is private there
            text = re.sub(r"^fn ", "pub fn ", text, flags=re.M)
        module = name.rpartition("/")[2]
        parts.append(f"mod {module} {{\nuse super::*;\n{text}\n}}\npub use {module}::*;")
    parts.append((HERE / "queries" / "twin_tail.rs").read_text())
    path = folder / "twin.rs"
    path.write_text("\n".join(parts))
    subprocess.run([*RUSTC, "-o", str(folder / "twin"), str(path)], check=True)
    return folder / "twin"
