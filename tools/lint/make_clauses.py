#!/usr/bin/env python3
"""Writes docs/trust/CLAUSES.md from the sources: each public call of each crate with the names of
its clauses and the definitions of this repository that they cite, by their file of `specs/`.

    tools/lint/make_clauses.py [--check]

With --check it writes nothing, and its status is 1 if the page isn't what the sources say.
"""
import pathlib
import re
import sys

TOP = pathlib.Path(__file__).resolve().parents[2]
PAGE = TOP / "docs/trust/CLAUSES.md"
HEAD = """# Clauses

Each public call that has clauses, with their names (`ensures` where the one clause has none), and
the definitions that they cite. Written by `tools/lint/make_clauses.py` from the sources;
[PROOFS](PROOFS.md) says what they come to.
"""
OPENS = re.compile(
    r"^(?:pub )?(?:unsafe )?(impl|trait)\b(?:<[^{]*?>)? *([\w:]+)[^{]*?"
    r"(?: for ([\w:&']+))?.*\{$"
)
CALL = re.compile(r"^( *)(pub )?(?:unsafe )?(?:extern \"C\" )?fn (\w+)")
CLAUSE = re.compile(r"\bensures\*?(?: (\w+))? ?\{")
IMPORT = re.compile(r"ghost use Rattle\.(\w+)\.specs\.([\w.]+)\.\{([^}]*)\}")
SHOWN = re.compile(r"^pub use [\w:]+::(?:(\w+)|\{([^}]*)\});|^pub mod (\w+);", re.M)


def crates():
    """The libraries in their order, lowest first, without those of tests."""
    lines = (TOP / "crates.txt").read_text().split("\n")
    names = [line.split(":")[0].split()[0] for line in lines if line and not line.startswith("#")]
    libraries = [name for name in names if (TOP / "crates" / name / "src/lib.rt").exists()]
    return [name for name in libraries if not name.endswith("_tests")]


def clause_end(text, start):
    """Where the braces that open at `start` are closed."""
    depth = 0
    for place in range(start, len(text)):
        depth += {"{": 1, "}": -1}.get(text[place], 0)
        if depth == 0:
            return place
    return len(text)


def head_of(lines, number):
    """A function's head with its contract: up to the line that opens its body, or ends it."""
    taken, depth = [], 0
    for line in lines[number:]:
        taken.append(line)
        if depth == 0 and (line.strip() in ("{", "{}", "}") or line.rstrip().endswith(";")):
            break
        opens = line.rstrip().endswith("{") and "ensures" not in line and "requires" not in line
        if depth == 0 and opens:
            break
        depth += line.count("{") - line.count("}")
    return "\n".join(taken)


def promised(head, names):
    """The names of a contract's `ensures`, and the definitions that these cite, by file."""
    clauses, cited = [], {}
    for match in CLAUSE.finditer(head):
        clauses.append(match[1])
        said = head[match.end() : clause_end(head, match.end() - 1)]
        for word in re.findall(r"[\w-]+", said):
            if word in names:
                cited.setdefault(names[word], []).append(word)
    return clauses, {file: sorted(set(words)) for file, words in cited.items()}


def calls_of(path):
    """The public calls of a file that have clauses: name, clauses, definitions."""
    text = path.read_text()
    names = {}
    for crate, module, listed in IMPORT.findall(text):
        file = f"{crate}/specs/{module.replace('.', '/')}.antt"
        if (TOP / "crates" / file).exists():
            names.update((name.strip(), file) for name in listed.split(","))
    lines, owner = text.split("\n"), ""
    for number, line in enumerate(lines):
        if opened := OPENS.match(line):
            kind, name, other = opened.groups()
            owner = "" if other else name.split("::")[-1]
            shown = kind == "trait"
        elif line == "}":
            owner = ""
        elif call := CALL.match(line):
            indent, public, name = call.groups()
            if (indent and not owner) or not (public or (indent and shown)):
                continue
            clauses, cited = promised(head_of(lines, number), names)
            if clauses:
                yield f"{owner}::{name}" if indent else name, clauses, cited


def shown_by(crate):
    """The names that the lib.rt of a crate shows, and its public modules."""
    names, modules = set(), set()
    for one, listed, module in SHOWN.findall((TOP / "crates" / crate / "src/lib.rt").read_text()):
        names.update(name.strip() for name in (one or listed).split(",") if name.strip())
        modules.update([module] if module else [])
    return names, modules


def row(crate, call, clauses, cited):
    """A line of the table. A definition of the crate's own is named without the crate."""
    named = ", ".join(f"`{name or 'ensures'}`" for name in clauses)
    own = f"{crate}/specs/"
    files = (
        f"`{file.removeprefix(own)}`: {', '.join(words)}" for file, words in sorted(cited.items())
    )
    return f"| `{call}` | {named} | {'; '.join(files)} |\n"


def table(crate):
    """The table of a crate."""
    source = TOP / "crates" / crate / "src"
    names, modules = shown_by(crate)
    rows = []
    for path in sorted(source.rglob("*.rt")):
        public = path.relative_to(source).parts[0].removesuffix(".rt") in modules
        for call, clauses, cited in calls_of(path):
            exported = call.startswith("clearmap_")  # to C
            if public or exported or call.split("::")[0] in names:
                rows.append(row(crate, call, clauses, cited))
    head = f"\n## `{crate}`\n\n| Call | Clauses | Definitions |\n|---|---|---|\n"
    return head + "".join(rows) if rows else ""


def main():
    made = HEAD + "".join(table(crate) for crate in crates())
    if sys.argv[1:] == ["--check"]:
        if not PAGE.exists() or made != PAGE.read_text():
            print(f"{PAGE.name} isn't what the sources say: run tools/lint/make_clauses.py")
            return 1
        return 0
    PAGE.write_text(made)
    return 0


if __name__ == "__main__":
    sys.exit(main())
