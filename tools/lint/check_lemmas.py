#!/usr/bin/env python3
"""Lists lemmas that say the same, lemmas that nothing cites, names that are cited and aren't there,
and what is `pub` without need. It isn't in the gate.

    tools/lint/check_lemmas.py [CRATE ..]

A lemma is cited by its name: in its own file, by a `use` line of another, or by a function's
attribute. One that nothing cites may still be taken by the search: check its crate from nothing,
without its `out/`, before you drop it.
"""
import collections
import itertools
import pathlib
import re
import subprocess
import sys

TOP = pathlib.Path(__file__).resolve().parents[2]
LEMMA = re.compile(r"(pub )?([\w◌-]+) :(.*)")
# Files of lemmas, in folders of their own too; what a function's folder has is an answer to its
# goals.
LEMMAS = re.compile(r"crates/(\w+)/proofs/((?:\w+/)*)(?!(?:Answers|Invariants|Proof|Given|Statement|Send)\.antt)(\w+)\.antt")
RUNS = {"WorkedRows"}  # its lemmas are runs that are worked out, so nothing cites them


def read_all():
    """The text of each file of the crates, by its path from the top."""
    listed = subprocess.run(["git", "ls-files", "-co", "--exclude-standard", "crates"], cwd=TOP, capture_output=True, text=True, check=True).stdout
    paths = [path for path in listed.split("\n") if path.endswith((".rt", ".antt")) and (TOP / path).exists()]
    return {path: (TOP / path).read_text() for path in paths}


def citations(texts):
    """The files that name an item of a module by a `use` line, by module and name; with no name,
    those that name the module."""
    cited = collections.defaultdict(set)
    for path, text in texts.items():
        for module, names in re.findall(r"use (Rattle[\w.]+?)(?:\.\{([^}]*)\})?(?: as \w+)?;?\n", text):
            for name in names.split(",") + [""]:
                cited[module, name.split(" as ")[0].strip()].add(path)
        for module, name in re.findall(r"crate::(proofs(?:::\w+)+)::(\w+)", text):
            crate = path.split("/")[1]
            cited[f"Rattle.{crate}." + module.replace("::", "."), name].add(path)
    return cited


def lemmas(text):
    """The lemmas of a file: the number of the line, whether it is `pub`, its name, its statement,
    and the code of the file without it."""
    lines = text.split("\n")
    for start, line in enumerate(lines):
        if not (found := LEMMA.fullmatch(line)):
            continue
        end = next(number for number in range(start, len(lines) + 1) if number == len(lines) or not lines[number].strip())
        statement = found[3]
        for more in itertools.takewhile(lambda line: line.startswith(" "), lines[start + 1 : end]):
            statement += " " + more.strip()
        rest = [other for other in lines[:start] + lines[end:] if not other.lstrip().startswith("--") and not other.startswith("use ")]
        yield start + 1, bool(found[1]), found[2], statement, "\n".join(rest)


def missing(texts):
    """The lemmas that a `use` line names and that no file has."""
    for path, text in sorted(texts.items()):
        for crate, inner, names in re.findall(r"^ *(?:ghost )?(?:pub )?use Rattle\.(\w+)\.proofs\.([\w.]+)\.\{([^}]*)\}", text, re.M):
            file = f"crates/{crate}/proofs/{inner.replace('.', '/')}.antt"
            had = texts.get(file, "")
            if not (TOP / "crates" / crate).is_dir() or inner.endswith((".Goals", ".Statement")):  # which the check writes
                continue
            for name in re.split(r",\s*", names.strip().rstrip(",")):
                name = name.split(" as ")[0].strip()
                if not re.search(rf"(?<![\w'.-]){re.escape(name)}(?![\w'-])", had):
                    yield f"{path}: {file} has no {name}"


def plain(statement):
    """A statement with its variables numbered, so that their names don't count."""
    names = [name for group in re.findall(r"[({]([\w' ]+?) : ", statement) for name in group.split()]
    for number, name in enumerate(dict.fromkeys(names)):
        statement = re.sub(rf"(?<![\w'.-]){re.escape(name)}(?![\w'-])", f"v{number}", statement)
    return re.sub(r"\(((?:v\d+ )+): ([^()]+)\)", lambda group: " ".join(f"({name} : {group[2]})" for name in group[1].split()), statement)


def main():
    asked = sys.argv[1:]
    texts = read_all()
    cited = citations(texts)
    stated = collections.defaultdict(list)
    found = [line for line in missing(texts) if not asked or line.split("/")[1] in asked]
    for path, text in sorted(texts.items()):
        named = LEMMAS.fullmatch(path)
        if not named or (asked and named[1] not in asked) or named[3] in RUNS:
            continue
        crate, folder, name = named.groups()
        module = f"Rattle.{crate}.proofs.{folder.replace('/', '.')}" + name
        for part in re.findall(r"^pub mod (\w+)", text, re.M):
            below = f"{module.removesuffix('.Lib')}.{part}"
            users = {user for (cites, _), users in cited.items() if cites == below or cites.startswith(below + ".") for user in users}
            inside = f"crates/{crate}/" if name == "Lib" else path.removesuffix(".antt") + "/"
            if all(user.startswith(inside) for user in users):
                found.append(f"{path}: nothing outside of {inside} cites {part}")
        for number, is_pub, lemma, statement, rest in lemmas(text):
            users = cited[module, lemma] - {path}
            is_used = re.search(rf"(?<![\w'.-]){re.escape(lemma)}(?![\w'-])", rest)
            stated[plain(statement)].append(f"{path}:{number}")
            if not users and not is_used:
                found.append(f"{path}:{number}: nothing cites {lemma}")
            elif is_pub and not users:
                found.append(f"{path}:{number}: no other file cites {lemma}")
    found += [f"{places[0]}: says the same as {', '.join(places[1:])}" for statement, places in stated.items() if len(places) > 1 and "→" in statement]
    print("\n".join([*found, f"places {len(found)}"]))
    return 1 if found else 0


if __name__ == "__main__":
    sys.exit(main())
