#!/usr/bin/env python3
"""Lists modules and types that are named as a library below their crate.

    tools/lint/check_modules.py

`rt check` lets such a name pass. The gate refuses it, since a path through the library could reach
the module.
"""
import re
import sys

sys.dont_write_bytecode = True
from page_names import TOP

NAMED = re.compile(r"\s*(?:pub(?:\([^)]*\))? )?(?:mod|struct|enum|trait|type) (\w+)")


def uses():
    """The libraries below each crate of crates.txt, which lists the lowest first."""
    found = {}
    for line in (TOP / "crates.txt").read_text().splitlines():
        name, colon, libraries = line.split("#")[0].partition(":")
        if colon:
            below = [found.get(library, set()) for library in libraries.split()]
            found[name.split()[0]] = {"std", "core", *libraries.split()}.union(*below)
    return found


def main():
    """Prints each such name, and ends with status 1 if there is one."""
    wrong = 0
    for crate, libraries in uses().items():
        for path in sorted((TOP / "crates" / crate / "src").rglob("*.rt")):
            for number, line in enumerate(path.read_text().splitlines(), 1):
                named = NAMED.match(line)
                if named and named.group(1) in libraries:
                    wrong += 1
                    print(f"{path.relative_to(TOP)}:{number}: {named.group(1)} is a library here")
    print(f"{wrong} names of libraries for a module or type")
    return 1 if wrong else 0


sys.exit(main())
