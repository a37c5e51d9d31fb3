#!/usr/bin/env python3
"""Lists lines of over 100 columns: code, clauses and proofs of crates, prose of pages, and comments
elsewhere.

    tools/lint/check_lines.py

What can't be broken may be longer: a text, an import of one name, a row of a table, a block that is
run as it stands, an address, a picture, and a line of a proof that `rt fmt` moved two columns to
the right.
"""
import ast
import re
import sys

sys.dont_write_bytecode = True
from page_names import TOP, files

WIDTH = 100
COMMENT = re.compile(r"\s*(#|//|--|/\*|\* )")
ONE_NAME = re.compile(r"\s*(pub )?(ghost )?use [^{]*\{[^,]*\};?$")


def docstring_lines(text):
    """The numbers of the lines that are in docstrings of a text in Python."""
    try:
        tree = ast.parse(text)
    except SyntaxError:
        return set()
    kinds = (ast.Module, ast.ClassDef, ast.FunctionDef, ast.AsyncFunctionDef)
    owners = [node for node in ast.walk(tree) if isinstance(node, kinds)]
    said = [node.body[0] for node in owners if ast.get_docstring(node)]
    return {number for text in said for number in range(text.lineno, text.end_lineno + 1)}


def is_free(line, suffix):
    """Whether a line of such a file may be longer."""
    if "://" in line:
        return True
    if suffix in (".rt", ".antt"):
        moved = suffix == ".antt" and len(line) <= WIDTH + 2
        return '"' in line or bool(ONE_NAME.match(line)) or moved
    if suffix == ".md":
        return line.startswith(("|", "    ", "!["))
    return not COMMENT.match(line)


def main():
    """Prints each such line, and ends with status 1 if there is one."""
    wrong = 0
    for name in files():
        path = TOP / name
        if name.endswith(".edit") or name.startswith("man/") or not path.is_file():
            continue
        try:
            text = path.read_text()
        except UnicodeDecodeError:
            continue
        said = docstring_lines(text) if path.suffix == ".py" or "python3" in text[:40] else set()
        for number, line in enumerate(text.split("\n"), 1):
            if len(line) > WIDTH and (number in said or not is_free(line, path.suffix)):
                wrong += 1
                print(f"{name}:{number}: {len(line)} columns")
    print(f"{wrong} lines of over {WIDTH} columns")
    return 1 if wrong else 0


sys.exit(main())
