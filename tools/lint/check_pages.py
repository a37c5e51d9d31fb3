#!/usr/bin/env python3
"""Checks what README.md, CONTRIBUTING.md, CHANGELOG.md and docs/ quote and name: pieces of files,
runs at a terminal, the conversation of docs/use/PROTOCOL.md, links, and names in backticks.

A block after `<!-- from FILE -->` stands so in that file; a line `..` in it stands for what is left
out. A block whose first line has `$ ` in front is run by bash, with `clearmap` on the path, in a
scratch folder of its page. Blocks that name a port are left out, as they take two terminals, and
those of `clearmap-ros`, which check_readme.sh runs.
"""
import os
import pathlib
import re
import subprocess
import sys
import tempfile

sys.dont_write_bytecode = True
sys.path.append(str(pathlib.Path(__file__).resolve().parent.parent))  # served.py
from page_names import wrong_names, wrong_promises
from served import PROGRAM, Served

TOP = pathlib.Path(__file__).resolve().parents[2]
PAGES = [TOP / "README.md", TOP / "CONTRIBUTING.md", TOP / "CHANGELOG.md", *sorted((TOP / "docs").rglob("*.md"))]
wrong = []


def blocks(text):
    """The indented blocks of a page, each with the line before it that isn't empty."""
    found, before, block = [], "", []
    for line in text.split("\n") + ["end"]:
        if line.startswith("    ") or (block and not line):
            block.append(line[4:])
        else:
            if block:
                found.append((before, "\n".join(block).rstrip("\n")))
                block = []
            before = line or before
    return found


def lines_of(text):
    """Lines without what surrounds them, so that a piece of a file may be moved to the left."""
    return "\n".join(line.strip() for line in text.split("\n"))


def check_quotes(page, text):
    """Each quoted piece stands in its file, in this order."""
    count = 0
    for before, block in blocks(text):
        if source := re.fullmatch(r"<!-- from (\S+) -->", before.strip()):
            count += 1
            rest = lines_of((TOP / source[1]).read_text())
            for piece in re.split(r"\n?^ *\.\.$\n?", block, flags=re.M):
                head, found, rest = rest.partition(lines_of(piece))
                if not found:
                    wrong.append(f"{page.name} quotes what {source[1]} hasn't: {piece[:60]!r}")
    return count


def check_runs(page, text, folder):
    """Each command prints what stands below it."""
    count = 0
    for _, block in blocks(text):
        if not block.startswith("$ ") or "--port" in block or "clearmap-ros" in block:
            continue
        for command, printed in re.findall(r"^\$ (.*)\n?((?:(?!\$ ).*\n?)*)", block, flags=re.M):
            count += 1
            run = subprocess.run(["bash", "-c", command], cwd=folder, stdin=subprocess.DEVNULL, capture_output=True, text=True, timeout=60)
            if (run.stdout + run.stderr).rstrip("\n") != printed.rstrip("\n"):
                wrong.append(f"{page.name}: {command!r} prints {run.stdout + run.stderr!r}")
    return count


def check_conversation():
    """A server answers the lines of docs/use/PROTOCOL.md as the page says."""
    (lines,) = (block.split("\n") for _, block in blocks((TOP / "docs/use/PROTOCOL.md").read_text()) if block.startswith("> "))
    asked = "".join(line[2:] + "\n" for line in lines if line.startswith("> "))
    wanted = "".join(line + "\n" for line in lines if not line.startswith("> "))
    with Served(b"P1\n6 4\n000000\n001000\n000000\n000000\n") as server:
        got = subprocess.run([PROGRAM, "ask", "--port", str(server.port)], input=asked, capture_output=True, text=True, timeout=60).stdout
    if got != wanted:
        wrong.append(f"PROTOCOL.md: a server answers {got!r}")


def anchors_of(page):
    """What links can name of a page: its headings, in small letters, without marks."""
    headings = re.findall(r"^#+ (.*)$", page.read_text(), re.M)
    return {re.sub(r"[^\w -]", "", heading.lower()).replace(" ", "-") for heading in headings}


def check_links(page, text):
    """Each link to a file names one, and each link to a heading one that is there."""
    for target, anchor in re.findall(r"\]\(([^)#:]*)(?:#([^)]*))?\)", text):
        file = page.parent / target if target else page
        if not file.exists():
            wrong.append(f"{page.name} links to {target}, which isn't there")
        elif anchor and anchor not in anchors_of(file):
            wrong.append(f"{page.name} links to {target}#{anchor}, which isn't there")


def check_names(page, text):
    """What stands in backticks is there: paths, calls, clauses and definitions."""
    for name in [*wrong_names(text), *wrong_promises(text)]:
        wrong.append(f"{page.name} names {name}, which isn't there")


def main():
    quotes = runs = 0
    with tempfile.TemporaryDirectory() as room:
        pathlib.Path(room, "bin").mkdir()
        pathlib.Path(room, "bin/clearmap").symlink_to(PROGRAM)
        os.environ["PATH"] = f"{room}/bin:{os.environ['PATH']}"
        for page in PAGES:
            text = page.read_text()
            folder = pathlib.Path(room, str(page.relative_to(TOP)).replace("/", "_"))
            folder.mkdir()
            (folder / "examples").symlink_to(TOP / "examples")
            check_links(page, text)
            check_names(page, text)
            quotes += check_quotes(page, text)
            runs += check_runs(page, text, folder)
    check_conversation()
    print("\n".join([*wrong, f"pages {len(PAGES)}, quotes {quotes}, runs {runs}, wrong {len(wrong)}"]))
    return 1 if wrong else 0


if __name__ == "__main__":
    sys.exit(main())
