#!/usr/bin/env python3
"""Writes man/clearmap.1 from the program's --help, man/clearmap-protocol.7 from
docs/use/PROTOCOL.md, and the pages of the scripts from what they read their command lines with.
With --check it compares instead.

    tools/package/make_man.py [--check] [PROGRAM]
"""
import argparse
import os
import pathlib
import re
import subprocess
import sys

TOP = pathlib.Path(__file__).resolve().parents[2]
COMMANDS = ("dist", "steps", "serve", "ask")


def plain(text):
    """Text of a page: what roff would read as its own is escaped, and the marks of Markdown become
    fonts."""
    text = text.replace("\\|", "|").replace("\\", "\\e").replace("-", "\\-")
    text = re.sub(r"\[([^]]*)\]\([^)]*\)", r"\1", text)
    text = re.sub(r"\*\*([^*]*)\*\*", r"\\fB\1\\fP", text)
    text = re.sub(r"`([^`]*)`", r"\\fB\1\\fP", text)
    return "\n".join("\\&" + line if line[:1] in ".'" else line for line in text.split("\n"))


def verbatim(lines):
    """Lines as they are, in a fixed font."""
    return [".PP", ".nf", ".RS", *(plain(line) for line in lines), ".RE", ".fi"]


def heading(name, section, title):
    return [f'.TH {name} {section} "" "{VERSION}" "{title}"']


class Help:
    """A --help: what it is about, its usage, its options as pairs of words and text, and the
    paragraphs after them."""

    def __init__(self, *words, program=None):
        text = subprocess.run([program or PROGRAM, *words, "--help"], capture_output=True, text=True, check=True).stdout.rstrip("\n")
        self.about, _, rest = text.partition("\n\nUsage: ")
        self.usage = rest.split("\n")[0]
        listed, *self.notes = rest.partition("\nOptions:\n")[2].split("\n\n")
        pairs = [line.strip().split("  ", 1) for line in listed.split("\n")]
        self.options = [(words, said.strip()) for words, said in pairs]


def paragraphs(after):
    """The paragraphs after the options; examples and lists keep their lines."""
    page = []
    for paragraph in after:
        lines = paragraph.split("\n")
        head = lines[0]
        indented = [line for line in lines if line.startswith("  ")]
        if head in ("Examples:", "Example:"):
            page += [".PP", head, *verbatim([line.strip() for line in indented])]
        elif indented:
            told = [line for line in lines if not line.startswith("  ")]
            listed = verbatim([line[2:].rstrip() for line in indented])
            page += [".PP", plain("\n".join(told)), *listed]
        else:
            page += [".PP", plain(paragraph)]
    return page


def options(listed):
    page = []
    for words, said in listed:
        page += [".TP", "\\fB" + plain(words) + "\\fP", plain(said)]
    return page


def program_page():
    top = Help()
    parts = [Help(command) for command in COMMANDS]
    page = heading("CLEARMAP", 1, "Clearance maps")
    page += [".SH NAME", "clearmap \\- " + plain(top.about[0].lower() + top.about[1:]), ".SH SYNOPSIS"]
    for part in parts:
        page += [".B " + plain(part.usage), ".br"]
    page += [".SH DESCRIPTION", *paragraphs(text for text in top.notes if not text.startswith("Example")), *options(top.options)]
    for command, part in zip(COMMANDS, parts):
        page += [f".SH {command.upper()}", plain(part.about) + ".", *options(part.options), *paragraphs(part.notes)]
    page += [".SH EXAMPLES", *paragraphs(text for text in top.notes if text.startswith("Example"))[2:]]
    return page + [".SH SEE ALSO", ".BR clearmap\\-protocol (7),", ".BR pbm (5)"]


def rows_of(block):
    """The cells of a Markdown table's rows."""
    return [[cell.strip() for cell in re.split(r"(?<!\\)\|", line.strip().strip("|"))] for line in block if not re.fullmatch(r"[|\- ]+", line)]


def table(block):
    """A table as a list: the first cell of each row, and then each other cell after its column's
    name."""
    names, *rows = rows_of(block)
    page = []
    for row in rows:
        said = [f"{name}: {cell}." for name, cell in zip(names[1:], row[1:]) if cell]
        page += [".TP", plain(row[0]), plain(" ".join(said))]
    return page


def protocol_page():
    page = heading("CLEARMAP\\-PROTOCOL", 7, "Clearance maps")
    page += [".SH NAME", "clearmap\\-protocol \\- the lines of a clearance map server, and its replies", ".SH DESCRIPTION"]
    blocks = (TOP / "docs/use/PROTOCOL.md").read_text().split("\n\n")
    for block in blocks[1:]:
        lines = block.strip("\n").split("\n")
        if lines[0].startswith("## "):
            page += [".SH " + plain(lines[0][3:].upper())]
            lines = lines[1:]
        if not lines:
            continue
        if lines[0].startswith("|"):
            page += table(lines)
        elif lines[0].startswith("    "):
            page += verbatim([line[4:] for line in lines])
        elif lines[0].startswith("- "):
            for item in "\n".join(lines)[2:].split("\n- "):
                page += [".IP \\(bu 2", plain(re.sub(r"\n +", "\n", item))]
        else:
            page += [".PP", plain("\n".join(lines))]
    return page + [".SH SEE ALSO", ".BR clearmap (1),", ".BR pbm (5)"]


def words_of(action):
    """How an argument of a script is written, and what it is for."""
    value = action.metavar or action.dest.upper()
    words = ", ".join(action.option_strings) if action.nargs == 0 else f"{', '.join(action.option_strings)} {value}"
    return (words if action.option_strings else value.lower()), action.help or ""


def script_page(name, about, parser, notes, related):
    """The page of a script, from its parser of arguments; a line in the fixed font for each line of
    `notes` that is moved in."""
    page = heading(plain(name.upper()), 1, "Clearance maps") + [".SH NAME", f"{plain(name)} \\- {about}", ".SH SYNOPSIS"]
    page += [plain(re.sub(r"\s+", " ", parser.format_usage()).replace("usage: ", "").strip()), ".SH DESCRIPTION", plain(parser.description)]
    commands = next((action for action in parser._actions if isinstance(action, argparse._SubParsersAction)), None)
    page += options(words_of(action) for action in parser._actions if action is not commands)
    for command, below in (commands.choices if commands else {}).items():
        page += [f".SH {command.upper()}", plain(below.description) + ".", *options(words_of(action) for action in below._actions if action.dest != "help")]
    also = [f".BR {plain(page)} ({section})," for page, section in related]
    return page + paragraphs(notes) + [".SH SEE ALSO", *also[:-1], also[-1].rstrip(",")]


def backup_page():
    """The page of the script of the shell, from its --help."""
    part = Help(program=str(TOP / "bin/clearmap-backup"))
    page = heading("CLEARMAP\\-BACKUP", 1, "Clearance maps")
    page += [".SH NAME", "clearmap\\-backup \\- " + plain(part.about[0].lower() + part.about[1:]), ".SH SYNOPSIS", ".B " + plain(part.usage)]
    page += [".SH DESCRIPTION", *paragraphs(text for text in part.notes if not text.startswith("Example")), *options(part.options)]
    return page + [".SH EXAMPLES", *paragraphs(text for text in part.notes if text.startswith("Example"))[2:], ".SH SEE ALSO", ".BR clearmap (1)"]


def script_pages():
    """The pages of the scripts that are installed and written in Python."""
    tools = (f"tools/{name}" for name in ("fleet", "gateway", "ros", "view"))
    sys.path[:0] = [str(TOP / folder) for folder in ("clients/python", *tools)]
    import clearmap_gateway
    import clearmap_node
    import clearmap_publish
    import clearmap_ros
    import clearmap_view

    return {
        "clearmap-gateway.1": script_page(
            "clearmap-gateway",
            "any number of clients over a few connections to a clearance map server",
            clearmap_gateway.parser(),
            clearmap_gateway.NOTES.split("\n\n"),
            (("clearmap", 1), ("clearmap-protocol", 7)),
        ),
        "clearmap-publish.1": script_page(
            "clearmap-publish",
            "puts each version of a clearance map server into Redis",
            clearmap_publish.parser(),
            clearmap_publish.NOTES.split("\n\n"),
            (("clearmap", 1), ("clearmap-gateway", 1)),
        ),
        "clearmap-ros.1": script_page("clearmap-ros", "maps, plans and radii of ROS for clearmap", clearmap_ros.parser(), (), (("clearmap", 1),)),
        "clearmap-ros-node.1": script_page(
            "clearmap-ros-node", "a node of ROS over a clearance map server", clearmap_node.parser(), clearmap_node.TOPICS.split("\n\n"), (("clearmap", 1),)
        ),
        "clearmap-view.1": script_page(
            "clearmap-view", "a page in the browser that shows a clearance map", clearmap_view.parser(), ("Example:\n  clearmap-view --port 7400 --map map.yaml --radius 0.22",), (("clearmap", 1),)
        ),
    }


def main():
    pages = {"clearmap.1": program_page(), "clearmap-protocol.7": protocol_page(), "clearmap-backup.1": backup_page(), **script_pages()}
    wrong = 0
    for name, lines in pages.items():
        text = '.\\" Written by tools/package/make_man.py.\n' + "\n".join(lines) + "\n"
        path = TOP / "man" / name
        if not CHECKS:
            path.write_text(text)
        elif not path.exists() or path.read_text() != text:
            wrong += 1
            print(f"man/{name} isn't what --help, the scripts and docs/use/PROTOCOL.md say: run tools/package/make_man.py")
    return 1 if wrong else 0


if __name__ == "__main__":
    os.environ["COLUMNS"] = "1000"  # so that a usage is one line
    sys.dont_write_bytecode = True
    WORDS = [word for word in sys.argv[1:] if word != "--check"]
    CHECKS = "--check" in sys.argv
    PROGRAM = WORDS[0] if WORDS else str(TOP / "crates/clearmap/out/clearmap")
    VERSION = subprocess.run([PROGRAM, "--version"], capture_output=True, text=True, check=True).stdout.strip()
    sys.exit(main())
