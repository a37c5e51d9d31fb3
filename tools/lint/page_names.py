"""Looks up what a page names in backticks: paths, calls, clauses and definitions.
tools/lint/check_pages.py calls it.

A path is one of the repository, or the end of one: `tools/stress/soak.py`,
`metric/specs/Kind.antt`, `sessions/acts.rt`. A call is `Type::name`, and each part of it is an item
of a crate. Any other name with a capital or of several words, as `IsNear` or `one_failure`, stands
somewhere in the sources: one that is gone there is found on the page.
"""
import functools
import pathlib
import re
import subprocess

TOP = pathlib.Path(__file__).resolve().parents[2]
FOLDERS = ("crates", "docs", "tools", "examples", "clients", "man", "packaging", "specs", "proofs", "src", "must-fail", "more-edits")
SOURCE = r"\.(rt|antt|edit|py|sh|rs|in|c|h|hpp|cpp|html|js|bash)$|^(Makefile|clearmap|crates\.txt)$"
CODE = r"^crates/\w+/src/.*\.rt$"
STATEMENTS = r"^crates/\w+/(specs|proofs)/.*\.antt$"
# Items, and the variants of enums.
ITEM = re.compile(r"\b(?:fn|struct|enum|trait|type|const|static|mod|macro_rules!)\s+(\w+)|^ {4}(\w+)(?: [{(].*|\(.*|,)?$", re.M)
# Named clauses, ghost members, and the fields of records that clauses are made of.
CLAUSE = re.compile(r"\b(?:ensures\*?|requires) (\w+) \{|\bghost (\w+)\s*[:=]|^  (?:pub )?(\w+) :", re.M)
DEFINITION = re.compile(r"^(?:abbrev |unfoldable |pub |record |data )*([\w-]+)(?= :| \(| where|$)", re.M)
# Names of other programs, of the toolchain, of CMake's targets, and of examples.
OUTSIDE = ("std::", "clearmap::clearmap_static", "ManuallyDrop", "overflow_sub", "clap", "map_server", "ServerAliveInterval", "crates/planner/", "LimitAS=", "MemoryMax=", "/sys/", "Display", "BYE")


@functools.cache
def files():
    """The files of the repository, as paths from its top."""
    listed = subprocess.run(["git", "ls-files", "-co", "--exclude-standard"], cwd=TOP, capture_output=True, text=True, check=True)
    return [line for line in listed.stdout.split("\n") if line and (TOP / line).exists()]


@functools.cache
def found_by(expression, pattern):
    """What an expression finds in the files whose paths a pattern matches."""
    text = "\n".join((TOP / path).read_text(errors="replace") for path in files() if re.search(pattern, path))
    return {match[match.lastindex or 0] for match in expression.finditer(text)}


@functools.cache
def crates():
    return {path.split("/")[1] for path in files() if path.startswith("crates/")}


def items():
    return found_by(ITEM, CODE) | crates() | {"Self"}


def promised():
    """What a clause, or a definition that a clause cites, is called."""
    return found_by(CLAUSE, rf"{CODE}|{STATEMENTS}") | found_by(DEFINITION, STATEMENTS)


@functools.cache
def words():
    """Each word of the sources and of the paths."""
    return found_by(re.compile(r"\w+"), SOURCE) | {part for path in files() for part in re.split(r"[/.]", path)}


def is_path(name):
    """Whether a name has a folder or a crate of the repository in front, or ends like a source."""
    return re.fullmatch(r"[\w.*-]+(/[\w.*-]+)*/?", name) and (
        ("/" in name and name.split("/")[0] in {*FOLDERS, *crates()}) or name.endswith((".rt", ".antt", ".py", ".sh", ".edit"))
    )


def has_path(name):
    """Whether a file or a folder has this path, or a longer one that ends so. A file of definitions
    or proofs may be named without its ending."""
    wanted = re.escape(name.rstrip("/")).replace(r"\*", "[^/]*")
    return any(re.search(rf"(^|/){wanted}(\.antt)?(/|$)", path) for path in files())


def is_there(span):
    """Whether what a page has in backticks names something that there is, if it is a name at all.
    """
    path = span.split(" ")[0]
    if is_path(path):
        return has_path(path)
    if re.fullmatch(r"\w+(::\w+)+", span):
        return all(part in items() for part in span.split("::"))
    return all(word in words() for word in re.findall(r"\w+", span) if re.search(r"[a-z0-9]_[a-z]|[A-Z][a-z]", word))


def lines_of_text(page):
    """The lines of a page outside of blocks, each with its number. A block stands between fences,
    or is moved in by four blanks and comes after an empty line."""
    before, in_block, in_fence = "", False, False
    for number, line in enumerate(page.split("\n"), 1):
        is_fence = line.startswith("```")
        in_fence ^= is_fence
        in_block = line.startswith("    ") and (in_block or not before.strip())
        before = line
        if not (in_block or in_fence or is_fence):
            yield number, line


def wrong_names(text):
    """What a page names in backticks, outside of blocks, and there is not."""
    spans = dict.fromkeys(span for _, line in lines_of_text(text) for span in re.findall(r"`([^`]+)`", line))
    return [span for span in spans if not span.startswith(OUTSIDE) and not is_there(span)]


def wrong_promises(text):
    """What is wrong in the table of promises, whose columns are a part, its calls, their clauses,
    and files with definitions."""
    wrong = []
    table = text.partition("\n## The promises\n")[2].partition("\n## ")[0]
    for row in re.findall(r"^\| (.*) \|$", table, re.M)[1:]:
        _, called, clauses, defined = row.split(" | ")
        names = {part for name in re.findall(r"`([\w:]+)`", called) for part in name.split("::")} - items() - promised()
        names |= set(re.findall(r"`(\w+)`", clauses)) - promised() - items()
        for file, listed in re.findall(r"`([\w/]+\.antt)`:((?: `[\w-]+`,?)*)", defined):
            names |= set(re.findall(r"`([\w-]+)`", listed)) - found_by(DEFINITION, rf"(^|/){re.escape(file)}$")
        wrong += sorted(name for name in names if not name.startswith(OUTSIDE))
    return wrong
