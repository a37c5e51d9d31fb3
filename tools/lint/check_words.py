#!/usr/bin/env python3
"""Lists what isn't plain English: in the pages, in the `--` lines of .antt files, in the `///`
lines and the texts of .rt files, and in scripts. The gate runs it.

    tools/lint/check_words.py [PATH ..]

Everywhere: words that have a plainer one. In pages: a sentence of many words, or of several facts.
In proofs: a lemma without a line, a line that begins in the middle, one that has no verb, and one
that several lemmas have.
"""
import collections
import itertools
import pathlib
import re
import subprocess
import sys

sys.dont_write_bytecode = True
from check_lemmas import LEMMAS
from page_names import lines_of_text

TOP = pathlib.Path(__file__).resolve().parents[2]
PLAINER = {
    r"behind": "after, below",
    r"beside": "next to, besides",
    r"hand(s|ed|ing)? back": "return",
    r"hand(s|ed|ing)? (in|on|out|over|to)|handed": "give, pass",
    r"beg(ins?|an|un|inning) with": "start with",
    r"whence|thereof|hitherto|therein": "say it in other words",
    r"spare[sd]?": "save, do without",
    r"want of (memory|room|blocks|an? \w+)": "out of memory, a full log, too few free blocks",
    r"so (many|much)": "how many it is, or that many",
    r"seldom": "rarely",
    r"near at hand": "in cache",
    r"conditions?(?=:)": "say what it requires",
    r"loopback alone": "only on loopback",
    r"nothing where": "none if",
}
SCRIPTS = (".py", ".sh", ".cpp", ".hpp", ".c", ".rs", ".rt.in", ".js", ".html", ".bash", ".service", "Makefile", "/run", "clearmap", "_to_pgm", "more_edits", "try_edits")
MOST_WORDS = 45
MOST_PARTS = 2
VERBS = (
    "is are was were be been isn't aren't has have had hasn't haven't does do doesn't don't can can't may must will won't holds hold gives give given leaves leave stays stay keeps keep says say "
    "stands stand lies lie comes come ends end begins begin starts start takes take makes make shows show means mean goes go needs need reads read writes write tells tell equals equal adds add "
    "lets let sees see knows know finds find counts count changes change becomes become follows follow agrees agree belongs fits fit moves move grows grow loses lose brings bring covers "
    "splits turns turn computes proves decides differs differ answers answer maps refuses accepts wants want fails fail reaches reach falls fall rises loads load stores store draws draw "
    "returns return contains contain spells spell looks look drops drop asks ask works work puts put passes pass joins join sets set ranges bounds bound exceeds costs extends keeps meets meet report reports"
).split()


def files(*endings):
    """The files of these kinds that are asked for, as paths from the top."""
    asked = sys.argv[1:] or ["."]
    listed = subprocess.run(["git", "ls-files", "-co", "--exclude-standard", "--", *asked], cwd=TOP, capture_output=True, text=True, check=True).stdout
    return [path for path in listed.split("\n") if path.endswith(endings) and (TOP / path).exists()]


def plainer(text):
    """Words of a text that have a plainer one."""
    for pattern, better in PLAINER.items():
        for match in re.finditer(rf"\b({pattern})\b", text, re.I):
            yield f"'{match[0]}': {better}"


def sentences(page):
    """The sentences of a page, each with its line; code and quotes are left out, and so are tables.
    """
    paragraph, start = "", 0
    for number, line in [*lines_of_text(page), (0, "")]:
        is_text = line.strip() and not line.lstrip().startswith(("|", "#", "<!--", "!["))
        if not is_text or re.match(r" *(-|\d+\.) ", line):
            for sentence in re.split(r"(?<=[.?!:]) ", re.sub(r"`[^`]*`", "it", paragraph)):
                yield start, sentence
            paragraph = ""
        if is_text:
            paragraph, start = (f"{paragraph} {line.strip()}", start) if paragraph else (line.strip(), number)


def in_page(path):
    text = (TOP / path).read_text()
    for number, line in lines_of_text(text):
        if not line.startswith("<!--"):
            for found in plainer(re.sub(r"`[^`]*`", "", line)):
                yield number, found
    for number, sentence in sentences(text):
        words = len(sentence.split())
        if words > MOST_WORDS:
            yield number, f"a sentence of {words} words: {sentence[:60]}"
        elif sentence.count(";") >= MOST_PARTS:
            yield number, f"a sentence of several facts: {sentence[:60]}"


def in_proofs(path, told):
    """What is wrong with the lines over definitions and lemmas; `told` gathers which lemmas have a
    line."""
    lines = (TOP / path).read_text().split("\n")
    for number, line in enumerate(lines, 1):
        if said := re.match(r" *-- (.*)", line):
            for found in plainer(said[1]):
                yield number, found
        lemma = re.match(r"(?:pub )?([\w◌-]+) : ", line)
        if not lemma or not LEMMAS.fullmatch(path):
            continue
        said = comment_above(lines, number - 1)
        if not said:
            yield number, f"{lemma[1]} has no line"
            continue
        told[said].append(f"{path}:{number}")
        if re.match(r"(and|or|but|one more|the same|as above|likewise|so|then|also)\b", said, re.I):
            yield number - 1, f"begins in the middle: {said[:60]}"
        elif not set(re.findall(r"[\w']+", said.lower())) & set(VERBS):
            yield number - 1, f"no verb: {said[:60]}"


def comment_above(lines, index):
    """The comment that ends above a line, as one text."""
    above = itertools.takewhile(lambda line: line.startswith("-- "), reversed(lines[:index]))
    return " ".join(line[3:] for line in reversed([*above]))


def in_code(path):
    for number, line in enumerate((TOP / path).read_text().split("\n"), 1):
        for said in re.findall(r"^\s*//[/!] (.*)" if line.lstrip().startswith("//") else r'"((?:[^"\\]|\\.)*)"', line):
            for found in plainer(said.replace("\\n", " ")):
                yield number, found


def in_script(path):
    """Names, comments and texts alike."""
    for number, line in enumerate((TOP / path).read_text().split("\n"), 1):
        for found in plainer(line):
            yield number, found


def main():
    count, told = 0, collections.defaultdict(list)
    scripts = [path for path in files(*SCRIPTS) if path != "tools/lint/check_words.py"]  # which has the words themselves
    listed = [(path, in_page(path)) for path in files(".md")] + [(path, in_proofs(path, told)) for path in files(".antt")]
    listed += [(path, in_code(path)) for path in files(".rt")] + [(path, in_script(path)) for path in scripts]
    for path, found in listed:
        for number, what in found:
            count += 1
            print(f"{path}:{number}: {what}")
    for line, places in told.items():
        if len(places) > 1:
            count += 1
            print(f"{places[0]}: {len(places)} lemmas have the line '{line[:60]}': {', '.join(places[1:])}")
    print(f"places {count}")
    return 1 if count else 0


if __name__ == "__main__":
    sys.exit(main())
