#!/usr/bin/env python3
"""Runs the steps of docs/use/ROBOTS.md up to its picture of the page, with what `make install` puts
in place, in a scratch folder: the commands of the first terminal in one shell, each server in a
shell of its own, and the program in Python. What stands below a command is what it prints.

CLEARMAP names the built program and CLEARMAP_LIBRARY the library. Needs numpy and python3-pil; the
page wants aiohttp, and the program in C++ g++. What isn't installed is skipped, with a message.
"""
import os
import pathlib
import re
import shutil
import subprocess
import sys
import tempfile

sys.dont_write_bytecode = True
TOP = pathlib.Path(__file__).resolve().parents[2]
sys.path.insert(0, str(TOP / "tools/lint"))
from check_pages import blocks

PROGRAM = os.path.abspath(os.environ.get("CLEARMAP", TOP / "crates/clearmap/out/clearmap"))
LIBRARY = os.path.abspath(
    os.environ.get("CLEARMAP_LIBRARY", TOP / "crates/libclearmap/out/libclearmap.so.2")
)
COMMAND = re.compile(r"house=|printf |clearmap|cell=|g\+\+ |python3 |\{ echo ")
LEFT_OUT = re.compile(r"sudo |http://")
END = "what stands below was printed by the next block"
PATIENCE = 60  # seconds


def python_with(modules):
    """The interpreter that has these modules, or an empty text."""
    told = subprocess.run([TOP / "tools/python_with", modules], capture_output=True, text=True)
    return told.stdout.strip()


def steps():
    """The blocks of the steps."""
    page = (TOP / "docs/use/ROBOTS.md").read_text()
    return [block for _, block in blocks(page.partition("\n## See the map in the browser")[0])]


class Walk:
    """What is installed, and the shells of somebody who reads the page."""

    def __init__(self, root, python):
        self.root, self.port = root, "0"  # until the first server says which
        self.folder = root / "walk"
        (root / "bin").mkdir()
        self.folder.mkdir()
        (root / "bin/python3").symlink_to(shutil.which(python))
        install = ["make", "-s", "-o", "all", "install-program", f"program={PROGRAM}"]
        subprocess.run([*install, f"DESTDIR={root}", "PREFIX=/usr"], cwd=TOP, check=True)
        path = f"{root}/bin:{root}/usr/bin:{os.environ['PATH']}"
        include = str(root / "usr/include")
        self.words = {**os.environ, "PATH": path, "CPLUS_INCLUDE_PATH": include}
        self.words["CLEARMAP_LIBRARY"] = LIBRARY
        self.words.pop("PYTHONPATH", None)
        self.servers, self.first = [], self.shell()

    def shell(self, *line):
        """A shell, or another program, in the folder."""
        kinds = {"stdin": subprocess.PIPE, "stdout": subprocess.PIPE, "text": True}
        return subprocess.Popen(line or ["bash"], cwd=self.folder, env=self.words, **kinds)

    def here(self, block):
        """A block with the paths and ports of this walk."""
        block = re.sub(r"\b7400\b", self.port, block).replace("-view ", "-view --web 0 ")
        return block.replace("/usr/share/clearmap", f"{self.root}/usr/share/clearmap")

    def printed(self, block):
        """What a block prints in the first terminal, and its status."""
        self.first.stdin.write(f"{self.here(block)}\necho \"{END} $?\"\n")
        self.first.stdin.flush()
        lines = []
        for line in self.first.stdout:
            if line.startswith(END):
                return "".join(lines).rstrip("\n"), line.split()[-1]
            lines.append(line)
        return "".join(lines) + "the shell has ended", "no"

    def served(self, block):
        """What a server in a terminal of its own says first: a word, and where it listens."""
        *lines, last = self.here(block).split("\n")
        shell = self.shell("bash", "-c", "\n".join([*lines, f"exec {last}"]))
        self.servers.append(shell)
        word, place = (*shell.stdout.readline().split(), "", "")[:2]
        if word == "LISTENING":
            self.port = place
        return word

    def by_python(self, block):
        """What a program in Python prints, over the installed package."""
        self.words["PYTHONPATH"] = f"{self.root}/usr/share/clearmap/python"
        told = subprocess.run(
            [f"{self.root}/bin/python3", "-c", self.here(block)], cwd=self.folder, env=self.words,
            capture_output=True, text=True, timeout=PATIENCE,
        )  # fmt: skip
        return (told.stdout + told.stderr).rstrip("\n"), str(told.returncode)

    def ended(self):
        """Ends what was started."""
        for shell in [self.first, *self.servers]:
            shell.kill()
            shell.communicate()


def walked(walk, wrong):
    """How many blocks were run, and how many were compared with what they print."""
    run, compared, printed = 0, 0, None
    for block in steps():
        if LEFT_OUT.match(block):
            continue
        if not (COMMAND.match(block) or block.startswith("import ")):
            if printed is not None:
                compared += 1
                if printed != block:
                    wrong.append(f"{printed!r} where the page has {block!r}")
            continue
        printed = None
        if "clearmap-view" in block and not python_with("aiohttp, numpy"):
            print("the page in the browser left out: there is no python3 with aiohttp and numpy")
        elif "g++" in block and not shutil.which("g++"):
            print("the program in C++ left out: there is no g++")
        else:
            run += 1
            printed = told(walk, block, wrong)
    return run, compared


def told(walk, block, wrong):
    """What a block prints; None of one that serves."""
    last = block.split("\n")[-1]
    for word, server in (("LISTENING", "clearmap serve"), ("VIEW", "clearmap-view")):
        if last.startswith(server):
            found = walk.served(block)
            if found != word:
                wrong.append(f"{last}: it says {found}")
            return None
    found, status = (walk.by_python if block.startswith("import ") else walk.printed)(block)
    if status != "0":
        wrong.append(f"{block!r} ends with status {status}: {found}")
    return found


def main():
    """Walks through the page."""
    python = python_with("numpy, PIL.Image")
    if not python or not os.path.exists(LIBRARY):
        print(f"ROBOTS left out: there is no python3 with numpy and PIL, or no {LIBRARY}")
        return
    wrong = []
    with tempfile.TemporaryDirectory() as scratch:
        walk = Walk(pathlib.Path(scratch), python)
        try:
            run, compared = walked(walk, wrong)
        finally:
            walk.ended()
    print(*wrong, sep="\n", end="\n" if wrong else "")
    print(f"ROBOTS: blocks run {run}, compared {compared}, wrong {len(wrong)}")
    sys.exit(bool(wrong) or compared < 8)


if __name__ == "__main__":
    main()
