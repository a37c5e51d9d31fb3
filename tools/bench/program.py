"""Builds a measuring program over some crates, in a scratch copy of them."""
import pathlib
import re
import shutil
import subprocess
import sys

HERE = pathlib.Path(__file__).resolve().parent
ROOT = HERE.parent.parent
STORE_NAME = """-- The store that was just made has the name.
use Rattle.measure.proofs.main.Given as goal

abbrev pub ghosts-measure : goal.ghosts-measure
ghosts-measure g a = record { store = a.blank }
"""


def crates_below(names, lines):
    """The crates and those they depend on, in the order of crates.txt."""
    needs = {line.split(":")[0].strip(): line.split(":")[1].split() for line in lines if ":" in line}
    wanted, found = list(names), set()
    while wanted:
        crate = wanted.pop()
        if crate in needs and crate not in found:
            found.add(crate)
            wanted += needs[crate]
    return [crate for crate in needs if crate in found]


def without_edge(text):
    """The program for crates in which each edge is open, and no obstacle is outside."""
    text = text.replace(".unsigned_abs()", "")
    text = re.sub(r"\n *(let edge = .*;|edge: Edge(::Open)?,)", "", text)
    return text.replace("edge, ", "").replace("Edge, ", "").replace("walled = ", "let _ = ").replace("let mut let _", "let _")


def unproved(measure):
    """A script that runs the sources in a crate's folder as they stand: for answers, not for times.
    """
    script = measure / "out" / "measure"
    script.parent.mkdir(exist_ok=True)
    script.write_text(f"#!/bin/sh\ncd '{measure.resolve()}' && exec rt try --seconds 1000 -- \"$@\"\n")
    script.chmod(0o755)
    return script


def build(folder, text, uses, root=ROOT, answers=None, proved=True):
    """Proves and builds this text, over the crates that it uses, as a program named `measure` in
    this folder; or, if it isn't to be proved, makes a script that runs it.

    The crates are those of the clone at `root`; `answers` are the program's own, where it has any.
    """
    folder = pathlib.Path(folder)
    lines = [line for line in (root / "crates.txt").read_text().splitlines() if not line.startswith("#")]
    wanted = crates_below(uses, lines)
    kept = [line for line in lines if line.split(":")[0] in wanted]
    (folder / "crates").mkdir(parents=True)
    for name in wanted:
        shutil.copytree(root / "crates" / name, folder / "crates" / name)
    shutil.copy(root / "HANDLES", folder / "HANDLES")
    (folder / "crates.txt").write_text("\n".join(kept) + "\n")
    subprocess.run(["rt", "new", "crates/measure", "start_io"], cwd=folder, check=True, capture_output=True)
    measure = folder / "crates" / "measure"
    for name in ("BUILD.bazel", "stdin", "stdout"):
        (measure / name).unlink(missing_ok=True)
    for name in ("proofs", "specs", "src"):
        shutil.rmtree(measure / name, ignore_errors=True)
    (measure / "src").mkdir()
    if answers:
        (measure / "proofs" / "main").mkdir(parents=True)
        (measure / "proofs" / "main" / "Invariants.antt").write_text(answers)
    edged = (root / "crates" / "metric" / "src" / "edge.rt").exists()
    (measure / "src" / "main.rt").write_text(text if edged else without_edge(text))
    (folder / "crates.txt").write_text("\n".join([*kept, f"measure: {' '.join(uses)}"]) + "\n")
    if not proved:
        return unproved(measure)
    built = subprocess.run(["rt", "run"], cwd=measure, capture_output=True, text=True)
    program = measure / "out" / "measure"
    if not program.exists():
        sys.exit(built.stdout[-3000:] + built.stderr[-3000:])
    return program


def build_over_sessions(folder, source, proved=True):
    """A program over a store's sessions, whose one answer names the store that it makes."""
    uses = ["session", "shelf", "events", "bits", "metric"]
    return build(folder, source.read_text(), uses, answers=STORE_NAME, proved=proved)


def add_unproved(parser):
    """The flag of a script whose program is proved, for a run that compares answers only."""
    parser.add_argument("--unproved", action="store_true", help="run it without a proof, slowly: its answers alone count")
