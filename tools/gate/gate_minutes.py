#!/usr/bin/env python3
"""Reports what each crate costs the gate, in processor minutes. It isn't in the gate.

    tools/gate/gate_minutes.py [CRATE ..]

Run it in a fresh clone, before anything was checked there. For each crate, lowest first, it proves
the crate and builds its library, tries its must-fail edits and runs its tests. Each command is
timed as a whole, and the table, in Markdown, has its processor minutes. A command that fails ends
the run.
"""
import pathlib
import resource
import subprocess
import sys

TOP = pathlib.Path(__file__).resolve().parents[2]


def crates():
    """The crates of crates.txt, in its order: each with what it stands on before it."""
    lines = (TOP / "crates.txt").read_text().splitlines()
    return [line.split(":")[0].split()[0] for line in lines if not line.startswith("#")]


def minutes(crate, *command):
    """The processor minutes of a command of the crate, with all that it starts."""
    before = resource.getrusage(resource.RUSAGE_CHILDREN)
    subprocess.run(command, cwd=TOP / "crates" / crate, check=True, stdout=sys.stderr)
    after = resource.getrusage(resource.RUSAGE_CHILDREN)
    return (after.ru_utime + after.ru_stime - before.ru_utime - before.ru_stime) / 60


def row(crate):
    """What a crate costs: its proofs, its edits with how many there are, and its tests."""
    folder = TOP / "crates" / crate
    edits = len(list(folder.glob("must-fail/*.edit")))
    proofs = minutes(crate, "rt", "check") + (0 if (folder / "src/main.rt").exists() else minutes(crate, "rt", "lib"))
    tried = f"{minutes(crate, 'rt', 'must-fail', crate, '--anew'):.1f} for {edits}" if edits else ""
    has_tests = any("#[test]" in source.read_text() for source in folder.glob("src/**/*.rt"))
    tests = f"{minutes(crate, 'rt', 'test'):.1f}" if has_tests else ""
    return f"| `{crate}` | {proofs:.1f} | {tried} | {tests} |"


def main():
    wanted = sys.argv[1:] or crates()
    if unknown := set(wanted) - set(crates()):
        sys.exit(f"there is no crate {' '.join(sorted(unknown))}\n\n{__doc__}")
    print("| Crate | Proofs | Edits | Tests |\n|---|---|---|---|")
    for crate in wanted:
        print(row(crate), flush=True)


if __name__ == "__main__":
    main()
