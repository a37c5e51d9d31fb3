#!/usr/bin/env python3
"""Refuses each request for memory in turn, of `memory_tests` and of the built program.

A library that is compiled from refuse.c is put before the C library: it refuses the N-th request,
for N from 1 until several runs met none. Of the program the N-th and all later ones are refused
too. `refuse_calls.py` says what each call is to meet and to answer, `refuse_runs.py` what each run
may write.

A signal, a run that isn't done in a minute, another text than wanted, a call that met no refusal
though it asks for memory, a command that met two requests and a call that met one though it takes
no memory are wrong. Prints tables of how many requests were refused, and a line for each thing that
is wrong; the status is 1 if there is one.

    tools/refuse/refuse_each_request.py [--only WORD] [--calls | --runs | --all]

That takes a minute, and needs a C compiler, the built program and the built tests: `rt run --
--version` in crates/clearmap, `rt test` in crates/memory_tests.
"""
import argparse
import pathlib
import sys
import time

from refuse_calls import refuse_calls
from refuse_runs import refuse_runs
from refusing import Refuser

CRATES = pathlib.Path(__file__).resolve().parents[2] / "crates"
PROGRAM = CRATES / "clearmap" / "out" / "clearmap"
TESTS = CRATES / "memory_tests" / "out" / "memory_tests_tests"


def main():
    words = argparse.ArgumentParser(description=__doc__.split("\n", 1)[0])
    words.add_argument("--only", default="", metavar="WORD", help="only tests or runs whose name has this word")
    words.add_argument("--program", type=pathlib.Path, default=PROGRAM)
    words.add_argument("--tests", type=pathlib.Path, default=TESTS)
    part = words.add_mutually_exclusive_group()
    part.add_argument("--calls", action="store_true", help="the tests alone")
    part.add_argument("--runs", action="store_true", help="the program alone")
    part.add_argument("--all", action="store_true", help="the program alone, with the C library's own requests")
    given = words.parse_args()
    refuser, begun, wrong = Refuser(given.all), time.time(), []
    for sweep, built, left_out in ((refuse_calls, given.tests, given.runs or given.all), (refuse_runs, given.program, given.calls)):
        if left_out:
            continue
        if not built.exists():
            sys.exit(f"refuse_each_request.py: {built} isn't built")
        wrong += sweep(refuser, built.resolve(), given.only)
    for line in wrong:
        print("WRONG", line)
    print(f"{time.time() - begun:.0f} seconds, wrong: {len(wrong)}")
    return 1 if wrong else 0


if __name__ == "__main__":
    sys.exit(main())
