"""What refuses requests for memory: the library of refuse.c before a built program, and a sweep
that refuses one request after another."""
import os
import pathlib
import shutil
import signal
import subprocess
import sys
import tempfile

TOOLS = pathlib.Path(__file__).resolve().parent
PATIENCE = 60  # seconds
QUIET = 3  # runs one after another that met no refusal end a sweep: with threads a request isn't in the same place each time
MOST = 5_000
MOST_WRONG = 12


class Wrong(Exception):
    """A run that went wrong whatever it was to answer."""


class Refuser:
    """The compiled library, and a folder for its log."""

    def __init__(self, everything=False):
        """`everything` counts the C library's own requests too, as those of a thread's start."""
        self.everything = everything
        compiler = next((it for it in ("cc", "gcc", "clang") if shutil.which(it)), None)
        if compiler is None:
            sys.exit("refuse_each_request.py: wants a C compiler (cc, gcc or clang); nothing was refused")
        self.room = tempfile.TemporaryDirectory(prefix="refuse-")
        self.library = pathlib.Path(self.room.name) / "refuse.so"
        self.log = pathlib.Path(self.room.name) / "log"
        subprocess.run([compiler, "-O2", "-shared", "-fPIC", "-o", self.library, TOOLS / "refuse.c"], check=True)

    def environment(self, mode, number, log=None):
        """What a program is run in whose N-th request (`at`), or that and each later one (`from`),
        is refused; `tell` refuses none."""
        self.log.write_bytes(b"")
        words = {"at": "REFUSE_AT", "from": "REFUSE_FROM", "tell": "REFUSE_TELL"}
        environment = dict(os.environ, LD_PRELOAD=str(self.library), REFUSE_LOG=str(log or self.log), REFUSE_ALL=str(int(self.everything)))
        return environment | {words[mode]: str(number)}

    def refused(self):
        """How many requests were refused since the log was cleared."""
        return self.log.read_bytes().count(b"REFUSED")

    def run(self, words, given=b"", mode=None, number=0, log=None):
        """Status, output and errors of a run. One that hangs or ends by a signal is wrong."""
        environment = self.environment(mode, number, log) if mode else None
        try:
            it = subprocess.run(words, input=given, capture_output=True, timeout=PATIENCE, env=environment)
        except subprocess.TimeoutExpired:
            raise Wrong(f"is not done after {PATIENCE} seconds") from None
        if it.returncode < 0:
            raise Wrong(f"ends by {signal.Signals(-it.returncode).name}, {it.stdout[-80:]!r}, {it.stderr[-200:]!r}")
        return it.returncode, it.stdout, it.stderr


def sweep(once):
    """Runs `once(N)` for N from 1 until several runs met no refusal: how many met one, and what was
    wrong.

    `once` answers how many requests were refused, and what was wrong, if anything.
    """
    met, quiet, wrong = 0, 0, []
    for number in range(1, MOST + 1):
        try:
            refused, why = once(number)
        except Wrong as it:
            refused, why = 1, str(it)
        if why:
            wrong.append(f"request {number}: {why}")
        met, quiet = (met + 1, 0) if refused else (met, quiet + 1)
        if quiet == QUIET:
            return met, wrong
        if len(wrong) > MOST_WRONG:
            return met, wrong + ["and it was given up"]
    return met, wrong + [f"requests were still met at the {MOST}th"]
