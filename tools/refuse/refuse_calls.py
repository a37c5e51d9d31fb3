"""Refuses each request for memory of the tests of `memory_tests` in turn, test by test, and counts
for each call how many it met.

A test reports on standard output where a call starts, and whether it ran out of memory (`memory:`)
or answered (`answer:`). The refused requests are reported there too, so that each appears in the
call that made it.
"""
import collections
import re

from refusing import Wrong, sweep

# Calls that ask for memory: each must meet a refusal, and must report out of memory exactly if it
# met one.
COMMANDS = [f"{owner}::{name}" for owner in ("Session", "Pinned") for name in ("paint", "stamp", "publish", "revert", "collect")]
ASKING = [
    "Blank::of", "Store::open", "proto::pool", "proto::pool's stream", "proto::serve_stream", *COMMANDS, "Session::pin",
    "field::rows", "field::rows_with of 1 worker", "field::rows_with of 2 workers", "field::rows_with of 16 workers",
    "pbm::read_image", "pbm::read_source", "pbm::write_plain", "pbm::write_raw",
]
# Commands that are refused for blocks: they may ask for memory before they are judged, and answer
# the same with and without it.
JUDGED = ["Session::paint of too many tiles", "Pinned::paint of too many tiles"]
# Calls that take no memory: each is made, and meets no request.
FREE = [
    "Session::checkpoint", "Pinned::checkpoint",
    "Pinned::at", "Pinned::least_in", "Pinned::along", "Pinned::clear_of", "Pinned::bitmap", "Pinned::unpin", "Pinned::learn", "Session::learn",
    "Store::close", "Arena::take", "Arena::give", "epoch::kept_after", "envelope::row",
]
# Calls that start threads. If a start finds no memory for less than this many bytes, the calling
# thread does the work, and the call answers.
THREADED = ["proto::pool", "field::rows_with of 2 workers", "field::rows_with of 16 workers"]
START = 64
# One call may report its end under another name: a stream that a pool serves asks for memory of its
# own.
ENDS_AS = {"proto::pool's stream": "proto::pool"}
ALL = ASKING + JUDGED + FREE


class Calls:
    """What the calls of all tests met."""

    def __init__(self):
        self.made = collections.Counter()
        self.asked = collections.Counter()  # requests in a run that refuses none
        self.refused = collections.Counter()

    def read(self, text):
        """Reads what a run reported, and returns what was wrong. Requests outside calls are those
        of the test's own values."""
        wrong, inside, requests, refused = [], None, 0, []
        for line in text.decode(errors="replace").splitlines():
            word, _, rest = line.strip().partition(" ")
            if word == "call:":
                inside, requests, refused = rest, 0, []
            elif word == "REQUEST":
                requests += 1
            elif word == "REFUSED":
                refused.append(int(rest.split()[1]))
            elif word in ("memory:", "answer:"):
                wrong += self.judge(inside, rest, requests, refused, word == "memory:")
                inside = None
        return wrong

    def judge(self, call, name, requests, refused, is_wanting):
        """A call that has ended under this name; of the refused requests their sizes are given."""
        self.made[name] += 1
        self.asked[name] += requests
        self.refused[name] += len(refused)
        least = START if name in THREADED else 0
        told = is_wanting or name in JUDGED and bool(refused)
        wrong = []
        if name not in ALL or ENDS_AS.get(name, name) != call:
            wrong.append(f"{call} ends as {name}, which isn't known")
        if name in FREE and (requests or refused):
            wrong.append(f"{name} takes no memory, and met a request")
        if name in COMMANDS + JUDGED and max(requests, len(refused)) > 1:
            wrong.append(f"{name} met {max(requests, len(refused))} requests")
        if any(size >= least for size in refused) != told:
            wrong.append(f"{name} met {len(refused)} refusals, and {'answered that it was out of memory' if is_wanting else 'answered'}")
        return wrong

    def missing(self):
        """Calls that weren't made, or met no refusal though they ask for memory."""
        wrong = [f"{name} was never called" for name in ALL if not self.made[name]]
        return wrong + [f"{name} met no refusal" for name in ASKING if self.made[name] and not self.refused[name]]


def refuse_calls(refuser, tests, only=""):
    """Sweeps each test, prints what was met, and answers what was wrong."""
    calls, wrong = Calls(), []
    listed = refuser.run([tests, "--list"])[1].decode()
    for name in re.findall(r"^(\S+): test$", listed, re.M):
        if only not in name:
            continue

        def once(number, mode="at"):
            status, out, err = refuser.run([tests, name], mode=mode, number=number, log="/dev/stdout")
            why = calls.read(out)
            if status or not out.endswith(b"test result: ok\n"):
                why.append(f"status {status}, {out[-200:]!r}, {err[-300:]!r}")
            return out.count(b"REFUSED "), "; ".join(why)

        try:
            _, why = once(1, "tell")
        except Wrong as it:
            why = str(it)
        wrong += [f"{name}, no request refused: {why}"] if why else []
        met, others = sweep(once)
        print(f"{name}: {met} requests refused in turn", flush=True)
        wrong += [f"{name}, {why}" for why in others]
    if not only:
        wrong += calls.missing()
    print("\n| Call | Refused |\n|---|---|")
    for name in ALL:
        print(f"| `{name}` | {calls.refused[name]} |")
    return wrong
