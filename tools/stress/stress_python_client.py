#!/usr/bin/env python3
"""Interrupts the Python client inside its calls, and shares it between threads: no wrong answer.

    tools/stress/stress_python_client.py [--interrupts 10000] [--calls 100000] [--stride 1]
        [--seed N]

An alarm comes at a random moment of a call and raises there. The same client is asked again: it has
to answer rightly, or to say that its connection is lost. The same is done at each step of the
interpreter, or every STRIDE steps, of one call of each kind. Eight threads ask one client and one
pin at once, while a painter publishes and one of them renews the pin. Needs the built program,
which CLEARMAP names. Status 1 if an answer is wrong.
"""
import argparse
import math
import pathlib
import random
import signal
import sys
import threading
import time

TOP = pathlib.Path(__file__).resolve().parents[2]
sys.path[:0] = [str(TOP / "tools"), str(TOP / "clients/python")]

import clearmap
from served import Served

WIDTH, HEIGHT = 23, 17
CELLS = [(x, y) for x in range(WIDTH) for y in range(HEIGHT)]
THREADS = 8
LOST = "paint again, and publish"
PATIENCE = 60  # seconds for a reply, on a busy machine
LENGTHS = {
    "euclid2": lambda x, y: x * x + y * y,
    "city": lambda x, y: x + y,
    "chess": max,
}


class Version:
    """The obstacles of one version, and what each query answers, worked by plain loops."""

    def __init__(self, obstacles):
        self.obstacles = frozenset(obstacles)
        self.tables = {}

    def at(self, x, y, metric):
        """The least distance; of several obstacles that of the least column, and so on."""
        table = self.tables.setdefault(metric, {})
        if (x, y) not in table:
            length = LENGTHS[metric]
            found = self.obstacles
            distance, ox, _, oy = min(
                (length(abs(x - ox), abs(y - oy)), ox, abs(y - oy), oy) for ox, oy in found
            )
            table[x, y] = (distance, (ox, oy))
        return table[x, y]

    def tightest(self, cells, metric):
        """The first of these cells that has the least distance."""
        found = [(*self.at(x, y, metric), (x, y)) for x, y in cells]
        distance, obstacle, cell = min(found, key=lambda it: it[0])
        return (distance, cell, obstacle)

    def clear_of(self, least, cells, metric):
        """The first of these cells that is nearer than this, or None."""
        for x, y in cells:
            distance, obstacle = self.at(x, y, metric)
            if distance < least:
                return (distance, (x, y), obstacle)
        return None

    def dump(self):
        """The version as a plain image."""
        rows = (
            "".join("01"[(x, y) in self.obstacles] for x in range(WIDTH)) for y in range(HEIGHT)
        )
        return f"P1\n{WIDTH} {HEIGHT}\n{''.join(row + chr(10) for row in rows)}".encode()


class Painter:
    """A painter with a connection of its own, and every version that it has published."""

    def __init__(self, rng):
        self.rng = rng
        self.versions = [Version(rng.sample(CELLS, 14))]
        flags = ("--versions", "64", "--workers", "16")
        self.server = Served(self.versions[0].dump(), *flags, connections=1_000_000)
        self.client = clearmap.Client(self.server.port, timeout=PATIENCE, checkpoints=True)

    def __enter__(self):
        return self

    def __exit__(self, *_):
        self.client.close()
        self.server.end()

    def publish(self):
        """Moves one obstacle, and publishes that as the next version."""
        old = self.versions[-1].obstacles
        gone = self.rng.choice(sorted(old))
        come = self.rng.choice([cell for cell in CELLS if cell not in old])
        self.client.clear(gone[0], gone[1], gone[0] + 1, gone[1] + 1)
        self.client.paint(come[0], come[1], come[0] + 1, come[1] + 1)
        self.versions.append(Version(old - {gone} | {come}))  # before anybody can pin it
        number = self.client.publish()
        assert number == len(self.versions) - 1, f"version {number} of {len(self.versions)}"
        self.client.collect()


def straight(rng):
    """The corners of a path of two pieces, and all its cells."""
    x0, x1 = rng.randrange(WIDTH), rng.randrange(WIDTH)
    y0, y1 = rng.randrange(HEIGHT), rng.randrange(HEIGHT)
    step = 1 if x1 >= x0 else -1
    cells = [(x, y0) for x in range(x0, x1 + step, step)]
    step = 1 if y1 >= y0 else -1
    return [(x0, y0), (x1, y0), (x1, y1)], cells + [(x1, y) for y in range(y0, y1 + step, step)]


def a_question(rng):
    """A call of a pin, and what a version answers to it."""
    kind = rng.choice(("at", "at", "at", "rect", "path", "clear_of", "ask", "clearances", "dump"))
    metric = rng.choice(sorted(LENGTHS))
    x, y = rng.randrange(WIDTH), rng.randrange(HEIGHT)
    if kind == "at":
        return lambda pin: pin.at(x, y, metric), lambda it: it.at(x, y, metric)
    if kind == "rect":
        x1, y1 = rng.randrange(x, WIDTH) + 1, rng.randrange(y, HEIGHT) + 1
        cells = [(i, j) for j in range(y, y1) for i in range(x, x1)]
        return (
            lambda pin: pin.rect(x, y, x1, y1, metric),
            lambda it: it.tightest(cells, metric),
        )
    if kind in ("path", "clear_of"):
        corners, cells = straight(rng)
        if kind == "path":
            return lambda pin: pin.path(corners, metric), lambda it: it.tightest(cells, metric)
        least = rng.randrange(12)
        return (
            lambda pin: pin.clear_of(least, corners, metric),
            lambda it: it.clear_of(least, cells, metric),
        )
    if kind == "dump":
        return lambda pin: pin.dump(), Version.dump
    return many_cells(rng, kind, metric)


def many_cells(rng, kind, metric):
    """A call that asks about several cells in one write or two."""
    count = rng.choice((3, 70))
    cells = [(rng.randrange(WIDTH), rng.randrange(HEIGHT)) for _ in range(count)]
    if kind == "clearances":
        return (
            lambda pin: pin.clearances(cells),
            lambda it: [math.sqrt(it.at(x, y, "euclid2")[0]) for x, y in cells],
        )
    queries = clearmap.Queries()
    for x, y in cells:
        queries.at(x, y, metric)
    return lambda pin: pin.ask(queries), lambda it: [it.at(x, y, metric) for x, y in cells]


class Alarm(BaseException):
    """What the alarm raises."""


def ring(*_):
    raise Alarm


def cut_off(call, delay):
    """What a call gives, and whether the alarm came first."""
    try:
        try:
            signal.setitimer(signal.ITIMER_REAL, delay)
            return call(), False
        finally:
            signal.setitimer(signal.ITIMER_REAL, 0)
    except Alarm:
        return None, True


class Interrupted:
    """One client that is interrupted and asked again, until this many interrupts have come."""

    def __init__(self, painter, rng):
        self.painter, self.rng = painter, rng
        self.client = self.pin = None
        self.interrupts = self.right = self.lost = 0
        self.wrong = []
        self.usual = 2e-4  # seconds of a call, as they were lately

    def ready(self):
        """A client with a pin."""
        if self.client is None:
            self.client = clearmap.Client(self.painter.server.port, timeout=PATIENCE)
            self.pin = self.client.pin()

    def end(self):
        """Ends the client; the next turn makes another one."""
        self.client.close()
        self.client = None

    def judge(self, found, wanted):
        """Compares an answer with what the pinned version says."""
        if found == wanted(self.painter.versions[self.pin.version]):
            self.right += 1
        else:
            self.wrong.append(found)

    def turn(self):
        """A call with an alarm, and one without."""
        self.ready()
        ask, wanted = a_question(self.rng)
        call = self.pin.renew if self.rng.random() < 0.1 else lambda: ask(self.pin)
        start = time.perf_counter()
        try:
            found, came = cut_off(call, max(1e-6, self.rng.random() * 1.5 * self.usual))
            if came:
                self.interrupts += 1
            else:
                self.usual += 0.05 * (time.perf_counter() - start - self.usual)
                if call != self.pin.renew:
                    self.judge(found, wanted)
            ask, wanted = a_question(self.rng)
            self.judge(ask(self.pin), wanted)
        except clearmap.ConnectionLost:
            self.lost += 1
            self.end()
        except clearmap.ClearmapError as fault:
            self.wrong.append(fault)
            self.end()


def interrupts(count, seed=1):
    """Interrupts calls this many times. How many answers were right, how many connections were
    lost, and the wrong answers."""
    rng = random.Random(seed)
    old = signal.signal(signal.SIGALRM, ring)
    try:
        with Painter(rng) as painter:
            client = Interrupted(painter, rng)
            while client.interrupts < count and len(client.wrong) < 1000:
                client.turn()
                if rng.random() < 0.02:
                    painter.publish()
    finally:
        signal.setitimer(signal.ITIMER_REAL, 0)
        signal.signal(signal.SIGALRM, old)
    return client


class Sharing:
    """Eight threads on one client and one pin."""

    def __init__(self, painter, calls, seed):
        self.painter, self.calls, self.seed = painter, calls, seed
        self.client = clearmap.Client(painter.server.port, timeout=PATIENCE)
        self.pin = self.client.pin()
        self.right, self.wrong = [0] * THREADS, []

    def run(self):
        """Runs all threads to their end."""
        threads = [threading.Thread(target=self.ask, args=(each,)) for each in range(THREADS)]
        for thread in threads:
            thread.start()
        while any(thread.is_alive() for thread in threads):
            self.painter.publish()
            time.sleep(0.05)
        self.client.close()

    def ask(self, number):
        """The calls of one thread; the first one renews the pin now and then."""
        rng = random.Random(self.seed + number)
        for turn in range(self.calls // THREADS):
            try:
                if number == 0 and turn % 50 == 0:
                    self.pin.renew()
                ask, wanted = a_question(rng)
                first = self.pin.version
                found = ask(self.pin)
                known = self.painter.versions[first : self.pin.version + 1]
                if any(found == wanted(version) for version in known):
                    self.right[number] += 1
                else:
                    self.wrong.append(found)
            except Exception as fault:
                self.wrong.append(fault)
                if len(self.wrong) > 1000:
                    return


class Cutter:
    """Raises an Alarm at one step of the interpreter in the client's own code."""

    HOME = str(pathlib.Path(clearmap.__file__).parent)

    def __init__(self, step):
        self.left = step

    def enter(self, frame, *_):
        """Traces only the client's functions."""
        if not frame.f_code.co_filename.startswith(self.HOME):
            return None
        frame.f_trace_opcodes = True
        return self.step

    def step(self, _, event, *__):
        self.left -= event == "opcode"
        if self.left == 0:
            sys.settrace(None)
            raise Alarm
        return self.step


KINDS = {
    "at": lambda client, pin: pin.at(0, 0),
    "ask": lambda client, pin: pin.ask(clearmap.Queries().at(0, 0).at(1, 1)),
    "dump": lambda client, pin: pin.dump(),
    "renew": lambda client, pin: pin.renew(),
    "paint": lambda client, pin: client.paint(22, 16, 23, 17),
    "publish": lambda client, pin: client.publish(collect=True),
    "abort": lambda client, pin: client.abort(),
    "unpin": lambda client, pin: pin.unpin(),
    "close": lambda client, pin: client.close(),
}


def cut_at(call, step, client, pin):
    """Makes a call that is cut off at a step, and says whether it came so far."""
    old = sys.gettrace()
    sys.settrace(Cutter(step).enter)
    try:
        call(client, pin)
        return False
    except Alarm:
        return True
    finally:
        sys.settrace(old)


def each_step(stride, seed=1):
    """Cuts a call of each kind off at every `stride`-th of its steps, and asks again. How many were
    cut off, and the wrong answers."""
    cuts, wrong = 0, []
    with Painter(random.Random(seed)) as painter:
        wanted = painter.versions[0].at(5, 3, "city")
        for call in KINDS.values():
            step, came = 1, True
            while came:
                with clearmap.Client(painter.server.port, timeout=PATIENCE) as client:
                    pin = client.pin()
                    came = cut_at(call, step, client, pin)
                    cuts, step = cuts + came, step + stride
                    try:
                        found = pin.at(5, 3, "city")
                    except clearmap.ClearmapError as lost:
                        is_left = str(lost) == "the pin was left"
                        is_lost = isinstance(lost, clearmap.ConnectionLost)
                        found = wanted if is_left or is_lost else lost
                    wrong += [found] if found != wanted else []
                painter.client.collect()
    return cuts, wrong


def pins_at_each_step(stride):
    """Cuts a pin off at every `stride`-th of its steps, and pins again. How many were cut off, and
    the wrong answers."""
    cuts, wrong = 0, []
    with Painter(random.Random(1)) as painter:
        wanted, step, came = painter.versions[0].at(5, 3, "city"), 1, True
        client = clearmap.Client(painter.server.port, timeout=PATIENCE, reconnect=True)
        while came:
            came = cut_at(lambda client, _: client.pin(), step, client, None)
            cuts, step = cuts + came, step + stride
            try:
                found = client.pin().at(5, 3, "city")
            except clearmap.ClearmapError as fault:
                found = wanted if "closed" in str(fault) else fault
            wrong += [found] if found != wanted else []
        client.close()
    return cuts, wrong


def drafts_at_each_step(stride):
    """Cuts a publish off at every `stride`-th of its steps that would say that changes may be lost.
    How many were cut off, and what was published in silence."""
    cuts, wrong = 0, []
    with Painter(random.Random(1)) as painter:
        step, came = 1, True
        while came:
            with clearmap.Client(painter.server.port, reconnect=True, checkpoints=True) as client:
                client.paint(0, 0, 1, 1)
                client._connection.close()
                said, came = told_of_a_loss(client, step)
                cuts, step = cuts + came, step + stride
                while not said:
                    try:
                        wrong.append(client.publish(collect=True))
                        break
                    except clearmap.ConnectionLost as lost:
                        said = LOST in str(lost)
    return cuts, wrong


def told_of_a_loss(client, step):
    """Whether a publish that is cut off at a step has told of it, and whether it was cut off."""
    old = sys.gettrace()
    sys.settrace(Cutter(step).enter)
    try:
        client.publish()
    except clearmap.ConnectionLost as lost:
        return LOST in str(lost), False
    except Alarm as alarm:
        return LOST in str(alarm.__context__), True
    finally:
        sys.settrace(old)
    return False, False


def calls_of_threads(calls, seed=1):
    """Asks this many questions from eight threads. How many answers were right, and the wrong ones.
    """
    with Painter(random.Random(seed)) as painter:
        sharing = Sharing(painter, calls, seed)
        sharing.run()
    return sum(sharing.right), sharing.wrong


def main():
    """All three, in their long form."""
    words = argparse.ArgumentParser(description=__doc__.split("\n")[0])
    words.add_argument("--interrupts", type=int, default=10_000)
    words.add_argument("--calls", type=int, default=100_000)
    words.add_argument("--stride", type=int, default=1)
    words.add_argument("--seed", type=int, default=1)
    told = words.parse_args()
    client = interrupts(told.interrupts, told.seed)
    print(f"{client.interrupts} interrupted calls: {client.right} answers right,", end=" ")
    print(f"{len(client.wrong)} wrong, {client.lost} connections lost", flush=True)
    cuts, after = each_step(told.stride, told.seed)
    for each in (pins_at_each_step, drafts_at_each_step):
        more, found = each(told.stride)
        cuts, after = cuts + more, after + found
    print(f"{cuts} calls cut off at a step: {len(after)} answers wrong", flush=True)
    right, wrong = calls_of_threads(told.calls, told.seed)
    print(f"{told.calls} calls of {THREADS} threads: {right} right, {len(wrong)} wrong")
    for answer in [*client.wrong[:3], *after[:3], *wrong[:3]]:
        print(f"wrong: {answer!r:.200}")
    return 1 if client.wrong or after or wrong else 0


if __name__ == "__main__":
    sys.exit(main())
