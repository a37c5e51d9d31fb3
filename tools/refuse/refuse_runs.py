"""Refuses each request for memory of the built program in turn: of `dist`, `steps`, `serve` with
one connection, and `ask`.

A run with one request refused answers as it does with all its memory (where a growth by a hint is
made again smaller), or reports out of memory once, by the line `ERR 5 Memory`: on its own and with
status 1, or in place of one reply, and then all others are what they are without that line. If the
N-th request and each later one are refused, the same holds, and there may be several.
"""
import socket
import subprocess

from refusing import PATIENCE, Wrong, sweep

WANT = b"ERR 5 Memory\n"
CORNER = b"P1\n3 2\n100\n000\n"
BLANK = b"P1\n64 64\n" + b"0" * 4096 + b"\n"
WIDE = b"P4\n130 200\n" + bytes((at * 37 + 11) % 256 if at % 50 == 0 else 0 for at in range(17 * 200))
EVENTS = [
    b"OPEN 64 64 3 2 1 10\n", b"C PAINT 0 0 1 1\n", b"K 1\n", b"C PUBLISH\n", b"K 66\n", b"C COLLECT\n", b"K 2\n", b"A 0\n", b"L 0\n", b"E 0\n", b"M 0 0\n",
    b"T 0 1 0\n", b"V 0\n", b"C REVERT\n", b"K 1\n", b"C CLEAR 0 0 1 1\n", b"K 1\n", b"C CHECKPOINT\n", b"K 1\n",
]
PAINTS = [b"PAINT 0 0 1 1\n", b"PAINT 0 0 1 1\n", b"QUIT\n"]
LINES = [
    b"PIN\n", b"PAINT 0 0 1 1\n", b"STAMP 2 1 11\nP1\n2 2\n1001", b"PUBLISH\n", b"REVERT\n", b"COLLECT\n", b"UNPIN\n", b"PIN\n", b"AT chess 0 0\n",
    b"RECT euclid2 0 0 1 1\n", b"PATH city 0 0 5 0 5 3\n", b"CLEAROF city 1 0 0 5 0\n", b"DUMP\n", b"UNPIN\n", b"CLEAR 0 0 1 1\n", b"PUBLISH\n", b"COLLECT\n",
    b"CHECKPOINT\n", b"PIN\n", b"DUMP\n", b"QUIT\n",
]
REVERTS = [b"REVERT\n"] * 40 + [b"QUIT\n"]


def converse(port, sent):
    """Sends all to a server, and reads to the end."""
    got = b""
    try:
        with socket.create_connection(("127.0.0.1", port), timeout=PATIENCE) as it:
            try:
                it.sendall(sent)
                it.shutdown(socket.SHUT_WR)
            except ConnectionError:
                pass
            while more := it.recv(65536):
                got += more
    except ConnectionError:
        pass
    except TimeoutError:
        raise Wrong(f"a connection waits for over {PATIENCE} seconds") from None
    return got


def replies_to(lines, got):
    """The replies to these lines, each with the bytes that it counts; none if they don't fit."""
    replies = []
    for line in lines:
        reply, end, got = got.partition(b"\n")
        if not end:
            return None
        count = int(reply.split()[1]) if line.startswith(b"DUMP") and reply.startswith(b"OK ") else 0
        replies.append(reply + end + got[:count])
        got = got[count:]
    return replies if not got else None


class Runs:
    """The program, and what it answers with all its memory."""

    def __init__(self, refuser, program):
        self.refuser, self.program = refuser, str(program)
        self.whole = {}

    def is_ample(self):
        """Whether no request of the last run was refused: then none may be answered with out of
        memory."""
        return not self.refuser.refused()

    def known(self, key, make):
        """An answer that is found once."""
        if key not in self.whole:
            self.whole[key] = make()
        return self.whole[key]

    def dist(self, mode, number, words, image):
        want = self.known((*words,), lambda: self.refuser.run([self.program, *words], image))
        status, out, err = self.refuser.run([self.program, *words], image, mode, number)
        if err or (status, out) not in ((0, want[1]), (1, WANT)) or (self.is_ample() and status):
            return f"status {status}, {out[:120]!r}, {err[:120]!r}"
        return None

    def steps(self, mode, number):
        """An order that found no memory changes nothing: a line of no form in its place changes
        nothing either."""

        def without(wanting):
            lines = [b"Z\n" if at in wanting else line for at, line in enumerate(EVENTS)]
            return self.refuser.run([self.program, "steps"], b"".join(lines))[1].splitlines(True)

        status, out, err = self.refuser.run([self.program, "steps"], b"".join(EVENTS), mode, number)
        if self.is_ample() and WANT in out:
            return "out of memory where nothing was refused"
        answers = out.splitlines(True)
        wanting = tuple(at for at, answer in enumerate(answers) if answer == WANT)
        if not err and (status, out) == (1, WANT):
            return None
        want = self.known(wanting, lambda: without(wanting))
        orders = all(EVENTS[at].startswith(b"C ") for at in wanting)
        if err or status or not orders or (mode == "at" and len(wanting) > 1) or answers != [WANT if at in wanting else it for at, it in enumerate(want)]:
            return f"status {status}, {out[:200]!r}, {err[:120]!r}"
        return None

    def served(self, words, lines, mode=None, number=0):
        """One run of a server: its first line, what one connection got, its other lines, its
        status."""
        environment = self.refuser.environment(mode, number) if mode else None
        server = subprocess.Popen(
            [self.program, "serve", "--connections", "1", *words], stdin=subprocess.PIPE, stdout=subprocess.PIPE, stderr=subprocess.PIPE, env=environment
        )
        try:
            try:
                server.stdin.write(BLANK)
                server.stdin.close()
            except BrokenPipeError:
                pass
            first = server.stdout.readline()
            port = int(first.split()[1]) if first.startswith(b"LISTENING ") else None
            got = converse(port, b"".join(lines)) if port else b""
            rest, err, status = server.stdout.read(), server.stderr.read(), server.wait(timeout=PATIENCE)
        except subprocess.TimeoutExpired:
            raise Wrong(f"serve is not done after {PATIENCE} seconds") from None
        finally:
            if server.poll() is None:
                server.kill()
                server.wait()
        if status < 0 or err:
            raise Wrong(f"status {status}, {err[:120]!r}")
        return first, got, rest, status

    def serve(self, mode, number, words, lines):
        """The line of the opening, that of the pool, a connection that is told or has no buffers,
        or replies."""

        def without(wanting):
            left = [line for at, line in enumerate(lines) if at not in wanting]
            return replies_to(left, self.served(words, left)[1]) if left else []

        first, got, rest, status = self.served(words, lines, mode, number)
        if self.is_ample() and (WANT in first + got + rest or not got):
            return "out of memory where nothing was refused"
        if not first.startswith(b"LISTENING "):
            return None if (first, rest, status) == (WANT, b"", 1) else f"{first!r}, {rest!r}, status {status}"
        if (got, rest, status) == (b"", WANT, 1) or (rest == b"SERVED 1 0\n" and got in (b"", WANT) and status == 0):
            return None
        replies = replies_to(lines, got) or []
        wanting = tuple(at for at, reply in enumerate(replies) if reply == WANT)
        others = [reply for at, reply in enumerate(replies) if at not in wanting]
        want = self.known((*words, *lines, *wanting), lambda: without(wanting))
        if status or not replies or not rest.startswith(b"SERVED 1 ") or others != want or (mode == "at" and len(wanting) > 1):
            return f"{got[:200]!r}, {rest!r}, status {status}"
        return None

    def ask(self, mode, number):
        """The client under refusals; its server has all its memory."""
        want = self.known("ask", lambda: self.asked(None, 0))
        status, out, err = self.asked(mode, number)
        if self.is_ample() and WANT in out:
            return "out of memory where nothing was refused"
        early = status == 1 and out.endswith(WANT) and want[1].startswith(out[: -len(WANT)])
        return None if not err and ((status, out) == want[:2] or early) else f"status {status}, {out[-120:]!r}, {err[:120]!r}"

    def asked(self, mode, number):
        """One run of `ask`. The server has a second connection to end by, where the client made
        none."""
        server = subprocess.Popen([self.program, "serve", "--connections", "1"], stdin=subprocess.PIPE, stdout=subprocess.PIPE)
        server.stdin.write(BLANK)
        server.stdin.close()
        port = int(server.stdout.readline().split()[1])
        try:
            return self.refuser.run([self.program, "ask", "--port", str(port)], b"".join(LINES), mode, number)
        finally:
            converse(port, b"QUIT\n")
            server.stdout.read()
            server.wait(timeout=PATIENCE)


def refuse_runs(refuser, program, only=""):
    """Sweeps each kind of run, prints how many requests were refused, and answers what was wrong.
    """
    runs = Runs(refuser, program)
    query = ["dist", "--query", "PATH city 2 1 1 1 1 0"]
    one = ["--workers", "1", "--blocks"]
    kinds = {
        "dist": lambda mode, n: runs.dist(mode, n, ["dist"], CORNER),
        "dist --metric city --nearest": lambda mode, n: runs.dist(mode, n, ["dist", "--metric", "city", "--nearest"], CORNER),
        "dist --query PATH": lambda mode, n: runs.dist(mode, n, query, CORNER),
        "dist, 130 by 200": lambda mode, n: runs.dist(mode, n, ["dist", "--workers", "1"], WIDE),
        "dist, 130 by 200, 4 workers": lambda mode, n: runs.dist(mode, n, ["dist", "--workers", "4"], WIDE),
        "steps": runs.steps,
        "serve, two paints": lambda mode, n: runs.serve(mode, n, [*one, "2"], PAINTS),
        "serve, each line": lambda mode, n: runs.serve(mode, n, [*one, "8"], LINES),
        "serve, each line, 4 workers": lambda mode, n: runs.serve(mode, n, ["--blocks", "8"], LINES),
        "serve, forty reverts": lambda mode, n: runs.serve(mode, n, [*one, "2"], REVERTS),
        "ask": runs.ask,
    }
    wrong = []
    print("\n| Run | One refused, N from 1 to | That and all after it, N from 1 to |\n|---|---|---|")
    for name, once in kinds.items():
        if only not in name:
            continue
        counts = []
        for mode in ("at", "from"):

            def turn(number):
                why = once(mode, number)
                return refuser.refused(), why

            met, others = sweep(turn)
            counts.append(met)
            wrong += [f"{name}, {mode} {why}" for why in others]
            if not met:
                wrong.append(f"{name}, {mode}: no request was met")
        print(f"| `{name}` | {counts[0]} | {counts[1]} |", flush=True)
    return wrong
