"""A server for the tests of the client that answers as instructed: wrongly, late or never."""
import contextlib
import signal
import socket
import threading

POST = b"P1\n6 4\n000000\n001000\n000000\n000000\n"  # one obstacle, at column 2 of row 1

OUTSIDE = b"ERR 1 OutOfRange\n"
SIZED = (b"OK 0\n", *[OUTSIDE] * 252, b"OK 0\n")  # what a map of one cell answers who asks its size
CHECKED = (b"OK 0\n", b"NONE\n", OUTSIDE, OUTSIDE, b"OK 0\n")  # and who checks it


class Ring(bytes):
    """Bytes that are sent, and after which an alarm comes, in the middle of the client's call."""


class Fake:
    """A server that answers each line with the next of these bytes, then waits or closes.

    With `then` a second connection, after the end of the first, is answered with these. `lines` is
    what was sent, by connections. It ends with its `with`, or 20 seconds later.
    """

    def __init__(self, *answers, closes=True, then=None):
        self.listener = socket.create_server(("127.0.0.1", 0))
        self.listener.settimeout(20)
        self.port = self.listener.getsockname()[1]
        self.done = threading.Event()
        self.lines = []
        self.thread = threading.Thread(target=self.serve, args=(answers, closes, then))
        self.thread.start()

    def serve(self, answers, closes, then):
        with self.listener.accept()[0] as stream, stream.makefile("rb") as lines:
            with contextlib.suppress(ConnectionError):  # the client went away
                self.answer(stream, lines, answers)
            if not closes and then is None:
                self.done.wait(20)
            elif not closes:
                with contextlib.suppress(ConnectionError):
                    lines.read()
        if then is not None:
            self.serve(then, False, None)

    def answer(self, stream, lines, answers):
        self.lines.append([])
        for answer in answers:
            line = lines.readline()
            if not line:
                return
            self.lines[-1].append(line)
            stream.sendall(answer)
            if isinstance(answer, Ring):
                signal.pthread_kill(threading.main_thread().ident, signal.SIGALRM)

    def __enter__(self):
        return self

    def __exit__(self, *_):
        self.done.set()
        self.thread.join()
        self.listener.close()
