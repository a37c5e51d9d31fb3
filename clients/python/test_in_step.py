#!/usr/bin/env python3
"""Tests that each answer of the client belongs to its question, whatever comes between the two."""
import contextlib
import os
import pathlib
import signal
import sys
import threading
import unittest

TOOLS = pathlib.Path(__file__).resolve().parent.parent.parent / "tools"
sys.path += [str(TOOLS), str(TOOLS / "stress")]

import clearmap
import stress_python_client as stress
from fakes import CHECKED, POST, SIZED, Fake, Ring
from served import Served


@contextlib.contextmanager
def alarms(handler):
    """For the time of a `with`, this is called when an alarm comes."""
    old = signal.signal(signal.SIGALRM, handler)
    try:
        yield
    finally:
        signal.signal(signal.SIGALRM, old)


class Interrupts(unittest.TestCase):
    """In each the server answers the interrupted call late: with the reply to the next line."""

    def cut_off(self, call):
        with self.assertRaises(stress.Alarm), alarms(stress.ring):
            call()

    def lost(self, call):
        with self.assertRaisesRegex(clearmap.ConnectionLost, "closed"):
            call()

    def test_a_query(self):
        late = b"OK 1 0 0\nOK 4 0 0\n"
        with Fake(b"OK 0\n", Ring(), late) as fake, clearmap.Client(fake.port) as client:
            pinned = client.pin()
            self.cut_off(lambda: pinned.at(0, 0))
            self.lost(lambda: pinned.at(0, 1))
            self.lost(client.pin)

    def test_a_batch_that_is_half_read(self):
        late = b"OK 2 0 0\nOK 3 0 0\nOK 4 0 0\n"
        answers = (b"OK 0\n", b"OK 1 0 0\n", b"", Ring(), late)
        for ask in (
            lambda pinned: pinned.clearances([(0, 0), (1, 0), (2, 0)]),
            lambda pinned: pinned.ask(clearmap.Queries().at(0, 0).at(1, 0).at(2, 0)),
        ):
            with Fake(*answers) as fake, clearmap.Client(fake.port, timeout=5) as client:
                pinned = client.pin()
                self.cut_off(lambda: ask(pinned))
                self.lost(lambda: pinned.at(3, 0))

    def test_a_checkpoint_that_is_half_done(self):
        answers = (b"ERR 4 LogFull\n", Ring(), b"OK 7\nOK 8\n")
        with Fake(*answers) as fake:
            with clearmap.Client(fake.port, timeout=5, checkpoints=True) as client:
                self.cut_off(client.publish)
                self.lost(client.revert)

    def test_a_renewal_that_is_half_done(self):
        with Fake(b"OK 0\n", b"OK 0\n", Ring(), b"OK 1\nOK 4 0 0\n") as fake:
            with clearmap.Client(fake.port, timeout=5) as client:
                pinned = client.pin()
                self.cut_off(pinned.renew)
                self.lost(lambda: pinned.at(0, 0))

    def test_a_dump_that_is_half_read(self):
        with Fake(b"OK 0\n", Ring(b"OK 12\nP1\n2 2\n"), b"01\n10OK 4 0 0\n") as fake:
            with clearmap.Client(fake.port, timeout=5) as client:
                pinned = client.pin()
                self.cut_off(pinned.dump)
                self.lost(lambda: pinned.at(0, 0))

    def test_the_interrupt_comes_out(self):
        """What was raised in a `with` isn't replaced by the loss of the connection."""
        with Fake(b"OK 0\n", Ring(), b"") as fake, clearmap.Client(fake.port) as client:
            with self.assertRaises(stress.Alarm), client.pin() as pinned, alarms(stress.ring):
                pinned.at(0, 0)

    def test_a_handler_that_asks(self):
        """A call in the middle of another one takes no reply of it; both are told so."""
        late = b"OK 1 0 0\nOK 4 0 0\n"
        cut_off = "a call was cut off on this connection, which is closed now"
        for seconds in (10, None):
            said = []
            with Fake(b"OK 0\n", Ring(), late) as fake:
                with clearmap.Client(fake.port, timeout=seconds) as client:
                    pinned = client.pin()

                    def handler(*_):
                        try:
                            said.append(pinned.at(5, 3))
                        except clearmap.ConnectionLost as fault:
                            said.append(str(fault))

                    with alarms(handler), self.assertRaises(clearmap.ConnectionLost):
                        said.append(pinned.at(0, 0))
            self.assertEqual(said, [cut_off])

    def test_a_handler_that_ends_the_client(self):
        with Fake(b"OK 0\n", Ring(), b"OK 1 0 0\n") as fake:
            with clearmap.Client(fake.port) as client:
                pinned = client.pin()
                with alarms(lambda *_: client.close()):
                    with self.assertRaisesRegex(clearmap.ConnectionLost, "closed"):
                        pinned.at(0, 0)
        self.assertEqual(fake.lines[0][2:], [])

    def test_points_that_ask(self):
        """A path's points may be asked for while the path is made up: nothing is sent by then."""
        with Served(POST) as server, clearmap.Client(server.port) as client:
            with client.pin() as pinned:

                def points():
                    for x in (0, 2):
                        yield x, 0 if pinned.at(x, 0).distance else 1

                self.assertEqual(pinned.path(points()), (1, (2, 0), (2, 1)))

                def fails():
                    yield 0, 0
                    raise KeyboardInterrupt

                self.assertRaises(KeyboardInterrupt, pinned.path, fails())
                self.assertEqual(pinned.at(0, 0).distance, 5)

    def test_each_step(self):
        """At each fifth step of the interpreter, in a call of each kind."""
        cuts, wrong = stress.each_step(5)
        self.assertEqual(wrong[:3], [])
        self.assertGreater(cuts, 50)

    def test_many(self):
        client = stress.interrupts(500)
        self.assertEqual(client.wrong[:3], [])
        self.assertGreaterEqual(client.interrupts, 500)
        self.assertGreater(client.right, 100)


class Threads(unittest.TestCase):
    def test_many(self):
        right, wrong = stress.calls_of_threads(5000)
        self.assertEqual((right, wrong[:3]), (5000, []))

    def test_a_pin_that_another_thread_leaves(self):
        """Each answer is of the version that was pinned, or the pin is said to be left."""
        with Served(POST) as server, clearmap.Client(server.port) as client:
            said = []

            def ask(pinned):
                with contextlib.suppress(clearmap.ClearmapError):
                    while True:
                        said.append((pinned.version, pinned.at(0, 0).distance))

            for turn in range(20):
                pinned = client.pin()
                thread = threading.Thread(target=ask, args=(pinned,))
                thread.start()
                client.clear(0, 0, 1, 1) if turn % 2 else client.paint(0, 0, 1, 1)
                client.publish()
                client.collect()
                pinned.unpin()
                with client.pin():
                    thread.join()
            known = {(version % 2, distance) for version, distance in said}
            self.assertEqual(known - {(0, 5), (1, 0)}, set())


class Pins(unittest.TestCase):
    def test_a_pin_that_nobody_has(self):
        """It was dropped without an unpin: the next pin is of the newest version."""
        with Served(POST) as server, clearmap.Client(server.port) as client:
            self.assertEqual(client.pin().at(0, 0).distance, 5)
            client.paint(0, 0, 1, 1)
            client.publish()
            for _ in range(3):
                self.assertEqual(client.pin().at(0, 0).distance, 0)
            self.assertEqual(client.collect().floor, 1)

    def test_a_pin_that_somebody_has(self):
        with Served(POST) as server, clearmap.Client(server.port) as client:
            first = client.pin()
            with self.assertRaisesRegex(clearmap.AlreadyPinned, "unpin the other pin$"):
                client.pin()
            self.assertEqual(first.at(0, 0).distance, 5)
            first.unpin()
            second = client.pin()
            first = None
            self.assertRaises(clearmap.AlreadyPinned, client.pin)
            self.assertEqual(second.at(0, 0).distance, 5)

    def test_a_pin_that_an_interrupt_takes(self):
        """At each step of the interpreter: the next pin answers."""
        cuts, wrong = stress.pins_at_each_step(3)
        self.assertEqual(wrong[:3], [])
        self.assertGreater(cuts, 30)


class Processes(unittest.TestCase):
    def child(self, work):
        """What a forked child writes."""
        reader, writer = os.pipe()
        process = os.fork()
        if process == 0:
            try:
                os.write(writer, str(work()).encode())
            finally:
                os._exit(0)
        os.close(writer)
        with open(reader) as text:
            said = text.read()
        os.waitpid(process, 0)
        return said

    def test_a_fork(self):
        with Served(POST) as server, clearmap.Client(server.port, reconnect=True) as client:
            with client.pin() as pinned, clearmap.Client(server.port) as other:

                def told(call):
                    try:
                        return call()
                    except clearmap.ConnectionLost as fault:
                        return fault

                for call in (lambda: pinned.at(0, 0), client.publish, lambda: other.size):
                    said = self.child(lambda: told(call))
                    self.assertIn("a forked process can't use its parent's connection", said)
                    self.assertEqual(pinned.at(5, 3), (13, (2, 1)))

    def test_a_child_that_ends_its_client(self):
        with Served(POST) as server, clearmap.Client(server.port) as client:
            with client.pin() as pinned:

                def leaves():
                    pinned.__exit__(None, None, None)
                    client.__exit__(None, None, None)
                    return "left"

                self.assertEqual(self.child(leaves), "left")
                self.assertEqual(pinned.at(5, 3), (13, (2, 1)))


class Servers(unittest.TestCase):
    def test_a_reply_that_nobody_asked_for(self):
        """It came with the reply before, or after it."""
        for answers in ((b"OK 0\nOK 1 0 0\n",), (b"OK 0\n", b"OK 1 0 0\nOK 2 0 0\n")):
            with Fake(*answers, closes=False) as fake:
                with clearmap.Client(fake.port, timeout=5) as client:
                    pinned = client.pin()
                    for _ in answers[1:]:
                        pinned.at(0, 0)
                    with self.assertRaisesRegex(clearmap.ConnectionLost, "unasked"):
                        pinned.at(1, 1)
                    with self.assertRaisesRegex(clearmap.ConnectionLost, "is closed"):
                        pinned.at(1, 1)

    def test_all_workers_taken(self):
        """Two clients that say nothing keep both workers."""
        with Served(POST, "--workers", "2") as server, contextlib.ExitStack() as idle:
            for _ in range(2):
                idle.enter_context(clearmap.Client(server.port)).publish()
            sentence = "connected, but no worker has answered within 0.5 s: "
            sentence += "are all workers of the server taken?"
            for size in (None, (6, 4)):
                with self.assertRaises(clearmap.TimedOut) as late:
                    clearmap.Client(server.port, timeout=0.5, size=size).publish()
                self.assertEqual(str(late.exception), sentence)

    def test_a_server_that_stops_answering(self):
        with Fake(b"OK 0\n", closes=False) as fake:
            with clearmap.Client(fake.port, timeout=2) as client:
                pinned = client.pin()
                with self.assertRaisesRegex(clearmap.TimedOut, "^no reply within 2 s$"):
                    pinned.at(0, 0)

    def test_no_time(self):
        for seconds in (0, -1, float("nan")):
            with self.assertRaisesRegex(ValueError, "more than 0"):
                clearmap.Client(1, timeout=seconds)

    def test_all_time(self):
        with Fake(b"OK 7\n") as fake, clearmap.Client(fake.port, timeout=float("inf")) as client:
            self.assertEqual(client.revert(), 7)
        with self.assertRaisesRegex(TypeError, "a port of True"):
            clearmap.Client(True)


class Reconnecting(unittest.TestCase):
    def restarted(self, image, server, *flags):
        """Another server at the port of one that has ended."""
        server.end()
        other = Served(image, *flags, port=server.port)
        self.addCleanup(other.end)
        return other

    def test_a_server_that_comes_back(self):
        with Served(POST) as server:
            with clearmap.Client(server.port, reconnect=True) as client:
                old = client.pin()
                self.restarted(b"P1\n6 4\n010000\n" + b"0" * 18, server)
                self.assertEqual(client.paint(0, 0, 1, 1), (1, 1))
                with self.assertRaisesRegex(clearmap.ConnectionLost, "its pin lost: pin again"):
                    old.at(0, 0)
                with client.pin() as pinned:
                    self.assertEqual(pinned.at(0, 0), (1, (1, 0)))
                    self.assertRaises(clearmap.ConnectionLost, old.at, 0, 0)
                    self.assertEqual(pinned.at(1, 0), (0, (1, 0)))

    def test_only_where_it_is_wanted(self):
        with Served(POST) as server, clearmap.Client(server.port) as client:
            client.publish()
            self.restarted(POST, server)
            self.assertRaises(clearmap.ConnectionLost, client.publish)
            self.assertRaises(clearmap.ConnectionLost, client.publish)
        with Served(POST) as server, clearmap.Client(server.port, reconnect=True) as client:
            client.close()
            with self.assertRaisesRegex(clearmap.ConnectionLost, "is closed"):
                client.publish()

    def test_no_command_is_sent_twice(self):
        with Fake(*SIZED, b"OK", then=(*CHECKED, b"OK 9\n")) as fake:
            with clearmap.Client(fake.port, timeout=5, reconnect=True) as client:
                self.assertRaises(clearmap.ConnectionLost, client.publish)
                self.assertEqual(client.revert(), 9)
        commands = [lines[len(asked) :] for asked, lines in zip((SIZED, CHECKED), fake.lines)]
        self.assertEqual(commands, [[b"PUBLISH\n"], [b"REVERT\n"]])

    def test_after_an_interrupt(self):
        """The call that finds out raises, and the next one reconnects."""
        late = (*CHECKED, b"OK 0\n", b"OK 4 0 0\n")
        with Fake(*SIZED, b"OK 0\n", Ring(), closes=False, then=late) as fake:
            with clearmap.Client(fake.port, timeout=5, reconnect=True) as client:
                pinned = client.pin()
                with self.assertRaises(stress.Alarm), alarms(stress.ring):
                    pinned.at(0, 0)
                self.assertRaises(clearmap.ConnectionLost, pinned.at, 0, 0)
                self.assertEqual(client.pin().at(7, 7), (4, (0, 0)))

    def test_another_map(self):
        for told, asks in ((True, True), (False, True), (False, False)):
            with Served(POST) as server:
                size = (6, 4) if told else None
                with clearmap.Client(server.port, size=size, reconnect=True) as client:
                    if asks:
                        self.assertEqual(client.size, (6, 4))
                    other = self.restarted(b"P1\n4 6\n" + b"0" * 24, server)
                    for _ in range(2):
                        with self.assertRaisesRegex(clearmap.WrongMap, "4 by 6 cells, and 6 by 4"):
                            client.pin()
                    self.restarted(POST, other)
                    self.assertEqual(client.pin().at(0, 0).distance, 5)


if __name__ == "__main__":
    unittest.main()
