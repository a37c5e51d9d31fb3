#!/usr/bin/env python3
"""Tests of what a client believes of the draft: where changes may be lost with an earlier
connection, the first publish over a new one raises, whoever was told of the loss in which way."""
import asyncio
import concurrent.futures
import contextlib
import pathlib
import sys
import threading
import unittest

TOOLS = pathlib.Path(__file__).resolve().parent.parent.parent / "tools"
sys.path += [str(TOOLS), str(TOOLS / "stress")]

import clearmap
import lost_drafts
import stress_python_client as stress
from fakes import POST
from served import Served

AGAIN = "paint again, and publish"
PAINTED = POST.replace(b"000000", b"100000", 1)


class Own(Exception):
    """What a caller raises by itself."""


# ---- the ways by which a caller swallows that the connection was lost


def by_an_own_exception(client, restart):
    with contextlib.suppress(Own), client.pin():
        client.paint(0, 0, 1, 1)
        restart()
        raise Own


def by_a_generator_that_is_closed(client, restart):
    def steps():
        with client.pin():
            client.paint(0, 0, 1, 1)
            yield

    running = steps()
    next(running)
    restart()
    with contextlib.suppress(clearmap.ConnectionLost):
        running.close()


def by_a_pin_that_is_left(client, restart):
    pinned = client.pin()
    client.paint(0, 0, 1, 1)
    restart()
    with contextlib.suppress(clearmap.ConnectionLost):
        pinned.unpin()


def by_a_query(client, restart):
    pinned = client.pin()
    client.paint(0, 0, 1, 1)
    restart()
    with contextlib.suppress(clearmap.ConnectionLost):
        pinned.at(0, 0)


def by_a_pin_without_a_server(client, restart):
    client.paint(0, 0, 1, 1)
    restart(lambda: suppressed(client.pin))


def by_a_paint_without_a_server(client, restart):
    """A painter that repeats what wasn't accepted, and nothing else."""
    client.paint(0, 0, 1, 1)
    restart(lambda: suppressed(lambda: client.paint(5, 3, 6, 4)))
    client.paint(5, 3, 6, 4)


def by_a_publish_without_a_server(client, restart):
    client.paint(0, 0, 1, 1)
    restart(lambda: suppressed(client.publish))


def by_a_collect(client, restart):
    """In silence: it finds the new connection."""
    client.paint(0, 0, 1, 1)
    restart()
    client.collect()


def by_another_thread(client, restart):
    pinned = client.pin()
    in_a_thread(lambda: client.paint(0, 0, 1, 1))
    restart()
    suppressed(lambda: pinned.at(0, 0))


def by_threads_of_one_identifier(client, restart):
    """A thread that ended, and others that get its number."""
    pinned = client.pin()
    painter = in_a_thread(lambda: client.paint(0, 0, 1, 1))
    restart()
    for _ in range(20):
        if in_a_thread(lambda: suppressed(lambda: pinned.at(0, 0))) == painter:
            break


def by_two_tasks_of_one_thread(client, restart):
    async def paints(run):
        await run(lambda: client.paint(0, 0, 1, 1))

    async def asks(run, pinned):
        await run(lambda: suppressed(lambda: pinned.at(0, 0)))

    async def all_of_it():
        loop = asyncio.get_running_loop()
        with concurrent.futures.ThreadPoolExecutor(1) as pool:

            def run(call):
                return loop.run_in_executor(pool, call)

            pinned = await run(client.pin)
            await asyncio.create_task(paints(run))
            restart()
            await asyncio.create_task(asks(run, pinned))

    asyncio.run(all_of_it())


WAYS = (
    by_an_own_exception,
    by_a_generator_that_is_closed,
    by_a_pin_that_is_left,
    by_a_query,
    by_a_pin_without_a_server,
    by_a_paint_without_a_server,
    by_a_publish_without_a_server,
    by_a_collect,
    by_another_thread,
    by_threads_of_one_identifier,
    by_two_tasks_of_one_thread,
)


def suppressed(call):
    with contextlib.suppress(clearmap.ConnectionLost):
        call()


def in_a_thread(call):
    thread = threading.Thread(target=call)
    thread.start()
    thread.join()
    return thread.ident


class Drafts(unittest.TestCase):
    def setUp(self):
        self.server = Served(POST)
        self.addCleanup(lambda: self.server.end())
        self.client = clearmap.Client(self.server.port, reconnect=True)
        self.addCleanup(self.client.close)

    def restart(self, meanwhile=lambda: None):
        """Another server at the same port, whose draft is the same map's."""
        port = self.server.port
        self.server.end()
        meanwhile()
        self.server = Served(POST, port=port)

    def is_told(self):
        with self.assertRaisesRegex(clearmap.ConnectionLost, AGAIN):
            self.client.publish()

    def published(self):
        """The newest version, as another client sees it."""
        with clearmap.Client(self.server.port) as other, other.pin() as pinned:
            return pinned.version, pinned.dump()

    def test_each_way(self):
        for way in WAYS:
            with self.subTest(way=way.__name__):
                way(self.client, self.restart)
                self.is_told()
                self.assertEqual(self.published(), (0, POST))
                self.client.revert()
                self.client.paint(0, 0, 1, 1)
                self.assertEqual(self.client.publish(), 1)
                self.assertEqual(self.published(), (1, PAINTED))

    def test_told_once(self):
        """What was painted over the new connection is published by the next publish."""
        self.client.paint(0, 0, 1, 1)
        self.restart()
        self.client.paint(5, 3, 6, 4)
        self.is_told()
        self.assertEqual(self.client.publish(), 1)
        self.assertEqual(self.published()[1], POST[:-2] + b"1\n")
        self.client.paint(0, 0, 1, 1)
        self.restart()
        self.is_told()

    def test_lost_again(self):
        """What was painted over the new connection, before the publish that was told, is lost with
        that connection."""
        self.client.paint(0, 0, 1, 1)
        self.restart()
        self.client.paint(5, 3, 6, 4)
        self.is_told()
        self.restart()
        self.is_told()
        self.assertEqual(self.client.publish(), 1)

    def test_what_is_not_lost(self):
        """It was published, or reverted before or after the loss, or refused."""

        def refused():
            self.assertRaises(clearmap.OutOfRange, self.client.paint, 0, 0, 7, 1)

        for before, after in (
            (self.client.publish, None),
            (self.client.revert, None),
            (None, self.client.revert),
        ):
            self.client.paint(0, 0, 1, 1)
            if before:
                before()
            refused()
            self.restart()
            if after:
                after()
            self.assertEqual(self.client.publish(), 1)

    def test_without_a_server_for_a_while(self):
        """Who is told, reverts and paints all of it again needs no second word."""
        self.client.paint(0, 0, 1, 1)

        def meanwhile():
            for call in (self.client.revert, lambda: self.client.paint(1, 0, 2, 1)):
                self.assertRaisesRegex(clearmap.ConnectionLost, "no server", call)

        self.restart(meanwhile)
        self.client.revert()
        self.client.paint(0, 0, 1, 1)
        self.assertEqual(self.client.publish(), 1)
        self.assertEqual(self.published(), (1, PAINTED))

    def test_each_step_of_a_publish(self):
        """An interrupt may take the error's place: then it has it as its context, or the next
        publish raises it."""
        cuts, wrong = stress.drafts_at_each_step(5)
        self.assertEqual(wrong[:3], [])
        self.assertGreater(cuts, 20)

    def test_storm(self):
        """Lost servers, interrupts, threads and swallowed errors."""
        storm = lost_drafts.storm(400)
        self.assertEqual(storm.wrong[:3], [])
        self.assertGreater(storm.published, 20)
        self.assertGreater(storm.told, 5)


if __name__ == "__main__":
    unittest.main()
