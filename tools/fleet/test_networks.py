#!/usr/bin/env python3
"""Tests of links that go down between three networks of this machine: that of a server, that of
Redis and that of followers, where this user may make them."""
import atexit
import os
import pathlib
import shutil
import subprocess
import sys
import tempfile
import time
import unittest

from testing import HERE, PATIENCE, PROGRAM, room

NETWORKS = ("server", "redis", "robots")


class Networks:
    """Three networks of this machine, each with an address that the one of Redis reaches."""

    def __init__(self):
        self.stem = f"clearmap{os.getpid()}"

    def __enter__(self):
        atexit.register(self.__exit__)  # where the test is ended
        for name in NETWORKS:
            self.ip("netns", "add", f"{self.stem}{name}")
            self.ip("-n", f"{self.stem}{name}", "link", "set", "lo", "up")
        for number, name in ((1, "server"), (2, "robots")):
            far, near = f"{self.stem}{name}", f"{self.stem}redis"
            self.ip("link", "add", "up0", "netns", far, "type", "veth", "peer", "name", name,
                    "netns", near)  # fmt: skip
            for space, device, last in ((far, "up0", 2), (near, name, 1)):
                address = f"10.213.{number}.{last}/24"
                self.ip("-n", space, "address", "add", address, "dev", device)
                self.ip("-n", space, "link", "set", device, "up")
        return self

    def __exit__(self, *_):
        for name in NETWORKS:
            self.ip("netns", "del", f"{self.stem}{name}", check=False)

    def ip(self, *words, check=True):
        subprocess.run(["ip", *words], check=check, capture_output=True)

    def inside(self, name):
        """What stands before a command that runs in one of them."""
        return ["ip", "netns", "exec", f"{self.stem}{name}"]

    def set(self, name, state):
        """Takes a network's link down, or up again."""
        self.ip("-n", f"{self.stem}{name}", "link", "set", "up0", state)


def has_networks():
    """Whether this user may make networks."""
    if os.getuid() or not shutil.which("ip"):
        return False
    made = subprocess.run(["ip", "netns", "add", f"clearmap{os.getpid()}"], capture_output=True)
    subprocess.run(["ip", "netns", "del", f"clearmap{os.getpid()}"], capture_output=True)
    return made.returncode == 0


@unittest.skipUnless(has_networks(), "this user can't make networks")
class ThreeNetworks(unittest.TestCase):
    def setUp(self):
        self.folder = self.enterContext(tempfile.TemporaryDirectory())
        self.networks = self.enterContext(Networks())

    def start(self, name, *words, **others):
        process = subprocess.Popen([*self.networks.inside(name), *words], **others)
        for stream in (process.stdin, process.stdout, process.stderr):
            if stream is not None:
                self.addCleanup(stream.close)
        self.addCleanup(process.wait)
        self.addCleanup(process.kill)
        return process

    def ask(self, lines):
        """What the server answers to these lines."""
        words = [*self.networks.inside("server"), PROGRAM, "ask", "--port", "7400"]
        return subprocess.run(words, input=lines, capture_output=True, text=True).stdout

    def versions(self):
        """The numbers of what has come, of the first follower."""
        text = pathlib.Path(self.folder, "out").read_text(encoding="ascii")
        return [int(line.split()[3]) for line in text.splitlines() if line.startswith("MAP 0 ")
                and len(line.split()) == 7]  # fmt: skip

    def test_links(self):
        """Links go down and come up again: each side says so, and goes on."""
        self.start("redis", "redis-server", "--bind", "0.0.0.0", "--protected-mode", "no",
                   "--save", "", "--dir", self.folder, stdout=subprocess.DEVNULL)  # fmt: skip
        server = self.start("server", PROGRAM, "serve", "--port", "7400", "--connections", "999",
                            stdin=subprocess.PIPE, stdout=subprocess.PIPE)  # fmt: skip
        server.stdin.write(room(600, 500))
        server.stdin.close()
        server.stdout.readline()
        publisher = self.start(
            "server", sys.executable, str(HERE / "clearmap_publish.py"), "--port", "7400",
            "--name", "yard", "--redis", "redis://10.213.1.1", stdout=subprocess.DEVNULL,
            stderr=subprocess.PIPE, text=True,
        )  # fmt: skip
        robots = self.start(
            "robots", sys.executable, "-u", str(HERE / "following.py"), "redis://10.213.2.1",
            "yard", "3", "1", str(pathlib.Path(self.folder, "out")),
            stdin=subprocess.PIPE, stdout=subprocess.PIPE, text=True,
        )  # fmt: skip
        losses = ("robots", 3), ("server", 7), ("robots", 3)  # 7: the publisher gives up a wait
        for number, (name, seconds) in enumerate(losses, 1):
            self.networks.set(name, "down")
            self.assertIn(f" {number}", self.ask(f"PAINT {number} 5 9 9\nPUBLISH\nQUIT\n"))
            time.sleep(seconds)
            self.networks.set(name, "up")
        number = int(self.ask("PAINT 50 50 99 99\nPUBLISH\nQUIT\n").split()[5])
        told, _ = robots.communicate(f"{number}\n", timeout=3 * PATIENCE)
        self.assertEqual(told, "3\n")
        found = self.versions()
        self.assertEqual((found, found[-1]), (sorted(set(found)), number))
        publisher.terminate()
        said = publisher.communicate(timeout=PATIENCE)[1].splitlines()
        self.assertEqual(len(said), 2, said)
        self.assertIn("Redis takes versions again", said[1])


if __name__ == "__main__":
    if not has_networks():
        print("three networks left out: this user can't make them")
    unittest.main()
