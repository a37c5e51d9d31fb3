#!/usr/bin/env python3
"""A fleet: 200 followers in four processes while a map is painted at random and Redis, publishers
and followers are killed. Each answer is compared with the version that it names.

FOLLOWERS in the environment is how many there are, SECONDS how long it goes on."""
import collections
import hashlib
import os
import pathlib
import random
import signal
import subprocess
import sys
import tempfile
import time
import unittest

from test_publish import Publishes
from testing import HERE, PATIENCE, Keys, nearest_of, np, room

FOLLOWERS = int(os.environ.get("FOLLOWERS", "200"))
SECONDS = float(os.environ.get("SECONDS_BUSY", "8"))
PROCESSES = 4


class Following:
    """A process of followers."""

    def __init__(self, url, count, seed, folder):
        self.path = pathlib.Path(folder, f"followers{seed}")
        words = [sys.executable, str(HERE / "following.py"), url, "yard", str(count), str(seed)]
        self.process = subprocess.Popen(
            [*words, str(self.path)], stdin=subprocess.PIPE, stdout=subprocess.PIPE, text=True
        )

    def end(self, number):
        """How many have this version in the end."""
        told = self.process.communicate(f"{number}\n", timeout=2 * PATIENCE)[0]
        return int(told or -1)

    def kill(self):
        self.process.kill()
        self.process.communicate()

    def answers(self):
        """The words of each whole line that it wrote."""
        text = self.path.read_text(encoding="ascii")
        return [line.split() for line in text[: text.rfind("\n") + 1].splitlines()]


def nearest(obstacles, x, y, metric):
    """What AT answers, by looking at each obstacle."""
    if not len(obstacles):
        return ["NONE"]
    dx, dy = abs(obstacles[:, 1] - x), abs(obstacles[:, 0] - y)
    far = {"euclid2": dx * dx + dy * dy, "city": dx + dy, "chess": np.maximum(dx, dy)}[metric]
    row, column = obstacles[np.lexsort((obstacles[:, 0], dy, obstacles[:, 1], far))[0]]
    return [str(far.min()), str(column), str(row)]


class Fleet(Publishes):
    flags = ("--maxclients", "2000")

    def setUp(self):
        super().setUp()
        self.folder = self.enterContext(tempfile.TemporaryDirectory())
        self.random, self.seed = random.Random(11), 0
        self.server = self.serve(room(150, 200))
        self.painter = self.paint(self.server)
        self.publisher = self.publish(self.server.port, "--interval", "0.02")
        self.followings = [self.follow_all() for _ in range(PROCESSES)]
        self.killed = []

    def follow_all(self):
        self.seed += 1
        count = FOLLOWERS // PROCESSES
        following = Following(self.redis.url, count, self.seed, self.folder)
        self.addCleanup(following.kill)
        return following

    def lose_redis(self):
        self.redis.kill()
        self.painter.publish()
        self.redis.start()

    def lose_publisher(self):
        self.publisher.end(signal.SIGKILL)
        self.painter.publish()
        self.redis.client.delete(Keys("yard").lease)
        self.publisher = self.publish(self.server.port, "--interval", "0.02")

    def lose_followers(self):
        following = self.followings.pop(0)
        following.kill()
        self.killed.append(following)
        self.followings.append(self.follow_all())

    def test_each_answer(self):
        begun, number = time.monotonic(), 0
        losses = [self.lose_redis, self.lose_publisher, self.lose_followers, self.lose_redis]
        for k, lose in enumerate((*losses, None)):
            while time.monotonic() < begun + SECONDS * (k + 1) / 5:
                number = self.painter.publish()
                time.sleep(self.random.choice((0, 0.02, 0.1)))
            if lose is not None:
                lose()
        number = self.painter.publish()
        have = [following.end(number) for following in self.followings]
        self.assertEqual(sum(have), FOLLOWERS // PROCESSES * PROCESSES)
        self.compare([*self.killed, *self.followings], number)

    def compare(self, followings, last):
        """Each version is one that was published, whole, and each answer that of its version."""
        known = {number: self.painter.grid(number) for number in self.painter.known}
        digests = {k: hashlib.sha256(grid.tobytes()).hexdigest() for k, grid in known.items()}
        obstacles = {number: np.argwhere(grid) for number, grid in known.items()}
        table = nearest_of(self.painter.known[last])
        counts = collections.Counter()
        for following in followings:
            for kind, *words in following.answers():
                counts[kind] += 1
                if kind == "MAP":
                    self.assertEqual(words[5], digests[int(words[2])])
                    continue
                number, _, metric, *cell = words[:5]
                x, y = map(int, cell)
                self.assertEqual(words[5:], nearest(obstacles[int(number)], x, y, metric))
                if int(number) == last and metric == "euclid2":
                    near, counts["table"] = table[y][x], counts["table"] + 1
                    self.assertEqual(words[5:], [str(k) for k in (near[0], *near[1])])
        self.assertGreater(counts["MAP"], 2 * FOLLOWERS)
        self.assertGreater(counts["AT"], 1000)
        print(f"{counts['MAP']} versions and {counts['AT']} answers of {len(known)} versions")


if __name__ == "__main__":
    unittest.main()
