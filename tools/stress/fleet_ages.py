#!/usr/bin/env python3
"""Followers' ages while publishers, servers, Redis and links are killed and stand still at random.

A map is painted and published at random; eight followers, half of them over links of their own,
are asked for their version's `stale` all the time. A version was the server's newest until the next
one was certainly there: the answer to its PUBLISH had come, or its server had been started. `stale`
may be less than the time since then by 0.3 s at most, and over 3 s `error` may not be None. Prints
what was done, and the samples; status 1 if one is wrong. Needs redis-server and python3-redis.

    tools/stress/fleet_ages.py [SECONDS] [SEED]        600 and 1 by default
"""
import bisect
import contextlib
import pathlib
import random
import signal
import sys
import threading
import time

sys.path.append(str(pathlib.Path(__file__).resolve().parent.parent / "fleet"))
from testing import Publishing, Redis, Served, blank, clearmap, clock, free_port

from test_links import Link

SLACK, LOST = 0.3, 3.0  # seconds
FOLLOWERS = 8
WIDTH, HEIGHT, BITS = 300, 200, 16


def image_of(number):
    """A blank map whose first cells are the bits of a server's number."""
    image = bytearray(blank(WIDTH, HEIGHT))
    start = len(image) - (WIDTH + 7) // 8 * HEIGHT
    image[start : start + 2] = number.to_bytes(2, "big")
    return bytes(image)


class Painted:
    """The served map, one server after another, and when each of its versions was replaced."""

    def __init__(self, chance):
        self.chance, self.count, self.port = chance, 0, free_port()
        self.order, self.replaced = [], {}  # versions as (server, number), in their order
        self.server, self._ended = None, threading.Event()
        self.start()
        self._thread = threading.Thread(target=self._paint, daemon=True)
        self._thread.start()

    def start(self):
        """Starts the next server on the same port."""
        self.count += 1
        self.server = Served(image_of(self.count), "--workers", "8", port=self.port)
        self.came((self.count, 0))

    def came(self, version):
        """This version is the newest from now on at the latest."""
        if self.order:
            self.replaced[self.order[-1]] = clock.now()
        self.order.append(version)

    def _paint(self):
        """Paints and publishes until the end."""
        while not self._ended.is_set():
            count = self.count
            with contextlib.suppress(clearmap.ClearmapError):
                with clearmap.Client(self.port, timeout=60, checkpoints=True) as client:
                    while count == self.count and not self._ended.is_set():
                        self._publish(client, count)
            time.sleep(0.1)

    def _publish(self, client, count):
        x, y = self.chance.randrange(WIDTH - 8), self.chance.randrange(1, HEIGHT - 8)
        client.paint(x, y, x + 8, y + 8)
        number = client.publish()
        if count == self.count:
            self.came((count, number))
        client.collect()
        self._ended.wait(self.chance.choice((0.05, 0.3, 1, 4)))

    def end(self):
        self._ended.set()
        self.server.process.send_signal(signal.SIGCONT)
        self._thread.join()
        self.server.end()


class Publisher:
    """A publisher that is started again whenever it ends, as a service."""

    def __init__(self, port, url):
        self._port, self._url, self._ended = port, url, threading.Event()
        self.now = Publishing(port, url)
        threading.Thread(target=self._watch, daemon=True).start()

    def _watch(self):
        while not self._ended.wait(0.2):
            if self.now.process.poll() is not None:
                self.now.end()
                time.sleep(0.5)
                self.now = Publishing(self._port, self._url)

    def end(self):
        self._ended.set()
        time.sleep(1)
        self.now.end(signal.SIGKILL)


class Samples:
    """What followers tell, against what is known."""

    def __init__(self, followers):
        self.followers, self.taken, self.silent, self.known = followers, [], 0, {}
        self._ended = threading.Event()
        self._thread = threading.Thread(target=self._run, daemon=True)
        self._thread.start()

    def _run(self):
        while not self._ended.wait(0.01):
            for follower in self.followers:
                with contextlib.suppress(clearmap.NoVersion):
                    self._take(follower)

    def _take(self, follower):
        """A sample: the time is from before it."""
        version, now = follower.version, clock.now()
        stale, own, error = follower.stale, version.stale, follower.error
        if follower.version is version:
            self.taken.append((now, min(stale, own), self._named(version)))
            self.silent += stale > LOST and version.stale >= stale and error is None

    def _named(self, version):
        """The server and the number of a version."""
        if version.order not in self.known:
            cells = version.map.grid(0, 1)[0][:BITS]
            number = sum(int(cell) << (BITS - 1 - k) for k, cell in enumerate(cells))
            self.known[version.order] = (number, version.number)
        return self.known[version.order]

    def end(self):
        self._ended.set()
        self._thread.join()

    def wrong(self, painted):
        """By how many seconds each sample of a version that was replaced is too small."""
        return sorted(now - painted.replaced[name] - stale for now, stale, name in self.taken
                      if painted.replaced.get(name, now) < now)  # fmt: skip


class Faults:
    """Kills and stalls, one after another, some of them at once."""

    def __init__(self, chance, painted, redis, publisher, links):
        self.chance, self.painted, self.redis = chance, painted, redis
        self.publisher, self.links, self.done = publisher, links, {}

    def run(self, seconds):
        end = time.monotonic() + seconds
        kinds = [self.kill_publisher, self.kill_redis, self.kill_server, self.cut_links,
                 self.stop_publisher, self.stop_redis, self.stop_server, self.stop_links,
                 self.stop_redis_and_server]  # fmt: skip
        while time.monotonic() < end:
            fault = self.chance.choice(kinds)
            self.done[fault.__name__] = self.done.get(fault.__name__, 0) + 1
            fault()
            time.sleep(self.chance.uniform(0.5, 6))

    def stop(self, *processes):
        """Holds processes up for some seconds."""
        for process in processes:
            process.send_signal(signal.SIGSTOP)
        time.sleep(self.chance.choice((0.3, 1, 2, 4.9, 6, 11)))
        for process in processes:
            process.send_signal(signal.SIGCONT)

    def kill_publisher(self):
        self.publisher.now.process.kill()

    def kill_redis(self):
        self.redis.kill()
        time.sleep(self.chance.uniform(0, 4))
        self.redis.start()

    def kill_server(self):
        self.painted.server.end()
        time.sleep(self.chance.uniform(0, 4))
        self.painted.start()

    def cut_links(self):
        for link in self.links:
            link.cut()

    def stop_links(self):
        chosen = self.chance.sample(self.links, self.chance.randint(1, len(self.links)))
        for link in chosen:
            link.is_still = True
        time.sleep(self.chance.choice((0.3, 1, 2, 4.9, 6)))
        for link in chosen:
            link.is_still = False

    def stop_publisher(self):
        self.stop(self.publisher.now.process)

    def stop_redis(self):
        self.stop(self.redis.process)

    def stop_server(self):
        self.stop(self.painted.server.process)

    def stop_redis_and_server(self):
        self.stop(self.redis.process, self.painted.server.process)


def told(samples, painted, done):
    """Prints what came of it; whether all is right."""
    wrong = samples.wrong(painted)
    over = len(wrong) - bisect.bisect_right(wrong, SLACK)
    print(", ".join(f"{name} {count}" for name, count in sorted(done.items())))
    print(f"{len(painted.order):,} versions of {painted.count} servers; followers took "
          f"{len(samples.known):,}")  # fmt: skip
    worst = max(wrong, default=0.0)
    print(f"{len(samples.taken):,} samples, {len(wrong):,} of them of a version that was replaced: "
          f"{over} too small by more than {SLACK} s; at most by {worst:.3f} s; {samples.silent} "
          f"over {LOST:g} s without an error")  # fmt: skip
    return bool(wrong) and not over and not samples.silent


def main():
    seconds, seed = map(int, (sys.argv[1:] + ["600", "1"][len(sys.argv) - 1 :])[:2])
    chance = random.Random(seed)
    with Redis() as redis, contextlib.ExitStack() as stack:
        links = [stack.enter_context(Link(redis.port)) for _ in range(FOLLOWERS // 2 + 1)]
        painted = Painted(random.Random(seed + 1))
        publisher = Publisher(painted.port, links[0].url)
        urls = [redis.url] * (FOLLOWERS - FOLLOWERS // 2) + [link.url for link in links[1:]]
        samples = Samples([stack.enter_context(clearmap.Follower(url, "yard")) for url in urls])
        faults = Faults(chance, painted, redis, publisher, links)
        try:
            faults.run(seconds)
        finally:
            samples.end()
            publisher.end()
            painted.end()
        return 0 if told(samples, painted, faults.done) else 1


if __name__ == "__main__":
    sys.exit(main())
