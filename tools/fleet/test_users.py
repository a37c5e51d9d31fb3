#!/usr/bin/env python3
"""Tests of a Redis as docs/use/FLEET.md sets it up: its users, TLS, and a replica with users."""
import pathlib
import re
import shutil
import subprocess
import tempfile
import unittest

import redis

from test_publish import Publishes
from testing import HERE, PATIENCE, Direct, Keys, Publishing, Redis, clearmap, np, until

PAGE = HERE.parent.parent / "docs/use/FLEET.md"
DEPOT, ROBOT = "depot:publishing@", "robot:following@"


def blocks():
    """The indented blocks of the page."""
    text = PAGE.read_text(encoding="utf-8")
    found = re.findall(r"(?:^    .*\n)+", text, re.MULTILINE)
    return [re.sub(r"^    ", "", block, flags=re.MULTILINE) for block in found]


def configured(folder):
    """The configuration that the page's commands write, in this folder instead of `/etc/redis`."""
    (commands,) = (block for block in blocks() if "/etc/redis/clearmap.conf" in block)
    lines = [line for line in commands.splitlines() if not re.match("apt-get|systemctl", line)]
    script = "\n".join(lines).replace("/etc/redis/", f"{folder}/")
    subprocess.run(["sh", "-ec", script], check=True)
    return pathlib.Path(folder, "redis.conf")


class Users(Publishes):
    def setUp(self):
        self.folder = self.enterContext(tempfile.TemporaryDirectory())
        self.path = configured(self.folder)
        flags = "--include", str(self.path), "--bind", "127.0.0.1"
        self.redis = self.enterContext(Redis(*flags, user=DEPOT))
        self.robots = self.redis.url.replace(DEPOT, ROBOT)

    def follow(self, name="yard", url=None):
        return self.enterContext(clearmap.Follower(url or self.robots, name))

    def test_their_rights_are_enough(self):
        """Versions come and go, and so do a publisher and Redis."""
        server = self.serve()
        painter, follower = self.paint(server), self.follow()
        with self.publish(server.port, "--keep", "2", "--interval", "0.01") as publisher:
            for _ in range(6):
                self.has(follower, painter, painter.publish())
            self.assertEqual(publisher.end(), 0)
            self.assertEqual(publisher.said, [])
        with self.publish(server.port, "--keep", "2") as publisher:
            self.has(follower, painter, painter.publish())
            self.redis.kill()
            number = painter.publish()
            self.assertTrue(until(lambda: follower.error is not None))
            self.redis.start()
            self.has(follower, painter, number)
            self.assertTrue(until(lambda: not self.redis.strays("yard")))
            self.assertLessEqual(len(publisher.said), 2, publisher.said)

    def test_their_rights_are_no_more(self):
        keys, other = Keys("yard"), Keys("other")
        robot = redis.Redis.from_url(self.robots)
        for call in ((robot.set, keys.newest, 1), (robot.delete, keys.tiles), (robot.keys, "*"),
                     (robot.hset, keys.tiles, "a", "b"), (robot.publish, keys.news, 1),
                     (robot.eval, "return 1", 0), (robot.get, other.newest), (robot.flushall,),
                     (robot.config_get, "*")):  # fmt: skip
            with self.assertRaises(redis.exceptions.NoPermissionError):
                call[0](*call[1:])
        depot = self.redis.client
        for call in ((depot.set, other.newest, 1), (depot.publish, other.news, 1),
                     (depot.config_set, "maxmemory", 1), (depot.flushall,)):  # fmt: skip
            with self.assertRaises(redis.exceptions.NoPermissionError):
                call[0](*call[1:])

    def test_what_is_said(self):
        """Of rights and passwords that are missing one line is told, without the password."""
        server = self.serve()
        publisher = self.publish(server.port, name="other")
        self.assertTrue(publisher.says("Redis: "))
        self.assertRegex(publisher.said[0], "[Pp]ermission")
        with Publishing(server.port, self.robots) as publisher:
            self.assertTrue(publisher.says("'eval'"))
        wrong = self.robots.replace("following", "secret")
        with Publishing(server.port, wrong) as publisher:
            self.assertTrue(publisher.says("invalid username-password pair"))
            self.assertNotIn("secret", " ".join(publisher.said))
        for url, name, said in ((wrong, "yard", "invalid username"), (self.robots, "other", "perm"),
                                (self.redis.url.replace(DEPOT, ""), "yard", "uthent")):  # fmt: skip
            follower = self.follow(name, url)
            with self.assertRaisesRegex(clearmap.NoVersion, said) as caught:
                until(lambda: follower.error is not None)
                follower.version
            self.assertNotIn("secret", str(caught.exception))

    def test_a_replica(self):
        """The page's user and settings for a replica, whose robots are those of the page."""
        self.redis.kill()
        (copier,) = (block for block in blocks() if block.startswith("user copy"))
        (settings,) = (block for block in blocks() if block.startswith("replicaof"))
        with self.path.open("a") as stream:
            stream.write(copier)
        self.redis.start()
        there = configured(self.enterContext(tempfile.TemporaryDirectory()))
        with there.open("a") as stream:
            stream.write(settings.replace("store 6379", f"127.0.0.1 {self.redis.port}"))
        flags = "--include", str(there), "--bind", "127.0.0.1"
        other = self.enterContext(Redis(*flags, user=ROBOT))
        server = self.serve()
        painter, follower = self.paint(server), self.follow(url=other.url)
        self.publish(server.port)
        for _ in range(3):
            self.has(follower, painter, painter.publish())


@unittest.skipUnless(shutil.which("openssl"), "TLS left out: there is no openssl")
class Encrypted(unittest.TestCase):
    def setUp(self):
        self.folder = self.enterContext(tempfile.TemporaryDirectory())
        for name in ("ca", "other"):
            self.run_openssl("req", "-x509", "-newkey", "rsa:2048", "-nodes", "-days", "2",
                             "-subj", f"/CN={name}", "-keyout", f"{name}.key", "-out",
                             f"{name}.crt")  # fmt: skip
        pathlib.Path(self.folder, "names").write_text("subjectAltName=IP:127.0.0.1")
        self.run_openssl("req", "-newkey", "rsa:2048", "-nodes", "-subj", "/CN=store", "-keyout",
                         "store.key", "-out", "store.csr")  # fmt: skip
        self.run_openssl("x509", "-req", "-in", "store.csr", "-CA", "ca.crt", "-CAkey", "ca.key",
                         "-CAcreateserial", "-extfile", "names", "-days", "2", "-out",
                         "store.crt")  # fmt: skip

    def run_openssl(self, *words):
        subprocess.run(["openssl", *words], cwd=self.folder, check=True, capture_output=True)

    def test_the_settings_of_the_page(self):
        """Who knows the authority follows; who knows another one, or speaks plainly, doesn't."""
        (settings,) = (block for block in blocks() if block.startswith("port 0"))
        with Redis() as plain:  # for its port
            pass
        port = str(plain.port)
        path = pathlib.Path(self.folder, "tls.conf")
        settings = settings.replace("/etc/redis", self.folder).replace("6380", port)
        path.write_text(f'{settings}bind 127.0.0.1\nsave ""\ndir {self.folder}\n')
        server = subprocess.Popen(["redis-server", str(path)], stdout=subprocess.DEVNULL)
        self.addCleanup(server.wait)
        self.addCleanup(server.kill)
        url = "rediss://127.0.0.1:%s?ssl_ca_certs=%s/%s.crt&ssl_check_hostname=true"
        right, wrong = (url % (port, self.folder, name) for name in ("ca", "other"))
        direct = type("At", (), {"client": redis.Redis.from_url(right)})
        grid = np.eye(300, 400) > 0
        self.assertTrue(until(lambda: server.poll() is None and self.shows(direct, grid)))
        with clearmap.Follower(right, "yard") as follower:
            version = follower.wait(timeout=PATIENCE)
            self.assertTrue((version.map.grid() == grid).all())
        for other in (wrong, f"redis://127.0.0.1:{port}", right.replace("127.0.0.1", "localhost")):
            with clearmap.Follower(other, "yard") as follower:
                with self.assertRaises(clearmap.NoVersion):
                    follower.wait(timeout=1)
                self.assertTrue(until(lambda: follower.error is not None))

    def shows(self, direct, grid):
        """Whether a version could be published."""
        try:
            return Direct(direct).show(grid)
        except redis.RedisError:
            return None


if __name__ == "__main__":
    if not shutil.which("openssl"):
        print("TLS left out: there is no openssl")
    unittest.main()
