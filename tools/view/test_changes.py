#!/usr/bin/env python3
"""Tests of who may change the map through clearmap-view, and of changes that are refused. CLEARMAP
names the built program."""
import json
import sys
import unittest

from testing import Viewing

import clearmap
from aiohttp.test_utils import make_mocked_request
from following import Wanted
from site_of_map import Site


class Addresses(unittest.TestCase):
    def test_the_port_of_http(self):
        """A browser leaves port 80 out of Host and Origin, and no other one."""
        wanted = Wanted(7400, None, False)
        for own, host, origin, is_own in (
            (80, "127.0.0.1", "http://127.0.0.1", True),
            (80, "localhost", "http://localhost", True),
            (80, "127.0.0.1:80", "http://127.0.0.1:80", True),
            (80, "127.0.0.1", "http://127.0.0.1:7480", False),
            (80, "example.org", "http://example.org", False),
            (80, "127.0.0.1", "http://example.org", False),
            (7480, "127.0.0.1", "http://127.0.0.1", False),
            (7480, "127.0.0.1:7480", "http://127.0.0.1", False),
        ):
            headers = {"Host": host, "Origin": origin}
            request = make_mocked_request("POST", "/change", headers)
            self.assertEqual(Site(own, wanted).is_own(request), is_own, (own, headers))


class Changes(Viewing):
    def test_changes_want_the_token(self):
        viewed, _ = self.view()
        paint = json.dumps({"command": "paint", "rect": [0, 0, 1, 1]})
        own = viewed.url.strip("/")
        refused = (
            {},
            {"X_Clearmap_Token": "guess"},
            {"X_Clearmap_Token": self.token, "Origin": "http://example.org"},
            {"X_Clearmap_Token": self.token, "Origin": "null"},
            {"X_Clearmap_Token": self.token, "Origin": f"http://127.0.0.1:{viewed.port + 1}"},
            {"X_Clearmap_Token": self.token, "Host": "example.org"},
            {"X_Clearmap_Token": self.token, "Host": f"example.org:{viewed.port}"},
            {"X_Clearmap_Token": self.token, "Host": "127.0.0.1"},
            {"X_Clearmap_Token": self.token, "Sec_Fetch_Site": "cross-site"},
        )
        for headers in refused:
            with self.subTest(headers=headers):
                self.assertEqual(viewed.ask("POST", "/change", paint, **headers)[0], 403)
        self.assertEqual(viewed.ask("GET", "/", Host="example.org")[0], 403)
        asked = viewed.ask("GET", "/at?metric=city&x=0&y=0", Sec_Fetch_Site="cross-site")
        self.assertEqual(asked[0], 403)
        with clearmap.Client(self.served.port) as other:
            self.assertEqual(other.revert(), 1)  # none of these was a command
        words = {"X_Clearmap_Token": self.token, "Origin": own}
        status, said = viewed.ask("POST", "/change", paint, **words)
        wanted = {"said": "1 cell of the draft painted, place 2 of the log."}
        self.assertEqual((status, json.loads(said)), (200, wanted))

    def test_refused_changes(self):
        viewed, _ = self.view()
        for body, text in (
            ({"command": "paint", "rect": [0, 0, 7, 1]}, "isn't wholly on the map (ERR 1"),
            ({"command": "paint", "rect": [0, 0, 0, 1]}, "one cell at least"),
            ({"command": "paint", "rect": [0, 0, 1]}, "four whole numbers"),
            ({"command": "quit"}, "no such command"),
            ({"command": "paint", "rect": [0, 0, 1, 1], "page": 7}, "at most 40 characters"),
            ({"command": "publish", "page": "x" * 41}, "at most 40 characters"),
            ({"command": "undo", "place": "last"}, "a place of the log is a whole number"),
        ):
            said = viewed.ask("POST", "/change", json.dumps(body), X_Clearmap_Token=self.token)[1]
            self.assertIn(text, json.loads(said)["fault"])

    def test_read_only(self):
        viewed, state = self.view("--read-only")
        self.assertEqual((state["readOnly"], self.token), (True, ""))
        publish = viewed.ask("POST", "/change", '{"command": "publish"}', X_Clearmap_Token="")
        self.assertEqual(publish[0], 403)
        with clearmap.Client(self.served.port) as other:
            self.assertEqual(other.revert(), 1)


if __name__ == "__main__":
    sys.exit(unittest.main())
