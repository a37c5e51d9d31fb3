#!/usr/bin/env python3
"""Tests of clearmap-view's page in headless Chromium where servers come and go, and where another
site is open in the same browser. CLEARMAP names the built program."""
import http.server
import io
import sys
import threading
import unittest

from testing import OBSTACLE, By, InBrowser

import clearmap
from served import Served


class Servers(InBrowser):
    def test_the_server_ends_and_comes_back(self):
        """Without a server no button that changes its map is live."""
        self.open()
        self.mode("paint")
        self.served.end()
        self.until(lambda: "can't be asked" in self.text("server"))
        commands = self.driver.find_elements(By.CSS_SELECTOR, "[data-command]")
        self.assertEqual([it.is_enabled() for it in commands], [False] * 5)
        for name, live in (("look", True), ("path", True), ("paint", False), ("clear", False)):
            button = self.driver.find_element(By.CSS_SELECTOR, f"[data-mode={name}]")
            self.assertEqual(button.is_enabled(), live, name)
        again = Served(b"P1\n3 2\n000\n001\n", port=self.served.port)
        self.addCleanup(again.end)
        self.until(lambda: self.text("server").endswith("3 by 2 cells"))
        self.until(lambda: self.colour(2, 1) == OBSTACLE)
        self.until(lambda: all(it.is_enabled() for it in commands))
        self.served.process.stdout = io.BytesIO()

    def test_no_server_at_all(self):
        """There is no empty legend, and no live button."""
        self.open()
        self.served.end()
        self.until(lambda: "can't be asked" in self.text("server"))
        self.viewed.end()
        self.serve_page()
        self.driver.get(self.viewed.url)
        self.until(lambda: "can't be asked" in self.text("server"))
        self.assertFalse(self.driver.find_element(By.ID, "legend").is_displayed())
        buttons = self.driver.find_elements(By.CSS_SELECTOR, "button")
        self.assertEqual([it.text for it in buttons if it.is_enabled()], [])
        self.served.process.stdout = io.BytesIO()


class Elsewhere(http.server.BaseHTTPRequestHandler):
    """A site of another address."""

    def do_GET(self):
        self.send_response(200)
        self.end_headers()
        self.wfile.write(b"<title>elsewhere</title>")

    def log_message(self, *_):
        pass


class AnotherOrigin(InBrowser):
    def test_another_origin(self):
        """A page of another address in the same browser neither changes nor reads anything."""
        self.open()
        with http.server.ThreadingHTTPServer(("127.0.0.1", 0), Elsewhere) as site:
            threading.Thread(target=site.serve_forever, daemon=True).start()
            self.driver.get(f"http://127.0.0.1:{site.server_address[1]}/")
            tried = self.driver.execute_async_script(
                """const [url, done] = arguments;
                const body = JSON.stringify({ command: "paint", rect: [0, 0, 1, 1] });
                const one = (options, path) => fetch(url + path, options)
                  .then((it) => it.text()).then((text) => text || "empty", () => "no answer");
                const guess = { "X-Clearmap-Token": "guess" };
                Promise.all([
                  one({ method: "POST", mode: "no-cors", body }, "change"),
                  one({ method: "POST", body, headers: guess }, "change"),
                  one({}, "at?metric=city&x=0&y=0"), one({}, ""),
                ]).then(done);""",
                self.viewed.url,
            )
            site.shutdown()
        log = [entry["message"] for entry in self.driver.get_log("browser")]
        blocked = [message for message in log if "blocked by CORS policy" in message]
        self.assertEqual(len(blocked), 3)  # all but the one that asked for no answer
        for said in tried:
            self.assertIn(said, ("empty", "no answer"))
        with clearmap.Client(self.served.port) as other:
            self.assertEqual(other.revert(), 1)


if __name__ == "__main__":
    sys.exit(unittest.main())
