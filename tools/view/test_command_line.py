#!/usr/bin/env python3
"""Tests of clearmap-view's command line, and of a page whose server isn't there yet. CLEARMAP names
the built program."""
import pathlib
import socket
import subprocess
import sys
import tempfile
import time
import unittest

from testing import HERE, PATIENCE, POST, YAML, Viewed

from served import Served


class CommandLine(unittest.TestCase):
    def refused(self, *words):
        """The status and what is said, on standard error alone."""
        script = [sys.executable, str(HERE / "clearmap_view.py"), *words]
        run = subprocess.run(script, capture_output=True, text=True, timeout=PATIENCE)
        self.assertEqual(run.stdout, "")
        return run.returncode, run.stderr

    def test_refused(self):
        with socket.create_server(("127.0.0.1", 0)) as taken:
            web = str(taken.getsockname()[1])
            status, said = self.refused("--port", "7400", "--web", web)
        self.assertEqual((status, said.count("\n")), (1, 1))
        self.assertIn("can't be had: Address already in use", said)
        with tempfile.TemporaryDirectory() as folder:
            yaml = pathlib.Path(folder, "map.yaml")
            yaml.write_text(YAML.replace("image: map.pgm\n", ""))
            status, said = self.refused("--port", "7400", "--web", "0", "--map", str(yaml))
        self.assertEqual((status, said.count("\n")), (1, 1))
        self.assertIn("no 'image'", said)
        for words in (("--port", "0"), (), ("--port", "7400", "--radius", "wide")):
            self.assertEqual(self.refused(*words)[0], 2)
        said = self.refused("--port", "7400", "--radius", "0,22")[1]
        self.assertIn("'0,22' is no radius: a number from 0 to 10000, as 0.22", said)

    def test_no_server_yet(self):
        with socket.create_server(("127.0.0.1", 0)) as listener:
            port = listener.getsockname()[1]
        viewed = Viewed(port)
        self.addCleanup(viewed.end)
        states = viewed.events()
        while "can't be asked" not in next(states)["fault"]:
            pass
        self.assertEqual(viewed.ask("GET", "/picture/city")[0], 503)
        served = Served(POST, port=port)
        self.addCleanup(served.end)
        self.assertEqual(next(states)["version"], 0)

    def printed(self, port, until, *words):
        """What is said on standard error by the time that `until` holds of a state, and some looks
        later."""
        viewed = Viewed(port, *words, errors=subprocess.PIPE)
        states = viewed.events()
        while not until(next(states)):
            pass
        time.sleep(1)
        states.close()
        viewed.process.terminate()
        return viewed.process.communicate(timeout=PATIENCE)[1]

    def test_what_is_printed(self):
        """A port without a server, and a map of another size: what the page says, once."""
        with socket.create_server(("127.0.0.1", 0)) as listener:
            port = listener.getsockname()[1]
        said = self.printed(port, lambda state: "can't be asked" in state["fault"])
        why = "can't be asked: nobody listens there. It is tried again."
        self.assertEqual(said, f"clearmap-view: The server at port {port} {why}\n")
        folder = pathlib.Path(self.enterContext(tempfile.TemporaryDirectory()))
        (folder / "map.yaml").write_text(YAML)
        (folder / "map.pgm").write_bytes(b"P5\n2 1\n255\n\xfe\xfe")
        with Served(POST) as served:
            yaml = str(folder / "map.yaml")
            said = self.printed(served.port, lambda state: "notice" in state, "--map", yaml)
        sizes = "The yaml's image has 2 by 1 cells, and the served map 6 by 4"
        self.assertEqual(said, f"clearmap-view: {sizes}: no metres are shown.\n")


if __name__ == "__main__":
    sys.exit(unittest.main())
