"""What the tests of clearmap-view share: a page's server, its answers, and headless Chromium."""
import http.client
import json
import os
import pathlib
import re
import shutil
import subprocess
import sys
import unittest

HERE = pathlib.Path(__file__).resolve().parent
sys.path[:0] = [
    str(HERE),
    str(HERE.parent),
    str(HERE.parent.parent / "clients/python"),
    str(HERE.parent / "ros"),
]

from clearmap.runs import no_library
from served import Served

try:
    from selenium import webdriver
    from selenium.webdriver.chrome.service import Service
    from selenium.webdriver.common.action_chains import ActionChains
    from selenium.webdriver.common.by import By
    from selenium.webdriver.support.expected_conditions import alert_is_present
    from selenium.webdriver.support.ui import Select, WebDriverWait
except ImportError:
    webdriver = By = ActionChains = Select = alert_is_present = None

POST = b"P1\n6 4\n000000\n001000\n000000\n000000\n"  # one obstacle, at column 2 of row 1
YAML = """image: map.pgm
resolution: 0.5
origin: [-1.0, -2.0, 0.0]
negate: 0
occupied_thresh: 0.65
free_thresh: 0.196
"""
OBSTACLE = [16, 18, 24, 255]  # its colour on the page, by light
PATIENCE = 30  # seconds for what a busy machine takes its time for


class Viewed:
    """A clearmap-view of a port, with a page's port that the system picks."""

    def __init__(self, port, *words, library=True, errors=None):
        environment = dict(os.environ)
        if not library:
            environment["CLEARMAP_LIBRARY"] = "/no/such/library"
        words = [
            sys.executable,
            str(HERE / "clearmap_view.py"),
            "--port",
            str(port),
            "--web",
            "0",
            *words,
        ]
        errors = errors if library else subprocess.DEVNULL
        self.process = subprocess.Popen(
            words, stdout=subprocess.PIPE, stderr=errors, text=True, env=environment
        )
        self.url = self.process.stdout.readline().split()[1]
        self.port = int(self.url.rsplit(":", 1)[1].strip("/"))

    def ask(self, method, path, body=None, **headers):
        """The status and the body of a request's answer."""
        connection = http.client.HTTPConnection("127.0.0.1", self.port, timeout=PATIENCE)
        connection.request(
            method,
            path,
            body=body,
            headers={name.replace("_", "-"): value for name, value in headers.items()},
        )
        answer = connection.getresponse()
        text = answer.read()
        connection.close()
        return answer.status, text

    def events(self):
        """The states sent to the page, in order."""
        connection = http.client.HTTPConnection("127.0.0.1", self.port, timeout=PATIENCE)
        connection.request("GET", "/events")
        answer = connection.getresponse()
        try:
            while line := answer.readline():
                if line.startswith(b"data: "):
                    yield json.loads(line[6:])
        finally:
            answer.close()
            connection.close()

    def end(self):
        self.process.terminate()
        self.process.wait(PATIENCE)
        self.process.stdout.close()


class Viewing(unittest.TestCase):
    """Tests of what a page's server answers. `library` says whether it may use the library."""

    library = True

    @property
    def in_process(self):
        """Whether answers come from the library."""
        return self.library and not no_library()

    def setUp(self):
        self.served = Served(POST)
        self.addCleanup(self.served.end)

    @property
    def port(self):
        """The port that the page's server is given."""
        return self.served.port

    def view(self, *words):
        """A page's server that has a version, and the first state that has it."""
        viewed = Viewed(self.port, *words, library=self.library)
        self.addCleanup(viewed.end)
        states = viewed.events()
        state = next(states)
        while "version" not in state:
            state = next(states)
        self.states = states
        self.token = re.search(rb'name="token" content="([^"]*)"', viewed.ask("GET", "/")[1])[
            1
        ].decode()
        return viewed, state


class WithoutLibrary:
    """Makes tests of what a page's server answers without the library."""

    library = False


def browser():
    """Headless Chromium, if it and its driver are installed."""
    binary, driver = shutil.which("chromium"), shutil.which("chromedriver")
    if webdriver is None or binary is None or driver is None:
        return None
    options = webdriver.ChromeOptions()
    options.binary_location = binary
    for word in (
        "--headless=new",
        "--no-sandbox",
        "--disable-dev-shm-usage",
        "--window-size=1100,760",
    ):
        options.add_argument(word)
    options.set_capability("goog:loggingPrefs", {"browser": "ALL"})
    return webdriver.Chrome(service=Service(driver), options=options)


class InBrowser(unittest.TestCase):
    """Tests of the page. None may leave a fault in the browser's log."""

    @classmethod
    def setUpClass(cls):
        cls.driver = browser()
        if cls.driver is None:
            print(
                "the page isn't tried: install chromium, chromium-driver and python3-selenium",
                file=sys.stderr,
            )
            raise unittest.SkipTest("no browser")
        cls.addClassCleanup(cls.driver.quit)

    def open(self, image=POST, *words, view=()):
        self.served = Served(image, *words)
        self.addCleanup(self.served.end)
        self.serve_page(*view)
        self.driver.get(self.viewed.url)
        self.until(lambda: self.text("version") == "version 0")

    def serve_page(self, *words):
        """Starts the page's own server."""
        self.viewed = Viewed(self.served.port, *words)
        self.addCleanup(self.viewed.end)

    def until(self, holds):
        return WebDriverWait(self.driver, PATIENCE, poll_frequency=0.02).until(lambda _: holds())

    def text(self, name):
        return self.driver.find_element(By.ID, name).text

    def middle(self, x, y):
        """Where the centre of a cell is on the canvas."""
        return self.driver.execute_script(
            "return window.clearmapView.pixel(arguments[0] + 0.5, arguments[1] + 0.5)", x, y
        )

    def colour(self, x, y):
        """The picture's colour at a cell, which is waited for to be drawn."""
        return self.driver.execute_async_script(
            """const [x, y, done] = arguments;
            const place = window.clearmapView.pixel(x + 0.5, y + 0.5);
            const [px, py] = place.map((at) => Math.round(at * devicePixelRatio));
            const context = document.getElementById("picture").getContext("2d");
            const read = () => done(Array.from(context.getImageData(px, py, 1, 1).data));
            requestAnimationFrame(() => setTimeout(read, 0));""",
            x,
            y,
        )

    def to(self, x, y, actions=None):
        """The pointer goes to a cell."""
        marks = self.driver.find_element(By.ID, "marks")
        px, py = self.middle(x, y)
        size = marks.size
        actions = actions or ActionChains(self.driver, duration=20)
        return actions.move_to_element_with_offset(
            marks, round(px - size["width"] / 2), round(py - size["height"] / 2)
        )

    def mode(self, name):
        self.driver.find_element(By.CSS_SELECTOR, f"[data-mode={name}]").click()

    def button(self, command):
        return self.driver.find_element(By.CSS_SELECTOR, f"[data-command={command}]")

    def press(self, command):
        self.button(command).click()

    def tearDown(self):
        faults = [
            entry["message"]
            for entry in self.driver.get_log("browser")
            if entry["source"] in ("javascript", "security")
        ]
        self.assertEqual(faults, [])
