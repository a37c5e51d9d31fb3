#!/usr/bin/env python3
"""Tests of the picture that clearmap-view's page saves. CLEARMAP names the built program;
python3-pil reads the picture."""
import pathlib
import sys
import tempfile
import unittest

from testing import By, InBrowser

import clearmap

try:
    from PIL import Image
except ImportError:
    Image = None


class Save(InBrowser):
    def saved(self, name):
        """The picture that is saved under this name."""
        folder = pathlib.Path(self.enterContext(tempfile.TemporaryDirectory()))
        words = {"behavior": "allow", "downloadPath": str(folder)}
        self.driver.execute_cdp_cmd("Page.setDownloadBehavior", words)
        self.driver.find_element(By.ID, "save").click()
        self.until(lambda: self.text("said") == f"The picture is saved as {name}.")
        self.until((folder / name).is_file)
        self.assertEqual([it.name for it in folder.iterdir()], [name])
        return folder / name

    @unittest.skipIf(Image is None, "the picture isn't read: install python3-pil")
    def test_a_picture(self):
        """It has the map, the marks and the rulers as they are seen, and the version's number."""
        self.open()
        with clearmap.Client(self.served.port) as other:
            other.paint(0, 3, 1, 4)
            other.publish()
        self.until(lambda: self.text("version") == "version 1")
        self.mode("paint")
        self.to(4, 2).click().perform()
        self.until(lambda: self.button("publish").text == "Publish 1 change")
        self.to(5, 0).move_to_element(self.driver.find_element(By.ID, "link")).perform()
        self.until(lambda: self.text("point") == "")
        picture = Image.open(self.saved(f"port-{self.served.port}-version-1.png")).convert("RGB")
        size = self.driver.find_element(By.ID, "marks").size
        self.assertEqual(picture.size, (size["width"], size["height"]))
        at = lambda x, y: picture.getpixel(tuple(map(round, self.middle(x, y))))
        self.assertEqual(at(2, 1), (16, 18, 24))
        self.assertEqual(at(0, 3), (16, 18, 24))
        self.assertEqual(picture.getpixel((2, 2)), (248, 248, 250))  # the ruler's strip
        self.assertEqual(at(-1, 1), (201, 206, 216))  # round the map
        left, top = self.driver.execute_script("return clearmapView.pixel(4, 2)")
        self.assertEqual(picture.getpixel((round(left), round(top) + 20)), (123, 31, 162))

    def test_names(self):
        """Whatever the map is called, it is a file's name."""
        self.open()
        for name, wanted in (
            ("house", "house-version-3.png"),
            ("../a b/c", "a-b-c-version-3.png"),
            ("Büro 2", "Büro-2-version-3.png"),
            ("///", "map-version-3.png"),
        ):
            script = "const [name, done] = arguments;"
            script += "import('/save.js').then((it) => done(it.fileName(name, 3)))"
            self.assertEqual(self.driver.execute_async_script(script, name), wanted)


if __name__ == "__main__":
    sys.exit(unittest.main())
