#!/usr/bin/env python3
"""Tests of the tools of clearmap-view's page: a map that is moved in every mode, what is taken
back, how long a path is, and a narrow window. CLEARMAP names the built program."""
import json
import sys
import unittest

from testing import POST, ActionChains, By, InBrowser, Viewing, alert_is_present, webdriver

import clearmap

PAINTED = b"P1\n6 4\n000000\n001000\n000110\n000000\n"  # the post, and two cells under it


class Undo(Viewing):
    def give(self, viewed, command, **more):
        """What a command is answered, and its status."""
        body = json.dumps({"command": command, **more})
        status, said = viewed.ask("POST", "/change", body, X_Clearmap_Token=self.token)
        return status, json.loads(said)

    def publish(self):
        """The cells that another client's publish shows."""
        with clearmap.Client(self.served.port) as other:
            other.publish()
            with other.pin() as pinned:
                return pinned.dump()

    def test_the_last_rectangle(self):
        """Its cells become what they were, by what was drawn before it too."""
        viewed, _ = self.view()
        self.give(viewed, "paint", rect=[3, 2, 5, 3])
        self.give(viewed, "clear", rect=[0, 0, 6, 4])
        status, told = self.give(viewed, "undo")
        self.assertEqual((status, told), (200, {"said": "The last rectangle is undone, place 4 of"
                                                " the log."}))
        draft = next(viewed.events())["draft"]
        self.assertEqual([it["place"] for it in draft["drawn"]], [1])
        self.assertEqual(self.publish(), PAINTED)

    def test_nothing_is_left_to_undo(self):
        viewed, _ = self.view()
        self.assertFalse(next(viewed.events())["draft"]["undo"])
        self.assertEqual(self.give(viewed, "undo")[0], 503)
        self.give(viewed, "paint", rect=[3, 2, 5, 3])
        self.assertTrue(next(viewed.events())["draft"]["undo"])
        self.give(viewed, "undo")
        self.assertEqual(next(viewed.events())["draft"]["drawn"], [])
        self.assertEqual(self.publish(), POST)

    def test_what_others_drew_is_asked_about(self):
        """An undo asks first where it may take a change of others back, and leaves other cells."""
        viewed, _ = self.view()
        self.give(viewed, "paint", rect=[3, 2, 6, 3])
        with clearmap.Client(self.served.port) as other:
            other.clear(3, 2, 4, 3)
            other.paint(0, 3, 1, 4)
        asked = self.give(viewed, "undo")[1]["asks"]
        self.assertIn("2 commands of others came meanwhile, and undo makes the last", asked)
        self.assertEqual(len(next(viewed.events())["draft"]["drawn"]), 1)
        self.give(viewed, "undo", sure=True)
        self.assertEqual(self.publish(), POST[:-7] + b"100000\n")

    def test_a_version_of_others(self):
        """Once another client has published, the rectangle may be in its version: it stays."""
        viewed, _ = self.view()
        self.give(viewed, "paint", rect=[3, 2, 5, 3])
        self.assertEqual(self.publish(), PAINTED)
        state = next(it for it in self.states if it["version"] == 1)
        self.assertFalse(state["draft"]["undo"])
        status, told = self.give(viewed, "undo", sure=True)
        self.assertEqual((status, told["fault"]), (503, "There is no rectangle to undo."))
        self.assertEqual(self.publish(), PAINTED)

    def test_a_rectangle_of_another_page(self):
        """A page is asked before it takes back what another one drew, and not for its own."""
        viewed, _ = self.view()
        self.give(viewed, "paint", rect=[3, 2, 5, 3], page="ours")
        self.give(viewed, "paint", rect=[0, 3, 1, 4], page="theirs")
        asked = self.give(viewed, "undo", page="ours")[1]["asks"]
        said = "The last rectangle was drawn on another page, or before this one was loaded. Undo?"
        self.assertEqual(asked, said)
        self.assertEqual(len(next(viewed.events())["draft"]["drawn"]), 2)
        for page in ("theirs", "ours"):
            self.assertIn("is undone", self.give(viewed, "undo", page=page)[1]["said"])
        self.assertEqual(self.publish(), POST)

    def test_a_rectangle_that_is_not_the_last_any_more(self):
        """It isn't mixed up with the one that was drawn meanwhile, whatever one is sure of."""
        viewed, _ = self.view()
        self.give(viewed, "paint", rect=[3, 2, 5, 3], page="ours")
        self.give(viewed, "paint", rect=[0, 3, 1, 4], page="theirs")
        status, told = self.give(viewed, "undo", page="ours", place=1, sure=True)
        said = "Another rectangle is the last one now: nothing was undone."
        self.assertEqual((status, told["fault"]), (409, said))
        self.assertEqual(len(next(viewed.events())["draft"]["drawn"]), 2)
        self.assertEqual(self.give(viewed, "undo", page="theirs", place=2)[0], 200)
        self.assertEqual(self.publish(), PAINTED)

    def test_another_server(self):
        """A rectangle of an earlier server isn't undone on the next one of the same port."""
        viewed, _ = self.view()
        self.give(viewed, "paint", rect=[2, 1, 3, 2])
        self.served.end()
        self.served = type(self.served)(PAINTED, port=self.served.port)
        self.addCleanup(self.served.end)
        next(it for it in self.states if it["draft"]["lost"] and not it["fault"])
        for _ in range(2):  # the first notices the other server, if no look has
            self.assertIn(self.give(viewed, "undo", sure=True)[0], (409, 503))
        self.assertEqual(self.publish(), PAINTED)


class Tools(InBrowser):
    def asked(self):
        return self.until(lambda: alert_is_present()(self.driver))

    def drag(self, name, start, end):
        self.mode(name)
        self.to(*end, self.to(*start).click_and_hold()).release().perform()

    def paint(self, cell, publish):
        """Paints a cell, after which the button to publish says this."""
        self.mode("paint")
        self.to(*cell).click().perform()
        self.until(lambda: self.button("publish").text == publish)

    def test_the_middle_button_moves_the_map(self):
        """In every mode, and it draws nothing and adds no point."""
        self.open()
        for name in ("look", "path", "paint", "clear"):
            self.mode(name)
            self.driver.find_element(By.CSS_SELECTOR, "#zoom [data-key='0']").click()
            before = self.middle(2, 1)
            marks = self.driver.find_element(By.ID, "marks")
            mouse = webdriver.common.actions.pointer_input.PointerInput("mouse", "middle")
            chain = webdriver.common.actions.action_builder.ActionBuilder(self.driver, mouse)
            chain.pointer_action.move_to(marks, 0, 0).pointer_down(button=1)
            chain.pointer_action.move_to(marks, 60, 40).pointer_up(button=1)
            chain.perform()
            self.until(lambda: self.middle(2, 1) != before)
            moved = [now - then for now, then in zip(self.middle(2, 1), before)]
            self.assertEqual([round(it) for it in moved], [60, 40], name)
        self.assertTrue(self.text("path").startswith("No points yet"))
        self.assertTrue(self.text("draft").startswith("Nothing changed from here."))

    def test_undo_and_revert(self):
        """Undo by its button and by Ctrl+Z; Revert asks."""
        self.open()
        undo = self.driver.find_element(By.ID, "undo")
        self.assertFalse(undo.is_enabled())
        for cell in ((5, 2), (4, 2), (3, 2)):
            self.mode("paint")
            self.to(*cell).click().perform()
        self.until(lambda: self.button("publish").text == "Publish 3 changes")
        undo.click()
        self.until(lambda: self.button("publish").text == "Publish 2 changes")
        keys = ActionChains(self.driver).key_down(webdriver.Keys.CONTROL).send_keys("z")
        keys.key_up(webdriver.Keys.CONTROL).perform()
        self.until(lambda: self.button("publish").text == "Publish 1 change")
        for accepted, left in ((False, "Publish 1 change"), (True, "Publish")):
            self.press("revert")
            asked = self.asked()
            self.assertIn("Revert drops 1 rectangle from here", asked.text)
            asked.accept() if accepted else asked.dismiss()
            said = "The draft is the newest version" if accepted else "Nothing was changed."
            self.until(lambda: self.text("said").startswith(said))
            self.until(lambda: self.button("publish").text == left)
        self.assertFalse(undo.is_enabled())

    def test_two_pages(self):
        """One asks before it takes back what the other drew."""
        self.open()
        self.paint((4, 2), "Publish 1 change")
        ours = self.driver.current_window_handle
        self.driver.switch_to.new_window("window")
        self.addCleanup(self.driver.switch_to.window, ours)
        self.addCleanup(self.driver.close)
        theirs = self.driver.current_window_handle
        self.addCleanup(self.driver.switch_to.window, theirs)
        self.driver.get(self.viewed.url)
        self.until(lambda: self.text("version") == "version 0")
        self.paint((5, 2), "Publish 2 changes")
        self.driver.switch_to.window(ours)
        self.until(lambda: self.button("publish").text == "Publish 2 changes")
        self.driver.find_element(By.ID, "undo").click()
        self.assertIn("was drawn on another page", self.asked().text)
        self.asked().dismiss()
        self.until(lambda: self.text("said") == "Nothing was changed.")
        for page, before, left in (
            (theirs, "Publish 2 changes", "Publish 1 change"),
            (ours, "Publish 1 change", "Publish"),
        ):
            self.driver.switch_to.window(page)
            self.until(lambda: self.button("publish").text == before)
            self.driver.find_element(By.ID, "undo").click()
            self.until(lambda: self.button("publish").text == left)

    def test_how_long_a_path_is(self):
        self.open()
        self.mode("path")
        for cell, said in (
            ((0, 0), "1 point, 0.00 cells long"),
            ((3, 0), "2 points, 3.00 cells long"),
            ((5, 2), "3 points, 5.83 cells long"),
        ):
            self.to(*cell).click().perform()
            self.until(lambda: self.text("long") == said)
        self.driver.find_element(By.ID, "forget").click()
        self.until(lambda: self.text("long") == "")


class Narrow(InBrowser):
    def boxes(self, selector):
        """The visible boxes of what a selector finds."""
        script = "return [...document.querySelectorAll(arguments[0])].map((it) =>"
        script += " it.getBoundingClientRect().toJSON()).filter((it) => it.width)"
        return self.driver.execute_script(script, selector)

    def apart(self, one, other):
        """Whether two boxes share no pixel."""
        return (
            one["right"] <= other["left"]
            or other["right"] <= one["left"]
            or one["bottom"] <= other["top"]
            or other["bottom"] <= one["top"]
        )

    def resize(self, width):
        """Makes the window of this width, until the test ends."""
        metrics = {"width": width, "height": 800, "deviceScaleFactor": 1, "mobile": False}
        self.driver.execute_cdp_cmd("Emulation.setDeviceMetricsOverride", metrics)
        self.addCleanup(self.driver.execute_cdp_cmd, "Emulation.clearDeviceMetricsOverride", {})

    def test_the_tools_over_the_map(self):
        """None covers another one, in a window of any width."""
        self.open()
        for width in (360, 400, 699, 701, 949, 951, 1400):
            self.resize(width)
            area = self.boxes("#map")[0]
            for box in self.boxes("#modes, #zoom"):
                self.assertLessEqual(box["right"], area["right"], width)
            self.assertTrue(self.apart(*self.boxes("#modes, #zoom")), width)

    def test_a_narrow_window(self):
        """Answers and Publish stand above the legend, a finger meets each button, and news cover
        nothing."""
        self.resize(400)
        self.open()
        self.mode("paint")
        self.to(5, 2).click().perform()
        self.until(lambda: self.text("said").startswith("1 cell of the draft painted"))
        scale, swatches = self.boxes("#legend, #swatches")
        self.assertLessEqual(scale["bottom"], swatches["top"])
        for name in ("#point", "#path", "[data-command=publish]", "#draft"):
            self.assertLessEqual(self.boxes(name)[0]["bottom"], scale["top"], name)
        for box in self.boxes("button, select"):
            self.assertGreaterEqual(min(box["width"], box["height"]), 44, box)
        [news], [panel], [area] = (self.boxes(it) for it in ("#said", "#panel", "#map"))
        self.assertTrue(self.apart(news, panel) and self.apart(news, area), news)
        self.assertLessEqual(news["bottom"], 800)
        for one, other in (("#modes", "#zoom"), ("main", "aside"), ("#map", "#panel")):
            self.assertTrue(self.apart(*self.boxes(f"{one}, {other}")), (one, other))
        wide = self.driver.execute_script("return document.documentElement.scrollWidth")
        self.assertEqual(wide, 400)

    def test_news_cover_nothing_in_a_wide_window(self):
        """Nor does anything move when they come and go."""
        self.open()
        parts = "#map, #panel, [data-command=publish]"
        self.mode("paint")
        self.to(5, 2).click().perform()
        self.until(lambda: self.text("said").startswith("1 cell of the draft painted"))
        self.until(lambda: "isn't counted" in self.text("point"))
        [news], boxes = self.boxes("#said"), self.boxes(parts)
        self.assertTrue(all(self.apart(news, it) for it in boxes[:2]))
        self.until(lambda: self.boxes("#said") == [])
        self.assertEqual(self.boxes(parts), boxes)


if __name__ == "__main__":
    sys.exit(unittest.main())
