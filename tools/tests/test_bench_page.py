"""The bench's page in a browser: with the keyboard, on a small screen, light and dark.

It is driven in headless Chromium by selenium (Debian: chromium, chromium-driver, python3-selenium), and skipped where these are
not installed.
"""
import tempfile
import threading
import unittest
from pathlib import Path

import browsing
import common
from bukzarn.bench import serve
from served import COLD, EXAMPLES, Served

try:
    from selenium.webdriver.common.by import By
    from selenium.webdriver.common.keys import Keys
except ImportError:
    pass  # then every test is skipped


@unittest.skipIf(browsing.missing(), browsing.missing())
class Page(Served):
    """The page, as one sees it: with the keyboard and in a browser."""

    def setUp(self):
        super().setUp()
        self.browser = self.opened(1400, 1000)

    def opened(self, width, height, scheme="light"):
        browser = browsing.opened(width, height, scheme)
        self.addCleanup(browser.quit)
        browser.get(self.server.url)
        self.until(lambda: self.state(browser) == "accepted")
        return browser

    def until(self, holds):
        browsing.until(holds)

    def state(self, browser=None):
        return (browser or self.browser).find_element(By.ID, "verdict").get_attribute("data-state")

    def find(self, name):
        return self.browser.find_element(By.ID, name)

    def text(self, name):
        return self.find(name).text

    def type(self, watch):
        """Types a watch in place of the one that is there, key by key. The editor indents by itself, so the lines do not."""
        self.find("text").send_keys(Keys.CONTROL, "a")
        self.find("text").send_keys(watch)

    def script(self, words):
        return self.browser.execute_script(words)

    def marks(self):
        return len(self.browser.find_elements(By.CSS_SELECTOR, "#picture .mark"))

    def tearDown(self):
        told = [entry["message"] for entry in self.browser.get_log("browser") if entry["level"] == "SEVERE"]
        self.assertEqual([message for message in told if "422" not in message], [])

    def test_type_a_watch_see_it_refused_mended_accepted_and_drawn(self):
        self.type("install advice on pointcut {level} as l {\nlet (p, (t, h)) = l in\nif h < 20 then level := t else ()\n}")
        self.until(lambda: self.state() == "fault")
        self.assertIn("cold.watch, line 3", self.text("headline"))
        self.assertTrue(self.text("message") and self.text("mend").startswith("To mend it: "))
        fault = self.browser.find_element(By.CSS_SELECTOR, "#backdrop .at")
        self.assertEqual(fault.get_attribute("textContent"), "level")
        self.assertEqual(self.browser.find_element(By.CSS_SELECTOR, "#gutter [data-fault=true]").text, "3")
        self.assertEqual(self.marks(), 0)
        self.assertIn("This is the procedure alone", self.text("proved"))

        self.find("text").send_keys(Keys.F8)
        self.script("const t = document.getElementById('text');"
                    "t.setSelectionRange(t.value.indexOf('level :='), t.value.indexOf(' t else'))")
        self.find("text").send_keys("print")
        self.until(lambda: self.state() == "accepted")
        self.assertGreater(self.marks(), 100)
        self.assertEqual(len(self.browser.find_elements(By.CSS_SELECTOR, "#picture .wide")), 2)
        self.assertEqual(len(self.browser.find_elements(By.CSS_SELECTOR, "#picture .thin")), 2)
        curves = [self.browser.find_element(By.CSS_SELECTOR, f"#picture .{kind}") for kind in ("wide", "thin")]
        wide, thin = (curve.get_attribute("d") for curve in curves)
        self.assertEqual(wide, thin, "the sounding with the watch lies on the one without")
        self.assertIn("Proved: in the 559 frames", self.text("proved"))
        self.assertIn("watch printed: ", self.text("legend"))

    def test_a_watch_that_stores_to_the_decoders_cell(self):
        """The refusal at its line, over the procedure that has such a cell."""
        self.server.shutdown()
        self.server.server_close()
        texts = [((EXAMPLES / "sonde.proc").read_text(), "sonde.proc"), ((EXAMPLES / "count.watch").read_text(), "count.watch")]
        self.server = serve.bench(texts, None, None, 0, "pressure/10,temperature,humidity")
        threading.Thread(target=self.server.serve_forever, daemon=True).start()
        self.browser.get(self.server.url)
        self.until(lambda: self.state() == "accepted")
        self.assertIn("cell 0 of watch", self.text("totals"))
        self.type("install advice on pointcut {level} as l {\n\ncorrection := 100\n}")
        self.until(lambda: self.state() == "fault")
        self.assertRegex(self.text("headline"), r"Refused 15 at byte \d+: count.watch, line 3")
        self.assertIn("the domain of the cell that is stored to is decoder", self.text("message").lower())
        self.assertIn("a watch keeps cells of its own domain", self.text("mend"))
        self.find("go").click()
        self.assertEqual(self.script("return document.activeElement.id"), "text")
        before = self.script("const t = document.activeElement; return t.value.slice(0, t.selectionStart)")
        self.assertEqual(before.count("\n"), 2)

    def test_tables(self):
        self.assertIn("−62", self.text("levels"))
        rows = len(self.browser.find_elements(By.CSS_SELECTOR, "#levels tbody tr"))
        self.assertEqual(rows, 559)
        self.find("marked").click()
        marked = len(self.browser.find_elements(By.CSS_SELECTOR, "#levels tbody tr"))
        self.assertEqual(f"watch printed: {marked} levels" in self.text("legend"), True)
        self.assertIn("aborted 41 39", self.text("ends"))
        self.assertIn("printed by watch", self.text("totals"))
        self.assertIn("other-bindings 1,024", self.text("needs"))

    def test_keyboard(self):
        """Tabs by arrows, the editor is left with the tab key, the picture goes from level to level."""
        self.find("tab-1").send_keys(Keys.ARROW_LEFT)
        self.assertEqual(self.script("return document.activeElement.id"), "tab-0")
        self.assertTrue(self.find("text").get_attribute("readonly"))
        self.assertIn("domain decoder", self.find("text").get_attribute("value"))
        self.find("tab-0").send_keys(Keys.END)
        self.assertIn("install advice", self.find("text").get_attribute("value"))
        self.find("text").send_keys(Keys.TAB)
        self.assertNotEqual(self.script("return document.activeElement.id"), "text")
        picture = self.find("picture")
        picture.send_keys(Keys.ARROW_UP)
        self.assertIn("frame 1 · 1002.7 hPa · 13.6 °C", self.text("reading"))
        picture.send_keys(Keys.END)
        self.assertIn("frame 59", self.text("reading"))
        self.assertEqual(len(self.browser.find_elements(By.CSS_SELECTOR, "#levels [aria-current=true]")), 1)

    def test_watches_come_and_go(self):
        self.find("hang").click()
        self.until(lambda: "without a watch" in self.text("headline"))
        self.assertEqual(self.marks(), 0)
        self.find("new").click()
        self.until(lambda: "watch-2.watch" in self.text("headline"))
        self.browser.refresh()
        self.until(lambda: self.state() == "accepted")
        tabs = self.browser.find_elements(By.CSS_SELECTOR, "[role=tab]")
        self.assertEqual([tab.text for tab in tabs], ["ascent.proc", "cold.watch", "watch-2.watch"])

    def test_a_text_is_kept_by_the_browser(self):
        """Ctrl-S gives the text that is shown to the browser, as a file of one's own."""
        with tempfile.TemporaryDirectory() as folder:
            self.browser.execute_cdp_cmd("Browser.setDownloadBehavior", {"behavior": "allow", "downloadPath": folder})
            self.find("text").send_keys(Keys.CONTROL, "s")
            file = Path(folder, "cold.watch")
            self.until(file.exists)
            self.assertEqual(file.read_text(), COLD)

    def test_a_text_is_never_markup(self):
        self.type("# <img src=x onerror=document.title='x'>\n<b>")
        self.until(lambda: self.state() == "fault")
        self.assertEqual(len(self.browser.find_elements(By.CSS_SELECTOR, "img, b")), 0)

    def test_narrow_and_dark(self):
        """Nothing runs out of a small screen, and the colours of each scheme are told apart."""
        grounds = set()
        for scheme in ("light", "dark"):
            browser = self.opened(360, 740, scheme)
            width = browser.execute_script("return document.documentElement.scrollWidth")
            self.assertLessEqual(width, 360)
            grounds.add(browser.execute_script("return getComputedStyle(document.body).backgroundColor"))
            buttons = browser.find_elements(By.CSS_SELECTOR, "button:not([hidden])")
            self.assertGreaterEqual(min(button.size["height"] for button in buttons), 32)
        self.assertEqual(len(grounds), 2)


if __name__ == "__main__":
    unittest.main()
