#!/usr/bin/env python3
"""Makes docs/bench.png, the picture of the bench that README shows, in a browser without a window.

    /usr/bin/python3 tools/generate/make_screenshot.py

It needs what tools/tests/test_bench_page.py needs.
"""
import sys
import threading
from pathlib import Path

ROOT = Path(__file__).resolve().parents[2]
for folder in ("python", "tools/tests"):
    sys.path.insert(0, str(ROOT / folder))

import browsing  # noqa: E402 (the path is set here)
from bukzarn.bench import serve  # noqa: E402

ASCENT = ROOT / "examples/ascent"
WIDTH, HEIGHT = 1280, 1010

# How often Page up is pressed from the ground on, 20 levels each: to where the watch prints.
PAGES = 12


def main():
    if browsing.missing():
        sys.exit(f"make_screenshot: {browsing.missing()}")
    texts = [((ASCENT / name).read_text(), name) for name in ("ascent.proc", "cold.watch")]
    server = serve.bench(texts, str(ASCENT / "ascent.frames"), 12, 0, serve.sounding.COLUMNS_TEXT)
    threading.Thread(target=server.serve_forever, daemon=True).start()
    browser = browsing.opened(WIDTH, HEIGHT)
    browser.get(server.url)
    picture = browser.find_element("id", "picture")
    browsing.until(lambda: browser.find_element("id", "verdict").get_attribute("data-state") == "accepted")
    picture.send_keys("\ue011", *["\ue00e"] * PAGES)  # home, then page up
    browser.execute_script("window.scrollTo(0, 0); document.activeElement.blur()")
    (ROOT / "docs/bench.png").write_bytes(browser.get_screenshot_as_png())
    browser.quit()
    server.shutdown()
    server.server_close()


if __name__ == "__main__":
    main()
