"""A browser without a window, for tests and pictures of the bench's page."""
import shutil
import time

try:
    from selenium import webdriver
except ImportError:
    webdriver = None

WORDS = ("--headless=new", "--no-sandbox", "--disable-gpu", "--disable-dev-shm-usage")
PATIENCE = 20


def missing():
    """What is not there to drive a page; nothing if all is."""
    lacking = [name for name in ("chromium", "chromedriver") if not shutil.which(name)] + ([] if webdriver else ["selenium"])
    return f"{', '.join(lacking)} not there" if lacking else ""


def size(browser, width, height):
    given = {"width": width, "height": height, "deviceScaleFactor": 1, "mobile": width < 600}
    browser.execute_cdp_cmd("Emulation.setDeviceMetricsOverride", given)


def opened(width, height, scheme="light"):
    """A browser of a size, light or dark."""
    options = webdriver.ChromeOptions()
    for word in (*WORDS, f"--window-size={width},{height}"):
        options.add_argument(word)
    options.set_capability("goog:loggingPrefs", {"browser": "ALL"})
    browser = webdriver.Chrome(options=options)
    browser.execute_cdp_cmd("Emulation.setEmulatedMedia", {"features": [{"name": "prefers-color-scheme", "value": scheme}]})
    size(browser, width, height)
    return browser


def until(holds):
    """Waits until something holds, for a limited time."""
    end = time.monotonic() + PATIENCE
    while not holds():
        if time.monotonic() > end:
            raise TimeoutError("the page did not come to it")
        time.sleep(0.1)
