"""A real browser on the door's page: Debian's chromium without a screen, driven by selenium."""

# Not all calls of selenium have types.
# mypy: disallow-untyped-calls=False

from __future__ import annotations

import base64
import time
from pathlib import Path
from typing import Any, Callable

from selenium.webdriver import Chrome, ChromeOptions
from selenium.webdriver.chrome.service import Service
from selenium.webdriver.common.action_chains import ActionChains
from selenium.webdriver.common.by import By
from selenium.webdriver.common.keys import Keys
from selenium.webdriver.remote.webelement import WebElement
from selenium.webdriver.support.select import Select

from .grid_runs import free_port
from .judge import need

CHROMIUM, DRIVER = "/usr/bin/chromium", "/usr/bin/chromedriver"
SECONDS = 30.0
_OPTIONS = ("--headless=new", "--no-sandbox", "--disable-gpu", "--hide-scrollbars", "--lang=en-GB",
            "--force-device-scale-factor=1", "--disable-background-networking", "--no-first-run")
# Named apart from their signs, so that acts need nothing of selenium.
NAMED = {name: getattr(Keys, name.upper()) for name in ("tab", "escape", "enter", "backspace", "down", "f8", "end")}
# Chromium tells each answer that is an error, also those that a page is made for, and where a test leaves a page that
# asks first.
_EXPECTED = ("the server responded with a status of 401", "the server responded with a status of 403",
             "the server responded with a status of 404", "the server responded with a status of 409",
             "the server responded with a status of 422",
             "the server responded with a status of 503",
             "net::ERR_CONNECTION_REFUSED", "net::ERR_INCOMPLETE_CHUNKED_ENCODING", "net::ERR_CONNECTION_RESET",
             "Blocked attempt to show a 'beforeunload' confirmation panel")


class Browser:
    """One browser with one tab."""

    def __init__(self, shots: Path) -> None:
        options = ChromeOptions()
        options.binary_location = CHROMIUM
        for word in _OPTIONS:
            options.add_argument(word)
        options.set_capability("goog:loggingPrefs", {"browser": "ALL"})
        self.shots = shots
        self.driver = Chrome(service=Service(DRIVER, port=free_port()), options=options)

    def close(self) -> None:
        """Ends it."""
        self.driver.quit()

    def size(self, width: int, height: int = 820, is_dark: bool = False) -> None:
        """Has the page this size in pixels, in light colours or in dark ones."""
        metrics = {"width": width, "height": height, "deviceScaleFactor": 1, "mobile": False}
        self.driver.execute_cdp_cmd("Emulation.setDeviceMetricsOverride", metrics)
        scheme = {"name": "prefers-color-scheme", "value": "dark" if is_dark else "light"}
        still = {"name": "prefers-reduced-motion", "value": "reduce"}
        self.driver.execute_cdp_cmd("Emulation.setEmulatedMedia", {"features": [scheme, still]})

    def open(self, address: str, width: int = 1_200) -> None:
        """Loads the page anew, without a token, and waits until it hears alerts or asks for one."""
        self.size(width)
        self.driver.get(f"{address}/page/icon.svg")
        self.run("sessionStorage.clear(); localStorage.clear()")
        self.driver.get(address)
        self.until(lambda: self.find("#status").get_attribute("data-state") != "waiting"
                   or bool(self.all("dialog[open]")), "the page is not ready")

    def run(self, script: str, *given: object) -> Any:
        """What a script of the page gives."""
        return self.driver.execute_script(script, *given)

    def all(self, selector: str) -> list[WebElement]:
        """All elements that a selector of CSS names."""
        return list(self.driver.find_elements(By.CSS_SELECTOR, selector))

    def find(self, selector: str) -> WebElement:
        """The first of them."""
        return self.driver.find_element(By.CSS_SELECTOR, selector)

    def text(self, selector: str) -> str:
        """What the first of them shows; nothing where it is not to be seen, or not there."""
        found = self.all(selector)
        return found[0].text if found else ""

    def texts(self, selector: str) -> list[str]:
        """What each of them shows."""
        found: list[str] = self.run("return [...document.querySelectorAll(arguments[0])].map(e => e.innerText)", selector)
        return found

    def until(self, holds: Callable[[], object], what: str) -> None:
        """Waits until something holds; `Failed` where it takes too long."""
        start = time.monotonic()
        while not holds():
            need(time.monotonic() - start < SECONDS, what)
            time.sleep(0.02)

    def shows(self, selector: str, text: str) -> None:
        """Waits until an element shows this text, and no other."""
        self.until(lambda: self.text(selector) == text, f"{selector} is not {text!r}")

    def has(self, selector: str, text: str) -> None:
        """Waits until an element shows a text that has this one."""
        self.until(lambda: text in self.text(selector), f"{selector} has no {text!r}")

    def click(self, selector: str) -> None:
        """Clicks on an element."""
        self.find(selector).click()

    def type(self, text: str) -> None:
        """Types a text into what has the keyboard."""
        ActionChains(self.driver).send_keys(text).perform()

    def press(self, *names: str) -> None:
        """Presses keys one after another, by their names or their signs."""
        for name in names:
            self.type(NAMED.get(name, name))

    def press_control(self, key: str) -> None:
        """Presses a key together with Control."""
        ActionChains(self.driver).key_down(Keys.CONTROL).send_keys(key).key_up(Keys.CONTROL).perform()

    def press_back_tab(self) -> None:
        """Presses the tabulator together with Shift."""
        ActionChains(self.driver).key_down(Keys.SHIFT).send_keys(Keys.TAB).key_up(Keys.SHIFT).perform()

    def paste(self, selector: str, text: str) -> None:
        """Clicks into a box and pastes a text, as from the clipboard. A box that comes meanwhile may move it away."""
        self.until(lambda: self.clicks_into(selector), f"{selector} does not get the keyboard")
        self.run("""const data = new DataTransfer(); data.setData("text/plain", arguments[0]);
            document.activeElement.dispatchEvent(
              new ClipboardEvent("paste", {clipboardData: data, bubbles: true, cancelable: true}))""", text)

    def clicks_into(self, selector: str) -> bool:
        """Clicks at a box, and says whether the keyboard is in it then."""
        self.click(selector)
        return bool(self.run("""const place = document.querySelector(arguments[0]);
            return (place.closest(".CodeMirror") ?? place).contains(document.activeElement)""", selector))

    def fill(self, selector: str, text: str) -> None:
        """Puts a text into a box in one go."""
        self.run("document.querySelector(arguments[0]).CodeMirror.setValue(arguments[1])", selector, text)

    def pick(self, selector: str, text: str) -> None:
        """Picks what shows a text from a list to pick from, once it is there."""
        self.run("document.querySelector(arguments[0]).focus()", selector)
        self.until(lambda: text in self.texts(f"{selector} option"), f"{text!r} can't be picked")
        Select(self.find(selector)).select_by_visible_text(text)

    def shoot(self, name: str, is_whole: bool = False) -> Path:
        """Takes a picture of what is to be seen, or of the whole page."""
        came = self.driver.execute_cdp_cmd("Page.captureScreenshot", {"format": "png", "captureBeyondViewport": is_whole})
        self.shots.mkdir(parents=True, exist_ok=True)
        path = self.shots / f"{name}.png"
        path.write_bytes(base64.b64decode(came["data"]))
        return path

    def errors(self) -> list[str]:
        """What the console has been told since the last call that is no answer of the door."""
        told = [str(entry["message"]) for entry in self.driver.get_log("browser")]
        return [line for line in told if not any(known in line for known in _EXPECTED)]

    def hosts(self) -> set[str]:
        """Where the page got what it loaded from."""
        found: list[str] = self.run(
            "return performance.getEntriesByType('resource').map(e => new URL(e.name).origin)")
        return set(found)
