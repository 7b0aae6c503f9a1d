"""The page with the locks in a browser, headless Chromium."""
import time

from selenium import webdriver
from selenium.webdriver.chrome.service import Service
from selenium.webdriver.common.by import By
from selenium.webdriver.common.keys import Keys

from tests.studio.checks import comes_true

ROWS = """return [...document.querySelectorAll("#rows tr")].filter(row => !row.hidden)
    .map(row => [...row.children].slice(0, 4).map(cell => cell.textContent))"""
# The time from a typed letter to the frame after it.
LETTER = """const [text, done] = arguments, field = document.getElementById("filter"), began = performance.now();
    field.value = text;
    field.dispatchEvent(new Event("input", { bubbles: true }));
    requestAnimationFrame(() => setTimeout(() => done(performance.now() - began)));"""


class Page:
    """The page in a browser."""

    def __init__(self, base, zone, folder):
        self.base, self.folder = base, folder
        options = webdriver.ChromeOptions()
        options.binary_location = "/usr/bin/chromium"
        for word in ("--headless=new", "--no-sandbox", "--ignore-certificate-errors", "--disable-dev-shm-usage"):
            options.add_argument(word)
        options.set_capability("goog:loggingPrefs", {"browser": "ALL"})
        self.browser = webdriver.Chrome(service=Service("/usr/bin/chromedriver"), options=options)
        self.browser.execute_cdp_cmd("Emulation.setTimezoneOverride", {"timezoneId": zone})
        self.resize(1100, 760)

    def __enter__(self):
        return self

    def __exit__(self, *_):
        self.browser.quit()

    def resize(self, width, height):
        """The window has this size."""
        size = {"width": width, "height": height, "deviceScaleFactor": 1, "mobile": False}
        self.browser.execute_cdp_cmd("Emulation.setDeviceMetricsOverride", size)

    def colours(self, name):
        """The user prefers light or dark colours."""
        features = [{"name": "prefers-color-scheme", "value": name}]
        self.browser.execute_cdp_cmd("Emulation.setEmulatedMedia", {"features": features})

    def picture(self, name):
        """Writes a picture, if there is a folder for it."""
        if self.folder:
            self.browser.save_screenshot(f"{self.folder}/{name}.png")

    def run(self, script, *words):
        """What the script returns."""
        return self.browser.execute_script(script, *words)

    def at(self, name):
        """The element with this id."""
        return self.browser.find_element(By.ID, name)

    def until(self, holds):
        """Whether this holds within 20 seconds."""
        return comes_true(holds, 20, 0.02)

    def open(self):
        """Opens the page."""
        self.browser.get(f"{self.base}/locks")

    def paste(self, text):
        """Into the form, as from the clipboard."""
        self.at("line").click()
        self.browser.execute_cdp_cmd("Input.insertText", {"text": text})
        self.press(Keys.ENTER)

    def enter(self, text):
        """With a new session: pastes the line, and waits for the list."""
        self.open()
        if self.at("forget").is_displayed():
            self.at("forget").click()
        self.paste(text)
        return self.until(self.is_read)

    def is_read(self):
        """Whether the list is shown."""
        return self.at("count").text != "" and not self.status().startswith("Reading")

    def press(self, *keys):
        """Presses the keys, wherever the focus is."""
        webdriver.ActionChains(self.browser).send_keys(*keys).perform()

    def status(self):
        """The status line."""
        return self.at("status").text

    def rows(self):
        """The texts of the rows that are shown."""
        return [tuple(row) for row in self.run(ROWS)]

    def shown(self):
        """The paths that are shown."""
        return {row[0] for row in self.rows()}

    def focus(self):
        """What the focused element is called."""
        return self.run("""const it = document.activeElement;
            return it === document.body ? "body" : it.ariaLabel || it.id || it.textContent""")

    def search(self, text):
        """Types a text into the field that finds."""
        self.at("filter").send_keys(Keys.CONTROL, "a", Keys.NULL, text or Keys.BACKSPACE)

    def name_branches(self, text):
        """Types names of branches, and waits for the list."""
        self.at("branches").send_keys(Keys.CONTROL, "a", Keys.NULL, text, Keys.ENTER)
        time.sleep(0.1)
        return self.until(self.is_read)

    def button(self, path):
        """The button that releases a lock."""
        return self.browser.find_element(By.CSS_SELECTOR, f'button[aria-label="Release {path}"]')

    def is_asking(self):
        """Whether a question is shown."""
        return self.at("question").is_displayed()

    def question(self):
        """Waits for a question. Returns its text."""
        self.until(self.is_asking)
        return self.at("question").text

    def release(self, path, *answers):
        """Clicks on the button, and on the answer of each question. Returns what was asked, and the status line."""
        self.button(path).click()
        questions = []
        for answer in answers:
            questions.append(self.question())
            self.run("document.getElementById('status').textContent = ''")
            self.at(answer).click()
            self.until(lambda: not self.status().startswith("Releasing") and self.status() != "")
        return questions, self.status()

    def letter(self, text):
        """How many milliseconds a typed letter takes."""
        return self.browser.execute_async_script(LETTER, text)

    def stays_inside(self, width):
        """Whether nothing is wider than the window, and each visible button is within it."""
        return self.run("""const boxes = [...document.querySelectorAll("button")].map(it => it.getBoundingClientRect());
            return document.documentElement.scrollWidth <= arguments[0] &&
                boxes.every(box => box.width === 0 || box.left >= 0 && box.right <= arguments[0])""", width)
