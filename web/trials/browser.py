"""The page in a browser, as the trials use it."""
import functools
import http.server
import json
import pathlib
import shutil
import subprocess
import sys
import tempfile
import threading
import time
import unittest

from .containers import file_of

WEB = pathlib.Path(__file__).resolve().parent.parent
ROOT = WEB.parent


def lacks(what):
    print(what)
    sys.exit(77)


try:
    from selenium import webdriver
    from selenium.webdriver.chrome.service import Service
    from selenium.webdriver.common.by import By
except ImportError:
    lacks("python3-selenium is missing")
BROWSER = shutil.which("chromium") or lacks("chromium is missing")
DRIVER = shutil.which("chromedriver") or lacks("chromedriver is missing (chromium-driver)")

#: How long the page may take for anything, in seconds.
PATIENCE = 180


class Quiet(http.server.SimpleHTTPRequestHandler):
    """Serves files, and keeps the paths that were asked for."""

    extensions_map = {**http.server.SimpleHTTPRequestHandler.extensions_map, ".wasm": "application/wasm", ".js": "text/javascript"}
    asked = []

    def log_message(self, *words):
        self.asked.append(self.path)


class Browser:
    """The page in a browser of its own."""

    def __init__(self, dark=False, width=1280, served=WEB):
        self.folder = tempfile.TemporaryDirectory()
        options = webdriver.ChromeOptions()
        options.binary_location = BROWSER
        for word in ("--headless=new", "--no-sandbox", "--disable-gpu", "--disable-dev-shm-usage", f"--window-size={width},900"):
            options.add_argument(word)
        options.set_capability("goog:loggingPrefs", {"browser": "ALL"})
        options.add_experimental_option("prefs", {"download.default_directory": self.folder.name})
        self.driver = webdriver.Chrome(service=Service(DRIVER), options=options)
        if dark:
            scheme = {"name": "prefers-color-scheme", "value": "dark"}
            self.driver.execute_cdp_cmd("Emulation.setEmulatedMedia", {"features": [scheme]})
        if width < 500:
            size = {"width": width, "height": 900, "deviceScaleFactor": 1, "mobile": False}
            self.driver.execute_cdp_cmd("Emulation.setDeviceMetricsOverride", size)
        self.server = http.server.ThreadingHTTPServer(("127.0.0.1", 0), functools.partial(Quiet, directory=str(served)))
        threading.Thread(target=self.server.serve_forever, daemon=True).start()
        self.open()

    def open(self, asked=""):
        """Opens the page anew, with what the address asks for."""
        # Otherwise an address that differs only after its `#` is the same page.
        self.driver.get("about:blank")
        self.driver.get(f"http://127.0.0.1:{self.server.server_address[1]}/{asked}")
        self.wait(lambda: self.run("return document.body.dataset.ready") is not None)

    def close(self):
        self.driver.quit()
        self.server.shutdown()
        self.server.server_close()
        self.folder.cleanup()

    def wait(self, holds):
        end = time.monotonic() + PATIENCE
        while not holds():
            if time.monotonic() > end:
                raise AssertionError("the page took too long")
            time.sleep(0.05)

    def all(self, selector):
        return self.driver.find_elements(By.CSS_SELECTOR, selector)

    def one(self, selector):
        return self.driver.find_element(By.CSS_SELECTOR, selector)

    def run(self, script, *words):
        return self.driver.execute_script(script, *words)

    def choose(self, *paths):
        """Chooses files."""
        self.run("document.getElementById('status').textContent = ''")
        self.one("#pick").send_keys("\n".join(str(path) for path in paths))

    def give(self, *paths):
        """Chooses files, and waits until they are shown."""
        self.choose(*paths)
        self.wait_for_files()

    def drop(self, *paths):
        """Drops files and folders, and waits until they are shown."""
        self.run("document.getElementById('status').textContent = ''")
        dropped = {"items": [], "files": [str(path) for path in paths], "dragOperationsMask": 1}
        for kind in ("dragEnter", "dragOver", "drop"):
            self.driver.execute_cdp_cmd("Input.dispatchDragEvent", {"type": kind, "x": 300, "y": 300, "data": dropped})
        self.wait_for_files()

    def wait_for_files(self):
        self.wait(lambda: "read." in self.text("#status") or "can't" in self.text("#status"))

    def saved(self, name):
        """Saves the JSON of the file that is shown, and returns its bytes."""
        return self.saved_by("#save", f"{name}.json")

    def saved_by(self, selector, name):
        """Presses a button that saves a file, and returns the bytes of the file."""
        target = pathlib.Path(self.folder.name) / name
        target.unlink(missing_ok=True)
        self.one(selector).click()
        # the file is there before its bytes are
        self.wait(lambda: target.exists() and target.stat().st_size > 0)
        return target.read_bytes()

    def rows(self):
        """Returns what the rows of the list of files say that are shown."""
        rows = "[...document.querySelectorAll('#list > li:not([hidden]) > .row > .file')]"
        return self.run(f"return {rows}.map((it) => [...it.children].map((part) => [...part.childNodes].map((child) => child.textContent).join(' ')).join(' ').trim())")

    def show(self, tab):
        self.one(f"[data-tab={tab}]").click()
        self.settle()

    def settle(self):
        """Waits until nothing that is shown waits for the worker."""
        self.wait(lambda: not self.all("[aria-busy=true]"))

    def tables(self, selector):
        """Returns the texts of the cells of the tables in an element, row by row."""
        script = "return [...document.querySelector(arguments[0]).querySelectorAll('table')].map((it) => [...it.tBodies[0].rows].map((row) => [...row.cells].map((cell) => cell.textContent)))"
        return self.run(script, selector)

    def cells(self, panel, table=0):
        """Returns those of a table of a tab."""
        return self.tables(f"#panel-{panel}")[table]

    def press(self, panel, number):
        """Presses a button in the first table of a tab."""
        self.all(f"#panel-{panel} tbody button")[number].click()
        self.settle()

    def link(self, name, script):
        """Links a script, and waits until its container is open."""
        self.one("#linkScript").click()
        self.run("""
            document.querySelector("[aria-label='Name of the container']").value = arguments[0];
            document.getElementById("script").value = arguments[1];
            document.getElementById("status").textContent = "";
        """, name, script)
        self.one("#link").click()
        self.wait_for_files()

    def press_button(self, label):
        """Presses the button with a label in the view."""
        next(it for it in self.all("main button") if it.text == label and it.is_displayed()).click()

    def text(self, selector):
        """Returns the text of an element, which is empty if it isn't there."""
        return self.run("return document.querySelector(arguments[0])?.textContent ?? ''", selector)

    def complaints(self):
        return [it["message"] for it in self.driver.get_log("browser")]


class Trial(unittest.TestCase):
    """Trials with a page, and a folder for files."""

    maxDiff = 4000

    program = ROOT / "crates/pef/out/pef"

    @classmethod
    def setUpClass(cls):
        cls.browser = Browser()
        cls.folder = tempfile.TemporaryDirectory()

    @classmethod
    def tearDownClass(cls):
        cls.browser.close()
        cls.folder.cleanup()

    def tearDown(self):
        self.assertEqual(self.browser.complaints(), [])

    def file(self, name, content):
        path = pathlib.Path(self.folder.name) / name
        path.write_bytes(content)
        return path

    def tries(self, name, content, form, containers, **more):
        """Gives a file to the page, and compares the JSON that it saves."""
        path = self.file(name, content)
        self.browser.give(path)
        saved = self.browser.saved(name)
        self.assertEqual(json.loads(saved), file_of(name, content, form, containers, **more))
        self.compares(path, saved)

    def compares(self, path, saved):
        """Compares what was saved with what the program prints."""
        if self.program.is_file():
            ran = subprocess.run([self.program, "inspect", "--json", path.name], cwd=self.folder.name, capture_output=True)
            # An assertEqual of megabytes would take minutes to say how they differ.
            self.assertTrue(saved == ran.stdout, path.name)

    def extracts(self, name, number, wanted):
        """Compares a container that was saved with the one that the program extracts."""
        if self.program.is_file():
            subprocess.run([self.program, "extract", name, number, "extracted"], cwd=self.folder.name, capture_output=True, check=True)
            self.assertEqual((pathlib.Path(self.folder.name) / "extracted").read_bytes(), wanted)
