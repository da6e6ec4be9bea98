"""Trials of the page's use: files that are given, the list, the keyboard, and how it looks."""
import contextlib
import json
import os
import pathlib
import shutil
import struct
import tempfile

from selenium.webdriver.common.keys import Keys
from selenium.webdriver.support.ui import Select

from .browser import WEB, Browser, Quiet, Trial
from .containers import container, damaged, known, mac_binary, slow, trailing


class Using(Trial):
    """How the page is used: by mouse and keyboard, with many and large files."""

    def test_slow(self):
        """While a large file is read that takes long, the page answers, and newer choices aren't overtaken."""
        path = self.file("slow.img", slow())
        small = self.file("small.pef", container())
        self.browser.run("""
            let last = performance.now();
            Object.assign(window, { longest: 0, said: new Set() });
            setInterval(() => {
                longest = Math.max(longest, performance.now() - last);
                said.add(document.getElementById("status").textContent);
                last = performance.now();
            }, 10);
        """)
        self.browser.give(path)
        self.assertEqual(self.browser.text("main h2"), "slow.img")
        for tab in ("Findings", "Imports", "Relocations", "Bytes"):
            self.browser.show(tab)
        for it in (small, path, small):
            self.browser.choose(it)
        self.browser.wait(lambda: self.browser.text("main h2") == "small.pef" and "read." in self.browser.text("#status"))
        # The container of the slow file is chosen, and before it is there, that of the small one.
        self.browser.run("document.querySelector('main h2').textContent = 'old'")
        for button in self.browser.all("#list > li > .row > .file")[-2:]:
            button.click()
        self.browser.wait(lambda: self.browser.text("main h2") != "old")
        self.assertEqual(self.browser.text("main h2"), "small.pef")
        self.assertIn("Reading slow.img", self.browser.run("return [...said]"))
        # A call of the module takes seconds here. A busy machine can hold up a timer for some tenths of a second.
        self.assertLess(self.browser.run("return longest"), 1000)

    def test_changed(self):
        """A file is shown as it was read, also if it has changed on the disk in the meantime."""
        path = self.file("changed.pef", container())
        self.browser.give(path, self.file("other.pef", damaged()[0]))
        path.write_bytes(b"changed")
        buttons = self.browser.all("#list > li > .row > .file")[-2:]
        for button, verdict in zip(reversed(buttons), ("damaged, 2 errors, 1 note", "whole, no errors, no notes")):
            button.click()
            self.browser.wait(lambda: self.browser.text("main .verdict") == verdict)

    def test_many(self):
        """Containers in a file of 64 megabytes are found, also at its end. Their table is shown in parts, sorted and searched."""
        # The last containers are more than what is inspected of a file.
        count, size = 16500, 64 << 20
        path = self.file("many.img", ((container() + bytes(4)) * (count - 1)).ljust(size - 372, b"\0") + container())
        self.browser.give(path)
        table = "[aria-label='Containers in the file']"
        rows = lambda: self.browser.all(f"{table} tbody tr")
        self.assertEqual(len(rows()), 200)
        self.browser.one(f".data:has({table}) .more").click()
        self.assertEqual(len(rows()), 400)
        self.assertEqual(self.browser.text(f".data:has({table}) .count"), f"400 of {count:,} rows")
        self.browser.all(f"{table} thead button")[1].click()
        self.browser.all(f"{table} thead button")[1].click()
        self.assertEqual(self.browser.all(f"{table} thead th")[1].get_attribute("aria-sort"), "descending")
        last = f"{size - 372:08X}"
        self.assertEqual(rows()[0].text.split(), [str(count - 1), last, *3 * ["\u2013"]])
        self.browser.one("[aria-label='Search in Containers in the file']").send_keys(last)
        self.assertEqual(len(rows()), 1)
        self.browser.one(f"{table} tbody button").click()
        self.browser.wait(lambda: last in self.browser.text("main h2"))
        self.assertIn("This container isn't inspected", self.browser.text("main"))
        saved = self.browser.saved("many.img")
        self.assertEqual(json.loads(saved)["containers"][1], {**known(376, size - 376), "notes": [trailing(376 + 372, size - 376 - 372)]})
        self.compares(path, saved)

    def test_keyboard(self):
        """The views can be reached by the keyboard alone."""
        self.browser.give(self.file("keys.pef", container()))
        self.browser.show("Overview")
        self.browser.run("document.querySelector('[role=tab][aria-selected=true]').focus()")
        press = lambda key: self.browser.driver.switch_to.active_element.send_keys(key)
        focused = "return document.activeElement.dataset.tab ?? document.activeElement.textContent"
        right, tab = Keys.ARROW_RIGHT, Keys.TAB
        for keys, reached in ([right], "Findings"), ([Keys.END], "Bytes"), ([Keys.HOME, right, right], "Sections"), ([tab, tab, tab], "#"):
            for key in keys:
                press(key)
            self.assertEqual(self.browser.run(focused), reached)
        press(Keys.ENTER)
        self.assertEqual(self.browser.one("#panel-Sections th").get_attribute("aria-sort"), "ascending")
        self.assertTrue(self.browser.run("return document.activeElement.matches(':focus-visible')"))

    def test_keyboard_stops(self):
        """The list of files and the map are one stop of the keyboard each, with arrows inside. Enter on a file keeps the focus there."""
        self.browser.open()
        self.browser.give(self.file("keys.pef", container()), self.file("two.bin", mac_binary()[0]), self.file("bad.pef", damaged()[0]))
        self.browser.show("Overview")
        press = lambda key: self.browser.driver.switch_to.active_element.send_keys(key)
        focused = "return document.activeElement.textContent"
        stops = "return [...document.querySelectorAll(arguments[0])].filter((it) => it.tabIndex === 0).length"
        self.browser.run("document.querySelector('#list .file').focus()")
        for key, reached in (Keys.ARROW_DOWN, "two.bin"), (Keys.END, "bad.pef"), (Keys.ARROW_UP, "two.bin"):
            press(key)
            self.assertIn(reached, self.browser.run(focused))
        press(Keys.ENTER)
        self.browser.wait(lambda: self.browser.text("main h2") == "two.bin")
        self.assertIn("two.bin", self.browser.run(focused))
        press(Keys.ARROW_DOWN)
        self.assertEqual(self.browser.run(focused), "00000080")
        self.assertEqual(self.browser.run(stops, "#list button"), 1)
        press(Keys.HOME)
        press(Keys.ENTER)
        self.browser.wait(lambda: self.browser.text("main h2") == "keys.pef")
        self.assertEqual(self.browser.run(stops, ".map .part"), 1)
        self.browser.run("document.querySelector('.map .part[tabindex=\"0\"]').focus()")
        press(Keys.ARROW_RIGHT)
        self.assertTrue(self.browser.run("return document.activeElement.ariaLabel").startswith("section header 0, 00000028 to 00000044"))
        press(Keys.ENTER)
        self.assertEqual(self.browser.text(".hex .mark"), "00")
        self.assertEqual(self.browser.one("[data-tab=Bytes]").get_attribute("aria-selected"), "true")

    def test_drop(self):
        """Each item of a drop is read by itself, and so are the files of folders. The page says what can't be read."""
        self.browser.open()
        folder = pathlib.Path(self.folder.name) / "folder"
        (folder / "inner").mkdir(parents=True)
        (folder / "empty").mkdir()
        (folder / "inner/bad.pef").write_bytes(damaged()[0])
        (folder / "sound.pef").write_bytes(container())
        # A browser doesn't read a file of so many bytes.
        with open(folder / "huge.img", "wb") as huge:
            huge.truncate(5 << 30)
        self.browser.drop(folder, self.file("last.pef", container()))
        shown = self.browser.rows()
        self.assertEqual(shown, ["empty folder/ unreadable", "huge.img folder/ unreadable", "bad.pef folder/inner/ damaged 2 errors 1 note", "sound.pef folder/ whole no errors, no notes", "last.pef whole no errors, no notes"])
        self.assertEqual(self.browser.text("#status"), "3 files were read. 2 files can't be read: the list says why.")
        self.assertEqual(self.browser.text("main h2"), "bad.pef")
        self.browser.one("#list .file").click()
        self.browser.wait(lambda: self.browser.text("main h2") == "empty")
        self.assertEqual(self.browser.text("main .damaged"), "folder/empty can't be read: it is a folder with no files in it.")
        (folder / "huge.img").unlink()

    def test_file_address(self):
        """From a `file:` address, from which browsers load no modules, the page says what to do, and takes no files."""
        self.browser.driver.get((WEB / "index.html").as_uri())
        self.browser.wait(lambda: self.browser.one(".unloaded").is_displayed())
        self.assertIn("python3 -m http.server", self.browser.one(".unloaded").text)
        self.assertFalse(self.browser.one("#pick").is_enabled())
        self.browser.complaints()
        self.browser.open()
        self.assertEqual(self.browser.all(".unloaded"), [])

    def test_no_module(self):
        """Without the module the page says what to do."""
        with tempfile.TemporaryDirectory() as folder:
            served = pathlib.Path(folder) / "web"
            shutil.copytree(WEB, served, ignore=shutil.ignore_patterns("pef.wasm"))
            with contextlib.closing(Browser(served=served)) as browser:
                self.assertIn("pef.wasm: 404", browser.text(".warning"))
                self.assertIn("tools/page-module makes it", browser.text("main"))
                self.assertFalse(browser.one("#pick").is_enabled())

    def test_example(self):
        """The start page has an example, which has errors, notes, a fragment and resources."""
        self.browser.open()
        self.browser.one("#example-damaged").click()
        self.browser.wait_for_files()
        self.assertEqual(self.browser.rows(), ["example.bin damaged 1 error 1 note"])
        self.assertEqual(self.browser.text("main h2"), "Calculator (example.bin, container at 00000080)")
        self.browser.show("Findings")
        self.assertEqual([row[:3] for row in self.browser.cells("Findings")], [["error", "9", "BadAlignment"], ["note", "107", "WordOutsideImage"]])

    def test_list(self):
        """The list of files says which are bad, and can be filtered. Files are removed. All JSON is saved, and a container is."""
        self.browser.open()
        content = {"sound.pef": container(), "bad.pef": damaged()[0], "two.bin": mac_binary()[0], "none.bin": b"none"}
        self.browser.give(*(self.file(name, it) for name, it in content.items()))
        said = {"sound.pef": "whole no errors, no notes", "bad.pef": "damaged 2 errors 1 note", "two.bin": "whole 1 note", "none.bin": "no container"}
        rows = [f"{name} {words}" for name, words in said.items()]
        self.assertEqual(self.browser.rows(), rows)
        filters = {
            "With errors (1)": rows[1:2], "With errors or notes (2)": rows[1:3], "Whole (2)": [rows[0], rows[2]], "Damaged (1)": rows[1:2], "Cut (0)": [],
            "Without a container (1)": rows[3:], "All files (4)": rows,
        }
        for option, shown in filters.items():
            Select(self.browser.one("#filter")).select_by_visible_text(option)
            self.assertEqual(self.browser.rows(), shown)
        orders = {"By verdict, the worst first": [1, 0, 2, 3], "By name": [1, 3, 0, 2], "By errors, the most first": [1, 0, 2, 3], "As they were opened": [0, 1, 2, 3]}
        for order, shown in orders.items():
            Select(self.browser.one("#order")).select_by_visible_text(order)
            self.assertEqual(self.browser.rows(), [rows[i] for i in shown])
        # The tab stays when another file is chosen.
        self.browser.show("Sections")
        self.browser.all("#list > li > .row > .file")[1].click()
        self.browser.wait(lambda: self.browser.text("main h2") == "bad.pef")
        self.assertEqual(self.browser.one("[data-tab=Sections]").get_attribute("aria-selected"), "true")
        self.assertEqual(self.browser.cells("Sections")[0][1], "code")
        # A container without what follows it, if its parts are sound.
        self.assertEqual(self.browser.saved_by(".head .tools button:last-child", "bad.pef-00000000.pef"), content["bad.pef"])
        self.extracts("bad.pef", "#0", content["bad.pef"])
        self.browser.all("#list > li > .row > .file")[2].click()
        self.browser.wait(lambda: self.browser.text("main h2") == "two.bin")
        self.browser.one("#list ul:not([hidden]) .file").click()
        self.browser.wait(lambda: "00000080" in self.browser.text("main h2"))
        self.assertEqual(self.browser.saved_by(".head .tools button:last-child", "two.bin-00000080.pef"), container())
        self.extracts("two.bin", "#0", container())
        lines = self.browser.saved_by("#saveAll", "files.jsonl").decode().splitlines()
        self.assertEqual([json.loads(line)["file"] for line in lines], list(content))
        # The file that is shown is removed, and the next one is shown.
        self.browser.all("#list > li > .row > .file")[2].send_keys(Keys.DELETE)
        self.browser.wait(lambda: self.browser.text("main h2") == "none.bin")
        self.assertEqual(self.browser.rows(), rows[:2] + rows[3:])
        for _ in range(3):
            self.browser.run("document.querySelector('#list .remove').click()")
        self.assertTrue(self.browser.one("#example-damaged").is_displayed())
        self.assertFalse(self.browser.one("#files").is_displayed())

    def test_companion(self):
        """A file and the file with its resource fork are one row. The fragments there name the containers of the file."""
        self.browser.open()
        content, _, forks = mac_binary(place=0)
        fork = content[forks[1]["offset"] : forks[1]["offset"] + forks[1]["length"]]
        self.browser.give(self.file("Tool.rsrc", fork), self.file("Tool", container()))
        self.assertEqual(self.browser.rows(), ["Tool whole no errors, no notes"])
        self.assertEqual(self.browser.text("main h2"), "Calc (Tool)")
        self.browser.press_button("Show the file")
        self.browser.wait(lambda: self.browser.text("main h2") == "Tool")
        containers, fragments, resources = self.browser.tables("main")
        self.assertEqual(containers, [["0", "00000000", "Calc", "whole", "0", "0"]])
        self.assertEqual(fragments, [["Calc", "application", "pwpc", "1.2f1", "1.0", "data fork", "00000000", "372", ""]])
        self.assertEqual(resources, [["cfrg", "0", "\u2013", "00000014", "80", ""]])
        # From the view of the fork the fragment leads to the container.
        self.browser.one("#list ul .file").click()
        self.browser.wait(lambda: self.browser.text("main h2") == "Tool.rsrc")
        self.browser.one("[aria-label='Fragments that Tool.rsrc names'] tbody button").click()
        self.browser.wait(lambda: self.browser.text("main h2") == "Calc (Tool)")
        # A folder with the folder of an emulator.
        folder = pathlib.Path(self.folder.name) / "disk"
        (folder / ".rsrc").mkdir(parents=True)
        (folder / "Tool").write_bytes(container())
        (folder / ".rsrc/Tool").write_bytes(fork)
        self.browser.open()
        self.browser.drop(folder)
        self.assertEqual(self.browser.rows(), ["Tool disk/ whole no errors, no notes"])
        self.assertEqual(self.browser.text("main h2"), "Calc (Tool)")

    def test_looks(self):
        """Nothing is wider than the page, and at 1280 pixels no table is. On a narrow screen, what an error means is under its row."""
        folder = os.environ.get("WEB_SCREENSHOTS")
        wide = "return [...document.querySelectorAll('.scroller, .hex')].filter((it) => it.scrollWidth > it.clientWidth).length"
        for name, dark, width in (("light", False, 1280), ("dark", True, 1280), ("narrow", True, 400)):
            with contextlib.closing(Browser(dark, width)) as browser:
                browser.one("#example-damaged").click()
                browser.wait_for_files()
                for tab in ("Overview", "Findings", "Sections", "Libraries", "Imports", "Exports", "Relocations", "Bytes"):
                    browser.show(tab)
                    page = browser.run("return [document.documentElement.scrollWidth, document.documentElement.clientWidth]")
                    self.assertLessEqual(page[0], page[1], f"{name} {tab}")
                    self.assertEqual(0 if width < 500 else browser.run(wide), 0, f"{name} {tab}")
                    if folder:
                        browser.driver.save_screenshot(f"{folder}/{name}-{tab}.png")
                browser.show("Findings")
                under = browser.run("const [row] = document.querySelector('#panel-Findings tbody').rows; return row.cells[0].getBoundingClientRect().bottom <= row.cells[5].getBoundingClientRect().top")
                self.assertEqual(under, width < 500, name)
                color = browser.run("return getComputedStyle(document.body).backgroundColor")
                self.assertEqual(color, "rgb(20, 23, 28)" if dark else "rgb(255, 255, 255)")
                self.assertEqual(browser.complaints(), [])
