"""Trials of prepared memory: what is shown is what `pef load` prints."""
import ast
import base64
import json
import pathlib
import re
import struct
import subprocess

from selenium.webdriver.common.keys import Keys

from .browser import ROOT, Trial
from .containers import container, damaged, mac_binary, section_header, slow

CONFORMANCE = ROOT / "conformance/cases"

#: Gives files to the page by their names and bytes, prepares the first, and returns what is shown.
PREPARE = """
    const [files, done] = arguments;
    const until = async (holds) => {
        for (let i = 0; !holds(); i += 1) {
            if (i > 3000) {
                throw new Error("the page took too long");
            }
            await new Promise((resolve) => setTimeout(resolve, 10));
        }
    };
    const title = () => document.querySelector("main h2")?.textContent ?? "";
    const idle = () => document.querySelector("[aria-busy=true]") === null;
    (async () => {
        document.querySelectorAll("#list .remove").forEach((it) => it.click());
        const given = new DataTransfer();
        files.forEach(([name, text]) => given.items.add(new File([Uint8Array.from(atob(text), (it) => it.charCodeAt(0))], name)));
        document.getElementById("status").textContent = "";
        pick.files = given.files;
        pick.dispatchEvent(new Event("change"));
        await until(() => /read\\.$/.test(document.getElementById("status").textContent));
        document.getElementById("prepare").click();
        const offers = files.map(([name]) => [...document.querySelectorAll("main tbody tr")].find((it) => it.cells[3]?.textContent === name));
        if (offers.includes(undefined)) {
            return { offered: false };
        }
        offers[0].querySelector("button").click();
        await until(() => /^Memory of|isn't prepared$/.test(title()));
        if (!title().startsWith("Memory of")) {
            return { offered: true, refused: document.querySelector("main .damaged").textContent };
        }
        const lines = [];
        const rows = (panel, caption) => [...document.querySelectorAll(`#panel-${panel} [aria-label="${caption}"] tbody tr`)].map((it) => [...it.cells].map((cell) => cell.textContent));
        document.querySelector("[data-tab=Closure]").click();
        const fragments = rows("Closure", "Fragments").filter((it) => it.length > 1);
        const entries = rows("Closure", "Entry points").filter((it) => it.length > 1);
        document.querySelector("[data-tab=Sections]").click();
        const sections = rows("Sections", "Sections in memory").filter((it) => it.length > 1);
        document.querySelector("[data-tab=Bytes]").click();
        const select = document.querySelector(".bytes select");
        const bytes = [];
        for (const option of select.options) {
            select.value = option.value;
            select.dispatchEvent(new Event("change"));
            await until(idle);
            const hex = document.querySelector(".hex");
            const seen = new Map();
            for (let top = 0; !hex.hidden && top < hex.scrollHeight; top += hex.clientHeight / 2) {
                if (top > 0) {
                    hex.scrollTop = top;
                    await new Promise((resolve) => setTimeout(resolve, 50));
                }
                hex.querySelectorAll(".line").forEach((it) => seen.set(it.querySelector(".at").textContent.trim(), it.querySelector(".cells").textContent.replace(/ /g, "")));
                if (hex.scrollHeight <= hex.clientHeight) {
                    break;
                }
            }
            bytes.push([...seen]);
        }
        return { offered: true, fragments, sections, entries, bytes };
    })().then(done, (error) => done({ error: String(error) }));
"""

ENTRIES = {"initialization routine": "init", "main entry point": "main", "termination routine": "term"}


def encoded(content):
    return base64.b64encode(content).decode()


def lines_of(shown):
    """The lines that `pef load` prints of what the page shows."""
    lines, at = [], 0
    for _, fragment, *_ in shown["fragments"]:
        lines.append(f"fragment {fragment}")
        for row in (it for it in shown["sections"] if it[0] == fragment):
            lines.append(f"section {row[1]} at {row[2]} size {row[3]}")
            for address, digits in shown["bytes"][at]:
                lines.append(" ".join([address, *re.findall(".{1,8}", digits)]))
            at += 1
    for what, fragment, address in shown["entries"]:
        kind = ENTRIES[what]
        lines.append(f"{kind} {address}" if kind == "main" else f"{kind} {fragment} {address}")
    return lines


def rules():
    """The numbers of the rules of conformance/, by their names."""
    tree = ast.parse((ROOT / "conformance/answer-pef").read_text())
    found = next(it for it in tree.body if isinstance(it, ast.Assign) and ast.unparse(it.targets[0]) == "RULES")
    return {name: number for number, name in ast.literal_eval(found.value).items()}


def answer_lines(answer):
    """The lines of the sections that a case of conformance/ wants, by fragment, and its entry points."""
    lines = {}
    for fragment, sections in answer["memory"].items():
        lines[fragment] = []
        for number, (digits, address) in enumerate(zip(sections, answer["addresses"][fragment])):
            lines[fragment].append(f"section {number} at {address:08X} size {len(digits) // 2}")
            for at in range(0, len(digits), 32):
                lines[fragment].append(" ".join([f"{address + at // 2:08X}", *re.findall(".{1,8}", digits[at : at + 32].upper())]))
    return lines


class Preparing(Trial):
    """Fragments that are prepared, and what the page shows of their memory."""

    def prepared(self, *files):
        """Prepares the first of some files, which have names and bytes, and returns what is shown."""
        self.browser.driver.set_script_timeout(60)
        shown = self.browser.driver.execute_async_script(PREPARE, [[name, encoded(content)] for name, content in files])
        self.assertNotIn("error", shown, files[0][0])
        return shown

    def load(self, *files):
        """Returns what `pef load` prints of such files, or None if the program isn't built."""
        if not self.program.is_file():
            return None
        for name, content in files:
            self.file(name, content)
        words = [f"{pathlib.Path(name).stem}={name}" for name, _ in files]
        return subprocess.run([self.program, "load", *words], cwd=self.folder.name, capture_output=True, text=True, check=False).stdout.splitlines()

    def test_conformance(self):
        """What is shown for the cases of conformance/ is what they want, and what `pef load` prints."""
        self.browser.open()
        numbers = rules()
        for path in sorted(CONFORMANCE.glob("*.json")):
            case = json.loads(path.read_text())
            files = [(f"{name}.pef", (CONFORMANCE / file).read_bytes()) for name, file in case["fragments"]]
            if case["ask"] == "prepare" and case["root"] != case["fragments"][0][0]:
                continue
            with self.subTest(path.stem):
                shown = self.prepared(*files)
                if not shown["offered"]:
                    # Bytes with another tag, or too few, are no container in a file. `pef load` refuses them, or doesn't need them.
                    self.assertIn(numbers.get(case["answer"].get("refused"), 0), (0, 1, 2))
                    continue
                lines = [shown["refused"]] if "refused" in shown else lines_of(shown)
                loaded = self.load(*files)
                if loaded is not None:
                    self.assertEqual(lines, loaded)
                if case["ask"] != "prepare":
                    continue
                if "refused" in case["answer"]:
                    self.assertEqual(lines[0].split()[1], str(numbers[case["answer"]["refused"]]))
                    continue
                wanted = answer_lines(case["answer"])
                self.assertEqual(len(shown["fragments"]), len(wanted))
                self.assertEqual([it for it in lines if re.match("section|[0-9A-F]{8} ", it)], [line for _, name, *_ in shown["fragments"] for line in wanted[name]])

    def test_mac_binary(self):
        """From a MacBinary file to its memory, as a newcomer goes: the file, Prepare, the fragment, its bytes."""
        self.browser.open()
        self.browser.give(self.file("two.bin", mac_binary(place=384)[0]))
        self.browser.press_button("Prepare")
        rows = self.browser.tables("main")[0]
        self.assertEqual(rows, [["Calc", "application", "1.2f1", "two.bin", "00000200", "372"], ["two#0", "\u2013", "\u2013", "two.bin", "00000080", "756"]])
        self.browser.one("main tbody button").click()
        self.browser.wait(lambda: self.browser.text("main h2") == "Memory of Calc")
        # The library is weak, so that its imports are 0.
        self.assertIn("missing, and weak: its imports are 0", self.browser.text(".tree"))
        self.browser.show("Sections")
        self.assertEqual([row[:4] for row in self.browser.cells("Sections")], [["Calc", "0", "00010000", "16"], ["Calc", "1", "00010010", "24"]])
        self.browser.show("Words")
        wanted = [["Calc", "1", "00010010", "00010000", "section 0", "00010000"]] + [["Calc", "1", f"{0x10014 + 4 * i:08X}", "00000000"] for i in range(3)]
        self.assertEqual([row[: len(it)] for row, it in zip(self.browser.cells("Words"), wanted)], wanted)
        self.browser.press("Words", 0)
        self.assertEqual(self.browser.text(".told").split(".")[0], "00010010: byte 00")
        self.assertIn("The word at 00010010 has 00010000, which is Calc, section 0 + 0", self.browser.text(".told"))
        # What was added leads there, by the mouse and by the keyboard.
        self.browser.one(".told button").send_keys(Keys.ENTER)
        self.browser.wait(lambda: self.browser.text(".told").startswith("00010000: byte 41"))

    def test_three(self):
        """Three fragments: who needs whom, where imports lead, a search, and what is saved."""
        self.browser.open()
        self.browser.one("#example-memory").click()
        self.browser.wait(lambda: self.browser.text("main h2") == "Memory of app")
        self.browser.wait(lambda: "was prepared." in self.browser.text("#status"))
        self.browser.show("Closure")
        names = self.browser.run("return [...document.querySelectorAll('.tree button')].map((it) => it.textContent)")
        self.assertEqual(names, ["app", "Interface", "Core"])
        # The tree is one stop of the keyboard.
        self.browser.run("document.querySelector('.tree button').focus()")
        self.browser.driver.switch_to.active_element.send_keys(Keys.ARROW_DOWN)
        self.assertEqual(self.browser.run("return document.activeElement.textContent"), "Interface")
        self.browser.show("Imports")
        self.assertEqual([row[2:4] + row[6:] for row in self.browser.cells("Imports") if row[0] == "app"], [
            ["NewPtr", "Interface", "00010010", "Core, section 1 + 0"], ["Globals", "Interface", "00010020", "Interface, section 0 + 0"],
        ])
        self.browser.show("Search")
        for kind, words, found in (("a name", "newp", 4), ("an address", "10010", 3), ("bytes", "3860002A", 1), ("bytes", "\"nothing\"", 0)):
            self.browser.one(".search select").send_keys(kind)
            self.browser.one(".search input").clear()
            self.browser.one(".search input").send_keys(words, Keys.ENTER)
            self.assertEqual(len(self.browser.all(".search tbody tr")), found, words)
        saved = self.browser.saved_by("[title='The lines that pef load prints']", "app.txt").decode()
        wanted = re.search(r"^`load`:\n\n```\n(fragment Core\n.*?)```", (ROOT / "examples/README.md").read_text(), re.S | re.M)[1]
        self.assertEqual(saved, wanted)
        image = self.browser.saved_by("[title='All bytes from the first address to the last']", "app-00010000.bin")
        self.assertEqual(image.hex(), "3860002a4e800020" + 8 * "00" + "0001000000010010" + 8 * "00" + "00000007" + 12 * "00" + "0001001000010020")
        objects = [json.loads(line) for line in self.browser.saved_by("#saveMemoryJson", "app.jsonl").decode().splitlines()]
        self.assertEqual([it["fragment"] for it in objects], ["Core", "Interface", "app"])
        self.assertEqual(objects[2]["sections"], [{"number": 0, "kind": 1, "kind_text": "data", "share": 1, "share_text": "process", "address": 0x10030, "size": 8}])
        self.assertEqual(objects[1]["imports"], [{"name": "NewPtr", "library": "Core", "class": 2, "class_text": "tvector", "weak": False, "address": 0x10010}])
        self.assertEqual(objects[1]["exports"], [
            {"name": "NewPtr", "class": 2, "class_text": "tvector", "address": 0x10010}, {"name": "Globals", "class": 1, "class_text": "data", "address": 0x10020},
        ])
        words = [{"offset": 0, "kind": "import", "number": 0}, {"offset": 4, "kind": "import", "number": 1}]
        self.assertEqual((objects[2]["relocations"], objects[2]["entries"]), ([{"section": 0, "words": words}], {"main": 0x10030, "init": None, "term": None}))

    def test_missing(self):
        """A library that is missing is listed with what imports it. The error leads to its byte. With stubs there is memory."""
        self.browser.open()
        self.browser.one("#example-missing").click()
        self.browser.wait(lambda: self.browser.text("main h2") == "user isn't prepared")
        self.assertEqual(self.browser.text("main .damaged"), "refused 61 LibraryMissing in user library System")
        self.assertEqual(self.browser.tables("main")[0], [["System", "user", "2", "GetTrapAddress, NewHandle", "no memory", "no"]])
        self.browser.one("#place").click()
        self.browser.wait(lambda: self.browser.text("main h2") == "user.pef")
        self.browser.wait(lambda: self.browser.all(".hex .mark"))
        # The name of the only library is the first member of its row, 56 bytes after the beginning of the loader section.
        self.browser.show("Libraries")
        self.assertIn(self.browser.cells("Libraries")[0][-1], self.browser.run("document.querySelector('[data-tab=Bytes]').click(); return document.querySelector('.told').textContent"))
        self.browser.press_button("Prepare")
        self.browser.wait(lambda: self.browser.all("#stubs"))
        self.browser.one("#stubs").click()
        self.browser.wait(lambda: self.browser.text("main h2") == "Memory of user")
        self.browser.show("Stubs")
        self.assertEqual([row[1:4] for row in self.browser.cells("Stubs")], [["GetTrapAddress", "2 transition vector", "F0000000"], ["NewHandle", "2 transition vector", "F0000010"]])
        self.browser.show("Imports")
        self.assertEqual([row[-1] for row in self.browser.cells("Imports")], ["the number F0000000: GetTrapAddress of System", "the number F0000010: NewHandle of System"])
        self.browser.show("Bytes")
        self.assertTrue(self.browser.text(".hex .line").startswith("00010000  F0 00 00 00  F0 00 00 10"))

    def test_stubs_of_one(self):
        """Three fragments, of which one is missing: the stub is in the tree, beside the fragments that files have."""
        scripts = {name: (ROOT / f"examples/{name}.pefscript").read_text() for name in ("layered-app", "interface")}
        self.browser.open()
        for name, script in (("Interface", "interface"), ("app", "layered-app")):
            self.browser.link(name, scripts[script])
        self.browser.press_button("Prepare")
        self.browser.wait(lambda: self.browser.all("#stubs"))
        self.assertEqual(self.browser.text("main .damaged"), "refused 61 LibraryMissing in Interface library Core")
        self.browser.one("#stubs").click()
        self.browser.wait(lambda: self.browser.text("main h2") == "Memory of app")
        self.browser.show("Closure")
        self.assertIn("Core stub", self.browser.text(".tree"))
        self.assertIn("Stubs are in their place", self.browser.text("#panel-Closure"))

    def test_damaged(self):
        """A damaged container is refused as `pef load` does, and a click leads to the byte."""
        self.browser.open()
        shown = self.prepared(("damaged.pef", damaged()[0]))
        self.assertEqual(shown["refused"], "refused 9 BadAlignment in damaged")
        self.browser.one("#place").click()
        self.browser.wait(lambda: self.browser.all(".hex .mark"))
        self.assertTrue(self.browser.text(".told").startswith("00000042: byte 28"))

    def test_versions(self):
        """Of several fragments with a name, the first one is taken whose versions fit."""
        library = lambda versions, word: f"versions {versions}\nsection d data process 4 4\nbytes d {word}\nexport x data d 0\n"
        user = "library Lib 5 5 -\nimport x data strong\nsection d data process 4 4\nfix d 0 import x\n"
        self.browser.open()
        for name, script in (("Lib", library("4 4 4", "00000004")), ("Lib", library("6 5 5", "00000006")), ("user", user)):
            self.browser.link(name, script)
        self.browser.press_button("Prepare")
        self.browser.wait(lambda: self.browser.text("main h2") == "Memory of user")
        self.browser.show("Bytes")
        self.browser.one(".bytes select").send_keys("Lib")
        self.assertTrue(self.browser.text(".hex .line").startswith("00010000  00 00 00 06"))

    def test_large(self):
        """A file of 64 megabytes becomes memory. Only the lines that are seen are in the document, wherever one goes."""
        made = self.large()
        self.browser.open()
        self.browser.give(self.file("large.pef", made))
        self.browser.press_button("Prepare")
        self.browser.wait(lambda: self.browser.text("main h2") == "Memory of large")
        self.browser.show("Bytes")
        few = lambda: self.assertLess(len(self.browser.all(".hex .line")), 60)
        few()
        self.browser.run("document.querySelector('.hex').focus()")
        self.browser.driver.switch_to.active_element.send_keys(Keys.END)
        last = 0x10000 + (63 << 20) - 1
        self.browser.wait(lambda: self.browser.text(".told").startswith(f"{last:08X}: byte 7A"))
        few()
        self.assertEqual(self.browser.text(".hex .mark"), "7A")
        wanted = self.browser.one("[aria-label^='Find bytes']")
        wanted.send_keys('"here"', Keys.ENTER)
        self.browser.wait(lambda: self.browser.text(".told").startswith(f"{0x10000 + (40 << 20):08X}: byte 68"))
        self.assertEqual(self.browser.text(".hex .mark"), "68")
        few()
        goal = self.browser.one("[aria-label^='Go to an address']")
        goal.send_keys("10000", Keys.ENTER)
        self.browser.wait(lambda: self.browser.text(".told").startswith("00010000: byte 00"))
        spent = self.browser.driver.execute_async_script("""
            const [done] = arguments;
            const hex = document.querySelector(".hex");
            const began = performance.now();
            let steps = 0;
            const step = () => {
                hex.scrollTop = (hex.scrollHeight * steps) / 50;
                steps += 1;
                steps < 50 ? requestAnimationFrame(step) : done(performance.now() - began);
            };
            step();
        """)
        # Fifty frames take less than a second if nothing has to be waited for. A busy machine takes longer.
        self.assertLess(spent, 10000)

    def large(self):
        """A container of 64 megabytes with one section, marked in the middle and at its end, and many zeros after it."""
        size = 63 << 20
        loader = struct.pack(">iIiIiI", -1, 0, -1, 0, -1, 0) + struct.pack(">IIIIIIII", 0, 0, 0, 56, 56, 56, 0, 0) + bytes(4)
        header = b"Joy!peffpwpc" + struct.pack(">IIIIIHHI", 1, 0, 0, 0, 0, 2, 1, 0)
        header += section_header(-1, size, size, size, 112, 1, 1, 4) + section_header(-1, 0, 0, len(loader), 112 + size, 4, 4, 4)
        data = bytearray(size)
        data[40 << 20 : (40 << 20) + 4] = b"here"
        data[-1] = 0x7A
        made = header.ljust(112, b"\0") + bytes(data) + loader
        return made.ljust(64 << 20, b"\0")

    def test_stop(self):
        """Work of more than a second is shown, and can be stopped. Then the page goes on."""
        self.browser.open()
        self.browser.choose(self.file("slow.img", slow()))
        self.browser.wait(lambda: self.browser.one("#work").is_displayed())
        self.assertIn("Reading slow.img", self.browser.text("#work"))
        self.browser.one("#stop").click()
        self.browser.wait(lambda: not self.browser.one("#work").is_displayed())
        self.browser.give(self.file("small.pef", container()))
        self.browser.wait(lambda: self.browser.text("main h2") == "small.pef")
        self.browser.show("Imports")
        self.assertEqual(len(self.browser.cells("Imports")), 3)
