"""Trials of scripts: their errors are marked, and they are linked."""
import re
import subprocess

from selenium.webdriver.common.keys import Keys
from selenium.webdriver.support.ui import Select

from .browser import ROOT, Trial

#: A script with each kind of error: the number, the line, and the word that is marked, with the earlier line that it is about.
ERRORS = {
    "a word that begins no line": ("sections data\n", 41, 1, "sections", None),
    "a number": ("section d data process 4 007\n", 42, 1, "007", None),
    "an unknown name": ("section data data process 4 4\nbytes dato 00\n", 43, 2, "dato", 1),
    "a repeated name": ("section d data process 4 4\nsection d data process 4 4\n", 44, 2, "d", 1),
    "the order": ("section d data process 4 4\nbytes d 00\nsection e data process 4 4\n", 45, 3, "section", 2),
    "an overlap": ("section d data process 4 8\nfix d 0 section d\nfix d 2 section d\n", 46, 3, "2", 2),
    "past the section": ("section d data process 4 4\nfix d 4 section d\n", 47, 2, "4", None),
    "too many": ("".join(f"section s{i} data process 4 0\n" for i in range(17)), 48, 17, "s16", None),
    "a kind": ("# one\nsection d data shared 4 4\n", 49, 2, "shared", None),
}

#: The certificates of examples/transition-vectors.pefscript, as docs/FORMATS.md shows them.
CERTIFICATES = [
    """\
section 0
fixups 0
length 0
program -
registers *
at 0 0 0
""",
    """\
section 1
fixups 4
length 1
program 4601
registers 0 1 *
at 0 0 2 1 2 3 2 3 3 2 3
at 1 1 3 2 3 2 3 3 3 3 3
at 2 2 2 1 2 2 2 2 2 2 2
at 3 3 1 1 1 1 1 1 1 1 1
at 4 4 0 0 0 0 0 0 0 0 0
""",
]


class Linking(Trial):
    """Scripts in the text field."""

    def typed(self, script):
        """Types a script, and returns what is said of it."""
        self.browser.run("""
            const field = document.getElementById("script");
            document.getElementById("scriptError").textContent = "";
            field.value = arguments[0];
            field.dispatchEvent(new Event("input"));
        """, script)
        self.browser.wait(lambda: self.browser.text("#scriptError") != "")
        return self.browser.text("#scriptError")

    def test_errors(self):
        """Each kind of error is marked at its word and its line while the script is typed, with the earlier line that it is about."""
        self.browser.open()
        self.browser.one("#linkScript").click()
        for about, (script, number, line, word, earlier) in ERRORS.items():
            with self.subTest(about):
                said = self.typed(script)
                self.assertTrue(said.startswith(f"{number} "), said)
                self.assertIn(f", line {line}, word ", said)
                self.assertEqual(f"The earlier line is {earlier}." if earlier else None, next(iter(re.findall(r"The earlier line is \d+\.", said)), None))
                self.browser.press_button("Go to the word")
                marked = self.browser.run("const it = document.getElementById('script'); return it.value.slice(it.selectionStart, it.selectionEnd)")
                self.assertEqual(marked, word)
                self.assertTrue(self.browser.one(".wrong").is_displayed())
        self.assertEqual(self.typed("section d data process 4 4\n"), "The script has no error.")
        self.assertFalse(self.browser.one(".wrong").is_displayed())

    def test_examples(self):
        """Each example is linked as README says, and its memory is what `show` prints."""
        text = (ROOT / "examples/README.md").read_text()
        self.browser.open()
        for path in sorted((ROOT / "examples").glob("*.pefscript")):
            section = re.search(rf"^### [^\n]*`{re.escape(path.name)}`.*?(?=^##)", text, re.S | re.M)[0]
            linked = re.search(r"^`link`:\n\n```\nlinked (\d+) bytes", section, re.M)
            shown = re.search(r"^`show`:\n\n```\n(.*?)```", section, re.S | re.M)
            refused = re.search(r"^refused (\d+) (\w+) line (\d+)", section, re.M)
            with self.subTest(path.stem):
                if refused:
                    self.browser.one("#linkScript").click()
                    self.assertTrue(self.typed(path.read_text()).startswith("{} {}, line {},".format(*refused.groups())))
                    continue
                self.browser.open()
                self.browser.link("it", path.read_text())
                if linked:
                    self.browser.press_button("Show the file")
                    self.browser.wait(lambda: self.browser.text("main h2") == "it.pef" and "Containers" in self.browser.text("main"))
                    self.assertEqual(self.browser.text("main dd"), linked[1])
                if shown:
                    self.browser.press_button("Prepare")
                    self.browser.wait(lambda: self.browser.all("[aria-label='Fragments that can be prepared'], .memory"))
                    if not self.browser.all(".memory"):
                        self.browser.one("main tbody button").click()
                    if shown[1].startswith("refused "):
                        self.browser.wait(lambda: shown[1].strip() in self.browser.text("main"))
                        continue
                    self.browser.wait(lambda: self.browser.text("main h2") == "Memory of it")
                    self.assertEqual(self.browser.saved_by("[title='The lines that pef load prints']", "it.txt").decode(), shown[1])

    def certificates(self):
        """Shows the tab of the certificates. Returns of each its summary, whether it is unfolded, and its text."""
        self.browser.show("Certificates")
        rows = "[...document.querySelectorAll('#panel-Certificates details')]"
        return [tuple(row) for row in self.browser.run(f"return {rows}.map((it) => [it.querySelector('summary').textContent, it.open, it.querySelector('pre').textContent])")]

    def test_certificates(self):
        """Beside a container that was linked are the certificates that `pef distances` prints. The keyboard folds and unfolds them."""
        self.browser.open()
        self.browser.link("it", (ROOT / "examples/transition-vectors.pefscript").read_text())
        heads = [("Section 0: 0 fixups, 0 halfwords", False), ("Section 1: 4 fixups, 1 halfword", True)]
        self.assertEqual(self.certificates(), [(*head, certificate) for head, certificate in zip(heads, CERTIFICATES)])
        self.assertEqual(self.browser.saved_by(".saveCertificates", "it.pefcert").decode(), "".join(["pefcert 2\n", *CERTIFICATES, "end\n"]))
        for is_open in (True, False):
            self.browser.all("#panel-Certificates summary")[0].send_keys(Keys.ENTER)
            self.assertEqual(self.browser.run("return document.querySelector('#panel-Certificates details').open"), is_open)
        self.browser.one("#panel-Certificates summary").send_keys(Keys.TAB)
        self.assertEqual(self.browser.run("return document.activeElement.textContent"), "Section 1: 4 fixups, 1 halfword")
        # A script without a section has no certificates, and a container that was given has no script.
        self.browser.link("none", "versions 1 0 0\n")
        self.assertEqual(self.certificates(), [])
        self.assertEqual(self.browser.saved_by(".saveCertificates", "none.pefcert").decode(), "pefcert 2\nend\n")
        self.browser.give(self.file("given.pef", self.browser.saved_by(".saveContainer", "none.pef-00000000.pef")))
        self.assertEqual(self.browser.text("main h2"), "given.pef")
        self.assertEqual(self.browser.all("[data-tab=Certificates]"), [])

    def test_long_certificate(self):
        """Of a long certificate the beginning is shown, and all of it is saved."""
        # A row has a label for each of 17 times 17 classes, and there are 129 rows.
        sections = "".join(f"section s{it} data process 0 0\n" for it in range(1, 16))
        script = "section s0 data process 0 65536\n" + sections + "".join(f"fix s0 {512 * it} section s{it % 16}\n" for it in range(128))
        self.browser.open()
        self.browser.link("long", script)
        found = self.certificates()
        self.assertEqual([is_open for _, is_open, _ in found], 16 * [False])
        self.assertTrue(found[0][0].startswith("Section 0: 128 fixups, "), found[0][0])
        self.assertEqual(len(found[0][2]), 65536)
        self.assertIn("Only the first 65,536 characters of ", self.browser.text("#panel-Certificates details"))
        saved = self.browser.saved_by(".saveCertificates", "long.pefcert").decode()
        self.assertTrue(saved.startswith("pefcert 2\n" + found[0][2]) and saved.endswith("".join(it for _, _, it in found[1:]) + "end\n"))
        if self.program.is_file():
            path = self.file("long.pefscript", script.encode())
            ran = subprocess.run([self.program, "distances", path], capture_output=True, check=True)
            self.assertTrue(saved == ran.stdout.decode())

    def test_choose(self):
        """An example is chosen from the list, linked, and opened as a file. The page's address opens one, too."""
        self.browser.open()
        self.browser.one("#linkScript").click()
        Select(self.browser.one("main select")).select_by_visible_text("packed")
        self.browser.wait(lambda: self.browser.text("#scriptError") == "The script has no error.")
        self.browser.one("#link").click()
        self.browser.wait_for_files()
        self.assertEqual(self.browser.text("main h2"), "packed.pef")
        self.assertEqual(self.browser.rows(), ["packed.pef whole no errors, no notes"])
        # What was typed stays.
        self.browser.one("#linkScript").click()
        self.assertEqual(self.browser.run("return document.getElementById('script').value"), (ROOT / "examples/packed.pefscript").read_text())
        self.browser.open("#script=core")
        self.browser.wait(lambda: self.browser.all("#script"))
        self.assertEqual(self.browser.run("return document.getElementById('script').value"), (ROOT / "examples/core.pefscript").read_text())
        self.browser.open("#example=memory")
        self.browser.wait(lambda: self.browser.text("main h2") == "Memory of app")
