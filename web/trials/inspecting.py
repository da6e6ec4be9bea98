"""Trials of what the page shows of sound, damaged and hostile files."""
import json
import struct

from selenium.webdriver.common.keys import Keys

from .browser import Quiet, Trial
from .containers import (
    MARKUP, NOT_SAID, SAID, SCRIPT, container, counted, cut, damaged, fragment_of, known, loader, mac_binary, section_header, table_at, trailing,
)


class Inspecting(Trial):
    """What the page shows and saves of files and their containers."""

    def test_sound(self):
        """Each table shows what the JSON has, the map has all bytes, and once it is loaded the page asks the server for nothing more."""
        before = len(Quiet.asked)
        it = known()
        self.tries("sound.pef", container(), "container", [it])
        self.assertEqual(self.browser.text(".verdict"), "whole, no errors, no notes")
        self.assertEqual(self.browser.text("[data-tab=Imports]"), "Imports 3")
        self.browser.show("Overview")
        parts = self.browser.cells("Overview")
        self.assertEqual([row[3] for row in parts[:9]], ["container header", "section header 0", "section header 1", "section header 2", "section names", "section 0", "section 1", "alignment", "section 2, loader"])
        self.assertEqual([row[:3] for row in parts[4:9]], [["0000007C", "00000090", "20"], ["00000090", "000000A0", "16"], ["000000A0", "000000A1", "1"], ["000000A1", "000000B0", "15"], ["000000B0", "00000174", "196"]])
        for tab in ("Sections", "Libraries", "Imports", "Exports", "Relocations"):
            self.browser.show(tab)
            shown = self.browser.cells(tab)
            self.assertEqual(len(shown), len(it[tab.lower()]))
            for cells, row in zip(shown, it[tab.lower()]):
                self.assertEqual(cells[-1], f"{row['offset']:08X}")
                if row.get("name") is not None and "name_hex" not in row:
                    self.assertEqual(cells[1], row["name"])
        self.assertEqual(self.browser.cells("Sections")[1][:8], ["1", "\u2013", "2 pattern-initialized data", "1 process", "24", "16", "1", "3"])
        self.assertEqual(self.browser.cells("Libraries")[0][2:7], ["1.2f1", "1.0b3", "64 weak", "0", "3"])
        self.assertEqual(self.browser.cells("Imports")[1], ["1", "\u00e9%01&\"\\", "Lib", "1 data", "weak", "00000104"])
        self.assertEqual(self.browser.cells("Exports")[1], ["1", "e2", "1 data", "absolute", "0000004D", "0000016A"])
        self.browser.show("Bytes")
        self.assertEqual(len(Quiet.asked), before)

    def test_programs(self):
        """Instructions are listed up to one that is cut, and relocated words, which are marked in the expanded bytes of their section."""
        self.browser.give(self.file("instructions.pef", container((0x4000, 0x4A02, 0xA000))))
        self.browser.show("Relocations")
        self.assertEqual(self.browser.cells("Relocations", 1), [["0", "4000", "BySectC", "1", "00000118"], ["0", "4A02", "ImportRun", "3", "0000011A"]])
        self.browser.give(self.file("words.pef", container()))
        self.browser.show("Relocations")
        names = ["<b>x</b>", "\u00e9%01&\"\\", "plain"]
        wanted = [["1", "00000000", "section 0"]] + [["1", f"{4 * i + 4:08X}", f"import {i} {names[i]}"] for i in range(3)]
        self.assertEqual(self.browser.cells("Relocations", 2), wanted)
        self.browser.run("document.querySelectorAll('#panel-Relocations table')[2].querySelectorAll('tbody button')[1].click()")
        self.browser.settle()
        line = self.browser.text(".hex .line")
        self.assertTrue(line.startswith("00000000  00 00 00 00  00 00 00 00  00 00 00 00  00 00 00 00"), line)
        self.assertIn("00000008 + import 1", line)
        self.assertEqual(len(self.browser.all(".hex .relocated")), 16)
        self.assertEqual(len(self.browser.all(".hex .mark")), 1)

    def test_damaged(self):
        """Errors and notes are at their places, and a click leads there."""
        content, known = damaged()
        self.tries("damaged.pef", content, "container", [known])
        self.assertEqual(self.browser.text(".verdict"), "damaged, 2 errors, 1 note")
        self.browser.show("Findings")
        shown = self.browser.cells("Findings")
        self.assertEqual([row[:5] for row in shown], [
            ["error", "9", "BadAlignment", "section 0", "00000042"],
            ["error", "13", "BadName", "library 0", "000000E8"],
            ["note", "109", "TrailingBytes", "header", "00000174"],
        ])
        self.assertIn("7 bytes", shown[2][5])
        self.assertTrue(all(len(row[5]) > 20 for row in shown))
        self.browser.press("Findings", 3)
        self.assertEqual(self.browser.text(".hex .mark"), "00")
        self.assertEqual(self.browser.one("[data-tab=Bytes]").get_attribute("aria-selected"), "true")
        self.browser.show("Findings")
        self.browser.press("Findings", 2)
        self.assertEqual(self.browser.run("return document.activeElement.cells[1].textContent"), "\u2013")
        self.assertEqual(self.browser.one("[data-tab=Libraries]").get_attribute("aria-selected"), "true")

    def test_odd(self):
        """Notes are shown: a word that is relocated twice, a section that shares bytes, bytes of no part, and a reserved field."""
        # Section 0 is added to the first word, the position is set to 0, and section 0 is added again.
        made = bytearray(container((0x4000, 0xA000, 0x0000, 0x4000)))
        # Section 1 has the last byte of section 0, 50, which begins an instruction that is cut. Its own byte is of no part.
        made[68 + 20 : 68 + 24] = struct.pack(">I", 159)
        made[68 + 27] = 7
        path = self.file("odd.pef", bytes(made))
        self.browser.give(path)
        saved = self.browser.saved("odd.pef")
        it = json.loads(saved)["containers"][0]
        self.assertEqual([error["name"] for error in it["errors"]], ["Truncated"])
        notes = [("UnownedBytes", 160), ("ReservedNotZero", 95), ("Overlap", 88), ("WordRelocatedTwice", 176 + 104)]
        self.assertEqual([(note["name"], note["offset"]) for note in it["notes"]], notes)
        self.browser.show("Overview")
        self.assertIn(["000000A0", "000000B0", "16", "bytes of no part", "", "1"], self.browser.cells("Overview"))
        self.compares(path, saved)

    def test_long_name(self):
        """Of a long name the first bytes are shown and saved."""
        made = bytearray(container())
        # The name of import 0 begins where a long one follows the container, which the loader section has, too.
        made[256:260] = struct.pack(">I", 0x02000000 | 372 - 176 - 108)
        for length, told in (1100, 1100), (4096, 4096), (4097, None), (100000, None):
            long = b"n" * length + b"\0"
            made[96 + 16 : 96 + 20] = struct.pack(">I", 196 + len(long))
            path = self.file(f"long-{length}.pef", bytes(made) + long)
            self.browser.give(path)
            self.browser.show("Imports")
            self.assertEqual(self.browser.cells("Imports")[0][1], "n" * 1024 + "\u2026")
            saved = self.browser.saved(f"long-{length}.pef")
            self.assertEqual(json.loads(saved)["containers"][0]["imports"][0], {"offset": 256, "name": "n" * 1024, "name_length": told, "library": 0, "class": 2, "class_text": "tvector", "weak": False})
            self.compares(path, saved)

    def test_many_errors(self):
        """If there are too many errors, the first ones are shown, and the page says so. All of them are saved."""
        count = 70000
        made = loader(count, 0xFFFFFF)
        header = b"Joy!peffpwpc" + struct.pack(">IIIIIHHI", 1, 0, 0, 0, 0, 1, 0, 0) + section_header(-1, 0, 0, len(made), 80, 4, 4, 4)
        path = self.file("errors.pef", header + bytes(12) + made)
        self.browser.give(path)
        self.browser.show("Findings")
        self.assertIn("There are more errors or notes. The saved JSON has all of them.", self.browser.text("#panel-Findings"))
        self.assertEqual(self.browser.text("#panel-Findings .count"), "200 of 65,536 rows")
        self.assertEqual(self.browser.cells("Findings")[0][:4], ["error", "13", "BadName", "library 0"])
        saved = self.browser.saved("errors.pef")
        self.assertEqual(sum(it["name"] == "BadName" for it in json.loads(saved)["containers"][0]["errors"]), count + 1)
        self.compares(path, saved)
        # Of the imports the first 65,536 were read. The others are read when they are asked for.
        self.assertEqual(self.browser.text("[data-tab=Imports]"), "Imports 65,536+")
        self.browser.show("Imports")
        self.browser.one("#panel-Imports input").send_keys("00000100")
        self.browser.one("#panel-Imports .more").click()
        self.browser.wait(lambda: self.browser.text("[data-tab=Imports]") == "Imports 70,000")

    def test_partial(self):
        """Files without a container, one with a container that was cut, and one with a loader section that counts as instantiated."""
        self.tries("empty.bin", b"", "other", [])
        self.tries("other.bin", b"Joy!peff but too short", "other", [])
        self.assertIn("No container is in the file.", self.browser.text("main"))
        for name, (content, known) in (("cut.pef", cut()), ("counted.pef", counted())):
            self.tries(name, content, "container", [known])
        self.browser.show("Findings")
        shown = self.browser.cells("Findings")
        self.assertEqual([row[:5] for row in shown], [
            ["error", "10", "NoLoader", "header", "00000000"],
            ["error", "7", "BadSectionKind", "section 2", "00000078"],
            ["note", "116", "SectionsOutOfOrder", "header", "00000022"],
        ])
        self.assertIn("2 sections may be instantiated", shown[2][5])

    def test_hostile(self):
        """Names, also those of files, never become markup. A header that counts billions of rows costs no time."""
        name = f"{SCRIPT.decode()}&amp;.pef"
        self.browser.give(self.file(name, container()))
        self.browser.show("Exports")
        self.assertEqual(self.browser.cells("Exports")[0][1], SCRIPT.decode())
        self.assertEqual(self.browser.text("h2:not(.hidden)"), name)
        self.browser.show("Imports")
        self.assertEqual(self.browser.cells("Imports")[0][1], MARKUP.decode())
        self.assertEqual(self.browser.all("main img, main b, main script, nav img"), [])
        made = bytearray(container())
        made[176 + 24 : 176 + 40] = struct.pack(">IIII", 0x7F000000, 0xFFFFFFFF, 0xFFFFFFFF, 0xFFFFFFFF)
        self.browser.give(self.file("counts.pef", bytes(made)))
        self.browser.show("Findings")
        self.assertIn("BadTableOffset", [row[2] for row in self.browser.cells("Findings")])

    def test_mac_binary(self):
        """Parts, resources and fragments of a file are shown, and its containers are found."""
        content, two, forks = mac_binary()
        fork_at, fork_length = forks[1]["offset"], forks[1]["length"]
        self.tries("two.bin", content, "macbinary", two, mac=SAID, forks=forks, resources=[table_at(fork_at + 20)],
                   fragments=[fragment_of(fork_at + 20, 512, 372, 384)])
        containers, parts, fragments, resources = self.browser.tables("main")
        self.assertEqual(containers, [["0", "00000080", "", "whole", "0", "1"], ["1", "00000200", "Calc", "whole", "0", "0"]])
        self.assertEqual(parts, [["data fork", "00000080", "756", "", ""], ["resource fork", f"{fork_at:08X}", str(fork_length), "", ""], ["name", "00000002", "3", "Two", ""]])
        self.assertEqual(fragments, [["Calc", "application", "pwpc", "1.2f1", "1.0", "data fork", "00000200", "372", ""]])
        self.assertEqual(resources, [["cfrg", "0", "\u2013", f"{fork_at + 20:08X}", "80", ""]])
        self.browser.run("[...document.querySelectorAll('nav button')].filter((it) => it.textContent.includes('Calc')).at(-1).click()")
        self.browser.wait(lambda: self.browser.text("main h2") == "Calc (two.bin, container at 00000200)")

    def test_mac_damaged(self):
        """Errors of a file's header, its resources and its fragments are shown at their places."""
        content, two, forks = mac_binary(place=1000)
        fork_at, fork_length = forks[1]["offset"], forks[1]["length"]
        table = fork_at + 20
        outside = {"number": 98, "name": "FragmentOutside", "part": "fragment", "row": 0, "field": None, "offset": table + 32 + 24}
        more = {"mac": SAID, "forks": forks, "resources": [table_at(table)]}
        self.tries("outside.bin", content, "macbinary", two, **more, fragments=[fragment_of(table, None, 0, 1000)], errors=[outside])
        self.assertEqual(self.browser.text("main tbody td:nth-child(3)"), "FragmentOutside")
        self.browser.one("main tbody button").click()
        self.assertTrue(self.browser.text(".hex .line:has(.mark)").startswith(f"{(table + 56) // 16 * 16:08X}"))
        # A container that the member names and that isn't there.
        content = mac_binary(place=16)[0]
        missing = {"number": 80, "name": "NoContainer", "part": "fragment", "row": 0, "field": None, "offset": table + 32}
        self.tries("missing.bin", content, "macbinary", two, **more, fragments=[fragment_of(table, 144, 372, 16)], errors=[missing])
        # AppleDouble with an entry whose bytes pass the end, and one that is cut.
        double = struct.pack(">II16xH", 0x00051607, 0x00020000, 1) + struct.pack(">III", 2, 38, 100)
        outside = {"number": 85, "name": "AppleEntryOutside", "part": "fork", "row": 0, "field": None, "offset": 30}
        self.tries("double.bin", double, "appledouble", [], mac=NOT_SAID, errors=[outside])
        self.tries("cut.bin", double[:12], "damaged", [], errors=[{**outside, "number": 82, "name": "AppleHeaderCut", "row": None, "offset": None}])
        # A resource fork whose map passes the end.
        fork = mac_binary()[0][fork_at : fork_at + fork_length]
        self.tries("fork.rsrc", fork, "resources", [], forks=[{"kind": "resource", "offset": 0, "length": fork_length}], resources=[table_at(20)],
                   fragments=[{**fragment_of(20, None, 0, 384)}],
                   notes=[{"number": 119, "name": "DataForkElsewhere", "part": "fragment", "row": 0, "field": None, "offset": 52}])

    def test_bytes(self):
        """A place past the end and a number that can't be read are said. The zeros of a section are shown with their relocated words."""
        made = bytearray(container())
        # Section 1 has no bytes in the file, and 64 in memory.
        made[76:88] = struct.pack(">III", 64, 0, 0)
        made[92] = 1
        self.browser.give(self.file("zeros.pef", bytes(made)))
        self.browser.show("Bytes")

        def go(words):
            self.browser.one(".bytes input").clear()
            self.browser.one(".bytes input").send_keys(words, Keys.ENTER)
            self.browser.settle()
            return self.browser.one(".warning").text

        self.assertEqual(go("xyz"), "\u201cxyz\u201d isn't an offset in hexadecimal, such as 1A0.")
        self.assertEqual(go(""), "Type an offset in hexadecimal, such as 1A0.")
        self.assertEqual(go("1000"), "00001000 is past the end: the last byte is at 00000173.")
        self.assertEqual(go("0x173"), "")
        self.assertEqual(self.browser.text(".hex .mark"), "FE")
        self.browser.one(".bytes select").send_keys("section 1")
        self.browser.settle()
        self.assertTrue(self.browser.text(".bytes .hint").startswith("The file has no bytes of this section. Its 64 bytes begin as zeros. 4 words are relocated."))
        lines = self.browser.run("return [...document.querySelectorAll('.hex .line')].map((it) => it.textContent)")
        self.assertEqual(len(lines), 4)
        self.assertIn("00000004 + import 0", lines[0])
        self.assertEqual(go("40"), "00000040 is past the end: the last byte is at 0000003F.")
        self.browser.give(self.file("two.bin", mac_binary()[0]))
        self.browser.all("nav ul ul button")[-1].click()
        self.browser.wait(lambda: "00000200" in self.browser.text("main h2"))
        self.browser.show("Bytes")
        self.assertEqual(go("1FF"), "000001FF is before the first byte, which is at 00000200.")

    def test_values(self):
        """A date of 0 is none, and versions are shown as people write them, or as numbers if they aren't such versions."""
        script = """
            const [versions, done] = arguments;
            import("/text.js").then(({ date, versionColumn }) => {
                done([date(0, "1904-01-01T00:00:00"), ...versions.map(([it, it_text]) => versionColumn("it").text({ it, it_text }))]);
            });
        """
        shown = self.browser.driver.execute_async_script(script, [[0x01208001, "1.2f1"], [3, "-"], [0xFFFF0000, "-"]])
        self.assertEqual(shown, ["none", "1.2f1", "3", "FFFF0000"])
