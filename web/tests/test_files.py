"""Files in both forms, there and back, and the drawing over a reload."""

import re
import subprocess
import unittest

import reference
from support import DENTED, PLUS, ROOT, WEB, PageTest, outlines, record

TEXT = "# specimens\n0 1 101030323212  # H3: a plus\n0 0 111033003222  # Größe 2, links\n256 0 7777\n3 4\n"


NEITHER = "The file is neither text nor a fitting file: a text begins with a digit or a #, a fitting file with the bytes 4B 4F."


class Files(PageTest):
    def load(self, name, content):
        path = self.folder / name
        path.write_bytes(content)
        self.by("load").send_keys(str(path))
        return path

    def loaded(self, name, content):
        self.load(name, content)
        self.until(lambda: name in self.text("record"))

    def saved(self, button, name):
        path = self.folder / name
        path.unlink(missing_ok=True)
        self.press(button)
        self.until(lambda: path.exists() and path.stat().st_size > 0, f"the download {path.name}")
        return path.read_bytes()

    def name(self):
        return self.by("name").get_attribute("value")

    def test_a_fitting_file_is_saved_as_it_was(self):
        specimens = [(start, letters) for start, letters, _ in outlines("specimens.txt") if start[0] < 256]
        content = b"".join(record(start, letters) for start, letters in specimens)
        self.loaded("clinic.fit", content)
        self.assertEqual(self.text("record"), f"Outline 0 of {len(specimens)}, counted from 0, in clinic.fit.")
        lines = reference.verdicts(specimens)
        for i, line in enumerate(lines):
            number = line["number"]
            self.says("Taken" if number == 0 else f"Refused, {number}:")
            if i + 1 < len(lines):
                self.press("on")
        self.assertEqual(self.saved("save-fitting", "clinic.fit"), content)

    def test_a_text_keeps_its_names(self):
        self.loaded("clinic.txt", TEXT.encode())
        self.assertEqual(self.name(), "H3: a plus")
        self.press("on")
        self.assertEqual(self.name(), "Größe 2, links")
        self.says("Refused, 9")
        self.press("on")
        self.says("Refused, 2")
        self.assertEqual(self.name(), "")
        self.press("on")
        self.says("Refused, 1")
        kept = self.saved("save-text", "clinic.txt").decode()
        self.assertEqual(kept, "0 1 101030323212  # H3: a plus\n0 0 111033003222  # Größe 2, links\n256 0 7777\n3 4\n")
        ran = subprocess.run([reference.program(), "check", "-"], input=kept, capture_output=True, text=True, timeout=60)
        self.assertIn("Größe 2, links", ran.stdout)

    def test_a_name_can_be_given(self):
        self.draw(PLUS)
        field = self.by("name")
        field.send_keys("Frau Meier # links\n")
        self.assertEqual(self.saved("save-text", "block.txt").decode(), "0 1 101030323212  # Frau Meier  links\n")
        self.click((3, 1))
        self.assertEqual(self.name(), "Frau Meier  links")

    def test_windows(self):
        for name, content in (
            ("bom.txt", b"\xef\xbb\xbf" + TEXT.encode()),
            ("lines.txt", TEXT.replace("\n", "\r\n").encode()),
            ("both.txt", b"\xef\xbb\xbf" + TEXT.replace("\n", "\r\n").encode()),
            ("wide.txt", TEXT.replace("\n", "\r\n").encode("utf-16")),
            ("wide-big.txt", b"\xfe\xff" + TEXT.encode("utf-16-be")),
        ):
            with self.subTest(name):
                self.loaded(name, content)
                self.assertIn(f"Outline 0 of 4, counted from 0, in {name}.", self.text("record"))
                self.assertEqual(self.name(), "H3: a plus")
                self.says("Taken, 4 edges")
                self.press("on")
                self.assertEqual(self.name(), "Größe 2, links")

    def test_a_bad_file_is_told_by_name(self):
        """Nothing changes where no outline stands before the fault; else those before it are opened."""
        whole = record((0, 1), "101030323212")
        for name, content, outlines_, words in (
            ("mark.fit", whole + b"K", "1 outline", "Fault 23: outline 1 has no mark (4B 4F) at byte 18."),
            ("cut.fit", whole[:-1], None, "Fault 24: outline 0, whose mark is at byte 0, is truncated."),
            ("large.fit", whole * 4000, None, "Fault 25: a fitting file has at most 65536 bytes."),
            ("half.fit", b"K", None, "Fault 23: outline 0 has no mark (4B 4F) at byte 0."),
            ("other.pdf", b"%PDF-1.7", None, NEITHER),
            ("zero.txt", b"#\0", None, NEITHER),
            ("empty.fit", b"", None, "The file holds no outline."),
            ("plus.txt", b"0 +1 1032\n", None, "Line 1: a start has numbers up to 65535, not +1."),
            ("empty.txt", b"# nothing\n", None, "The file holds no outline."),
            ("x.txt", b"0 0 1032\n\n0 0 10x2\n", "1 outline", "Line 3: letters are 0 right, 1 up, 2 left and 3 down, not x."),
            ("start.txt", b"0 -1 1032\n", None, "Line 1: a start has numbers up to 65535, not -1."),
            ("fields.txt", b"7\n", None, "Line 1: an outline is a column, a row and letters, as in 0 1 101030323212."),
        ):
            with self.subTest(name):
                self.open()
                self.press("clear")
                self.draw(PLUS)
                self.load(name, content)
                self.until(lambda: self.told() != "")
                if outlines_ is None:
                    self.assertEqual(self.told(), f"{name} was not opened. {words}")
                    self.assertEqual(self.cells(), set(PLUS))
                    self.says("Taken, 4 edges")
                else:
                    self.assertEqual(self.told(), f"{name} was opened up to a fault: {outlines_}. {words}")
                    self.assertEqual(self.text("record"), f"Outline 0 of 1, counted from 0, in {name}.")

    def test_what_was_opened_up_to_a_fault_is_saved_as_a_part(self):
        """So that it does not take the place of the whole file."""
        self.load("clinic.txt", b"0 0 1032\n\n0 0 10x2\n0 0 1032\n")
        self.until(lambda: "opened up to a fault" in self.told())
        self.assertEqual(self.saved("save-text", "clinic-part.txt"), b"0 0 1032\n")
        self.loaded("whole.txt", b"0 0 1032\n")
        self.assertEqual(self.saved("save-text", "whole.txt"), b"0 0 1032\n")

    def test_a_file_can_be_dropped_on_the_page(self):
        """The page opens it, and the browser does not leave the page for it."""
        self.draw(DENTED)
        script = """const data = new DataTransfer();
            data.items.add(new File([arguments[0]], arguments[1]));
            const event = (name) => new DragEvent(name, { dataTransfer: data, bubbles: true, cancelable: true });
            document.body.dispatchEvent(event("dragover"));
            return document.body.dispatchEvent(event("drop"))"""
        self.assertFalse(self.script(script, "0 1 101030323212  # dropped\n", "drop.txt"))
        self.until(lambda: "drop.txt" in self.text("record"))
        self.assertEqual(self.name(), "dropped")
        self.panel("speeds")
        self.assertFalse(self.script(script, "0 0 1032\n", "fast.txt"))
        self.until(lambda: self.cells() == {(0, 0)})

    def test_texts_are_decoded_as_the_program_decodes_them(self):
        """The files that the program's tests read: what is saved again, and where the fault is."""
        for path in sorted((ROOT / "files/texts").glob("*.txt")):
            with self.subTest(path.name):
                read = path.with_suffix(".read").read_bytes().decode()
                outlines_, _, fault = read.partition("! ")
                self.script("document.getElementById('notices').replaceChildren()")
                self.press("add")
                self.by("load").send_keys(str(path))
                self.until(lambda: path.name in self.text("record") or self.told() != "")
                line = fault.strip().removeprefix("line ")
                if fault.strip() == "neither":
                    self.assertIn("neither text nor a fitting file", self.told())
                elif fault:
                    self.until(lambda: f"Line {line}:" in self.told())
                if outlines_:
                    name = path.stem + ("-part.txt" if fault else ".txt")
                    self.assertEqual(self.saved("save-text", name).decode(), outlines_)

    def test_what_has_no_room_is_told(self):
        self.loaded("far.txt", b"256 0 7777\n")
        self.press("save-fitting")
        self.assertIn("has no room in a fitting file", self.told())
        self.loaded("byte.fit", b"\x4b\x4f\x00\x00\x01\x00\x0b")
        self.press("save-text")
        self.assertIn("has a byte that no digit can write", self.told())

    def test_a_drawn_block_is_what_the_program_reads(self):
        self.draw(DENTED)
        content = self.saved("save-fitting", "block.fit")
        self.assertEqual(content, record((0, 0), "111033003222"))
        self.assertIn("Saved as block.fit. Names and units are left out", self.told())

    def test_what_is_unfinished_is_saved_as_cells(self):
        """A text has them in the name of an outline without letters, which the program refuses: it is no false all-clear."""
        self.draw([(0, 0), (1, 1), (1, 2)])
        self.by("name").send_keys("half a block")
        self.press("add")
        self.draw(PLUS)
        kept = self.saved("save-text", "block.txt").decode()
        self.assertEqual(kept, "0 0  # cells 0:0-0 1:1-1 2:1-1  # half a block\n0 1 101030323212\n")
        ran = subprocess.run([reference.program(), "check", "-"], input=kept, capture_output=True, text=True, timeout=60)
        self.assertEqual(ran.returncode, 1)
        self.assertIn("refused by 1", ran.stdout)
        self.loaded("half.txt", kept.encode())
        self.says("Not one border")
        self.assertEqual(self.cells(), {(0, 0), (1, 1), (1, 2)})
        self.assertEqual(self.name(), "half a block")
        self.press("save-fitting")
        self.assertIn("Outline 0 has no single border", self.told())

    def test_eighty_thousand_outlines_open_with_progress(self):
        lines = [f"{n % 200} {1 + n // 500} 101030323212  # wearer {n}\n" for n in range(80_000)]
        path = self.folder / "fleet.txt"
        path.write_text("".join(lines))
        self.script(
            """window.seen = [];
            const shown = document.getElementById("progress");
            const note = () => shown.hidden || seen.push(shown.textContent);
            new MutationObserver(note).observe(shown, { childList: true, attributes: true })"""
        )
        self.by("load").send_keys(str(path))
        self.until(lambda: "Outline 0 of 80000" in self.text("record"))
        self.assertRegex(self.script("return seen[0]"), r"Opening: [\d,]+ outlines so far")
        self.assertFalse(self.by("progress").is_displayed())
        self.says("Taken, 4 edges")
        self.press("on")
        self.assertEqual(self.name(), "wearer 1")
        self.assertEqual(self.saved("save-text", "fleet.txt").decode(), "".join(lines))
        # So much is not kept over a reload, and it is told.
        self.until(lambda: "does not keep your work over a reload" in self.told())
        self.open()
        self.browser.get_log("browser")


class Images(PageTest):
    # H3 of the contract, as the image's prototype wrote it.
    H3 = bytes.fromhex("4b4f00010c00010001000300030203020102") + bytes(600) + bytes.fromhex("fae968a0")

    EMPTY = bytes.fromhex("4b4f") + bytes(616) + bytes.fromhex("f3e74c84")

    load, loaded, saved, name = Files.load, Files.loaded, Files.saved, Files.name

    def test_there_and_back(self):
        self.draw(PLUS)
        self.assertEqual(self.saved("save-image", "block.img"), self.H3)
        self.assertIn("without its name", self.told())
        self.press("clear")
        self.assertEqual(self.saved("save-image", "block.img"), self.EMPTY)
        self.assertIn("It is the image of an empty place.", self.told())
        # An image is added to what is open, and judged.
        self.draw(DENTED)
        self.assertFalse(self.by("save-image").is_enabled())
        self.load("knee.img", self.H3)
        self.until(lambda: self.text("record") == "Outline 1 of 2, counted from 0.")
        self.assertEqual(self.name(), "knee.img")
        self.says("Taken, 4 edges")
        self.assertEqual(self.cells(), set(PLUS))

    def test_an_image_is_what_a_holder_saves(self):
        """The border begins at W and runs clockwise, however the outline was read."""
        for outline in (b"2 2 032321210103\n", b"2 0 212101030323\n", b"0 1 030101212323\n", b"2 1 012123230301\n"):
            with self.subTest(outline):
                self.loaded("turned.txt", outline)
                self.says("Taken, 4 edges")
                self.assertEqual(self.saved("save-image", "turned.img"), self.H3)
                wanted = [reference.program(), "convert", "-", "--to", "image", "-o", "-"]
                self.assertEqual(subprocess.run(wanted, input=outline, capture_output=True, timeout=60).stdout, self.H3)
                # A text and a fitting file keep the letters as they were read.
                self.assertEqual(self.saved("save-text", "turned.txt"), outline)

    def test_an_image_is_the_first_outline_of_an_empty_page(self):
        self.press("save-fitting")
        self.assertIn("Outline 0 is empty", self.told())
        self.load("knee.img", self.H3)
        self.until(lambda: self.text("record") == "Outline 0 of 1, counted from 0.")
        self.assertEqual(self.cells(), set(PLUS))
        self.script("document.getElementById('notices').replaceChildren()")
        self.assertEqual(self.saved("save-fitting", "block.fit"), record((0, 1), "101030323212"))

    def test_the_image_of_an_empty_place(self):
        self.draw(DENTED)
        self.load("ankle.img", self.EMPTY)
        self.until(lambda: self.told() != "")
        self.assertEqual(self.told(), "ankle.img was not opened. It is the image of an empty place: there is nothing to open.")
        self.assertEqual(self.text("record"), "Outline 0 of 1, counted from 0.")
        self.assertEqual(self.cells(), set(DENTED))

    def test_what_is_called_an_image_has_to_be_one(self):
        """Also where its bytes are a fitting file, or a text."""
        self.draw(DENTED)
        for content in (self.H3[:-1], self.H3 + b"\0", record((0, 1), "101030323212"), b"", b"0 1 101030323212\n"):
            self.script("document.getElementById('notices').replaceChildren()")
            self.load("knee.IMG", content)
            self.until(lambda: self.told() != "")
            told = f"knee.IMG was not opened. It is not an image: an image has 622 bytes, and this file has {len(content)}."
            self.assertEqual(self.told(), told)
            self.assertEqual(self.cells(), set(DENTED))

    def test_a_damaged_one_is_told(self):
        self.draw(DENTED)
        for place in (2, 6, 17, 300, 617, 618, 621):
            damaged = bytearray(self.H3)
            damaged[place] ^= 0x10
            self.load("bad.img", bytes(damaged))
            self.until(lambda: "bad.img" in self.told())
            self.assertIn("The image is damaged: its checksum does not fit its bytes.", self.told())
            self.script("document.getElementById('notices').replaceChildren()")
        self.says("Refused, 9")


class Reload(PageTest):
    def reload(self):
        self.browser.refresh()
        self.until(lambda: self.script("return document.documentElement.dataset.ready") == "yes")

    def test_a_reload_keeps_everything_that_is_drawn(self):
        self.draw(DENTED)
        self.press("add")
        self.draw([(0, 0), (3, 3)])
        self.panel("years")
        self.press("years-keep")
        self.panel("speeds")
        self.press("pile-bad")
        self.press("layer-9")
        self.reload()
        self.headline("Refused, 21: a dent at column 63")
        self.says("Taken, 40 edges")
        self.assertEqual(self.by("tab-speeds").get_attribute("aria-selected"), "true")
        self.panel("years")
        self.says("Not one border")
        self.assertEqual(self.cells("ghost"), {(0, 0), (3, 3)})
        self.panel("draw")
        self.assertEqual(self.cells(), {(0, 0), (3, 3)})
        self.press("back")
        self.assertEqual(self.cells(), set(DENTED))

    def test_without_room_to_keep_it_the_page_works(self):
        """As with cookies blocked: the property throws. It is told."""
        block = "Object.defineProperty(window, 'localStorage', { get() { throw new DOMException('no', 'SecurityError') } })"
        made = self.browser.execute_cdp_cmd("Page.addScriptToEvaluateOnNewDocument", {"source": block})
        try:
            self.open()
            self.draw(PLUS)
            self.says("Taken, 4 edges")
            self.until(lambda: "does not keep your work over a reload" in self.told())
            self.reload()
            self.says("No cell is marked")
        finally:
            self.browser.execute_cdp_cmd("Page.removeScriptToEvaluateOnNewDocument", made)

    def test_a_store_that_fails_is_told_and_brings_nothing_older_back(self):
        self.draw(PLUS)
        self.until(lambda: self.script("return localStorage.getItem('robequarry-latest') !== null"))
        self.script("Storage.prototype.setItem = () => { throw new DOMException('full', 'QuotaExceededError') }")
        self.click((9, 9))
        self.until(lambda: "does not keep your work over a reload" in self.told())
        self.reload()
        self.says("No cell is marked")
        self.assertIn("This device keeps other work as well", self.told())

    def test_undo_the_window_and_a_name_survive(self):
        self.draw(PLUS)
        self.click((3, 1))
        self.press("undo")
        self.press("in")
        self.press("in")
        before = self.point((1, 1))
        self.by("name").send_keys("Frau M")
        self.reload()
        self.assertEqual(self.point((1, 1)), before)
        self.assertEqual(self.by("name").get_attribute("value"), "Frau M")
        # The letters of a name are one change.
        self.press("undo")
        self.assertEqual(self.by("name").get_attribute("value"), "")
        for n in range(len(PLUS), 0, -1):
            self.assertEqual(len(self.cells()), n)
            self.press("undo")
        self.says("No cell is marked")
        self.press("redo")
        self.assertEqual(self.cells(), {PLUS[0]})

    def test_other_content_there_is_no_fault(self):
        for content in ("", "{", "null", "[]", '{"state": {}}', '{"state": {"records": [{"runs": [[0, 0, 999]]}], "at": 0}}'):
            with self.subTest(content):
                self.forget(**{"robequarry-page-1": content})
                self.open()
                self.says("No cell is marked")


if __name__ == "__main__":
    unittest.main()
