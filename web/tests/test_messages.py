"""Every sentence stands in one table: in a page whose table is marked, no word is shown that is not."""

import html.parser
import re
import tempfile
import unittest
from pathlib import Path

from support import DENTED, LIBRARY, PLUS, WEB, PageTest, inline, record, table

PICK = """const list = document.getElementById("example");
    list.value = String(arguments[0]);
    list.dispatchEvent(new Event("change"))"""

# Words of the page: texts that are shown, and what a screen reader says besides. Marked ones stand between ⟦ and ⟧.
SHOWN = """
    const found = [];
    const walker = document.createTreeWalker(document.body, NodeFilter.SHOW_TEXT);
    while (walker.nextNode()) {
      const parent = walker.currentNode.parentElement;
      if (!parent.closest("script, style, noscript, textarea, code")) found.push(walker.currentNode.data);
    }
    for (const element of document.querySelectorAll("*")) {
      for (const name of ["aria-label", "title", "placeholder", "alt", "aria-roledescription"]) {
        if (element.hasAttribute(name)) found.push(element.getAttribute(name));
      }
    }
    return found;
"""


# Attributes that a screen reader says or a browser shows.
SPOKEN = ("aria-label", "title", "placeholder", "alt", "aria-roledescription")

# What only a sentence looks like.
SENTENCE = re.compile(r"[A-Z][a-z]+ [a-z]+|[a-z]{2,} [a-z]{2,} [a-z]{2,}|[a-z]{2,}\.( |$)")


# Keys whose texts are the same words in both languages.
SAME_IN_BOTH = {"dir", "form.name", "name", "panel.draw"}


def unmarked(words):
    """What is left of a text without its marked parts, which may stand in each other."""
    before = None
    while before != words:
        before, words = words, re.sub(r"⟦[^⟦⟧]*⟧", "", words)
    return words


class TheTable(unittest.TestCase):
    def test_the_page_itself_has_no_words(self):
        class Reader(html.parser.HTMLParser):
            words = []

            def handle_data(self, data):
                self.words.append(data)

            def handle_starttag(self, tag, attributes):
                self.words.extend(value for name, value in attributes if name in SPOKEN)

        reader = Reader()
        reader.feed(inline.PLACE.sub("", (WEB / "index.html").read_text()))
        self.assertEqual([words for words in reader.words if re.search(r"[A-Za-z]", words)], [])

    def test_no_script_has_a_sentence(self):
        """A literal with a capital and further words is one, whatever it is for; so is one that ends as a sentence does."""
        for path in sorted(WEB.rglob("*.js")):
            if path.name.startswith("messages"):
                continue
            source = re.sub(r"//.*", "", path.read_text())
            for literal in re.findall(r'"([^"\n]*)"|`([^`]*)`', source):
                words = "".join(literal)
                self.assertIsNone(SENTENCE.search(words), f"{path.name}: {words}")

    def test_every_text_is_used(self):
        sources = "".join(path.read_text() for path in [*WEB.rglob("*.js"), WEB / "index.html"] if not path.name.startswith("messages"))
        unused = []
        for key in table():
            parts = key.split(".")
            stems = [".".join(parts[:n]) for n in range(len(parts), 0, -1)]
            if not any(re.search(rf'["`{{]{re.escape(stem)}(["}}]|\.\$\{{|\.`)', sources) for stem in stems):
                unused.append(key)
        allowed = {key for key in unused if key.split(".")[-1] in ("zero", "one", "other") or key.startswith("block.")}
        self.assertEqual(sorted(set(unused) - allowed), [])

    def test_the_page_speaks_for_no_controller(self):
        """It knows the library's answer about a drawing, and no controller: sentences of these keys only may name one, in every language."""
        allowed = {"refused.stays", "reading.nothing.text", "holder.intro"}
        named = {"en": r"controller|device will|knee will|tablet", "de": r"(?i)steuerung|regler|controller|tablet|prothese"}
        promises = {
            "en": r"\b(will use|is at work now)\b",
            "de": r"\b(wird verwenden|verwendet ihn|ist jetzt in Kraft|übernimmt|wurde übertragen)\b",
        }
        sent = {
            "en": (r"\b(sent|sends|send)\b", r"Nothing has been sent|sends nothing"),
            "de": (r"(?i)\b(ge|über|ver)?sende", r"Nichts wurde gesendet|sendet nichts"),
        }
        for path in (WEB / "messages.js", *sorted(WEB.glob("messages.*.js"))):
            words = inline.messages(path)
            lang = words["lang"]
            self.assertIn(lang, named, "say which words of this language name a controller")
            self.assertLessEqual({key for key in words if re.search(named[lang], words[key])}, allowed, path.name)
            # The allowed ones do name one, so the words that are looked for are those of the table.
            for key in allowed:
                self.assertRegex(words[key], named[lang], path.name)
            self.assertEqual([key for key in words if re.search(promises[lang], words[key])], [], path.name)
            verb, fine = sent[lang]
            said = {key for key in words if re.search(verb, words[key]) and not re.search(fine, words[key])}
            self.assertEqual(said, set(), path.name)

    def test_every_language_has_every_sentence(self):
        """The same keys and the same places to fill. A text that is the same in both is a name, a number or a sign."""
        own = table()
        for path in WEB.glob("messages.*.js"):
            other = inline.messages(path)
            self.assertEqual(sorted(other), sorted(own), path.name)
            for key, words in own.items():
                self.assertEqual(sorted(inline.FILLED.findall(other[key])), sorted(inline.FILLED.findall(words)), key)
            same = {key for key, words in own.items() if other[key] == words}
            left = {key for key in same if re.search(r"[a-z]{3}", re.sub(r"\{\w+\}", "", own[key]))}
            self.assertLessEqual(left, SAME_IN_BOTH, path.name)

    def test_the_keys_text_has_all_keys(self):
        names = {
            "en": "Tab, arrows, Ctrl, Shift, Space, Enter, Escape, plus, =, minus, F fits, Ctrl Z, Ctrl Y, Ctrl Shift Z, wheel zooms",
            "de": "Tab, Pfeiltasten, Strg, Umschalt, Leertaste, Eingabe, Escape, plus, =, minus, F passt, Strg Z, Strg Y, Strg Umschalt Z, Rad",
        }
        for path in (WEB / "messages.js", *sorted(WEB.glob("messages.*.js"))):
            words = inline.messages(path)
            for key in re.findall(r"^  (\w): \[", (WEB / "keys.js").read_text(), re.MULTILINE):
                self.assertRegex(words["keys.text"], rf"\b{key.upper()} \w+", key)
            for name in names[words["lang"]].split(", "):
                self.assertIn(name, words["keys.text"], path.name)

    def test_german_sentences_after_a_colon(self):
        """A sentence after a colon begins with a capital letter, as German has it; and nobody is called by two names."""
        words = inline.messages(WEB / "messages.de.js")
        for key, said in words.items():
            for rest in re.findall(r": ([a-zäöü][^:.?]*[.?])", said):
                verbs = r"\b(ist|sind|hat|haben|gibt|liegt|wird|werden|nimmt|biegt|markieren Sie|wählen Sie)\b"
                self.assertNotRegex(rest, verbs, key)
            self.assertNotRegex(said, r"\b(Karte|Tempi|Prüfer|Knöchel|[Ss]ichern)\b", key)

    def test_a_table_that_does_not_fit_is_told(self):
        whole = (WEB / "messages.js").read_text()
        with tempfile.TemporaryDirectory() as folder:
            path = Path(folder) / "messages.js"
            for words, told in (
                ('export const MESSAGES = { "lang": "de" }', "there is no text for"),
                (whole.replace('"en"', '"no language"'), "is no language"),
                (whole.replace("Anchor {anchor}", "Anker {anker}"), "the text of taken.anchor has {anker}"),
                (whole.replace('"title":', '"title"'), "is not one of keys and texts"),
            ):
                path.write_text(words)
                with self.assertRaisesRegex(inline.Fault, told):
                    inline.page(LIBRARY, path)
            path.write_text("\ufeff" + whole.replace('"cell.other"', '"cell.few": "{n} komórki",\n  "cell.other"').replace('"en"', '"pl"'))
            self.assertIn("komórki", inline.page(LIBRARY, path))


class Marked(PageTest):
    @classmethod
    def setUpClass(cls):
        super().setUpClass()
        words = (WEB / "messages.js").read_text()
        marked = re.sub(r'^(  "[^"]+": )"(.*)"(,?)$', r'\1"⟦\2⟧"\3', words, flags=re.MULTILINE).replace('"⟦en⟧"', '"en"').replace('"⟦ltr⟧"', '"ltr"')
        path = cls.folder / "messages.js"
        path.write_text(marked)
        cls.file.write_text(inline.page(LIBRARY, path))

    def look_at_words(self):
        for words in self.script(SHOWN):
            self.assertIsNone(re.search(r"[^\W\d_]", unmarked(words)), words)

    def test_whatever_is_shown_comes_from_the_table(self):
        self.look_at_words()
        # Every example has its verdict's words; the names of files and blocks are the reader's own.
        for example in range(len(self.all("#example option")) - 1):
            self.script(PICK, example)
            self.look_at_words()
        self.press("clear")
        self.press("fit")
        self.draw([(0, 0), (1, 1), (4, 4)])
        self.look_at_words()
        self.press("clear")
        self.tool("rectangle")
        self.drag((2, 2), (6, 6))
        self.tool("erase")
        self.drag((3, 3), (3, 3))
        self.drag((5, 5), (5, 5))
        self.look_at_words()
        self.tool("fill")
        self.click((9, 9))
        self.look_at_words()
        self.tool("brush")
        self.tool("paint")
        bad = self.folder / "1.fit"
        for content in (b"", b"KO", b"x", b"0 0 x", b"0 x 1", b"0 0 1 1", record((0, 0), "1032") * 7000):
            bad.write_bytes(content)
            self.script("document.getElementById('notices').replaceChildren()")
            self.by("load").send_keys(str(bad))
            self.until(lambda: self.told() != "")
            self.look_at_words()
        self.look_at_panels()

    def look_at_panels(self):
        for drawing in (PLUS, DENTED, []):
            self.panel("draw")
            self.press("fit")
            self.press("clear")
            self.press("fit")
            self.draw(drawing)
            for panel in ("lesson", "readings", "years", "holder"):
                self.panel(panel)
                self.look_at_words()
            self.panel("years")
            self.press("years-keep")
            self.look_at_words()
            self.panel("holder")
            for call in self.script("return [...document.querySelectorAll('#calls button')].map((button) => button.id)"):
                self.script("document.getElementById(arguments[0]).click()", call)
            self.look_at_words()
        self.panel("speeds")
        for button in ("pile-bad", "pile-good", "pile-empty"):
            self.press(button)
            self.look_at_words()
        self.draw(DENTED)
        self.look_at_words()
        self.panel("lesson")
        for _ in range(8):
            self.press("lesson-again")
            self.look_at_words()
            if self.by("lesson-on").is_enabled():
                self.press("lesson-on")


class German(PageTest):
    """The second language: chosen by hand and by the browser, and then no sentence of the first is left."""

    def ready(self):
        self.until(lambda: self.script("return document.readyState === 'complete' && document.documentElement.dataset.ready") == "yes")

    def choose(self, lang):
        self.script("const list = document.getElementById('language'); list.value = arguments[0]; list.dispatchEvent(new Event('change'))", lang)
        self.until(lambda: self.script("return document.documentElement.lang") == lang)
        self.ready()

    def english_left(self):
        german = set(inline.messages(WEB / "messages.de.js").values())
        english = {words for words in table().values() if len(words) > 3 and not inline.FILLED.search(words)} - german - {"English"}
        return [words for words in self.script(SHOWN) if words.strip() in english]

    def test_by_hand_and_kept(self):
        self.draw(DENTED)
        self.choose("de")
        self.assertEqual(self.text("title"), "Einen Block zeichnen")
        self.assertEqual(self.text("said"), "Abgelehnt, 9: eine Delle")
        self.assertEqual(self.cells(), set(DENTED))
        self.browser.refresh()
        self.ready()
        self.assertEqual(self.text("title"), "Einen Block zeichnen")
        for panel in ("draw", "lesson", "readings", "years", "speeds", "holder"):
            self.panel(panel)
            self.assertEqual(self.english_left(), [], panel)
        self.panel("draw")
        self.press("instead")
        self.assertEqual(self.english_left(), [])
        self.press("ask-no")
        self.choose("en")
        self.says("Refused, 9")

    def test_every_verdict_fits_into_its_box(self):
        """German is longer: buttons stay on the screen, and nothing is wider than it."""
        self.choose("de")
        for size in ((1280, 720), (800, 1280), (390, 800)):
            self.resize(*size)
            for panel in ("draw", "lesson", "readings", "years", "speeds", "holder"):
                self.script("document.getElementById(`tab-${arguments[0]}`).click()", panel)
                self.assertLessEqual(self.script("return document.documentElement.scrollWidth"), size[0], (size, panel))
                wide = "return [...document.querySelectorAll('button')].filter((e) => e.checkVisibility() && e.scrollWidth > e.clientWidth + 1).map((e) => e.id)"
                self.assertEqual([name for name in self.script(wide) if name != "instead"], [], (size, panel))

    def test_by_hand_where_nothing_is_kept(self):
        block = "Object.defineProperty(window, 'localStorage', { get() { throw new DOMException('no', 'SecurityError') } })"
        made = self.browser.execute_cdp_cmd("Page.addScriptToEvaluateOnNewDocument", {"source": block})
        try:
            self.open()
            self.choose("de")
            self.assertEqual(self.text("title"), "Einen Block zeichnen")
            self.choose("en")
            self.assertEqual(self.text("title"), "Draw a block")
        finally:
            self.browser.execute_cdp_cmd("Page.removeScriptToEvaluateOnNewDocument", made)

    def test_by_the_browser(self):
        agent = self.script("return navigator.userAgent")
        try:
            self.browser.execute_cdp_cmd("Network.setUserAgentOverride", {"userAgent": agent, "acceptLanguage": "de-AT,en"})
            self.open()
            self.assertEqual(self.text("title"), "Einen Block zeichnen")
            self.browser.execute_cdp_cmd("Network.setUserAgentOverride", {"userAgent": agent, "acceptLanguage": "fr-FR,en"})
            self.open()
            self.assertEqual(self.text("title"), "Draw a block")
        finally:
            self.browser.execute_cdp_cmd("Network.setUserAgentOverride", {"userAgent": agent, "acceptLanguage": "en-US"})


if __name__ == "__main__":
    unittest.main()
