"""The file itself, what stays in its place, dark, print, and what a screen reader gets."""

import base64
import hashlib
import re
import unittest

from support import DENTED, LIBRARY, PLUS, ROOT, WEB, PageTest, inline

PLACES = """return [...document.querySelectorAll("button, select, input, #chart")].filter((e) => e.checkVisibility()).map((e) => {
    const { x, y, width, height } = e.getBoundingClientRect();
    return [e.id || e.value, x, y, width, height].join(" ");
  })"""

CONTRAST = """
    const luminance = (color) => {
      const [r, g, b] = color.match(/[\\d.]+/g).slice(0, 3).map((n) => (n /= 255) <= 0.04045 ? n / 12.92 : ((n + 0.055) / 1.055) ** 2.4);
      return 0.2126 * r + 0.7152 * g + 0.0722 * b;
    };
    const ground = (e) => {
      for (; e; e = e.parentElement) {
        const color = getComputedStyle(e).backgroundColor;
        if (!/, 0\\)$/.test(color)) return color;
      }
      return "rgb(255, 255, 255)";
    };
    const bad = [];
    const walker = document.createTreeWalker(document.body, NodeFilter.SHOW_TEXT);
    while (walker.nextNode()) {
      const e = walker.currentNode.parentElement;
      if (!walker.currentNode.data.trim() || !e.checkVisibility() || e.closest("svg, :disabled, option")) continue;
      const [a, b] = [getComputedStyle(e).color, ground(e)].map(luminance).sort((x, y) => y - x);
      if ((a + 0.05) / (b + 0.05) < 4.5) bad.push([e.id, e.textContent.slice(0, 30), (a + 0.05) / (b + 0.05)]);
    }
    return bad;
"""


SMALL = """return [...document.querySelectorAll("button, select, label, summary, input[type=text], input[type=number]")].filter((e) => {
    const { width, height } = e.getBoundingClientRect();
    return e.checkVisibility() && (width < 44 || height < 44);
  }).map((e) => e.id || e.textContent)"""


class TheFile(PageTest):
    def test_it_is_small_and_whole(self):
        words = self.file.read_text()
        self.assertLess(len(words.encode()), 400 * 1024)
        self.assertIsNone(re.search(r'(src|href)="(?!data:,)', words))
        self.assertNotIn("unsafe-inline", words)
        asked = self.script("return performance.getEntriesByType('resource').map((entry) => entry.name)")
        self.assertEqual([name for name in asked if not name.startswith("data:")], [])
        self.assertTrue(self.script("return location.protocol") == "file:")

    def test_it_names_its_library(self):
        self.assertEqual(self.text("library-hash"), hashlib.sha256(LIBRARY.read_bytes()).hexdigest())
        self.assertEqual(self.text("library-version"), inline.version())
        self.assertIn(f'RQ_VERSION "{inline.version()}"', (ROOT / "include/robequarry.h").read_text())

    def test_the_policy_keeps_everything_else_out(self):
        self.script(
            """window.seen = [];
            document.addEventListener("securitypolicyviolation", (event) => seen.push(event.effectiveDirective));
            const add = (name, more) => document.body.append(Object.assign(document.createElement(name), more));
            window.ran = false;
            add("script", { textContent: "window.ran = true" });
            add("script", { src: "https://example.org/x.js" });
            add("style", { textContent: "body { color: red }" });
            add("img", { src: "https://example.org/x.png" });
            add("iframe", { src: "https://example.org/" });
            fetch("https://example.org/").catch(() => {});
            const button = document.createElement("button");
            button.setAttribute("onclick", "window.ran = true");
            button.click();"""
        )
        wanted = {"script-src-elem", "style-src-elem", "img-src", "frame-src", "connect-src", "script-src-attr"}
        self.until(lambda: wanted <= set(self.script("return seen")))
        self.assertFalse(self.script("return ran"))
        # The browser tells each of them.
        self.browser.get_log("browser")

    def test_without_the_library_there_is_no_verdict(self):
        words = self.file.read_text()
        broken = self.folder / "broken.html"
        broken.write_text(re.sub(r'(id="library">).{40}', r"\1AAAA", words))
        self.browser.get(broken.as_uri())
        self.until(lambda: self.text("said") != "")
        self.assertIn("The library cannot run", self.text("said"))
        self.browser.get_log("browser")


class InPlace(PageTest):
    def test_buttons_stay_while_words_change(self):
        for size in ((1280, 720), (800, 1280)):
            self.resize(*size)
            self.open()
            self.press("clear")
            for panel in ("draw", "lesson", "readings", "years", "speeds", "holder"):
                self.panel(panel)
                self.press("fit")
                before = self.script(PLACES)
                for cells in (PLUS, DENTED[:1], DENTED, [(5, 5)], [(9, 3), (10, 3)]):
                    self.draw(cells)
                    self.assertEqual(self.script(PLACES), before, (size, panel))
                self.press("clear")

    def test_nothing_is_wider_than_the_screen(self):
        for size in ((1280, 720), (800, 1280), (390, 800), (1920, 1080)):
            self.resize(*size)
            self.assertLessEqual(self.script("return document.documentElement.scrollWidth"), size[0])

    def test_the_chart_and_the_verdict_are_seen_at_once(self):
        for width, height in ((1280, 720), (800, 1280), (390, 800), (360, 640), (800, 390)):
            self.resize(width, height)
            self.open()
            for name in ("chart", "verdict", "undo", "instead", "said"):
                script = "const box = document.getElementById(arguments[0]).getBoundingClientRect(); return [box.top, box.bottom]"
                top, bottom = self.script(script, name)
                self.assertTrue(top >= 0 and bottom <= height, (width, height, name, top, bottom))

    def test_the_verdict_stays_on_a_phone_s_screen(self):
        """Also where the panels below it are looked at."""
        self.resize(390, 800)
        self.open()
        for panel in ("draw", "speeds", "holder"):
            self.script("document.getElementById(arguments[0]).click()", f"tab-{panel}")
            for part in (0, 0.5, 1):
                script = """scrollTo(0, arguments[0] * document.documentElement.scrollHeight);
                    const box = document.getElementById("said").getBoundingClientRect(); return [box.top, box.bottom]"""
                top, bottom = self.script(script, part)
                self.assertTrue(top >= 0 and bottom <= 800, (panel, part, top, bottom))

    def test_fingers_find_their_targets(self):
        """On phones and tablets every target has 44 pixels each way."""
        for size in ((390, 800), (800, 390), (800, 1280)):
            self.resize(*size)
            self.open()
            for panel in ("draw", "lesson", "readings", "years", "speeds", "holder"):
                self.script("document.getElementById(arguments[0]).click()", f"tab-{panel}")
                self.assertEqual(self.script(SMALL), [], (size, panel))

    def test_right_to_left(self):
        """A table may say rtl: words and boxes change sides, the chart does not."""
        words = (WEB / "messages.js").read_text().replace('"dir": "ltr"', '"dir": "rtl"')
        path = self.folder / "rtl.js"
        path.write_text(words)
        other = self.folder / "rtl.html"
        other.write_text(inline.page(LIBRARY, path))
        self.browser.get(other.as_uri())
        self.until(lambda: self.script("return document.documentElement.dataset.ready") == "yes")
        left = lambda name: self.script("return document.getElementById(arguments[0]).getBoundingClientRect().left", name)
        self.assertGreater(left("chart"), left("verdict"))
        self.assertLessEqual(self.script("return document.documentElement.scrollWidth"), 1280)
        self.draw(PLUS)
        self.assertEqual(self.cells(), set(PLUS))
        self.assertLess(self.point((1, 1))[0], self.point((2, 1))[0])
        self.script("localStorage.clear()")


class Dark(PageTest):
    def test_words_can_be_read_in_light_and_dark(self):
        self.draw(DENTED)
        grounds = set()
        for scheme in ("light", "dark"):
            self.look(scheme)
            grounds.add(self.script("return getComputedStyle(document.body).backgroundColor"))
            for panel in ("draw", "lesson", "readings", "years", "speeds", "holder"):
                self.panel(panel)
                self.assertEqual(self.script(CONTRAST), [], (scheme, panel))
        self.assertEqual(len(grounds), 2)


class Print(PageTest):
    def test_print_shows_the_whole_block(self):
        """However far the window is zoomed in; afterwards it is as it was."""
        self.tool("rectangle")
        self.drag((2, 2), (12, 8))
        for _ in range(6):
            self.press("in")
        before = self.point((5, 5))
        inside = lambda: self.script(
            """const chart = document.getElementById("chart").getBoundingClientRect();
            const plot = document.querySelector("#chart .plot").getScreenCTM();
            const [left, right] = [plot.a * 2 + plot.e, plot.a * 13 + plot.e];
            const [top, bottom] = [plot.d * 9 + plot.f, plot.d * 2 + plot.f];
            return left > chart.left && right < chart.right && top > chart.top && bottom < chart.bottom"""
        )
        self.assertFalse(inside())
        self.script("dispatchEvent(new Event('beforeprint'))")
        self.assertTrue(inside())
        self.assertTrue(self.script("return document.getElementById('details').open"))
        self.look("light", "print")
        self.resize(794, 1123)
        self.until(inside)
        self.look("light")
        self.resize(*self.size)
        self.script("dispatchEvent(new Event('afterprint'))")
        self.until(lambda: self.point((5, 5)) == before)
        self.assertFalse(self.script("return document.getElementById('details').open"))

    def test_print_is_a_form(self):
        """With the speeds chosen its verdict is theirs."""
        self.panel("speeds")
        self.press("pile-bad")
        self.look("light", "print")
        self.headline("Refused, 21: a dent at column 63")
        self.assertTrue(self.script("return document.getElementById('said').checkVisibility()"))
        self.assertEqual((self.text("form-what"), self.text("form-name")), ("Speed 0", ""))

    def test_print_has_the_chart_and_the_verdict_in_light(self):
        self.draw(DENTED)
        self.by("name").send_keys("wearer 9")
        self.look("dark", "print")
        shown = lambda name: self.script("return document.getElementById(arguments[0]).checkVisibility()", name)
        form = ("form-name", "form-what", "form-date", "form-units", "form-signs", "sign-here")
        for name in ("chart", "said", "meaning", "letters-print", "title", *form):
            self.assertTrue(shown(name), name)
        self.assertEqual((self.text("form-name"), self.text("form-what")), ("wearer 9", "Outline 0"))
        self.assertRegex(self.text("form-date"), r"20\d\d")
        self.assertTrue(shown("library-version") and shown("library-hash"))
        for name in ("undo", "tabs", "instead", "example", "keys", "intro"):
            self.assertFalse(shown(name), name)
        self.assertEqual(self.script("return getComputedStyle(document.body).backgroundColor"), "rgb(255, 255, 255)")
        self.look("light")
        made = self.browser.execute_cdp_cmd("Page.printToPDF", {"paperWidth": 8.27, "paperHeight": 11.69})
        pdf = base64.b64decode(made["data"])
        self.assertEqual(len(re.findall(rb"/Type\s*/Page\b", pdf)), 1)


class Contrast(PageTest):
    def test_high_contrast(self):
        """Windows' colours: cells, dents and the chosen tab can be told from the ground."""
        features = [{"name": "forced-colors", "value": "active"}, {"name": "prefers-color-scheme", "value": "dark"}]
        self.browser.execute_cdp_cmd("Emulation.setEmulatedMedia", {"media": "", "features": features})
        self.assertTrue(self.script("return matchMedia('(forced-colors: active)').matches"))
        self.draw(DENTED)
        script = "return getComputedStyle(document.querySelector(arguments[0]))[arguments[1]]"
        color = lambda selector, name: self.script(script, selector, name)
        self.assertNotEqual(color("#chart .cells", "fill"), color("#chart .field", "fill"))
        self.assertNotEqual(color("#chart .missing", "stroke"), color("#chart .field", "fill"))
        self.assertNotEqual(color("#chart .edges", "stroke"), color("#chart .field", "fill"))
        self.assertEqual(color("#tab-draw", "outlineStyle"), "solid")
        self.assertEqual(color("#tab-years", "outlineStyle"), "none")


class Spoken(PageTest):
    def test_headings(self):
        """One first heading, and no level is left out on the way down."""
        script = "return [...document.querySelectorAll('h1, h2, h3, h4')].map((e) => [Number(e.tagName[1]), e.textContent])"
        for panel in ("draw", "lesson", "readings", "years", "speeds", "holder"):
            self.panel(panel)
            found = self.script(script)
            self.assertEqual([level for level, _ in found].count(1), 1)
            self.assertTrue(all(b - a <= 1 for (a, _), (b, _) in zip(found, found[1:])), found)
            self.assertIn([2, "Drawing"], found)
            self.assertIn([2, self.text("said")], found)

    def test_names_roles_and_live_regions(self):
        """Every control has a name; what changes by itself is in a live region."""
        nameless = """return [...document.querySelectorAll("button, select, input, textarea, svg[role], [role=tabpanel]")].filter((e) =>
            !(e.getAttribute("aria-label") || e.textContent.trim() || e.labels?.length || e.getAttribute("aria-labelledby")))
            .map((e) => e.id)"""
        for panel in ("speeds", "holder"):
            self.panel(panel)
        self.assertEqual(self.script(nameless), [])
        live = {"told": "status", "spoken": "status", "notices": "alert", "log": "log", "lesson-state": "status", "progress": "status"}
        for name, role in live.items():
            self.assertEqual(self.by(name).get_attribute("role"), role, name)

    def test_the_tree_that_a_screen_reader_gets(self):
        self.draw(DENTED)
        nodes = self.browser.execute_cdp_cmd("Accessibility.getFullAXTree", {})["nodes"]
        found = {(node["role"]["value"], node.get("name", {}).get("value", "")) for node in nodes if "role" in node}
        wanted = {("tab", "Readings"), ("button", "Undo"), ("heading", "Refused, 9: a dent"), ("application", "Chart")}
        self.assertEqual(wanted - found, set())

    def test_a_verdict_that_stays_is_not_written_again(self):
        self.draw(PLUS)
        self.script(
            """window.changes = 0;
            const watch = new MutationObserver((list) => (window.changes += list.length));
            watch.observe(document.getElementById("told"), { subtree: true, childList: true, characterData: true });"""
        )
        self.press("in")
        self.press("out")
        self.hover((4, 4))
        self.assertEqual(self.script("return window.changes"), 0)


if __name__ == "__main__":
    unittest.main()
