"""The package over the shared library: answers, refusals, widths, files, masks. Run it by `python/test`."""
import doctest
import math
import pathlib
import random
import sys
import unittest

import robequarry
from robequarry import Holder, Outline, Pile, answers, files, holders, library, outlines

ROOT = pathlib.Path(__file__).resolve().parents[2]
PLUS = Outline((0, 1), "101030323212")
SQUARE = Outline((10, 10), "1" * 4 + "0" * 4 + "3" * 4 + "2" * 4)
ELL = Outline.of_cells([(0, 0), (1, 0), (2, 0), (0, 1), (0, 2)])


def load_tests(loader, tests, ignore):
    for module in (robequarry, outlines, holders):
        tests.addTests(doctest.DocTestSuite(module))
    return tests


class Tests(unittest.TestCase):
    def test_a_block_is_taken_with_its_edges(self):
        taken = PLUS.test()
        self.assertEqual((taken.ok, taken.anchor), (True, (0, 1)))
        self.assertEqual(taken.edges, ((1, 1), (1, -1), (-1, -1), (-1, 1)))
        inside = {(col, row) for col in range(4) for row in range(4) if outlines.query(taken.anchor, taken.edges, (col, row)).inside}
        self.assertEqual(inside, set(PLUS.cells()))

    def test_a_dent_is_refused_with_its_cell(self):
        refusal = ELL.test()
        self.assertEqual((refusal.ok, refusal.number, refusal.name, refusal.cell), (False, 9, "DENT", (1, 1)))
        cup = Outline.of_cells([(0, 0), (1, 0), (2, 0), (0, 1), (2, 1)]).test()
        self.assertEqual((cup.number, cup.name, cup.cell), (8, "BACK_STEP", None))
        witness = ELL.witness()
        self.assertEqual(witness.missing, (1, 1))
        self.assertTrue(set(witness.cells) <= set(ELL.cells()))
        self.assertIsInstance(PLUS.witness(), robequarry.Complete)

    def test_a_completion_is_the_smallest_convex_block(self):
        whole = ELL.complete()
        self.assertTrue(whole.test().ok)
        self.assertEqual(set(whole.cells()) - set(ELL.cells()), {(1, 1)})
        self.assertEqual(robequarry.border(*(lambda t: (t.anchor, t.edges))(whole.test())), whole)

    def test_comparisons(self):
        small = Outline.of_cells([(11, 11)]).test()
        self.assertEqual(str(robequarry.compare(small, SQUARE.test())), "first_within")
        self.assertEqual(str(robequarry.compare(SQUARE.test(), SQUARE.test())), "equal")
        self.assertEqual(str(robequarry.compare(PLUS.test(), SQUARE.test())), "no_common")
        refused = robequarry.compare(small, ((0, 0), [(1, 0)]))
        self.assertEqual((refused.number, refused.place), (16, 2))

    def test_widths_are_checked_before_a_call(self):
        with self.assertRaisesRegex(ValueError, r"start\[0\] must be from 0 to 65535, not 65537"):
            Outline((65537, 0), "0123")
        with self.assertRaisesRegex(ValueError, r"letters\[1\]"):
            Outline((0, 0), [0, 256, 2, 3])
        with self.assertRaisesRegex(TypeError, "whole number"):
            Outline((1.5, 0), "0123")
        with self.assertRaisesRegex(TypeError, "whole number"):
            Outline((True, 0), "0123")
        with self.assertRaisesRegex(ValueError, r"edges\[0\]\[1\]"):
            robequarry.query((0, 0), [(0, 32768)], (0, 0))
        for party, place in ((256, 0), (-1, 0), (0, 256)):
            with self.assertRaises(ValueError):
                Holder().query(party, place, (0, 0))
        with self.assertRaisesRegex(TypeError, "angle must be a number"):
            Holder().reading(0, 0, "1", 1.0)
        with self.assertRaises(TypeError):
            Holder().restore(0, 0, "an image")
        with self.assertRaisesRegex(ValueError, "10416 bytes"):
            Holder.from_bytes(b"")

    def test_refusals_have_cs_names(self):
        self.assertEqual(Outline((0, 0), "").test().name, "LENGTH")
        self.assertEqual(Outline((256, 0), "0123").test().name, "START")
        four = Outline((255, 0), "1032").test()
        self.assertEqual((four.name, four.place), ("OFF_CHART", 1))
        self.assertEqual(Holder().query(2, 0, (0, 0)).name, "PARTY")
        self.assertEqual(Holder().query(0, 4, (0, 0)).name, "PLACE")
        self.assertEqual(Pile().query(0, (0, 0)).name, "NOTHING_AT_WORK")

    def test_a_holder(self):
        holder = Holder()
        self.assertEqual(holder.query(0, 0, (0, 0)).number, 12)
        self.assertEqual(holder.draft(0).number, 13)
        self.assertTrue(holder.begin(0, (0, 1)).ok)
        self.assertTrue(holder.add(0, 1).ok)
        self.assertEqual(holder.draft(0), robequarry.Draft((0, 1), 1))
        self.assertEqual(holder.begin(0, (0, 1)).number, 14)
        self.assertTrue(holder.drop(0).ok)
        self.assertFalse(holder.put(0, 1, PLUS).same)
        self.assertTrue(holder.put(0, 1, PLUS).same)
        self.assertEqual(holder.row(0, 1, 1), robequarry.Columns(0, 2))
        self.assertEqual(holder.row(0, 1, 9), robequarry.Columns(None, None))
        self.assertEqual(holder.reading(0, 1, 1.0, 1.0).word, "inside")
        self.assertEqual(holder.reading(0, 1, 0.5, 1.5).word, "undecided")
        self.assertEqual(holder.reading(0, 1, math.nan, 1.0).number, 11)
        self.assertEqual(holder.reading(0, 1, 1e300, 1.0).number, 11)
        self.assertEqual(holder.piece(0, 1, 0), robequarry.Piece("move", (0, 1), (0.5, 1.5)))
        self.assertEqual([holder.piece(0, 1, k).word for k in range(6)], ["move", "line", "line", "line", "close", "none"])
        self.assertTrue(holder.clear(0, 1).ok)
        self.assertEqual(holder.query(0, 1, (1, 1)).number, 12)

    def test_a_draft_that_was_refused_is_not_left_open(self):
        holder = Holder()
        self.assertEqual(holder.put(0, 0, Outline((0, 0), [0, 1, 2, 3, 4])).number, 3)
        self.assertEqual(holder.draft(0).number, 13)
        self.assertEqual(holder.put(0, 4, PLUS).number, 20)
        self.assertEqual(holder.draft(0).number, 13)

    def test_memory_and_images_go_in_and_out(self):
        holder = Holder()
        holder.put(1, 2, PLUS)
        again = Holder.from_bytes(holder.to_bytes())
        self.assertEqual(again.query(1, 2, (1, 1)).word, "inside")
        image = holder.save(1, 2)
        self.assertEqual(len(image), robequarry.IMAGE_BYTES)
        self.assertEqual(image, files.image_of(PLUS))
        self.assertTrue(again.restore(0, 0, image).ok)
        self.assertEqual(again.row(0, 0, 1), robequarry.Columns(0, 2))
        self.assertEqual(set(files.read_image(image).cells()), set(PLUS.cells()))
        self.assertIsNone(files.read_image(Holder().save(0, 0)))
        self.assertIsInstance(again.restore(0, 0, Holder().save(0, 0)), robequarry.Done)
        for bit in random.Random(1).sample(range(8 * len(image)), 200):
            damaged = bytearray(image)
            damaged[bit // 8] ^= 1 << bit % 8
            self.assertEqual(again.restore(0, 0, bytes(damaged)).name, "IMAGE")
        self.assertTrue(again.check(1, 2).ok)
        memory = bytearray(holder.to_bytes())
        first = 1224 + 5 * 510  # the rows of the ankle's first slot, where the first taking goes
        memory[first + 1] ^= 4
        self.assertEqual(Holder.from_bytes(bytes(memory)).check(1, 2).name, "DAMAGED")

    def test_a_pile(self):
        pile = Pile()
        for layer in range(16):
            self.assertTrue(pile.set(layer, SQUARE).ok)
        self.assertEqual(pile.query(3, (11, 11)).number, 12)
        self.assertTrue(pile.check().ok)
        self.assertEqual(pile.query(3, (11, 11)).word, "inside")
        pile.empty(7)
        refused = pile.check()
        self.assertEqual((refused.name, refused.piece, refused.place), ("SECTION", 0, 10))
        words = [pile.check_step(100) for _ in range(1)]
        self.assertEqual(words[0].number, 21)
        self.assertTrue(pile.restore(7, pile.save(6)).ok)
        steps = 0
        while isinstance(pile.check_step(100), robequarry.Answer):
            steps += 1
        self.assertEqual(steps, 5)
        self.assertEqual(Pile.from_bytes(pile.to_bytes()).query(7, (11, 11)).word, "inside")

    def test_fitting_files_are_read_by_the_rule_of_the_listing(self):
        for path in sorted((ROOT / "files").glob("*.fit")):
            lines = []
            for record, found in enumerate(files.read_fittings(path.read_bytes())):
                if isinstance(found, robequarry.Fault):
                    lines.append(f"{found.record} {found.number} {found.position}")
                else:
                    verdict = found.test()
                    place = len(verdict.edges) if verdict.ok else verdict.place or 0
                    lines.append(f"{record} {0 if verdict.ok else verdict.number} {place}")
            self.assertEqual(lines, path.with_suffix(".lines").read_text().split("\n")[:-1], path.name)
        outlined = [PLUS, SQUARE, ELL]
        self.assertEqual(list(files.read_fittings(files.write_fittings(outlined))), outlined)
        with self.assertRaisesRegex(ValueError, "does not fit a record"):
            files.write_fittings([Outline((256, 0), "0123")])

    def test_frames(self):
        body = bytes(range(11))
        framed = files.frame(body)
        self.assertEqual(framed[:4], b"RQ\x0b\x00")
        self.assertEqual(files.unframe(framed), body)
        self.assertEqual(files.frame(bytes(1025)).name, "FRAME")
        for bit in range(8 * len(framed)):
            damaged = bytearray(framed)
            damaged[bit // 8] ^= 1 << bit % 8
            self.assertEqual(files.unframe(bytes(damaged)).name, "FRAME")
        self.assertEqual(files.unframe(framed[:-1]).name, "FRAME")
        self.assertEqual(files.checksum(b"123456789"), 0xE3069283)

    def test_readings_without_a_holder(self):
        taken = PLUS.test()
        self.assertEqual(robequarry.reading(taken.anchor, taken.edges, 1, 1).word, "inside")
        self.assertEqual(robequarry.reading(taken.anchor, taken.edges, 0.5, 1.5).word, "undecided")
        self.assertEqual(robequarry.reading(taken.anchor, taken.edges, 3.0, 3.0).word, "outside")
        self.assertEqual(robequarry.reading(taken.anchor, [(1, 0)], 1, 1).number, 16)

    def test_calls_as_bytes(self):
        begin, query = bytes([0, 0, 0, 0, 0, 0, 0, 1, 0, 0, 0]), bytes([5, 0, 0, 1, 0, 0, 0, 1, 0, 0, 0])
        script = begin + b"".join(bytes([1, 0, 0, letter, 0, 0, 0, 0, 0, 0, 0]) for letter in PLUS.letters) + bytes([4] + 10 * [0]) + query
        replies = robequarry.replay(script)
        holder = Holder()
        self.assertEqual(replies, [holder.call(script[at : at + 11]) for at in range(0, len(script), 11)])
        self.assertEqual(replies[-1][:2], (0, 1))
        self.assertIsNone(holder.call(b"\x09" + bytes(10)))
        self.assertEqual(robequarry.replay(script + b"\x09" + bytes(10)), replies)

    def test_cells_to_borders_and_back(self):
        draw = random.Random(2)
        for _ in range(200):
            cells = {(20, 20)}
            while len(cells) < draw.randrange(1, 60):
                col, row = draw.choice(sorted(cells))
                dx, dy = draw.choice(((1, 0), (0, 1), (-1, 0), (0, -1)))
                cells.add((col + dx, row + dy))
            try:
                outline = Outline.of_cells(cells)
            except ValueError:
                continue
            self.assertEqual(set(outline.cells()), cells)
            missing = outline.witness()
            self.assertEqual(outline.test().ok, isinstance(missing, robequarry.Complete))
        for cells, why in (([], "no cell"), ([(0, 0), (2, 0)], "island"), ([(0, 0), (1, 1)], "touches"), ([(255, 0)], "off the chart")):
            with self.assertRaisesRegex(ValueError, why):
                Outline.of_cells(cells)
        ring = [(col, row) for col in range(3) for row in range(3) if (col, row) != (1, 1)]
        with self.assertRaisesRegex(ValueError, "island or a hole"):
            Outline.of_cells(ring)
        with self.assertRaises(ValueError):
            Outline((0, 0), "0011").cells()

    def test_masks(self):
        try:
            import numpy
        except ImportError:
            self.skipTest("numpy is not installed")
        mask = numpy.zeros((255, 255), dtype=bool)
        mask[10:14, 20:29] = True
        outline = Outline.of_mask(mask)
        self.assertTrue(outline.test().ok)
        self.assertTrue((outline.mask() == mask).all())
        self.assertEqual(Outline.of_mask([[False, True], [True, True]]).test().ok, True)

    def test_another_version_is_refused(self):
        with self.assertRaisesRegex(ImportError, "cannot be loaded"):
            library.load(ROOT / "README.md")
        header = (ROOT / "include" / "robequarry.h").read_text()
        self.assertTrue(f'#define RQ_VERSION "{robequarry.__version__}"' in header, "the header is of another version")

    def test_answers_are_plain_values(self):
        self.assertEqual(PLUS.test(), PLUS.test())
        self.assertEqual(str(ELL.test()), f"refused by 9: {answers.refusal_sentence(9)}")
        self.assertEqual(len({PLUS, PLUS, SQUARE}), 2)
        self.assertGreaterEqual(sys.version_info[:2], (3, 9))


if __name__ == "__main__":
    unittest.main()
