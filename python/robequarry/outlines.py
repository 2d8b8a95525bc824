"""Outlines and lists of edges: test, witness, completion, border, comparison, queries and readings without a holder."""
import ctypes
from dataclasses import dataclass
from typing import Iterable, List, Tuple, Union

from .answers import Answer, Cell, Complete, Corner, Refusal, Taken, Witness, pairs, refusal_of
from .library import (
    EDGE_NUMBERS,
    I16,
    LETTERS,
    LIBRARY,
    SIDE,
    U8,
    U16,
    Reply,
    byte_array,
    edges_of,
    letters_of,
    number_array,
    pair,
    real,
    word_name,
)

STEPS = ((1, 0), (0, 1), (-1, 0), (0, -1))


@dataclass(frozen=True, init=False)
class Outline:
    """A start corner and letters: 0 right, 1 up, 2 left, 3 down, along the border of a block.

    >>> Outline((0, 1), "101030323212").test()
    Taken(anchor=(0, 1), edges=((1, 1), (1, -1), (-1, -1), (-1, 1)))
    """

    start: Corner
    letters: bytes

    def __init__(self, start: Corner, letters: Union[str, bytes, Iterable[int]]):
        object.__setattr__(self, "start", pair(start, "start"))
        object.__setattr__(self, "letters", letters_of(letters, "letters"))

    def __str__(self):
        return f"{self.start[0]} {self.start[1]} {''.join(map(str, self.letters))}"

    def test(self) -> Union[Taken, Refusal]:
        """Whether the block is convex: taken, with anchor and edges, or refused by 1 to 9."""
        reply, (letters, n) = Reply(), byte_array(self.letters)
        edges = (I16 * EDGE_NUMBERS)()
        LIBRARY.rq_test(*self.start, letters, n, edges, EDGE_NUMBERS, ctypes.byref(reply))
        if reply.number:
            return refusal_of(reply)
        return Taken((reply.col, reply.row), tuple(pairs(edges[: 2 * reply.place])))

    def witness(self) -> Union[Witness, Complete, Refusal]:
        """The lowest missing cell with three cells of the block round it; or that no cell is missing. Refused by 1 to 6."""
        reply, (letters, n) = Reply(), byte_array(self.letters)
        cells = (U16 * 6)()
        LIBRARY.rq_witness(*self.start, letters, n, cells, 6, ctypes.byref(reply))
        if reply.number:
            return refusal_of(reply)
        if reply.word:
            return Complete()
        return Witness((reply.col, reply.row), tuple(pairs(cells[:])))

    def complete(self) -> Union["Outline", Refusal]:
        """The border of the smallest convex block that has every cell of this one. Refused by 1 to 6."""
        reply, (letters, n) = Reply(), byte_array(self.letters)
        out = (U8 * LETTERS)()
        LIBRARY.rq_complete(*self.start, letters, n, out, LETTERS, ctypes.byref(reply))
        if reply.number:
            return refusal_of(reply)
        return Outline((reply.col, reply.row), bytes(out[: reply.place]))

    def cells(self) -> List[Cell]:
        """The cells that the border goes round, from the lowest row, each from the left.

        It asks for a border that a test passes at least as far as refusal 6; any other raises ValueError.
        """
        verdict = self.test()
        if not verdict.ok and verdict.number < 8:
            raise ValueError(f"this is the border of no block: {verdict}")
        sides = [[] for _ in range(SIDE)]
        col, row = self.start
        for letter in self.letters:
            if letter == 1:
                sides[row].append(col)
            elif letter == 3:
                sides[row - 1].append(col)
            col, row = col + STEPS[letter][0], row + STEPS[letter][1]
        found = []
        for row, columns in enumerate(sides):
            columns.sort()
            for first, past in zip(columns[0::2], columns[1::2]):
                found.extend((col, row) for col in range(first, past))
        return found

    def mask(self):
        """The cells as a Boolean array of numpy's, 255 by 255, indexed by row and column."""
        import numpy

        mask = numpy.zeros((SIDE, SIDE), dtype=bool)
        for col, row in self.cells():
            mask[row, col] = True
        return mask

    @staticmethod
    def of_cells(cells: Iterable[Cell]) -> "Outline":
        """The border of a block, clockwise from the lowest corner of its leftmost column.

        Raises ValueError where the cells are none, are off the chart, or have more than one border: islands, holes, cells that meet
        only at a corner.
        """
        marked = set()
        for cell in cells:
            col, row = pair(cell, "cell")
            if col >= SIDE or row >= SIDE:
                raise ValueError(f"the cell ({col}, {row}) is off the chart")
            marked.add((col, row))
        if not marked:
            raise ValueError("there is no cell")
        # Each side between a marked cell and one that is not, with the block on its right: from its corner, by its letter.
        leaving = {}
        for col, row in marked:
            sides = (((col, row), 1, (col - 1, row)), ((col, row + 1), 0, (col, row + 1)))
            sides += (((col + 1, row + 1), 3, (col + 1, row)), ((col + 1, row), 2, (col, row - 1)))
            for corner, letter, beside in sides:
                if beside not in marked:
                    if corner in leaving:
                        raise ValueError(f"the block touches itself at the corner {corner}")
                    leaving[corner] = letter
        start = corner = min(leaving)
        letters = bytearray()
        while True:
            letter = leaving[corner]
            letters.append(letter)
            corner = (corner[0] + STEPS[letter][0], corner[1] + STEPS[letter][1])
            if corner == start:
                break
        if len(letters) != len(leaving):
            raise ValueError("the cells have more than one border: there is an island or a hole")
        return Outline(start, bytes(letters))

    @staticmethod
    def of_mask(mask) -> "Outline":
        """The border of the cells that a mask marks: rows of truth values, by row and column; an array of numpy's, or lists."""
        rows = [list(row) for row in mask]
        if len(rows) > SIDE or any(len(row) > SIDE for row in rows):
            raise ValueError(f"the mask has more than {SIDE} rows or columns")
        return Outline.of_cells((col, row) for row, line in enumerate(rows) for col, there in enumerate(line) if there)


def _list(anchor, edges, name):
    numbers, m = number_array(edges_of(edges, f"{name}edges"))
    return (*pair(anchor, f"{name}anchor"), numbers, m)


def _word(reply):
    return refusal_of(reply) if reply.number else Answer(word_name(reply.word))


def query(anchor: Cell, edges, cell: Cell) -> Union[Answer, Refusal]:
    """Whether a cell is inside an anchor and edges. Refused by 10, 11 and 16."""
    reply = Reply()
    LIBRARY.rq_loose_query(*_list(anchor, edges, ""), *pair(cell, "cell"), ctypes.byref(reply))
    return _word(reply)


def reading(anchor: Cell, edges, angle: float, load: float) -> Union[Answer, Refusal]:
    """Where a reading lies: inside, outside or undecided. The two numbers are rounded to single precision. Refused by 10, 11 and 16."""
    reply = Reply()
    LIBRARY.rq_loose_reading(*_list(anchor, edges, ""), real(angle, "angle"), real(load, "load"), ctypes.byref(reply))
    return _word(reply)


def border(anchor: Cell, edges) -> Union[Outline, Refusal]:
    """The outline that has an anchor and edges, clockwise from the anchor's corner. Refused by 10, 11, 16 and 17."""
    reply, letters = Reply(), (U8 * LETTERS)()
    LIBRARY.rq_border(*_list(anchor, edges, ""), letters, LETTERS, ctypes.byref(reply))
    if reply.number:
        return refusal_of(reply)
    return Outline(pair(anchor, "anchor"), bytes(letters[: reply.place]))


def compare(first: Tuple[Cell, Iterable], second: Tuple[Cell, Iterable]) -> Union[Answer, Refusal]:
    """How the cells of two hulls lie to each other; each is (anchor, edges), or what a test returned.

    The word is equal, first_within, second_within, no_common or crossing. Refused by 10, 11 and 16; `place` says which list.
    """
    reply = Reply()
    one, two = ((hull.anchor, hull.edges) if isinstance(hull, Taken) else hull for hull in (first, second))
    LIBRARY.rq_compare(*_list(*one, "first "), *_list(*two, "second "), ctypes.byref(reply))
    if reply.number:
        refusal = refusal_of(reply)
        return Refusal(refusal.number, refusal.name, refusal.sentence, place=reply.place)
    return Answer(word_name(reply.word))
