"""What calls return. A refusal is a value, and so is an answer; each says by `ok` which it is. Only a wrong argument raises."""
from dataclasses import dataclass, field
from typing import List, Optional, Tuple

from .library import refusal_name, refusal_sentence

Cell = Tuple[int, int]
Corner = Tuple[int, int]
Edge = Tuple[int, int]

# The fields of a refusal that its reply has, by number.
FIELDS = {3: ("place",), 4: ("place",), 6: ("place",), 8: ("piece", "place"), 9: ("piece", "place", "length", "cell"), 21: ("piece", "place")}


@dataclass(frozen=True)
class Refusal:
    """Why a call was refused: its number, C's name for it, a sentence, and the fields that this number has."""

    number: int
    name: str
    sentence: str
    place: Optional[int] = None
    piece: Optional[int] = None
    length: Optional[int] = None
    cell: Optional[Cell] = None
    ok = False

    def __str__(self):
        return f"refused by {self.number}: {self.sentence}"


@dataclass(frozen=True)
class Taken:
    """An outline that is taken: the anchor, which is the lowest cell of its leftmost column, and the edges from there, clockwise."""

    anchor: Cell
    edges: Tuple[Edge, ...]
    ok = True


@dataclass(frozen=True)
class Closed:
    """A close that was taken: whether the cells are those that were at work before, the anchor, and the count of edges."""

    same: bool
    anchor: Cell
    edges: int
    ok = True


@dataclass(frozen=True)
class Witness:
    """A missing cell, the lowest and leftmost, and three cells of the block in whose triangle it lies."""

    missing: Cell
    cells: Tuple[Cell, Cell, Cell]
    ok = True


@dataclass(frozen=True)
class Complete:
    """No cell is missing."""

    ok = True


@dataclass(frozen=True)
class Columns:
    """The columns of a row that the outline has, both ends included; or None for both where it has none."""

    first: Optional[int]
    last: Optional[int]
    ok = True


@dataclass(frozen=True)
class Answer:
    """A word: inside, outside, undecided; of a comparison equal, first_within, second_within, no_common, crossing; or more."""

    word: str
    ok = True

    def __str__(self):
        return self.word

    @property
    def inside(self) -> bool:
        return self.word == "inside"


@dataclass(frozen=True)
class Draft:
    """An open draft: its start, and how many letters it has."""

    start: Corner
    count: int
    ok = True


@dataclass(frozen=True)
class Piece:
    """One piece of a drawing: move, line, close or none; a move and a line have a cell and its centre."""

    word: str
    cell: Optional[Cell] = None
    point: Optional[Tuple[float, float]] = None
    ok = True


@dataclass(frozen=True)
class Done:
    """The call was made."""

    ok = True


@dataclass(frozen=True)
class Fault:
    """What ends the reading of a fitting file: its number, 23 to 25, the record, and the byte."""

    number: int
    record: int
    position: int
    name: str = field(init=False)
    sentence: str = field(init=False)
    ok = False

    def __post_init__(self):
        object.__setattr__(self, "name", refusal_name(self.number))
        object.__setattr__(self, "sentence", refusal_sentence(self.number))


def refusal_of(reply) -> Refusal:
    named = {name: getattr(reply, name) for name in FIELDS.get(reply.number, ()) if name != "cell"}
    if "cell" in FIELDS.get(reply.number, ()):
        named["cell"] = (reply.col, reply.row)
    return Refusal(reply.number, refusal_name(reply.number), refusal_sentence(reply.number), **named)


def pairs(numbers) -> List[Tuple[int, int]]:
    return list(zip(numbers[0::2], numbers[1::2]))
