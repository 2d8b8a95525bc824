"""Robequarry: whether a block of cells on a chart of 255 by 255 is convex, by a library whose every answer is proved.

An outline is the border of a block: a start corner and letters. `Outline.test` takes it, with the edges of its convex hull, or refuses
it. A refusal is a value, and has `ok` False; every other answer has `ok` True. A wrong argument raises TypeError or ValueError.

>>> from robequarry import Outline
>>> verdict = Outline((0, 1), "101030323212").test()
>>> verdict.ok, verdict.anchor, len(verdict.edges)
(True, (0, 1), 4)
>>> print(Outline((0, 0), "0123").test().ok)
True
"""
from .answers import Answer, Closed, Columns, Complete, Done, Draft, Fault, Piece, Refusal, Taken, Witness
from .files import checksum, frame, image_of, read_fittings, read_image, unframe, write_fittings
from .holders import Holder, Pile, replay
from .library import VERSION as __version__
from .library import IMAGE_BYTES, LAYERS, LETTERS, PARTIES, PLACES, SIDE
from .outlines import Outline, border, compare, query, reading

__all__ = [
    "Answer", "Closed", "Columns", "Complete", "Done", "Draft", "Fault", "Holder", "IMAGE_BYTES", "LAYERS", "LETTERS", "Outline", "PARTIES",
    "PLACES", "Piece", "Pile", "Refusal", "SIDE", "Taken", "Witness", "__version__", "border", "checksum", "compare", "frame", "image_of",
    "query", "read_fittings", "read_image", "reading", "replay", "unframe", "write_fittings",
]
