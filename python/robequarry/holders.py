"""A holder, with the outlines at work for two parties, and a pile of sixteen layers. Each owns its memory, as plain bytes."""
import ctypes
from typing import List, Tuple, Union

from .answers import Answer, Closed, Columns, Done, Draft, Piece, Refusal, Taken, refusal_of
from .library import (
    F32,
    IMAGE_BYTES,
    LIBRARY,
    U8,
    U16,
    HolderMemory,
    PileMemory,
    Reply,
    byte_array,
    bytes_of,
    pair,
    real,
    u8,
    u16,
    word_name,
)
from .outlines import Outline

CALL_BYTES = 11


class Memory:
    """Plain bytes, with the arrays that the library takes one by one."""

    KIND = None

    def __init__(self):
        self._memory = self.KIND()
        self._fresh()

    @classmethod
    def from_bytes(cls, data: bytes):
        """One with the memory that `to_bytes` gave. Every content is one; `check` says whether a place of a holder is sound."""
        size = ctypes.sizeof(cls.KIND)
        if len(bytes_of(data, "data")) != size:
            raise ValueError(f"data must have {size} bytes, not {len(data)}")
        made = cls.__new__(cls)
        made._memory = cls.KIND.from_buffer_copy(bytes(data))
        return made

    def to_bytes(self) -> bytes:
        return bytes(self._memory)

    def _call(self, name, *arguments):
        """Makes a call that writes a reply, with the arrays that it names first."""
        reply = Reply()
        result = getattr(LIBRARY, name)(*arguments, ctypes.byref(reply))
        return reply, result


def _done(reply):
    return refusal_of(reply) if reply.number else Done()


def _image_buffer():
    return (U8 * IMAGE_BYTES)()


class Holder(Memory):
    """Two parties, 0 the knee and 1 the ankle; each has a draft or none, and four places with an outline at work or nothing.

    >>> holder = Holder()
    >>> holder.put(0, 0, Outline((0, 1), "101030323212"))
    Closed(same=False, anchor=(0, 1), edges=4)
    >>> holder.query(0, 0, (1, 1)).word
    'inside'
    """

    KIND = HolderMemory

    def _fresh(self):
        reply, memory = Reply(), self._memory
        for party in range(2):
            for place in range(4):
                LIBRARY.rq_clear_parts(memory.heads, party, place, ctypes.byref(reply))
        LIBRARY.rq_fresh_parts(memory.letters, memory.rows, memory.numbers, memory.heads)

    def begin(self, party: int, start: Tuple[int, int]) -> Union[Done, Refusal]:
        """Opens a draft. Refused by 19, 14 and 2."""
        return _done(self._call("rq_begin_parts", self._memory.heads, u8(party, "party"), *pair(start, "start"))[0])

    def add(self, party: int, letter: int) -> Union[Done, Refusal]:
        """Adds a letter to the draft. Refused by 19, 13, 15 and 3; of 3 the place is the count of letters in the draft."""
        memory = self._memory
        return _done(self._call("rq_add_parts", memory.letters, memory.heads, u8(party, "party"), u8(letter, "letter"))[0])

    def draft(self, party: int) -> Union[Draft, Refusal]:
        """The open draft. Refused by 19 and 13."""
        reply, _ = self._call("rq_draft_parts", self._memory.heads, u8(party, "party"))
        return refusal_of(reply) if reply.number else Draft((reply.col, reply.row), reply.place)

    def drop(self, party: int) -> Union[Done, Refusal]:
        """Discards the draft. Refused by 19 and 13."""
        return _done(self._call("rq_drop_parts", self._memory.heads, u8(party, "party"))[0])

    def clear(self, party: int, place: int) -> Union[Done, Refusal]:
        """Removes what is at work at the place. Refused by 19 and 20."""
        return _done(self._call("rq_clear_parts", self._memory.heads, u8(party, "party"), u8(place, "place"))[0])

    def close(self, party: int, place: int) -> Union[Closed, Refusal]:
        """Tests the draft and ends it; one that is taken is then at work. Refused by 19, 20, 13 and 1 to 9."""
        memory, where = self._memory, (u8(party, "party"), u8(place, "place"))
        reply, word = self._call("rq_prepare_parts", memory.letters, memory.rows, memory.numbers, memory.heads, *where)
        return self._commit(where, reply, word)

    def _commit(self, where, reply, word):
        LIBRARY.rq_commit_parts(self._memory.heads, *where, word)
        if reply.number:
            return refusal_of(reply)
        return Closed(word_name(reply.word) == "same", (reply.col, reply.row), reply.place)

    def put(self, party: int, place: int, outline: Outline) -> Union[Closed, Refusal]:
        """Draws a whole outline: begin, every letter, close. The first refusal ends it, and a draft that it has opened is dropped."""
        done = self.begin(party, outline.start)
        if not done.ok:
            return done
        for letter in outline.letters:
            done = self.add(party, letter)
            if not done.ok:
                self.drop(party)
                return done
        closed = self.close(party, place)
        if not closed.ok and closed.number == 20:
            self.drop(party)
        return closed

    def check(self, party: int, place: int) -> Union[Done, Refusal]:
        """Whether memory at the place is sound. Refused by 19, 20 and 27."""
        memory = self._memory
        return _done(self._call("rq_check_parts", memory.rows, memory.numbers, memory.heads, u8(party, "party"), u8(place, "place"))[0])

    def save(self, party: int, place: int) -> Union[bytes, Refusal]:
        """The image of what is at work at the place, or of an empty one: 622 bytes. Refused by 19, 20 and 27."""
        memory, image = self._memory, _image_buffer()
        where = (u8(party, "party"), u8(place, "place"))
        reply, _ = self._call("rq_save_parts", memory.rows, memory.numbers, memory.heads, *where, image, IMAGE_BYTES)
        return refusal_of(reply) if reply.number else bytes(image)

    def restore(self, party: int, place: int, image: bytes) -> Union[Closed, Done, Refusal]:
        """Puts an image to work, as a close of its outline; or clears the place, if it is that of an empty one. Refused by 19, 20, 26, 1 to 9."""
        memory, where = self._memory, (u8(party, "party"), u8(place, "place"))
        data, n = byte_array(bytes_of(image, "image"))
        reply, word = self._call("rq_prepare_image_parts", memory.rows, memory.numbers, memory.heads, *where, data, n)
        closed = self._commit(where, reply, word)
        return Done() if closed.ok and not reply.word else closed

    def query(self, party: int, place: int, cell: Tuple[int, int]) -> Union[Answer, Refusal]:
        """Whether the outline at work has the cell. Refused by 19, 20, 12 and 11."""
        memory, where = self._memory, (u8(party, "party"), u8(place, "place"))
        reply, _ = self._call("rq_query_parts", memory.rows, memory.heads, *where, *pair(cell, "cell"))
        return refusal_of(reply) if reply.number else Answer(word_name(reply.word))

    def row(self, party: int, place: int, row: int) -> Union[Columns, Refusal]:
        """The columns of a row. Refused by 19, 20, 12 and 11."""
        memory, where = self._memory, (u8(party, "party"), u8(place, "place"))
        reply, _ = self._call("rq_row_parts", memory.rows, memory.heads, *where, u16(row, "row"))
        if reply.number:
            return refusal_of(reply)
        return Columns(reply.col, reply.row) if word_name(reply.word) == "columns" else Columns(None, None)

    def reading(self, party: int, place: int, angle: float, load: float) -> Union[Answer, Refusal]:
        """Where a reading lies: inside, outside or undecided. Both numbers are rounded to single precision. Refused by 19, 20, 12 and 11."""
        memory, where = self._memory, (u8(party, "party"), u8(place, "place"))
        numbers = (real(angle, "angle"), real(load, "load"))
        reply, _ = self._call("rq_reading_parts", memory.numbers, memory.heads, *where, *numbers)
        return refusal_of(reply) if reply.number else Answer(word_name(reply.word))

    def piece(self, party: int, place: int, position: int) -> Union[Piece, Refusal]:
        """One piece of the drawing of the edges, by its position from 0. Refused by 19, 20 and 12."""
        memory, where, point = self._memory, (u8(party, "party"), u8(place, "place")), (F32 * 2)()
        reply, _ = self._call("rq_piece_parts", memory.numbers, memory.heads, *where, u16(position, "position"), point)
        if reply.number:
            return refusal_of(reply)
        word = word_name(reply.word)
        return Piece(word, (reply.col, reply.row), (point[0], point[1])) if word in ("move", "line") else Piece(word)

    def call(self, data: bytes) -> Union[Tuple[int, ...], None]:
        """Makes the call that stands in eleven bytes: the seven numbers of its reply, or None where the bytes are no call."""
        memory, (call, n) = self._memory, byte_array(bytes_of(data, "data"))
        reply, made = self._call("rq_call_parts", memory.letters, memory.rows, memory.numbers, memory.heads, call, n)
        return tuple(getattr(reply, name) for name, _ in Reply._fields_) if made else None


def replay(script: bytes) -> List[Tuple[int, ...]]:
    """The replies, seven numbers each, to the calls that stand in a script, made on a fresh holder. It ends at bytes that are no call."""
    data, n = byte_array(bytes_of(script, "script"))
    room = n // CALL_BYTES
    numbers = (U16 * max(7 * room, 1))()
    count = LIBRARY.rq_replay_numbers(data, n, numbers, 7 * room)
    return [tuple(numbers[7 * k : 7 * k + 7]) for k in range(count)]


class Pile(Memory):
    """Sixteen layers, each empty or an outline that was taken. It has passed from a check without a dent until a layer is set."""

    KIND = PileMemory

    def _fresh(self):
        LIBRARY.rq_pile_fresh_parts(self._memory.rows, self._memory.state)

    def set(self, layer: int, outline: Outline) -> Union[Taken, Refusal]:
        """Sets a layer. Refused by 22 and 1 to 9."""
        memory, (letters, n) = self._memory, byte_array(outline.letters)
        layer = u8(layer, "layer")
        reply, _ = self._call("rq_pile_set_parts", memory.rows, memory.state, layer, *outline.start, letters, n)
        return refusal_of(reply) if reply.number else outline.test()

    def empty(self, layer: int) -> Union[Done, Refusal]:
        """Empties a layer. Refused by 22."""
        return _done(self._call("rq_pile_empty_parts", self._memory.rows, self._memory.state, u8(layer, "layer"))[0])

    def check(self) -> Union[Done, Refusal]:
        """Checks every section. Refused by 21: piece 0 or 1 for a column or a row, place which."""
        return _done(self._call("rq_pile_check_parts", self._memory.rows, self._memory.state)[0])

    def check_step(self, sections: int) -> Union[Answer, Done, Refusal]:
        """Checks some sections: the word more while it goes on, else what `check` returns."""
        reply, _ = self._call("rq_pile_check_step_parts", self._memory.rows, self._memory.state, u16(sections, "sections"))
        return Answer("more") if word_name(reply.word) == "more" else _done(reply)

    def query(self, layer: int, cell: Tuple[int, int]) -> Union[Answer, Refusal]:
        """Whether the layer has the cell. Refused by 22, 12 and 11."""
        memory, layer = self._memory, u8(layer, "layer")
        reply, _ = self._call("rq_pile_query_parts", memory.rows, memory.state, layer, *pair(cell, "cell"))
        return refusal_of(reply) if reply.number else Answer(word_name(reply.word))

    def save(self, layer: int) -> Union[bytes, Refusal]:
        """The image of a layer, 622 bytes. Refused by 22 and 27."""
        image = _image_buffer()
        reply, _ = self._call("rq_pile_save_parts", self._memory.rows, u8(layer, "layer"), image, IMAGE_BYTES)
        return refusal_of(reply) if reply.number else bytes(image)

    def restore(self, layer: int, image: bytes) -> Union[Done, Refusal]:
        """Sets a layer from an image. Refused by 22, 26 and 1 to 9."""
        memory, (data, n) = self._memory, byte_array(bytes_of(image, "image"))
        return _done(self._call("rq_pile_restore_parts", memory.rows, memory.state, u8(layer, "layer"), data, n)[0])
