"""Fitting files, images, frames and checksums: bytes in and out."""
import ctypes
from typing import Iterable, Iterator, Union

from .answers import Fault, Refusal, refusal_of
from .holders import Holder
from .library import FRAME_BODY, FRAME_BYTES, LIBRARY, U8, Reply, byte_array, bytes_of
from .outlines import Outline

MARK = b"\x4b\x4f"
HEAD = 6
LARGEST = 65536


def read_fittings(data: bytes) -> Iterator[Union[Outline, Fault]]:
    """The outlines of a fitting file, in order; a fault, if there is one, comes last."""
    data = bytes_of(data, "data")
    if len(data) > LARGEST:
        yield Fault(25, 0, LARGEST)
        return
    at = record = 0
    while at < len(data):
        if data[at : at + 2] != MARK:
            yield Fault(23, record, at)
            return
        end = at + HEAD + int.from_bytes(data[at + 4 : at + HEAD], "little")
        if at + HEAD > len(data) or end > len(data):
            yield Fault(24, record, at)
            return
        yield Outline((data[at + 2], data[at + 3]), data[at + HEAD : end])
        at, record = end, record + 1


def write_fittings(outlines: Iterable[Outline]) -> bytes:
    """A fitting file of outlines. Raises ValueError where a start or a count does not fit a record, or the file would be too large."""
    data = bytearray()
    for record, outline in enumerate(outlines):
        if max(outline.start) > 255 or len(outline.letters) > 65535:
            raise ValueError(f"outline {record} does not fit a record: its start is {outline.start}, and it has {len(outline.letters)} letters")
        data += MARK + bytes(outline.start) + len(outline.letters).to_bytes(2, "little") + outline.letters
    if len(data) > LARGEST:
        raise ValueError(f"the file would have {len(data)} bytes, and a fitting file has at most {LARGEST}")
    return bytes(data)


def image_of(outline: Outline) -> Union[bytes, Refusal]:
    """The image of an outline, as a controller saves it: the border clockwise from its anchor's corner. Refused as a test is."""
    holder = Holder()
    closed = holder.put(0, 0, outline)
    return holder.save(0, 0) if closed.ok else closed


def read_image(image: bytes) -> Union[Outline, None, Refusal]:
    """The outline of an image; None for that of an empty place. Refused by 26, and as a test is."""
    holder = Holder()
    done = holder.restore(0, 0, image)
    if not done.ok:
        return done
    count = int.from_bytes(image[4:HEAD], "little")
    return Outline((image[2], image[3]), bytes(image[HEAD : HEAD + count])) if count else None


def frame(body: bytes) -> Union[bytes, Refusal]:
    """A frame round some bytes, at most 1,024, for a line. Refused by 28."""
    reply, (data, n) = Reply(), byte_array(bytes_of(body, "body"))
    room = n + FRAME_BYTES
    out = (U8 * room)()
    LIBRARY.rq_frame(data, n, out, room, ctypes.byref(reply))
    return refusal_of(reply) if reply.number else bytes(out[: reply.place])


def unframe(data: bytes) -> Union[bytes, Refusal]:
    """The body of a frame. Refused by 28 where the bytes are not exactly a frame."""
    reply, (given, n) = Reply(), byte_array(bytes_of(data, "data"))
    out = (U8 * FRAME_BODY)()
    LIBRARY.rq_unframe(given, n, out, FRAME_BODY, ctypes.byref(reply))
    return refusal_of(reply) if reply.number else bytes(out[: reply.place])


def checksum(data: bytes) -> int:
    """The CRC-32C of some bytes."""
    given, n = byte_array(bytes_of(data, "data"))
    return LIBRARY.rq_checksum(given, n)
