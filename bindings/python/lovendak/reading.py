"""From the bytes of a message to its tree. All of it is checked, in the order of docs/encoding.md."""
import struct
from typing import List, NoReturn, Optional, Tuple

from .errors import FAULTS, ReadError
from .tree import BITS, LIMITS, POINTERS, STRUCTS, CapNode, DataList, Limits, Node, PointerList, StructList, StructNode

SHORT, TOO_MANY_SEGMENTS, TOO_LARGE, TRAILING, OUT_OF_BOUNDS, BAD_FAR, BAD_TAG, BAD_OTHER, CAP_INDEX, DEPTH, TRAVERSAL = range(2, 13)
MEANINGS = {
    SHORT: "the bytes end before the segment table, its padding or the segments do",
    TOO_MANY_SEGMENTS: "there are too many segments",
    TOO_LARGE: "there are too many words in all segments",
    TRAILING: "there are bytes after the last segment, or padding that is not zero",
    OUT_OF_BOUNDS: "a pointer leads out of its segment or to no segment, or there is no root pointer",
    BAD_FAR: "a landing pad is none",
    BAD_TAG: "the tag of a list of structs is no struct pointer, or promises more than there is",
    BAD_OTHER: "a pointer of the fourth kind is no capability",
    CAP_INDEX: "a capability is not in the table",
    DEPTH: "contents nest too deep",
    TRAVERSAL: "too many words are visited",
}
POINTER = struct.Struct("<iI")
STRUCT, LIST, FAR, OTHER = range(4)


def fault(number: int) -> NoReturn:
    raise ReadError(f"{FAULTS[number]}: {MEANINGS[number]}", fault=number)


def read_tree(message: bytes, caps: Optional[int] = None, limits: Limits = LIMITS) -> Node:
    """What stands at the root of a message in framed segments, with which as many references go; None allows each index.

    ReadError with one of the faults 2 to 12."""
    return Message(message, caps, limits).node(0, 0, 1)


def framing(message: bytes, limits: Limits) -> List[Tuple[int, int]]:
    """Where each segment begins, and how many words it has."""
    if len(message) < 4:
        fault(SHORT)
    count = int.from_bytes(message[:4], "little") + 1
    if count > limits.segments:
        fault(TOO_MANY_SEGMENTS)
    start = (4 + 4 * count + 7) // 8 * 8
    if len(message) < start:
        fault(SHORT)
    sizes = struct.unpack_from(f"<{count}I", message, 4)
    if sum(sizes) > limits.words:
        fault(TOO_LARGE)
    end = start + 8 * sum(sizes)
    if len(message) < end:
        fault(SHORT)
    if len(message) > end or any(message[4 + 4 * count:start]):
        fault(TRAILING)
    if sizes[0] == 0:
        fault(OUT_OF_BOUNDS)
    return [(start + 8 * sum(sizes[:number]), size) for number, size in enumerate(sizes)]


class Message:
    """A message of which the framing was checked. Places are counted in the words of a segment."""

    def __init__(self, message: bytes, caps: Optional[int], limits: Limits) -> None:
        self.message, self.caps, self.limits = message, caps, limits
        self.segments, self.visited = framing(message, limits), 0

    def word(self, segment: int, at: int) -> Tuple[int, int]:
        low, high = POINTER.unpack_from(self.message, self.segments[segment][0] + 8 * at)
        return low, high

    def bytes_at(self, segment: int, at: int, size: int) -> bytes:
        start = self.segments[segment][0] + 8 * at
        return self.message[start:start + size]

    def visit(self, words: int) -> None:
        self.visited += words
        if self.visited > self.limits.visited:
            fault(TRAVERSAL)

    def within(self, segment: int, at: int, words: int) -> None:
        if at < 0 or at + words > self.segments[segment][1]:
            fault(OUT_OF_BOUNDS)

    def node(self, segment: int, at: int, level: int) -> Node:
        """What a pointer leads to; the content has that level."""
        low, high = self.word(segment, at)
        if low == high == 0:
            return None
        if low & 3 == OTHER:
            return self.capability(low, high)
        if low & 3 == FAR:
            segment, start, low, high = self.landed(low & 0xFFFFFFFF, high)
        else:
            start = at + 1 + (low >> 2)
        if level > self.limits.levels:
            fault(DEPTH)
        if low & 3 == STRUCT:
            return self.struct(segment, start, high & 0xFFFF, high >> 16, level)
        return self.list(segment, start, high & 7, high >> 3, level)

    def capability(self, low: int, high: int) -> CapNode:
        if low != OTHER:
            fault(BAD_OTHER)
        if self.caps is not None and high >= self.caps:
            fault(CAP_INDEX)
        return CapNode(high)

    def landed(self, low: int, segment: int) -> Tuple[int, int, int, int]:
        """Behind a far pointer: the segment and the place of the content, and the pointer that describes it."""
        pad, words = low >> 3, 1 + (low >> 2 & 1)
        if segment >= len(self.segments):
            fault(OUT_OF_BOUNDS)
        self.within(segment, pad, words)
        self.visit(words)
        low, high = self.word(segment, pad)
        if words == 1:
            if low & 3 > LIST or low == high == 0:
                fault(BAD_FAR)
            return segment, pad + 1 + (low >> 2), low, high
        tag_low, tag_high = self.word(segment, pad + 1)
        if low & 7 != FAR or tag_low > LIST or tag_low < 0 or tag_low == tag_high == 0:
            fault(BAD_FAR)
        if high >= len(self.segments):
            fault(OUT_OF_BOUNDS)
        return high, (low & 0xFFFFFFFF) >> 3, tag_low, tag_high

    def struct(self, segment: int, start: int, words: int, pointers: int, level: int) -> StructNode:
        self.within(segment, start, words + pointers)
        self.visit(words + pointers)
        return self.content(segment, start, words, pointers, level)

    def content(self, segment: int, start: int, words: int, pointers: int, level: int) -> StructNode:
        first = start + words
        nodes = [self.node(segment, at, level + 1) for at in range(first, first + pointers)] if pointers else ()
        return StructNode(self.bytes_at(segment, start, 8 * words), nodes)

    def list(self, segment: int, start: int, size: int, count: int, level: int) -> Node:
        if size == STRUCTS:
            return self.structs(segment, start, count, level)
        bits = count * (64 if size == POINTERS else BITS[size])
        words = (bits + 63) // 64
        self.within(segment, start, words)
        self.visit(words)
        if size == POINTERS:
            return PointerList([self.node(segment, at, level + 1) for at in range(start, start + count)])
        return DataList(size, count, self.bytes_at(segment, start, (bits + 7) // 8))

    def structs(self, segment: int, start: int, size: int, level: int) -> StructList:
        self.within(segment, start, size + 1)
        low, high = self.word(segment, start)
        count, words, pointers = (low & 0xFFFFFFFF) >> 2, high & 0xFFFF, high >> 16
        each = words + pointers
        if low & 3 != STRUCT or count * each > size:
            fault(BAD_TAG)
        self.visit(size + 1 + (0 if each else count))
        starts = [start + 1 + number * each for number in range(count)]
        return StructList(words, pointers, [self.content(segment, at, words, pointers, level) for at in starts])
