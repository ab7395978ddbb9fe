"""What a message says, without where it lies in it, and the limits: docs/encoding.md."""
from typing import NamedTuple, Sequence, Union


class StructNode(NamedTuple):
    data: bytes
    pointers: Sequence["Node"]


class DataList(NamedTuple):
    """Elements without pointers; `size` is an index of BITS."""

    size: int
    length: int
    data: bytes


class PointerList(NamedTuple):
    items: Sequence["Node"]


class StructList(NamedTuple):
    """Structs with the same number of data words, and of pointers."""

    words: int
    pointers: int
    items: Sequence[StructNode]


class CapNode(NamedTuple):
    """A capability, by its index in the references that go with the message."""

    number: int


Node = Union[None, StructNode, DataList, PointerList, StructList, CapNode]

# The bits of an element, by the number of its size.
BITS = (0, 1, 8, 16, 32, 64)
POINTERS, STRUCTS = 6, 7
EMPTY = StructNode(b"", ())
MOST_ELEMENTS = (1 << 29) - 1


class Limits(NamedTuple):
    segments: int = 16
    words: int = 65_536
    visited: int = 65_536
    levels: int = 64


LIMITS = Limits()


def kind_of(node: Node) -> str:
    """What it is, for the text of an error."""
    if isinstance(node, StructNode):
        return "a struct"
    return "a capability" if isinstance(node, CapNode) else "null" if node is None else "a list"
