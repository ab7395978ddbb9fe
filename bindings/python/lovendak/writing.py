"""From a tree to the bytes of a message of one segment: docs/encoding.md says where each content is placed."""
import struct
from typing import Sequence

from .errors import WriteError
from .tree import LIMITS, MOST_ELEMENTS, POINTERS, STRUCTS, CapNode, DataList, Node, PointerList, StructList, StructNode

LIST, OTHER = 1, 3


def write_tree(root: Node) -> bytes:
    """The message. WriteError if the tree nests too deep or is too large for one."""
    message = Message()
    message.place(0, root, 1)
    return struct.pack("<II", 0, len(message.words) // 8) + message.words


class Message:
    def __init__(self) -> None:
        self.words, self.visited = bytearray(8), 0

    def place(self, at: int, node: Node, level: int) -> None:
        """Writes a pointer, for which there is a word of zeros, and appends what it leads to, which has that level."""
        if node is None:
            return
        if isinstance(node, CapNode):
            self.point(at, OTHER, node.number)
            return
        if level > LIMITS.levels:
            raise WriteError(f"Depth: contents nest more than {LIMITS.levels} deep")
        offset = (len(self.words) - at) // 8 - 1
        if isinstance(node, StructNode):
            self.place_struct(at, offset, node, level)
        elif isinstance(node, DataList):
            self.point(at, offset << 2 | LIST, self.list_size(node.size, node.length))
            self.append(node.data)
        elif isinstance(node, PointerList):
            self.point(at, offset << 2 | LIST, self.list_size(POINTERS, len(node.items)))
            self.place_all(self.append(bytes(8 * len(node.items))), node.items, level)
        else:
            self.place_structs(at, offset, node, level)

    def place_struct(self, at: int, offset: int, node: StructNode, level: int) -> None:
        words = (len(node.data) + 7) // 8
        offset = offset if words or node.pointers else -1
        self.point(at, offset << 2, words | len(node.pointers) << 16)
        self.place_all(self.append_struct(node), node.pointers, level)

    def place_structs(self, at: int, offset: int, node: StructList, level: int) -> None:
        each = node.words + node.pointers
        self.point(at, offset << 2 | LIST, self.list_size(STRUCTS, each * len(node.items)))
        self.append(struct.pack("<II", len(node.items) << 2, node.words | node.pointers << 16))
        self.count(0 if each else len(node.items))
        places = [self.append_struct(item) for item in node.items]
        for place, item in zip(places, node.items):
            self.place_all(place, item.pointers, level)

    def place_all(self, first: int, nodes: Sequence[Node], level: int) -> None:
        for number, node in enumerate(nodes):
            self.place(first + 8 * number, node, level + 1)

    def point(self, at: int, low: int, high: int) -> None:
        struct.pack_into("<iI", self.words, at, low, high)

    def list_size(self, size: int, count: int) -> int:
        if count > MOST_ELEMENTS:
            raise WriteError(f"TooLarge: a list of {count} elements, which has at most {MOST_ELEMENTS}")
        return size | count << 3

    def append_struct(self, node: StructNode) -> int:
        """Where its pointers begin."""
        self.append(node.data)
        return self.append(bytes(8 * len(node.pointers)))

    def append(self, data: bytes) -> int:
        """Appends whole words: where they begin."""
        start = len(self.words)
        self.words += data
        self.words += bytes(-len(data) % 8)
        if len(self.words) > 8 * LIMITS.words:
            raise WriteError(f"TooLarge: a message has at most {LIMITS.words} words")
        self.count((len(self.words) - start) // 8)
        return start

    def count(self, visited: int) -> None:
        self.visited += visited
        if self.visited > LIMITS.visited:
            raise WriteError(f"Traversal: more than {LIMITS.visited} words would be visited")
