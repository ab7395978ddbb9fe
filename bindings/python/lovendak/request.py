"""A schema out of what `capnp compile -o-` writes: the struct CodeGeneratorRequest of /usr/include/capnp/schema.capnp."""
import struct
from typing import Any, Dict, List, Optional

from .errors import SchemaError
from .interfaces import Interface, Method, Schema
from .pointers import ANY, BUILT_IN, CAPABILITY, TEXT, CapabilityType, ListType
from .reading import read_tree
from .scalars import Bool, Enum, Scalar, Void
from .structs import BoolField, DataField, Field, GroupField, PointerField, Struct, VoidField, fits
from .tree import EMPTY, Limits, Node, StructList, StructNode
from .values import Getting

# A schema may be larger than the message of a peer, and has defaults in it, which may nest as deep as one.
LIMITS = Limits(segments=1 << 16, words=1 << 27, visited=1 << 27, levels=80)
NO_TAG = 0xFFFF
UNSIGNED = {1: "B", 2: "H", 4: "I", 8: "Q"}
STRUCT, ENUM, INTERFACE = 1, 2, 3
LIST_TYPE, ENUM_TYPE, STRUCT_TYPE, INTERFACE_TYPE, ANY_TYPE = range(14, 19)
ANY_CAPABILITY = 3


def schema_of(request: bytes) -> Schema:
    """SchemaError if the bytes are no such request."""
    try:
        root = read_tree(request, None, LIMITS)
        if not isinstance(root, StructNode):
            raise SchemaError("this is no compiled schema")
        return Loading(structs(root, 0), [number(it, 0, "Q") for it in structs(root, 1)]).schema
    except RecursionError:
        raise SchemaError("this schema nests deeper than the stack that Python has left allows") from None


def number(node: StructNode, at: int, form: str) -> int:
    size = struct.calcsize(f"<{form}")
    data = node.data[at:at + size]
    return int(struct.unpack(f"<{form}", data)[0]) if len(data) == size else 0


def pointer(node: StructNode, index: int) -> Node:
    return node.pointers[index] if index < len(node.pointers) else None


def text(node: StructNode, index: int) -> str:
    return TEXT.get(pointer(node, index), Getting(None, 0))


def structs(node: StructNode, index: int) -> List[StructNode]:
    found = pointer(node, index)
    return list(found.items) if isinstance(found, StructList) else []


def inner(node: StructNode, index: int) -> StructNode:
    found = pointer(node, index)
    return found if isinstance(found, StructNode) else EMPTY


class Loading:
    """The nodes of a request, first each by itself, and then with what they refer to."""

    def __init__(self, nodes: List[StructNode], files: List[int]) -> None:
        self.nodes = {number(node, 0, "Q"): node for node in nodes}
        self.files = set(files)
        self.of_kind: Dict[int, Dict[int, Any]] = {STRUCT: {}, ENUM: {}, INTERFACE: {}}
        for id, node in self.nodes.items():
            self.declare(id, node)
        for id, made in self.of_kind[STRUCT].items():
            self.fill_struct(made, self.nodes[id])
        for id, made in self.of_kind[INTERFACE].items():
            self.fill_interface(made, self.nodes[id])
        self.schema = Schema(self.named(STRUCT), self.named(INTERFACE), self.named(ENUM))

    def declare(self, id: int, node: StructNode) -> None:
        kind, name = number(node, 12, "H"), text(node, 0).rsplit(":", 1)[-1]
        if kind == STRUCT:
            made: Any = Struct(name.split("$")[0], number(node, 14, "H"), number(node, 24, "H"))
        elif kind == ENUM:
            made = Enum(name, [text(it, 0) for it in structs(node, 3)])
        elif kind == INTERFACE:
            made = Interface(id, name)
        else:
            return
        self.of_kind[kind][id] = made

    def named(self, kind: int) -> Dict[str, Any]:
        """Those of the requested files by their names, but for groups, and for structs that were made for methods."""
        found: Dict[str, Any] = {}
        for id, made in self.of_kind[kind].items():
            if not self.is_named(id):
                continue
            if made.name in found:
                raise SchemaError(f"two of the files define {made.name}")
            found[made.name] = made
        return found

    def is_named(self, id: int) -> bool:
        node, seen = self.nodes[id], 0
        if "$" in text(node, 0) or number(node, 28, "B") & 1 and number(node, 12, "H") == STRUCT:
            return False
        while (scope := number(node, 16, "Q")) not in self.files:
            seen += 1
            if scope not in self.nodes or seen > len(self.nodes):
                return False
            node = self.nodes[scope]
        return True

    def get(self, kind: int, id: int) -> Any:
        if id not in self.of_kind[kind]:
            raise SchemaError(f"the schema lacks what has the id {id:#x}")
        return self.of_kind[kind][id]

    def fill_struct(self, made: Struct, node: StructNode) -> None:
        if number(node, 30, "H"):
            made.tag_at = 2 * number(node, 32, "I")
            if made.tag_at + 2 > 8 * made.words:
                raise SchemaError(f"{made.name}: a union that lies outside of its struct")
        for it in structs(node, 3):
            field = self.field(made, it)
            made.fields[field.name] = field

    def field(self, owner: Struct, node: StructNode) -> Field:
        name, tag = text(node, 0), self.tag(node)
        if number(node, 8, "H") == 1:
            return GroupField(name, tag, self.get(STRUCT, number(node, 16, "Q")))
        kind, offset, default = self.type(inner(node, 2)), number(node, 4, "I"), inner(node, 3)
        if not fits(kind, offset, owner):
            raise SchemaError(f"{owner.name}.{name}: a field that lies outside of its struct")
        if isinstance(kind, Void):
            return VoidField(name, tag, kind)
        if isinstance(kind, Bool):
            return BoolField(name, tag, kind, offset, number(default, 2, "B") & 1 == 1)
        if isinstance(kind, Scalar):
            return DataField(name, tag, kind, offset, number(default, max(2, kind.size), UNSIGNED[kind.size]))
        return PointerField(name, tag, kind, offset, pointer(default, 0))

    def tag(self, node: StructNode) -> Optional[int]:
        """Its default is NO_TAG."""
        tag = number(node, 2, "H") ^ NO_TAG
        return None if tag == NO_TAG else tag

    def type(self, node: StructNode) -> Any:
        kind = number(node, 0, "H")
        if kind < len(BUILT_IN):
            return BUILT_IN[kind]
        if kind == LIST_TYPE:
            return ListType(self.type(inner(node, 0)))
        if kind == ENUM_TYPE:
            return self.get(ENUM, number(node, 8, "Q"))
        if kind == STRUCT_TYPE:
            return self.get(STRUCT, number(node, 8, "Q"))
        if kind == INTERFACE_TYPE:
            return CapabilityType(self.get(INTERFACE, number(node, 8, "Q")))
        is_capability = kind == ANY_TYPE and number(node, 8, "H") == 0 and number(node, 10, "H") == ANY_CAPABILITY
        return CAPABILITY if is_capability else ANY

    def fill_interface(self, made: Interface, node: StructNode) -> None:
        for ordinal, it in enumerate(structs(node, 3)):
            params, results = self.get(STRUCT, number(it, 8, "Q")), self.get(STRUCT, number(it, 16, "Q"))
            name = text(it, 0)
            made.methods[name] = Method(made.id, ordinal, name, params, results)
        made.superclasses = [self.get(INTERFACE, number(it, 0, "Q")) for it in structs(node, 4)]
