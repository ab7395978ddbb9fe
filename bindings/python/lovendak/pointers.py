"""The types of a schema whose values stand at a pointer, but for structs."""
from reprlib import repr as shown
from typing import Any, Dict, List, Mapping, NamedTuple, Optional, Sequence

from .errors import ReadError, WriteError
from .scalars import NUMBERS, SIZES, Bool, Void
from .tree import LIMITS, CapNode, DataList, Node, PointerList, StructList, StructNode, kind_of
from .values import Capability, Getting, Putting, Type, each, other_elements


class PointerType(Type):
    """What stands at a pointer. None is written as null, and null is read as the type's default."""

    def put(self, value: Any, putting: Putting) -> Node:
        if value is None:
            return None
        putting.level += 1
        if putting.level > LIMITS.levels:
            raise WriteError(f"Depth: contents nest more than {LIMITS.levels} deep")
        node = self.content(value, putting)
        putting.level -= 1
        return node

    def content(self, value: Any, putting: Putting) -> Node:
        raise NotImplementedError

    def get(self, node: Node, getting: Getting) -> Any:
        raise NotImplementedError

    def put_list(self, items: Sequence[Any], putting: Putting) -> Node:
        return PointerList(each(items, lambda item: self.put(item, putting)))

    def get_list(self, node: Node, getting: Getting) -> List[Any]:
        if isinstance(node, StructList) and (node.pointers or not node.items):
            items: Sequence[Node] = [item.pointers[0] for item in node.items]
        elif isinstance(node, PointerList):
            items = node.items
        else:
            raise other_elements(self)
        getting.spend(len(items))
        return each(items, lambda item: self.get(item, getting))


class Text(PointerType):
    name = "Text"

    def content(self, value: Any, putting: Putting) -> Node:
        if not isinstance(value, str):
            raise WriteError(f"{shown(value)} is no text")
        if "\0" in value:
            raise WriteError(f"{shown(value)} has a NUL, which ends a text")
        try:
            letters = value.encode()
        except UnicodeEncodeError:
            raise WriteError(f"{shown(value)} is no UTF-8") from None
        return DataList(2, len(letters) + 1, letters + b"\0")

    def get(self, node: Node, getting: Getting) -> str:
        data = blob(node, "a text")
        if node is not None and data[-1:] != b"\0":
            raise ReadError("a text that does not end with a NUL")
        try:
            return data[:-1].decode()
        except UnicodeDecodeError:
            raise ReadError("a text that is no UTF-8") from None


class Data(PointerType):
    name = "Data"

    def content(self, value: Any, putting: Putting) -> Node:
        if not isinstance(value, (bytes, bytearray, memoryview)):
            raise WriteError(f"{shown(value)} is no data")
        data = bytes(value)
        return DataList(2, len(data), data)

    def get(self, node: Node, getting: Getting) -> bytes:
        return blob(node, "data")


class ListType(PointerType):
    def __init__(self, element: Type) -> None:
        self.element, self.name = element, f"List({element.name})"

    def content(self, value: Any, putting: Putting) -> Node:
        if isinstance(value, (str, Mapping)) or not hasattr(value, "__iter__"):
            raise WriteError(f"{shown(value)} is no list")
        return self.element.put_list(list(value), putting)

    def get(self, node: Node, getting: Getting) -> List[Any]:
        if node is None:
            return []
        if isinstance(node, (StructNode, CapNode)):
            raise ReadError(f"{kind_of(node)}, not a list")
        return self.element.get_list(node, getting)


class CapabilityType(PointerType):
    """`interface` is that of the schema, or None if any may stand there."""

    def __init__(self, interface: Any = None) -> None:
        self.interface, self.name = interface, interface.name if interface else "Capability"

    def put(self, value: Any, putting: Putting) -> Node:
        return None if value is None else putting.capability(value)

    def get(self, node: Node, getting: Getting) -> Any:
        if node is None:
            return None
        if not isinstance(node, CapNode):
            raise ReadError(f"{kind_of(node)}, not a capability")
        found = getting.capability(node.number)
        return found.typed(self.interface) if self.interface and isinstance(found, Capability) else found


class Typed(NamedTuple):
    """A value for an AnyPointer, with its type: a Struct, or one that `Schema.type` gives."""

    type: Any
    value: Any


class AnyPointer:
    """What was read at an AnyPointer or at the parameter of a generic. It can be written at another one."""

    __module__ = "lovendak.schema"

    def __init__(self, node: Node, getting: Getting) -> None:
        self.node, self.getting = node, getting

    def __repr__(self) -> str:
        return f"<AnyPointer to {kind_of(self.node)}>"

    def read(self, kind: Any) -> Any:
        """It as a value of that type: a Struct, or one that `Schema.type` gives. ReadError if it is none."""
        return kind.get(self.node, Getting(self.getting.refs, self.getting.most))


class AnyType(PointerType):
    """A text, data, a Typed, an AnyPointer that was read, or a capability is written. What is read is an AnyPointer, or None."""

    name = "AnyPointer"

    def put(self, value: Any, putting: Putting) -> Node:
        if isinstance(value, AnyPointer):
            return copied(value.node, value.getting, putting)
        if isinstance(value, Typed):
            return within_any(value, putting)
        if isinstance(value, str):
            return TEXT.put(value, putting)
        return (DATA if isinstance(value, (bytes, bytearray, memoryview)) else CAPABILITY).put(value, putting)

    def get(self, node: Node, getting: Getting) -> Optional[AnyPointer]:
        return None if node is None else AnyPointer(node, getting)


def blob(node: Node, wanted: str) -> bytes:
    if node is None:
        return b""
    if not isinstance(node, DataList) or node.size != SIZES[1]:
        raise ReadError(f"{kind_of(node)}, not {wanted}")
    return node.data


def within_any(value: Typed, putting: Putting) -> Node:
    if not isinstance(value.type, PointerType):
        raise WriteError(f"{shown(value.type)} is no type that stands at a pointer")
    return value.type.put(value.value, putting)


def copied(node: Node, getting: Getting, putting: Putting) -> Node:
    """What was read from one message, with its capabilities, for another one."""
    if isinstance(node, CapNode):
        return putting.capability(getting.capability(node.number))
    if isinstance(node, StructNode):
        return StructNode(node.data, [copied(it, getting, putting) for it in node.pointers])
    if isinstance(node, PointerList):
        return PointerList([copied(it, getting, putting) for it in node.items])
    if isinstance(node, StructList):
        items = [StructNode(it.data, [copied(at, getting, putting) for at in it.pointers]) for it in node.items]
        return StructList(node.words, node.pointers, items)
    return node


TEXT, DATA, CAPABILITY, ANY = Text(), Data(), CapabilityType(), AnyType()
# The types that a schema need not define, in the order of their numbers in schema.capnp.
BUILT_IN: List[Any] = [Void(), Bool(), *NUMBERS, TEXT, DATA]
BY_NAME: Dict[str, Any] = {it.name: it for it in [*BUILT_IN, CAPABILITY, ANY]}
