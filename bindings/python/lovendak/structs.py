"""The structs of a schema, their fields and groups."""
import struct
from reprlib import repr as shown
from typing import Any, Dict, Iterable, List, Mapping, Optional, Sequence, Tuple

from .contents import Contents
from .errors import ReadError, SchemaError, WriteError
from .pointers import PointerType
from .reading import DEPTH, read_tree
from .scalars import Bool, Scalar, Void
from .tree import BITS, EMPTY, DataList, Node, PointerList, StructList, StructNode, kind_of
from .values import MOST_ABSENT, Getting, Putting, Type, each, other_elements
from .writing import write_tree

NO_STACK = "Depth: contents nest deeper than the stack that Python has left allows"


class Making:
    """A struct that is being written: its sections, which its groups share."""

    def __init__(self, words: int, pointers: int, putting: Putting) -> None:
        self.data, self.putting = bytearray(8 * words), putting
        self.pointers: List[Node] = [None] * pointers


class Field:
    """`tag` is the number of a member of a union; None, if the field is in none."""

    def __init__(self, name: str, tag: Optional[int]) -> None:
        self.name, self.tag = name, tag

    def put(self, value: Any, making: Making) -> None:
        raise NotImplementedError

    def get(self, node: StructNode, getting: Getting) -> Any:
        raise NotImplementedError


class VoidField(Field):
    def __init__(self, name: str, tag: Optional[int], kind: Void) -> None:
        super().__init__(name, tag)
        self.kind = kind

    def put(self, value: Any, making: Making) -> None:
        self.kind.check(value)

    def get(self, node: StructNode, getting: Getting) -> None:
        return None


class BoolField(Field):
    def __init__(self, name: str, tag: Optional[int], kind: Bool, offset: int, default: bool) -> None:
        super().__init__(name, tag)
        self.kind, self.at, self.bit, self.default = kind, offset // 8, offset % 8, default

    def put(self, value: Any, making: Making) -> None:
        flipped = self.kind.check(value) != self.default
        making.data[self.at] = making.data[self.at] & ~(1 << self.bit) | flipped << self.bit

    def get(self, node: StructNode, getting: Getting) -> bool:
        set_ = self.at < len(node.data) and node.data[self.at] >> self.bit & 1 == 1
        return set_ != self.default


class DataField(Field):
    """Of the default all bits, as a number."""

    def __init__(self, name: str, tag: Optional[int], kind: Scalar, offset: int, default: int) -> None:
        super().__init__(name, tag)
        self.kind, self.start, self.end, self.default = kind, offset * kind.size, (offset + 1) * kind.size, default

    def put(self, value: Any, making: Making) -> None:
        making.data[self.start:self.end] = self.kind.put(value, self.default)

    def get(self, node: StructNode, getting: Getting) -> Any:
        return self.kind.get(node.data[self.start:self.end], self.default)


class PointerField(Field):
    def __init__(self, name: str, tag: Optional[int], kind: PointerType, offset: int, default: Node) -> None:
        super().__init__(name, tag)
        self.kind, self.offset, self.default = kind, offset, default

    def put(self, value: Any, making: Making) -> None:
        is_null = isinstance(value, Defaults) and value.node == self.default
        making.pointers[self.offset] = None if is_null else self.kind.put(value, making.putting)

    def get(self, node: StructNode, getting: Getting) -> Any:
        there = node.pointers[self.offset] if self.offset < len(node.pointers) else None
        return self._default(getting) if there is None else self.kind.get(there, getting)

    def _default(self, getting: Getting) -> Any:
        before, getting.of_default = getting.of_default, True
        value = self.kind.get(self.default, getting)
        getting.of_default = before
        return value


class GroupField(Field):
    def __init__(self, name: str, tag: Optional[int], group: "Struct") -> None:
        super().__init__(name, tag)
        self.group = group

    def put(self, value: Any, making: Making) -> None:
        self.group.fill(value, making)

    def get(self, node: StructNode, getting: Getting) -> Any:
        return self.group.told(node, getting)


class Defaults(Dict[str, Any]):
    """What a null pointer to a struct reads as, and a struct in the default of a pointer: an empty dict, in which each field is found
    when it is asked for by its name."""

    __module__ = "lovendak.schema"

    def __init__(self, kind: "Struct", node: Optional[StructNode]) -> None:
        super().__init__()
        self.kind, self.node = kind, node

    def __missing__(self, name: str) -> Any:
        if name not in self:
            raise KeyError(name)
        return self.kind.fields[name].get(self.node or EMPTY, Getting(None, MOST_ABSENT))

    def __contains__(self, name: object) -> bool:
        return any(field.name == name for field in self.kind.there(self.node or EMPTY))

    def get(self, name: str, default: Any = None) -> Any:
        return self[name] if name in self else default


class Struct(PointerType):
    """A struct of a schema, or the parameters or results of a method.

    A value of it is a mapping from the names of fields to values:

    - Numbers, Bool and Text are `int`, `float`, `bool` and `str`, Data is `bytes`, Void is None.
    - A list is a list, a struct or a group a dict, an enumerant its name.
    - A capability is a reference: in `write` and `read` itself, in `encode` and `decode` its index.

    Of a union the one member that is set is named. A field that is not named has its default, and so has a pointer that is None."""

    __module__ = "lovendak.schema"

    def __init__(self, name: str, words: int, pointers: int) -> None:
        self.name, self.words, self.pointers = name, words, pointers
        self.fields: Dict[str, Field] = {}
        self.tag_at: Optional[int] = None

    def __repr__(self) -> str:
        return f"<struct {self.name}>"

    def write(self, values: Mapping[str, Any]) -> Contents:
        """Contents with these values, for a call or an answer. Its references are those that the values have, which stay the
        caller's. WriteError if a value does not go with its field, or if there is too much for a message."""
        refs: List[Any] = []
        return Contents(self._written(values, Putting(refs)), refs)

    def read(self, contents: Contents) -> Dict[str, Any]:
        """All fields of the contents of a call or an answer, but the members of a union that are not set. Each reference is the
        caller's to drop, whether it stands at a field or not. ReadError if the payload does not go with the schema."""
        return self._read(contents.payload, contents.refs, len(contents.refs))

    def path(self, *names: str) -> Tuple[List[int], Type]:
        """Where the field of these names stands, each in the struct before it: the numbers of the pointers on the way, and its type.
        SchemaError if there is no such field, or if it stands at no pointer."""
        steps: List[int] = []
        kind: Type = self
        for name in names:
            field = kind.fields.get(name) if isinstance(kind, Struct) else None
            if isinstance(field, GroupField):
                kind = field.group
            elif isinstance(field, PointerField):
                kind = field.kind
                steps.append(field.offset)
            else:
                raise SchemaError("no such field stands at a pointer", f"{self.name}.{'.'.join(names)}")
        return steps, kind

    def encode(self, values: Mapping[str, Any]) -> bytes:
        """A message with these values, in which capabilities are given by their indices. WriteError as in `write`."""
        return self._written(values, Putting(None))

    def decode(self, message: bytes, caps: Optional[int] = None) -> Dict[str, Any]:
        """All fields of a message in framed segments, with capabilities as their indices, which are below `caps` if it is given.
        ReadError as in `read`."""
        return self._read(bytes(message), None, caps)

    def _written(self, values: Mapping[str, Any], putting: Putting) -> bytes:
        try:
            return write_tree(self.put(values, putting))
        except WriteError as error:
            error.within(self.name)
            raise
        except RecursionError:
            raise WriteError(NO_STACK, self.name) from None

    def _read(self, message: bytes, refs: Optional[Sequence[Any]], caps: Optional[int]) -> Dict[str, Any]:
        try:
            root = read_tree(message, caps)
            return self.get(EMPTY if root is None else root, Getting(refs, MOST_ABSENT + 8 * len(message)))
        except ReadError as error:
            error.within(self.name)
            raise
        except RecursionError:
            raise ReadError(NO_STACK, self.name, DEPTH) from None

    def content(self, value: Any, putting: Putting) -> StructNode:
        if isinstance(value, Defaults) and value.kind is self:
            return self._sized(value.node or EMPTY)
        making = Making(self.words, self.pointers, putting)
        self.fill(value, making)
        return StructNode(bytes(making.data), making.pointers)

    def _sized(self, node: StructNode) -> StructNode:
        """A default with the sections that the struct has."""
        pointers = [*node.pointers, *[None] * self.pointers][:self.pointers]
        return StructNode(node.data.ljust(8 * self.words, b"\0")[:8 * self.words], pointers)

    def fill(self, values: Any, making: Making) -> None:
        """Writes the fields of a struct, or of a group into its struct."""
        if not isinstance(values, Mapping):
            raise WriteError(f"{shown(values)} is no struct")
        members = [name for name in values if name in self.fields and self.fields[name].tag is not None]
        if len(members) > 1:
            raise WriteError(f"{' and '.join(members)} are members of one union")
        for name, value in values.items():
            if name not in self.fields:
                raise WriteError(f"there is no field {shown(name)}")
            self._put(self.fields[name], value, making)

    def _put(self, field: Field, value: Any, making: Making) -> None:
        if field.tag is not None and self.tag_at is not None:
            struct.pack_into("<H", making.data, self.tag_at, field.tag)
        try:
            field.put(value, making)
        except SchemaError as error:
            error.within(f".{field.name}")
            raise

    def get(self, node: Node, getting: Getting) -> Dict[str, Any]:
        if node is not None and not isinstance(node, StructNode):
            raise ReadError(f"{kind_of(node)}, not a struct")
        return Defaults(self, node) if node is None or getting.of_default else self.told(node, getting)

    def told(self, node: StructNode, getting: Getting) -> Dict[str, Any]:
        """The fields of a struct, or of a group from its struct."""
        getting.spend(len(self.fields))
        values = {}
        for field in self.there(node):
            try:
                values[field.name] = field.get(node, getting)
            except SchemaError as error:
                error.within(f".{field.name}")
                raise
        return values

    def there(self, node: StructNode) -> Iterable[Field]:
        """All fields, but members of the union that are not set."""
        if self.tag_at is None:
            return self.fields.values()
        which = int.from_bytes(node.data[self.tag_at:self.tag_at + 2], "little") if self.tag_at + 2 <= len(node.data) else 0
        return [field for field in self.fields.values() if field.tag in (None, which)]

    def put_list(self, items: Sequence[Any], putting: Putting) -> StructList:
        return StructList(self.words, self.pointers, each(items, lambda item: self.content(item, putting)))

    def get_list(self, node: Node, getting: Getting) -> List[Any]:
        return each(self._structs(node, getting), lambda item: self.get(item, getting))

    def _structs(self, node: Node, getting: Getting) -> Sequence[StructNode]:
        """The elements of a list, of which each may be a single field."""
        if isinstance(node, StructList):
            return node.items
        if isinstance(node, PointerList):
            return [StructNode(b"", (item,)) for item in node.items]
        assert isinstance(node, DataList)
        if node.size == 1:
            raise other_elements(self)
        if node.size == 0:
            getting.spend(node.length)
        size = BITS[node.size] // 8
        return [StructNode(node.data[size * at:size * (at + 1)], ()) for at in range(node.length)]


def fits(kind: Type, offset: int, owner: Struct) -> bool:
    """Whether a field of that type at that offset lies within a struct."""
    if isinstance(kind, Scalar):
        return (offset + 1) * kind.size <= 8 * owner.words
    if isinstance(kind, Bool):
        return offset < 64 * owner.words
    return isinstance(kind, Void) or offset < owner.pointers
