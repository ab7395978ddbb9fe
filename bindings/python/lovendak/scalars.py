"""The types of a schema whose values have no pointer: numbers, Bool, Void and enums."""
import struct
from reprlib import repr as shown
from typing import Any, List, Sequence

from .errors import WriteError
from .tree import BITS, DataList, Node, PointerList, StructList
from .values import Getting, Putting, Type, each, other_elements

# The number of an element's size, by its bytes.
SIZES = {1: 2, 2: 3, 4: 4, 8: 5}


class Void(Type):
    name = "Void"

    def check(self, value: Any) -> None:
        if value is not None:
            raise WriteError(f"{shown(value)} is no Void, which is None")

    def put_list(self, items: Sequence[Any], putting: Putting) -> Node:
        each(items, self.check)
        return DataList(0, len(items), b"")

    def get_list(self, node: Node, getting: Getting) -> List[Any]:
        assert isinstance(node, (DataList, PointerList, StructList))
        count = node.length if isinstance(node, DataList) else len(node.items)
        getting.spend(count)
        return [None] * count


class Bool(Type):
    name = "Bool"

    def check(self, value: Any) -> bool:
        if not isinstance(value, bool):
            raise WriteError(f"{shown(value)} is no Bool")
        return value

    def put_list(self, items: Sequence[Any], putting: Putting) -> Node:
        bits = "".join("1" if bit else "0" for bit in reversed(each(items, self.check)))
        return DataList(1, len(items), int(bits or "0", 2).to_bytes((len(items) + 7) // 8, "little"))

    def get_list(self, node: Node, getting: Getting) -> List[Any]:
        if not isinstance(node, DataList) or node.size == 0:
            raise other_elements(self)
        getting.spend(node.length)
        step = BITS[node.size]
        return [node.data[at // 8] >> at % 8 & 1 == 1 for at in range(0, step * node.length, step)]


class Scalar(Type):
    """Numbers and enumerants, which have one to eight bytes in the form of the module `struct`."""

    def __init__(self, name: str, form: str) -> None:
        self.name, self.form, self.size = name, form, struct.calcsize(f"<{form}")

    def check(self, value: Any) -> Any:
        """The number that is written. WriteError if there is none."""
        raise NotImplementedError

    def told(self, number: Any) -> Any:
        """The value that the number stands for."""
        return number

    def put(self, value: Any, default: int) -> bytes:
        """Its bytes in a struct, where the bits of the default are flipped."""
        bits = int.from_bytes(struct.pack(f"<{self.form}", self.check(value)), "little")
        return (bits ^ default).to_bytes(self.size, "little")

    def get(self, data: bytes, default: int) -> Any:
        bits = int.from_bytes(data, "little") if len(data) == self.size else 0
        return self.told(struct.unpack(f"<{self.form}", (bits ^ default).to_bytes(self.size, "little"))[0])

    def put_list(self, items: Sequence[Any], putting: Putting) -> Node:
        checked = each(items, self.check)
        return DataList(SIZES[self.size], len(checked), struct.pack(f"<{len(checked)}{self.form}", *checked))

    def get_list(self, node: Node, getting: Getting) -> List[Any]:
        data = self.elements(node)
        count = len(data) // self.size
        getting.spend(count)
        return [self.told(number) for number in struct.unpack(f"<{count}{self.form}", data)]

    def elements(self, node: Node) -> bytes:
        """The first bytes of each element, which may have more of them, or be a struct."""
        if isinstance(node, StructList) and (node.words or not node.items):
            return b"".join(item.data[:self.size] for item in node.items)
        if not isinstance(node, DataList) or BITS[node.size] < 8 * self.size:
            raise other_elements(self)
        step = BITS[node.size] // 8
        if step == self.size:
            return node.data
        return b"".join(node.data[at:at + self.size] for at in range(0, step * node.length, step))


class Integer(Scalar):
    def __init__(self, name: str, form: str) -> None:
        super().__init__(name, form)
        bits, signed = 8 * self.size, form.islower()
        self.low, self.high = (-1 << bits - 1, (1 << bits - 1) - 1) if signed else (0, (1 << bits) - 1)

    def check(self, value: Any) -> Any:
        if not isinstance(value, int) or isinstance(value, bool):
            raise WriteError(f"{shown(value)} is no {self.name}")
        if not self.low <= value <= self.high:
            raise WriteError(f"{shown(value)} is no {self.name}, which is within {self.low} .. {self.high}")
        return value


class Float(Scalar):
    def check(self, value: Any) -> Any:
        if not isinstance(value, (int, float)) or isinstance(value, bool):
            raise WriteError(f"{shown(value)} is no {self.name}")
        try:
            struct.pack(f"<{self.form}", value)
        except OverflowError:
            raise WriteError(f"{shown(value)} is too large for {self.name}") from None
        return value


class Enum(Scalar):
    """An enumerant is written and read by its name. One that the schema lacks is written and read as its number."""

    __module__ = "lovendak.schema"

    def __init__(self, name: str, names: List[str]) -> None:
        super().__init__(name, "H")
        self.names = names
        self.numbers = {it: number for number, it in enumerate(names)}

    def __repr__(self) -> str:
        return f"<enum {self.name}>"

    def check(self, value: Any) -> Any:
        if isinstance(value, int) and not isinstance(value, bool) and not value >> 16:
            return value
        if not isinstance(value, str) or value not in self.numbers:
            raise WriteError(f"{shown(value)} is no enumerant of {self.name}")
        return self.numbers[value]

    def told(self, number: Any) -> Any:
        return self.names[number] if number < len(self.names) else number


# In the order of their numbers in schema.capnp.
NUMBERS = [
    Integer("Int8", "b"), Integer("Int16", "h"), Integer("Int32", "i"), Integer("Int64", "q"), Integer("UInt8", "B"),
    Integer("UInt16", "H"), Integer("UInt32", "I"), Integer("UInt64", "Q"), Float("Float32", "f"), Float("Float64", "d"),
]
