"""The interfaces of a schema, and the schema itself."""
from typing import Any, Dict, Iterator, List, Mapping, NamedTuple, Optional

from .errors import SchemaError
from .pointers import BY_NAME, CapabilityType, ListType
from .scalars import Enum
from .structs import Struct


class Method(NamedTuple):
    """A method: the id of its interface, its number there, its name, and the structs of its parameters and results."""

    interface: int
    number: int
    name: str
    params: Struct
    results: Struct


class Interface:
    """An interface: its id, its name, its own methods by their names, and its superclasses."""

    __module__ = "lovendak.schema"

    def __init__(self, id: int, name: str) -> None:
        self.id, self.name = id, name
        self.methods: Dict[str, Method] = {}
        self.superclasses: List[Interface] = []

    def __repr__(self) -> str:
        return f"<interface {self.name}>"

    def all(self) -> List["Interface"]:
        """It, and all that it extends, each once."""
        found: List[Interface] = [self]
        for it in found:
            found += [above for above in it.superclasses if above not in found]
        return found

    def method(self, name: str) -> Method:
        """The method of that name, its own or that of a superclass. KeyError if there is none."""
        for it in self.all():
            if name in it.methods:
                return it.methods[name]
        raise KeyError(name)

    def find(self, interface: int, number: int) -> Optional[Method]:
        """The method that an event names by its `interface` and `method`, its own or that of a superclass, or None."""
        for it in self.all():
            for method in it.methods.values():
                if (method.interface, method.number) == (interface, number):
                    return method
        return None


class Schema(Mapping[str, Any]):
    """What files define: structs, interfaces and enums by the names that they have there, `Outer.Inner` those that stand in another.
    The types of files that they import are found behind their fields."""

    __module__ = "lovendak.schema"

    def __init__(self, structs: Dict[str, Struct], interfaces: Dict[str, Interface], enums: Dict[str, Enum]) -> None:
        self.structs, self.interfaces, self.enums = structs, interfaces, enums
        self._all: Dict[str, Any] = {**structs, **interfaces, **enums}

    def __getitem__(self, name: str) -> Any:
        return self._all[name]

    def __iter__(self) -> Iterator[str]:
        return iter(self._all)

    def __len__(self) -> int:
        return len(self._all)

    def type(self, text: str) -> Any:
        """The type that a text names as a schema does, as `Text`, `List(UInt16)` or `List(Line)`. SchemaError if there is none."""
        name = text.strip()
        if name.startswith("List(") and name.endswith(")"):
            return ListType(self.type(name[5:-1]))
        if name in self.interfaces:
            return CapabilityType(self.interfaces[name])
        if name not in self and name not in BY_NAME:
            raise SchemaError(f"there is no type {name!r}")
        return self[name] if name in self else BY_NAME[name]
