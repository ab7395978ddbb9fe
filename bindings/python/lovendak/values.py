"""How the values of a message are written and read: what all types of a schema share."""
from reprlib import repr as shown
from typing import Any, Callable, List, Optional, Sequence

from .errors import ReadError, SchemaError, WriteError
from .tree import CapNode, Node

# How many more values are read from a message than 64 for each of its words, the most that can stand in one.
MOST_ABSENT = 1 << 20


class Putting:
    """A message that is being written. `refs` gets the capabilities that are met; None, if they are given by their indices."""

    def __init__(self, refs: Optional[List[Any]]) -> None:
        self.refs, self.level = refs, 0

    def capability(self, value: Any) -> CapNode:
        if isinstance(value, (bool, float, str, bytes, bytearray, memoryview, list, tuple, set, dict)):
            raise WriteError(f"{shown(value)} is no capability")
        if self.refs is not None:
            self.refs.append(value)
            return CapNode(len(self.refs) - 1)
        if not isinstance(value, int) or value >> 32:
            raise WriteError(f"{shown(value)} is no capability's index")
        return CapNode(value)


class Getting:
    """A message that is being read. `refs` are the references that go with it; None, if capabilities are read as their indices. As many
    values as `most` are read. `of_default` is set while the default of a pointer is read: a struct may be in its own default."""

    def __init__(self, refs: Optional[Sequence[Any]], most: int) -> None:
        self.refs, self.most, self.left, self.of_default = refs, most, most, False

    def capability(self, index: int) -> Any:
        return index if self.refs is None else self.refs[index]

    def spend(self, values: int) -> None:
        self.left -= values
        if self.left < 0:
            raise ReadError("Traversal: there are too many values for a message of this size", fault=12)


class Capability:
    """What may stand in contents in place of a reference's number, and is told its interface when it is read."""

    def typed(self, interface: Any) -> Any:
        """It, as a capability of that interface."""
        raise NotImplementedError


class Type:
    """What may be an element of a list."""

    name: str

    def put_list(self, items: Sequence[Any], putting: Putting) -> Node:
        raise NotImplementedError

    def get_list(self, node: Node, getting: Getting) -> List[Any]:
        raise NotImplementedError


def each(items: Sequence[Any], done: Callable[[Any], Any]) -> List[Any]:
    """What is done to each item; the path of an error has the item's index."""
    results: List[Any] = []
    try:
        for item in items:
            results.append(done(item))
    except SchemaError as error:
        error.within(f"[{len(results)}]")
        raise
    return results


def other_elements(wanted: Type) -> ReadError:
    return ReadError(f"a list of other elements, not a List({wanted.name})")
