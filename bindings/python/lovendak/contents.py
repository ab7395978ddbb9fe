"""What a call or an answer carries."""
import ctypes as c
from typing import Any, Iterable, List, Optional, Tuple

from .library import SIZE, U16, U64, ask, done, filled, numbers, room


class Contents:
    """What a call or an answer carries: a payload, which is a message in framed segments, and a reference for each of its
    capabilities.

    `lovendak.schema` writes and reads contents by the names of a schema. The methods here do without one. Each of those that read
    raises Refused with LOVENDAK_NO_PAYLOAD if the bytes are no payload with that many capabilities."""

    __module__ = "lovendak"

    def __init__(self, payload: bytes, refs: Iterable[Any] = ()) -> None:
        self.payload, self.refs = bytes(payload), list(refs)

    def __repr__(self) -> str:
        return f"Contents({self.payload!r}, {self.refs!r})"

    @classmethod
    def of(cls, numbers: Iterable[int] = (), text: Optional[str] = None, refs: Iterable[int] = ()) -> "Contents":
        """A struct of numbers; the text, if there is one, is its pointer 0, and the references are the pointers behind it.

        ValueError if a number does not fit into 64 bits or the text is no UTF-8, Refused with Full if there is too much."""
        return contents_of(cls, list(numbers), text, list(refs))

    def number(self, index: int) -> int:
        """The data word of that index: 0 past the end. Refused with LOVENDAK_NO_SUCH_NUMBER of an index above 32 bits."""
        number = U64()
        ask("number_at", *self._payload(), index, c.byref(number))
        return number.value

    def text(self, pointer: int) -> Optional[str]:
        """The text at that pointer: empty if the pointer is null, and None if something else stands there."""
        out, size = room(len(self.payload)), SIZE()
        code = ask("text_at", *self._payload(), pointer, out, len(out), c.byref(size))
        return None if code else filled(out, size.value).decode()

    def ref(self, *path: int) -> Any:
        """The reference at a path of pointers' numbers, or None."""
        index = SIZE()
        code = ask("ref_at", *self._payload(), numbers("ref_at", U16, path), len(path), c.byref(index))
        return None if code else self.refs[index.value]

    def _payload(self) -> Tuple[bytes, int, int]:
        return self.payload, len(self.payload), len(self.refs)


def contents_of(kind: "type[Contents]", words: List[int], text: Optional[str], refs: List[int]) -> Contents:
    letters, size = (text or "").encode(), SIZE()
    out = room(32 + 8 * (len(words) + len(refs)) + len(letters))
    done(ask("contents", numbers("contents", U64, words), len(words), text is not None, letters, len(letters), len(refs),
             out, len(out), c.byref(size)))
    return kind(filled(out, size.value), refs)


def carried(function: str, contents: Contents) -> Tuple[bytes, int, Any, int]:
    """Contents as the library takes them. TypeError if they are none."""
    if not isinstance(contents, Contents):
        raise TypeError(f"{function}: {contents!r} is no Contents")
    refs = numbers(function, U64, contents.refs)
    return contents.payload, len(contents.payload), refs, len(refs)
