"""The numbers with which the library answers and a vat goes down, by the names of docs/numbers.md."""
from typing import Dict

# What a command or a function is refused with.
NAMES: Dict[int, str] = {
    1: "Memory", 2: "Full", 3: "Down", 4: "UnknownRef", 5: "UnknownCall", 6: "UnknownTask", 7: "UnknownPromise", 8: "Cycle",
    9: "CapCount", 10: "LongPath", 11: "Level", 100: "LOVENDAK_EMPTY_HANDLE", 101: "LOVENDAK_IN_USE",
    102: "LOVENDAK_NO_PAYLOAD", 103: "LOVENDAK_ROOM", 104: "LOVENDAK_NOTHING", 105: "LOVENDAK_NO_SUCH_NUMBER",
}
REFUSALS: Dict[int, str] = {
    1: "out of memory", 2: "a limit is reached", 3: "the vat is down", 4: "no such reference", 5: "no such call",
    6: "no such task", 7: "no such promise", 8: "the promise would lead to itself",
    9: "the payload's capabilities and the references differ in number", 10: "the path is too long",
    11: "a vat of level 0 has no promises and sends no references", 100: "the handle has no vat",
    101: "the handle has a vat", 102: "these bytes are no payload", 103: "too little room", 104: "there is nothing",
    105: "no such number",
}

# What a vat goes down with, if its application does not shut it.
FAULTS: Dict[int, str] = {
    2: "Short", 3: "TooManySegments", 4: "TooLarge", 5: "Trailing", 6: "OutOfBounds", 7: "BadFar", 8: "BadTag", 9: "BadOther",
    10: "CapIndex", 11: "Depth", 12: "Traversal", 20: "QuestionInUse", 21: "UnknownQuestion", 22: "UnknownExport",
    23: "UnknownAnswer", 24: "OverRelease", 25: "ResolvedTwice", 26: "NotAPromise", 27: "DisembargoNotLoopback",
    28: "UnknownEmbargo", 29: "KindMismatch", 30: "BadPayload", 31: "HeldLimit", 32: "UnimplementedAnswer", 33: "WantOfRoom",
    34: "PeerAbort", 60: "WrongKind", 61: "BadText", 62: "TooManyDescriptors", 63: "NestedUnimplemented", 64: "BadContent",
    65: "UnknownReturn", 66: "NothingToTake", 67: "NoTailCall", 68: "TooManyRefused",
}

FAILED, OVERLOADED, DISCONNECTED, UNIMPLEMENTED = range(4)
# Of exceptions, by their numbers.
KINDS = ("failed", "overloaded", "disconnected", "unimplemented")


class Refused(Exception):
    """The library refused a command, which changed nothing. `code` is that of the header, and `name` its name."""

    __module__ = "lovendak"

    def __init__(self, code: int) -> None:
        super().__init__(code)
        self.code, self.name = code, NAMES.get(code, f"code {code}")

    def __str__(self) -> str:
        return f"{self.name}: {REFUSALS[self.code]}" if self.code in REFUSALS else self.name


class SchemaError(ValueError):
    """What `lovendak.schema` refuses. Its text begins with the path of the field, if there is one: `Room.history.lines[3].text: ..`.

    Itself it is raised if a schema can't be loaded."""

    __module__ = "lovendak.schema"

    def __init__(self, what: str, path: str = "") -> None:
        super().__init__(what, path)
        self.what, self.path = what, path

    def __str__(self) -> str:
        return f"{self.path}: {self.what}" if self.path else self.what

    def within(self, step: str) -> None:
        """Puts a step before the path, on the way out of a value."""
        self.path = step + self.path


class WriteError(SchemaError):
    """A value can't be written."""

    __module__ = "lovendak.schema"


class ReadError(SchemaError):
    """A payload can't be read. `fault` is its number in docs/numbers.md, if the bytes are no payload of the encoding; 60 if they are one,
    and it does not go with the schema."""

    __module__ = "lovendak.schema"

    def __init__(self, what: str, path: str = "", fault: int = 60) -> None:
        super().__init__(what, path)
        self.fault = fault


class Failed(Exception):
    """A call failed; raised by a method, it fails the call of that method. `kind` is one of FAILED, OVERLOADED, DISCONNECTED and
    UNIMPLEMENTED; the last three have classes of their own. As text it is the reason."""

    __module__ = "lovendak.service"
    kind = FAILED


class Overloaded(Failed):
    """There was not enough of something, and a later call may go well."""

    __module__ = "lovendak.service"
    kind = OVERLOADED


class Disconnected(Failed):
    """The connection to something that was needed is gone."""

    __module__ = "lovendak.service"
    kind = DISCONNECTED


class Unimplemented(Failed):
    """There is no such method."""

    __module__ = "lovendak.service"
    kind = UNIMPLEMENTED


def failure(kind: int, reason: str) -> Failed:
    """The exception of that kind."""
    return {it.kind: it for it in (Failed, Overloaded, Disconnected, Unimplemented)}.get(kind, Failed)(reason)


def failure_of(refused: Refused) -> Failed:
    """What a call fails with if its vat refuses a command for it."""
    kind = {1: OVERLOADED, 2: OVERLOADED, 3: DISCONNECTED}.get(refused.code, FAILED)
    return failure(kind, str(refused))
