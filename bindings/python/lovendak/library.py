"""The functions of bindings/c/lovendak.h by `ctypes`, with the checks that `ctypes` does not make."""
import ctypes as c
import os
from pathlib import Path
from typing import Any, Dict, Iterable, List, Tuple

from .errors import Refused

ROOM, NOTHING = 103, 104
# The number of the interface that this package speaks, LOVENDAK_INTERFACE in the header.
INTERFACE = 2


class Handle(c.Structure):
    _fields_ = [("magic", c.c_uint32), ("at", c.c_void_p)]


class Told(c.Structure):
    _fields_ = [(name, c.c_uint32) for name in ("kind", "method", "is_exception", "exception", "place")] + [
        (name, c.c_uint64) for name in ("number", "object", "interface_id")] + [
        (name, c.c_size_t) for name in ("payload_len", "refs_len")]


class Led(c.Structure):
    _fields_ = [(name, c.c_uint32) for name in ("kind", "is_embargoed", "is_promise", "reason")] + [("number", c.c_uint64)]


U16, U32, U64, SIZE = c.c_uint16, c.c_uint32, c.c_uint64, c.c_size_t
HANDLE, BYTES, ROOMS, WORDS = c.POINTER(Handle), c.c_char_p, c.POINTER(c.c_char), c.POINTER(U64)
# What each function takes, as the header says it.
TAKES: Dict[str, List[Any]] = {
    "version": [], "new": [HANDLE, U32, U32, U64], "free": [HANDLE], "received": [HANDLE, BYTES, SIZE], "ended": [HANDLE],
    "outgoing": [HANDLE, ROOMS, SIZE, c.POINTER(SIZE)], "pending": [HANDLE, c.POINTER(SIZE), c.POINTER(U32)],
    "load": [HANDLE, WORDS, WORDS], "set_limits": [HANDLE, U64, U64], "set_finishes": [HANDLE, U32],
    "wants_bytes": [HANDLE, c.POINTER(U32)], "next_event": [HANDLE, c.POINTER(Told), ROOMS, SIZE, WORDS, SIZE],
    "leads_to": [HANDLE, U64, c.POINTER(Led)],
    "table_sizes": [HANDLE, c.POINTER(SIZE), c.POINTER(SIZE), c.POINTER(SIZE), c.POINTER(SIZE)], "down": [HANDLE, c.POINTER(U32)],
    "shares_nothing": [HANDLE, c.POINTER(U32)], "calls_made": [HANDLE, U64, WORDS], "bootstrap": [HANDLE, WORDS],
    "result_of": [HANDLE, U64, WORDS], "field": [HANDLE, U64, c.POINTER(U16), SIZE, WORDS], "host": [HANDLE, U64, WORDS],
    "clone_ref": [HANDLE, U64, WORDS], "drop_ref": [HANDLE, U64],
    "call": [HANDLE, U64, U64, U16, BYTES, SIZE, WORDS, SIZE, WORDS], "finish": [HANDLE, U64],
    "answer": [HANDLE, U64, BYTES, SIZE, WORDS, SIZE], "fail": [HANDLE, U64, U32, BYTES, SIZE],
    "promise": [HANDLE, WORDS, WORDS], "resolve": [HANDLE, U64, U64], "reject": [HANDLE, U64, U32, BYTES, SIZE],
    "advance": [HANDLE, U64, c.POINTER(U32)], "shut": [HANDLE, U32],
    "contents": [WORDS, SIZE, U32, BYTES, SIZE, U32, ROOMS, SIZE, c.POINTER(SIZE)],
    "number_at": [BYTES, SIZE, U32, SIZE, WORDS], "text_at": [BYTES, SIZE, U32, U16, ROOMS, SIZE, c.POINTER(SIZE)],
    "ref_at": [BYTES, SIZE, U32, c.POINTER(U16), SIZE, c.POINTER(SIZE)],
}


def shared_library() -> str:
    """The path of the shared library: what `LOVENDAK_SO` names, else one beside this file, else the one that bindings/run builds."""
    here = Path(__file__).resolve().parent
    beside, built = here / "liblovendak.so", here.parents[1] / "build/liblovendak.so"
    return os.environ.get("LOVENDAK_SO") or str(beside if beside.exists() else built)


def opened(path: str) -> c.CDLL:
    """The library, each function with what it takes and answers. ImportError if it can't be opened, or has another interface."""
    try:
        library = c.CDLL(path)
    except OSError as error:
        wanted = "lovendak wants its shared library, which the wheel has, LOVENDAK_SO names, or bindings/run builds"
        raise ImportError(f"{wanted}: {error}") from None
    if library.lovendak_version() != INTERFACE:
        raise ImportError(f"lovendak wants interface {INTERFACE}, and {path} has {library.lovendak_version()}")
    for name, takes in TAKES.items():
        function = getattr(library, f"lovendak_{name}")
        function.argtypes, function.restype = takes, U32
    return library


SO = shared_library()
LIBRARY = opened(SO)
# Of each function the places of its numbers, with their sizes in bits: ctypes would cut off what does not fit.
NUMBERS: Dict[str, List[Tuple[int, int]]] = {
    name: [(at, 8 * c.sizeof(kind)) for at, kind in enumerate(takes) if kind in (U16, U32, U64, SIZE)] for name, takes in TAKES.items()
}


def check_number(function: str, number: Any, bits: int) -> None:
    """TypeError if that is no number; ValueError if it does not fit into as many bits, without a sign."""
    if not isinstance(number, int):
        raise TypeError(f"{function}: {number!r} is no number")
    if number >> bits:
        raise ValueError(f"{function}: {number} is not within 0 .. {(1 << bits) - 1}")


def numbers(function: str, kind: Any, values: Iterable[int]) -> Any:
    """An array of numbers of that kind. TypeError and ValueError as above."""
    values = list(values)
    for value in values:
        check_number(function, value, 8 * c.sizeof(kind))
    return (kind * len(values))(*values)


def room(size: int) -> "c.Array[c.c_char]":
    """Room for as many bytes."""
    return (c.c_char * size)()


def filled(out: "c.Array[c.c_char]", size: int) -> bytes:
    """The first bytes of a room."""
    return bytes(memoryview(out)[:size])


def done(code: int) -> None:
    """Refused, if the code is not 0."""
    if code:
        raise Refused(code)


def ask(function: str, *words: Any) -> int:
    """Calls a function: its code, which is 0, ROOM or NOTHING. Refused with any other code; TypeError and ValueError as above."""
    for at, bits in NUMBERS[function]:
        check_number(function, words[at], bits)
    code: int = getattr(LIBRARY, f"lovendak_{function}")(*words)
    if code not in (ROOM, NOTHING):
        done(code)
    return code
