"""A vat, and what it tells its application."""
import ctypes as c
import threading
from typing import Any, Iterator, Optional, Tuple

from .contents import Contents, carried
from .errors import FAULTS, KINDS
from .library import LIBRARY, NOTHING, ROOM, SIZE, U16, U32, U64, Handle, Led, Told, ask, done, filled, numbers, room
from .places import Lead, Place, TableSizes, lead_of

SERVED, ENDED, DOWN, RELEASED, CANCELLED, RESOLVED, LIFTED = 1, 2, 3, 4, 5, 6, 7


class Event:
    """What an application is told. `kind` says which fields there are:

    - SERVED, a call to serve: `task`, `object`, `interface`, `method`, `contents`.
    - ENDED, an own call that ended: `call`, and `contents`, or `exception`, which is a pair of its kind and its reason.
    - CANCELLED, nobody has use for the results of a call of the peer any more: its `task`. The peer has finished it, no call waits for
      its results, and no reference leads to a part of them. Stop the work on it, and answer or fail it all the same; what it is answered
      with goes nowhere. It comes behind all other events of a vat that is up but RELEASED, once, and not of a task that was answered.
    - RELEASED, nothing in the vat names an object any more that was hosted, no reference and nothing that the peer has: `object`. No call
      for it comes until it is hosted again, so its application may let go of it. A task of it may still be open. It comes behind all
      other events of a vat that is up. If the object is hosted again while the event waits, it is not told; the bootstrap object is never
      released.
    - RESOLVED, what stands at a place of the peer is known: `place`, which is `Place.IMPORT` or `Place.ANSWER`, and its `number`. A
      reference that leads there may lead on: `advance` it.
    - LIFTED, the embargo of a reference is over: `ref`. Its calls wait no more.
    - DOWN, the vat went down: `number`, and `fault`, its name in docs/numbers.md, or None if it has none; and `reason`, that of the
      Abort by which the peer ended it, or an empty text. Before it each own call that was open ends, with an exception of the kind
      DISCONNECTED."""

    __module__ = "lovendak"
    kind: int
    task: int
    object: int
    interface: int
    method: int
    call: int
    ref: int
    place: Place
    number: int
    fault: Optional[str]
    reason: str
    contents: Optional[Contents] = None
    exception: Optional[Tuple[int, str]] = None

    def __init__(self, told: Told, payload: bytes, refs: "list[int]") -> None:
        self.kind = told.kind
        if told.kind == SERVED:
            self.task, self.object, self.interface, self.method = told.number, told.object, told.interface_id, told.method
            self.contents = Contents(payload, refs)
        elif told.kind == ENDED:
            self.call = told.number
            if told.is_exception:
                self.exception = told.exception, payload.decode(errors="replace")
            else:
                self.contents = Contents(payload, refs)
        elif told.kind == DOWN:
            self.number, self.fault, self.reason = told.number, FAULTS.get(told.number), payload.decode(errors="replace")
        elif told.kind == CANCELLED:
            self.task = told.number
        elif told.kind == RELEASED:
            self.object = told.object
        elif told.kind == RESOLVED:
            self.place, self.number = Place(told.place), told.number
        elif told.kind == LIFTED:
            self.ref = told.number

    def __repr__(self) -> str:
        if self.kind == DOWN:
            return f"<down with {self.number}{f', {self.fault}' if self.fault else ''}{f': {self.reason}' if self.reason else ''}>"
        if self.kind == SERVED:
            return f"<task {self.task}: method {self.method} of {self.interface:#x} of object {self.object}>"
        if self.kind == CANCELLED:
            return f"<task {self.task} is cancelled>"
        if self.kind == RELEASED:
            return f"<object {self.object} is released>"
        if self.kind == RESOLVED:
            return f"<{'import' if self.place is Place.IMPORT else 'the answer to question'} {self.number} is known>"
        if self.kind == LIFTED:
            return f"<the embargo of reference {self.ref} is over>"
        if self.exception:
            return f"<call {self.call} ended: {KINDS[self.exception[0]]}: {self.exception[1]}>"
        return f"<call {self.call} ended with contents>"


class Vat:
    """A vat that speaks with one peer. With `root`, the object of that number is its bootstrap object. `level` is 0 or 1.

    References, calls, tasks and promises are numbers of this vat. References are to be dropped, calls to be finished, tasks to be
    answered or failed, promises to be resolved or rejected.

    A command that is refused raises Refused, and changes nothing. A number that is out of range raises ValueError, and what is no
    number, or no Contents, TypeError.

    Any thread may use a vat: a lock of its own lets one in at a time, and two vats don't wait for each other."""

    __module__ = "lovendak"

    def __init__(self, root: Optional[int] = None, level: int = 1) -> None:
        self._lock = threading.RLock()
        self._payload, self._refs = room(4096), (U64 * 16)()
        handle = Handle()
        self._at = c.byref(handle)
        done(ask("new", self._at, level, root is not None, root or 0))

    def __del__(self, free: Any = LIBRARY.lovendak_free) -> None:
        if "_at" in vars(self):
            free(self._at)

    def received(self, data: bytes) -> None:
        """Takes bytes from the peer, in any pieces. A fault in them takes the vat down, which is an event."""
        data = bytes(memoryview(data))
        self._asked("received", data, len(data))

    def ended(self) -> None:
        """The peer's stream has ended: the vat goes down."""
        self._asked("ended")

    def outgoing(self, most: Optional[int] = None) -> bytes:
        """The bytes that are to be sent, each once: all of them, or the first `most`."""
        said = bytearray()
        with self._lock:
            while (size := self._piece(most, len(said))) > 0:
                out, got = room(size), SIZE()
                self._asked("outgoing", out, size, c.byref(got))
                said += filled(out, got.value)
        return bytes(said)

    def _piece(self, most: Optional[int], have: int) -> int:
        size = self.pending()[0]
        return size if most is None else min(size, most - have)

    def pending(self) -> Tuple[int, bool]:
        """How many bytes there are to be sent, and whether there is an event. No bytes and no event are taken out. Before, messages of
        the peer that wait are heard, as far as the limits allow, and queued messages become frames. What was said since a part of the
        bytes was taken may not be counted yet, but there are 0 only if none are to be sent."""
        size, has_event = SIZE(), U32()
        self._asked("pending", c.byref(size), c.byref(has_event))
        return size.value, has_event.value == 1

    def load(self) -> Tuple[int, int]:
        """How much is held of the peer: the words of the messages of calls for which no Return was said, and of other messages until
        `events` was at its end; and the bytes that wait to be sent."""
        words, size = U64(), U64()
        self._asked("load", c.byref(words), c.byref(size))
        return words.value, size.value

    def set_limits(self, words: int, size: int) -> None:
        """Sets limits of the load: while its words, or the bytes that wait in the vat, are above, messages of the peer wait unheard, in
        their order. A new vat has no limits. Limits that are too low for what two applications ask of each other at a time stop both."""
        self._asked("set_limits", words, size)

    def set_finishes(self, after_return: bool) -> None:
        """When the Finish goes of a call that goes out from now on, if the call is finished before its Return came: behind its Return, or
        at once, as from the beginning. Calls that went out before stay as they were. The first is for a peer that sends no Return for a
        call of which it heard the Finish before, as the Rust crate `capnp-rpc`. With another peer a call that is let go runs to its end
        there."""
        self._asked("set_finishes", int(bool(after_return)))

    def wants_bytes(self) -> bool:
        """Whether more bytes of the peer would be heard. If not, there are events to take, bytes to send or calls to answer, or the vat
        is down, and what comes only waits: read no more of the peer meanwhile."""
        answer = U32()
        self._asked("wants_bytes", c.byref(answer))
        return answer.value == 1

    def events(self) -> Iterator[Event]:
        """What there is to tell, until there is no more. The events of one command or message come behind those of earlier ones: first
        calls to serve, then own calls that ended, then what it made known. Behind them all come the tasks that are cancelled, then the
        objects that are released, and of a vat that is down at last that it is."""
        while (event := self._next()) is not None:
            yield event

    def _next(self) -> Optional[Event]:
        told = Told()
        with self._lock:
            while True:
                payload, refs = self._payload, self._refs
                code = self._asked("next_event", c.byref(told), payload, len(payload), refs, len(refs))
                if code == NOTHING:
                    return None
                if code != ROOM:
                    return Event(told, filled(payload, told.payload_len), refs[:told.refs_len])
                self._payload = room(max(told.payload_len, len(payload)))
                self._refs = (U64 * max(told.refs_len, len(refs)))()

    def down(self) -> Optional[int]:
        """The number with which the vat went down, or None."""
        number = U32()
        return None if self._asked("down", c.byref(number)) else number.value

    def shares_nothing(self) -> bool:
        """Whether nothing is left between the two vats."""
        answer = U32()
        self._asked("shares_nothing", c.byref(answer))
        return answer.value == 1

    def table_sizes(self) -> TableSizes:
        """How many questions, answers, exports and imports there are between the two vats."""
        sizes = [SIZE() for _ in TableSizes._fields]
        self._asked("table_sizes", *map(c.byref, sizes))
        return TableSizes(*(size.value for size in sizes))

    def leads_to(self, ref: int) -> Lead:
        """Where calls through a reference go. The work grows with the links on the way; `advance` makes the way short."""
        led = Led()
        self._asked("leads_to", ref, c.byref(led))
        return lead_of(led)

    def calls_made(self, ref: int) -> int:
        """How many calls were made through a reference."""
        return self._given("calls_made", ref)

    def bootstrap(self) -> int:
        """Asks the peer for its bootstrap object: the number of a call, whose result is that object."""
        return self._given("bootstrap")

    def result_of(self, call: int) -> int:
        """A reference to what a call gives, now or later."""
        return self._given("result_of", call)

    def field(self, call: int, *path: int) -> int:
        """A reference to what stands in a call's results at a path of pointers' numbers, now or later."""
        return self._given("field", call, numbers("field", U16, path), len(path))

    def host(self, number: int) -> int:
        """A reference to an object of the application, which knows it by that number. It may be hosted again, and again after it was
        released. If RELEASED of it waits to be told, it is told no more."""
        return self._given("host", number)

    def clone_ref(self, ref: int) -> int:
        """A second reference to the same."""
        return self._given("clone_ref", ref)

    def drop_ref(self, *refs: int) -> None:
        """Lets references go."""
        for ref in refs:
            self._asked("drop_ref", ref)

    def call(self, ref: int, interface: int, method: int, contents: Contents) -> int:
        """Makes a call: its number. The references of the contents stay the caller's."""
        return self._given("call", ref, interface, method, *carried("call", contents))

    def finish(self, call: int) -> None:
        """The application has no more use for a call, which need not have ended."""
        self._asked("finish", call)

    def answer(self, task: int, contents: Contents) -> None:
        """Gives a task its results. The references of the contents stay the caller's."""
        self._asked("answer", task, *carried("answer", contents))

    def fail(self, task: int, kind: int, reason: str) -> None:
        """Gives a task an exception: FAILED, OVERLOADED, DISCONNECTED or UNIMPLEMENTED."""
        letters = reason.encode()
        self._asked("fail", task, kind, letters, len(letters))

    def promise(self) -> Tuple[int, int]:
        """Makes a promise: its number, and that of a reference to it."""
        promise = U64()
        ref = self._given("promise", c.byref(promise))
        return promise.value, ref

    def resolve(self, promise: int, ref: int) -> None:
        """Settles a promise to what a reference leads to."""
        self._asked("resolve", promise, ref)

    def reject(self, promise: int, kind: int, reason: str) -> None:
        """Breaks a promise, with an exception as `fail` takes it."""
        letters = reason.encode()
        self._asked("reject", promise, kind, letters, len(letters))

    def advance(self, ref: int) -> int:
        """Lets a reference take the shorter path, if one is known: 0 nothing, 1 switched, 2 embargoed, 3 broke."""
        advanced = U32()
        self._asked("advance", ref, c.byref(advanced))
        return advanced.value

    def shut(self, number: int) -> None:
        """Takes the vat down with a number up to 65,535."""
        self._asked("shut", number)

    def _asked(self, function: str, *words: Any) -> int:
        with self._lock:
            return ask(function, self._at, *words)

    def _given(self, function: str, *words: Any) -> int:
        number = U64()
        self._asked(function, *words, c.byref(number))
        return number.value
