"""A connection with a peer, as a protocol of asyncio."""
import asyncio
import collections
import contextlib
import itertools
import logging
import threading
from functools import partial
from inspect import isawaitable
from reprlib import repr as shown
from typing import Any, Awaitable, Callable, Deque, Dict, Iterable, Iterator, List, Optional, Sequence, Set, Tuple

from .contents import Contents
from .errors import FAILED, Disconnected, Failed, Overloaded, Refused, WriteError, failure, failure_of
from .interfaces import Interface
from .objects import Forward, Object
from .remotes import Reference, Remote, Running
from .vat import CANCELLED, DOWN, ENDED, RELEASED, SERVED, Event, Vat

# The number of the bootstrap object.
ROOT = 0
# How many bytes wait for a peer that does not read, before calls to it are refused.
MOST_WAITING = 1 << 24
# The most of a reason's text that is sent.
MOST_REASON = 10_000
LOG = logging.getLogger("lovendak")


class Connection(asyncio.Protocol):
    """A connection with a peer over a transport of asyncio: `connect` and `serve` make them over TCP, and `create_connection`,
    `create_unix_server` and their like over anything else. It belongs to the loop in which it is made, and so do all that it gives.

    `root` is the object that the peer gets by its bootstrap. With `holds_back` it reads no further while the peer does not read: a
    server should, and of two peers at most one, since else each could wait for the other. `limits` are those of `Vat.set_limits`: the
    words of calls that are not answered, and the bytes that wait in the vat. While one of them is exceeded, it reads no further either,
    and does not see that the peer ends the stream."""

    __module__ = "lovendak.service"

    def __init__(self, root: Optional[Object] = None, holds_back: bool = False, limits: Optional[Tuple[int, int]] = None) -> None:
        self.loop = asyncio.get_running_loop()
        self._thread = threading.get_ident()
        self._holds_back = holds_back
        self._transport: Any = None
        self._may_write = asyncio.Event()
        self._may_write.set()
        self._closed: "asyncio.Future[None]" = self.loop.create_future()
        self._calls: Dict[int, Running] = {}
        self._serving: Dict[int, "asyncio.Task[None]"] = {}
        self._promised: Set["asyncio.Future[Any]"] = set()
        self._objects: Dict[int, Tuple[Any, Object]] = {}
        self._numbers: Dict[int, int] = {}
        self._next_number = itertools.count(ROOT + 1)
        self._later: Deque[Callable[[], None]] = collections.deque()
        self._is_due = False
        if root is not None:
            self._add(ROOT, root, root)
        self.vat = Vat(root=None if root is None else ROOT)
        self._limits = limits
        if limits is not None:
            self.vat.set_limits(*limits)

    def bootstrap(self, interface: Optional[Interface] = None) -> Remote:
        """The peer's bootstrap object, which can be called at once. Calls fail if the peer has none. `Disconnected` if the connection
        has ended."""
        with self._refusing():
            running = self._begun(self.vat.bootstrap())
            reference = Reference(self, self.vat.result_of(running.number))
        running.let_go()
        return Remote(reference, interface)

    def set_finishes(self, after_return: bool) -> None:
        """When the Finish goes of a call that goes out from now on and is cancelled before it has ended: behind its Return, or at once, as
        from the beginning. `Vat.set_finishes` says which peers want it behind."""
        self.vat.set_finishes(after_return)

    def close(self) -> None:
        """Ends the connection, once what was said before is written. Calls that are open fail as `Disconnected`."""
        if self._transport is not None:
            self._work()
            self._transport.close()

    async def wait_closed(self) -> None:
        """Waits until the connection has ended, on whichever side."""
        await asyncio.shield(self._closed)

    async def drain(self) -> None:
        """Waits until the peer has read so much that more should be sent. `Disconnected` if the connection has ended or ends before."""
        await self._may_write.wait()
        if self._closed.done():
            raise Disconnected("the connection has ended")

    async def __aenter__(self) -> "Connection":
        return self

    async def __aexit__(self, *_: Any) -> None:
        self.close()
        await self.wait_closed()

    # What a transport calls.

    def connection_made(self, transport: Any) -> None:
        self._transport = transport
        self._soon()

    def data_received(self, data: bytes) -> None:
        self.vat.received(data)
        self._work()

    def connection_lost(self, error: Optional[Exception]) -> None:
        self.vat.ended()
        self._work()
        self._may_write.set()
        self._closed.set_result(None)

    def pause_writing(self) -> None:
        self._may_write.clear()
        self._choose_reading()

    def resume_writing(self) -> None:
        self._may_write.set()
        self._choose_reading()

    def _choose_reading(self) -> None:
        is_read = self._may_write.is_set() or not self._holds_back
        if is_read and (self._limits is None or self.vat.wants_bytes()):
            self._transport.resume_reading()
        else:
            self._transport.pause_reading()

    # What remotes and calls ask for.

    def later(self, act: Callable[[], None]) -> None:
        """Has something given back to the vat in the loop. Any thread may ask for it, as the collector of Python does."""
        self._later.append(act)
        with contextlib.suppress(RuntimeError):  # a loop that is closed
            if threading.get_ident() == self._thread:
                self._soon()
            else:
                self.loop.call_soon_threadsafe(self._soon)

    def call(self, reference: Reference, interface: int, number: int, contents: Contents) -> Running:
        """`Overloaded` if the peer does not read or a limit is reached, `Disconnected` if the connection has ended."""
        if self._transport is not None and self._transport.get_write_buffer_size() > MOST_WAITING:
            raise Overloaded("the peer does not read")
        with self._lent(contents.refs) as refs, self._refusing():
            running = self._begun(self.vat.call(reference.number, interface, number, Contents(contents.payload, refs)))
        self._soon()
        return running

    def field(self, running: Running, path: Sequence[int]) -> Reference:
        with self._refusing():
            return Reference(self, self.vat.field(running.number, *path))

    def finish(self, running: Running) -> None:
        """The call has to be one that was not finished."""
        self._calls.pop(running.number, None)
        with contextlib.suppress(Refused):  # a vat that is down
            self.vat.finish(running.number)
        self._soon()

    def _begun(self, number: int) -> Running:
        running = self._calls[number] = Running(self, number)
        self._soon()
        return running

    # What is done in the loop.

    def _soon(self) -> None:
        """A command may leave bytes and events, which are looked for once this turn of the loop is over."""
        if not self._is_due and self._transport is not None:
            self._is_due = True
            self.loop.call_soon(self._work)

    def _work(self) -> None:
        self._is_due = False
        self._give_back()
        while True:
            for event in self.vat.events():
                self._hear(event)
            said = self.vat.outgoing()
            if said and not self._transport.is_closing():
                self._transport.write(said)
            if not said and not self._goes_on():
                break
        if self.vat.down() is not None:
            self._transport.close()
        elif self._limits is not None:
            self._choose_reading()

    def _goes_on(self) -> bool:
        """Whether there is more to be told or sent, or messages that waited are heard when the vat is asked again. They are heard as bytes
        are asked for, and once all events were told."""
        if any(self.vat.pending()):
            return True
        if self._limits is None or self.vat.down() is not None or self.vat.wants_bytes():
            return False
        return all(held <= most for held, most in zip(self.vat.load(), self._limits))

    def _give_back(self) -> None:
        while self._later:
            with contextlib.suppress(Refused):  # a vat that is down
                self._later.popleft()()

    def _hear(self, event: Event) -> None:
        if event.kind == DOWN:
            for number in list(self._objects):
                self._forget(number)
            for task in self._serving.values():
                task.cancel()
            return
        if event.kind == RELEASED:
            self._forget(event.object)
        elif event.kind == CANCELLED and (serving := self._serving.get(event.task)) is not None:
            serving.cancel()
        contents = event.contents and Contents(event.contents.payload, [Remote(Reference(self, ref), None) for ref in event.contents.refs])
        if event.kind == SERVED:
            assert contents is not None
            self._begin(event, contents)
        elif event.kind == ENDED and (running := self._calls.pop(event.call, None)) is not None:
            running.end(contents, event.exception and failure(*event.exception))

    def _begin(self, event: Event, params: Contents) -> None:
        """Begins to serve a call. Its object is there, since none is called that was not hosted after its release was told."""
        _, target = self._objects[event.object]
        serving = self._serving[event.task] = self.loop.create_task(self._serve(target, event, params))
        serving.add_done_callback(partial(self._served, event.task))

    def _served(self, task: int, serving: "asyncio.Task[None]") -> None:
        """A method has ended. One that was cancelled may not even have begun."""
        self._serving.pop(task)
        if serving.cancelled():
            self._fail(task, FAILED, "cancelled")

    async def _serve(self, target: Object, event: Event, params: Contents) -> None:
        task = event.task
        try:
            results = await target._serve(event.interface, event.method, params)
            with self._lent(results.refs) as refs, self._refusing():
                self.vat.answer(task, Contents(results.payload, refs))
        except Failed as failed:
            self._fail(task, failed.kind, str(failed))
        except Exception as error:
            LOG.exception("a method failed")
            self._fail(task, FAILED, f"{type(error).__name__}: {error}")
        self._soon()

    def _fail(self, task: int, kind: int, reason: str) -> None:
        with contextlib.suppress(Refused):  # a vat that is down
            self.vat.fail(task, kind, sendable(reason))
        self._soon()

    @contextlib.contextmanager
    def _refusing(self) -> Iterator[None]:
        """A refusal of the vat becomes what a call fails with."""
        try:
            yield
        except Refused as refused:
            raise failure_of(refused) from None

    # References for what an application passes.

    @contextlib.contextmanager
    def _lent(self, given: Iterable[Any]) -> Iterator[List[int]]:
        """References to these, as long as the vat needs them."""
        refs: List[int] = []
        try:
            for it in given:
                with self._refusing():
                    refs.append(self._ref(it))
            yield refs
        finally:
            with contextlib.suppress(Refused):  # a vat that is down
                self.vat.drop_ref(*refs)

    def _ref(self, given: Any) -> int:
        if isinstance(given, Remote):
            reference = given._reference
            if reference.connection is self:
                return self.vat.clone_ref(reference.number)
            return self._hosted(reference, Forward(reference))
        if isinstance(given, Object):
            return self._hosted(given, given)
        if isawaitable(given):
            return self._promise(given)
        raise WriteError(f"{shown(given)} is no Object or Remote, and no awaitable of one")

    def _hosted(self, key: Any, target: Object) -> int:
        """A reference to an object. The vat knows it by one number for each key, which is the object or what it stands for, from when it is
        hosted until it is released."""
        if (number := self._numbers.get(id(key))) is not None:
            return self.vat.host(number)
        ref = self.vat.host(next_number := next(self._next_number))
        self._add(next_number, key, target)
        return ref

    def _add(self, number: int, key: Any, target: Object) -> None:
        self._numbers[id(key)] = number
        self._objects[number] = key, target

    def _forget(self, number: int) -> None:
        """Nobody can call an object any more."""
        key, target = self._objects.pop(number)
        del self._numbers[id(key)]
        try:
            target.gone()
        except Exception:
            LOG.exception("an object could not be told that it is gone")

    def _promise(self, given: Awaitable[Any]) -> int:
        promise, ref = self.vat.promise()
        settled = asyncio.ensure_future(given)
        self._promised.add(settled)  # a task that nobody holds may be collected
        settled.add_done_callback(partial(self._settle, promise))
        return ref

    def _settle(self, promise: int, settled: "asyncio.Future[Any]") -> None:
        self._promised.discard(settled)
        try:
            with self._lent([settled.result()]) as [ref], self._refusing():
                self.vat.resolve(promise, ref)
        except (Exception, asyncio.CancelledError) as error:
            with contextlib.suppress(Refused):  # a vat that is down
                self.vat.reject(promise, getattr(error, "kind", FAILED), sendable(str(error) or type(error).__name__))
        self._soon()


def sendable(reason: str) -> str:
    """A reason as a vat takes it: short, and UTF-8."""
    return reason[:MOST_REASON].encode(errors="replace").decode()
