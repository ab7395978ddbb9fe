"""What an application has of the peer of a connection: capabilities, and calls of them."""
import asyncio
from typing import TYPE_CHECKING, Any, Awaitable, Callable, Dict, Generator, Mapping, Optional

from .contents import Contents
from .errors import SchemaError
from .interfaces import Interface, Method
from .pointers import AnyType, CapabilityType
from .values import Capability

if TYPE_CHECKING:
    from .connection import Connection


class Reference:
    """A reference of a connection's vat, which is dropped as Python lets go of this."""

    def __init__(self, connection: "Connection", number: int) -> None:
        self.connection, self.number = connection, number

    def __del__(self) -> None:
        self.connection.later(self.drop)

    def drop(self) -> None:
        self.connection.vat.drop_ref(self.number)

    def call(self, interface: int, number: int, contents: Contents) -> "Running":
        """Makes a call, whose contents have objects and remotes for references."""
        return self.connection.call(self, interface, number, contents)


class Remote(Capability):
    """A capability that a peer gave. Each method of its interface is one of it: the parameters are given by their names, and it
    gives a `Call` at once. A call that can't be made raises `Disconnected` if the connection has ended, `Overloaded` if the peer does
    not read or a limit is reached, and `WriteError` if a parameter does not go with the schema.

    It can be written wherever a capability stands, in calls and results of each connection. If that is another connection than its
    own, the calls of the peer there are passed on, with all capabilities in them.

    The reference behind it is dropped as Python lets go of the last Remote that has it."""

    __module__ = "lovendak.service"

    def __init__(self, reference: Reference, interface: Optional[Interface]) -> None:
        self._reference, self._interface = reference, interface

    def __repr__(self) -> str:
        return f"<Remote {self._interface.name if self._interface else 'of no known interface'}>"

    def __getattr__(self, name: str) -> Callable[..., "Call"]:
        try:
            method = self._method(name)
        except KeyError as error:
            raise AttributeError(f"{self!r} has no method {error}") from None
        return lambda **params: Call(self._reference, method, params)

    def call(self, name: str, params: Optional[Mapping[str, Any]] = None) -> "Call":
        """Calls the method of that name, which need not be a name of Python, with a dict of its parameters. KeyError if the interface
        has no such method."""
        return Call(self._reference, self._method(name), params or {})

    def typed(self, interface: Interface) -> "Remote":
        """The same capability with that interface, which its giver need not have: then calls fail as `Unimplemented`."""
        return Remote(self._reference, interface)

    def _method(self, name: str) -> Method:
        if name.startswith("__") or self._interface is None:
            raise KeyError(name)
        return self._interface.method(name)


class Running:
    """An own call of a connection, until it is finished: once it has ended and nobody wants it any more, or as it is cancelled."""

    def __init__(self, connection: "Connection", number: int) -> None:
        self.connection, self.number, self.is_wanted = connection, number, True
        self.ended: "asyncio.Future[Contents]" = connection.loop.create_future()
        self.ended.add_done_callback(self._is_done)

    def _is_done(self, ended: "asyncio.Future[Contents]") -> None:
        if ended.cancelled():
            self.connection.finish(self)
            self.is_wanted = False
        else:
            ended.exception()  # which asyncio would log if nobody awaited the call

    def let_go(self) -> None:
        """Nobody holds the call any more. It goes on, if it has not ended."""
        if self.ended.done() and self.is_wanted:
            self.connection.finish(self)
        self.is_wanted = False

    def end(self, results: Optional[Contents], error: Optional[Exception]) -> None:
        if self.ended.done():
            return
        if error is not None:
            self.ended.set_exception(error)
        elif results is not None:
            self.ended.set_result(results)
        if not self.is_wanted:
            self.connection.finish(self)


class Call(Awaitable[Dict[str, Any]]):
    """A call that was made. `await` gives the fields of its results, as often as it is asked, or raises `Failed`. A task that awaits it
    and is cancelled cancels it.

    It need not be awaited: a call of which nobody holds the `Call` goes on, and nobody hears whether it failed."""

    __module__ = "lovendak.service"

    def __init__(self, reference: Reference, method: Method, params: Mapping[str, Any]) -> None:
        self._method = method
        self._running = reference.call(method.interface, method.number, method.params.write(params))

    def __del__(self) -> None:
        if "_running" in vars(self):
            self._running.connection.later(self._running.let_go)

    def __repr__(self) -> str:
        return f"<Call of {self._method.name}, {'ended' if self.done() else 'under way'}>"

    def __await__(self) -> Generator[Any, None, Dict[str, Any]]:
        contents = yield from self._running.ended.__await__()
        return self._method.results.read(contents)

    def at(self, *names: str) -> Remote:
        """The capability that the results have, or will have, in the field of that name; of several names each is a field of the struct
        before it. It can be called and passed on at once. What is called fails if the call fails, or has no capability there.

        SchemaError if no capability can stand there, `Failed` if the call was cancelled."""
        path, kind = self._method.results.path(*names)
        if not isinstance(kind, (CapabilityType, AnyType)):
            raise SchemaError(f"{kind.name} is no capability", f"{self._method.results.name}.{'.'.join(names)}")
        reference = self._running.connection.field(self._running, path)
        return Remote(reference, kind.interface if isinstance(kind, CapabilityType) else None)

    def done(self) -> bool:
        """Whether it has ended or was cancelled."""
        return self._running.ended.done()

    def cancel(self) -> bool:
        """Its results are not wanted any more. Whoever awaits it gets `asyncio.CancelledError`; capabilities that `at` gave stay. False,
        and nothing is done, if it has ended."""
        return self._running.ended.cancel()
