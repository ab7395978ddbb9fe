"""What an application serves to the peers of its connections."""
from typing import Any, Dict, Mapping, Optional

from .contents import Contents
from .errors import Unimplemented
from .interfaces import Interface, Method
from .remotes import Reference


class Object:
    """What peers call. A subclass has an `interface` of a schema, and for each method that it serves a coroutine of the same name. It is
    given the fields of the parameters by their names, and returns a dict of the results' fields, or None if all have their defaults.

    Methods begin in the order of the calls. A method that raises `Failed` fails its call with that kind and reason; any other
    exception is logged, and fails it too. What a method does not serve fails as `Unimplemented`.

    If nobody has use any more for what a method that is under way gives, or if the connection ends, the method is cancelled as a task of
    asyncio is. `asyncio.shield` keeps from it what has to be done to its end.

    A connection over which an object went keeps it as long as the peer may call it: until the peer has released it, or the connection
    ends. A bootstrap object stays until the connection ends."""

    __module__ = "lovendak.service"
    interface: Interface

    async def dispatch(self, method: Method, params: Dict[str, Any]) -> Optional[Mapping[str, Any]]:
        """Serves a call. An object whose methods have names that are none of Python's, or are those of this class, has its own."""
        act = getattr(self, method.name, None)
        if act is None:
            raise Unimplemented(f"{self.interface.name} has no {method.name} here")
        results: Optional[Mapping[str, Any]] = await act(**params)
        return results

    def gone(self) -> None:
        """A connection does not keep it any more: its peer has released it, or the connection has ended. It is called once each time. A
        method may still be under way. The object may be passed over the connection again."""

    async def _serve(self, interface: int, number: int, params: Contents) -> Contents:
        method = self.interface.find(interface, number)
        if method is None:
            raise Unimplemented(f"{self.interface.name} has no such method")
        return method.results.write(await self.dispatch(method, method.params.read(params)) or {})


class Forward(Object):
    """A capability of another connection. Calls of it are passed on there, in their order."""

    def __init__(self, reference: Reference) -> None:
        self._reference = reference

    async def _serve(self, interface: int, number: int, params: Contents) -> Contents:
        return await self._reference.call(interface, number, params).ended
