"""Objects over connections, with asyncio: a peer's methods are called as coroutines, and own ones are served.

`chat.capnp` has an interface Hall, by whose `join` a listener gets a Room. A server is what its methods do:

>>> chat = schema.load("chat.capnp")
>>> class Room(Object):
...     interface = chat["Room"]
...     async def post(self, text, urgent):
...         return {"reached": len(text)}
>>> class Hall(Object):
...     interface = chat["Hall"]
...     async def join(self, name, listener):
...         if not name:
...             raise Failed("a name is wanted")
...         await listener.heard(text=f"welcome, {name}")
...         return {"room": Room()}

A client calls it, and serves an object too, since it passes one:

>>> class Listener(Object):
...     interface = chat["Listener"]
...     async def heard(self, name, text, reply):
...         print(text)
>>> async def talk(port):
...     async with await connect("127.0.0.1", port) as connection:
...         hall = connection.bootstrap(chat["Hall"])
...         joined = hall.join(name="ann", listener=Listener())
...         posted = joined.at("room").post(text="hello")  # before the first answer has come
...         print((await posted)["reached"])
...         room = (await joined)["room"]
...         print(await room.post(text="hello again"))
...         try:
...             await hall.join()
...         except Failed as failed:
...             print("it failed:", failed)
>>> async def main():
...     hall = Hall()
...     server = await serve(lambda: hall, "127.0.0.1", 0)
...     async with server:
...         await talk(server.sockets[0].getsockname()[1])
>>> asyncio.run(main())
welcome, ann
5
{'reached': 11}
it failed: a name is wanted

A capability of one connection may be passed over another: calls are forwarded. An awaitable of one may be passed too, as a promise:
calls of it wait until it has its result.

A connection keeps an object as long as its peer may call it. When the peer has released it, the connection lets it go, and tells it by
`gone`.

When a connection ends, its calls raise `Disconnected`, and so do later ones. To connect again is the application's choice: it calls
`connect`, and asks for a bootstrap object anew.
"""
import asyncio
from typing import Any, Callable, Optional, Tuple

from . import schema
from .connection import Connection
from .errors import Disconnected, Failed, Overloaded, Unimplemented
from .objects import Object
from .remotes import Call, Remote

__all__ = [
    "Call", "Connection", "Disconnected", "Failed", "Object", "Overloaded", "Remote", "Unimplemented", "connect", "serve",
]


async def connect(host: str, port: int, root: Optional[Object] = None, **more: Any) -> Connection:
    """A connection over TCP. `root` is what the peer gets by its bootstrap, if it asks for it. `more` goes to `create_connection` of the
    loop, as `ssl` does. OSError if nobody listens there."""
    _, connection = await asyncio.get_running_loop().create_connection(lambda: Connection(root), host, port, **more)
    return connection


async def serve(root: Callable[[], Object], host: str, port: int, limits: Optional[Tuple[int, int]] = None,
                **more: Any) -> asyncio.AbstractServer:
    """A server over TCP, which accepts connections from then on: `await server.serve_forever()`. The function gives each connection its
    bootstrap object, and each has these limits, as `Connection` takes them. `more` goes to `create_server` of the loop. OSError if the
    address is taken."""
    return await asyncio.get_running_loop().create_server(lambda: Connection(root(), True, limits), host, port, **more)
