"""A vat for Cap'n Proto RPC, without input or output of its own, by the C interface of bindings/c/lovendak.h.

`LOVENDAK_SO` names the shared library; else it is the `liblovendak.so` beside this file, or in bindings/build. `lovendak.schema`
writes and reads contents by the names of a schema, and `lovendak.service` has objects and calls over connections of `asyncio`.

Two vats in one process, of which one calls an object of the other that doubles numbers:

>>> client, server = Vat(), Vat(root=0)
>>> asked = client.bootstrap()
>>> doubler = client.result_of(asked)
>>> call = client.call(doubler, 7, 0, Contents.of([21], "twice", [doubler]))  # before the first answer has come
>>> client.pending()[0] > 0
True
>>> server.received(client.outgoing(100))  # the first hundred bytes
>>> server.received(client.outgoing())
>>> server.pending()[1]
True
>>> [served] = server.events()
>>> served.object, served.interface, served.method, served.contents.number(0), served.contents.text(0)
(0, 7, 0, 21, 'twice')
>>> server.answer(served.task, Contents.of([2 * served.contents.number(0)], refs=[served.contents.ref(1)]))
>>> server.drop_ref(*served.contents.refs)
>>> client.received(server.outgoing())
>>> ended = {event.call: event.contents for event in client.events() if event.kind == ENDED}
>>> ended[call].number(0)
42
>>> for call, contents in ended.items():
...     client.drop_ref(*contents.refs)
...     client.finish(call)
>>> client.drop_ref(doubler)
>>> server.received(client.outgoing())
>>> client.shares_nothing(), server.shares_nothing()
(True, True)

An object that an application hosts is released once nothing names it any more, here or at the peer:

>>> ref = client.host(1)
>>> client.leads_to(ref)
Lead(place=<Place.OWN: 1>, number=1, is_promise=False, is_embargoed=False, reason=None)
>>> client.drop_ref(ref)
>>> list(client.events())
[<object 1 is released>]

A command that is refused raises Refused, with the name of its code. Numbers that are out of range raise ValueError:

>>> client.drop_ref(doubler)
Traceback (most recent call last):
lovendak.Refused: UnknownRef: no such reference
>>> client.call(client.host(1), 7, 70000, Contents.of())
Traceback (most recent call last):
ValueError: call: 70000 is not within 0 .. 65535

A vat that goes down says why:

>>> server.received(b"no message of Cap'n Proto")
>>> list(server.events())
[<down with 3, TooManySegments>]
"""
from .contents import Contents, carried
from .errors import DISCONNECTED, FAILED, FAULTS, KINDS, NAMES, OVERLOADED, REFUSALS, UNIMPLEMENTED, Refused
from .library import LIBRARY, NOTHING, ROOM, SO, TAKES, Handle, Told, ask, done
from .places import Broken, Lead, Place, TableSizes
from .vat import CANCELLED, DOWN, ENDED, LIFTED, RELEASED, RESOLVED, SERVED, Event, Vat

__version__ = "0.1.0"
__all__ = [
    "CANCELLED", "DISCONNECTED", "DOWN", "ENDED", "FAILED", "FAULTS", "KINDS", "LIBRARY", "LIFTED", "NAMES", "NOTHING", "OVERLOADED",
    "REFUSALS", "RELEASED", "RESOLVED", "ROOM", "SERVED", "SO", "TAKES", "UNIMPLEMENTED", "Broken", "Contents", "Event", "Handle", "Lead",
    "Place", "Refused", "TableSizes", "Told", "Vat", "ask", "carried", "done",
]
