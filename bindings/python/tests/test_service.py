"""`lovendak.service`: its documentation, and objects and calls over connections in one process."""
import asyncio
import contextlib
import doctest
import gc
import logging
import os
import socket
import unittest
import weakref
from pathlib import Path
from unittest import mock

import lovendak.service
from lovendak import DISCONNECTED, ENDED, OVERLOADED, Contents, Vat, schema
from lovendak.connection import Connection
from lovendak.errors import SchemaError, WriteError
from lovendak.service import Disconnected, Failed, Object, Overloaded, Unimplemented, connect, serve

HERE = Path(__file__).resolve().parent
DESK = schema.load(HERE / "desk.capnp")["Desk"]


def load_tests(_loader, tests, _pattern):
    before, names = os.getcwd(), {"schema": schema, "asyncio": asyncio}
    documented = doctest.DocTestSuite(lovendak.service, setUp=lambda _: os.chdir(HERE), tearDown=lambda _: os.chdir(before), extraglobs=names)
    tests.addTests(documented)
    return tests


class Desk(Object):
    """It keeps what it was told, and is told of what is gone."""

    interface = DESK

    def __init__(self):
        self.pinged, self.is_gone, self.waiting, self.cancelled, self.given = 0, 0, {}, [], None

    async def ping(self):
        self.pinged += 1

    async def echo(self, data):
        return {"data": data}

    async def keep(self, desk):
        return {"kept": {"desk": desk, "group": {"other": desk, "number": 7}}}

    async def ask(self, desk, data):
        return {"data": (await desk.echo(data=data))["data"]}

    async def later(self):
        self.given = asyncio.get_running_loop().create_future()
        return {"desk": self.given}

    async def wait(self, number):
        done = self.waiting[number] = asyncio.get_running_loop().create_future()
        try:
            return {"number": await done}
        except asyncio.CancelledError:
            self.cancelled.append(number)
            raise

    async def fail(self, how):
        if how == "overloaded":
            raise Overloaded("busy")
        if how == "large":
            return {"text": "no such field"}
        if how == "cancelled":
            raise asyncio.CancelledError
        raise ValueError(how)

    async def dispatch(self, method, params):
        if method.name == "import":
            return {"to": params["from"]}
        return await super().dispatch(method, params)

    async def any(self):
        return {"any": self}

    def gone(self):
        self.is_gone += 1


async def until(is_so):
    """Waits until it is so, of which nothing else tells."""
    end = asyncio.get_running_loop().time() + 120
    while not is_so():
        if asyncio.get_running_loop().time() > end:
            raise AssertionError("it did not come to pass")
        await asyncio.sleep(0.002)


class Service(unittest.IsolatedAsyncioTestCase):
    async def asyncSetUp(self):
        asyncio.get_running_loop().set_debug(False)  # with which a thousand calls take ten times as long
        self.root, self.stack = Desk(), contextlib.AsyncExitStack()
        self.served = []
        self.port, self.connection = await self.over(self.root)
        self.desk = self.connection.bootstrap(DESK)

    async def asyncTearDown(self):
        await self.stack.aclose()

    async def over(self, root, own=None, limits=None):
        """A server with that root and these limits, and a connection with it."""
        loop = asyncio.get_running_loop()

        def accept():
            self.served.append(Connection(root, True, limits))
            return self.served[-1]

        server = await loop.create_server(accept, "127.0.0.1", 0)
        self.stack.callback(server.close)
        port = server.sockets[0].getsockname()[1]
        return port, await self.stack.enter_async_context(await connect("127.0.0.1", port, own))

    async def raises(self, kind, text, awaitable):
        with self.assertRaises(kind) as raised:
            await awaitable
        self.assertEqual((str(raised.exception), type(raised.exception)), (text, kind))


class Calls(Service):
    async def test_values_and_superclasses(self):
        call = self.desk.echo(data=b"abc")
        self.assertEqual(repr(call), "<Call of echo, under way>")
        self.assertEqual(await call, {"data": b"abc"})
        self.assertEqual(await call, {"data": b"abc"})
        self.assertEqual((repr(call), repr(self.desk)), ("<Call of echo, ended>", "<Remote Desk>"))
        self.assertEqual(await self.desk.ping(), {})
        self.assertEqual(self.root.pinged, 1)
        self.assertEqual(await self.desk.call("import", {"from": 5}), {"to": 5})

    async def test_pipelining(self):
        """All of it is said before the first answer."""
        kept = self.desk.keep(desk=self.desk)
        other = kept.at("kept", "group", "other")
        calls = [other.echo(data=b"1"), kept.at("kept", "desk").keep(desk=other).at("kept", "desk").echo(data=b"2")]
        answered = await asyncio.gather(*calls)
        self.assertEqual([it["data"] for it in answered], [b"1", b"2"])
        self.assertEqual(await kept.at("kept", "desk").echo(data=b"3"), {"data": b"3"})
        self.assertEqual((await kept)["kept"]["group"]["number"], 7)
        self.assertEqual(await self.desk.any().at("any").typed(DESK).echo(data=b"4"), {"data": b"4"})

    async def test_places_without_a_capability(self):
        kept, asked = self.desk.keep(), self.desk.echo()
        for names, text in ((["no"], "no: no such field"), (["kept", "group", "number"], "kept.group.number: no such field")):
            with self.assertRaisesRegex(SchemaError, text):
                kept.at(*names)
        with self.assertRaisesRegex(SchemaError, r"echo.*\.data: Data is no capability"):
            asked.at("data")
        with self.assertRaisesRegex(Failed, "."):
            await kept.at("kept", "desk").echo()

    async def test_callbacks(self):
        own = Desk()
        self.assertEqual(await self.desk.ask(desk=own, data=b"back"), {"data": b"back"})
        given = (await self.desk.keep(desk=own))["kept"]["desk"]
        await given.ping()
        self.assertEqual(own.pinged, 1)

    async def test_promises(self):
        own, promised = Desk(), asyncio.get_running_loop().create_future()
        asked = self.desk.ask(desk=promised, data=b"1")
        desk = self.desk.later().at("desk")
        waiting = desk.echo(data=b"2")
        await self.desk.ping()
        self.assertFalse(asked.done() or waiting.done())
        promised.set_result(own)
        self.root.given.set_result(self.root)
        self.assertEqual((await asked, await waiting), ({"data": b"1"}, {"data": b"2"}))
        self.assertEqual(await desk.echo(data=b"3"), {"data": b"3"})

    async def test_broken_promises(self):
        async def broken():
            raise Overloaded("no desk today")

        async def nothing():
            return None

        cancelled = asyncio.get_running_loop().create_future()
        cancelled.cancel()
        for promised in (broken(), nothing(), cancelled):
            with self.assertRaises(Failed):
                await self.desk.ask(desk=promised)

    async def test_failures(self):
        await self.raises(Overloaded, "busy", self.desk.fail(how="overloaded"))
        await self.raises(Failed, "cancelled", self.desk.fail(how="cancelled"))
        await self.raises(Unimplemented, "Desk has no missing here", self.desk.missing())
        with self.assertLogs("lovendak", logging.ERROR):
            await self.raises(Failed, "ValueError: on purpose", self.desk.fail(how="on purpose"))
            await self.raises(Failed, "WriteError: Desk.fail: there is no field 'text'", self.desk.fail(how="large"))
        with self.assertRaises(AttributeError):
            self.desk.no_such_method()
        with self.assertRaisesRegex(WriteError, "7 is no Object or Remote"):
            self.desk.keep(desk=7)
        with self.assertRaisesRegex(WriteError, "no field"):
            self.desk.keep(dsk=None)
        with self.assertRaisesRegex(WriteError, "TooLarge"):
            self.desk.echo(data=bytes(1 << 19))
        other = self.desk.typed(schema.load(HERE / "chat.capnp")["Room"])
        await self.raises(Unimplemented, "Desk has no such method", other.post())

    async def test_a_thousand_in_flight(self):
        """They are answered in another order than they were made."""
        calls = [self.desk.wait(number=number) for number in range(1000)]
        await until(lambda: len(self.root.waiting) == 1000)
        self.assertEqual(list(self.root.waiting), list(range(1000)))
        for number, waiting in reversed(self.root.waiting.items()):
            waiting.set_result(number + 1)
        self.assertEqual([it["number"] for it in await asyncio.gather(*calls)], list(range(1, 1001)))

    async def test_calls_that_nobody_holds(self):
        for _ in range(10):
            self.desk.ping()
        self.desk.fail(how="overloaded")
        await self.desk.echo()
        self.assertEqual(self.root.pinged, 10)

    async def test_cancelled_calls(self):
        call = self.desk.wait(number=1)
        await until(lambda: self.root.waiting)
        with self.assertRaises(asyncio.TimeoutError):
            await asyncio.wait_for(call, 0.01)
        kept = self.desk.keep(desk=self.desk)
        desk = kept.at("kept", "desk")
        self.assertEqual((kept.cancel(), kept.cancel(), kept.done(), call.done()), (True, False, True, True))
        with self.assertRaises(asyncio.CancelledError):
            await kept
        self.assertEqual(await desk.echo(data=b"x"), {"data": b"x"})
        with self.assertRaises(Failed):
            kept.at("kept", "desk")
        await until(lambda: self.root.cancelled == [1])
        self.assertEqual(await self.desk.echo(data=b"y"), {"data": b"y"})

    async def test_methods_go_on_if_something_waits_for_their_results(self):
        call = self.desk.wait(number=1)
        kept = self.desk.keep(desk=call.at("desk"))
        await until(lambda: self.root.waiting)
        call.cancel()
        await self.desk.ping()
        self.assertEqual(self.root.cancelled, [])
        del call, kept
        gc.collect()
        await until(lambda: self.root.cancelled == [1])

    async def test_a_method_that_is_cancelled_before_it_begins(self):
        client, transport = Vat(), mock.Mock(**{"is_closing.return_value": False})
        params = DESK.method("wait").params.write({"number": 1})
        client.finish(client.call(client.result_of(client.bootstrap()), DESK.method("wait").interface, DESK.method("wait").number, params))
        served = Connection(self.root)
        served.connection_made(transport)
        served.data_received(client.outgoing())
        self.assertEqual(served.vat.table_sizes().answers, 2)
        await until(lambda: not served._serving)
        self.assertEqual((served.vat.table_sizes().answers, self.root.waiting), (1, {}))

    async def test_nothing_is_left(self):
        own = Desk()
        calls = [self.desk.keep(desk=it) for it in (own, self.desk, None)]
        calls += [self.desk.ask(desk=own, data=b"x"), self.desk.fail(how="overloaded"), calls[0].at("kept", "desk").ping()]
        await asyncio.gather(*calls, return_exceptions=True)
        self.desk.keep(desk=calls[1].at("kept", "desk"))
        call = self.desk.wait(number=1)
        await until(lambda: self.root.waiting)
        call.cancel()
        await until(lambda: self.root.cancelled == [1])
        del call, calls, self.desk
        gc.collect()
        [served] = self.served
        await until(lambda: self.connection.vat.shares_nothing() and served.vat.shares_nothing())


class Releases(Service):
    async def test_objects_go_when_they_are_released(self):
        own = Desk()
        await self.desk.ask(desk=own, data=b"1")
        await until(lambda: own.is_gone == 1)
        kept = await self.desk.keep(desk=own)
        self.assertEqual((await kept["kept"]["desk"].echo(data=b"2"), own.is_gone), ({"data": b"2"}, 1))
        kept.clear()
        gc.collect()
        await until(lambda: own.is_gone == 2)
        held = weakref.ref(own)
        del own
        gc.collect()
        self.assertIsNone(held())
        self.assertEqual((await self.desk.echo(data=b"3"), self.root.is_gone), ({"data": b"3"}, 0))

    async def test_objects_that_are_forwarded(self):
        """What stands for a capability of another connection is let go, and so is that capability."""
        other_root, own = Desk(), Desk()
        _, connection = await self.over(other_root)
        kept = await self.desk.keep(desk=own)
        await connection.bootstrap(DESK).ask(desk=kept["kept"]["desk"], data=b"1")
        self.assertEqual(own.is_gone, 0)
        kept.clear()
        gc.collect()
        await until(lambda: own.is_gone == 1 and not connection._objects)

    async def test_a_thousand_objects(self):
        await asyncio.gather(*(self.desk.ask(desk=Desk(), data=b"x") for _ in range(1000)))
        gc.collect()
        await until(lambda: not self.connection._objects)
        [served] = self.served
        self.assertEqual(list(served._objects.values()), [(self.root, self.root)])

    async def test_finishes_behind_returns(self):
        await self.desk.ping()
        for number, after_return in enumerate((True, False)):
            self.connection.set_finishes(after_return)
            call = self.desk.wait(number=number)
            await until(lambda number=number: number in self.root.waiting)
            transport = self.connection._transport
            self.connection._transport = mock.Mock(wraps=transport)
            call.cancel()
            await asyncio.sleep(0.05)
            self.assertEqual(self.connection._transport.write.called, not after_return)
            self.connection._transport = transport
            if after_return:
                self.root.waiting[number].set_result(1)
            await self.desk.ping()
            await until(lambda: not self.served[0]._serving)
            self.assertEqual(self.root.cancelled, [] if after_return else [1])


class SeveralConnections(Service):
    async def test_forwarding(self):
        """Of one connection's capabilities, those of the parameters and those of the results, over another and back."""
        other_root, own = Desk(), Desk()
        _, connection = await self.over(other_root)
        other = connection.bootstrap(DESK)
        self.assertEqual(await other.ask(desk=self.desk, data=b"1"), {"data": b"1"})
        through = other.keep(desk=self.desk).at("kept", "desk")
        self.assertEqual(await through.keep(desk=own).at("kept", "group", "other").echo(data=b"2"), {"data": b"2"})
        back = (await through.keep(desk=own))["kept"]["desk"]
        await back.ping()
        self.assertEqual((own.pinged, self.root.pinged, other_root.pinged), (1, 0, 0))
        await self.raises(Overloaded, "busy", through.fail(how="overloaded"))
        calls = [through.wait(number=number) for number in range(100)]
        await until(lambda: len(self.root.waiting) == 100)
        self.assertEqual(list(self.root.waiting), list(range(100)))
        self.connection.close()
        await self.raises(Disconnected, "the connection ended", calls[0])

    async def test_forwarded_calls_are_cancelled(self):
        class Asking(Desk):
            async def ask(self, desk, data):
                return {"data": bytes((await desk.wait(number=7))["number"])}

        _, connection = await self.over(Asking())
        call = connection.bootstrap(DESK).ask(desk=self.desk)
        await until(lambda: self.root.waiting)
        call.cancel()
        await until(lambda: self.root.cancelled == [7])

    async def test_one_number_for_a_capability(self):
        _, connection = await self.over(Desk())
        other = connection.bootstrap(DESK)
        kept = [await other.keep(desk=it) for it in 3 * [self.desk, self.root]]
        self.assertEqual(len(connection._objects), 2)
        kept.clear()
        gc.collect()
        await until(lambda: not connection._objects)

    async def test_forwarded_promises(self):
        _, connection = await self.over(Desk())
        later = self.desk.later()
        asked = connection.bootstrap(DESK).ask(desk=later.at("desk"), data=b"x")
        await later
        self.assertFalse(asked.done())
        self.root.given.set_result(self.root)
        self.assertEqual(await asked, {"data": b"x"})


class Endings(Service):
    async def asyncTearDown(self):
        await super().asyncTearDown()
        logging.disable(logging.NOTSET)

    async def test_a_peer_that_dies(self):
        own = Desk()
        open_call, kept = self.desk.wait(number=1), await self.desk.keep(desk=own)
        self.served[0]._transport.abort()
        await self.raises(Disconnected, "the connection ended", open_call)
        await self.connection.wait_closed()
        self.assertEqual((own.is_gone, self.root.is_gone, self.root.cancelled), (1, 1, [1]))
        for wrong in (self.desk.ping, kept["kept"]["desk"].ping, self.connection.bootstrap):
            with self.assertRaises(Disconnected):
                wrong()
        await self.raises(Disconnected, "the connection has ended", self.connection.drain())
        again = await self.stack.enter_async_context(await connect("127.0.0.1", self.port))
        self.assertEqual(await again.bootstrap(DESK).echo(data=b"again"), {"data": b"again"})

    async def test_what_was_said_before_the_end_arrives(self):
        for _ in range(100):
            self.desk.ping()
        self.connection.close()
        await until(lambda: self.root.is_gone)
        self.assertEqual(self.root.pinged, 100)

    async def test_a_peer_at_fault(self):
        _, raw = await asyncio.open_connection("127.0.0.1", self.port)
        raw.write(b"no message of Cap'n Proto")
        await until(lambda: len(self.served) == 2)
        await asyncio.wait_for(self.served[1].wait_closed(), 10)
        raw.close()
        self.assertEqual(await self.desk.echo(data=b"x"), {"data": b"x"})

    async def test_an_object_that_fails_as_it_goes(self):
        own = Desk()
        own.gone = lambda: 1 // 0
        with self.assertLogs("lovendak", logging.ERROR):
            await self.desk.ask(desk=own)
            await until(lambda: not self.connection._objects)
        self.assertEqual(await self.desk.echo(data=b"x"), {"data": b"x"})
        kept = await self.desk.keep(desk=own)
        with self.assertLogs("lovendak", logging.ERROR):
            self.connection.close()
            await self.connection.wait_closed()
        self.assertIsNotNone(kept)


class Slowness(Service):
    async def test_a_server_does_not_read_while_it_is_not_read(self):
        """A client that says much and reads nothing: the server keeps no more than a part of it."""
        size, count = 100_000, 100
        await self.desk.ping()
        [served] = self.served
        self.connection._transport.pause_reading()
        for it, buffer in ((self.connection, socket.SO_RCVBUF), (served, socket.SO_SNDBUF)):
            it._transport.get_extra_info("socket").setsockopt(socket.SOL_SOCKET, buffer, 1 << 16)
        for _ in range(count):
            self.desk.echo(data=bytes(size))
        await until(lambda: not served._may_write.is_set())
        held = 0
        for _ in range(50):
            await asyncio.sleep(0.002)
            held = max(held, served._transport.get_write_buffer_size())
        self.assertLess(held, 10 * size)
        self.connection._transport.resume_reading()
        self.assertEqual(await self.desk.echo(data=b"x"), {"data": b"x"})
        await self.connection.drain()

    async def test_a_server_with_limits_hears_no_more_than_they_say(self):
        root = Desk()
        _, connection = await self.over(root, limits=(100, 1 << 20))
        desk = connection.bootstrap(DESK)
        calls = [desk.wait(number=number) for number in range(300)]
        await until(lambda: root.waiting)
        for number in range(300):
            await until(lambda number=number: number in root.waiting)
            self.assertLess(sum(not it.done() for it in root.waiting.values()), 20)  # each call has more than five words
            root.waiting[number].set_result(number + 1)
        self.assertEqual([it["number"] for it in await asyncio.gather(*calls)], list(range(1, 301)))

    async def test_a_call_that_waited_behind_other_messages_is_heard(self):
        client, transport = Vat(), mock.Mock(**{"is_closing.return_value": False, "get_write_buffer_size.return_value": 0})
        server = Connection(Desk(), limits=(1, 1 << 20))  # each message has more than one word
        server.connection_made(transport)

        async def answered():
            await asyncio.sleep(0.05)
            for written in transport.write.call_args_list:
                client.received(written.args[0])
            transport.write.reset_mock()
            return [event.call for event in client.events() if event.kind == ENDED]

        asked = client.bootstrap(), client.bootstrap()
        desk = client.result_of(asked[0])
        server.data_received(client.outgoing())
        self.assertEqual(await answered(), list(asked))
        client.finish(asked[1])
        call = client.call(desk, 7, 0, Contents.of())  # the server knows no such interface
        server.data_received(client.outgoing())
        self.assertEqual(await answered(), [call])

    async def test_calls_to_a_peer_that_does_not_read(self):
        listener = socket.create_server(("127.0.0.1", 0))
        self.stack.callback(listener.close)
        connection = await connect("127.0.0.1", listener.getsockname()[1])
        desk = connection.bootstrap(DESK)
        with mock.patch("lovendak.connection.MOST_WAITING", 1 << 20), self.assertRaises(Overloaded) as refused:
            for _ in range(1000):
                desk.echo(data=bytes(100_000))
                await asyncio.sleep(0)
        self.assertEqual((refused.exception.kind, str(refused.exception)), (OVERLOADED, "the peer does not read"))
        drained = asyncio.ensure_future(connection.drain())
        connection._transport.abort()
        with self.assertRaises(Disconnected) as ended:
            await drained
        self.assertEqual(ended.exception.kind, DISCONNECTED)


if __name__ == "__main__":
    unittest.main()
