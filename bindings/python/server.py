#!/usr/bin/env python3
"""Serves counters over TCP to peers of any make:  server.py PORT

Of the registry of interop/registry.capnp it has makeCounter, makeRegistry, echo, fail and same. It lets go of a counter once its client
has released it. When a client has gone, it prints how many counters that client had left."""
import asyncio
import contextlib
import itertools
import sys

from lovendak import FAILED, RELEASED, SERVED, UNIMPLEMENTED, Contents, Refused, Vat

COUNTER, REGISTRY = 0xA5E1C0FFEE000001, 0xA5E1C0FFEE000004
ADD = 0
MAKE_COUNTER, MAKE_REGISTRY, ECHO, FAIL, SAME = 0, 3, 4, 5, 6
ROOT = 0
# The most that a client's calls that are not answered may have, and that may wait for it in the vat.
MOST_WORDS, MOST_BYTES = 1 << 17, 1 << 20


class Failed(Exception):
    def __init__(self, reason, kind=FAILED):
        super().__init__(reason)
        self.kind = kind


class Client(asyncio.Protocol):
    """A conversation with a client: its vat, and the sums of its counters by their numbers, which begin at 1."""

    def connection_made(self, transport):
        self.transport, self.vat, self.sums, self.numbers = transport, Vat(root=ROOT), {}, itertools.count(1)
        self.vat.set_limits(MOST_WORDS, MOST_BYTES)
        self.may_write = True

    def connection_lost(self, error):
        print(f"a client has gone, and left {len(self.sums)} counters", flush=True)

    def data_received(self, data):
        self.vat.received(data)
        said = True
        while said:  # what waited unheard is heard as bytes are taken
            for event in self.vat.events():
                self.hear(event)
            said = self.vat.outgoing()
            self.transport.write(said)
        if self.vat.down() is not None:
            self.transport.close()
        else:
            self.choose_reading()

    def pause_writing(self):
        self.may_write = False
        self.choose_reading()

    def resume_writing(self):
        self.may_write = True
        self.choose_reading()

    def choose_reading(self):
        """A client that reads no answers is not heard, so that no more of them wait for it, and neither is one that asks too much."""
        if self.may_write and self.vat.wants_bytes():
            self.transport.resume_reading()
        else:
            self.transport.pause_reading()

    def hear(self, event):
        if event.kind == SERVED:
            with contextlib.suppress(Refused):  # a vat that is down refuses all
                self.serve(event)
        elif event.kind == RELEASED:
            del self.sums[event.object]

    def serve(self, call):
        """Answers a call, and lets go of what came with it and of what was given."""
        try:
            results = self.results(call)
            try:
                self.vat.answer(call.task, results)
            finally:
                self.vat.drop_ref(*results.refs)
        except Failed as failed:
            self.vat.fail(call.task, failed.kind, str(failed))
        except Refused as refused:
            self.vat.fail(call.task, FAILED, str(refused))
        self.vat.drop_ref(*call.contents.refs)

    def results(self, call):
        """What a method gives."""
        params = call.contents
        if (call.object, call.interface) == (ROOT, REGISTRY):
            if call.method == MAKE_COUNTER:
                number = next(self.numbers)
                results = Contents.of(refs=[self.vat.host(number)])
                self.sums[number] = params.number(0)
                return results
            if call.method == MAKE_REGISTRY:
                return Contents.of(refs=[self.vat.host(ROOT)])
            if call.method in (ECHO, SAME):
                return Contents(params.payload, [self.vat.clone_ref(ref) for ref in params.refs])
            if call.method == FAIL:
                raise Failed(params.text(0) or "")
        elif (call.interface, call.method) == (COUNTER, ADD) and call.object != ROOT:
            return Contents.of([self.add(call.object, params.number(0))])
        raise Failed("no such method", UNIMPLEMENTED)

    def add(self, counter, by):
        if self.sums[counter] + by >= 1 << 64:
            raise Failed("the sum is too large")
        self.sums[counter] += by
        return self.sums[counter]


async def main(port):
    server = await asyncio.get_running_loop().create_server(Client, "127.0.0.1", port)
    print("listening", flush=True)
    await server.serve_forever()


if __name__ == "__main__":
    asyncio.run(main(int(sys.argv[1])))
