#!/usr/bin/env python3
"""Serves the chat room of chat.capnp over TCP to peers of any make:  room.py PORT"""
import asyncio
import sys
from pathlib import Path

from lovendak import schema
from lovendak.service import Failed, Object, serve

chat = schema.load(Path(__file__).with_name("chat.capnp"))
members, lines = {}, []


class Room(Object):
    """The room as a member has it."""

    interface = chat["Room"]

    def __init__(self, name):
        self.name = name

    async def post(self, text, urgent):
        lines.append({"name": self.name, "text": text})
        calls = [it.heard(name=self.name, text=text, number=len(lines), urgent=urgent) for it in members.values()]
        heard = await asyncio.gather(*calls, return_exceptions=True)
        return {"reached": sum(not isinstance(it, Exception) for it in heard)}

    async def history(self, last):
        return {"lines": lines[-last:] if last else []}

    async def who(self, name):
        if name not in members:
            raise Failed("there is nobody of that name")
        return {"listener": members[name]}

    def gone(self):
        members.pop(self.name, None)


class Hall(Object):
    interface = chat["Hall"]

    async def join(self, name, listener):
        if listener is None or name in members:
            raise Failed("a listener is wanted, and a name that nobody has")
        members[name] = listener
        return {"room": Room(name)}


async def main(port):
    server = await serve(Hall, "127.0.0.1", port)
    await server.serve_forever()


if __name__ == "__main__":
    asyncio.run(main(int(sys.argv[1])))
