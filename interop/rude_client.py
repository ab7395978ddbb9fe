#!/usr/bin/env python3
"""A client that does what no client should, with a server of `registry.capnp`:  rude_client.py HOST:PORT|unix:PATH [TURNS [PROCESS]]

In each turn it connects, and

- floods the server with large calls and reads no answer, or makes many small ones and reads none, and breaks the connection off;
- leaves in the middle of a message, or while it owes an answer;
- sends what is no message;
- fills a table of the server: its answers by calls that are never finished, its exports by objects that are never released, its imports by
  objects of its own, its questions by calls of its own objects that are never answered.

In the end the server has to serve another client. If its PROCESS is named, it may also have no more files, threads and children than
before, and not much more memory than after the first turns; and it and its children never too much. It ends with status 0 if all is so."""
import contextlib
import random
import select
import socket
import struct
import sys
import time
from pathlib import Path

REGISTRY = 0xA5E1C0FFEE000004
MAKE_COUNTER, ECHO, SAME, TELL = 0, 4, 6, 9
# The most entries of a table, and some more.
MANY = 4200
# How long a server may take no bytes before a client leaves that reads none, and how long it may take to answer one that does.
PATIENCE, WITHIN = 0.03, 60


class Node:
    """What a pointer leads to: its words, and the pointer's bits but for the offset."""

    def __init__(self, bits, words):
        self.bits, self.words = bits, words


def of_struct(data, *nodes):
    """A struct with these data words, and pointers to these nodes or to nothing."""
    words = [*data, *(0 for _ in nodes)]
    for at, node in enumerate(nodes, len(data)):
        if node:
            words[at] = node.bits | (len(words) - at - 1) << 2
            words += node.words
    return Node(len(data) << 32 | len(nodes) << 48, words)


def of_bytes(data):
    padded = data + bytes(-len(data) % 8)
    return Node(1 | 2 << 32 | len(data) << 35, list(struct.unpack(f"<{len(padded) // 8}Q", padded)))


def of_list(structs):
    """A list of structs, of which each has one data word and one pointer, to nothing."""
    words = [it for data in structs for it in (data, 0)]
    return Node(1 | 7 << 32 | len(words) << 35, [len(structs) << 2 | 1 << 32 | 1 << 48, *words])


def message(kind, body):
    root = of_struct([], of_struct([kind], body)).words
    return struct.pack(f"<II{len(root)}Q", 0, len(root), *root)


def bootstrap(question):
    return message(8, of_struct([question], None))


def call(question, method, params, own=()):
    """A call of the bootstrap object, for which question 0 asked; `own` are the ids of objects of the client that go with it."""
    target = of_struct([1 << 32], of_struct([0], None))
    payload = of_struct([], params, of_list([1 | it << 32 for it in own]) if own else None)
    return message(2, of_struct([question | method << 32, REGISTRY, 0], target, payload, None))


def finish(question):
    """One that keeps what came with the Return."""
    return message(4, of_struct([question]))


CAPABILITY = Node(3, [])  # the first of the table


def made(question):
    return call(question, MAKE_COUNTER, of_struct([1], None))


def echoed(question, size):
    return call(question, ECHO, of_struct([], of_bytes(bytes(size))))


def said(server, data, reads):
    """Says it, as long as the server takes bytes, and reads what comes if it `reads`. How many bytes came."""
    rest, heard = memoryview(data), 0
    while rest:
        readable, writable, _ = select.select([server] if reads else [], [server], [], WITHIN if reads else PATIENCE)
        if not readable and not writable:
            return heard
        if readable and not (count := len(server.recv(1 << 16))):
            return heard
        heard += count if readable else 0
        if writable:
            rest = rest[server.send(rest[:1 << 16]):]
    return heard


def floods(server, _):
    said(server, bootstrap(0) + b"".join(echoed(at, 100_000) for at in range(1, 40)), False)


def reads_nothing(server, _):
    said(server, bootstrap(0) + b"".join(echoed(at, 2_000) for at in range(1, 2000)), False)
    server.setsockopt(socket.SOL_SOCKET, socket.SO_LINGER, struct.pack("ii", 1, 0))  # broken off


def leaves_in_the_middle(server, draw):
    whole = bootstrap(0) + made(1) + echoed(2, 5_000)
    said(server, whole[:draw.randrange(len(whole))], False)


def leaves_a_call(server, _):
    """The server has called an object of the client, which goes."""
    said(server, bootstrap(0) + call(1, TELL, of_struct([1], CAPABILITY), [1]), False)


def says_no_message(server, draw):
    said(server, bootstrap(0) + draw.randbytes(draw.randrange(1, 3000)), False)


def fills_answers(server, _):
    said(server, bootstrap(0) + b"".join(made(at) for at in range(1, MANY)), True)


def fills_exports(server, _):
    said(server, bootstrap(0) + b"".join(made(1) + finish(1) for _ in range(MANY)), True)


def fills_imports(server, _):
    several = [call(at, SAME, of_struct([], CAPABILITY), range(at * 1000, at * 1000 + 1000)) for at in range(1, 6)]
    said(server, bootstrap(0) + b"".join(several), True)


def fills_questions(server, _):
    said(server, bootstrap(0) + b"".join(call(at, TELL, of_struct([1], CAPABILITY), [1]) for at in range(1, MANY)), True)


# In each round of turns the tables are filled once, since that takes longest.
DEEDS = [*4 * [floods, reads_nothing, leaves_in_the_middle, says_no_message], leaves_a_call, fills_answers, fills_exports, fills_imports,
         fills_questions]
ROUND = len(DEEDS)
# After so many turns a server has what memory it needs. What it may have more in the end, and the most at any time, in KiB.
EARLY, MOST_GROWTH, MOST = 10 * ROUND, 8 << 10, 96 << 10


def connected(address):
    kind, where = (socket.AF_UNIX, address[5:]) if address.startswith("unix:") else (socket.AF_INET, address.split(":"))
    end = time.monotonic() + WITHIN
    while True:
        server = socket.socket(kind)
        server.setsockopt(socket.SOL_SOCKET, socket.SO_RCVBUF, 1 << 14)
        server.settimeout(WITHIN)
        try:
            server.connect(where if kind == socket.AF_UNIX else (where[0], int(where[1])))
            return server
        except ConnectionRefusedError:  # who serves may be about to listen
            server.close()
            if time.monotonic() > end:
                raise
            time.sleep(0.02)


def turns(address, first, last, look=lambda: None):
    """So many turns, the same ones each time. Before it leaves, it has a `look`."""
    for turn in range(first, last):
        deed, draw = DEEDS[turn % ROUND], random.Random(turn)
        with connected(address) as server, contextlib.suppress(ConnectionError):  # which a server may end that is at fault
            deed(server, draw)
            look()


def wrong_with(address):
    """What is wrong with the server, which has to answer another client, or nothing."""
    heard, end = b"", time.monotonic() + WITHIN
    with connected(address) as server, contextlib.suppress(OSError):
        server.sendall(bootstrap(0) + call(1, ECHO, of_struct([], of_bytes(b"are you alive?"))))
        while b"are you alive?" not in heard and time.monotonic() < end and (more := server.recv(1 << 16)):
            heard += more
    return "" if b"are you alive?" in heard else "the server answers no more"


def resident(process):
    """What a process has resident, in KiB; nothing, if it has ended."""
    with contextlib.suppress(OSError):
        lines = Path(f"/proc/{process}/status").read_text().splitlines()
        return next((int(line.split()[1]) for line in lines if line.startswith("VmRSS:")), 0)
    return 0


def children(process):
    found = []
    for task in Path(f"/proc/{process}/task").iterdir():
        with contextlib.suppress(OSError):  # a thread that has ended
            found += map(int, (task / "children").read_text().split())
    return found


def in_use(process):
    """How many files, threads and children a process has."""
    return len(children(process)) + sum(len(list(Path(f"/proc/{process}/{it}").iterdir())) for it in ("fd", "task"))


def wrong_after_turns(address, process, count):
    """What is wrong with a server after so many turns, or nothing."""
    before, most = in_use(process), 0

    def look():
        nonlocal most
        most = max(most, *map(resident, [process, *children(process)]))

    turns(address, 0, EARLY, look)
    early = resident(process)
    turns(address, EARLY, count, look)
    wrong, end = wrong_with(address), time.monotonic() + WITHIN
    while in_use(process) > before and time.monotonic() < end:
        time.sleep(0.05)
    if wrong or in_use(process) > before:
        return wrong or f"{in_use(process) - before} more files, threads and children than before"
    growth = resident(process) - early
    figures = f"{early} KiB after {EARLY} turns, {growth} more after {count}, at most {most}"
    return figures if growth > MOST_GROWTH or most > MOST else ""


def main():
    address, count, *process = sys.argv[1], *map(int, sys.argv[2:] or [1000])
    if process:
        sys.exit(wrong_after_turns(address, *process, count) or 0)
    turns(address, 0, count)
    sys.exit(wrong_with(address) or 0)


if __name__ == "__main__":
    main()
