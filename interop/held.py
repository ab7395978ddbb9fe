"""What `vat_serve` holds of a client, by its limits.

- `held-large`: 4,096 calls of 500,000 bytes to a promise that nobody resolves. `held-many`: 65,000 of 100,000 bytes.
- `held-unread`: calls whose answers are as large as they are, and nobody reads one.
- `held-behind`: with a limit of 0, a call behind many messages that have no answer is heard, without one more byte of the client.

In the first three it may have no more resident than its limits say: 8 MiB of what the client sent, as much of what that is to read, and
a message more of each."""
import contextlib
import os
import select
import subprocess
from pathlib import Path

import rude_client as client

PRINTER, PRINT, AWAIT_PRINTER = 0xA5E1C0FFEE000002, 0, 7
# The most that it may have resident, in KiB.
MOST = 24 << 10
FINISHED, ASKED = 40, b"are you alive?"
# How long it may take no bytes before it takes none any more, and how long an answer may take.
PATIENCE = 5


def printed(question, size):
    """A call of the printer that question 1 asked for, with so many bytes that no printer wants."""
    promised = client.of_struct([1], client.of_list([1]))  # its first pointer
    params = client.of_struct([], client.of_struct([], client.of_bytes(bytes(size))), None)
    return client.message(2, client.of_struct([question | PRINT << 32, PRINTER, 0], client.of_struct([1 << 32], promised), params, None))


def waiting(count, size):
    yield client.bootstrap(0) + client.call(1, AWAIT_PRINTER, client.of_struct([]))
    for question in range(2, count + 2):
        yield printed(question, size)


def unread():
    yield client.bootstrap(0)
    for question in range(1, 4000):
        yield client.echoed(question, 100_000)


DEEDS = {"held-large": lambda: waiting(4096, 500_000), "held-many": lambda: waiting(65_000, 100_000), "held-unread": unread}
BEHIND = "held-behind"
NAMES = [*DEEDS, BEHIND]


def started(program, *words):
    pipes = {"stdin": subprocess.PIPE, "stdout": subprocess.PIPE, "stderr": subprocess.DEVNULL}
    return subprocess.Popen([program, *words], bufsize=0, **pipes)


def most_resident(process):
    """The most that a process had resident, in KiB; 0 if it has ended."""
    with contextlib.suppress(OSError):
        lines = Path(f"/proc/{process}/status").read_text().splitlines()
        return next((int(line.split()[1]) for line in lines if line.startswith("VmHWM:")), 0)
    return 0


def resident_while(program, deed):
    """The most that it has resident while it is told a deed, as long as it takes bytes."""
    most = 0
    with started(program) as server:
        os.set_blocking(server.stdin.fileno(), False)
        with contextlib.suppress(BrokenPipeError):
            for said in deed():
                rest = memoryview(said)
                while rest and select.select([], [server.stdin], [], PATIENCE)[1]:
                    rest = rest[server.stdin.write(rest) or 0:]
                most = max(most, most_resident(server.pid))
                if rest:
                    break
        server.kill()
    return most


def heard_behind(program):
    """If it answers a call behind messages that have no answer, of which it holds one at a time."""
    first = b"".join(map(client.bootstrap, range(FINISHED)))
    finished = b"".join(map(client.finish, range(1, FINISHED)))
    with started(program, "--limit", "0") as server:
        server.stdin.write(first + finished + client.call(FINISHED, client.ECHO, client.of_struct([], client.of_bytes(ASKED))))
        heard = b""
        while ASKED not in heard and select.select([server.stdout], [], [], PATIENCE)[0] and (more := server.stdout.read(1 << 16)):
            heard += more
        server.kill()
    return ASKED in heard


def wrong_with(program, name):
    """What is wrong with it, or nothing."""
    if name == BEHIND:
        return "" if heard_behind(program) else "the call was not answered"
    most = resident_while(program, DEEDS[name])
    return "" if 0 < most <= MOST else f"{most} KiB were resident"
