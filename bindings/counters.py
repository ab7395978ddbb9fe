#!/usr/bin/env python3
"""Has a client make and drop a million counters, and looks at the memory of the server, once `bindings/run` has built what it needs.

    bindings/counters.py [TURNS [SERVER..]]

The servers are `c`, `rust` and `python`, or those that are named. A client of C++ makes and drops 10,000 counters in each of TURNS (100)
over one connection, 100 at a time, and adds a number to each. What the server has resident at the end may be at most 1 MiB more than after
the first turn, and no counter may be left. It prints the figures, with how many counters were made in a second, and ends with status 0 if
all was so."""
import subprocess
import sys
import time
from pathlib import Path

from processes import free_port, served

HERE = Path(__file__).resolve().parent
BUILD = HERE / "build"
CLIENT = BUILD / "speed/counters"
SERVERS = {
    "c": lambda port: [BUILD / "example", str(port)],
    "rust": lambda port: [BUILD / "rust/release/examples/server", f"127.0.0.1:{port}"],
    "python": lambda port: [sys.executable, HERE / "python/server.py", str(port)],
}
COUNT, ALIVE = 10_000, 100
MOST_GROWTH = 1024


def resident(process):
    """What a process has resident, in KiB."""
    with open(f"/proc/{process.pid}/status") as status:
        return next(int(line.split()[1]) for line in status if line.startswith("VmRSS:"))


def turned(address, count, alive, turns):
    """Has a client make and drop so many counters in each turn, so many of which are there at a time. It yields after each turn."""
    words = [CLIENT, address, str(count), str(alive)]
    with subprocess.Popen(words, stdin=subprocess.PIPE, stdout=subprocess.PIPE, text=True) as client:
        for turn in range(turns):
            if turn:
                print(file=client.stdin, flush=True)
            if not client.stdout.readline():
                raise OSError("the client failed")
            yield
        client.stdin.close()


def counted(words, port, count, alive, turns):
    """What a server has resident after each turn of a client, and what was wrong, if anything was."""
    wrong, sizes = [], []
    with served(words, port, wrong, stdout=subprocess.PIPE, text=True) as server:
        for _ in turned(f"127.0.0.1:{port}", count, alive, turns):
            sizes.append(resident(server))
        says = next((line for line in server.stdout if line.startswith("a client has gone")), "it ended").strip()
    if says != "a client has gone, and left 0 counters":
        wrong.append(says)
    return sizes, "\n".join(filter(None, wrong))


def let_go(name):
    """What was wrong with a server to which a client makes 1,000 counters at a time, three times, if anything was."""
    port = free_port()
    return counted(SERVERS[name](port), port, 1000, 1000, 3)[1]


def main():
    turns, failed = int(sys.argv[1]) if len(sys.argv) > 1 else 100, False
    for name in sys.argv[2:] or SERVERS:
        port, start = free_port(), time.monotonic()
        sizes, wrong = counted(SERVERS[name](port), port, COUNT, ALIVE, turns)
        rate, growth = turns * COUNT / (time.monotonic() - start), sizes[-1] - sizes[0]
        print(f"{name}: {sizes[0]} KiB after {COUNT} counters, {sizes[-1]} KiB after {turns * COUNT}, at most {max(sizes)} KiB; "
              f"{rate:.0f} counters a second {wrong}", flush=True)
        failed |= bool(wrong) or growth > MOST_GROWTH
    sys.exit(1 if failed else 0)


if __name__ == "__main__":
    main()
