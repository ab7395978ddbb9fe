"""A client that makes calls and reads no answers, until the server hears no more; then it reads them all:  slow_client.py PORT

It speaks `interop/registry.capnp`. It fails if the server takes everything that it has to say, or if an answer is missing."""
import select
import socket
import sys

from lovendak import ENDED, Contents, Vat

REGISTRY, ECHO = 0xA5E1C0FFEE000004, 4
# As many calls, with so many words: some 120 MB, more than the sockets of a system hold.
CALLS, WORDS = 600, 25_000
PATIENCE = 3


def main(port):
    vat, contents, made = Vat(), Contents.of(range(WORDS)), 0
    registry = vat.result_of(vat.bootstrap())
    with socket.socket() as server:
        server.setsockopt(socket.SOL_SOCKET, socket.SO_RCVBUF, 1 << 16)
        server.connect(("127.0.0.1", port))
        server.setblocking(False)
        said = b""
        while said or made < CALLS:
            if not said:
                vat.call(registry, REGISTRY, ECHO, contents)
                made, said = made + 1, vat.outgoing()
            if not select.select([], [server], [], PATIENCE)[1]:
                break
            said = said[server.send(said):]
        else:
            sys.exit("the server took everything, and was not read")
        answered = read_all(vat, server, said, made)
    print(f"{answered} of {made} calls were answered", flush=True)
    sys.exit(0 if answered == made else 1)


def read_all(vat, server, said, made):
    """How many of the calls ended with what they were given."""
    answered = 0
    while answered < made:
        readable, writable, _ = select.select([server], [server] if said else [], [], 10 * PATIENCE)
        if not readable and not writable:
            break
        if writable:
            said = said[server.send(said):]
        if readable:
            vat.received(server.recv(1 << 20))
            answered += sum(it.kind == ENDED and it.contents is not None and it.contents.number(WORDS - 1) == WORDS - 1 for it in vat.events())
    return answered


if __name__ == "__main__":
    main(int(sys.argv[1]))
