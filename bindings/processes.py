"""Programs that are run, and servers that are played with."""
import contextlib
import socket
import subprocess
import tempfile
import time

WITHIN = 300
VALGRIND = ["valgrind", "-q", "--leak-check=full", "--show-leak-kinds=definite", "--errors-for-leak-kinds=definite", "--error-exitcode=9"]
# What the client in Rust prints.
CLIENT_SAYS = "42\n44\non purpose\nnothing is left\n"


def ran(words, says=None, within=WITHIN, **more):
    """What was wrong with a program, or nothing. `says` is what it has to print, if that matters."""
    try:
        done = subprocess.run(words, capture_output=True, text=True, timeout=within, **more)
    except subprocess.TimeoutExpired:
        return "it did not end"
    good = done.returncode == 0 and says in (None, done.stdout)
    return "" if good else f"status {done.returncode}\n{done.stdout}{done.stderr}"


def free_port():
    with socket.socket() as free:
        free.bind(("127.0.0.1", 0))
        return free.getsockname()[1]


def wait_for(port):
    """Waits until somebody listens, without a connection, which would be a client."""
    for _ in range(WITHIN * 20):
        with open("/proc/net/tcp") as connections:
            if any(line.split()[1].endswith(f":{port:04X}") and line.split()[3] == "0A" for line in list(connections)[1:]):
                return
        time.sleep(0.05)
    raise TimeoutError(f"nobody listens on port {port}")


@contextlib.contextmanager
def served(words, port, wrong, **more):
    """A server, while a client plays with it; what it says on standard error is wrong."""
    with tempfile.TemporaryFile("w+") as said:
        server = subprocess.Popen(words, stderr=said, **{"stdout": subprocess.DEVNULL, **more})
        try:
            wait_for(port)
            yield server
        finally:
            server.terminate()
            server.wait()
            said.seek(0)
            wrong.append(said.read())
