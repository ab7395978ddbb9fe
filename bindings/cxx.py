"""The vat behind the classes that capnp generates (`c++/`): what `bindings/run` builds and plays of it.

- `beside`: the namespace compiles beside the header.
- libcapnp's own tests, over the drop-in and, for its classes on a stream, over ours: each but those in `FAILS`, plain and under valgrind.
  They are those of `apt-get source capnproto`.
- `calculator`: its client and server over libcapnp, over the drop-in by `LD_PRELOAD`, and straight on the stream, each with each.
- `interop CLIENT SERVER`: the peers of `interop/`, which know nothing of the vat, by `LD_PRELOAD`: each scenario, and drawn conversations.
- `probe ..`: what applications do at the limits of a vat; a server that dies; calls through a proxy.
- `import CLIENT SERVER`: what a server exports by a name, and a name by which it exports nothing.
- `aborted OVER`: calls fail with the reason of an Abort that came.
- `flow OVER`: with a flow limit, a server reads no further while too much of its client's has no answer.
- `limits`: with limits, a call behind messages that waited is heard.
- `refusing`: each allocation of the library is refused in turn, in a conversation within one process."""
import contextlib
import itertools
import os
import re
import signal
import subprocess
import tempfile
import time
from pathlib import Path

from processes import VALGRIND, ran

HERE = Path(__file__).resolve().parent
SOURCES, BUILD, PEERS = HERE / "c++", HERE / "build/c++", HERE.parent / "interop/build"
DROP_IN, PROGRAMS, OWN_TESTS = BUILD / "liblovendak-capnp-rpc.so", BUILD / "test", BUILD / "own-tests"
# The tests of libcapnp that a vat does not pass, by line: `setPipeline`, the trace of an exception, and a transport whose `send` throws
# (569, 1308, 1329); file descriptors (512, 559).
FAILS = {
    "rpc-test": {569, 1308, 1329}, "rpc-twoparty-test": {512, 559}, "ez-rpc-test": set(), "membrane-test": set(),
    "direct-rpc-twoparty-test": {512, 559}, "direct-ez-rpc-test": set(),
}
DRAWN = 30


def own_tests():
    """The folder of libcapnp's own tests, which are taken from Debian's source package once."""
    if (OWN_TESTS / "capnp/test.capnp.h").exists():
        return OWN_TESTS
    BUILD.mkdir(parents=True, exist_ok=True)
    with tempfile.TemporaryDirectory(dir=BUILD) as work:
        [source] = fetched(Path(work)).glob("capnproto-*/")
        subprocess.run([SOURCES / "test/take_tests", source, OWN_TESTS], check=True)
    return OWN_TESTS


def fetched(work):
    """`apt-get source capnproto`, with lists of sources of its own, since a machine need not have any."""
    entries = [it for folder in ("/etc/apt/sources.list.d", "/etc/apt") for it in Path(folder).glob("*.sources")]
    texts = [re.sub(r"^Types:.*$", "Types: deb-src", it.read_text(), flags=re.M) for it in entries]
    lines = [re.sub(r"^deb(-src)?\b", "deb-src", line) for name in ("/etc/apt/sources.list",) if Path(name).exists()
             for line in Path(name).read_text().splitlines()]
    (work / "lists").mkdir()
    (work / "parts").mkdir()
    (work / "parts/own.sources").write_text("\n\n".join(texts))
    (work / "own.list").write_text("\n".join(lines) + "\n")
    apt = ["apt-get", "-q", "-o", f"Dir::Etc::sourceparts={work}/parts", "-o", f"Dir::Etc::sourcelist={work}/own.list",
           "-o", f"Dir::State::lists={work}/lists", "-o", "APT::Sandbox::User=root"]
    subprocess.run([*apt, "update"], check=True, stdout=subprocess.DEVNULL)
    done = subprocess.run([*apt, "source", "capnproto"], cwd=work, capture_output=True, text=True)
    if done.returncode:
        raise SystemExit(f"bindings/run wants libcapnp's own tests, and apt-get source capnproto failed:\n{done.stderr}")
    return work


def prepare(archive):
    configure = ["cmake", "-S", SOURCES, "-B", BUILD, f"-DLOVENDAK_ARCHIVE={archive}", f"-DLOVENDAK_INCLUDE={HERE / 'c'}",
                 f"-DLOVENDAK_TESTS={own_tests()}"]
    subprocess.run(configure, check=True, stdout=subprocess.DEVNULL)
    subprocess.run(["cmake", "--build", BUILD, "--parallel", str(os.cpu_count())], check=True, stdout=subprocess.DEVNULL)


def preloaded(on):
    return os.environ | ({"LD_PRELOAD": str(DROP_IN)} if on else {})


def tested(name, under=()):
    """A program of libcapnp's own tests: all that are to pass pass, and those that are not fail, each alone."""
    source = f"{name.removeprefix('direct-')}.c++"
    text = (OWN_TESTS / "capnp" / source).read_text().split("\n")
    lines = {at for at, line in enumerate(text, 1) if re.match(r"(KJ_)?TEST\(", line)}
    only = lambda them: [word for line in sorted(them) for word in ("-f", f"{source}:{line}")]
    wrong = ran([*under, PROGRAMS / name, *only(lines - FAILS[name])])
    if not under:
        wrong += "".join(f"line {line} passes now\n" for line in FAILS[name] if not ran([PROGRAMS / name, *only({line})], within=30))
    return wrong


def listens(address):
    """Whether somebody listens at a Unix socket, which is there a little before."""
    with open("/proc/net/unix") as sockets:
        return any(line.rstrip("\n").endswith(f" {address}") and line.split()[3] == "00010000" for line in sockets)


@contextlib.contextmanager
def serving(words, address, wrong, **more):
    """A server at a Unix socket. It has to live on until it is told to end."""
    server = subprocess.Popen(words, stdout=subprocess.DEVNULL, stderr=subprocess.PIPE, text=True, **more)
    try:
        for _ in range(600):
            if listens(address) or server.poll() is not None:
                break
            time.sleep(0.05)
        yield server
        if server.poll() not in (None, -signal.SIGKILL):
            wrong.append(f"the server ended with status {server.returncode}")
    finally:
        server.terminate()
        wrong.append(server.communicate()[1])


def interop(client_on, server_on):
    """Each scenario, and drawn conversations, by programs that know nothing of the vat."""
    names = subprocess.run([PEERS / "client"], capture_output=True, text=True, check=True).stdout.split()
    plays = [[name] for name in names] + [[kind, str(seed)] for kind in ("soak", "soak-promises") for seed in range(DRAWN)]
    wrong = []
    with tempfile.TemporaryDirectory() as folder:
        address = f"{folder}/socket"
        with serving([PEERS / "server", f"unix:{address}"], address, wrong, env=preloaded(server_on)):
            for play in plays:
                if said := ran([PEERS / "client", f"unix:{address}", *play], env=preloaded(client_on)):
                    wrong.append(f"{' '.join(play)}: {said}")
    return "\n".join(filter(None, wrong))


# How a program of `c++/test` runs: its prefix, and if the drop-in is preloaded.
OVER = {"libcapnp": ("", False), "drop-in": ("", True), "stream": ("lovendak-", False)}


def program(name, over):
    prefix, on = OVER[over]
    return PROGRAMS / f"{prefix}{name}", preloaded(on)


def calculated():
    wrong = []
    for client, server in itertools.product(OVER, OVER):
        with tempfile.TemporaryDirectory() as folder:
            address, found = f"{folder}/socket", []
            path, env = program("calculator-server", server)
            with serving([path, f"unix:{address}"], address, found, env=env):
                path, env = program("calculator-client", client)
                found.append(ran([path, f"unix:{address}"], "all results are right\n", env=env))
            wrong += [f"client over {client}, server over {server}: {it}" for it in found if it]
    return "\n".join(wrong)


# What a probe's client has to print, over a vat at either end: a deed, its number, and what comes of it.
AT_THE_LIMITS = [
    ("calls", 4000, "0 failed | alive"),
    ("flood", 1000, "0 failed | alive"),
    ("echo", 500000, "500000 | alive"),
    ("hold", 4000, "1 things, 0 nevers | alive"),
    ("open", 4000, "1 things, 4000 nevers, then 1 things, 0 nevers | alive"),
    ("chain", 1000, "done | alive"),
    ("nest", 40, "40 | alive"),
    ("give", 1000, "1000 | alive"),
    ("take", 2000, "2000 | alive"),
    *(("fail", kind, f"{name}: remote exception: on purpose: \u00e4 | alive")
      for kind, name in enumerate(("failed", "overloaded", "disconnected", "unimplemented"))),
    ("fail-long", 70001, "70001 | alive"),
]
# A client over a vat holds back what is more than a vat may have open; a peer of libcapnp does not.
BEYOND = [("calls", 20000, "0 failed | alive")]
PROXIED = [("calls", 1000, "0 failed | alive"), ("chain", 100, "done | alive"), ("give", 100, "100 | alive"), ("take", 100, "100 | alive"),
           ("fail", 0, "failed: remote exception: remote exception: on purpose: \u00e4 | alive")]


def probed(deeds, *overs):
    """A probe's client with its server, and the proxies between them; `overs` says over what each of them is, from the client on."""
    wrong = []
    for deed, number, says in deeds:
        with tempfile.TemporaryDirectory() as folder, contextlib.ExitStack() as stack:
            there = None
            for at, over in enumerate(reversed(overs[1:])):
                path, env = program("probe", over)
                address = f"{folder}/{at}"
                words = ["server", f"unix:{address}"] if there is None else ["proxy", f"unix:{address}", f"unix:{there}"]
                stack.enter_context(serving([path, *words], address, wrong, env=env))
                there = address
            path, env = program("probe", overs[0])
            said = ran([path, "client", f"unix:{there}", deed, str(number)], f"{says}\n", env=env)
            wrong.append(said and f"{deed} {number}: {said}")
    return "\n".join(filter(None, wrong))


def server_dies(client, server):
    """Each call that is open fails as disconnected, and so does one on an object that was held."""
    with tempfile.TemporaryDirectory() as folder:
        address, found = f"{folder}/socket", []
        path, env = program("probe", server)
        with serving([path, "server", f"unix:{address}"], address, found, env=env) as process:
            path, env = program("probe", client)
            words = [path, "client", f"unix:{address}", "gone", "50"]
            done = subprocess.run(words, capture_output=True, text=True, timeout=60, env=env | {"PROBE_SERVER": str(process.pid)})
            says = "50 disconnected, and 1 held | disconnected: "
            return "" if done.stdout.startswith(says) else f"status {done.returncode}\n{done.stdout}{done.stderr}"


def imported(client, server):
    """A client on a stream asks for a name by a call, which a server of libcapnp doesn't know."""
    if (client, server) == ("stream", "libcapnp"):
        unknown = ("unimplemented: remote exception: Requested interface not implemented.; actualInterfaceName = probe.capnp:Probe; "
                   "requestedTypeId = 12809266385639121031 | alive")
        return probed([("import", 1, unknown)], client, server)
    why = "Server exports no such capability.; name = probe 2" if server == "libcapnp" else "broken promise"
    return probed([("import", 1, "things 77 | alive"), ("import", 2, f"failed: remote exception: {why} | alive")], client, server)


def aborted(over):
    path, env = program("aborted", over)
    return ran([path], "disconnected: remote exception: on purpose: \u00e4\n", env=env)


def flowed(over):
    """Of calls that are somewhat larger than a thousand words, with a limit of 2,500, three are open at a time, and all are answered."""
    path, env = program("flow", over)
    return ran([path], "3 3 3 3 3 3 2 1 0\n", env=env)


def checks():
    yield "c++ beside", lambda: ran([PROGRAMS / "beside"])
    for name in FAILS:
        yield f"c++ {name}", lambda name=name: tested(name)
        yield f"c++ {name} valgrind", lambda name=name: tested(name, VALGRIND)
    yield "c++ calculator", calculated
    sides = {"vat": True, "libcapnp": False}
    for client, server in (("vat", "libcapnp"), ("libcapnp", "vat"), ("vat", "vat")):
        yield f"c++ interop {client} {server}", lambda client=client, server=server: interop(sides[client], sides[server])
    for overs in itertools.product(OVER, OVER):
        if overs != ("libcapnp", "libcapnp"):
            deeds = AT_THE_LIMITS + (BEYOND if overs[0] != "libcapnp" else [])
            yield f"c++ probe {' '.join(overs)}", lambda overs=overs, deeds=deeds: probed(deeds, *overs)
            yield f"c++ dies {' '.join(overs)}", lambda overs=overs: server_dies(*overs)
            yield f"c++ import {' '.join(overs)}", lambda overs=overs: imported(*overs)
    for overs in itertools.product(("libcapnp", "stream"), OVER, ("libcapnp", "stream")):
        if set(overs) != {"libcapnp"}:
            yield f"c++ proxy {' '.join(overs)}", lambda overs=overs: probed(PROXIED, *overs)
    for over in OVER:
        yield f"c++ aborted {over}", lambda over=over: aborted(over)
    for over in ("drop-in", "stream"):
        yield f"c++ flow {over}", lambda over=over: flowed(over)
    yield "c++ limits", lambda: ran([*VALGRIND, PROGRAMS / "limits"])
    yield "c++ refusing", lambda: ran([*VALGRIND, PROGRAMS / "refusing"])
