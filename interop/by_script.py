"""Conversations in which vat_call plays a script with a server: a server of C++ or Rust, or vat_serve.

A script NAME of `scripts/` has beside it what vat_call has to be told, NAME.told, line for line, and what the objects of a server of
C++ are asked meanwhile, NAME.seen. Those of `scripts/rust/` and `scripts/vat_serve/` are for a server of Rust and for vat_serve alone,
which answer some things in another order.
In the reason of an exception `*` stands for any text: what C++ says there is its own matter. A struct of nothing and the null payload
are the same to who reads them, and count as the same. LONG has scripts that are made."""
import base64
import fnmatch
import json
import os
import socket
import struct
import subprocess
import threading
from pathlib import Path

HERE = Path(__file__).resolve().parent
SCRIPTS = HERE / "scripts"
REGISTRY, COUNTER, PRINTER, SINK = 11953047091460177924, 11953047091460177921, 11953047091460177922, 11953047091460177923
RPC = "/usr/include/capnp/rpc.capnp"
WITHIN = 60

# The null payload, and a struct of nothing.
NOTHING = {"AAAAAAEAAAAAAAAAAAAAAA==", "AAAAAAEAAAD8////AAAAAA=="}

DONE = "done, nothing was left"


class Script:
    """The lines to play, what has to be told, and what the server's objects are asked, if that is known."""

    def __init__(self, lines, told, seen=None):
        self.lines, self.told, self.seen = lines, told, seen


def lines_of(name):
    return (SCRIPTS / name).read_text().splitlines()


def kept(name):
    seen = lines_of(f"{name}.seen") if (SCRIPTS / f"{name}.seen").exists() else None
    return Script(lines_of(f"{name}.script"), lines_of(f"{name}.told"), seen)


# ---- what was told, against what has to be

def plain(line):
    """The entry of a line, or its words where it is none."""
    try:
        entry = json.loads(line)
    except ValueError:
        return line
    payload = entry.get("payload") or entry.get("outcome", {}).get("results")
    if payload and payload["bytes"] in NOTHING:
        payload["bytes"] = ""
    return entry


def is_same(wanted, told):
    wanted, told = plain(wanted), plain(told)
    if isinstance(wanted, dict) and isinstance(told, dict):
        why, given = (entry.get("outcome", {}).get("exception") for entry in (wanted, told))
        if why and given and fnmatch.fnmatchcase(given["reason"], why["reason"]):
            given["reason"] = why["reason"]
    return wanted == told


def difference(what, wanted, told):
    """Where two lists of lines first differ, or nothing."""
    for number, (one, other) in enumerate(zip(wanted, told), 1):
        if not is_same(one, other):
            return f"{what}, line {number}: {other} where {one} has to be"
    if len(wanted) != len(told):
        longer = (wanted if len(wanted) > len(told) else told)[min(len(wanted), len(told))]
        return f"{what}: {len(told)} lines where {len(wanted)} have to be, the first of the rest {longer}"
    return ""


# ---- a conversation

class Relay:
    """Carries bytes between two sockets, and keeps them."""

    def __init__(self, near, far):
        self.out, self.came = bytearray(), bytearray()
        self.threads = [threading.Thread(target=carry, args=it, daemon=True) for it in
                        ((near, far, self.out), (far, near, self.came))]
        for thread in self.threads:
            thread.start()

    def end(self):
        for thread in self.threads:
            thread.join(WITHIN)


def carry(source, sink, kept):
    try:
        while piece := source.recv(65536):
            kept += piece
            sink.sendall(piece)
    except OSError:
        pass
    try:
        sink.shutdown(socket.SHUT_WR)
    except OSError:
        pass


def play(program, path, far):
    """Plays the script of that path with who is at the far end of a socket: gives the status, the lines that were told, and the bytes
    that came and went."""
    near, own = socket.socketpair()
    relay = Relay(near, far)
    with subprocess.Popen([program, path], stdin=own, stdout=own, stderr=subprocess.PIPE, text=True) as player:
        own.close()
        try:
            told = player.communicate(timeout=WITHIN)[1]
        except subprocess.TimeoutExpired:
            player.kill()
            told = player.communicate()[1] + "it did not end\n"
    relay.end()
    near.close()
    far.close()
    return player.returncode, told.splitlines(), relay


def as_text(lines):
    return "".join(f"{line}\n" for line in lines)


def written(script, folder):
    path = f"{folder}/lines.script"
    Path(path).write_text(as_text(script.lines))
    return path


def recorded(path, script, told, relay):
    """Keeps a conversation."""
    Path(f"{path}.script").write_text(as_text(script.lines))
    Path(f"{path}.told").write_text(as_text(told))
    Path(f"{path}.in").write_bytes(relay.came)
    Path(f"{path}.out").write_bytes(relay.out)
    decode = ["capnp", "decode", RPC, "Message"]
    read = subprocess.run(decode, input=relay.out, capture_output=True, check=True)
    Path(f"{path}.text").write_bytes(read.stdout)


def judged(script, status, told):
    wrong = difference("told", script.told, told)
    return wrong or ("" if status == 0 else f"vat_call ended with status {status}")


def named(name):
    return LONG[name]() if name in LONG else kept(name)


# A server of Rust doesn't answer it.
NOT_FOR_RUST = {"broken-again"}


def for_rust():
    """The scripts that are played with a server of Rust: its own in the place of those of the same name."""
    own = {path.stem: f"rust/{path.stem}" for path in SCRIPTS.glob("rust/*.script")}
    names = [*sorted(path.stem for path in SCRIPTS.glob("*.script")), *LONG]
    return [own.get(name, name) for name in names if name not in NOT_FOR_RUST]


def with_server(program, server, name, folder, record=None):
    """Plays a script with a server of C++ or Rust; gives what was wrong."""
    script = named(name)
    path = f"{folder}/told"
    if os.path.exists(path):
        os.remove(path)
    serving = subprocess.Popen([server, "--tell", f"unix:{path}"], stdout=subprocess.PIPE, text=True)
    serving.stdout.readline()
    far = socket.socket(socket.AF_UNIX)
    far.connect(path)
    status, told, relay = play(program, written(script, folder), far)
    if record:
        recorded(f"{record}/{name}", script, told, relay)
    try:
        seen = serving.communicate(timeout=WITHIN)[0].splitlines()
    except subprocess.TimeoutExpired:
        serving.kill()
        return "the server did not end"
    return judged(script, status, told) or (difference("seen", script.seen, seen) if script.seen else "")


def abort():
    words = ["capnp", "encode", RPC, "Message"]
    return subprocess.run(words, input=b'(abort = (reason = "over", type = failed))', capture_output=True, check=True).stdout


# What a peer says before its stream ends, the number with which the vat has to go down, and the fault's name as vat_call prints it:
# nothing, a part of a frame, what begins no frame, and an Abort.
ENDS = {
    "gone": (lambda: b"", 0, None),
    "cut": (lambda: bytes(4), 2, "Short"),
    "no-frame": (lambda: b"\x10\0\0\0", 3, "TooManySegments"),
    "abort": (abort, 34, "PeerAbort"),
}

# How the calls end that the script has made by then.
REASON = {"kind": "disconnected", "reason": "the connection ended"}
CUT_OFF = [json.dumps({"call": call, "k": "ended", "outcome": {"exception": REASON}, "refs": [], "vat": "a"}) for call in range(4)]


def with_end(program, name, folder):
    """Plays a script with a peer that ends the conversation; gives what was wrong."""
    said, number, fault = ENDS[name]
    far, own = socket.socketpair()
    own.sendall(said())
    own.shutdown(socket.SHUT_WR)
    status, told, _ = play(program, written(kept("bootstrap"), folder), far)
    own.close()
    wanted = [*CUT_OFF, json.dumps({"fault": number, "k": "down", "vat": "a"})]
    how = told.pop() if told else ""
    if how != f"down {number}" and not (fault and how.startswith(f"down {number} ({fault}: ")):
        return f"vat_call said {how!r}"
    return difference("told", wanted, told) or ("" if status == 1 else f"vat_call ended with status {status}")


def at_server(program, path, lines, folder):
    """Plays lines with the server of C++ that listens there; gives what was told."""
    far = socket.socket(socket.AF_UNIX)
    far.connect(path)
    return play(program, written(Script(lines, []), folder), far)[1]


def with_vat(program, vat_serve, name, folder):
    """Plays a script with vat_serve; gives what was wrong."""
    script = named(name)
    far, own = socket.socketpair()
    serving = subprocess.Popen([vat_serve, "--tell"], stdin=own, stdout=own, stderr=subprocess.PIPE, text=True)
    own.close()
    status, told, _ = play(program, written(script, folder), far)
    try:
        said = serving.communicate(timeout=WITHIN)[1].strip()
    except subprocess.TimeoutExpired:
        serving.kill()
        return "vat_serve did not end"
    left = "something" if told[-1:] != [DONE] else "nothing"
    wrong = "" if said == f"down 0, {left} was left" and serving.returncode == 0 else f"vat_serve: {said or 'nothing said'}"
    return judged(script, status, told) or wrong


# ---- scripts that are made

def ended(call, payload, refs=()):
    results = {"bytes": base64.b64encode(payload).decode(), "caps": len(refs)}
    return json.dumps({"call": call, "k": "ended", "outcome": {"results": results}, "refs": list(refs), "vat": "a"})


def message(*words):
    return struct.pack(f"<II{len(words)}Q", 0, len(words), *words)


# Payloads: the root of a bootstrap, and a struct that has one capability, one number, or a list of so many zeros alone.
ROOT = message(3)
CAPABILITY = message(1 << 48, 3)


def number(value):
    return message(1 << 32, value)


def zeros(count):
    return message(1 << 48, count << 35 | 5 << 32 | 1, *[0] * count)


def made(lines, calls, told, seen):
    """A script that begins with a call of the registry's method and what that gives, and lets go of all in the end."""
    head = ["a bootstrap boot", "a field registry boot -"]
    foot = ["a got root boot 0", "a got thing make 0", "a drop root", "a drop thing", "a drop registry", "a drop it"]
    return Script([*head, *lines, *foot, *[f"a finish {call}" for call in ("boot", "make", *calls)]], told, seen)


def thousand():
    """A thousand calls on what a call will give, before anything came back."""
    calls = [f"c{i}" for i in range(1000)]
    lines = [f"a call make registry {REGISTRY} 0 -", "a field it make 0"]
    lines += [f"a call {call} it {COUNTER} 0 -" for call in calls] + ["a turn"] * 1002
    told = [ended(0, ROOT, [2]), ended(1, CAPABILITY, [3])] + [ended(2 + i, number(0)) for i in range(1000)] + [DONE]
    return made(lines, calls, told, ["registry makeCounter", *["counter add"] * 1000, "counter gone", "client gone"])


def streaming():
    """A stream of writes, of which at most four have not ended, and how much came in the end."""
    lines = [f"a call make registry {REGISTRY} 2 -", "a field it make 0", "a turn", "a turn"]
    for i in range(200):
        lines += [f"a call w{i % 4} it {SINK} 0 -"]
        if i >= 3:
            lines += ["a turn", f"a finish w{(i - 3) % 4}"]
    lines += [f"a call end it {SINK} 1 -"] + ["a turn"] * 4
    told = [ended(0, ROOT, [2]), ended(1, CAPABILITY, [3])] + [ended(2 + i, message(0)) for i in range(200)]
    told += [ended(202, message(2 << 32, 0, 0)), DONE]
    return made(lines, ["w1", "w2", "w3", "end"], told, ["registry makeSink", *["sink write"] * 200, "sink end", "sink gone", "client gone"])


def large():
    """Results of 24,000 bytes: what a printer has printed after so many lines, which go out and come back a hundred at a time."""
    lines = [f"a call make registry {REGISTRY} 1 -", "a field it make 0", "a turn", "a turn"]
    for _ in range(30):
        lines += [f"a call p{i} it {PRINTER} 0 -" for i in range(100)] + ["a turn"] * 100 + [f"a finish p{i}" for i in range(100)]
    lines += [f"a call all it {PRINTER} 1 -", "a turn"]
    told = [ended(0, ROOT, [2]), ended(1, CAPABILITY, [3])] + [ended(2 + i, number(1 + i)) for i in range(3000)]
    told += [ended(3002, zeros(3000)), DONE]
    seen = ["registry makePrinter", *["printer print"] * 3000, "printer printed", "printer gone", "client gone"]
    return made(lines, ["all"], told, seen)


def many_given():
    """A call that is given an own object 2,000 times, of which one comes back."""
    lines = ["a host own 5", f"a call make registry {REGISTRY} 6 {','.join(['own'] * 2000)}", "a field it make 0", "a turn", "a turn"]
    told = [ended(0, ROOT, [3]), ended(1, CAPABILITY, [4]), DONE]
    script = made(lines, [], told, ["registry same", "client gone"])
    script.lines += ["a drop own", "a turn"]
    return script


LONG = {"thousand": thousand, "streaming": streaming, "large": large, "many-given": many_given}
