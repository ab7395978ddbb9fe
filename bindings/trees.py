#!/usr/bin/env python3
"""Trees in C beside `capnp encode` and `capnp decode`, on drawn values of c/trees.capnp.

    bindings/trees.py PROGRAM..

The program is that of c/trees.c, with what it is run under before it. It builds each value, and `capnp decode` has to read that value
from what it writes; and it reads each number, text, list and null pointer of the value from what `capnp encode` wrote. It prints what
differs, and ends with status 1 if something does."""
import random
import subprocess
import sys
from pathlib import Path

SCHEMA = Path(__file__).resolve().parent / "c/trees.capnp"
SEED, VALUES, PER_RUN = 20260, 200, 50
# Each field's pointer or place: `(width, index)` of a number, the pointer of the others.
LEAF = {"number": (16, 0), "flag": (1, 16), "name": 0}
ROOT = {"byte": (8, 0), "flag": (1, 8), "two": (16, 1), "four": (32, 1), "eight": (64, 1), "text": 0, "data": 1, "bits": 2, "bytes": 3,
        "twos": 4, "fours": 5, "eights": 6, "leaf": 7, "leaves": 8, "texts": 9, "lists": 10, "below": 11}
SIZES = {"Leaf": (1, 1), "Root": (2, 12)}
WIDTHS = {"bits": 1, "bytes": 8, "twos": 16, "fours": 32, "eights": 64}


def drawn_text(draw):
    return "".join(draw.choice('abc "\\\u00e9\u4e2d\U0001f600\n') for _ in range(draw.choice((0, 1, 7, 8, 30))))


def drawn_numbers(draw, width):
    return [draw.getrandbits(width) for _ in range(draw.choice((0, 1, 2, 9, 70)))]


def drawn_leaf(draw):
    return {"number": draw.getrandbits(16), "flag": draw.getrandbits(1), "name": drawn_text(draw)}


def drawn_root(draw, depth=0):
    """A value; fields that hold a pointer may be left out, which is null."""
    made = {name: draw.getrandbits(ROOT[name][0]) for name in ("byte", "flag", "two", "four", "eight")}
    pointers = {
        "text": lambda: drawn_text(draw),
        "data": lambda: draw.randbytes(draw.choice((0, 1, 8, 33))),
        **{name: lambda width=width: drawn_numbers(draw, width) for name, width in WIDTHS.items()},
        "leaf": lambda: drawn_leaf(draw),
        "leaves": lambda: [drawn_leaf(draw) for _ in range(draw.choice((0, 1, 5)))],
        "texts": lambda: [drawn_text(draw) for _ in range(draw.choice((0, 1, 5)))],
        "lists": lambda: [drawn_numbers(draw, 16) for _ in range(draw.choice((0, 1, 5)))],
        "below": lambda: drawn_root(draw, depth + 1),
    }
    for name, draws in pointers.items():
        if draw.random() < (0.7 if name != "below" or depth < 3 else 0):
            made[name] = draws()
    return made


# ---- values in the text of `capnp`

def quoted(data):
    """`capnp encode` takes a bracket for one of its own, also in a text."""
    return '"' + "".join(chr(byte) if chr(byte).isascii() and chr(byte).isalnum() else f"\\x{byte:02x}" for byte in data) + '"'


def as_text(name, value):
    if name in ("flag",):
        return "true" if value else "false"
    if isinstance(value, dict):
        return "(" + ", ".join(f"{key} = {as_text(key, it)}" for key, it in value.items()) + ")"
    if isinstance(value, str):
        return quoted(value.encode())
    if isinstance(value, bytes):
        return quoted(value)
    if isinstance(value, list):
        return "[" + ", ".join(as_text("flag" if name == "bits" else "", it) for it in value) + "]"
    return str(value)


def capnp(how, given):
    """What `capnp` gives, or nothing if it refuses."""
    ran = subprocess.run(["capnp", how, str(SCHEMA), "Root"], input=given, capture_output=True)
    return ran.stdout if ran.returncode == 0 and not ran.stderr else None


def encoded(value):
    """The message that `capnp encode` makes of a value."""
    message = capnp("encode", as_text("", value).encode())
    if message is None:
        sys.exit(f"capnp encode refuses {as_text('', value)}")
    return message


# ---- the program

class Program:
    """Lines for a run of the program, with what is done with the answer to each."""

    def __init__(self, words):
        self.words, self.lines, self.wanted = words, ["new"], ["0"]

    def say(self, line, wanted):
        self.lines.append(line)
        self.wanted.append(wanted)

    def run(self):
        """The answers, and what differs from what is wanted; what is not wanted in advance is `None`."""
        ran = subprocess.run(self.words, input="\n".join(self.lines) + "\n", capture_output=True, text=True)
        answers = ran.stdout.splitlines()
        wrong = [f"{line[:200]}: {is_[:200]}, not {it[:200]}" for line, is_, it in zip(self.lines, answers, self.wanted) if it is not None and is_ != it]
        if ran.returncode or ran.stderr or len(answers) != len(self.lines):
            wrong.append(f"status {ran.returncode}, {len(answers)} answers to {len(self.lines)} lines: {ran.stderr}")
        return answers, wrong


class Builder:
    """Has the program build values; `next` is the number that stands next."""

    def __init__(self, program, next_number=0):
        self.program, self.next = program, next_number

    def begun(self, line):
        self.program.say(line, f"0 {self.next}")
        self.next += 1
        return self.next - 1

    def struct(self, kind, value):
        places = LEAF if kind == "Leaf" else ROOT
        at = self.begun("struct {} {}".format(*SIZES[kind]))
        for name, it in value.items():
            if isinstance(places[name], tuple):
                self.program.say("set_number {} {} {} {}".format(at, *places[name], it), "0")
            else:
                self.pointer(at, places[name], name, it)
        return at

    def pointer(self, at, pointer, name, value):
        if isinstance(value, (str, bytes)):
            how, data = ("text", value.encode()) if isinstance(value, str) else ("data", value)
            self.program.say(f"set_{how} {at} {pointer} x{data.hex()}", "0")
        elif isinstance(value, dict):
            self.put(at, pointer, self.struct("Leaf" if name == "leaf" else "Root", value))
        elif name in WIDTHS or (value and isinstance(value[0], int)):
            self.program.say(" ".join(map(str, (f"set_numbers {at} {pointer} {WIDTHS.get(name, 16)}", *value))), "0")
        elif name == "leaves":
            items = self.begun("structs {} {}".format(*SIZES["Leaf"]))
            for it in value:
                self.program.say(f"push {items} {self.struct('Leaf', it)}", "0")
            self.put(at, pointer, items)
        elif name in ("texts", "lists"):
            items = self.begun(f"list {len(value)}")
            for index, it in enumerate(value):
                self.pointer(items, index, "", it)
            self.put(at, pointer, items)
        else:
            self.program.say(f"set_numbers {at} {pointer} 16", "0")

    def put(self, at, pointer, made):
        self.program.say(f"put {at} {pointer} {made}", "0")


def asks(program, at, path, name, value):
    """Asks the program for all of a value that it read; what is left out is null."""
    way = "".join(f"/{step}" for step in path) or "/"
    if isinstance(value, dict):
        places = LEAF if "number" in value else ROOT
        program.say(f"kind {at} {way}", "0 1 0")
        for key, place in places.items():
            if isinstance(place, tuple):
                program.say(f"number {at} {way} {place[0]} {place[1]}", f"0 {value.get(key, 0)}")
            elif key in value:
                asks(program, at, [*path, place], key, value[key])
            else:
                program.say(f"kind {at} {''.join(f'/{step}' for step in [*path, place])}", "0 0 0")
    elif isinstance(value, (str, bytes)):
        how, data = ("text", value.encode()) if isinstance(value, str) else ("data", value)
        program.say(f"{how} {at} {way} {len(data)}", f"0 x{data.hex()}")
        if data:
            program.say(f"{how} {at} {way} {len(data) - 1}", f"103 {len(data)}")
    else:
        program.say(f"kind {at} {way}", f"0 2 {len(value)}")
        for index, it in enumerate(value):
            if isinstance(it, int):
                program.say(f"number {at} {way} {WIDTHS.get(name, 16)} {index}", f"0 {it}")
            else:
                asks(program, at, [*path, index], "", it)


def built(words, values):
    """The values are built by the program, and `capnp decode` reads them."""
    program, roots = Program(words), []
    builder = Builder(program)
    for value in values:
        root = builder.struct("Root", value)
        program.say(f"write {root} 0 8", None)
        program.say(f"write {root} 0 524288", None)
        roots.append(len(program.lines) - 1)
    answers, wrong = program.run()
    for line, value in zip(roots, values):
        message = bytes.fromhex(answers[line].removeprefix("0 x")) if answers[line].startswith("0 x") else b""
        if answers[line - 1] != f"103 {len(message)}":
            wrong.append(f"{len(message)} bytes are written, and the length is {answers[line - 1]}")
        wanted = capnp("decode", encoded(value))
        if wanted is None or capnp("decode", message) != wanted:
            wrong.append(f"capnp decode reads something else than {value}")
    return wrong


def read(words, values):
    """What `capnp encode` wrote of the values is read by the program."""
    program = Program(words)
    for at, value in enumerate(values):
        program.say(f"read 0 x{encoded(value).hex()}", f"0 {at}")
        asks(program, at, [], "", value)
    return program.run()[1]


def main():
    draw, wrong = random.Random(SEED), []
    values = [drawn_root(draw) for _ in range(VALUES)]
    for start in range(0, VALUES, PER_RUN):
        for played in (built, read):
            wrong += played(sys.argv[1:], values[start : start + PER_RUN])
    print("\n".join(wrong[:9]) or f"{VALUES} values agree")
    return 1 if wrong else 0


if __name__ == "__main__":
    sys.exit(main())
