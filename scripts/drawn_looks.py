#!/usr/bin/env python3
"""Captured conversations with bytes changed, given to `rpc_look`: it always ends with status 0, 1 or 2, and what it says of the
messages before the change stays as it was.

    python3 scripts/drawn_looks.py [--seed S] [N]

at the top of the repository, once `rt run` has built `rpc_look` (in its folder); `RPC_LOOK` names another file to run. It changes N
logs and N pairs of files (500) of `crates/scenes_look/data`, and cuts each pair at random bytes too. It prints its seed, and ends
with 1 where something is wrong."""
import argparse
import os
import random
import subprocess
import sys
import tempfile
from collections import Counter
from pathlib import Path

TOP = Path(__file__).resolve().parent.parent
DATA = TOP / "crates/scenes_look/data"
RPC_LOOK = os.environ.get("RPC_LOOK", TOP / "crates/rpc_look/out/rpc_look")


def look(words, log=None):
    ran = subprocess.run([RPC_LOOK, *words], input=log, capture_output=True, timeout=60)
    return ran.returncode, ran.stdout


def change(draw, text):
    """The text with some bytes changed, left out or put in, and where the first of them stands."""
    changed, at = bytearray(text), draw.randrange(len(text))
    how = draw.choice(["digit", "byte", "less", "more"])
    if how == "digit" and chr(changed[at]) in "0123456789abcdef":
        changed[at] = ord(draw.choice("0123456789abcdef"))
    elif how == "less":
        del changed[at : at + draw.choice([1, 3, 100])]
    elif how == "more":
        changed[at:at] = draw.randbytes(draw.choice([1, 10]))
    else:
        changed[at] = draw.randrange(256)
    return bytes(changed), at


def lines_before(log, at):
    """What is said of the messages that are whole in the pieces before a place."""
    end = max(log.rfind(b"\n>", 0, at), log.rfind(b"\n<", 0, at)) + 1
    said = look([], log[:end])[1] if end else b""
    return [line for line in said.split(b"open after")[0].splitlines() if b" ends inside a message" not in line]


def try_log(draw, log):
    changed, at = change(draw, log)
    status, said = look([], changed)
    before = lines_before(log, at)
    wrong = "" if said.splitlines()[: len(before)] == before else f"what is said before byte {at} changed"
    return status, wrong


def try_two(draw, folder, pair):
    files = [folder / "to", folder / "from"]
    for file, text in zip(files, pair):
        cut = text[: draw.randrange(len(text)) + 1]
        file.write_bytes(change(draw, cut)[0] if draw.random() < 0.7 else cut)
    return look(["--two", *files])[0], ""


def main():
    words = argparse.ArgumentParser(description=__doc__, formatter_class=argparse.RawDescriptionHelpFormatter)
    words.add_argument("--seed", type=int, default=random.randrange(2**32))
    words.add_argument("count", type=int, nargs="?", default=500, metavar="N")
    asked = words.parse_args()
    draw, statuses, faults = random.Random(asked.seed), Counter(), []
    print(f"seed {asked.seed}")
    logs = sorted(DATA.glob("*.log"))
    pair = [(DATA / f"pipelining.{end}").read_bytes() for end in ("to", "from")]
    with tempfile.TemporaryDirectory() as folder:
        for number in range(2 * asked.count):
            name = draw.choice(logs)
            status, wrong = try_two(draw, Path(folder), pair) if number % 2 else try_log(draw, name.read_bytes())
            statuses[status] += 1
            if wrong or status not in (0, 1, 2):
                faults.append(f"input {number} ({name.stem}): status {status}; {wrong}")
    print(*faults, f"statuses: {dict(sorted(statuses.items()))}; {len(faults)} wrong", sep="\n")
    sys.exit(1 if faults else 0)


if __name__ == "__main__":
    main()
