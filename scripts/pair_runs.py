#!/usr/bin/env python3
"""Two vats on two threads, many times: 10,000 runs of one script within ten minutes, and 200 drawn scripts. What has to hold: each
run ends with status 0, so its trace is good; each vat's lines of the one script have their order; `check` says of each drawn
trace that it is good, and no call is left without its end.

    python3 scripts/pair_runs.py [SEED]

at the top of the repository, once `rt run` has built `vat_trace` (in its folder); `VAT_TRACE` names another file to run. It prints
the seed and what it saw; the same seed draws the same scripts."""
import os
import random
import subprocess
import sys
import tempfile
import time
from concurrent.futures import ThreadPoolExecutor

VAT_TRACE = os.environ.get("VAT_TRACE", "crates/vat_trace/out/vat_trace")
RUNS, WITHIN = 10_000, 600
DRAWN = 200
AT_ONCE = 4

ONE_CALL = """a bootstrap boot
a field obj boot -
a call one obj 7 1 -
a turn
a turn
a finish one
a finish boot
a drop obj
"""
OF_A = "asked sent born made sent got ended got ended finished sent finished dropped sent".split()
OF_B = "got sent got delivered answered sent".split()

# What both vats begin with, for each its own: their frames are a Bootstrap and three Calls, which the other delivers as its tasks
# 0 to 2, and then the Return of the other's Bootstrap, so that five turns find a frame each.
BEGINNING = """bootstrap boot
field obj boot -
host own 5
promise p0 w0
promise p1 w1
promise p2 w2
call c0 obj 7 1 own,w0
call c1 obj 7 2 w1,own
call c2 obj 7 3 -
clone s0 own
clone s1 w1
field s2 c0 0
turn
turn
turn
turn
turn
take t0 0 0
take t1 0 1
take t2 1 0
take t3 1 1
got root boot 0"""
REFERENCES = "own w0 w1 w2 obj s0 s1 s2 t0 t1 t2 t3 root".split()
# Those that stand for an object of either vat for sure, whatever is resolved: promises that were resolved to them make no circle.
OBJECTS = "own t0 t3 root".split()
CALLS = "c0 c1 c2".split()


def played(script):
    """The trace of a script, which has to end with status 0."""
    with tempfile.NamedTemporaryFile("w", suffix=".script", delete=False) as file:
        file.write(script)
    ran = subprocess.run([VAT_TRACE, "pair", file.name], capture_output=True, text=True, timeout=120)
    if ran.returncode != 0 or ran.stderr:
        raise SystemExit(f"{file.name}: status {ran.returncode}: {ran.stderr}{ran.stdout[-200:]}")
    os.remove(file.name)
    return ran.stdout


def kinds(trace, vat):
    """The kinds of a vat's entries, in order."""
    lines = (line for line in trace.splitlines() if line.endswith(f'"vat":"{vat}"}}'))
    return [line.split('"k":"')[1].split('"')[0] for line in lines]


def one_call(_):
    trace = played(ONE_CALL)
    of_b = kinds(trace, "b")
    assert kinds(trace, "a") == OF_A, trace
    assert of_b[: len(OF_B)] == OF_B and of_b[len(OF_B):] in ([], ["got"], ["got", "got"]), trace
    return of_b.count("got")


def drawn_line(draw, promises):
    """A line of one vat. Each name that it takes is bound, and each that it binds stays bound if it is refused."""
    what = draw.choice(["call", "call", "call", "clone", "drop", "advance", "advance", "finish", "answer", "fail", "settle", "host"])
    ref = draw.choice(REFERENCES)
    caps = draw.choice(["-", "-", ref, f"{ref},{draw.choice(REFERENCES)}"])
    if what == "call":
        return f"call {draw.choice(CALLS)} {draw.choice(REFERENCES)} 7 {draw.randrange(99)} {caps}"
    if what == "clone":
        return f"clone {draw.choice(REFERENCES)} {ref}"
    if what in ("drop", "advance"):
        return f"{what} {ref}"
    if what == "finish":
        return f"finish {draw.choice(CALLS)}"
    if what == "answer":
        return f"answer {draw.randrange(6)} {caps}"
    if what == "fail":
        return f"fail {draw.randrange(6)}"
    if what == "settle" and promises:
        promise = promises.pop()
        return draw.choice([f"reject {promise}", f"resolve {promise} {draw.choice(OBJECTS)}"])
    return f"host own {draw.randrange(9)}"


def drawn_script(draw):
    """Lines of both vats, mixed; in the end each promise is settled."""
    lines = {}
    for vat in "ab":
        promises = ["p0", "p1", "p2"]
        draw.shuffle(promises)
        own = BEGINNING.splitlines() + [drawn_line(draw, promises) for _ in range(draw.randrange(5, 60))]
        own += [f"reject {promise}" for promise in promises]
        lines[vat] = [f"{vat} {line}" for line in own]
    script = []
    while lines["a"] or lines["b"]:
        vat = draw.choice([vat for vat in "ab" if lines[vat]])
        script.append(lines[vat].pop(0))
    return "\n".join(script) + "\n"


def drawn(script):
    trace = played(script)
    with tempfile.NamedTemporaryFile("w", suffix=".trace", delete=False) as file:
        file.write(trace)
    checked = subprocess.run([VAT_TRACE, "check", file.name], capture_output=True, text=True, timeout=120)
    assert checked.returncode == 0 and checked.stdout.startswith("ok: "), (file.name, checked)
    os.remove(file.name)
    entries = [kind for vat in "ab" for kind in kinds(trace, vat)]
    assert "down" not in entries, script
    return entries.count("delivered"), entries.count("advanced")


def main():
    seed = int(sys.argv[1]) if len(sys.argv) > 1 else random.randrange(10**9)
    print("seed", seed, flush=True)
    draw = random.Random(seed)
    with ThreadPoolExecutor(AT_ONCE) as pool:
        began = time.monotonic()
        got = list(pool.map(one_call, range(RUNS)))
        took = time.monotonic() - began
        print(f"{len(got)} runs of one script, each with status 0, in {took:.0f} s; B received", *(f"{n}: {got.count(n)}" for n in sorted(set(got))), flush=True)
        counts = list(pool.map(drawn, [drawn_script(draw) for _ in range(DRAWN)]))
    calls, advanced = (sum(column) for column in zip(*counts))
    print(f"{len(counts)} drawn scripts, each with status 0 and a good verdict: {calls} calls delivered, {advanced} references advanced")
    if took > WITHIN:
        raise SystemExit(f"the runs took longer than {WITHIN} s")


main()
