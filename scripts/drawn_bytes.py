#!/usr/bin/env python3
"""Drawn bytes for the readers of messages and of streams: a million random bytes, 20,000 mutated envelopes, and streams of
them. What has to hold: no program breaks off, each input has its answer, a message that is encoded is read as it was, and
a stream says what its frames say, up to the first fault.

    python3 scripts/drawn_bytes.py [SEED]

at the top of the repository, once `rt run` has built `rpc_dump` and `scenes_bytes` (in their folders); `RPC_DUMP` and
`BYTES_SCENES` name other files to run. The envelopes that are mutated are those of `scenes_bytes`. It prints the seed, and
what it saw; the same seed draws the same bytes."""
import json
import os
import random
import subprocess
import sys
import tempfile

DUMP = os.environ.get("RPC_DUMP", "crates/rpc_dump/out/rpc_dump")
SCENES = os.environ.get("BYTES_SCENES", "crates/scenes_bytes/out/scenes_bytes")
ENVELOPES = "crates/scenes_bytes/stdin"
RANDOM_BYTES = 1_000_000
MUTATED = 20_000
STREAMS = 400


def ended(words, data):
    """A program's output, what it said of a failure, and its status; it may not break off."""
    ran = subprocess.run(words, input=data, stdout=subprocess.PIPE, stderr=subprocess.PIPE, timeout=600)
    if ran.returncode not in (0, 1, 2):
        with tempfile.NamedTemporaryFile(delete=False) as kept:
            kept.write(data)
        raise SystemExit(f"{words} broke off with {ran.returncode}: {kept.name}")
    return ran.stdout.decode(), ran.stderr.decode(), ran.returncode


def in_hex(frames):
    return "".join(frame.hex() + "\n" for frame in frames).encode()


def said(frames, *options):
    """The line of each frame, read by itself."""
    out, error, status = ended([DUMP, "--hex", *options], in_hex(frames))
    lines = out.splitlines()
    assert status == 0, (status, error)
    assert len(lines) == len(frames), (len(lines), len(frames))
    return lines


def framed(words):
    """Bytes as the one segment of a frame."""
    return bytes(4) + (len(words) // 8).to_bytes(4, "little") + words


def random_pieces(draw):
    """A million bytes in pieces; every second piece is a segment behind its table, so that it is read as an envelope."""
    left, pieces = RANDOM_BYTES, []
    while left > 0:
        piece = draw.randbytes(min(left, draw.randrange(200)))
        left -= len(piece)
        pieces.append(framed(piece[: len(piece) // 8 * 8]) if len(pieces) % 2 else piece)
    return pieces


def changed(draw, frame, others):
    """A frame with one thing changed."""
    frame = bytearray(frame)
    at = draw.randrange(len(frame) or 1)
    word = at // 8 * 8
    kind = draw.randrange(8)
    if kind == 0:
        frame[at : at + 1] = bytes([draw.randrange(256)])
    elif kind == 1:
        frame[at : at + 1] = bytes([(frame[at] if frame else 0) ^ 1 << draw.randrange(8)])
    elif kind == 2:
        del frame[at:]
    elif kind == 3:
        frame += draw.randbytes(draw.randrange(1, 17))
    elif kind == 4:
        frame[word : word + 8] = draw.randbytes(8)
    elif kind == 5:
        source = draw.randrange(len(frame) // 8 + 1) * 8
        frame[word : word + 8] = frame[source : source + 8]
    elif kind == 6:
        frame[word : word + 4] = draw.choice([0, 1, 0x7FFFFFFF, 0xFFFFFFFF, 0xFFFFFFFC, 65_536]).to_bytes(4, "little")
    else:
        other = draw.choice(others)
        frame[word:] = other[word:]
    return bytes(frame)


def mutated(draw, envelopes):
    """Envelopes with one to four changes; some get a table that fits again."""
    frames = []
    for _ in range(MUTATED):
        frame = draw.choice(envelopes)
        for _ in range(draw.randrange(1, 5)):
            frame = changed(draw, frame, envelopes)
        if draw.randrange(2) and len(frame) >= 8 and frame[:4] == bytes(4):
            frame = framed(frame[8 : len(frame) // 8 * 8])
        frames.append(frame)
    return frames


def encoded(frames):
    """What `scenes_bytes` says of each frame; None of a message that can't be encoded, at which it ends."""
    answers = []
    while len(answers) < len(frames):
        out, error, status = ended([SCENES], in_hex(frames[len(answers) :]))
        answers += out.splitlines()
        assert (status == 0) == (len(answers) == len(frames)), (status, error, len(answers))
        if status != 0:
            answers.append(None)
    return answers


def read_again(frames, lines):
    """Each frame that was encoded is read as what it said before. How many messages, echoes and faults there were."""
    again, wanted = [], []
    counts = {"messages": 0, "unknown": 0, "faults": 0, "others": 0}
    for line, answer in zip(lines, encoded(frames)):
        kind, *rest = (answer or "none").split(" ")
        if kind == "fault":
            assert line == f'{{"fault":{rest[0]}}}', (line, answer)
            counts["faults"] += 1
        elif kind == "unknown":
            assert line == f'{{"unknown":{rest[0]}}}', (line, answer)
            again.append(bytes.fromhex(rest[1]))
            wanted.append(f'{{"unimplemented":{{"other":{rest[0]}}}}}')
            counts["unknown"] += 1
        elif kind in ("message", "tailCall"):
            again.append(bytes.fromhex(rest[0]))
            wanted.append(line.replace('{"tailCall"', '{"call"', 1))
            counts["messages"] += 1
        else:
            counts["others"] += 1
    for frame, line, want in zip(again, said(again, "--payloads"), wanted):
        assert line == want, (frame.hex(), line, want)
    return counts


def front(data):
    """The length of the frame at the front of bytes, or the fault of what is none."""
    if len(data) < 4:
        return None, 2
    count = int.from_bytes(data[:4], "little") + 1
    if count > 16:
        return None, 3
    table = 8 * ((count + 2) // 2)
    if len(data) < table:
        return None, 2
    words = sum(int.from_bytes(data[4 + 4 * k : 8 + 4 * k], "little") for k in range(count))
    if words > 65_536:
        return None, 4
    end = table + 8 * words
    return (end, None) if end <= len(data) else (None, 2)


def parted(data):
    """The frames of a stream, and the fault of what is behind them."""
    frames = []
    while data:
        end, fault = front(data)
        if fault:
            return frames, fault
        frames.append(data[:end])
        data = data[end:]
    return frames, None


def stream_says(data):
    """What is wanted of a stream, from its frames one by one: its lines, and the first line on standard error."""
    frames, fault = parted(data)
    lines = said(frames)
    for number, line in enumerate(lines):
        if line.startswith('{"fault":'):
            return lines[:number], f"message {number + 1}: fault {json.loads(line)['fault']}"
    return lines, f"message {len(frames) + 1}: fault {fault}" if fault else ""


def stream(draw, envelopes):
    """Some hundred frames, one of which may be changed."""
    frames = [draw.choice(envelopes) for _ in range(draw.randrange(1, 200))]
    if draw.randrange(4):
        at = draw.randrange(len(frames))
        frames[at] = changed(draw, frames[at], envelopes)
    return b"".join(frames)


def main():
    seed = int(sys.argv[1]) if len(sys.argv) > 1 else random.SystemRandom().randrange(1 << 32)
    print(f"seed {seed}", flush=True)
    draw = random.Random(seed)
    with open(ENVELOPES) as lines:
        envelopes = [bytes.fromhex(line) for line in lines]

    pieces = random_pieces(draw)
    faults = sum(line.startswith('{"fault":') for line in said(pieces, "--payloads"))
    print(f"{RANDOM_BYTES} random bytes in {len(pieces)} pieces: {len(pieces) - faults} are messages or unknown")

    frames = mutated(draw, envelopes)
    lines = said(frames, "--payloads")
    for line in lines:
        json.loads(line)
    print(f"{MUTATED} mutated envelopes:", read_again(frames, lines))

    good = [frame for frame, line in zip(envelopes, said(envelopes)) if not line.startswith('{"fault":')]
    whole = 0
    for _ in range(STREAMS):
        data = stream(draw, good)
        wanted, failure = stream_says(data)
        out, error, status = ended([DUMP], data)
        assert (out.splitlines(), error.partition("\n")[0], status) == (wanted, failure, 2 if failure else 0), data.hex()
        whole += status == 0
    print(f"{STREAMS} streams: {whole} to their ends")


if __name__ == "__main__":
    main()
