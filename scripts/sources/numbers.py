"""docs/numbers.md: each number that an application or a user of a program sees, from the enums of the sources."""
import re
from dataclasses import dataclass

from . import crates

PEER = "The peer broke the protocol. Capture both directions, print them with `rpc_dump`, and show them to the peer's maker."
BYTES = "The peer sent bytes that are no Cap'n Proto message. Capture the stream, and compare with `capnp decode`."

SECTIONS = [
    (
        "Why a vat went down",
        """A vat goes down once, with one number. The event `Down` of a connection or a host has it, `lovendak_down` in C, and a `down` entry
in a trace. The Abort that the vat sends has the reason `fault N` (kind `failed`). An application that shuts its vat chooses the number;
0 is usual, and is also the number if the peer's stream ends between two messages. Numbers 2 to 12 and 60 to 68 come only over bytes.
At a connection a call or an answer that breaks a limit (4 up to 64 MiB, 11, 12 and 62) fails its call alone, if the beginning of the
message says which call that is ([messages.md](messages.md#messages-that-are-too-large)).
After the vat went down, drop it, and connect again with a new one.
If the peer sends an Abort with `fault N`, your own vat goes down with 34. Then row N says what the peer found wrong with the messages of
your side: read it with the roles exchanged.""",
        "Fault",
        ["capn_trees::PayloadFault", "rpc_machine::Fault", "rpc_codec_parts::EnvelopeFault", "peer_tail_calls::AdapterFault", "peer_overload::OverloadFault"],
        {
            "PayloadFault::Memory": None,  # a vat that lacks memory goes down with 33
            "PayloadFault::Short": "The peer's stream ended inside a message: it was cut off. Connect again.",
            "PayloadFault::TooManySegments": "Have the peer build messages with a larger first segment.",
            "PayloadFault::TooLarge": "Have the peer split what it sends over several calls: a message has at most 512 KiB.",
            "PayloadFault::Trailing": BYTES,
            "PayloadFault::OutOfBounds": BYTES,
            "PayloadFault::BadFar": BYTES,
            "PayloadFault::BadTag": BYTES,
            "PayloadFault::BadOther": BYTES,
            "PayloadFault::CapIndex": BYTES,
            "PayloadFault::Depth": "Have the peer send contents that nest less deeply.",
            "PayloadFault::Traversal": "Have the peer send less in one message. Contents to which several pointers lead count once for each.",
            "Fault::QuestionInUse": PEER,
            "Fault::UnknownQuestion": PEER,
            "Fault::UnknownExport": PEER,
            "Fault::UnknownAnswer": PEER,
            "Fault::OverRelease": PEER,
            "Fault::ResolvedTwice": PEER,
            "Fault::NotAPromise": PEER,
            "Fault::DisembargoNotLoopback": PEER,
            "Fault::UnknownEmbargo": PEER,
            "Fault::KindMismatch": "The peer named a promise again after its Resolve. A connection hears other names in the kind of the first one. Capture both directions, print them with `rpc_dump`, and show them to the peer's maker.",
            "Fault::BadPayload": PEER,
            "Fault::HeldLimit": "65,536 calls wait: at promises, for results and under embargoes. Settle promises sooner, or have callers wait for answers.",
            "Fault::UnimplementedAnswer": "The peer doesn't know a message that every vat has to know. It can't be served.",
            "Fault::WantOfRoom": "Look at the limits ([protocol.md](protocol.md)): finish calls that have ended, drop references, answer tasks. If no table is near its limit, the process lacked memory, or at a connection a message that goes on is too large for a frame.",
            "Fault::PeerAbort": "The event of going down has the reason of the Abort.",
            "EnvelopeFault::WrongKind": BYTES,
            "EnvelopeFault::BadText": BYTES,
            "EnvelopeFault::TooManyDescriptors": "Have the peer send fewer capabilities in one message.",
            "EnvelopeFault::NestedUnimplemented": PEER,
            "EnvelopeFault::BadContent": BYTES,
            "EnvelopeFault::UnknownReturn": "The peer speaks a later version of the protocol, or is at fault.",
            "AdapterFault::NothingToTake": PEER,
            "AdapterFault::NoTailCall": PEER,
            "OverloadFault::QuestionInUse": PEER,
            "OverloadFault::TooManyRefused": "The peer doesn't finish the calls that were refused. Have it wait for answers.",
        },
    ),
    (
        "Why a command is refused",
        """A refused command returns its arguments. In C these are the results of the functions, `LOVENDAK_..`. A trace has them in its
`refused` entries.""",
        "Refusal",
        ["rpc_machine::Refusal"],
        {
            "Refusal::Memory": "Free memory, and try again.",
            "Refusal::Full": "Finish calls, drop references or settle promises, and try again. Over bytes it may be the size of the contents: send less in one call.",
            "Refusal::Down": "Let the vat go, and connect again with a new one.",
            "Refusal::UnknownRef": "The reference was dropped, or is another vat's: keep the ids of each vat apart.",
            "Refusal::UnknownCall": "Each call is finished once. Keep the ids of each vat apart.",
            "Refusal::UnknownTask": "Each task is answered once, by `answer` or `fail`. Keep the ids of each vat apart.",
            "Refusal::UnknownPromise": "Each promise is settled once, by `resolve` or `reject`. Keep the ids of each vat apart.",
            "Refusal::Cycle": "Resolve the promise to something else, or reject it.",
            "Refusal::CapCount": "Give one reference for each capability of the payload, in order.",
            "Refusal::LongPath": "Wait for the results: each of their capabilities comes as a reference.",
            "Refusal::Level": "Make the vat one of level 1.",
        },
    ),
    (
        "Further results of the C functions",
        "Results of the functions in `bindings/c/lovendak.h` beside 0, which is success, and the refusals above.",
        "Code",
        ["bindings/c/lovendak.h"],
        {
            "LOVENDAK_EMPTY_HANDLE": "Call `lovendak_new` first, or `lovendak_tree_new`.",
            "LOVENDAK_IN_USE": "Call `lovendak_free` first, or `lovendak_tree_free`.",
            "LOVENDAK_NO_PAYLOAD": "Write the contents as one framed message, and the text as UTF-8.",
            "LOVENDAK_ROOM": "Make the room as large as the lengths say, and call again.",
            "LOVENDAK_NOTHING": "Nothing is to be done.",
            "LOVENDAK_NO_SUCH_NUMBER": "Look up the argument at the function in the header.",
        },
    ),
    (
        "Why bytes are no payload, and why a tree can't be written",
        """`Payload::read` and the functions over it refuse bytes by the numbers 1 to 12 above (`capn_trees::PayloadFault`; 1 is `Memory`).
These are the reasons for which a tree of contents can't be written.""",
        "Fault",
        ["capn_trees::WriteFault"],
        {
            "WriteFault::Memory": "Free memory, and try again.",
            "WriteFault::TooLarge": "Send less in one message.",
            "WriteFault::BadTag": "Give all structs of a list the same lengths.",
            "WriteFault::CapIndex": "Add the capability to the table.",
            "WriteFault::Depth": "Nest the contents less deeply.",
            "WriteFault::Traversal": "Send less in one message.",
        },
    ),
    (
        "Why a link is not made, or an end shuts",
        "Of the two ends of a link over rings ([threads.md](threads.md)). The numbers 41 and 42 shut an end. With the others, no link is made or no end runs.",
        "Fault",
        ["link_rings::LinkFault"],
        {
            "LinkFault::Memory": "Free memory, and try again.",
            "LinkFault::BadCapacity": "Choose a capacity within these bounds.",
            "LinkFault::BadSeq": "The frame was not made by the other end of this link.",
            "LinkFault::BadAck": "The frame was not made by the other end of this link.",
            "LinkFault::NoThread": "The system gave no thread. Both ends are handed back.",
        },
    ),
    (
        "Why a line of a trace is refused",
        "The M of `trace line N: fault M`, which `vat_trace` and `trace_chart` print. [trace.md](trace.md) says what a line has.",
        "Fault",
        ["trace_json::TraceFault"],
        {
            "TraceFault::Memory": "Free memory, and try again.",
            "TraceFault::NotJson": "See that each line is one JSON value.",
            "TraceFault::WrongShape": "Compare the keys and values with [trace.md](trace.md).",
            "TraceFault::BadBase64": "Write the payload again.",
            "TraceFault::BadPayload": "See that the payload goes with its number of capabilities.",
            "TraceFault::Version": "`vat_trace upgrade FILE` writes the trace in the newer version.",
        },
    ),
]


@dataclass(frozen=True)
class Number:
    value: int
    key: str  # `Enum::Variant`, or the constant of the header
    meaning: str


def of_enum(path):
    """The numbers of an enum whose `code` or `number` says them, and what its comments say of each."""
    crate, enum = path.split("::")
    for file in sorted((crates.ROOT / "crates" / crate / "src").rglob("*.rt")):
        text = file.read_text()
        body = re.search(rf"pub enum {enum} \{{\n(.*?)\n\}}", text, re.S)
        if body:
            variants = re.findall(r"((?:    ///[^\n]*\n)*)(?:    #\[[^\n]*\n)*    (\w+)(?:\([^\n]*\))?,", body[1] + "\n")
            meanings = {name: " ".join(line.strip()[3:].strip() for line in said.splitlines()) for said, name in variants}
            found = re.findall(rf"\b{enum}::(\w+)(?:\([^\n]*\))? => (\d+),", text)
            return [Number(int(value), f"{enum}::{name}", meanings[name]) for name, value in found]
    raise SystemExit(f"numbers: no enum {path}")


def of_header(path):
    """The constants of the header from 100 on, and their comments."""
    found = re.findall(r"  LOVENDAK_(\w+) = (1\d\d),? +/\* (.*?) \*/", (crates.ROOT / path).read_text())
    return [Number(int(value), f"LOVENDAK_{name}", said[:1].upper() + said[1:]) for name, value, said in found]


def rows(sources, advice):
    numbers = [it for source in sources for it in (of_enum(source) if "::" in source else of_header(source))]
    unsaid = {it.key for it in numbers} ^ advice.keys()
    if unsaid:
        raise SystemExit(f"numbers: what is to be done about {', '.join(sorted(unsaid))}? (scripts/sources/numbers.py)")
    for it in sorted(numbers, key=lambda number: number.value):
        if advice[it.key]:
            name = it.key.split("::")[-1]
            yield f"| {it.value} | `{name}` | {it.meaning.rstrip('.')} | {advice[it.key]} |"


def draw():
    parts = ["# Numbers\n\nWhat each number of a vat, the library or a program means, and what to do about it. `scripts/pages` writes this page from the sources.\n"]
    for title, about, kind, sources, advice in SECTIONS:
        table = "\n".join(rows(sources, advice))
        where = ", ".join(f"`{it}`" for it in sources)
        about = " ".join(about.split())
        parts.append(f"## {title}\n\n{about} ({where})\n\n| {kind} | Name | Meaning | What to do |\n|---|---|---|---|\n{table}\n")
    return "\n".join(parts)
