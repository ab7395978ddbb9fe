//! Why a vat went down.

use crate::numbered::{numbered, shown_name};

const BYTES: &str =
    "The peer sent bytes that are no Cap'n Proto message. Capture the stream, and compare with `capnp decode`.";
const PEER: &str = "The peer broke the protocol. Capture both directions, print them with `rpc_dump`, and show them to the peer's maker.";

numbered! {
    /// Why a vat went down, if it was not its application that shut it: [`Fault::of`] says it of the number of
    /// [`Event::Down`](crate::Event::Down). The numbers 2 to 12 are also why bytes are no payload.
    #[non_exhaustive]
    Fault of u16:

    2 Short: "The bytes end before the segment table, its padding or the segments do",
        "The peer's stream ended inside a message: it was cut off. Connect again.";
    3 TooManySegments: "More than 16 segments", "Have the peer build messages with a larger first segment.";
    4 TooLarge: "More than 65,536 words in all segments",
        "Have the peer split what it sends over several calls: a message has at most 512 KiB.";
    5 Trailing: "Bytes after the last segment, or padding that is not zero", BYTES;
    6 OutOfBounds: "A pointer leads out of its segment or to no segment, or there is no root pointer", BYTES;
    7 BadFar: "A landing pad that is none", BYTES;
    8 BadTag: "A composite list whose tag is no struct pointer or promises more than there is", BYTES;
    9 BadOther: "A pointer of the fourth kind that is no capability", BYTES;
    10 CapIndex: "A capability that is not in the table", BYTES;
    11 Depth: "Contents nested more than 64 deep", "Have the peer send contents that nest less deeply.";
    12 Traversal: "More than 65,536 words visited",
        "Have the peer send less in one message. Contents to which several pointers lead count once for each.";
    20 QuestionInUse: "A Bootstrap's or a Call's question id is that of an answer", PEER;
    21 UnknownQuestion: "There is no such question, or it has returned", PEER;
    22 UnknownExport: "There is no such export", PEER;
    23 UnknownAnswer: "There is no such answer, or its Finish has come", PEER;
    24 OverRelease: "More is given back than an export's count, or nothing", PEER;
    25 ResolvedTwice: "A Resolve of a promise that had its Resolve", PEER;
    26 NotAPromise: "A Resolve of an import that is no promise", PEER;
    27 DisembargoNotLoopback: "The target of a Disembargo does not lead back to its sender's side", PEER;
    28 UnknownEmbargo: "There is no such embargo", PEER;
    29 KindMismatch: "A descriptor of another kind than its import's, or of an import that had its Resolve",
        "The peer named a promise again after its Resolve. A connection hears other names in the kind of the first one. Capture both directions, print them with `rpc_dump`, and show them to the peer's maker.";
    30 BadPayload: "The payload's capabilities and the descriptors differ in number", PEER;
    31 HeldLimit: "A Call would have to wait where no more may",
        "65,536 calls wait: at promises, for results and under embargoes. Settle promises sooner, or have callers wait for answers.";
    32 UnimplementedAnswer: "A message came back that every vat understands",
        "The peer doesn't know a message that every vat has to know. It can't be served.";
    33 WantOfRoom: "A growth was refused, or a limit would be passed",
        "Look at the limits (docs/protocol.md): finish calls that have ended, drop references, answer tasks. If no table is near its limit, the process lacked memory, or at a connection a message that goes on is too large for a frame.";
    34 PeerAbort: "The peer sent an Abort",
        "The event of going down has the reason of the Abort.";
    60 WrongKind: "A pointer leads to something of another kind than its field has", BYTES;
    61 BadText: "The bytes of a reason don't end with a zero", BYTES;
    62 TooManyDescriptors: "A payload has more than 4,096 descriptors",
        "Have the peer send fewer capabilities in one message.";
    63 NestedUnimplemented: "An Unimplemented of an Unimplemented", PEER;
    64 BadContent: "A content points at a capability that has no descriptor, or is too large to be written by itself",
        BYTES;
    65 UnknownReturn: "A Return of no known kind, or with results that are not understood: its question would stay open for good",
        "The peer speaks a later version of the protocol, or is at fault.";
    66 NothingToTake: "A Return takes the results of a question that is no open tail call, or whose results are taken already",
        PEER;
    67 NoTailCall: "A Return says that results are kept for a tail call, and this vat makes none", PEER;
    68 TooManyRefused: "There are as many refused questions that are not finished as there may be",
        "The peer doesn't finish the calls that were refused. Have it wait for answers.";
}
