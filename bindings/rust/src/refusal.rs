//! Why a command is refused.

use crate::ffi;
use crate::numbered::{numbered, shown_name};

numbered! {
    /// Why a command is refused. Nothing is changed then.
    Refusal of u32:

    1 Memory: "A growth was refused", "Free memory, and try again.";
    2 Full: "A table, a count or a number would pass its limit",
        "Finish calls, drop references or settle promises, and try again. Over bytes it may be the size of the contents: send less in one call.";
    3 Down: "The vat is down", "Let the vat go, and connect again with a new one.";
    4 UnknownRef: "There is no such reference",
        "The reference was dropped, or is another vat's: keep the ids of each vat apart.";
    5 UnknownCall: "There is no such call, or it was finished",
        "Each call is finished once. Keep the ids of each vat apart.";
    6 UnknownTask: "There is no such task, or it was answered",
        "Each task is answered once, by `answer` or `fail`. Keep the ids of each vat apart.";
    7 UnknownPromise: "There is no such promise, or it was settled",
        "Each promise is settled once, by `resolve` or `reject`. Keep the ids of each vat apart.";
    8 Cycle: "The promise would be settled to itself", "Resolve the promise to something else, or reject it.";
    9 CapCount: "The payload has another number of capabilities than references were given",
        "Give one reference for each capability of the payload, in order.";
    10 LongPath: "The path has more than 16 steps",
        "Wait for the results: each of their capabilities comes as a reference.";
    11 Level: "A vat of level 0 has no promises and sends no references", "Make the vat one of level 1.";
    102 NoPayload "LOVENDAK_NO_PAYLOAD": "The bytes are no payload, or the text is no UTF-8",
        "Write the contents as one framed message, and the text as UTF-8.";
}

impl Refusal {
    /// What a code of a function says that can answer refusals alone.
    pub(crate) fn check(code: u32) -> Result<(), Refusal> {
        match (code, Refusal::of(code)) {
            (ffi::OK, _) => Ok(()),
            (_, Some(refusal)) => Err(refusal),
            (code, None) => unreachable!("the library answered {code}"),
        }
    }
}
