//! A vat.

use crate::contents::Contents;
use crate::event::{Ended, Event, Exception, ExceptionKind, Served};
use crate::ffi::{self, Lovendak, LovendakEvent, LovendakPlace, Method};
use crate::ids::{CallId, ObjectId, PromiseId, RefId, TaskId};
use crate::place::{Lead, PeerPlace};
use crate::refusal::Refusal;
use std::fmt;

/// How much of the protocol a vat speaks (`rpc.capnp`, its levels).
#[derive(Clone, Copy, Debug, PartialEq, Eq)]
pub enum Level {
    /// Calls and bootstrap objects alone.
    Zero,
    /// References and promises too.
    One,
}

/// What became of a reference that was to take the shorter path.
#[derive(Clone, Copy, Debug, PartialEq, Eq)]
pub enum Advanced {
    /// Nothing: no shorter path is known.
    Nothing,
    /// It leads to another object or promise of the same peer.
    Switched,
    /// It leads to something of this vat, and its calls wait until those before them have come by the peer.
    Embargoed,
    /// The promise is broken, and so is the reference.
    Broke,
}

/// What a vat holds of its peer.
#[derive(Clone, Copy, Debug, PartialEq, Eq)]
pub struct Load {
    /// The words of the messages of calls for which no Return was said, and of other messages until [`Vat::next_event`] gave none.
    pub words: u64,
    /// The bytes that wait to be sent.
    pub bytes: u64,
}

/// What waits to be taken from a vat.
#[derive(Clone, Copy, Debug, PartialEq, Eq)]
pub struct Pending {
    /// Bytes that are to be sent. What was said since a part of the bytes was taken may not be counted yet, but there are 0 only if
    /// none are to be sent.
    pub bytes: usize,
    /// Whether there is an event.
    pub has_event: bool,
}

/// When the Finish of a call goes that is finished before its Return came.
#[derive(Clone, Copy, Debug, PartialEq, Eq)]
pub enum Finishes {
    /// At once.
    AtOnce,
    /// Behind the Return. This is for a peer that sends no Return for a call of which it heard the Finish before, as the crate
    /// `capnp-rpc`. With another peer a call that is let go runs to its end there.
    AfterReturn,
}

/// How much there is between a vat and its peer, each at most 4,096.
#[derive(Clone, Copy, Debug, Default, PartialEq, Eq)]
pub struct TableSizes {
    /// Own calls, as far as they go to the peer: those that did not return, and those that are not finished.
    pub questions: usize,
    /// Calls of the peer.
    pub answers: usize,
    /// What the peer has of this vat: objects and promises.
    pub exports: usize,
    /// What this vat has of the peer.
    pub imports: usize,
}

/// A vat that speaks with one peer. It may go to another thread, and is used by one at a time, so it is not `Sync`:
///
/// ```compile_fail
/// fn shared<T: Sync>() {}
/// shared::<lovendak::Vat>();
/// ```
pub struct Vat {
    handle: Lovendak,
    // Rooms for what an event carries, as large as the largest so far.
    payload: Vec<u8>,
    refs: Vec<RefId>,
}

impl Vat {
    /// A new vat, with that bootstrap object if it has one. `Memory` where memory is wanting.
    pub fn new(level: Level, root: Option<ObjectId>) -> Result<Vat, Refusal> {
        let mut handle = Lovendak::EMPTY;
        let level = u32::from(level == Level::One);
        let number = root.map_or(0, |root| root.0);
        Refusal::check(ffi::lovendak_new(&mut handle, level, u32::from(root.is_some()), number))?;
        Ok(Vat { handle, payload: vec![0; 1024], refs: vec![RefId(0); 8] })
    }

    /// Takes bytes that came from the peer, in any pieces. A fault in them takes the vat down, and one that is down drops them.
    pub fn received(&mut self, bytes: &[u8]) {
        ok(ffi::received(&mut self.handle, bytes));
    }

    /// The peer's stream has ended: the vat goes down, with 0, or inside a message with 2.
    pub fn ended(&mut self) {
        ok(ffi::lovendak_ended(&mut self.handle));
    }

    /// What there is to be sent and to be told. No bytes and no event are taken out. Before, messages of the peer that wait are heard,
    /// as far as the limits allow, and queued messages become frames.
    pub fn pending(&mut self) -> Pending {
        let (mut bytes, mut has_event) = (0, 0);
        ok(ffi::lovendak_pending(&mut self.handle, &mut bytes, &mut has_event));
        Pending { bytes, has_event: has_event == 1 }
    }

    /// How much is held of the peer.
    pub fn load(&mut self) -> Load {
        let (mut words, mut bytes) = (0, 0);
        ok(ffi::lovendak_load(&mut self.handle, &mut words, &mut bytes));
        Load { words, bytes }
    }

    /// Sets limits of the load: while its words, or the bytes that wait in the vat, are above, messages of the peer wait unheard, in
    /// their order. A new vat has no limits. Limits that are too low for what two applications ask of each other at a time stop both.
    pub fn set_limits(&mut self, words: u64, bytes: u64) {
        ok(ffi::lovendak_set_limits(&mut self.handle, words, bytes));
    }

    /// When the Finish goes of a call that goes out from now on, if the call is finished before its Return came. From the beginning it
    /// goes at once. Calls that went out before stay as they were.
    pub fn set_finishes(&mut self, when: Finishes) {
        ok(ffi::lovendak_set_finishes(&mut self.handle, u32::from(when == Finishes::AfterReturn)));
    }

    /// Whether more bytes of the peer would be heard. If not, there are events to take, bytes to send or calls to answer, or the vat is
    /// down, and what comes only waits: read no more of the peer meanwhile.
    pub fn wants_bytes(&mut self) -> bool {
        let mut answer = 0;
        ok(ffi::lovendak_wants_bytes(&mut self.handle, &mut answer));
        answer == 1
    }

    /// The bytes that are to be sent, each once. What can't be sent takes the vat down: look for events once more.
    pub fn outgoing(&mut self) -> Vec<u8> {
        self.outgoing_up_to(usize::MAX)
    }

    /// The first of the bytes that are to be sent, at most so many: fewer only if there are no more.
    pub fn outgoing_up_to(&mut self, most: usize) -> Vec<u8> {
        let mut out = Vec::new();
        loop {
            let given = out.len();
            let bytes = self.pending().bytes.min(most - given);
            if bytes == 0 {
                return out;
            }
            out.resize(given + bytes, 0);
            let len = self.outgoing_into(&mut out[given..]);
            out.truncate(given + len);
        }
    }

    /// Copies bytes that are to be sent, each once, as many as there is room for: gives how many. There may be more until it gives 0.
    pub fn outgoing_into(&mut self, room: &mut [u8]) -> usize {
        let (code, len) = ffi::outgoing(&mut self.handle, room);
        ok(code);
        len
    }

    /// The oldest event. The events of one command or message come behind those of the ones before it; of one, calls to serve
    /// come before own calls that ended, and these before what it made known (`Resolved`, `Lifted`). Behind them all come, of a vat that
    /// is up, the tasks that are `Cancelled`, and then the objects that are `Released`. Of a vat that is down, each own call that is open
    /// ends then with `Disconnected`, and last comes, once, that it is down.
    pub fn next_event(&mut self) -> Option<Event> {
        let mut event = LovendakEvent::default();
        loop {
            match ffi::next_event(&mut self.handle, &mut event, &mut self.payload, &mut self.refs) {
                ffi::OK => return self.told(&event),
                ffi::ROOM => self.grow(&event),
                _ => return None,
            }
        }
    }

    fn grow(&mut self, event: &LovendakEvent) {
        if self.payload.len() < event.payload_len {
            self.payload.resize(event.payload_len, 0);
        }
        if self.refs.len() < event.refs_len {
            self.refs.resize(event.refs_len, RefId(0));
        }
    }

    fn told(&self, event: &LovendakEvent) -> Option<Event> {
        let payload = &self.payload[..event.payload_len];
        let contents = || Contents { payload: payload.to_vec(), refs: self.refs[..event.refs_len].to_vec() };
        Some(match event.kind {
            1 => Event::Served(Served {
                task: TaskId(event.number),
                object: ObjectId(event.object),
                interface: event.interface_id,
                method: event.method as u16,
                params: contents(),
            }),
            2 => Event::Ended(Ended {
                call: CallId(event.number),
                outcome: match event.is_exception {
                    0 => Ok(contents()),
                    _ => Err(Exception {
                        kind: ExceptionKind::of(event.exception),
                        reason: String::from_utf8_lossy(payload).into_owned(),
                    }),
                },
            }),
            3 => Event::Down(event.number as u16, String::from_utf8_lossy(payload).into_owned()),
            4 => Event::Released(ObjectId(event.object)),
            5 => Event::Cancelled(TaskId(event.number)),
            6 => Event::Resolved(PeerPlace::of(event.place, event.number)),
            7 => Event::Lifted(RefId(event.number)),
            _ => return None,
        })
    }

    /// The number with which the vat went down, if it did. [`Fault::of`](crate::Fault::of) says what it means.
    pub fn down(&mut self) -> Option<u16> {
        let mut number = 0;
        (ffi::lovendak_down(&mut self.handle, &mut number) == ffi::OK).then_some(number as u16)
    }

    /// Whether nothing is left between the two vats: no question, answer, export or import.
    pub fn shares_nothing(&mut self) -> bool {
        let mut answer = 0;
        ok(ffi::lovendak_shares_nothing(&mut self.handle, &mut answer));
        answer == 1
    }

    /// How many questions, answers, exports and imports there are between the two vats.
    pub fn table_sizes(&mut self) -> TableSizes {
        let mut sizes = TableSizes::default();
        let TableSizes { questions, answers, exports, imports } = &mut sizes;
        ok(ffi::lovendak_table_sizes(&mut self.handle, questions, answers, exports, imports));
        sizes
    }

    /// Where calls through a reference go. The work grows with the links on the way; [`advance`](Vat::advance) makes the way short.
    /// `Down`, `UnknownRef`.
    pub fn leads_to(&mut self, reference: RefId) -> Result<Lead, Refusal> {
        let mut place = LovendakPlace::default();
        Refusal::check(ffi::lovendak_leads_to(&mut self.handle, reference.0, &mut place))?;
        Ok(Lead::of(&place))
    }

    /// How many calls were made through a reference. `UnknownRef`.
    pub fn calls_made(&mut self, reference: RefId) -> Result<u64, Refusal> {
        given(|made| ffi::lovendak_calls_made(&mut self.handle, reference.0, made))
    }

    /// Lets references go, each. `UnknownRef` of the first that is not there; those before it are let go.
    pub fn let_go(&mut self, refs: &[RefId]) -> Result<(), Refusal> {
        refs.iter().try_for_each(|reference| self.drop_ref(*reference))
    }
}

/// Commands. Each may be refused with `Down`, `Full` and `Memory`, and with what is named beside it; then nothing is changed.
impl Vat {
    /// Asks the peer for its bootstrap object: a call, whose result is that object.
    pub fn bootstrap(&mut self) -> Result<CallId, Refusal> {
        given(|call| ffi::lovendak_bootstrap(&mut self.handle, call)).map(CallId)
    }

    /// A reference to what a call gives, now or later. `UnknownCall`.
    pub fn result_of(&mut self, call: CallId) -> Result<RefId, Refusal> {
        given(|made| ffi::lovendak_result_of(&mut self.handle, call.0, made)).map(RefId)
    }

    /// A reference to what stands in a call's results at a path of pointers' numbers, now or later. `UnknownCall`, `LongPath`.
    pub fn field(&mut self, call: CallId, path: &[u16]) -> Result<RefId, Refusal> {
        let (code, made) = ffi::field(&mut self.handle, call.0, path);
        Refusal::check(code).map(|()| RefId(made))
    }

    /// A reference to an object of the application. It may be hosted again, and again after it was
    /// [released](Event::Released). If that event waits to be told, it is told no more.
    pub fn host(&mut self, object: ObjectId) -> Result<RefId, Refusal> {
        given(|made| ffi::lovendak_host(&mut self.handle, object.0, made)).map(RefId)
    }

    /// A second reference to the same. `UnknownRef`.
    pub fn clone_ref(&mut self, reference: RefId) -> Result<RefId, Refusal> {
        given(|made| ffi::lovendak_clone_ref(&mut self.handle, reference.0, made)).map(RefId)
    }

    /// Lets a reference go. `UnknownRef`.
    pub fn drop_ref(&mut self, reference: RefId) -> Result<(), Refusal> {
        Refusal::check(ffi::lovendak_drop_ref(&mut self.handle, reference.0))
    }

    /// Makes a call; the references that go with it stay the caller's. The one that is called takes one step of the shorter path before,
    /// where one is known, and unless a limit or want of memory refuses that. `NoPayload`, `UnknownRef`, `Level`.
    pub fn call(
        &mut self,
        reference: RefId,
        interface: u64,
        method: u16,
        params: &Contents,
    ) -> Result<CallId, Refusal> {
        self.call_parts(reference, interface, method, &params.payload, &params.refs)
    }

    pub(crate) fn call_parts(
        &mut self,
        reference: RefId,
        interface: u64,
        method: u16,
        payload: &[u8],
        refs: &[RefId],
    ) -> Result<CallId, Refusal> {
        let (code, call) = ffi::call(&mut self.handle, reference.0, Method(interface, method), payload, refs);
        Refusal::check(code).map(|()| CallId(call))
    }

    /// The application has no more use for a call, which need not have ended. `UnknownCall`.
    pub fn finish(&mut self, call: CallId) -> Result<(), Refusal> {
        Refusal::check(ffi::lovendak_finish(&mut self.handle, call.0))
    }

    /// Gives a task its results; the references that go with them stay the caller's. `NoPayload`, `UnknownTask`, `UnknownRef`,
    /// `Level`; `Full` also if there is no place for one export more for each reference.
    pub fn answer(&mut self, task: TaskId, results: &Contents) -> Result<(), Refusal> {
        self.answer_parts(task, &results.payload, &results.refs)
    }

    pub(crate) fn answer_parts(&mut self, task: TaskId, payload: &[u8], refs: &[RefId]) -> Result<(), Refusal> {
        Refusal::check(ffi::answer(&mut self.handle, task.0, payload, refs))
    }

    /// Gives a task an exception. `UnknownTask`.
    pub fn fail(&mut self, task: TaskId, kind: ExceptionKind, reason: &str) -> Result<(), Refusal> {
        Refusal::check(ffi::fail(&mut self.handle, task.0, kind.code(), reason))
    }

    /// Makes a promise, and a reference to it. `Level`.
    pub fn promise(&mut self) -> Result<(PromiseId, RefId), Refusal> {
        let mut promise = 0;
        let made = given(|made| ffi::lovendak_promise(&mut self.handle, &mut promise, made))?;
        Ok((PromiseId(promise), RefId(made)))
    }

    /// Settles a promise to what a reference leads to, which stays the caller's. `UnknownPromise`, `UnknownRef`, `Cycle`, `Level`;
    /// `Full` if there is no place for one export more.
    pub fn resolve(&mut self, promise: PromiseId, reference: RefId) -> Result<(), Refusal> {
        Refusal::check(ffi::lovendak_resolve(&mut self.handle, promise.0, reference.0))
    }

    /// Breaks a promise. `UnknownPromise`, `Level`.
    pub fn reject(&mut self, promise: PromiseId, kind: ExceptionKind, reason: &str) -> Result<(), Refusal> {
        Refusal::check(ffi::reject(&mut self.handle, promise.0, kind.code(), reason))
    }

    /// Lets a reference take the shorter path, one step, where one is known: gives what became of it. `UnknownRef`,
    /// `Level`.
    pub fn advance(&mut self, reference: RefId) -> Result<Advanced, Refusal> {
        let mut advanced = 0;
        Refusal::check(ffi::lovendak_advance(&mut self.handle, reference.0, &mut advanced))?;
        Ok(match advanced {
            1 => Advanced::Switched,
            2 => Advanced::Embargoed,
            3 => Advanced::Broke,
            _ => Advanced::Nothing,
        })
    }

    /// Takes the vat down, with that number. Its Abort goes out last.
    pub fn shut(&mut self, number: u16) -> Result<(), Refusal> {
        Refusal::check(ffi::lovendak_shut(&mut self.handle, u32::from(number)))
    }
}

impl Drop for Vat {
    fn drop(&mut self) {
        ffi::lovendak_free(&mut self.handle);
    }
}

impl fmt::Debug for Vat {
    fn fmt(&self, f: &mut fmt::Formatter<'_>) -> fmt::Result {
        f.write_str("Vat")
    }
}

/// The number that a command gives.
fn given(command: impl FnOnce(&mut u64) -> u32) -> Result<u64, Refusal> {
    let mut number = 0;
    Refusal::check(command(&mut number)).map(|()| number)
}

/// A call that only an empty handle refuses, which a `Vat` never has.
fn ok(code: u32) {
    assert_eq!(code, ffi::OK, "the library answered {code}");
}
