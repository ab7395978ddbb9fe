//! A connection as its application, its objects and its driver share it: a vat, what was passed over it, and who waits for what.

mod cancelling;
mod lending;
mod telling;

use crate::capability::Capability;
use crate::contents::Contents;
use crate::event::{Exception, ExceptionKind};
use crate::ids::{CallId, ObjectId, RefId, TaskId};
use crate::object::{Object, Outcome};
use crate::refusal::Refusal;
use crate::remote::Slot;
use crate::vat::{Finishes, Level, Vat};
pub(crate) use cancelling::Act;
use cancelling::Cancelling;
use std::collections::HashMap;
use std::mem;
use std::sync::{Arc, Condvar, Mutex, MutexGuard, PoisonError};
use std::task::Waker;
use std::thread::{self, ThreadId};
pub(crate) use telling::Next;

/// How many bytes wait for a peer that does not read, before calls to it are refused.
const MOST_WAITING: usize = 1 << 24;
/// How many bytes wait before a connection that holds back reads no further.
const MOST_HELD: usize = 1 << 16;
/// The most of a reason that is sent, in bytes.
const MOST_REASON: usize = 10_000;

/// What is locked, also after a panic elsewhere: each change of what is locked here is whole.
pub(crate) fn lock<T>(mutex: &Mutex<T>) -> MutexGuard<'_, T> {
    mutex.lock().unwrap_or_else(PoisonError::into_inner)
}

/// What is given back to the vat.
pub(crate) enum Dropped {
    Reference(RefId),
    Call(CallId),
}

/// No code of an application runs while `state` is locked. The other locks are held for a moment, also while `state` is.
pub(crate) struct Shared {
    state: Mutex<State>,
    dropped: Mutex<Vec<Dropped>>,
    driver: Mutex<Option<Waker>>,
    /// Told when bytes were written, and when the connection has ended.
    changed: Condvar,
}

struct State {
    vat: Vat,
    /// What may be held of the peer, in words and bytes.
    limits: (u64, u64),
    objects: HashMap<ObjectId, Hosted>,
    /// The numbers of objects, by their keys.
    numbers: HashMap<usize, ObjectId>,
    next_object: u64,
    calls: HashMap<CallId, Arc<Slot>>,
    cancelling: HashMap<TaskId, Cancelling>,
    unsent: Vec<u8>,
    /// How many bytes the driver has taken, and not yet written.
    taken: usize,
    /// The thread that tells of events. There is one at a time, so that calls come in their order.
    telling: Option<ThreadId>,
    is_closing: bool,
    /// Nothing can be written any more.
    is_unheard: bool,
    has_ended: bool,
}

/// An object that the peer may call, and a key of it: where it lies, or where that lies for which it stands.
struct Hosted {
    key: usize,
    object: Arc<dyn Object>,
}

impl State {
    fn give_back(&mut self, dropped: Vec<Dropped>) {
        for it in dropped {
            // A vat that is down refuses it, and has nothing of it.
            let _ = match it {
                Dropped::Reference(id) => self.vat.drop_ref(id),
                Dropped::Call(id) => {
                    self.calls.remove(&id);
                    self.vat.finish(id)
                }
            };
        }
    }

    fn waiting(&self) -> usize {
        self.unsent.len() + self.taken
    }

    /// Whether no more of the peer is read: it does not read itself, or the vat holds as much of it as its limits say.
    fn is_held(&mut self, holds_back: bool) -> bool {
        !self.has_ended && !self.is_unheard && (holds_back && self.waiting() > MOST_HELD || !self.vat.wants_bytes())
    }

    /// Whether there is more to be told or sent, or messages that waited are heard when the vat is asked again.
    fn goes_on(&mut self) -> bool {
        let pending = self.vat.pending();
        if pending.has_event || pending.bytes > 0 {
            return true;
        }
        let (load, (words, bytes)) = (self.vat.load(), self.limits);
        !self.vat.wants_bytes() && self.vat.down().is_none() && load.words <= words && load.bytes <= bytes
    }

    /// A number for an object that has none.
    fn add(&mut self, key: usize, object: Arc<dyn Object>) -> ObjectId {
        let number = ObjectId(self.next_object);
        self.next_object += 1;
        self.objects.insert(number, Hosted { key, object });
        self.numbers.insert(key, number);
        number
    }

    /// A reference to the object of that key. It has one number from when it is hosted until it is released.
    fn host(&mut self, key: usize, object: impl FnOnce() -> Arc<dyn Object>) -> Result<RefId, Refusal> {
        if let Some(number) = self.numbers.get(&key) {
            return self.vat.host(*number);
        }
        let number = self.add(key, object());
        let made = self.vat.host(number);
        if made.is_err() {
            self.forget(number);
        }
        made
    }

    /// Nobody can call an object any more.
    fn forget(&mut self, number: ObjectId) -> Option<Arc<dyn Object>> {
        let Hosted { key, object } = self.objects.remove(&number)?;
        self.numbers.remove(&key);
        Some(object)
    }
}

fn key_of(object: &Arc<dyn Object>) -> usize {
    Arc::as_ptr(object) as *const () as usize
}

impl Shared {
    pub fn new(root: Option<Arc<dyn Object>>) -> Result<Arc<Shared>, Refusal> {
        let state = State {
            vat: Vat::new(Level::One, root.as_ref().map(|_| ObjectId(0)))?,
            limits: (u64::MAX, u64::MAX),
            objects: HashMap::new(),
            numbers: HashMap::new(),
            next_object: 0,
            calls: HashMap::new(),
            cancelling: HashMap::new(),
            unsent: Vec::new(),
            taken: 0,
            telling: None,
            is_closing: false,
            is_unheard: false,
            has_ended: false,
        };
        let shared = Shared {
            state: Mutex::new(state),
            dropped: Mutex::default(),
            driver: Mutex::default(),
            changed: Condvar::new(),
        };
        if let Some(root) = root {
            lock(&shared.state).add(key_of(&root), root);
        }
        Ok(Arc::new(shared))
    }

    /// Something is done with the state, and what the vat then says is for the driver to send.
    fn quietly<T>(&self, act: impl FnOnce(&mut State) -> T) -> T {
        let mut state = lock(&self.state);
        let dropped = mem::take(&mut *lock(&self.dropped));
        state.give_back(dropped);
        let result = act(&mut state);
        let said = state.vat.outgoing();
        state.unsent.extend(said);
        result
    }

    /// The same, and the driver is woken.
    fn with<T>(&self, act: impl FnOnce(&mut State) -> T) -> T {
        let result = self.quietly(act);
        self.wake();
        result
    }

    pub fn wake(&self) {
        let driver = lock(&self.driver).clone();
        if let Some(driver) = driver {
            driver.wake();
        }
    }

    pub fn let_go(&self, it: Dropped) {
        lock(&self.dropped).push(it);
        self.wake();
    }

    pub fn bootstrap(&self) -> Result<(CallId, Arc<Slot>), Exception> {
        self.with(|state| {
            let call = state.vat.bootstrap()?;
            let slot = state.calls.entry(call).or_default().clone();
            Ok((call, slot))
        })
    }

    pub fn field(&self, call: CallId, path: &[u16]) -> Result<RefId, Exception> {
        Ok(self.with(|state| state.vat.field(call, path))?)
    }

    pub fn call(
        self: &Arc<Self>,
        target: RefId,
        interface: u64,
        method: u16,
        params: &Contents<Capability>,
    ) -> Result<(CallId, Arc<Slot>), Exception> {
        let (made, promised) = self.with(|state| {
            if state.waiting() > MOST_WAITING {
                let reason = "the peer does not read".into();
                return (Err(Exception { kind: ExceptionKind::Overloaded, reason }), Vec::new());
            }
            let (made, promised) = self.lending(state, &params.refs, |vat, refs| {
                vat.call_parts(target, interface, method, &params.payload, refs)
            });
            (made.map(|call| (call, state.calls.entry(call).or_default().clone())), promised)
        });
        self.keep(promised);
        made
    }

    pub fn answer(self: &Arc<Self>, task: TaskId, outcome: Outcome) {
        let (promised, cancelling) = self.with(|state| {
            let (answered, promised) = match &outcome {
                Ok(results) => {
                    self.lending(state, &results.refs, |vat, refs| vat.answer_parts(task, &results.payload, refs))
                }
                Err(exception) => (Err(exception.clone()), Vec::new()),
            };
            if let Err(Exception { kind, reason }) = answered {
                let _ = state.vat.fail(task, kind, sendable(&reason)); // a vat that is down refuses it
            }
            (promised, state.cancelling.remove(&task))
        });
        drop(cancelling); // code of an application, while nothing is locked
        self.keep(promised);
    }

    pub fn set_finishes(&self, when: Finishes) {
        lock(&self.state).vat.set_finishes(when);
    }

    pub fn set_limits(&self, words: u64, bytes: u64) {
        self.with(|state| {
            state.limits = (words, bytes);
            state.vat.set_limits(words, bytes);
        });
    }

    pub fn close(&self) {
        self.with(|state| state.is_closing = true);
    }

    pub fn has_ended(&self) -> bool {
        lock(&self.state).has_ended
    }

    pub fn wait_ended(&self) {
        self.wait_while(|state| !state.has_ended);
    }

    pub fn is_telling_here(&self) -> bool {
        lock(&self.state).telling == Some(thread::current().id())
    }

    fn wait_while(&self, is_so: impl Fn(&mut State) -> bool) {
        let state = lock(&self.state);
        drop(self.changed.wait_while(state, |state| is_so(state)).unwrap_or_else(PoisonError::into_inner));
    }
}

fn sendable(reason: &str) -> &str {
    let end = (0..=reason.len().min(MOST_REASON)).rev().find(|at| reason.is_char_boundary(*at));
    &reason[..end.unwrap_or(0)]
}
