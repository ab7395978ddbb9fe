//! What the driver of a connection does: bytes come and go, and events are told.

use super::{Act, Shared, State, lock};
use crate::capability::Capability;
use crate::contents::Contents;
use crate::event::{Event, Exception, Served};
use crate::object::{Answer, Incoming, Object};
use crate::remote::{Remote, Slot};
use std::mem;
use std::panic::{AssertUnwindSafe, catch_unwind};
use std::sync::Arc;
use std::task::Waker;
use std::thread;

/// What a driver has to do next.
pub(crate) enum Next {
    Send(Vec<u8>),
    Wait,
    End,
}

/// An event, with what it is about. That is looked up as the event is taken from the vat: once an object is told to be released, it may be
/// passed again by another thread, and is hosted anew then.
enum Told {
    Call(Served, Option<Arc<dyn Object>>),
    End(Result<Contents, Exception>, Option<Arc<Slot>>),
    /// Nobody has use for the results of a call any more.
    Cancelled(Vec<Act>),
    /// Objects that nobody can call any more.
    Gone(Vec<Arc<dyn Object>>),
    /// The connection has ended, with these calls and objects.
    Down(Vec<Act>, Vec<Arc<dyn Object>>),
    Nothing,
}

impl State {
    fn next_told(&mut self) -> Option<Told> {
        Some(match self.vat.next_event()? {
            Event::Served(call) => {
                let object = self.objects.get(&call.object).map(|it| it.object.clone());
                Told::Call(call, object)
            }
            Event::Ended(ended) => Told::End(ended.outcome, self.calls.remove(&ended.call)),
            Event::Cancelled(task) => Told::Cancelled(self.cancel(task)),
            Event::Released(number) => Told::Gone(self.forget(number).into_iter().collect()),
            Event::Down(..) => {
                self.numbers.clear();
                self.has_ended = true;
                Told::Down(self.cancel_all(), self.objects.drain().map(|(_, it)| it.object).collect())
            }
            Event::Resolved(_) | Event::Lifted(_) => Told::Nothing,
        })
    }
}

impl Shared {
    pub fn set_driver(&self, waker: Option<Waker>) {
        *lock(&self.driver) = waker;
    }

    pub fn received(self: &Arc<Self>, bytes: &[u8]) {
        self.with(|state| state.vat.received(bytes));
        self.tell();
    }

    /// The stream has ended, or can't be used.
    pub fn lost(self: &Arc<Self>) {
        self.with(|state| state.vat.ended());
        self.tell();
    }

    /// Nothing can be written any more. What the peer said before is heard all the same, up to the end of its stream.
    pub fn unheard(&self) {
        self.quietly(|state| state.is_unheard = true);
        self.changed.notify_all();
    }

    /// What is to be done next; what was to be sent before is written.
    pub fn next(&self) -> Next {
        let next = self.quietly(|state| {
            state.taken = 0;
            if state.is_unheard {
                state.unsent.clear();
            }
            if state.unsent.is_empty() {
                return if state.is_closing || state.vat.down().is_some() { Next::End } else { Next::Wait };
            }
            state.taken = state.unsent.len();
            Next::Send(mem::take(&mut state.unsent))
        });
        self.changed.notify_all();
        next
    }

    /// Waits while no more of the peer is to be read.
    pub fn wait_readable(&self, holds_back: bool) {
        self.wait_while(|state| state.is_held(holds_back));
    }

    #[cfg(feature = "futures-io")]
    pub fn is_held(&self, holds_back: bool) -> bool {
        lock(&self.state).is_held(holds_back)
    }

    /// Tells of all events, unless a thread is at it, which then tells of these too.
    pub fn tell(self: &Arc<Self>) {
        let is_free = self.quietly(|state| {
            let is_free = state.telling.is_none();
            state.telling.get_or_insert_with(|| thread::current().id());
            is_free
        });
        while let Some(told) = is_free.then(|| self.next_told()).flatten() {
            match told {
                Told::Call(call, object) => self.serve(call, object),
                Told::End(outcome, slot) => {
                    let outcome = outcome.map(|results| self.came(results));
                    if let Some(slot) = slot {
                        guarded(|| slot.end(outcome));
                    }
                }
                Told::Cancelled(acts) => acts.into_iter().for_each(guarded),
                Told::Gone(objects) => objects.iter().for_each(|object| guarded(|| object.gone())),
                Told::Down(acts, objects) => {
                    self.changed.notify_all();
                    acts.into_iter().for_each(guarded);
                    objects.iter().for_each(|object| guarded(|| object.gone()));
                }
                Told::Nothing => {}
            }
        }
    }

    /// What is told next; without it, this thread does not tell of events any more.
    fn next_told(&self) -> Option<Told> {
        self.quietly(|state| loop {
            if let Some(told) = state.next_told() {
                return Some(told);
            }
            // What can't be sent is an event too, and messages that waited may be heard as the vat is asked for its bytes.
            let said = state.vat.outgoing();
            let is_over = said.is_empty() && !state.goes_on();
            state.unsent.extend(said);
            if is_over {
                state.telling = None;
                return None;
            }
        })
    }

    fn serve(self: &Arc<Self>, call: Served, object: Option<Arc<dyn Object>>) {
        let answer = Answer::new(self.clone(), call.task);
        let incoming = Incoming { interface: call.interface, method: call.method, params: self.came(call.params) };
        if let Some(object) = object {
            guarded(|| object.call(incoming, answer));
        }
    }

    /// What came from the vat, each reference as a capability.
    fn came(self: &Arc<Self>, contents: Contents) -> Contents<Capability> {
        let refs = contents.refs.into_iter().map(|id| Capability::Remote(Remote::new(self, Ok(id)))).collect();
        Contents { payload: contents.payload, refs }
    }
}

/// Runs code of an application, whose panic is told by the hook of panics and goes no further.
fn guarded(act: impl FnOnce()) {
    let _ = catch_unwind(AssertUnwindSafe(act));
}
