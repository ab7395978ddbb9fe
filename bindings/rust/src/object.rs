//! What an application serves over its connections.

use crate::capability::Capability;
use crate::contents::Contents;
use crate::event::{Exception, ExceptionKind};
use crate::ids::TaskId;
use crate::remote::{Call, Remote};
use crate::shared::Shared;
use std::sync::Arc;

/// How a call over a connection ends: with what it gives, or with an exception.
pub type Outcome = Result<Contents<Capability>, Exception>;

/// What peers call. A connection over which it went keeps it as long as the peer may call it: until the peer has released it, or the
/// connection ends. A bootstrap object stays until the connection ends.
///
/// The calls of a connection come one after the other, in their order. The next one waits while `call` works, but not for its answer,
/// which may be sent later and from another thread. So `call` must not wait for a call over the same connection; [`Call::then`] doesn't.
/// If nobody has use for the answer any more, [`Answer::when_cancelled`] tells.
pub trait Object: Send + Sync {
    /// Serves a call, whose answer is sent now or later. If it panics, the call fails.
    fn call(&self, call: Incoming, answer: Answer);

    /// A connection does not keep it any more: its peer has released it, or the connection has ended. It is called once each time. A call
    /// that came before may still be unanswered. The object may be passed over the connection again.
    fn gone(&self) {}
}

/// A call that is to be served.
#[derive(Clone, Debug)]
pub struct Incoming {
    /// The interface of the method.
    pub interface: u64,
    /// The method.
    pub method: u16,
    /// What came with the call.
    pub params: Contents<Capability>,
}

/// By what a call that came is answered, once. If it is dropped before, the call fails.
pub struct Answer(Option<(Arc<Shared>, TaskId)>);

impl Answer {
    pub(crate) fn new(connection: Arc<Shared>, task: TaskId) -> Answer {
        Answer(Some((connection, task)))
    }

    /// Ends the call. Contents that can't be sent make it fail, and after the end of the connection this does nothing. Another thread
    /// may do it:
    ///
    /// ```
    /// use lovendak::{Answer, Contents, Incoming, Object, Struct};
    /// use std::thread;
    ///
    /// struct Slow;
    ///
    /// impl Object for Slow {
    ///     fn call(&self, _: Incoming, answer: Answer) {
    ///         thread::spawn(move || {
    ///             let results = Contents::of(Struct::default().set_number(0, 42u64));
    ///             answer.send(results.map_err(|error| error.into()));
    ///         });
    ///     }
    /// }
    /// ```
    pub fn send(mut self, outcome: Outcome) {
        if let Some((connection, task)) = self.0.take() {
            connection.answer(task, outcome);
        }
    }

    /// Whether nobody has use for what the call gives any more: its caller has given it up and nothing waits for its results, or the
    /// connection has ended. It is to be answered all the same, or dropped.
    pub fn is_cancelled(&self) -> bool {
        self.0.as_ref().map_or(false, |(connection, task)| connection.is_cancelled(*task))
    }

    /// Has something done once nobody has use for what the call gives any more, which may be now, unless it is answered before. It is done
    /// between the events of the connection, as [`Call::then`] does it.
    ///
    /// ```
    /// use lovendak::{Answer, Incoming, Object};
    /// use std::sync::mpsc;
    /// use std::thread;
    /// use std::time::Duration;
    ///
    /// /// It answers after an hour.
    /// struct Alarm;
    ///
    /// impl Object for Alarm {
    ///     fn call(&self, call: Incoming, answer: Answer) {
    ///         let (cancel, cancelled) = mpsc::channel();
    ///         answer.when_cancelled(move || drop(cancel.send(())));
    ///         thread::spawn(move || {
    ///             if cancelled.recv_timeout(Duration::from_secs(3600)).is_err() {
    ///                 answer.send(Ok(call.params));
    ///             }
    ///         });
    ///     }
    /// }
    /// ```
    pub fn when_cancelled(&self, act: impl FnOnce() + Send + 'static) {
        if let Some((connection, task)) = &self.0 {
            connection.when_cancelled(*task, Box::new(act));
        }
    }

    /// Ends the call as another call ends, which is given up if this one is cancelled. An object that passes all calls on to a capability, of whichever connection:
    ///
    /// ```
    /// use lovendak::{Answer, Incoming, Object, Remote};
    ///
    /// struct Behind(Remote);
    ///
    /// impl Object for Behind {
    ///     fn call(&self, call: Incoming, answer: Answer) {
    ///         answer.follow(self.0.call_with(call.interface, call.method, &call.params));
    ///     }
    /// }
    /// ```
    pub fn follow(self, call: Call) {
        if let Some(give_up) = call.giving_up() {
            self.when_cancelled(give_up);
        }
        call.then(|outcome| self.send(outcome));
    }

    /// Has it fail, as a method that its object does not have.
    pub fn unimplemented(self) {
        self.send(Err(Exception { kind: ExceptionKind::Unimplemented, reason: "no such method".into() }));
    }
}

impl Drop for Answer {
    fn drop(&mut self) {
        if let Some((connection, task)) = self.0.take() {
            connection.answer(task, Err(Exception::failed("the call was not answered")));
        }
    }
}

/// A capability of another connection, to which calls are passed on.
pub(crate) struct Forward(pub Remote);

impl Object for Forward {
    fn call(&self, call: Incoming, answer: Answer) {
        answer.follow(self.0.call_with(call.interface, call.method, &call.params));
    }
}
