//! What an application is told.

use crate::contents::Contents;
use crate::fault::Fault;
use crate::ids::{CallId, ObjectId, RefId, TaskId};
use crate::place::PeerPlace;
use crate::refusal::Refusal;
use std::error::Error;
use std::fmt;

/// What an application is told of its vat.
#[derive(Clone, Debug, PartialEq, Eq)]
pub enum Event {
    /// A call is to be served: `answer` or `fail` its task, now or later, and drop the references in its params.
    Served(Served),
    /// An own call has ended: drop the references in its results, and `finish` it.
    Ended(Ended),
    /// What stands at a place of the peer is known now. A reference that leads there may lead on: [`advance`](crate::Vat::advance) it.
    /// It comes behind the calls that ended by the same message.
    Resolved(PeerPlace),
    /// The embargo of a reference is over: its calls wait no more.
    Lifted(RefId),
    /// Nobody has use for the results of a call of the peer any more: the peer has finished it, no call waits for its results, and no
    /// reference leads to a part of them. Stop the work on its task, and `answer` or `fail` it all the same; what it is answered with
    /// goes nowhere. It comes behind all other events of a vat that is up but `Released`, once, and not of a task that was answered.
    Cancelled(TaskId),
    /// Nothing in the vat names the object any more, which was hosted: no reference, and nothing that the peer has. No call for it comes
    /// until it is hosted again, so its application may let go of it. A task of it may still be open. It comes behind all other events of
    /// a vat that is up. If it is hosted again while the event waits, it is not told; the bootstrap object is never released.
    Released(ObjectId),
    /// The vat went down, with that number; [`Fault::of`] says what it means. Each own call has ended before, those that were open
    /// with `Disconnected`. With it comes the reason of the Abort by which the peer ended it, or an empty text.
    Down(u16, String),
}

/// What happened, in a line for a log.
impl fmt::Display for Event {
    fn fmt(&self, f: &mut fmt::Formatter<'_>) -> fmt::Result {
        match self {
            Event::Served(call) => call.fmt(f),
            Event::Ended(ended) => ended.fmt(f),
            Event::Resolved(place) => write!(f, "{place} is known"),
            Event::Lifted(reference) => write!(f, "the embargo of {reference} is over"),
            Event::Cancelled(task) => write!(f, "{task} is cancelled"),
            Event::Released(object) => write!(f, "{object} is released"),
            Event::Down(number, reason) => {
                write!(f, "the vat went down with {number}")?;
                if let Some(fault) = Fault::of(*number) {
                    write!(f, ", {fault}")?;
                }
                if !reason.is_empty() {
                    write!(f, ": {reason}")?;
                }
                Ok(())
            }
        }
    }
}

/// A call that is to be served.
#[derive(Clone, Debug, PartialEq, Eq)]
pub struct Served {
    /// By what it is answered.
    pub task: TaskId,
    /// The object that is called.
    pub object: ObjectId,
    /// The interface of the method.
    pub interface: u64,
    /// The method.
    pub method: u16,
    /// What came with the call.
    pub params: Contents,
}

impl fmt::Display for Served {
    fn fmt(&self, f: &mut fmt::Formatter<'_>) -> fmt::Result {
        let Served { task, object, interface, method, .. } = self;
        write!(f, "{task}: method {method} of {interface:#x} of {object}")
    }
}

/// An own call that has ended.
#[derive(Clone, Debug, PartialEq, Eq)]
pub struct Ended {
    /// The call.
    pub call: CallId,
    /// What it gave, or why it failed.
    pub outcome: Result<Contents, Exception>,
}

impl fmt::Display for Ended {
    fn fmt(&self, f: &mut fmt::Formatter<'_>) -> fmt::Result {
        match &self.outcome {
            Ok(_) => write!(f, "{} ended with contents", self.call),
            Err(exception) => write!(f, "{} ended with an exception, {exception}", self.call),
        }
    }
}

/// Why a call failed.
#[derive(Clone, Debug, PartialEq, Eq)]
pub struct Exception {
    /// What kind of failure it is.
    pub kind: ExceptionKind,
    /// In words.
    pub reason: String,
}

impl Exception {
    /// One of kind `Failed`, with that reason.
    pub fn failed(reason: &str) -> Exception {
        Exception { kind: ExceptionKind::Failed, reason: reason.into() }
    }
}

impl fmt::Display for Exception {
    fn fmt(&self, f: &mut fmt::Formatter<'_>) -> fmt::Result {
        write!(f, "{}: {}", self.kind, self.reason)
    }
}

impl Error for Exception {}

/// A refusal that is passed on to who called: `Overloaded` if room or memory is lacking, `Disconnected` if the vat is down, else
/// `Failed`.
impl From<Refusal> for Exception {
    fn from(refusal: Refusal) -> Exception {
        let kind = match refusal {
            Refusal::Memory | Refusal::Full => ExceptionKind::Overloaded,
            Refusal::Down => ExceptionKind::Disconnected,
            _ => ExceptionKind::Failed,
        };
        Exception { kind, reason: format!("{}: {}", refusal.name(), refusal.meaning()) }
    }
}

/// The kinds of exceptions (`rpc.capnp`, `Exception.Type`).
#[derive(Clone, Copy, Debug, PartialEq, Eq)]
pub enum ExceptionKind {
    /// A failure that comes again where the call is repeated.
    Failed,
    /// There was not enough of something; it may go later.
    Overloaded,
    /// The connection to something that was needed is gone.
    Disconnected,
    /// There is no such method.
    Unimplemented,
}

impl fmt::Display for ExceptionKind {
    fn fmt(&self, f: &mut fmt::Formatter<'_>) -> fmt::Result {
        f.write_str(match self {
            ExceptionKind::Failed => "failed",
            ExceptionKind::Overloaded => "overloaded",
            ExceptionKind::Disconnected => "disconnected",
            ExceptionKind::Unimplemented => "unimplemented",
        })
    }
}

impl ExceptionKind {
    pub(crate) fn of(code: u32) -> ExceptionKind {
        match code {
            1 => ExceptionKind::Overloaded,
            2 => ExceptionKind::Disconnected,
            3 => ExceptionKind::Unimplemented,
            _ => ExceptionKind::Failed,
        }
    }

    pub(crate) fn code(self) -> u32 {
        match self {
            ExceptionKind::Failed => 0,
            ExceptionKind::Overloaded => 1,
            ExceptionKind::Disconnected => 2,
            ExceptionKind::Unimplemented => 3,
        }
    }
}
