//! What may stand at a capability's place in contents that go over a connection.

use crate::event::{Exception, ExceptionKind};
use crate::object::Object;
use crate::remote::Remote;
use crate::shared::lock;
use std::fmt;
use std::mem;
use std::sync::{Arc, Mutex};

/// What stands at a capability's place in contents that go over a [`Connection`](crate::Connection). What came is always a `Remote`.
#[derive(Clone)]
pub enum Capability {
    /// What a peer gave, of this connection or of another. Calls that come for one of another connection are forwarded there.
    Remote(Remote),
    /// An object of this application.
    Object(Arc<dyn Object>),
    /// What will be one of these. Calls of it wait until it is settled.
    Promise(Promise),
}

impl Capability {
    /// An object of this application, as a capability.
    pub fn object(object: impl Object + 'static) -> Capability {
        Capability::Object(Arc::new(object))
    }

    /// What came, to be called.
    pub fn into_remote(self) -> Option<Remote> {
        match self {
            Capability::Remote(remote) => Some(remote),
            _ => None,
        }
    }
}

impl From<Remote> for Capability {
    fn from(remote: Remote) -> Capability {
        Capability::Remote(remote)
    }
}

impl From<Promise> for Capability {
    fn from(promise: Promise) -> Capability {
        Capability::Promise(promise)
    }
}

impl fmt::Debug for Capability {
    fn fmt(&self, f: &mut fmt::Formatter<'_>) -> fmt::Result {
        f.write_str(match self {
            Capability::Remote(_) => "Remote",
            Capability::Object(_) => "Object",
            Capability::Promise(_) => "Promise",
        })
    }
}

type Settled = Result<Capability, Exception>;
type Listener = Box<dyn FnOnce(&Settled) + Send>;

enum Stage {
    Open(Vec<Listener>),
    Settled(Settled),
}

/// A capability that is not known yet. It may go over several connections, and each learns what it is settled to.
#[derive(Clone)]
pub struct Promise(Arc<Mutex<Stage>>);

impl Promise {
    /// A promise, and by what it is settled.
    ///
    /// ```
    /// use lovendak::{Capability, Promise};
    ///
    /// let (promise, resolver) = Promise::new();
    /// let given = Capability::from(promise); // is passed in a call or an answer
    /// # drop(given);
    /// resolver.reject("there is nothing to give");
    /// ```
    pub fn new() -> (Promise, Resolver) {
        let promise = Promise(Arc::new(Mutex::new(Stage::Open(Vec::new()))));
        (promise.clone(), Resolver(Some(promise)))
    }

    /// Has it told once it is settled, which may be now.
    pub(crate) fn when_settled(&self, listener: impl FnOnce(&Settled) + Send + 'static) {
        let settled = match &mut *lock(&self.0) {
            Stage::Open(listeners) => return listeners.push(Box::new(listener)),
            Stage::Settled(settled) => settled.clone(),
        };
        listener(&settled);
    }

    fn settle(&self, settled: Settled) {
        let before = mem::replace(&mut *lock(&self.0), Stage::Settled(settled.clone()));
        if let Stage::Open(listeners) = before {
            listeners.into_iter().for_each(|listener| listener(&settled));
        }
    }

    fn leads_to(&self, other: &Promise) -> bool {
        let next = match &*lock(&self.0) {
            Stage::Settled(Ok(Capability::Promise(next))) => next.clone(),
            _ => return Arc::ptr_eq(&self.0, &other.0),
        };
        Arc::ptr_eq(&self.0, &other.0) || next.leads_to(other)
    }
}

/// By what a promise is settled, once. One that is dropped rejects its promise.
pub struct Resolver(Option<Promise>);

impl Resolver {
    /// Settles the promise to a capability. One that would lead to itself is rejected.
    pub fn resolve(self, capability: Capability) {
        self.settle(Ok(capability));
    }

    /// Breaks the promise: calls of it fail.
    pub fn reject(self, reason: &str) {
        self.settle(Err(Exception { kind: ExceptionKind::Failed, reason: reason.into() }));
    }

    /// Settles the promise as something turned out.
    pub fn settle(mut self, settled: Result<Capability, Exception>) {
        if let Some(promise) = self.0.take() {
            let is_circle = matches!(&settled, Ok(Capability::Promise(next)) if next.leads_to(&promise));
            promise.settle(if is_circle {
                Err(Exception::failed("the promise would lead to itself"))
            } else {
                settled
            });
        }
    }
}

impl Drop for Resolver {
    fn drop(&mut self) {
        if let Some(promise) = self.0.take() {
            promise.settle(Err(Exception::failed("the promise was dropped")));
        }
    }
}
