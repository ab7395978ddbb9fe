//! What an application has of a peer: capabilities, and calls of them.

use crate::capability::Capability;
use crate::contents::Contents;
use crate::event::Exception;
use crate::ids::{CallId, RefId};
use crate::object::Outcome;
use crate::shared::{Act, Dropped, Shared, lock};
use crate::structs::Struct;
use std::fmt;
use std::future::Future;
use std::mem;
use std::pin::Pin;
use std::sync::{Arc, Mutex};
use std::task::{Context, Poll, Wake, Waker};
use std::thread::{self, Thread};

/// A capability that a peer gave, until the last clone is dropped. It can be passed on over any connection.
#[derive(Clone)]
pub struct Remote(Arc<Target>);

enum Target {
    Reference(Reference),
    Broken(Exception),
}

/// A reference of a connection's vat, which is dropped with this.
pub(crate) struct Reference {
    pub connection: Arc<Shared>,
    pub id: RefId,
}

impl Drop for Reference {
    fn drop(&mut self) {
        self.connection.let_go(Dropped::Reference(self.id));
    }
}

impl Remote {
    pub(crate) fn new(connection: &Arc<Shared>, made: Result<RefId, Exception>) -> Remote {
        Remote(Arc::new(match made {
            Ok(id) => Target::Reference(Reference { connection: connection.clone(), id }),
            Err(exception) => Target::Broken(exception),
        }))
    }

    /// Calls a method, and gives the call at once. One that can't be made is a call that has failed: `Disconnected` if the connection
    /// has ended, `Overloaded` if the peer does not read or a limit is reached, `Failed` if the parameters are too large.
    pub fn call(&self, interface: u64, method: u16, params: &Struct<Capability>) -> Call {
        match Contents::of(params) {
            Ok(contents) => self.call_with(interface, method, &contents),
            Err(error) => Call::refused(error.into()),
        }
    }

    /// The same with contents that are written already.
    pub fn call_with(&self, interface: u64, method: u16, params: &Contents<Capability>) -> Call {
        match self.reference() {
            Ok(Reference { connection, id }) => Call::new(connection, connection.call(*id, interface, method, params)),
            Err(exception) => Call::refused(exception.clone()),
        }
    }

    pub(crate) fn reference(&self) -> Result<&Reference, &Exception> {
        match &*self.0 {
            Target::Reference(reference) => Ok(reference),
            Target::Broken(exception) => Err(exception),
        }
    }

    /// A number that no other capability has while this one is there.
    pub(crate) fn key(&self) -> usize {
        Arc::as_ptr(&self.0) as usize
    }
}

impl fmt::Debug for Remote {
    fn fmt(&self, f: &mut fmt::Formatter<'_>) -> fmt::Result {
        f.write_str("Remote")
    }
}

/// A call that was made. It is a `Future` of its outcome, and can be waited for by [`wait`](Call::wait) too.
///
/// Dropping it gives it up: nobody hears how it ends, and the peer is told that it may end its work on it. Capabilities that `at` gave
/// stay.
#[must_use = "a call that is dropped is given up"]
pub struct Call(Stage);

enum Stage {
    Refused(Option<Exception>),
    Made(Made),
}

pub(crate) struct Made {
    connection: Arc<Shared>,
    id: CallId,
    slot: Arc<Slot>,
}

impl Drop for Made {
    fn drop(&mut self) {
        self.connection.let_go(Dropped::Call(self.id));
    }
}

impl Call {
    pub(crate) fn new(connection: &Arc<Shared>, made: Result<(CallId, Arc<Slot>), Exception>) -> Call {
        match made {
            Ok((id, slot)) => Call(Stage::Made(Made { connection: connection.clone(), id, slot })),
            Err(exception) => Call::refused(exception),
        }
    }

    fn refused(exception: Exception) -> Call {
        Call(Stage::Refused(Some(exception)))
    }

    /// The capability that its results have, or will have, at a path of pointers. It can be called and passed on at once. What is called
    /// fails if this call fails, or has no capability there.
    ///
    /// ```
    /// use lovendak::{Answer, Capability, Connection, Contents, Incoming, Object, Struct};
    /// use std::os::unix::net::UnixStream;
    /// use std::sync::Arc;
    ///
    /// /// Its method 0 gives another one.
    /// struct Maker(u64);
    ///
    /// impl Object for Maker {
    ///     fn call(&self, call: Incoming, answer: Answer) {
    ///         let made = Capability::object(Maker(self.0 + 1));
    ///         let results = Contents::of(Struct::default().set_number(0, self.0).set_reference(0, made));
    ///         answer.send(results.map_err(|error| error.into()));
    ///     }
    /// }
    ///
    /// # fn main() -> Result<(), Box<dyn std::error::Error>> {
    /// let (here, there) = UnixStream::pair()?;
    /// Connection::accepted(there, Arc::new(Maker(1)))?;
    /// let connection = Connection::connected(here, None)?;
    /// let none = Struct::default();
    /// let first = connection.bootstrap().call(7, 0, &none);
    /// let second = first.at(&[0]).call(7, 0, &none); // before the first answer has come
    /// let third = second.at(&[0]).call(7, 0, &none);
    /// assert_eq!(third.wait()?.root()?.number::<u64>(0), 3);
    /// # connection.close();
    /// # Ok(())
    /// # }
    /// ```
    pub fn at(&self, path: &[u16]) -> Remote {
        match &self.0 {
            Stage::Made(Made { connection, id, .. }) => Remote::new(connection, connection.field(*id, path)),
            Stage::Refused(exception) => Remote(Arc::new(Target::Broken(exception.clone().unwrap_or_else(taken)))),
        }
    }

    /// Waits until it has ended. In a call that an object serves, a call over the same connection is not waited for, and fails. On the
    /// thread of an executor, await the call instead.
    pub fn wait(mut self) -> Outcome {
        if matches!(&self.0, Stage::Made(made) if made.connection.is_telling_here()) {
            return Err(Exception::failed(
                "an object can't wait for a call over the connection that it serves: use `then`",
            ));
        }
        let waker = Waker::from(Arc::new(Unpark(thread::current())));
        let mut context = Context::from_waker(&waker);
        loop {
            match Pin::new(&mut self).poll(&mut context) {
                Poll::Ready(outcome) => return outcome,
                Poll::Pending => thread::park(),
            }
        }
    }

    /// Has something done once it has ended, which may be now. It is done between the events of the connection, so it should not take
    /// long, and must not wait for a call over the same connection. `call.then(|_| ())` lets a call go on of which nobody wants to hear.
    ///
    /// ```
    /// use lovendak::{Remote, Struct};
    ///
    /// fn tell(listener: &Remote, number: u64) {
    ///     let call = listener.call(7, 0, Struct::default().set_number(0, number));
    ///     call.then(move |outcome| match outcome {
    ///         Ok(_) => println!("{number} was heard"),
    ///         Err(exception) => println!("{number} was not heard: {exception}"),
    ///     });
    /// }
    /// ```
    pub fn then(self, act: impl FnOnce(Outcome) + Send + 'static) {
        match self.0 {
            Stage::Made(made) => made.slot.clone().then(Box::new(move |outcome| {
                act(outcome);
                drop(made); // the call was open until here
            })),
            Stage::Refused(exception) => act(Err(exception.unwrap_or_else(taken))),
        }
    }

    /// What gives it up, also if something is to be done once it has ended.
    pub(crate) fn giving_up(&self) -> Option<Act> {
        match &self.0 {
            Stage::Made(Made { slot, .. }) => {
                let slot = slot.clone();
                Some(Box::new(move || slot.give_up()))
            }
            Stage::Refused(_) => None,
        }
    }
}

impl Future for Call {
    type Output = Outcome;

    fn poll(mut self: Pin<&mut Self>, context: &mut Context<'_>) -> Poll<Outcome> {
        match &mut self.0 {
            Stage::Made(made) => made.slot.poll(context.waker()),
            Stage::Refused(exception) => Poll::Ready(Err(exception.take().unwrap_or_else(taken))),
        }
    }
}

impl fmt::Debug for Call {
    fn fmt(&self, f: &mut fmt::Formatter<'_>) -> fmt::Result {
        f.write_str("Call")
    }
}

fn taken() -> Exception {
    Exception::failed("the outcome of the call was taken before")
}

/// Where the outcome of a call comes, and who waits for it.
#[derive(Default)]
pub(crate) struct Slot(Mutex<Waiting>);

#[derive(Default)]
enum Waiting {
    #[default]
    Nobody,
    Task(Waker),
    Act(Box<dyn FnOnce(Outcome) + Send>),
    Ended(Outcome),
    Taken,
}

impl Slot {
    pub fn end(&self, outcome: Outcome) {
        let mut waiting = lock(&self.0);
        match mem::replace(&mut *waiting, Waiting::Taken) {
            Waiting::Act(act) => {
                drop(waiting);
                act(outcome);
            }
            before => {
                *waiting = Waiting::Ended(outcome);
                drop(waiting);
                if let Waiting::Task(waker) = before {
                    waker.wake();
                }
            }
        }
    }

    /// Nobody waits any more.
    fn give_up(&self) {
        let waited = mem::replace(&mut *lock(&self.0), Waiting::Taken);
        drop(waited); // code of an application, while nothing is locked
    }

    fn then(&self, act: Box<dyn FnOnce(Outcome) + Send>) {
        let mut waiting = lock(&self.0);
        match mem::replace(&mut *waiting, Waiting::Taken) {
            Waiting::Ended(outcome) => {
                drop(waiting);
                act(outcome);
            }
            Waiting::Taken => {
                drop(waiting);
                act(Err(taken()));
            }
            _ => *waiting = Waiting::Act(act),
        }
    }

    fn poll(&self, waker: &Waker) -> Poll<Outcome> {
        let mut waiting = lock(&self.0);
        match mem::replace(&mut *waiting, Waiting::Taken) {
            Waiting::Ended(outcome) => Poll::Ready(outcome),
            Waiting::Taken => Poll::Ready(Err(taken())),
            _ => {
                *waiting = Waiting::Task(waker.clone());
                Poll::Pending
            }
        }
    }
}

/// Wakes a thread that is parked.
pub(crate) struct Unpark(pub Thread);

impl Wake for Unpark {
    fn wake(self: Arc<Self>) {
        self.0.unpark();
    }
}
