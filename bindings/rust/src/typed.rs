//! Contents written and read by the crate `capnp`: with the feature `capnp`.
//!
//! [`Contents::of_typed`] writes a message by the accessors that `capnpc` makes of a schema, and [`Contents::typed`] reads one. A
//! client of the crate stands for a reference: [`client_of`] makes one, and [`reference_of`] says which it stands for. Calls are made
//! by the vat, so a call through such a client fails.
//!
//! ```
//! use capnp::{any_pointer, capability::Client};
//! use lovendak::{typed, Contents, RefId};
//!
//! # fn main() -> capnp::Result<()> {
//! let written = Contents::of_typed(|mut root| {
//!     root.set_as_capability(typed::client_of(RefId(7)).hook);
//!     Ok(())
//! })?;
//! assert_eq!(written.refs, [RefId(7)]);
//! let message = written.typed()?;
//! let root: any_pointer::Reader = message.root()?;
//! let client = Client::new(root.get_pipelined_cap(&[])?);
//! assert_eq!(typed::reference_of(&client), Some(RefId(7)));
//! # Ok(())
//! # }
//! ```

use crate::contents::Contents;
use crate::ids::RefId;
use crate::reading;
use capnp::capability::{Client, Promise, RemotePromise, Request};
use capnp::message::{Builder, HeapAllocator, Reader, ReaderOptions};
use capnp::private::capability::{ClientHook, ParamsHook, PipelineHook, PipelineOp, RequestHook, ResultsHook};
use capnp::serialize::{self, OwnedSegments};
use capnp::traits::{FromPointerReader, Imbue, ImbueMut};
use capnp::{Error, MessageSize, any_pointer};

type CapTable = Vec<Option<Box<dyn ClientHook>>>;

impl Contents {
    /// What is written into the root of a message. The clients in it have to be those of [`client_of`]; their references stay the
    /// giver's.
    pub fn of_typed(write: impl FnOnce(any_pointer::Builder<'_>) -> capnp::Result<()>) -> capnp::Result<Contents> {
        let (mut message, mut caps) = (Builder::new_default(), CapTable::new());
        let mut root: any_pointer::Builder<'_> = message.init_root();
        root.imbue_mut(&mut caps);
        write(root)?;
        let refs = caps.iter().map(|cap| cap.as_deref().and_then(reference_behind)).collect::<Option<_>>();
        let refs = refs.ok_or_else(|| Error::failed("a client that stands for no reference".into()))?;
        Ok(Contents { payload: serialize::write_message_to_words(&message), refs })
    }

    /// The message, to be read by accessors. What it may lead to is limited as the crate `capnp` does it by default.
    pub fn typed(&self) -> capnp::Result<Typed> {
        reading::segments(&self.payload)
            .map_err(|fault| Error::failed(format!("{}: {}", fault.name(), fault.meaning())))?;
        let reader = serialize::read_message(&mut &self.payload[..], ReaderOptions::new())?;
        let caps = self.refs.iter().map(|reference| Some(Hook(Some(*reference)).add_ref())).collect();
        Ok(Typed { reader, caps })
    }
}

/// A message that is read by accessors.
pub struct Typed {
    reader: Reader<OwnedSegments>,
    caps: CapTable,
}

impl Typed {
    /// What stands at the root: the reader of a struct, or an `any_pointer::Reader`.
    pub fn root<'a, T: FromPointerReader<'a>>(&'a self) -> capnp::Result<T> {
        let mut root: any_pointer::Reader<'a> = self.reader.get_root()?;
        root.imbue(&self.caps);
        root.get_as()
    }
}

/// A client that stands for a reference, to be written into a message. As one that `capnpc` makes it is
/// `listener::Client { client: client_of(reference) }`.
pub fn client_of(reference: RefId) -> Client {
    Client::new(Box::new(Hook(Some(reference))))
}

/// The reference that a client stands for, if it is one of [`client_of`], or was read from contents.
pub fn reference_of(client: &Client) -> Option<RefId> {
    reference_behind(&*client.hook)
}

fn reference_behind(hook: &dyn ClientHook) -> Option<RefId> {
    (hook.get_brand() == brand()).then(|| RefId(hook.get_ptr() as u64))
}

/// A number that no client of another maker has: an address of this crate.
fn brand() -> usize {
    static BRAND: u8 = 0;
    &BRAND as *const u8 as usize
}

/// A reference as a client of the crate `capnp`; none is what a call through one would give.
#[derive(Clone, Copy)]
struct Hook(Option<RefId>);

fn no_call() -> Error {
    Error::unimplemented("calls are made by the vat".into())
}

impl ClientHook for Hook {
    fn add_ref(&self) -> Box<dyn ClientHook> {
        Box::new(*self)
    }

    fn new_call(&self, _: u64, _: u16, _: Option<MessageSize>) -> Request<any_pointer::Owned, any_pointer::Owned> {
        Request::new(Box::new(NoRequest { message: Builder::new_default(), caps: CapTable::new() }))
    }

    fn call(&self, _: u64, _: u16, _: Box<dyn ParamsHook>, _: Box<dyn ResultsHook>) -> Promise<(), Error> {
        Promise::err(no_call())
    }

    fn get_brand(&self) -> usize {
        self.0.map_or(0, |_| brand())
    }

    fn get_ptr(&self) -> usize {
        self.0.map_or(0, |reference| reference.0 as usize)
    }

    fn get_resolved(&self) -> Option<Box<dyn ClientHook>> {
        None
    }

    fn when_more_resolved(&self) -> Option<Promise<Box<dyn ClientHook>, Error>> {
        None
    }

    fn when_resolved(&self) -> Promise<(), Error> {
        Promise::ok(())
    }
}

/// A call that fails once it is sent.
struct NoRequest {
    message: Builder<HeapAllocator>,
    caps: CapTable,
}

impl RequestHook for NoRequest {
    fn get(&mut self) -> any_pointer::Builder<'_> {
        let mut root: any_pointer::Builder<'_> = self.message.init_root();
        root.imbue_mut(&mut self.caps);
        root
    }

    fn get_brand(&self) -> usize {
        0
    }

    fn send(self: Box<Self>) -> RemotePromise<any_pointer::Owned> {
        RemotePromise { promise: Promise::err(no_call()), pipeline: any_pointer::Pipeline::new(Box::new(NoPipeline)) }
    }

    fn tail_send(self: Box<Self>) -> Option<(u32, Promise<(), Error>, Box<dyn PipelineHook>)> {
        None
    }
}

struct NoPipeline;

impl PipelineHook for NoPipeline {
    fn add_ref(&self) -> Box<dyn PipelineHook> {
        Box::new(NoPipeline)
    }

    fn get_pipelined_cap(&self, _: &[PipelineOp]) -> Box<dyn ClientHook> {
        Box::new(Hook(None))
    }
}
