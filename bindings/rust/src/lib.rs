//! A vat for Cap'n Proto RPC (`rpc.capnp`, two parties, levels 0 and 1), without input or output of its own: what comes from the peer
//! is handed to it, in any pieces, and what it says is taken and sent.
//!
//! The vat is a static library that is proved; this crate is a safe face of its C interface (`bindings/c/lovendak.h`), and is not
//! proved. All `unsafe` is in `ffi.rs`. What has to be given back, and what a vat does when it goes down, stands in
//! `docs/embedding.md`.
//!
//! An application lets an object go when it is [released](Event::Released): when nothing refers to it any more, here or at the peer.
//!
//! A [`Connection`] has objects call each other over a stream, with calls as futures. A [`Vat`] is what lies below it, and what the
//! rest of this page is about.
//!
//! Two vats in one process, of which one calls an object of the other that doubles numbers:
//!
//! ```
//! use lovendak::{Contents, Event, Level, ObjectId, Refusal, Vat};
//!
//! fn main() -> Result<(), Refusal> {
//!     let mut client = Vat::new(Level::One, None)?;
//!     let mut server = Vat::new(Level::One, Some(ObjectId(0)))?;
//!     let asked = client.bootstrap()?;
//!     let doubler = client.result_of(asked)?;
//!     let call = client.call(doubler, 7, 0, &Contents::new(&[21], None, &[])?)?;  // before the first answer has come
//!
//!     server.received(&client.outgoing());
//!     let served = match server.next_event() {
//!         Some(Event::Served(served)) => served,
//!         _ => panic!("no call came"),
//!     };
//!     let doubled = served.params.number(0)? * 2;
//!     server.answer(served.task, &Contents::new(&[doubled], None, &[])?)?;
//!
//!     client.received(&server.outgoing());
//!     while let Some(event) = client.next_event() {
//!         let ended = match event {
//!             Event::Ended(ended) => ended,
//!             _ => continue, // what stands in the results of `asked` is known now
//!         };
//!         let results = ended.outcome.expect("no call failed");
//!         if ended.call == call {
//!             assert_eq!(results.number(0)?, 42);
//!         }
//!         client.let_go(&results.refs)?;
//!         client.finish(ended.call)?;
//!     }
//!     client.drop_ref(doubler)?;
//!     server.received(&client.outgoing());
//!     assert!(client.shares_nothing() && server.shares_nothing());
//!     Ok(())
//! }
//! ```
#![deny(missing_docs)]

mod capability;
mod connection;
mod contents;
mod contents_error;
mod event;
mod fault;
mod ffi;
mod ids;
mod node;
mod number;
mod numbered;
mod object;
mod place;
#[cfg(feature = "futures-io")]
mod polled;
mod reading;
mod refusal;
mod remote;
mod shared;
mod structs;
#[cfg(feature = "capnp")]
pub mod typed;
mod vat;
mod writing;

pub use capability::{Capability, Promise, Resolver};
pub use connection::{Connection, Stream, serve};
pub use contents::Contents;
pub use contents_error::ContentsError;
pub use event::{Ended, Event, Exception, ExceptionKind, Served};
pub use fault::Fault;
pub use ids::{CallId, ObjectId, PromiseId, RefId, TaskId};
pub use number::Number;
pub use object::{Answer, Incoming, Object, Outcome};
pub use place::{Broken, Lead, PeerPlace, Place};
#[cfg(feature = "futures-io")]
pub use polled::Polled;
pub use refusal::Refusal;
pub use remote::{Call, Remote};
pub use structs::Struct;
pub use vat::{Advanced, Finishes, Level, Load, Pending, TableSizes, Vat};

/// The number of the library's interface.
pub fn version() -> u32 {
    ffi::lovendak_version()
}
