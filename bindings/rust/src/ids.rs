//! The numbers by which an application and its vat speak of things.

use std::fmt;

macro_rules! ids {
    ($($(#[$doc:meta])* $name:ident $word:literal;)*) => {$(
        $(#[$doc])*
        #[repr(transparent)]
        #[derive(Clone, Copy, Debug, PartialEq, Eq, PartialOrd, Ord, Hash)]
        pub struct $name(pub u64);

        impl fmt::Display for $name {
            fn fmt(&self, f: &mut fmt::Formatter<'_>) -> fmt::Result {
                write!(f, concat!($word, " {}"), self.0)
            }
        }
    )*};
}

ids! {
    /// A reference, until it is dropped. A number of one vat means nothing to another.
    RefId "reference";
    /// An own call, until it is finished.
    CallId "call";
    /// A call that is to be served, until it is answered or failed.
    TaskId "task";
    /// An own promise, until it is resolved or rejected.
    PromiseId "promise";
    /// An object of the application, which chooses its number.
    ObjectId "object";
}
