//! What code made of `registry.capnp` would have, for which Debian has no program: structs are written and read by the places of their
//! fields, and objects are called by the numbers of their interfaces and methods.
use capnp::any_pointer::{self, Owned};
use capnp::capability::{
    Client, FromClientHook, FromServer, Params, Promise, RemotePromise, Request, Response, Results, Server,
};
use capnp::private::capability::ClientHook;
use capnp::private::layout::{PointerBuilder, PointerReader, StructBuilder, StructReader, StructSize};
use capnp::traits::{FromPointerBuilder, FromPointerReader};
use capnp::{Error, Word, primitive_list};
use std::ops::{Deref, DerefMut};

pub const COUNTER: u64 = 0xa5e1_c0ff_ee00_0001;
pub const PRINTER: u64 = 0xa5e1_c0ff_ee00_0002;
pub const SINK: u64 = 0xa5e1_c0ff_ee00_0003;
pub const REGISTRY: u64 = 0xa5e1_c0ff_ee00_0004;

/// The methods of each, in the order of their numbers.
pub mod counter {
    pub const ADD: u16 = 0;
    pub const TELL: u16 = 1;
}

pub mod printer {
    pub const PRINT: u16 = 0;
    pub const PRINTED: u16 = 1;
}

pub mod sink {
    pub const WRITE: u16 = 0;
    pub const END: u16 = 1;
}

pub mod registry {
    pub const MAKE_COUNTER: u16 = 0;
    pub const MAKE_PRINTER: u16 = 1;
    pub const MAKE_SINK: u16 = 2;
    pub const MAKE_REGISTRY: u16 = 3;
    pub const ECHO: u16 = 4;
    pub const FAIL: u16 = 5;
    pub const SAME: u16 = 6;
    pub const AWAIT_PRINTER: u16 = 7;
    pub const PUBLISH: u16 = 8;
    pub const TELL: u16 = 9;
    pub const FETCH: u16 = 10;
    pub const AHEAD: u16 = 11;
    pub const FORWARD: u16 = 12;
    pub const SUBSCRIBE: u16 = 13;
    pub const BROADCAST: u16 = 14;
    pub const UNSUBSCRIBE: u16 = 15;
}

// ---- structs

/// A struct to be written, of so many words and pointers.
#[derive(Clone, Copy)]
pub struct Fields<'a, const WORDS: u16, const POINTERS: u16>(StructBuilder<'a>);

impl<'a, const WORDS: u16, const POINTERS: u16> FromPointerBuilder<'a> for Fields<'a, WORDS, POINTERS> {
    fn init_pointer(builder: PointerBuilder<'a>, _length: u32) -> Self {
        Fields(builder.init_struct(StructSize { data: WORDS, pointers: POINTERS }))
    }

    fn get_from_pointer(builder: PointerBuilder<'a>, default: Option<&'a [Word]>) -> capnp::Result<Self> {
        Ok(Fields(builder.get_struct(StructSize { data: WORDS, pointers: POINTERS }, default)?))
    }
}

impl<'a, const WORDS: u16, const POINTERS: u16> Fields<'a, WORDS, POINTERS> {
    pub fn set_number(&self, at: usize, number: u64) {
        self.0.set_data_field(at, number);
    }

    pub fn set_text(&self, at: usize, text: &str) {
        self.0.get_pointer_field(at).set_text(text);
    }

    pub fn set_bytes(&self, at: usize, bytes: &[u8]) {
        self.0.get_pointer_field(at).set_data(bytes);
    }

    pub fn set_object(&self, at: usize, object: Object) {
        self.0.get_pointer_field(at).set_capability(object.hook);
    }

    pub fn set_numbers(&self, at: usize, numbers: &[u64]) {
        let pointer = any_pointer::Builder::new(self.0.get_pointer_field(at));
        let mut list: primitive_list::Builder<u64> = pointer.initn_as(numbers.len() as u32);
        for (at, number) in numbers.iter().enumerate() {
            list.set(at as u32, *number);
        }
    }
}

/// A struct that came.
#[derive(Clone, Copy)]
pub struct Came<'a>(StructReader<'a>);

impl<'a> FromPointerReader<'a> for Came<'a> {
    fn get_from_pointer(reader: &PointerReader<'a>, default: Option<&'a [Word]>) -> capnp::Result<Self> {
        Ok(Came(reader.get_struct(default)?))
    }
}

impl<'a> Came<'a> {
    pub fn number(&self, at: usize) -> u64 {
        self.0.get_data_field(at)
    }

    pub fn text(&self, at: usize) -> capnp::Result<&'a str> {
        self.0.get_pointer_field(at).get_text(None)
    }

    pub fn bytes(&self, at: usize) -> capnp::Result<&'a [u8]> {
        self.0.get_pointer_field(at).get_data(None)
    }

    pub fn object(&self, at: usize) -> capnp::Result<Object> {
        Ok(Object::new(self.0.get_pointer_field(at).get_capability()?))
    }

    pub fn numbers(&self, at: usize) -> capnp::Result<Vec<u64>> {
        let list = primitive_list::Reader::<u64>::get_from_pointer(&self.0.get_pointer_field(at), None)?;
        Ok(list.iter().collect())
    }
}

// ---- objects to call

/// A reference to an object of any interface.
#[derive(Clone)]
pub struct Object {
    hook: Box<dyn ClientHook>,
}

impl FromClientHook for Object {
    fn new(hook: Box<dyn ClientHook>) -> Self {
        Object { hook }
    }
}

impl From<Object> for Client {
    fn from(object: Object) -> Client {
        Client::new(object.hook)
    }
}

impl Object {
    /// An object of one's own.
    pub fn of<S: Serves>(served: S) -> Object {
        capnp_rpc::new_client(served)
    }

    /// A call, with what is put into its params.
    pub fn call<const WORDS: u16, const POINTERS: u16>(
        &self,
        interface: u64,
        method: u16,
        fill: impl FnOnce(Fields<WORDS, POINTERS>),
    ) -> Call {
        let mut request: Request<Owned, Owned> = Client::new(self.hook.clone()).new_call(interface, method, None);
        fill(request.get().init_as());
        Call(request.send())
    }

    /// A call without params.
    pub fn ask(&self, interface: u64, method: u16) -> Call {
        self.call::<0, 0>(interface, method, |_| {})
    }
}

/// A call that was made. Who lets it go cancels it.
pub struct Call(RemotePromise<Owned>);

impl Call {
    /// What it will give in the pointer at that place of its results.
    pub fn object(&self, at: u16) -> Object {
        Object::new(self.0.pipeline.get_pointer_field(at).as_cap())
    }

    pub async fn answer(self) -> Result<Answer, Error> {
        Ok(Answer(self.0.promise.await?))
    }

    /// Waits for its end.
    pub async fn end(self) -> Result<(), Error> {
        self.0.promise.await?;
        Ok(())
    }
}

/// What a call has given.
pub struct Answer(Response<Owned>);

impl Answer {
    pub fn get(&self) -> capnp::Result<Came<'_>> {
        self.0.get()?.get_as()
    }
}

// ---- objects to serve

/// An object that answers calls.
pub trait Serves: 'static {
    const INTERFACE: u64;

    fn serve(
        &mut self,
        method: u16,
        params: Params<Owned>,
        results: Results<Owned>,
    ) -> Result<Promise<(), Error>, Error>;
}

pub struct Served<S>(S);

impl<S> Deref for Served<S> {
    type Target = S;

    fn deref(&self) -> &S {
        &self.0
    }
}

impl<S> DerefMut for Served<S> {
    fn deref_mut(&mut self) -> &mut S {
        &mut self.0
    }
}

impl<S: Serves> Server for Served<S> {
    fn dispatch_call(
        &mut self,
        interface: u64,
        method: u16,
        params: Params<Owned>,
        results: Results<Owned>,
    ) -> Promise<(), Error> {
        if interface != S::INTERFACE {
            return Promise::err(Error::unimplemented("no such interface".into()));
        }
        self.0.serve(method, params, results).unwrap_or_else(Promise::err)
    }
}

impl<S: Serves> FromServer<S> for Object {
    type Dispatch = Served<S>;

    fn from_server(served: S) -> Served<S> {
        Served(served)
    }
}
