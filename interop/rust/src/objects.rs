//! The objects of `registry.capnp`, as a peer of Rust has them.
use crate::schema::{
    COUNTER, Call, Came, Fields, Object, PRINTER, REGISTRY, SINK, Serves, counter, printer, registry, sink,
};
use crate::tasks::detach;
use capnp::Error;
use capnp::any_pointer::Owned;
use capnp::capability::{Params, Promise, Results};
use futures::channel::oneshot;
use futures::future::Shared;
use std::cell::{Cell, RefCell};
use std::rc::Rc;

type Answered = Result<Promise<(), Error>, Error>;

fn done() -> Answered {
    Ok(Promise::ok(()))
}

thread_local! {
    static WANTED: Cell<bool> = const { Cell::new(false) };
}

/// Whether objects are told of.
pub fn want_told(wanted: bool) {
    WANTED.set(wanted);
}

/// An object that is told of on standard output, if that is asked for: what it is asked, and that nobody refers to it any more.
struct Told(&'static str);

impl Told {
    fn says(&self, what: &str) {
        if WANTED.get() {
            println!("{} {what}", self.0);
        }
    }
}

impl Drop for Told {
    fn drop(&mut self) {
        self.says("gone");
    }
}

fn no_such_method() -> Error {
    Error::unimplemented("no such method".into())
}

fn given(params: &Params<Owned>) -> Result<Came<'_>, Error> {
    params.get()?.get_as()
}

fn fields<const WORDS: u16, const POINTERS: u16>(results: &mut Results<Owned>) -> Fields<'_, WORDS, POINTERS> {
    results.get().init_as()
}

// ---- counters, printers and sinks

struct Counter {
    told: Told,
    name: String,
    sums: Vec<u64>,
}

impl Counter {
    fn new(name: &str, first: u64) -> Counter {
        Counter { told: Told("counter"), name: name.into(), sums: vec![first] }
    }
}

impl Serves for Counter {
    const INTERFACE: u64 = COUNTER;

    fn serve(&mut self, method: u16, params: Params<Owned>, mut results: Results<Owned>) -> Answered {
        match method {
            counter::ADD => {
                self.told.says("add");
                let last = self.sums.last().copied().unwrap_or_default();
                let sum = last
                    .checked_add(given(&params)?.number(0))
                    .ok_or_else(|| Error::failed("the sum is too large".into()))?;
                self.sums.push(sum);
                fields::<1, 0>(&mut results).set_number(0, sum);
            }
            counter::TELL => {
                self.told.says("tell");
                let fields = fields::<0, 2>(&mut results);
                fields.set_text(0, &self.name);
                fields.set_numbers(1, &self.sums);
            }
            _ => return Err(no_such_method()),
        }
        done()
    }
}

/// A registry whose answers are so many bytes.
pub struct Bytes(pub usize);

impl Serves for Bytes {
    const INTERFACE: u64 = REGISTRY;

    fn serve(&mut self, _method: u16, _params: Params<Owned>, mut results: Results<Owned>) -> Answered {
        fields::<0, 1>(&mut results).set_bytes(0, &vec![7; self.0]);
        done()
    }
}

/// What a printer has printed, for whoever looks at it from outside.
pub type Sheet = Rc<RefCell<Vec<u64>>>;

/// What opens a gate for all who wait at it.
pub type Gate = Shared<oneshot::Receiver<()>>;

pub struct Printer {
    told: Told,
    sheet: Sheet,
    gate: Option<Gate>,
}

impl Printer {
    pub fn new(sheet: &Sheet) -> Printer {
        Printer { told: Told("printer"), sheet: sheet.clone(), gate: None }
    }

    /// Prints at once, but answers only when the gate is open.
    pub fn slow(sheet: &Sheet, gate: &Gate) -> Printer {
        Printer { gate: Some(gate.clone()), ..Printer::new(sheet) }
    }
}

impl Serves for Printer {
    const INTERFACE: u64 = PRINTER;

    fn serve(&mut self, method: u16, params: Params<Owned>, mut results: Results<Owned>) -> Answered {
        match method {
            printer::PRINT => {
                self.told.says("print");
                let mut sheet = self.sheet.borrow_mut();
                sheet.push(given(&params)?.number(0));
                fields::<1, 0>(&mut results).set_number(0, sheet.len() as u64);
                if let Some(gate) = self.gate.clone() {
                    return Ok(Promise::from_future(async move {
                        gate.await.map_err(|_| Error::failed("the gate stays shut".into()))
                    }));
                }
            }
            printer::PRINTED => {
                self.told.says("printed");
                fields::<0, 1>(&mut results).set_numbers(0, &self.sheet.borrow());
            }
            _ => return Err(no_such_method()),
        }
        done()
    }
}

struct Sink {
    told: Told,
    bytes: u64,
    sum: u64,
}

impl Serves for Sink {
    const INTERFACE: u64 = SINK;

    fn serve(&mut self, method: u16, params: Params<Owned>, mut results: Results<Owned>) -> Answered {
        match method {
            sink::WRITE => {
                self.told.says("write");
                let bytes = given(&params)?.bytes(0)?;
                self.bytes += bytes.len() as u64;
                self.sum += bytes.iter().map(|byte| u64::from(*byte)).sum::<u64>();
            }
            sink::END => {
                self.told.says("end");
                let fields = fields::<2, 0>(&mut results);
                fields.set_number(0, self.bytes);
                fields.set_number(1, self.sum);
            }
            _ => return Err(no_such_method()),
        }
        done()
    }
}

// ---- the registry

pub struct Registry {
    told: Told,
    awaited: Option<Object>,
    publisher: Option<oneshot::Sender<Object>>,
    subscribers: Vec<Object>,
}

impl Default for Registry {
    fn default() -> Registry {
        Registry { told: Told("registry"), awaited: None, publisher: None, subscribers: Vec::new() }
    }
}

/// A promise of an object, and what settles it.
pub fn promised() -> (Object, oneshot::Sender<Object>) {
    let (settles, settled) = oneshot::channel::<Object>();
    let coming = Box::pin(async move { Ok(settled.await.map_err(|_| Error::failed("broken".into()))?.into()) });
    (capnp_rpc::new_promise_client(coming), settles)
}

/// Has a registry make a counter.
fn asked(registry: Object) -> Call {
    registry.call::<1, 1>(REGISTRY, registry::MAKE_COUNTER, |params| {
        params.set_text(0, "fetched");
        params.set_number(0, 40);
    })
}

pub fn print(printer: &Object, line: u64) -> Call {
    printer.call::<1, 0>(PRINTER, printer::PRINT, |params| params.set_number(0, line))
}

/// Answers with an object.
fn made(object: Object, mut results: Results<Owned>) -> Answered {
    fields::<0, 1>(&mut results).set_object(0, object);
    done()
}

impl Registry {
    fn await_printer(&mut self) -> Object {
        if let Some(printer) = &self.awaited {
            return printer.clone();
        }
        let (printer, publisher) = promised();
        self.awaited = Some(printer.clone());
        self.publisher = Some(publisher);
        printer
    }

    fn publish(&mut self, printer: Object) -> Answered {
        let publisher = self.publisher.take().ok_or_else(|| Error::failed("nobody awaits a printer".into()))?;
        self.awaited = None;
        let _ = publisher.send(printer);
        done()
    }

    fn broadcast(&mut self, line: u64, mut results: Results<Owned>) -> Answered {
        for subscriber in &self.subscribers {
            detach(print(subscriber, line).end());
        }
        fields::<1, 0>(&mut results).set_number(0, self.subscribers.len() as u64);
        done()
    }

    fn make(method: u16, came: Came, results: Results<Owned>) -> Answered {
        let object = match method {
            registry::MAKE_COUNTER => Object::of(Counter::new(came.text(0)?, came.number(0))),
            registry::MAKE_PRINTER => Object::of(Printer::new(&Sheet::default())),
            registry::MAKE_SINK => Object::of(Sink { told: Told("sink"), bytes: 0, sum: 0 }),
            _ => Object::of(Registry::default()),
        };
        made(object, results)
    }
}

const NAMES: [&str; 16] = [
    "makeCounter",
    "makePrinter",
    "makeSink",
    "makeRegistry",
    "echo",
    "fail",
    "same",
    "awaitPrinter",
    "publish",
    "tell",
    "fetch",
    "ahead",
    "forward",
    "subscribe",
    "broadcast",
    "unsubscribe",
];

impl Serves for Registry {
    const INTERFACE: u64 = REGISTRY;

    fn serve(&mut self, method: u16, params: Params<Owned>, mut results: Results<Owned>) -> Answered {
        let name = NAMES.get(usize::from(method)).ok_or_else(no_such_method)?;
        self.told.says(name);
        let came = given(&params)?;
        match method {
            registry::ECHO => fields::<0, 1>(&mut results).set_bytes(0, came.bytes(0)?),
            registry::FAIL => return Err(Error::failed(came.text(0)?.into())),
            registry::SAME => return made(came.object(0)?, results),
            registry::AWAIT_PRINTER => return made(self.await_printer(), results),
            registry::PUBLISH => return self.publish(came.object(0)?),
            registry::TELL => {
                let call = print(&came.object(0)?, came.number(0));
                return Ok(Promise::from_future(async move {
                    let lines = call.answer().await?.get()?.number(0);
                    fields::<1, 0>(&mut results).set_number(0, lines);
                    Ok(())
                }));
            }
            // It has no tail calls.
            registry::FETCH | registry::FORWARD => {
                let call = asked(came.object(0)?);
                return Ok(Promise::from_future(async move {
                    let counter = call.answer().await?.get()?.object(0)?;
                    fields::<0, 1>(&mut results).set_object(0, counter);
                    Ok(())
                }));
            }
            registry::AHEAD => {
                let call = asked(came.object(0)?);
                let counter = call.object(0);
                detach(call.end());
                return made(counter, results);
            }
            registry::SUBSCRIBE => self.subscribers.push(came.object(0)?),
            registry::BROADCAST => return self.broadcast(came.number(0), results),
            registry::UNSUBSCRIBE => self.subscribers.clear(),
            _ => return Registry::make(method, came, results),
        }
        done()
    }
}
