//! Serves counters over TCP to peers of any make: `server ADDRESS`, a thread for each client. Of the registry of
//! `interop/registry.capnp` it has makeCounter, makeRegistry, echo, fail and same. It lets go of a counter once its client has released
//! it. When a client has gone, it prints how many counters that client had left.

use lovendak::{Contents, Event, Exception, ExceptionKind, Level, ObjectId, Refusal, Served, Vat};
use std::collections::HashMap;
use std::error::Error;
use std::io::{Read, Write};
use std::net::{TcpListener, TcpStream};
use std::{env, thread};

// The interfaces' numbers, and those of their methods.
const COUNTER: u64 = 0xa5e1_c0ff_ee00_0001;
const ADD: u16 = 0;
const REGISTRY: u64 = 0xa5e1_c0ff_ee00_0004;
const MAKE_COUNTER: u16 = 0;
const MAKE_REGISTRY: u16 = 3;
const ECHO: u16 = 4;
const FAIL: u16 = 5;
const SAME: u16 = 6;

/// The registry. It has no state, so that one does for all; counters have the numbers from 1 on.
const ROOT: ObjectId = ObjectId(0);

fn main() -> Result<(), Box<dyn Error>> {
    let address = env::args().nth(1).ok_or("usage: server ADDRESS")?;
    let listener = TcpListener::bind(address)?;
    println!("listening on {}", listener.local_addr()?);
    for stream in listener.incoming() {
        let stream = stream?;
        stream.set_nodelay(true)?;
        thread::spawn(move || serve(stream).unwrap_or_else(|error| eprintln!("{error}")));
    }
    Ok(())
}

/// A conversation: what is there is read, the calls in it are served, and what is to be sent is written.
fn serve(mut stream: TcpStream) -> Result<(), Box<dyn Error>> {
    let mut vat = Vat::new(Level::One, Some(ROOT))?;
    let (mut counters, mut room) = (Counters::default(), vec![0; 65_536]);
    while vat.down().is_none() {
        match stream.read(&mut room)? {
            0 => break,
            count => vat.received(&room[..count]),
        }
        while let Some(event) = vat.next_event() {
            counters.hear(&mut vat, event)?;
        }
        stream.write_all(&vat.outgoing())?;
    }
    println!("a client has gone, and left {} counters", counters.sums.len());
    Ok(())
}

#[derive(Default)]
struct Counters {
    sums: HashMap<ObjectId, u64>,
    made: u64,
}

impl Counters {
    /// A vat that is down answers nothing, and this one makes no calls of its own.
    fn hear(&mut self, vat: &mut Vat, event: Event) -> Result<(), Refusal> {
        match event {
            Event::Served(call) if vat.down().is_none() => self.serve(vat, &call)?,
            Event::Released(object) => drop(self.sums.remove(&object)),
            _ => {}
        }
        Ok(())
    }

    /// Answers a call, and lets go of what came with it and of what was given.
    fn serve(&mut self, vat: &mut Vat, call: &Served) -> Result<(), Refusal> {
        let answered = self.answer(vat, call).and_then(|results| {
            let taken = vat.answer(call.task, &results);
            vat.let_go(&results.refs)?;
            Ok(taken?)
        });
        if let Err(exception) = answered {
            vat.fail(call.task, exception.kind, &exception.reason)?;
        }
        vat.let_go(&call.params.refs)
    }

    /// What a method gives, or why it fails.
    fn answer(&mut self, vat: &mut Vat, call: &Served) -> Result<Contents, Exception> {
        let params = &call.params;
        match (call.object, call.interface, call.method) {
            (ROOT, REGISTRY, MAKE_COUNTER) => {
                let (first, counter) = (params.number(0)?, ObjectId(self.made + 1));
                let results = object(vat, counter)?;
                self.made = counter.0;
                self.sums.insert(counter, first);
                Ok(results)
            }
            (ROOT, REGISTRY, MAKE_REGISTRY) => object(vat, ROOT),
            (ROOT, REGISTRY, ECHO | SAME) => again(vat, params),
            (ROOT, REGISTRY, FAIL) => failed(&params.text(0)?.unwrap_or_default()),
            (counter, COUNTER, ADD) => self.add(counter, params.number(0)?),
            _ => no_such_method(),
        }
    }

    fn add(&mut self, counter: ObjectId, by: u64) -> Result<Contents, Exception> {
        let sum = match self.sums.get_mut(&counter) {
            Some(sum) => sum,
            None => return no_such_method(), // the registry
        };
        match sum.checked_add(by) {
            None => failed("the sum is too large"),
            Some(more) => {
                *sum = more;
                Ok(Contents::new(&[more], None, &[])?)
            }
        }
    }
}

/// Results that are one object.
fn object(vat: &mut Vat, number: ObjectId) -> Result<Contents, Exception> {
    let reference = vat.host(number)?;
    Ok(Contents::new(&[], None, &[reference])?)
}

/// Results that are what came, in the same place.
fn again(vat: &mut Vat, params: &Contents) -> Result<Contents, Exception> {
    let refs = params.refs.iter().map(|reference| vat.clone_ref(*reference)).collect::<Result<_, _>>()?;
    Ok(Contents { payload: params.payload.clone(), refs })
}

fn no_such_method() -> Result<Contents, Exception> {
    Err(Exception { kind: ExceptionKind::Unimplemented, reason: "no such method".into() })
}

fn failed(reason: &str) -> Result<Contents, Exception> {
    Err(Exception { kind: ExceptionKind::Failed, reason: reason.into() })
}
