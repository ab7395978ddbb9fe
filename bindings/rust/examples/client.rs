//! Calls counters over TCP, which a peer of any make serves: `client ADDRESS`. It speaks `interop/registry.capnp`.

use lovendak::{CallId, Contents, Ended, Event, Exception, Level, Vat};
use std::env;
use std::error::Error;
use std::io::{Read, Write};
use std::net::TcpStream;

// The interfaces' numbers, and those of their methods.
const COUNTER: u64 = 0xa5e1_c0ff_ee00_0001;
const ADD: u16 = 0;
const REGISTRY: u64 = 0xa5e1_c0ff_ee00_0004;
const MAKE_COUNTER: u16 = 0;
const ECHO: u16 = 4;
const FAIL: u16 = 5;

fn main() -> Result<(), Box<dyn Error>> {
    let address = env::args().nth(1).ok_or("usage: client ADDRESS")?;
    let mut client = Client::connect(&address)?;
    let asked = client.vat.bootstrap()?;
    let registry = client.vat.result_of(asked)?;

    // Three calls on what has not come yet, in one message to the network.
    let made = client.vat.call(registry, REGISTRY, MAKE_COUNTER, &Contents::new(&[40], Some("apples"), &[])?)?;
    let counter = client.vat.field(made, &[0])?;
    let two = Contents::new(&[2], None, &[])?;
    let first = client.vat.call(counter, COUNTER, ADD, &two)?;
    let second = client.vat.call(counter, COUNTER, ADD, &two)?;
    println!("{}", client.outcome(first)??.number(0)?);
    println!("{}", client.outcome(second)??.number(0)?);

    let reason = Contents::new(&[], Some("on purpose"), &[])?;
    let failing = client.vat.call(registry, REGISTRY, FAIL, &reason)?;
    println!("{}", client.outcome(failing)?.expect_err("it fails on purpose").reason);

    // An answer to this one says that what was let go has come.
    client.finish(&[asked, made])?;
    client.vat.let_go(&[counter])?;
    let echo = client.vat.call(registry, REGISTRY, ECHO, &Contents::new(&[], None, &[])?)?;
    client.outcome(echo)??;
    client.vat.let_go(&[registry])?;
    client.send()?;
    println!("{} is left", if client.vat.shares_nothing() { "nothing" } else { "something" });
    Ok(())
}

/// A vat with its connection, and the calls that have ended.
struct Client {
    vat: Vat,
    stream: TcpStream,
    ended: Vec<Ended>,
}

impl Client {
    fn connect(address: &str) -> Result<Client, Box<dyn Error>> {
        let stream = TcpStream::connect(address)?;
        stream.set_nodelay(true)?;
        Ok(Client { vat: Vat::new(Level::One, None)?, stream, ended: Vec::new() })
    }

    fn send(&mut self) -> Result<(), Box<dyn Error>> {
        self.stream.write_all(&self.vat.outgoing())?;
        Ok(())
    }

    /// Waits until a call has ended, and finishes it.
    fn outcome(&mut self, call: CallId) -> Result<Result<Contents, Exception>, Box<dyn Error>> {
        let mut room = vec![0; 65_536];
        loop {
            self.send()?;
            if let Some(at) = self.ended.iter().position(|ended| ended.call == call) {
                self.vat.finish(call)?;
                return Ok(self.ended.swap_remove(at).outcome);
            }
            match self.stream.read(&mut room)? {
                0 => self.vat.ended(),
                count => self.vat.received(&room[..count]),
            }
            self.take_events()?;
        }
    }

    fn take_events(&mut self) -> Result<(), Box<dyn Error>> {
        while let Some(event) = self.vat.next_event() {
            match event {
                Event::Ended(ended) => self.ended.push(ended),
                Event::Served(call) => self.vat.let_go(&call.params.refs)?, // it serves no objects
                Event::Down(..) => return Err(event.to_string().into()),
                // It hosts nothing, and waits for nothing else.
                Event::Resolved(_) | Event::Lifted(_) | Event::Cancelled(_) | Event::Released(_) => {}
            }
        }
        Ok(())
    }

    /// Waits until these calls have ended, and lets go of what they gave.
    fn finish(&mut self, calls: &[CallId]) -> Result<(), Box<dyn Error>> {
        for call in calls {
            let refs = self.outcome(*call)??.refs;
            self.vat.let_go(&refs)?;
        }
        Ok(())
    }
}
