//! Payloads written and read by the crate `capnp`: a listener joins a room over two vats in one process, and is given its history.

mod chat_capnp;

use chat_capnp::{history, join, listener};
use lovendak::typed::{client_of, reference_of};
use lovendak::{Contents, Event, Level, ObjectId, Served, Vat};
use std::error::Error;

const ROOM: ObjectId = ObjectId(0);
const LISTENER: ObjectId = ObjectId(1);

fn main() -> Result<(), Box<dyn Error>> {
    let mut client = Vat::new(Level::One, None)?;
    let mut server = Vat::new(Level::One, Some(ROOM))?;
    let asked = client.bootstrap()?;
    let room = client.result_of(asked)?;
    let own = client.host(LISTENER)?;
    let params = Contents::of_typed(|root| {
        let mut join: join::Builder = root.init_as();
        join.set_name("ann");
        join.set_listener(listener::Client { client: client_of(own) });
        Ok(())
    })?;
    let call = client.call(room, 7, 0, &params)?;
    client.let_go(&[room, own])?;

    server.received(&client.outgoing());
    while let Some(event) = server.next_event() {
        match event {
            Event::Served(call) => serve(&mut server, &call)?,
            other => return Err(other.to_string().into()),
        }
    }

    client.received(&server.outgoing());
    while let Some(event) = client.next_event() {
        match event {
            Event::Ended(ended) if ended.call == call => show(&ended.outcome?)?,
            Event::Ended(ended) => client.let_go(&ended.outcome?.refs)?,
            Event::Served(heard) => println!("object {} hears {}", heard.object.0, heard.params.root()?.text(0)?),
            Event::Down(..) => return Err(event.to_string().into()),
            Event::Resolved(_) | Event::Lifted(_) | Event::Cancelled(_) | Event::Released(_) => {}
        }
    }
    Ok(())
}

/// Greets the listener, and answers with the history.
fn serve(vat: &mut Vat, call: &Served) -> Result<(), Box<dyn Error>> {
    let message = call.params.typed()?;
    let join: join::Reader = message.root()?;
    let listener = reference_of(&join.get_listener()?.client).ok_or("a listener is wanted")?;
    let greeting = format!("welcome, {}", join.get_name()?);
    vat.call(listener, 8, 0, &Contents::new(&[], Some(&greeting), &[])?)?;
    let results = Contents::of_typed(|root| {
        let history: history::Builder = root.init_as();
        let mut lines = history.init_lines(2);
        for (at, text) in ["first", "second"].iter().enumerate() {
            let mut line = lines.reborrow().get(at as u32);
            line.set_number(at as u32 + 1);
            line.set_text(text);
        }
        Ok(())
    })?;
    vat.answer(call.task, &results)?;
    Ok(vat.let_go(&call.params.refs)?)
}

fn show(results: &Contents) -> Result<(), Box<dyn Error>> {
    let message = results.typed()?;
    let history: history::Reader = message.root()?;
    for line in history.get_lines()?.iter() {
        println!("line {}: {}", line.get_number(), line.get_text()?);
    }
    Ok(())
}
