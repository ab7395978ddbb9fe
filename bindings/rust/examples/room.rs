//! Serves the chat room of `bindings/chat/chat.capnp` over TCP to peers of any make: `room ADDRESS`.

use lovendak::{Answer, Capability, Contents, ContentsError, Exception, Incoming, Object, Outcome, Remote, Struct};
use std::collections::BTreeMap;
use std::env;
use std::error::Error;
use std::net::TcpListener;
use std::sync::atomic::{AtomicU32, Ordering};
use std::sync::{Arc, Mutex, PoisonError};

// The interfaces' numbers, and those of their methods.
const LISTENER: u64 = 0xc4a7_0f10_e000_0001;
const HEARD: u16 = 0;
const ROOM: u64 = 0xc4a7_0f10_e000_0002;
const POST: u16 = 0;
const HISTORY: u16 = 1;
const WHO: u16 = 2;
const HALL: u64 = 0xc4a7_0f10_e000_0003;
const JOIN: u16 = 0;

fn main() -> Result<(), Box<dyn Error>> {
    let address = env::args().nth(1).ok_or("usage: room ADDRESS")?;
    let listener = TcpListener::bind(address)?;
    let hall = Arc::new(Hall::default());
    lovendak::serve(&listener, || hall.clone())?;
    Ok(())
}

/// Who is there, and what was said.
#[derive(Default)]
struct Chat {
    members: BTreeMap<String, Remote>,
    lines: Vec<(String, String)>,
}

type Shared = Arc<Mutex<Chat>>;

fn with<T>(chat: &Shared, act: impl FnOnce(&mut Chat) -> T) -> T {
    act(&mut chat.lock().unwrap_or_else(PoisonError::into_inner))
}

#[derive(Default)]
struct Hall(Shared);

impl Object for Hall {
    fn call(&self, call: Incoming, answer: Answer) {
        match (call.interface, call.method) {
            (HALL, JOIN) => answer.send(self.join(&call.params)),
            _ => answer.unimplemented(),
        }
    }
}

impl Hall {
    fn join(&self, params: &Contents<Capability>) -> Outcome {
        let params = params.root()?;
        let name = params.text(0)?.to_string();
        let listener = params.reference(1)?.and_then(Capability::into_remote);
        let is_new = with(&self.0, |chat| match listener {
            Some(listener) if !chat.members.contains_key(&name) => {
                chat.members.insert(name.clone(), listener).is_none()
            }
            _ => false,
        });
        if !is_new {
            return Err(Exception::failed("a listener is wanted, and a name that nobody has"));
        }
        let room = Capability::object(Room { chat: self.0.clone(), name });
        Ok(Contents::of(Struct::default().set_reference(0, room))?)
    }
}

/// The room as a member has it.
struct Room {
    chat: Shared,
    name: String,
}

impl Object for Room {
    fn call(&self, call: Incoming, answer: Answer) {
        match (call.interface, call.method) {
            (ROOM, POST) => self.post(&call.params, answer),
            (ROOM, HISTORY) => answer.send(self.history(&call.params)),
            (ROOM, WHO) => answer.send(self.who(&call.params)),
            _ => answer.unimplemented(),
        }
    }

    fn gone(&self) {
        with(&self.chat, |chat| chat.members.remove(&self.name));
    }
}

impl Room {
    fn post(&self, params: &Contents<Capability>, answer: Answer) {
        match self.line(params) {
            Ok(line) => self.tell(line, answer),
            Err(error) => answer.send(Err(error.into())),
        }
    }

    /// What listeners hear, without its number.
    fn line(&self, params: &Contents<Capability>) -> Result<Struct<Capability>, ContentsError> {
        let params = params.root()?;
        let mut line = Struct::default();
        line.set_text(0, &self.name).set_text(1, params.text(0)?).set_number(32, params.number::<bool>(0));
        Ok(line)
    }

    /// Tells each member, and answers once all calls of them have ended. The calls are made while nobody else posts, so that each
    /// member hears the lines in one order.
    fn tell(&self, mut line: Struct<Capability>, answer: Answer) {
        let telling = Arc::new(Telling { reached: AtomicU32::new(0), answer: Some(answer) });
        let calls: Vec<_> = with(&self.chat, |chat| {
            chat.lines.push((self.name.clone(), line.text(1).unwrap_or_default().to_string()));
            line.set_number(0, chat.lines.len() as u32);
            chat.members.values().map(|member| member.call(LISTENER, HEARD, &line)).collect()
        });
        for call in calls {
            let telling = telling.clone();
            call.then(move |outcome| telling.heard(&outcome));
        }
    }

    fn history(&self, params: &Contents<Capability>) -> Outcome {
        let last = usize::from(params.root()?.number::<u16>(0));
        let lines: Vec<_> = with(&self.chat, |chat| {
            let start = chat.lines.len().saturating_sub(last);
            chat.lines[start..].iter().map(written).collect()
        });
        Ok(Contents::of(Struct::default().set_structs(0, lines))?)
    }

    fn who(&self, params: &Contents<Capability>) -> Outcome {
        let params = params.root()?;
        let name = params.text(0)?;
        let listener = with(&self.chat, |chat| chat.members.get(name).cloned());
        let listener = listener.ok_or_else(|| Exception::failed("there is nobody of that name"))?;
        Ok(Contents::of(Struct::default().set_reference(0, listener.into()))?)
    }
}

fn written((name, text): &(String, String)) -> Struct<Capability> {
    let mut line = Struct::default();
    line.set_text(0, name).set_text(1, text);
    line
}

/// Counts who has heard a line. It is dropped once the last call of it has ended, and then answers.
struct Telling {
    reached: AtomicU32,
    answer: Option<Answer>,
}

impl Telling {
    fn heard(&self, outcome: &Outcome) {
        self.reached.fetch_add(u32::from(outcome.is_ok()), Ordering::SeqCst);
    }
}

impl Drop for Telling {
    fn drop(&mut self) {
        let reached = Contents::of(Struct::default().set_number(0, self.reached.load(Ordering::SeqCst)));
        if let Some(answer) = self.answer.take() {
            answer.send(reached.map_err(Exception::from));
        }
    }
}
