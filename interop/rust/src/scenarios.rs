//! What a client does with a registry, one thing after another.
use crate::objects::{Bytes, Gate, Printer, Registry, Sheet, print, promised};
use crate::schema::{COUNTER, Call, Object, PRINTER, REGISTRY, SINK, counter, printer, registry, sink};
use crate::tasks::sleep;
use capnp::{Error, ErrorKind};
use futures::FutureExt;
use futures::channel::oneshot;
use futures::future::try_join_all;
use std::future::Future;
use std::pin::Pin;

pub type Done = Result<(), Error>;

/// An error with the place in this file, where something is not so.
macro_rules! check {
    ($holds:expr) => {
        if !$holds {
            return Err(Error::failed(format!("{}: {}", line!(), stringify!($holds))));
        }
    };
}

// ---- calls

fn made(registry: &Object, name: &str, first: u64) -> Call {
    registry.call::<1, 1>(REGISTRY, registry::MAKE_COUNTER, |params| {
        params.set_text(0, name);
        params.set_number(0, first);
    })
}

fn added(counter: &Object, by: u64) -> Call {
    counter.call::<1, 0>(COUNTER, counter::ADD, |params| params.set_number(0, by))
}

/// A call of a registry with an object.
pub fn give(registry: &Object, method: u16, object: &Object) -> Call {
    registry.call::<0, 1>(REGISTRY, method, |params| params.set_object(0, object.clone()))
}

pub fn told(registry: &Object, printer: &Object, line: u64) -> Call {
    registry.call::<1, 1>(REGISTRY, registry::TELL, |params| {
        params.set_object(0, printer.clone());
        params.set_number(0, line);
    })
}

/// The first number of what a call gives.
async fn number(call: Call) -> Result<u64, Error> {
    Ok(call.answer().await?.get()?.number(0))
}

/// The first object of what a call gives.
async fn object(call: Call) -> Result<Object, Error> {
    call.answer().await?.get()?.object(0)
}

/// Has each printer that the registry keeps print a line.
pub fn on_air(registry: &Object, line: u64) -> Call {
    registry.call::<1, 0>(REGISTRY, registry::BROADCAST, |params| params.set_number(0, line))
}

async fn broadcast(registry: &Object, line: u64) -> Done {
    on_air(registry, line).end().await
}

async fn unsubscribe(registry: &Object) -> Done {
    registry.ask(REGISTRY, registry::UNSUBSCRIBE).end().await
}

pub async fn lines(printer: &Object) -> Result<Vec<u64>, Error> {
    printer.ask(PRINTER, printer::PRINTED).answer().await?.get()?.numbers(0)
}

async fn echoed(registry: &Object, size: usize) -> Done {
    let bytes: Vec<u8> = (0..size).map(|at| (at * 7 + size) as u8).collect();
    let call = registry.call::<0, 1>(REGISTRY, registry::ECHO, |params| params.set_bytes(0, &bytes));
    check!(call.answer().await?.get()?.bytes(0)? == bytes);
    Ok(())
}

async fn fails(call: Call, kind: ErrorKind, reason: &str) -> Done {
    match call.answer().await {
        Ok(_) => Err(Error::failed("it did not fail".into())),
        Err(error) => {
            check!(error.kind == kind && error.description.contains(reason));
            Ok(())
        }
    }
}

/// Some calls, and the wait for all of them.
#[derive(Default)]
struct Calls(Vec<Call>);

impl Calls {
    fn print(&mut self, printer: &Object, lines: std::ops::RangeInclusive<u64>) {
        self.0.extend(lines.map(|line| print(printer, line)));
    }

    async fn end(&mut self) -> Done {
        try_join_all(self.0.drain(..).map(Call::end)).await?;
        Ok(())
    }
}

/// An own printer, and what it has printed.
pub fn own() -> (Object, Sheet) {
    let sheet = Sheet::default();
    (Object::of(Printer::new(&sheet)), sheet)
}

/// The lines 1 to last came, in order.
fn in_order(lines: &[u64], last: u64) -> Done {
    check!(lines.iter().copied().eq(1..=last));
    Ok(())
}

// ---- scenarios

async fn bootstrap(registry: Object) -> Done {
    let counter = object(made(&registry, "apples", 40)).await?;
    check!(number(added(&counter, 2)).await? == 42);
    let answer = counter.ask(COUNTER, counter::TELL).answer().await?;
    check!(answer.get()?.text(0)? == "apples" && answer.get()?.numbers(1)? == [40, 42]);
    Ok(())
}

async fn data(registry: Object) -> Done {
    for size in [0, 1, 7, 8, 9, 4096, 65_535] {
        echoed(&registry, size).await?;
    }
    Ok(())
}

async fn large(registry: Object) -> Done {
    echoed(&registry, 400_000).await
}

/// What the other vat has no room for in one message, and what a caller is told.
const TOO_LARGE: [usize; 2] = [530_000, 60_000_000];
const WORDS: &str = "the message has more than 65536 words";

/// A call that breaks a limit of the other vat fails, and the conversation goes on.
async fn large_calls(registry: Object) -> Done {
    for size in TOO_LARGE {
        let bytes = vec![7; size];
        let call = registry.call::<0, 1>(REGISTRY, registry::ECHO, |params| params.set_bytes(0, &bytes));
        fails(call, ErrorKind::Failed, WORDS).await?;
        echoed(&registry, 8).await?;
    }
    Ok(())
}

/// So does a call of the other vat whose answer breaks one.
async fn large_answers(registry: Object) -> Done {
    for size in TOO_LARGE {
        let call = give(&registry, registry::FETCH, &Object::of(Bytes(size)));
        fails(call, ErrorKind::Failed, WORDS).await?;
        echoed(&registry, 8).await?;
    }
    Ok(())
}

async fn pipelining(mut registry: Object) -> Done {
    let mut calls = Vec::new();
    for _ in 0..5 {
        let call = registry.ask(REGISTRY, registry::MAKE_REGISTRY);
        registry = call.object(0);
        calls.push(call);
    }
    let call = made(&registry, "deep", 1);
    let counter = call.object(0);
    let (first, second) = (added(&counter, 10), added(&counter, 100));
    check!(number(first).await? == 11);
    check!(number(second).await? == 111);
    Ok(())
}

async fn thousand(registry: Object) -> Done {
    let call = made(&registry, "many", 0);
    let counter = call.object(0);
    let calls: Vec<Call> = (0..1000).map(|_| added(&counter, 1)).collect();
    for (at, call) in calls.into_iter().enumerate() {
        check!(number(call).await? == at as u64 + 1);
    }
    Ok(())
}

async fn callbacks(registry: Object) -> Done {
    let (printer, sheet) = own();
    for line in 1..=9 {
        check!(number(told(&registry, &printer, line)).await? == line);
    }
    in_order(&sheet.borrow(), 9)?;
    let call = registry.ask(REGISTRY, registry::MAKE_PRINTER);
    check!(number(told(&registry, &call.object(0), 1)).await? == 1);
    let other = Object::of(Registry::default());
    let counter = object(give(&registry, registry::FETCH, &other)).await?;
    check!(number(added(&counter, 2)).await? == 42);
    Ok(())
}

async fn exceptions(registry: Object) -> Done {
    let call = registry.call::<0, 1>(REGISTRY, registry::FAIL, |params| params.set_text(0, "on purpose"));
    fails(call, ErrorKind::Failed, "on purpose").await?;
    let call = made(&registry, "large", u64::MAX);
    let counter = call.object(0);
    fails(added(&counter, 1), ErrorKind::Failed, "the sum is too large").await?;
    // a method that no registry has, and what would come of it
    fails(added(&registry, 1), ErrorKind::Unimplemented, "").await?;
    let call = registry.ask(REGISTRY, 99);
    let pipelined = added(&call.object(0), 1);
    fails(call, ErrorKind::Unimplemented, "").await?;
    check!(pipelined.end().await.is_err());
    // an exception that an own object gives, and that comes back
    let (broken, settles) = promised();
    drop(settles);
    check!(told(&registry, &broken, 1).end().await.is_err());
    check!(number(added(&counter, 0)).await? == u64::MAX);
    Ok(())
}

async fn promises(registry: Object) -> Done {
    let call = registry.ask(REGISTRY, registry::AWAIT_PRINTER);
    let promised = call.object(0);
    let mut calls = Calls::default();
    calls.print(&promised, 1..=3);
    let printer = object(registry.ask(REGISTRY, registry::MAKE_PRINTER)).await?;
    give(&registry, registry::PUBLISH, &printer).end().await?;
    calls.print(&promised, 4..=6);
    calls.end().await?;
    calls.print(&promised, 7..=9);
    calls.end().await?;
    in_order(&lines(&printer).await?, 9)
}

async fn embargo_by_resolve(registry: Object) -> Done {
    let (printer, sheet) = own();
    let promised = object(registry.ask(REGISTRY, registry::AWAIT_PRINTER)).await?;
    let mut calls = Calls::default();
    calls.print(&promised, 1..=3);
    let publishing = give(&registry, registry::PUBLISH, &printer);
    calls.print(&promised, 4..=6);
    publishing.end().await?;
    calls.print(&promised, 7..=9);
    calls.end().await?;
    calls.print(&promised, 10..=12);
    calls.end().await?;
    in_order(&sheet.borrow(), 12)
}

async fn embargo_by_return(registry: Object) -> Done {
    let (printer, sheet) = own();
    let call = give(&registry, registry::SAME, &printer);
    let same = call.object(0);
    let mut calls = Calls::default();
    calls.print(&same, 1..=3);
    let came = object(call).await?;
    calls.print(&same, 4..=6);
    calls.end().await?;
    calls.print(&same, 7..=9);
    calls.end().await?;
    in_order(&sheet.borrow(), 9)?;
    check!(number(print(&came, 10)).await? == 10);
    Ok(())
}

async fn early_cancel(registry: Object) -> Done {
    let sheet = Sheet::default();
    let (opens, open) = oneshot::channel();
    let gate: Gate = open.shared();
    let slow = Object::of(Printer::slow(&sheet, &gate));
    {
        let _call = told(&registry, &slow, 1);
        while sheet.borrow().is_empty() {
            sleep(1).await;
        }
    }
    // one that is let go with what was pipelined on it
    {
        let call = give(&registry, registry::SAME, &slow);
        let _pipelined = print(&call.object(0), 2);
    }
    drop(give(&registry, registry::SAME, &slow));
    drop(print(&registry.ask(REGISTRY, registry::AWAIT_PRINTER).object(0), 3));
    echoed(&registry, 8).await?;
    let _ = opens.send(());
    echoed(&registry, 9).await?;
    give(&registry, registry::PUBLISH, &slow).end().await?;
    echoed(&registry, 10).await
}

async fn chain(registry: Object) -> Done {
    let (printer, sheet) = own();
    let other = object(registry.ask(REGISTRY, registry::MAKE_REGISTRY)).await?;
    let third = object(registry.ask(REGISTRY, registry::MAKE_REGISTRY)).await?;
    let first = registry.ask(REGISTRY, registry::AWAIT_PRINTER);
    let second = object(other.ask(REGISTRY, registry::AWAIT_PRINTER)).await?;
    let last = third.ask(REGISTRY, registry::AWAIT_PRINTER);
    let same = give(&other, registry::SAME, &last.object(0));
    let promised = first.object(0);
    let mut calls = Calls::default();
    calls.print(&promised, 1..=3);
    calls.0.push(give(&registry, registry::PUBLISH, &second));
    calls.print(&promised, 4..=6);
    calls.0.push(give(&other, registry::PUBLISH, &same.object(0)));
    calls.print(&promised, 7..=9);
    echoed(&registry, 3).await?;
    calls.print(&promised, 10..=12);
    calls.0.push(give(&third, registry::PUBLISH, &printer));
    calls.print(&promised, 13..=15);
    echoed(&registry, 4).await?;
    calls.print(&promised, 16..=18);
    calls.end().await?;
    in_order(&sheet.borrow(), 18)
}

/// What the other vat asked of an own object, and answered before it knew.
async fn ahead(registry: Object) -> Done {
    let other = Object::of(Registry::default());
    let call = give(&registry, registry::AHEAD, &other);
    let counter = call.object(0);
    let mut calls = Calls((1..=3).map(|by| added(&counter, by)).collect());
    let came = object(call).await?;
    calls.0.extend((4..=6).map(|by| added(&came, by)));
    calls.end().await?;
    check!(number(added(&counter, 0)).await? == 61);
    Ok(())
}

async fn subscribers(registry: Object) -> Done {
    let (printer, sheet) = own();
    let at_peer = object(registry.ask(REGISTRY, registry::MAKE_PRINTER)).await?;
    give(&registry, registry::SUBSCRIBE, &printer).end().await?;
    give(&registry, registry::SUBSCRIBE, &at_peer).end().await?;
    for line in 1..=9 {
        broadcast(&registry, line).await?;
    }
    in_order(&lines(&at_peer).await?, 9)?;
    in_order(&sheet.borrow(), 9)?;
    unsubscribe(&registry).await?;
    broadcast(&registry, 10).await?;
    in_order(&sheet.borrow(), 9)
}

/// A promise of the other vat that it keeps itself, and that leads to an own object in the end.
async fn subscribed_promise(registry: Object) -> Done {
    let (printer, sheet) = own();
    let call = registry.ask(REGISTRY, registry::AWAIT_PRINTER);
    give(&registry, registry::SUBSCRIBE, &call.object(0)).end().await?;
    for line in 1..=3 {
        broadcast(&registry, line).await?;
    }
    give(&registry, registry::PUBLISH, &printer).end().await?;
    for line in 4..=6 {
        broadcast(&registry, line).await?;
    }
    echoed(&registry, 1).await?;
    in_order(&sheet.borrow(), 6)?;
    unsubscribe(&registry).await
}

/// An own promise that leads to an own object.
async fn own_promise(registry: Object) -> Done {
    let (printer, sheet) = own();
    let (coming, settles) = promised();
    give(&registry, registry::SUBSCRIBE, &coming).end().await?;
    for line in 1..=3 {
        broadcast(&registry, line).await?;
    }
    let _ = settles.send(printer);
    for line in 4..=6 {
        broadcast(&registry, line).await?;
    }
    echoed(&registry, 1).await?;
    for line in 7..=9 {
        broadcast(&registry, line).await?;
    }
    echoed(&registry, 2).await?;
    in_order(&sheet.borrow(), 9)?;
    unsubscribe(&registry).await
}

/// An own promise that is broken.
async fn broken_promise(registry: Object) -> Done {
    let (coming, settles) = promised();
    give(&registry, registry::SUBSCRIBE, &coming).end().await?;
    broadcast(&registry, 1).await?;
    drop(settles);
    echoed(&registry, 1).await?;
    broadcast(&registry, 2).await?;
    echoed(&registry, 2).await?;
    unsubscribe(&registry).await
}

async fn streaming(registry: Object) -> Done {
    let sink = object(registry.ask(REGISTRY, registry::MAKE_SINK)).await?;
    for _ in 0..300 {
        sink.call::<0, 1>(SINK, sink::WRITE, |params| params.set_bytes(0, &[3; 1000])).end().await?;
    }
    let ended = sink.ask(SINK, sink::END).answer().await?;
    check!(ended.get()?.number(0) == 300_000 && ended.get()?.number(1) == 900_000);
    Ok(())
}

/// Many objects at once, of either side, and one that is given many times.
async fn many(registry: Object) -> Done {
    let mut counters = Vec::new();
    for first in 0..3000 {
        counters.push(object(made(&registry, "one of many", first)).await?);
    }
    for first in (0..3000).step_by(500) {
        check!(number(added(&counters[first], 1)).await? == first as u64 + 1);
    }
    let (printer, sheet) = own();
    for _ in 0..300 {
        give(&registry, registry::SUBSCRIBE, &own().0).end().await?;
        give(&registry, registry::SUBSCRIBE, &printer).end().await?;
    }
    for line in 0..3 {
        broadcast(&registry, line).await?;
    }
    echoed(&registry, 1).await?;
    check!(sheet.borrow().len() == 900);
    unsubscribe(&registry).await
}

/// It goes with calls open, and with all that it holds.
async fn leaves(registry: Object) -> Done {
    let sheet = Sheet::default();
    let (_opens, open) = oneshot::channel();
    let slow = Object::of(Printer::slow(&sheet, &open.shared()));
    let _call = told(&registry, &slow, 1);
    let _promised = registry.ask(REGISTRY, registry::AWAIT_PRINTER);
    while sheet.borrow().is_empty() {
        sleep(1).await;
    }
    std::process::exit(0)
}

// ---- all of them

type Scenario = fn(Object) -> Pin<Box<dyn Future<Output = Done>>>;

macro_rules! scenarios {
    ($($name:literal $play:ident,)*) => {
        &[$(($name, |registry| Box::pin($play(registry)))),*]
    };
}

pub const SCENARIOS: &[(&str, Scenario)] = scenarios![
    "ahead" ahead,
    "bootstrap" bootstrap,
    "broken-promise" broken_promise,
    "callbacks" callbacks,
    "chain" chain,
    "data" data,
    "early-cancel" early_cancel,
    "embargo-by-resolve" embargo_by_resolve,
    "embargo-by-return" embargo_by_return,
    "exceptions" exceptions,
    "large" large,
    "large-answers" large_answers,
    "large-calls" large_calls,
    "leaves" leaves,
    "many" many,
    "own-promise" own_promise,
    "pipelining" pipelining,
    "promises" promises,
    "streaming" streaming,
    "subscribed-promise" subscribed_promise,
    "subscribers" subscribers,
    "thousand" thousand,
];

/// Plays a scenario with a registry. The other vat has heard of all that was let go before once it has answered, and gets the time to hear of
/// the rest.
pub async fn play(scenario: impl AsyncFnOnce(Object) -> Done, registry: Object) -> Done {
    scenario(registry.clone()).await?;
    echoed(&registry, 0).await?;
    drop(registry);
    sleep(50).await;
    Ok(())
}
