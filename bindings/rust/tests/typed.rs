//! Contents written and read by the crate `capnp`.

#[path = "../examples/typed/chat_capnp.rs"]
mod chat_capnp;

use capnp::capability::Client;
use capnp::{ErrorKind, any_pointer};
use chat_capnp::{history, join, listener};
use lovendak::typed::{client_of, reference_of};
use lovendak::{Contents, RefId, Struct};
use std::future::Future;
use std::sync::Arc;
use std::task::{Context, Poll, Wake};

fn joined(client: Client) -> capnp::Result<Contents> {
    Contents::of_typed(|root| {
        let mut join: join::Builder = root.init_as();
        join.set_name("ann");
        join.set_listener(listener::Client { client });
        Ok(())
    })
}

#[test]
fn what_it_writes_this_crate_reads() {
    // So many words that the message has several segments.
    let text = |at: u32| format!("{at} ").repeat(300);
    let contents = Contents::of_typed(|root| {
        let mut lines = root.init_as::<history::Builder>().init_lines(40);
        for at in 0..40 {
            let mut line = lines.reborrow().get(at);
            line.set_number(at);
            line.set_text(&text(at));
        }
        Ok(())
    });
    let contents = contents.unwrap();
    assert!(contents.payload[0] > 0, "one segment");
    assert_eq!(contents.number(0), Ok(0));
    let root = contents.root().unwrap();
    let lines = root.structs(0).unwrap();
    assert_eq!(lines.len(), 40);
    for (at, line) in (0..).zip(&*lines) {
        assert_eq!((line.number::<u32>(0), line.text(0)), (at, Ok(&*text(at))));
    }
    let named = joined(client_of(RefId(9))).unwrap();
    assert_eq!((named.reference(&[1]), named.refs.len()), (Ok(Some(RefId(9))), 1));
}

#[test]
fn it_reads_what_this_crate_writes() {
    let mut line = Struct::new();
    line.set_number(0, 7u32).set_text(0, "hello");
    let contents = Contents::of(Struct::new().set_structs(0, [line])).unwrap();
    let message = contents.typed().unwrap();
    let lines = message.root::<history::Reader>().unwrap().get_lines().unwrap();
    assert_eq!((lines.len(), lines.get(0).get_number(), lines.get(0).get_text().unwrap()), (1, 7, "hello"));
    let contents = Contents::of(Struct::new().set_text(0, "bob").set_reference(1, RefId(5))).unwrap();
    let message = contents.typed().unwrap();
    let join: join::Reader = message.root().unwrap();
    assert_eq!(join.get_name().unwrap(), "bob");
    let client = join.get_listener().unwrap().client;
    assert_eq!(reference_of(&client), Some(RefId(5)));
    assert_eq!(joined(client).unwrap().refs, [RefId(5)]);
}

#[test]
fn what_is_no_message_is_refused() {
    for payload in [vec![], vec![0, 0, 0, 0, 0xff, 0xff, 0xff, 0], vec![0; 17]] {
        assert!(Contents { payload, refs: vec![] }.typed().is_err());
    }
}

struct Unwoken;

impl Wake for Unwoken {
    fn wake(self: Arc<Self>) {}
}

#[test]
fn a_client_makes_no_calls() {
    let mut request = client_of(RefId(5)).new_call::<any_pointer::Owned, any_pointer::Owned>(1, 2, None);
    request.get().init_as::<join::Builder>().set_name("ann");
    let mut sent = request.send();
    let waker = Arc::new(Unwoken).into();
    match std::pin::Pin::new(&mut sent.promise).poll(&mut Context::from_waker(&waker)) {
        Poll::Ready(Err(error)) => assert_eq!(error.kind, ErrorKind::Unimplemented),
        _ => panic!("it did not fail"),
    }
    // What it would give stands for no reference.
    let given = Client::new(sent.pipeline.as_cap());
    assert_eq!(reference_of(&given), None);
    assert!(joined(given).is_err());
}
