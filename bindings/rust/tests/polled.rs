//! A connection over a stream of the crate `futures-io`, on one thread.

use futures_io::{AsyncRead, AsyncWrite};
use lovendak::{Answer, Capability, Connection, Contents, ExceptionKind, Incoming, Level, Object, Struct, Vat};
use std::collections::VecDeque;
use std::future::Future;
use std::io;
use std::pin::Pin;
use std::sync::atomic::{AtomicBool, Ordering};
use std::sync::{Arc, Mutex};
use std::task::{Context, Poll, Wake, Waker};

const DESK: u64 = 0xd0e5_0000_0000_0001;
/// How many bytes a direction of a pipe holds.
const HELD: usize = 1000;

/// A direction of a pipe.
#[derive(Default)]
struct Direction {
    bytes: VecDeque<u8>,
    has_ended: bool,
    waiting: Vec<Waker>,
}

impl Direction {
    fn changed(&mut self) {
        self.waiting.drain(..).for_each(Waker::wake);
    }
}

/// An end of a pipe.
struct End {
    from: Arc<Mutex<Direction>>,
    to: Arc<Mutex<Direction>>,
}

fn pipe() -> (End, End) {
    let (one, two) = (Arc::<Mutex<Direction>>::default(), Arc::<Mutex<Direction>>::default());
    (End { from: one.clone(), to: two.clone() }, End { from: two, to: one })
}

impl AsyncRead for End {
    fn poll_read(self: Pin<&mut Self>, context: &mut Context<'_>, room: &mut [u8]) -> Poll<io::Result<usize>> {
        let mut from = self.from.lock().unwrap();
        if from.bytes.is_empty() && !from.has_ended {
            from.waiting.push(context.waker().clone());
            return Poll::Pending;
        }
        let count = from.bytes.len().min(room.len());
        from.bytes.drain(..count).zip(room).for_each(|(byte, place)| *place = byte);
        from.changed();
        Poll::Ready(Ok(count))
    }
}

impl AsyncWrite for End {
    fn poll_write(self: Pin<&mut Self>, context: &mut Context<'_>, bytes: &[u8]) -> Poll<io::Result<usize>> {
        let mut to = self.to.lock().unwrap();
        if to.has_ended {
            return Poll::Ready(Err(io::ErrorKind::BrokenPipe.into()));
        }
        let count = bytes.len().min(HELD - to.bytes.len());
        if count == 0 {
            to.waiting.push(context.waker().clone());
            return Poll::Pending;
        }
        to.bytes.extend(&bytes[..count]);
        to.changed();
        Poll::Ready(Ok(count))
    }

    fn poll_flush(self: Pin<&mut Self>, _: &mut Context<'_>) -> Poll<io::Result<()>> {
        Poll::Ready(Ok(()))
    }

    fn poll_close(self: Pin<&mut Self>, _: &mut Context<'_>) -> Poll<io::Result<()>> {
        let mut to = self.to.lock().unwrap();
        to.has_ended = true;
        to.changed();
        Poll::Ready(Ok(()))
    }
}

impl Drop for End {
    fn drop(&mut self) {
        for direction in [&self.from, &self.to] {
            let mut direction = direction.lock().unwrap();
            direction.has_ended = true;
            direction.changed();
        }
    }
}

struct Woken(AtomicBool);

impl Wake for Woken {
    fn wake(self: Arc<Self>) {
        self.0.store(true, Ordering::SeqCst);
    }
}

type Task<'a> = Pin<Box<dyn Future<Output = ()> + 'a>>;

/// Polls each task whenever it was woken, until the last of them has ended. Panics if none is woken before.
fn run(tasks: Vec<Task<'_>>) {
    let mut tasks: Vec<_> =
        tasks.into_iter().map(|task| (Some(task), Arc::new(Woken(AtomicBool::new(true))))).collect();
    while tasks.last().map_or(false, |(task, _)| task.is_some()) {
        let mut was_woken = false;
        for (task, woken) in &mut tasks {
            if woken.0.swap(false, Ordering::SeqCst) {
                was_woken = true;
                let waker = woken.clone().into();
                let is_done =
                    task.as_mut().map_or(false, |it| it.as_mut().poll(&mut Context::from_waker(&waker)).is_ready());
                if is_done {
                    *task = None;
                }
            }
        }
        assert!(was_woken, "nothing is woken");
    }
}

/// It gives back what it is given, and what is at its method 1 it calls.
#[derive(Default)]
struct Desk(Mutex<usize>);

impl Object for Desk {
    fn call(&self, call: Incoming, answer: Answer) {
        match call.method {
            0 => answer.send(Ok(call.params)),
            _ => {
                let given = call.params.root().unwrap().reference(0).unwrap();
                answer.follow(given.and_then(Capability::into_remote).unwrap().call_with(DESK, 0, &call.params));
            }
        }
    }

    fn gone(&self) {
        *self.0.lock().unwrap() += 1;
    }
}

#[test]
fn a_conversation() {
    let (here, there) = pipe();
    let (root, own) = (Arc::new(Desk::default()), Arc::new(Desk::default()));
    let (connection, client) = Connection::connected_async(here, None).unwrap();
    let (_, server) = Connection::accepted_async(there, root.clone()).unwrap();
    let given = own.clone();
    let talk = async move {
        let desk = connection.bootstrap();
        let mut params = Struct::default();
        params.set_reference(0, Capability::Object(given)).set_numbers(1, &[7u64; 500]);
        let asked = desk.call(DESK, 1, &params);
        let pipelined = asked.at(&[0]).call(DESK, 0, Struct::default().set_number(0, 5u64));
        assert_eq!(pipelined.await.unwrap().root().unwrap().number::<u64>(0), 5);
        assert_eq!(asked.await.unwrap().root().unwrap().numbers::<u64>(1).unwrap(), [7; 500]);
        let contents = Contents::of(Struct::default().set_number(0, 6u64)).unwrap();
        let calls: Vec<_> = (0..1000).map(|_| desk.call_with(DESK, 0, &contents)).collect();
        for call in calls {
            assert_eq!(call.await.unwrap().root().unwrap().number::<u64>(0), 6);
        }
        connection.close();
        assert_eq!(desk.call(DESK, 0, &Struct::default()).await.unwrap_err().kind, ExceptionKind::Disconnected);
    };
    run(vec![Box::pin(client), Box::pin(talk), Box::pin(server)]);
    assert_eq!((*root.0.lock().unwrap(), *own.0.lock().unwrap()), (1, 1));
}

#[test]
fn a_dropped_future_ends_its_connection() {
    let (here, _there) = pipe();
    let (connection, client) = Connection::connected_async(here, None).unwrap();
    let call = connection.bootstrap().call(DESK, 0, &Struct::default());
    drop(client);
    assert!(connection.has_ended());
    assert_eq!(call.wait().unwrap_err().kind, ExceptionKind::Disconnected);
}

#[test]
fn a_peer_that_ends() {
    let (here, there) = pipe();
    let (connection, client) = Connection::connected_async(here, None).unwrap();
    let call = connection.bootstrap().call(DESK, 0, &Struct::default());
    drop(there);
    run(vec![Box::pin(client)]);
    assert_eq!(call.wait().unwrap_err().kind, ExceptionKind::Disconnected);
}

/// It counts its calls.
#[derive(Default)]
struct Counted(Mutex<usize>);

impl Object for Counted {
    fn call(&self, call: Incoming, answer: Answer) {
        *self.0.lock().unwrap() += 1;
        answer.send(Ok(call.params));
    }
}

/// The peer has gone, so nothing can be written. What it said before is more than is read at once.
#[test]
fn what_a_peer_said_before_it_went_is_heard() {
    let mut peer = Vat::new(Level::One, None).unwrap();
    let asked = peer.bootstrap().unwrap();
    let root = peer.result_of(asked).unwrap();
    for _ in 0..3 {
        peer.call(root, DESK, 0, &Contents::new(&[0; 5000], None, &[]).unwrap()).unwrap();
    }
    let (here, there) = pipe();
    here.to.lock().unwrap().bytes.extend(peer.outgoing());
    drop(here);
    let counted = Arc::new(Counted::default());
    let (_connection, work) = Connection::accepted_async(there, counted.clone()).unwrap();
    run(vec![Box::pin(work)]);
    assert_eq!(*counted.0.lock().unwrap(), 3);
}
