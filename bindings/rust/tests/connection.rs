//! Objects and calls over connections.

use lovendak::{
    Answer, Call, CallId, Capability, Connection, Contents, Event, ExceptionKind, Finishes, Incoming, Level, Object,
    Outcome, Promise, Remote, Resolver, Stream, Struct, Vat,
};
use std::collections::{BTreeMap, VecDeque};
use std::io::{self, Read, Write};
use std::net::{TcpListener, TcpStream};
use std::os::unix::net::UnixStream;
use std::sync::atomic::{AtomicBool, Ordering};
use std::sync::{Arc, Mutex};
use std::time::{Duration, Instant};
use std::{panic, thread};

const DESK: u64 = 0xd0e5_0000_0000_0001;
const ECHO: u16 = 0;
const KEEP: u16 = 1;
const ASK: u16 = 2;
const LATER: u16 = 3;
const WAIT: u16 = 4;
const PANIC: u16 = 5;
const IGNORE: u16 = 6;
const WAIT_HERE: u16 = 7;
const ASK_TO_WAIT: u16 = 8;

/// It keeps what it was told, and is told of what is gone.
#[derive(Default)]
struct Desk {
    echoed: Mutex<Vec<u64>>,
    waiting: Mutex<BTreeMap<u64, Answer>>,
    later: Mutex<Option<Resolver>>,
    gone: Mutex<usize>,
}

impl Object for Desk {
    fn call(&self, call: Incoming, answer: Answer) {
        let params = call.params.root().unwrap();
        let number: u64 = params.number(0);
        let given = params.reference(0).unwrap();
        match (call.interface, call.method) {
            (DESK, ECHO) => {
                self.echoed.lock().unwrap().push(number);
                answer.send(Ok(call.params));
            }
            (DESK, KEEP) => {
                let mut kept = Struct::default();
                kept.set_reference(1, given.unwrap());
                answer.send(Ok(Contents::of(Struct::default().set_struct(2, kept)).unwrap()));
            }
            (DESK, ASK) => answer.follow(echo(&given.and_then(Capability::into_remote).unwrap(), number)),
            (DESK, ASK_TO_WAIT) => {
                let asked = given.and_then(Capability::into_remote).unwrap();
                answer.follow(asked.call(DESK, WAIT, Struct::default().set_number(0, number)));
            }
            (DESK, LATER) => {
                let (promise, resolver) = Promise::new();
                *self.later.lock().unwrap() = Some(resolver);
                answer.send(Ok(Contents::of(Struct::default().set_reference(0, promise.into())).unwrap()));
            }
            (DESK, WAIT) => drop(self.waiting.lock().unwrap().insert(number, answer)),
            (DESK, PANIC) => panic::resume_unwind(Box::new("on purpose")),
            (DESK, IGNORE) => drop(answer),
            (DESK, WAIT_HERE) => answer.send(echo(&given.and_then(Capability::into_remote).unwrap(), number).wait()),
            _ => answer.unimplemented(),
        }
    }

    fn gone(&self) {
        *self.gone.lock().unwrap() += 1;
    }
}

impl Desk {
    fn echoed(&self) -> Vec<u64> {
        self.echoed.lock().unwrap().clone()
    }

    fn gone(&self) -> usize {
        *self.gone.lock().unwrap()
    }

    /// The call of the lowest number that waits.
    fn first_waiting(&self) -> (u64, Answer) {
        let mut waiting = self.waiting.lock().unwrap();
        let number = *waiting.keys().next().unwrap();
        (number, waiting.remove(&number).unwrap())
    }
}

fn echo(desk: &Remote, number: u64) -> Call {
    desk.call(DESK, ECHO, Struct::default().set_number(0, number))
}

fn with(desk: &Remote, method: u16, given: impl Into<Capability>, number: u64) -> Call {
    desk.call(DESK, method, Struct::default().set_number(0, number).set_reference(0, given.into()))
}

fn number(outcome: Outcome) -> u64 {
    outcome.unwrap().root().unwrap().number(0)
}

fn kind(outcome: Outcome) -> ExceptionKind {
    outcome.unwrap_err().kind
}

fn desk() -> (Arc<Desk>, Capability) {
    let desk = Arc::new(Desk::default());
    (desk.clone(), Capability::Object(desk))
}

/// A connection with a server of that object, and the other side of it.
fn connected(root: &Arc<Desk>) -> (Connection, Connection) {
    let (here, there) = UnixStream::pair().unwrap();
    (Connection::connected(here, None).unwrap(), Connection::accepted(there, root.clone()).unwrap())
}

fn until(is_so: impl Fn() -> bool) {
    let begin = Instant::now();
    while !is_so() {
        assert!(begin.elapsed() < Duration::from_secs(120), "it did not come to pass");
        thread::sleep(Duration::from_millis(2));
    }
}

#[test]
fn calls_are_pipelined() {
    let root = Arc::new(Desk::default());
    let (connection, _) = connected(&root);
    let desk = connection.bootstrap();
    let kept = with(&desk, KEEP, desk.clone(), 0);
    let first = echo(&kept.at(&[2, 1]), 1);
    let second = echo(&with(&kept.at(&[2, 1]), KEEP, desk.clone(), 0).at(&[2, 1]), 2);
    assert_eq!((number(first.wait()), number(second.wait())), (1, 2));
    let results = kept.wait().unwrap().root().unwrap();
    let again = results.struct_at(2).unwrap().reference(1).unwrap().and_then(Capability::into_remote).unwrap();
    assert_eq!(number(echo(&again, 3).wait()), 3);
    assert_eq!(root.echoed(), [1, 2, 3]);
    connection.close();
}

#[test]
fn objects_are_called_back() {
    let (connection, _) = connected(&Arc::new(Desk::default()));
    let desk = connection.bootstrap();
    let (own, given) = self::desk();
    assert_eq!(number(with(&desk, ASK, given.clone(), 5).wait()), 5);
    let back = with(&desk, KEEP, given, 0).at(&[2, 1]);
    assert_eq!(number(echo(&back, 6).wait()), 6);
    assert_eq!(own.echoed(), [5, 6]);
    connection.close();
}

#[test]
fn promises_are_settled_later() {
    let root = Arc::new(Desk::default());
    let (connection, _) = connected(&root);
    let desk = connection.bootstrap();
    let (promise, resolver) = Promise::new();
    let asked = with(&desk, ASK, promise, 1);
    let later = desk.call(DESK, LATER, &Struct::default()).at(&[0]);
    let waiting = echo(&later, 2);
    assert_eq!(number(echo(&desk, 3).wait()), 3);
    assert_eq!(root.echoed(), [3]);
    let (own, given) = self::desk();
    resolver.resolve(given);
    root.later.lock().unwrap().take().unwrap().resolve(Capability::Object(root.clone()));
    assert_eq!((number(asked.wait()), number(waiting.wait())), (1, 2));
    assert_eq!((own.echoed(), root.echoed()), (vec![1], vec![3, 2]));
    connection.close();
}

#[test]
fn promises_are_broken() {
    let (connection, _) = connected(&Arc::new(Desk::default()));
    let desk = connection.bootstrap();
    let (first, resolver) = Promise::new();
    let (second, dropped) = Promise::new();
    let (circle, itself) = Promise::new();
    resolver.reject("on purpose");
    drop(dropped);
    itself.resolve(circle.clone().into());
    for promise in [first, second, circle] {
        assert_eq!(kind(with(&desk, ASK, promise, 1).wait()), ExceptionKind::Failed);
    }
    connection.close();
}

#[test]
fn failures_come_to_the_caller() {
    let root = Arc::new(Desk::default());
    let (connection, _) = connected(&root);
    let desk = connection.bootstrap();
    let method = |method| desk.call(DESK, method, &Struct::default()).wait();
    assert_eq!(method(99).unwrap_err().to_string(), "unimplemented: no such method");
    for unanswered in [PANIC, IGNORE] {
        assert_eq!(method(unanswered).unwrap_err().to_string(), "failed: the call was not answered");
    }
    let (_own, given) = self::desk();
    assert!(with(&desk, WAIT_HERE, given, 1).wait().unwrap_err().reason.starts_with("an object can't wait"));
    assert_eq!(kind(echo(&desk.call(DESK, 99, &Struct::default()).at(&[0]), 1).wait()), ExceptionKind::Failed);
    let large = desk.call(DESK, ECHO, Struct::default().set_data(0, &[0; 1 << 19]));
    assert_eq!(kind(echo(&large.at(&[0]), 1).wait()), ExceptionKind::Failed);
    assert!(large.wait().unwrap_err().reason.starts_with("TooLarge"));
    assert_eq!(number(echo(&desk, 2).wait()), 2);
    assert_eq!(root.echoed(), [2]);
    connection.close();
}

#[test]
fn a_thousand_calls_are_in_flight() {
    let root = Arc::new(Desk::default());
    let (connection, _) = connected(&root);
    let desk = connection.bootstrap();
    let calls: Vec<Call> =
        (0..1000u64).map(|number| desk.call(DESK, WAIT, Struct::default().set_number(0, number))).collect();
    until(|| root.waiting.lock().unwrap().len() == 1000);
    let waiting = std::mem::take(&mut *root.waiting.lock().unwrap());
    for (number, answer) in waiting.into_iter().rev() {
        answer.send(Ok(Contents::of(Struct::default().set_number(0, number + 1)).unwrap()));
    }
    for (wanted, call) in (1..).zip(calls) {
        assert_eq!(number(call.wait()), wanted);
    }
    connection.close();
}

#[test]
fn calls_come_in_order_from_several_threads() {
    let root = Arc::new(Desk::default());
    let (connection, _) = connected(&root);
    let desk = connection.bootstrap();
    thread::scope(|scope| {
        for thread in 0..4u64 {
            let desk = desk.clone();
            scope.spawn(move || {
                let calls: Vec<Call> = (0..250).map(|at| echo(&desk, 1000 * thread + at)).collect();
                for (at, call) in (0..).zip(calls) {
                    assert_eq!(number(call.wait()), 1000 * thread + at);
                }
            });
        }
    });
    for thread in 0..4 {
        let of_thread: Vec<u64> = root.echoed().into_iter().filter(|number| number / 1000 == thread).collect();
        assert_eq!(of_thread, (1000 * thread..1000 * thread + 250).collect::<Vec<_>>());
    }
    connection.close();
}

#[test]
fn calls_are_forwarded_between_connections() {
    let (root, other_root) = (Arc::new(Desk::default()), Arc::new(Desk::default()));
    let ((one, _), (two, _)) = (connected(&root), connected(&other_root));
    let (desk, other) = (one.bootstrap(), two.bootstrap());
    assert_eq!(number(with(&other, ASK, desk.clone(), 1).wait()), 1);
    // What the other gives back of ours is called by way of it.
    let through = with(&other, KEEP, desk.clone(), 0).at(&[2, 1]);
    let (own, given) = self::desk();
    assert_eq!(number(echo(&with(&through, KEEP, given.clone(), 0).at(&[2, 1]), 2).wait()), 2);
    assert_eq!(number(with(&through, ASK, given, 3).wait()), 3);
    assert_eq!((root.echoed(), other_root.echoed(), own.echoed()), (vec![1], vec![], vec![2, 3]));
    assert_eq!(kind(through.call(DESK, 99, &Struct::default()).wait()), ExceptionKind::Unimplemented);
    let calls: Vec<Call> = (10..110).map(|number| echo(&through, number)).collect();
    for (wanted, call) in (10..).zip(calls) {
        assert_eq!(number(call.wait()), wanted);
    }
    assert_eq!(root.echoed()[1..], (10..110).collect::<Vec<_>>());
    // A promise of one connection, over the other.
    let later = desk.call(DESK, LATER, &Struct::default());
    let asked = with(&other, ASK, later.at(&[0]), 7);
    later.wait().unwrap();
    root.later.lock().unwrap().take().unwrap().resolve(Capability::Object(root.clone()));
    assert_eq!(number(asked.wait()), 7);
    one.close();
    until(|| one.has_ended());
    assert_eq!(kind(echo(&through, 1).wait()), ExceptionKind::Disconnected);
    two.close();
}

#[test]
fn a_peer_dies() {
    let root = Arc::new(Desk::default());
    let (here, there) = UnixStream::pair().unwrap();
    let cut = there.try_clone().unwrap();
    let connection = Connection::connected(here, None).unwrap();
    let server = Connection::accepted(there, root.clone()).unwrap();
    let desk = connection.bootstrap();
    let (own, given) = self::desk();
    let kept = with(&desk, KEEP, given, 0).wait().unwrap();
    let open = desk.call(DESK, WAIT, Struct::default().set_number(0, 1u64));
    let (sender, told) = std::sync::mpsc::channel();
    desk.call(DESK, WAIT, Struct::default().set_number(0, 2u64))
        .then(move |outcome| sender.send(kind(outcome)).unwrap());
    until(|| root.waiting.lock().unwrap().len() == 2);
    cut.shutdown(std::net::Shutdown::Both).unwrap();
    assert_eq!(kind(open.wait()), ExceptionKind::Disconnected);
    assert_eq!(told.recv(), Ok(ExceptionKind::Disconnected));
    connection.wait_ended();
    server.wait_ended();
    until(|| own.gone() == 1 && root.gone() == 1);
    assert_eq!(kind(echo(&desk, 1).wait()), ExceptionKind::Disconnected);
    assert_eq!(kind(echo(&connection.bootstrap(), 1).wait()), ExceptionKind::Disconnected);
    root.waiting.lock().unwrap().clear(); // answers that come too late
    drop(kept);
}

#[test]
fn objects_go_when_they_are_released() {
    let root = Arc::new(Desk::default());
    let (connection, server) = connected(&root);
    let desk = connection.bootstrap();
    let (own, given) = self::desk();
    assert_eq!(number(with(&desk, ASK, given.clone(), 1).wait()), 1);
    until(|| own.gone() == 1);
    // It may be passed again, and stays while the peer has it.
    let kept = with(&desk, KEEP, given.clone(), 0);
    let back = kept.at(&[2, 1]);
    drop(kept.wait().unwrap());
    assert_eq!(number(echo(&back, 2).wait()), 2);
    assert_eq!(own.gone(), 1);
    drop(back);
    until(|| own.gone() == 2);
    drop(given);
    until(|| Arc::strong_count(&own) == 1);
    // The bootstrap object stays.
    assert_eq!((root.gone(), number(echo(&connection.bootstrap(), 3).wait())), (0, 3));
    connection.close();
    server.wait_ended();
    until(|| root.gone() == 1);
}

/// An object that is told to be released is passed again by another thread at the same time.
#[test]
fn objects_are_passed_again_as_they_are_released() {
    let (connection, _) = connected(&Arc::new(Desk::default()));
    let (own, given) = self::desk();
    thread::scope(|scope| {
        for _ in 0..4 {
            let (desk, given) = (connection.bootstrap(), given.clone());
            scope.spawn(move || {
                (0..200).for_each(|at| assert_eq!(number(with(&desk, ASK, given.clone(), at).wait()), at))
            });
        }
    });
    assert_eq!(own.echoed().len(), 800);
    drop(given);
    until(|| Arc::strong_count(&own) == 1);
    connection.close();
}

#[test]
fn a_call_that_is_given_up_ends_behind_its_return() {
    let root = Arc::new(Desk::default());
    let (connection, _) = connected(&root);
    connection.set_finishes(Finishes::AfterReturn);
    let desk = connection.bootstrap();
    drop(desk.call(DESK, WAIT, Struct::default().set_number(0, 1u64)));
    assert_eq!(number(echo(&desk, 2).wait()), 2);
    root.waiting.lock().unwrap().clear();
    assert_eq!(number(echo(&desk, 3).wait()), 3);
    connection.close();
}

#[test]
fn what_was_said_before_the_end_arrives() {
    let root = Arc::new(Desk::default());
    let (connection, server) = connected(&root);
    let desk = connection.bootstrap();
    (0..100).for_each(|number| echo(&desk, number).then(|_| ()));
    connection.close();
    server.wait_ended();
    assert_eq!(root.echoed(), (0..100).collect::<Vec<_>>());
}

/// The stream of a peer that has gone. Nothing can be written to it. Of what the peer said, the second piece comes once that was tried.
#[derive(Clone, Default)]
struct Gone {
    said: Arc<Mutex<VecDeque<Vec<u8>>>>,
    is_refused: Arc<AtomicBool>,
}

impl Read for Gone {
    fn read(&mut self, room: &mut [u8]) -> io::Result<usize> {
        let (piece, is_second) = {
            let mut said = self.said.lock().unwrap();
            (said.pop_front().unwrap_or_default(), said.is_empty())
        };
        until(|| !is_second || self.is_refused.load(Ordering::SeqCst));
        room[..piece.len()].copy_from_slice(&piece);
        Ok(piece.len())
    }
}

impl Write for Gone {
    fn write(&mut self, _: &[u8]) -> io::Result<usize> {
        self.is_refused.store(true, Ordering::SeqCst);
        Err(io::ErrorKind::BrokenPipe.into())
    }

    fn flush(&mut self) -> io::Result<()> {
        Ok(())
    }
}

impl Stream for Gone {
    fn try_clone(&self) -> io::Result<Gone> {
        Ok(self.clone())
    }

    fn shutdown(&self) -> io::Result<()> {
        Ok(())
    }
}

#[test]
fn what_a_peer_said_before_it_went_is_heard() {
    let mut peer = Vat::new(Level::One, None).unwrap();
    let asked = peer.bootstrap().unwrap();
    let desk = peer.result_of(asked).unwrap();
    let gone = Gone::default();
    for number in 0..2 {
        peer.call(desk, DESK, ECHO, &Contents::new(&[number], None, &[]).unwrap()).unwrap();
        gone.said.lock().unwrap().push_back(peer.outgoing());
    }
    let root = Arc::new(Desk::default());
    let server = Connection::accepted(gone, root.clone()).unwrap();
    server.wait_ended();
    assert_eq!(root.echoed(), [0, 1]);
}

#[test]
fn calls_that_are_dropped_are_given_up() {
    let root = Arc::new(Desk::default());
    let (connection, _) = connected(&root);
    let desk = connection.bootstrap();
    let kept = with(&desk, KEEP, desk.clone(), 0);
    let again = kept.at(&[2, 1]);
    drop(kept);
    drop(desk.call(DESK, WAIT, Struct::default().set_number(0, 1u64)));
    assert_eq!(number(echo(&again, 2).wait()), 2);
    root.waiting.lock().unwrap().clear();
    assert_eq!(number(echo(&desk, 3).wait()), 3);
    connection.close();
}

/// A call that is answered later has begun.
fn waiting(root: &Desk, call: Call, number: u64) -> Call {
    until(|| root.waiting.lock().unwrap().contains_key(&number));
    call
}

impl Desk {
    fn is_cancelled(&self, number: u64) -> bool {
        self.waiting.lock().unwrap()[&number].is_cancelled()
    }

    /// What is true once something was done as that call is cancelled.
    fn told_of(&self, number: u64) -> Arc<AtomicBool> {
        let (told, tells) = (Arc::new(AtomicBool::new(false)), self.waiting.lock().unwrap());
        let tell = told.clone();
        tells[&number].when_cancelled(move || tell.store(true, Ordering::Relaxed));
        told
    }
}

/// By a call of its object, and by one of an object of another connection, which passes it on.
#[test]
fn objects_are_told_of_calls_that_are_given_up() {
    let (root, other_root) = (Arc::new(Desk::default()), Arc::new(Desk::default()));
    let ((one, _), (two, server)) = (connected(&root), connected(&other_root));
    let (desk, other) = (one.bootstrap(), two.bootstrap());
    let direct = |number| waiting(&root, desk.call(DESK, WAIT, Struct::default().set_number(0, number)), number);
    let passed_on = |number| waiting(&root, with(&other, ASK_TO_WAIT, desk.clone(), number), number);
    for (call, kept, dropped, answered) in [(direct(0), direct(1), 0, 1), (passed_on(2), passed_on(3), 2, 3)] {
        let (told, not_told) = (root.told_of(dropped), root.told_of(answered));
        assert!(!root.is_cancelled(dropped) && !told.load(Ordering::Relaxed));
        drop(call);
        until(|| told.load(Ordering::Relaxed));
        assert!(root.is_cancelled(dropped) && root.told_of(dropped).load(Ordering::Relaxed));
        drop(root.waiting.lock().unwrap().remove(&answered));
        assert_eq!(kind(kept.wait()), ExceptionKind::Failed);
        assert!(!not_told.load(Ordering::Relaxed));
    }
    // As the connection ends.
    let open = waiting(&other_root, other.call(DESK, WAIT, Struct::default().set_number(0, 20u64)), 20);
    let told = other_root.told_of(20);
    two.close();
    server.wait_ended();
    until(|| told.load(Ordering::Relaxed));
    assert!(other_root.is_cancelled(20) && other_root.told_of(20).load(Ordering::Relaxed));
    assert_eq!(kind(open.wait()), ExceptionKind::Disconnected);
    one.close();
}

#[test]
fn no_message_ends_a_connection() {
    let root = Arc::new(Desk::default());
    let (mut here, there) = UnixStream::pair().unwrap();
    let server = Connection::accepted(there, root.clone()).unwrap();
    here.write_all(b"no message of Cap'n Proto").unwrap();
    server.wait_ended();
    let mut said = Vec::new();
    here.read_to_end(&mut said).unwrap(); // an Abort
    assert!(!said.is_empty());
    until(|| root.gone() == 1);
}

#[test]
fn a_peer_that_does_not_read_is_refused() {
    let (here, _there) = UnixStream::pair().unwrap();
    let connection = Connection::connected(here, None).unwrap();
    let desk = connection.bootstrap();
    let large = Contents::of(Struct::default().set_data(0, &[7; 200_000])).unwrap();
    let calls: Vec<Call> = (0..200).map(|_| desk.call_with(DESK, ECHO, &large)).collect();
    assert_eq!(kind(calls.into_iter().last().unwrap().wait()), ExceptionKind::Overloaded);
}

#[test]
fn who_does_not_read_is_not_heard() {
    let (mut here, there) = UnixStream::pair().unwrap();
    let server = Connection::accepted(there, Arc::new(Desk::default())).unwrap();
    here.set_write_timeout(Some(Duration::from_secs(2))).unwrap();
    let mut vat = Vat::new(Level::One, None).unwrap();
    let asked = vat.bootstrap().unwrap();
    let desk = vat.result_of(asked).unwrap();
    let large = Contents::of(Struct::new().set_data(1, &[7; 100_000])).unwrap();
    let is_heard = |_: &i32| {
        vat.call(desk, DESK, ECHO, &large).unwrap();
        here.write_all(&vat.outgoing()).is_ok()
    };
    assert!((0..300).take_while(is_heard).count() < 100);
    drop(here);
    server.wait_ended();
}

#[test]
fn who_asks_too_much_is_not_heard() {
    let root = Arc::new(Desk::default());
    let (connection, server) = connected(&root);
    server.set_limits(100, 1 << 20);
    let desk = connection.bootstrap();
    let calls: Vec<Call> =
        (0..500u64).map(|number| desk.call(DESK, WAIT, Struct::default().set_number(0, number))).collect();
    until(|| !root.waiting.lock().unwrap().is_empty());
    thread::sleep(Duration::from_millis(50));
    assert!(root.waiting.lock().unwrap().len() < 20); // each call has more than five words
    let (answering, desks) = (root.clone(), calls.len());
    let answers = thread::spawn(move || {
        for _ in 0..desks {
            until(|| !answering.waiting.lock().unwrap().is_empty());
            let (number, answer) = answering.first_waiting();
            answer.send(Ok(Contents::of(Struct::default().set_number(0, number + 1)).unwrap()));
        }
    });
    for (wanted, call) in (1..).zip(calls) {
        assert_eq!(number(call.wait()), wanted);
    }
    answers.join().unwrap();
    connection.close();
    server.wait_ended();
}

#[test]
fn a_call_that_waited_behind_other_messages_is_heard() {
    let (mut here, there) = UnixStream::pair().unwrap();
    here.set_read_timeout(Some(Duration::from_secs(5))).unwrap();
    let server = Connection::accepted(there, Arc::new(Desk::default())).unwrap();
    server.set_limits(1, 1 << 20); // each message has more than one word
    let mut vat = Vat::new(Level::One, None).unwrap();
    let asked: Vec<CallId> = (0..40).map(|_| vat.bootstrap().unwrap()).collect();
    let desk = vat.result_of(asked[0]).unwrap();
    let mut next_ended = |vat: &mut Vat| {
        here.write_all(&vat.outgoing()).unwrap();
        loop {
            match vat.next_event() {
                Some(Event::Ended(ended)) => return ended.call,
                Some(_) => {}
                None => {
                    let mut bytes = [0; 1000];
                    let count = here.read(&mut bytes).unwrap();
                    vat.received(&bytes[..count]);
                }
            }
        }
    };
    for call in &asked {
        assert_eq!(next_ended(&mut vat), *call);
    }
    for call in &asked[1..] {
        vat.finish(*call).unwrap();
    }
    let call = vat.call(desk, DESK, ECHO, &Contents::of(Struct::default().set_number(0, 1)).unwrap()).unwrap();
    assert_eq!(next_ended(&mut vat), call);
}

#[test]
fn connections_go_over_tcp() {
    let root = Arc::new(Desk::default());
    let listener = TcpListener::bind("127.0.0.1:0").unwrap();
    let address = listener.local_addr().unwrap();
    let served = root.clone();
    thread::spawn(move || lovendak::serve(&listener, || served.clone()));
    let _silent = TcpStream::connect(address).unwrap();
    let connection = Connection::connect(address, None).unwrap();
    assert_eq!(number(echo(&connection.bootstrap(), 5).wait()), 5);
    connection.close();
    connection.wait_ended();
    let again = Connection::connect(address, None).unwrap();
    assert_eq!(number(echo(&again.bootstrap(), 6).wait()), 6);
    again.close();
    until(|| root.gone() == 2);
}
