//! Two vats in one process.

use lovendak::{
    Advanced, Broken, CallId, Contents, Ended, Event, Exception, ExceptionKind, Fault, Finishes, Lead, Level, ObjectId,
    PeerPlace, Pending, Place, PromiseId, RefId, Refusal, Served, TableSizes, TaskId, Vat,
};

const NOTHING: &[RefId] = &[];

fn nothing() -> Contents {
    Contents::new(&[], None, NOTHING).unwrap()
}

fn with(refs: &[RefId]) -> Contents {
    Contents::new(&[], None, refs).unwrap()
}

/// Hands bytes over until neither has any.
fn exchange(a: &mut Vat, b: &mut Vat) {
    loop {
        let (of_a, of_b) = (a.outgoing(), b.outgoing());
        if of_a.is_empty() && of_b.is_empty() {
            return;
        }
        b.received(&of_a);
        a.received(&of_b);
    }
}

fn served(vat: &mut Vat) -> Served {
    match vat.next_event() {
        Some(Event::Served(call)) => call,
        other => panic!("no call came: {other:?}"),
    }
}

fn ended(vat: &mut Vat) -> Ended {
    match vat.next_event() {
        Some(Event::Ended(ended)) => ended,
        other => panic!("no call has ended: {other:?}"),
    }
}

/// Vat a with a reference to the bootstrap object of vat b, object 5, which was asked for by that call.
fn pair() -> (Vat, Vat, CallId, RefId) {
    let mut a = Vat::new(Level::One, None).unwrap();
    let mut b = Vat::new(Level::One, Some(ObjectId(5))).unwrap();
    let asked = a.bootstrap().unwrap();
    let root = a.result_of(asked).unwrap();
    exchange(&mut a, &mut b);
    let got = ended(&mut a);
    assert_eq!(got.call, asked);
    a.let_go(&got.outcome.unwrap().refs).unwrap();
    assert_eq!(a.next_event(), Some(Event::Resolved(PeerPlace::Answer(0)))); // to which `root` leads
    assert_eq!(a.next_event(), None);
    (a, b, asked, root)
}

#[test]
fn a_call_comes_as_it_was_made() {
    assert_eq!(lovendak::version(), 2);
    let (mut a, mut b, asked, root) = pair();
    let own = a.host(ObjectId(9)).unwrap();
    // An empty text has its place, and the references stand behind it.
    assert_eq!(Contents::new(&[], Some(""), &[own]).unwrap().reference(&[1]), Ok(Some(own)));
    let long = "ü".repeat(3000);
    let params = Contents::new(&[1, u64::MAX], Some(&long), &[own, root]).unwrap();
    let call = a.call(root, 77, 65_535, &params).unwrap();
    assert_eq!(a.calls_made(root), Ok(1));
    exchange(&mut a, &mut b);
    let came = served(&mut b);
    assert_eq!((came.object, came.interface, came.method), (ObjectId(5), 77, 65_535));
    let numbers: Vec<u64> = (0..3).map(|index| came.params.number(index).unwrap()).collect();
    assert_eq!(numbers, [1, u64::MAX, 0]);
    assert_eq!(came.params.text(0).unwrap().as_deref(), Some(long.as_str()));
    assert_eq!(came.params.text(1), Ok(None));
    assert_eq!(came.params.text(9), Ok(Some(String::new())));
    assert_eq!(came.params.reference(&[1]), Ok(Some(came.params.refs[0])));
    assert_eq!(came.params.reference(&[2]), Ok(Some(came.params.refs[1])));
    assert_eq!(came.params.reference(&[3]), Ok(None));
    b.answer(came.task, &with(&came.params.refs[..1])).unwrap();
    b.let_go(&came.params.refs).unwrap();
    exchange(&mut a, &mut b);
    let got = ended(&mut a);
    assert_eq!(got.call, call);
    let given = got.outcome.unwrap();
    // The object that was given comes back, and a call of it comes here without the peer.
    let back = given.reference(&[0]).unwrap().unwrap();
    let again = a.call(back, 1, 2, &nothing()).unwrap();
    let here = served(&mut a);
    assert_eq!(here.object, ObjectId(9));
    a.fail(here.task, ExceptionKind::Overloaded, "not now").unwrap();
    let failed = ended(&mut a);
    assert_eq!(failed.call, again);
    assert_eq!(failed.outcome, Err(Exception { kind: ExceptionKind::Overloaded, reason: "not now".into() }));
    a.let_go(&[own, root, back]).unwrap();
    for call in [asked, call, again] {
        a.finish(call).unwrap();
    }
    exchange(&mut a, &mut b);
    assert!(a.shares_nothing() && b.shares_nothing());
}

#[test]
fn calls_keep_their_order_over_the_shorter_path() {
    let (mut a, mut b, _, root) = pair();
    let asked = a.call(root, 1, 0, &nothing()).unwrap();
    let promised = a.field(asked, &[0]).unwrap();
    let print = |a: &mut Vat, line| a.call(promised, 1, line, &nothing()).unwrap();
    print(&mut a, 1);
    exchange(&mut a, &mut b);
    let (promise, reference) = b.promise().unwrap();
    let task = served(&mut b).task;
    b.answer(task, &with(&[reference])).unwrap();
    exchange(&mut a, &mut b);
    let own = a.host(ObjectId(3)).unwrap();
    a.call(root, 1, 9, &with(&[own])).unwrap();
    exchange(&mut a, &mut b);
    let published = served(&mut b);
    b.resolve(promise, published.params.refs[0]).unwrap();
    // This call has its reference take the first step, from the answer to the promise in it; it goes by b, as the first did.
    print(&mut a, 2);
    exchange(&mut a, &mut b);
    assert_eq!(a.advance(promised), Ok(Advanced::Embargoed));
    assert_eq!(a.advance(promised), Ok(Advanced::Nothing));
    print(&mut a, 3);
    exchange(&mut a, &mut b);
    print(&mut a, 4);
    exchange(&mut a, &mut b);
    let mut lines = Vec::new();
    while let Some(event) = a.next_event() {
        if let Event::Served(call) = event {
            assert_eq!(call.object, ObjectId(3));
            lines.push(call.method);
        }
    }
    assert_eq!(lines, [1, 2, 3, 4]);
}

/// What a reference leads to, with no embargo before.
fn place(vat: &mut Vat, reference: RefId) -> Place {
    let lead = vat.leads_to(reference).unwrap();
    assert!(!lead.is_embargoed);
    lead.place
}

#[test]
fn tasks_are_cancelled() {
    let (mut a, mut b, _, root) = pair();
    let calls = [a.call(root, 1, 0, &nothing()).unwrap(), a.call(root, 1, 1, &nothing()).unwrap()];
    exchange(&mut a, &mut b);
    let (first, second) = (served(&mut b), served(&mut b));
    b.answer(second.task, &nothing()).unwrap();
    for call in calls {
        a.finish(call).unwrap();
    }
    exchange(&mut a, &mut b);
    let own = b.host(ObjectId(9)).unwrap();
    b.drop_ref(own).unwrap();
    assert_eq!(b.next_event(), Some(Event::Cancelled(first.task)));
    assert_eq!(b.next_event(), Some(Event::Released(ObjectId(9))));
    b.fail(first.task, ExceptionKind::Failed, "given up").unwrap();
    exchange(&mut a, &mut b);
    assert_eq!((a.next_event(), b.next_event()), (None, None));
}

#[test]
fn objects_are_released() {
    let (mut a, mut b, asked, root) = pair();
    let own = a.host(ObjectId(9)).unwrap();
    let call = a.call(root, 1, 0, &with(&[own])).unwrap();
    a.drop_ref(own).unwrap();
    exchange(&mut a, &mut b);
    let came = served(&mut b);
    b.answer(came.task, &nothing()).unwrap();
    exchange(&mut a, &mut b);
    assert_eq!(ended(&mut a).call, call);
    a.finish(call).unwrap();
    exchange(&mut a, &mut b);
    assert_eq!(a.next_event(), None); // b has it
    b.let_go(&came.params.refs).unwrap();
    a.received(&b.outgoing());
    assert!(a.pending().has_event);
    // Hosted again while the event waits, it is not told; once that reference is dropped, it is.
    let again = a.host(ObjectId(9)).unwrap();
    assert_eq!(a.next_event(), None);
    a.drop_ref(again).unwrap();
    assert_eq!(a.next_event(), Some(Event::Released(ObjectId(9))));
    assert_eq!(a.next_event(), None);
    // The bootstrap object never is.
    a.drop_ref(root).unwrap();
    a.finish(asked).unwrap();
    exchange(&mut a, &mut b);
    assert_eq!(b.next_event(), None);
    assert!(a.shares_nothing() && b.shares_nothing());
}

#[test]
fn references_lead_to_places() {
    let (mut a, mut b, _, root) = pair();
    let own = a.host(ObjectId(9)).unwrap();
    let (promise, promised) = a.promise().unwrap();
    let (broken, other) = a.promise().unwrap();
    a.reject(broken, ExceptionKind::Failed, "").unwrap();
    let call = a.call(own, 1, 0, &nothing()).unwrap();
    let result = a.field(call, &[0]).unwrap();
    assert_eq!(place(&mut a, own), Place::Own(ObjectId(9)));
    assert_eq!(place(&mut a, promised), Place::OwnPromise);
    assert_eq!(place(&mut a, other), Place::Broken(Broken::Promise));
    assert_eq!(place(&mut a, result), Place::OwnCall);
    let task = served(&mut a).task;
    a.answer(task, &nothing()).unwrap();
    assert_eq!(place(&mut a, result), Place::Broken(Broken::Null));
    let text = a.call(own, 1, 0, &nothing()).unwrap();
    let result = a.field(text, &[0]).unwrap();
    assert_eq!(ended(&mut a).call, call);
    let task = served(&mut a).task;
    a.answer(task, &Contents::new(&[], Some("text"), &[]).unwrap()).unwrap();
    assert_eq!(place(&mut a, result), Place::Broken(Broken::NotACapability));
    a.resolve(promise, own).unwrap();
    assert_eq!(place(&mut a, promised), Place::Own(ObjectId(9)));
    // What the peer has.
    assert_eq!(place(&mut a, root).of_peer(), Some(PeerPlace::Answer(0)));
    assert_eq!(a.advance(root), Ok(Advanced::Switched));
    let at_root = place(&mut a, root);
    assert!(matches!(at_root, Place::Import { is_promise: false, .. }));
    let again = a.clone_ref(root).unwrap();
    assert_eq!(place(&mut a, again), at_root);
    assert_eq!(a.leads_to(RefId(99)), Err(Refusal::UnknownRef));
    exchange(&mut a, &mut b);
    a.shut(0).unwrap();
    assert_eq!(a.leads_to(root), Err(Refusal::Down));
}

#[test]
fn what_becomes_known_is_told() {
    let (mut a, mut b, _, root) = pair();
    let (promise, given) = b.promise().unwrap();
    let asked = a.call(root, 1, 0, &nothing()).unwrap();
    exchange(&mut a, &mut b);
    let task = served(&mut b).task;
    b.answer(task, &with(&[given])).unwrap();
    exchange(&mut a, &mut b);
    let promised = ended(&mut a).outcome.unwrap().refs[0];
    a.finish(asked).unwrap();
    let id = match place(&mut a, promised) {
        Place::Import { id, is_promise: true } => id,
        other => panic!("it leads to {other:?}"),
    };
    let own = a.host(ObjectId(3)).unwrap();
    a.call(root, 1, 9, &with(&[own])).unwrap();
    exchange(&mut a, &mut b);
    let published = served(&mut b);
    b.resolve(promise, published.params.refs[0]).unwrap();
    exchange(&mut a, &mut b);
    assert_eq!(a.next_event(), Some(Event::Resolved(PeerPlace::Import(id))));
    assert_eq!(place(&mut a, promised), Place::Import { id, is_promise: false });
    assert_eq!(a.advance(promised), Ok(Advanced::Embargoed));
    assert_eq!(a.leads_to(promised), Ok(Lead { place: Place::Own(ObjectId(3)), is_embargoed: true }));
    assert_eq!(a.next_event(), None);
    exchange(&mut a, &mut b);
    assert_eq!(a.next_event(), Some(Event::Lifted(promised)));
    assert_eq!(a.leads_to(promised), Ok(Lead { place: Place::Own(ObjectId(3)), is_embargoed: false }));
}

#[test]
fn a_finish_may_go_behind_its_return() {
    let (mut a, mut b, _, root) = pair();
    let before = TableSizes { questions: 1, answers: 0, exports: 0, imports: 1 };
    assert_eq!(a.table_sizes(), before);
    assert_eq!(b.table_sizes(), TableSizes { questions: 0, answers: 1, exports: 1, imports: 0 });
    for (when, answers) in [(Finishes::AfterReturn, 2), (Finishes::AtOnce, 1)] {
        a.set_finishes(when);
        let call = a.call(root, 1, 0, &nothing()).unwrap();
        a.finish(call).unwrap();
        exchange(&mut a, &mut b);
        assert_eq!(a.table_sizes().questions, 2);
        let task = served(&mut b).task;
        b.answer(task, &nothing()).unwrap();
        // Where the Finish came before, the answer is gone with its Return.
        assert_eq!(b.table_sizes().answers, answers);
        exchange(&mut a, &mut b);
        assert_eq!((a.table_sizes(), b.table_sizes().answers), (before, 1));
    }
    assert_eq!(a.next_event(), None);
}

#[test]
fn refusals() {
    let (mut a, mut b, _, root) = pair();
    let none = RefId(99);
    assert_eq!(a.drop_ref(none), Err(Refusal::UnknownRef));
    assert_eq!(a.clone_ref(none), Err(Refusal::UnknownRef));
    assert_eq!(a.advance(none), Err(Refusal::UnknownRef));
    assert_eq!(a.calls_made(none), Err(Refusal::UnknownRef));
    assert_eq!(a.call(none, 0, 0, &nothing()), Err(Refusal::UnknownRef));
    assert_eq!(a.finish(CallId(99)), Err(Refusal::UnknownCall));
    assert_eq!(a.result_of(CallId(99)), Err(Refusal::UnknownCall));
    assert_eq!(a.answer(TaskId(99), &nothing()), Err(Refusal::UnknownTask));
    assert_eq!(a.fail(TaskId(99), ExceptionKind::Failed, ""), Err(Refusal::UnknownTask));
    assert_eq!(a.resolve(PromiseId(99), root), Err(Refusal::UnknownPromise));
    assert_eq!(a.reject(PromiseId(99), ExceptionKind::Failed, ""), Err(Refusal::UnknownPromise));
    let (promise, promised) = a.promise().unwrap();
    assert_eq!(a.resolve(promise, promised), Err(Refusal::Cycle));
    let mut short = with(&[root]);
    short.refs.clear();
    assert_eq!(a.call(root, 0, 0, &short), Err(Refusal::NoPayload));
    let call = a.call(root, 0, 0, &nothing()).unwrap();
    assert_eq!(a.field(call, &[0; 17]), Err(Refusal::LongPath));
    let wrong = Contents { payload: vec![1, 2, 3], refs: vec![] };
    assert_eq!(a.call(root, 0, 0, &wrong), Err(Refusal::NoPayload));
    assert_eq!(wrong.number(0), Err(Refusal::NoPayload));
    assert_eq!(Contents::new(&vec![0; 70_000], None, &[]), Err(Refusal::Full));
    let mut zero = Vat::new(Level::Zero, None).unwrap();
    assert_eq!(zero.promise(), Err(Refusal::Level));
    assert_eq!(a.shut(7), Ok(()));
    assert_eq!(a.bootstrap(), Err(Refusal::Down));
    assert_eq!((a.down(), b.down()), (Some(7), None));
    exchange(&mut a, &mut b);
    let cut_off = ended(&mut a);
    assert_eq!(cut_off.call, call);
    assert_eq!(cut_off.outcome.unwrap_err().kind, ExceptionKind::Disconnected);
    assert_eq!(a.next_event(), Some(Event::Down(7, String::new())));
    assert_eq!(a.next_event(), None);
    assert!(matches!(b.next_event(), Some(Event::Served(_))));
    assert_eq!(b.next_event(), Some(Event::Down(34, "fault 7".into())));
    assert_eq!(b.next_event(), None);
    assert_eq!(b.down(), Some(34));
}

#[test]
fn numbers_have_names() {
    let refused = Refusal::UnknownRef;
    assert_eq!((refused.number(), refused.name()), (4, "UnknownRef"));
    assert_eq!(
        refused.to_string(),
        "UnknownRef: There is no such reference. The reference was dropped, or is another vat's: keep the ids of each vat apart."
    );
    assert_eq!(Refusal::of(102).map(Refusal::name), Some("LOVENDAK_NO_PAYLOAD"));
    assert_eq!((Fault::of(0), Fault::of(34)), (None, Some(Fault::PeerAbort)));
    assert_eq!(
        Event::Down(12, String::new()).to_string(),
        "the vat went down with 12, Traversal: More than 65,536 words visited. Have the peer send less in one message. Contents to \
         which several pointers lead count once for each."
    );
    assert_eq!(Event::Down(99, "why".into()).to_string(), "the vat went down with 99: why");
    let failed = Exception { kind: ExceptionKind::Unimplemented, reason: "no such method".into() };
    let ended = Event::Ended(Ended { call: CallId(3), outcome: Err(failed) });
    assert_eq!(ended.to_string(), "call 3 ended with an exception, unimplemented: no such method");
    assert_eq!(Exception::from(Refusal::Memory).to_string(), "overloaded: Memory: A growth was refused");
    for (event, line) in [
        (Event::Resolved(PeerPlace::Import(5)), "import 5 is known"),
        (Event::Resolved(PeerPlace::Answer(6)), "the answer to question 6 is known"),
        (Event::Lifted(RefId(7)), "the embargo of reference 7 is over"),
        (Event::Cancelled(TaskId(4)), "task 4 is cancelled"),
        (Event::Released(ObjectId(8)), "object 8 is released"),
    ] {
        assert_eq!(event.to_string(), line);
    }
    let (mut a, mut b, _, root) = pair();
    a.call(root, 0xff, 2, &nothing()).unwrap();
    exchange(&mut a, &mut b);
    assert_eq!(b.next_event().unwrap().to_string(), "task 0: method 2 of 0xff of object 5");
}

#[test]
fn a_vat_says_what_waits_and_gives_a_part() {
    let (mut a, mut b, _, root) = pair();
    a.call(root, 1, 2, &nothing()).unwrap();
    let pending = a.pending();
    assert!(pending.bytes > 8 && !pending.has_event);
    let first = a.outgoing_up_to(8);
    assert_eq!((first.len(), a.pending().bytes), (8, pending.bytes - 8));
    a.call(root, 1, 3, &nothing()).unwrap();
    let rest = a.outgoing_up_to(usize::MAX);
    assert_eq!(a.pending(), Pending { bytes: 0, has_event: false });
    assert_eq!((a.outgoing_up_to(0), a.outgoing_up_to(1)), (vec![], vec![]));
    b.received(&[first, rest].concat());
    assert!(b.pending().has_event);
    assert_eq!((served(&mut b).method, served(&mut b).method), (2, 3));
    assert!(!b.pending().has_event);
}

#[test]
fn bytes_come_and_go_in_pieces_and_on_threads() {
    let mut a = Vat::new(Level::One, None).unwrap();
    let mut b = Vat::new(Level::One, Some(ObjectId(0))).unwrap();
    a.bootstrap().unwrap();
    let mut byte = [0];
    while a.outgoing_into(&mut byte) == 1 {
        b.received(&byte);
    }
    let bytes = std::thread::spawn(move || b.outgoing()).join().unwrap();
    a.received(&bytes);
    assert!(ended(&mut a).outcome.is_ok());
    a.received(&[0, 0, 0, 0, 255]);
    a.ended();
    assert_eq!(a.next_event(), Some(Event::Down(2, String::new())));
}
