//! What contents say: written and read by this crate, and judged by the library.

use lovendak::{Contents, ContentsError, Fault, RefId, Refusal, Struct};

/// A message of these segments, with its table.
fn message(segments: &[&[u64]]) -> Vec<u8> {
    let mut table = vec![segments.len() as u32 - 1];
    table.extend(segments.iter().map(|segment| segment.len() as u32));
    table.resize((table.len() + 1) / 2 * 2, 0);
    let table = table.into_iter().flat_map(u32::to_le_bytes);
    table.chain(segments.iter().flat_map(|segment| segment.iter()).flat_map(|word| word.to_le_bytes())).collect()
}

fn structure(offset: i32, words: u64, pointers: u64) -> u64 {
    u64::from((offset as u32) << 2) | words << 32 | pointers << 48
}

fn list(offset: i32, size: u64, count: u64) -> u64 {
    u64::from((offset as u32) << 2 | 1) | size << 32 | count << 35
}

fn far(segment: u64, at: u64, pad_words: u64) -> u64 {
    2 | (pad_words - 1) << 2 | at << 3 | segment << 32
}

fn root(segments: &[&[u64]], refs: &[RefId]) -> Result<Struct, ContentsError> {
    Contents { payload: message(segments), refs: refs.to_vec() }.root()
}

fn fault(segments: &[&[u64]]) -> Fault {
    match root(segments, &[]) {
        Err(ContentsError::NoPayload(fault)) => fault,
        other => panic!("{other:?}"),
    }
}

/// A struct of each kind of field.
fn all_kinds() -> Struct {
    let line = |name, number: u32| {
        let mut line = Struct::new();
        line.set_text(0, name).set_number(0, number);
        line
    };
    let mut it = Struct::new();
    it.set_number(1, u64::MAX).set_number(0, -2i16).set_text(0, "ünter").set_data(1, &[1, 2, 3]);
    it.set_numbers(2, &[1u16, 2, 3, 4, 5]).set_numbers(3, &[true; 70]).set_numbers::<f64>(4, &[]);
    it.set_structs(5, [line("a", 1), Struct::new(), line("", 3)]).set_struct(6, line("inner", 4));
    it.set_reference(8, RefId(30)).set_reference(9, RefId(20)).set_struct(10, Struct::new());
    it
}

#[test]
fn what_is_written_is_read() {
    let contents = Contents::of(&all_kinds()).unwrap();
    assert_eq!(contents.refs, [RefId(30), RefId(20)]);
    let it = contents.root().unwrap();
    assert_eq!((it.number::<u64>(1), it.number::<i16>(0), it.number::<u8>(0)), (u64::MAX, -2, 254));
    assert_eq!((it.text(0), it.data(1)), (Ok("ünter"), Ok(&[1, 2, 3][..])));
    assert_eq!(it.numbers::<u16>(2), Ok(vec![1, 2, 3, 4, 5]));
    assert_eq!(it.numbers::<bool>(3), Ok(vec![true; 70]));
    assert_eq!(it.numbers::<f64>(4), Ok(vec![]));
    let lines = it.structs(5).unwrap();
    let lines: Vec<_> = lines.iter().map(|line| (line.text(0).unwrap(), line.number::<u32>(0))).collect();
    assert_eq!(lines, [("a", 1), ("", 0), ("", 3)]);
    assert_eq!(it.struct_at(6).unwrap().text(0), Ok("inner"));
    assert_eq!((it.reference(8), it.reference(9)), (Ok(Some(RefId(30))), Ok(Some(RefId(20)))));
    assert_eq!((it.has(4), it.has(7), it.has(10), it.has(11)), (true, false, true, false));
    assert_eq!(Contents::of(&it).unwrap(), contents);
}

#[test]
fn lists_of_pointers() {
    let (mut text, mut reference) = (Struct::new(), Struct::new());
    text.set_text(0, "a").set_text(1, "stays behind");
    reference.set_reference(0, RefId(7));
    let mut it = Struct::new();
    it.set_pointers(0, [text, Struct::new(), reference]);
    let contents = Contents::of(&it).unwrap();
    let words = [structure(0, 0, 1), list(0, 6, 3), list(2, 2, 2), 0, 3, 0x61];
    assert_eq!(contents, Contents { payload: message(&[&words]), refs: vec![RefId(7)] });
    let read = contents.root().unwrap();
    let items = read.structs(0).unwrap();
    assert_eq!((items.len(), items[0].text(0), items[1].has(0)), (3, Ok("a"), false));
    assert_eq!(items[2].reference(0), Ok(Some(RefId(7))));
}

#[test]
fn the_library_writes_and_reads_the_same() {
    let mut it = Struct::new();
    it.set_number(0, 5u64).set_number(1, 1u64 << 63).set_text(0, "grüß Gott");
    it.set_reference(1, RefId(8)).set_reference(2, RefId(8));
    let by_library = Contents::new(&[5, 1 << 63], Some("grüß Gott"), &[RefId(8); 2]).unwrap();
    assert_eq!(Contents::of(&it).unwrap(), by_library);
    assert_eq!(Contents::of(&Struct::new()).unwrap(), Contents::new(&[], None, &[]).unwrap());
    let all = Contents::of(&all_kinds()).unwrap();
    assert_eq!((all.number(1), all.text(0)), (Ok(u64::MAX), Ok(Some("ünter".into()))));
    assert_eq!(all.reference(&[9]), Ok(Some(RefId(20))));
}

#[test]
fn something_else_stands_there() {
    let it = Contents::of(&all_kinds()).unwrap().root().unwrap();
    let wrong = |pointer, wanted, found| ContentsError::WrongKind { pointer: Some(pointer), wanted, found };
    assert_eq!(it.text(2), Err(wrong(2, "a text", "a list of numbers")));
    assert_eq!(it.data(5), Err(wrong(5, "data", "a list of structs")));
    assert_eq!(it.numbers::<u32>(2), Err(wrong(2, "a list of such numbers", "a list of numbers")));
    assert_eq!(it.structs(8).unwrap_err(), wrong(8, "a list of structs", "a reference"));
    assert_eq!(it.struct_at(0).unwrap_err(), wrong(0, "a struct", "a list of numbers"));
    assert_eq!(it.reference(6), Err(wrong(6, "a reference", "a struct")));
    assert_eq!(it.text(1), Err(ContentsError::BadText(1)));
    let no_utf8 = it.clone().set_data(0, &[0xff, 0]).clone();
    assert_eq!(no_utf8.text(0), Err(ContentsError::BadText(0)));
    let of_list = root(&[&[list(0, 2, 0)]], &[]).unwrap_err();
    assert_eq!(of_list.to_string(), "the root is a list of numbers, not a struct");
}

#[test]
fn another_version_of_a_schema_reads_lists() {
    let mut it = Struct::new();
    it.set_numbers(0, &[7u16, 8]).set_numbers(1, &[true]);
    let both = it.structs(0).unwrap();
    assert_eq!((both.len(), both[1].number::<u16>(0), both[1].number::<u64>(0)), (2, 8, 0));
    assert!(it.structs(1).is_err());
    let mut item = Struct::new();
    item.set_number(0, 9u16).set_text(0, "more");
    it.set_structs(2, [item]);
    assert_eq!(it.numbers::<u16>(2), Ok(vec![9]));
    assert!(it.numbers::<bool>(2).is_err());
    // Two texts, as a list of pointers.
    let segment = [structure(0, 0, 1), list(0, 6, 2), list(1, 2, 2), list(1, 2, 1), 0x61, 0];
    let texts = root(&[&segment], &[]).unwrap();
    let texts = texts.structs(0).unwrap();
    assert_eq!((texts[0].text(0), texts[1].text(0)), (Ok("a"), Ok("")));
}

#[test]
fn contents_in_other_segments() {
    let ahead: &[&[u64]] = &[&[far(1, 1, 1)], &[7, structure(-2, 1, 0)]];
    assert_eq!(root(ahead, &[]).unwrap().number::<u64>(0), 7);
    let two: &[&[u64]] = &[&[far(2, 0, 2)], &[0, 9], &[far(1, 1, 1), structure(0, 1, 0)]];
    assert_eq!(root(two, &[]).unwrap().number::<u64>(0), 9);
    assert_eq!(fault(&[&[far(1, 0, 1)]]), Fault::OutOfBounds);
    assert_eq!(fault(&[&[far(1, 0, 1)], &[far(0, 0, 1)]]), Fault::BadFar);
    assert_eq!(fault(&[&[far(2, 0, 2)], &[9], &[far(1, 0, 1), structure(1, 1, 0)]]), Fault::BadFar);
    assert_eq!(fault(&[&[far(2, 0, 2)], &[9], &[far(3, 0, 1), structure(0, 1, 0)]]), Fault::OutOfBounds);
}

#[test]
fn limits() {
    assert_eq!(fault(&[&[]]), Fault::OutOfBounds);
    assert_eq!(fault(&[&[0][..]; 17]), Fault::TooManySegments);
    assert_eq!(fault(&[&vec![0; 65_537]]), Fault::TooLarge);
    assert_eq!(fault(&[&[structure(-2, 0, 0)]]), Fault::OutOfBounds);
    assert_eq!(fault(&[&[7]]), Fault::BadOther);
    assert_eq!(fault(&[&[3]]), Fault::CapIndex);
    // The tag promises more than there is; 2^29 structs of nothing; and a pointer to itself.
    assert_eq!(fault(&[&[list(0, 7, 1), structure(2, 1, 0), 0]]), Fault::BadTag);
    assert_eq!(fault(&[&[list(0, 7, 0), structure((1 << 29) - 1, 0, 0)]]), Fault::Traversal);
    assert_eq!(fault(&[&[structure(-1, 0, 1)]]), Fault::Depth);
    // Each of 300 pointers leads to the same 300 words.
    let mut shared = vec![list(0, 6, 300)];
    shared.extend((0..300).map(|at| list(299 - at, 5, 300)));
    shared.resize(601, 0);
    assert_eq!(fault(&[&shared]), Fault::Traversal);
    // Elements of no bits take no words, so they are no structs.
    let nothings = root(&[&[structure(0, 0, 1), list(0, 0, (1 << 29) - 1)]], &[]).unwrap();
    assert!(nothings.structs(0).is_err());
    assert!(nothings.numbers::<u8>(0).is_err());
}

fn written(it: &Struct) -> Result<usize, ContentsError> {
    Contents::of(it).map(|contents| {
        assert_eq!(contents.number(0).map(|_| ()), Ok(()));
        assert!(contents.root().is_ok());
        contents.payload.len()
    })
}

#[test]
fn too_much_is_refused() {
    let with_numbers = |count: usize| Struct::new().set_numbers(0, &vec![0u64; count]).clone();
    assert_eq!(written(&with_numbers(65_534)), Ok(8 + 8 * 65_536));
    assert_eq!(written(&with_numbers(65_535)), Err(ContentsError::TooMuch(Fault::TooLarge)));
    assert_eq!(written(Struct::new().set_number(65_534, 1u64)), Ok(8 + 8 * 65_536));
    for index in [65_535, 1 << 40, usize::MAX] {
        assert_eq!(written(Struct::new().set_number(index, 1u64)), Err(ContentsError::TooMuch(Fault::TooLarge)));
    }
    let empty = |count: usize| Struct::new().set_structs(0, vec![Struct::new(); count]).clone();
    assert_eq!(written(&empty(65_534)), Ok(8 + 8 * 3));
    assert_eq!(written(&empty(65_535)), Err(ContentsError::TooMuch(Fault::Traversal)));
    let mut nested = Struct::new();
    for _ in 1..64 {
        nested = Struct::new().set_struct(0, nested).clone();
    }
    assert_eq!(written(&nested), Ok(8 + 8 * 64));
    assert_eq!(written(Struct::new().set_struct(0, nested)), Err(ContentsError::TooMuch(Fault::Depth)));
    let error = ContentsError::TooMuch(Fault::Depth);
    assert_eq!(error.to_string(), "Depth: Contents nested more than 64 deep. Send less in one message.");
}

/// Numbers by chance, the same in each run.
struct Chance(u64);

impl Chance {
    fn below(&mut self, end: usize) -> usize {
        self.0 = self.0.wrapping_mul(6_364_136_223_846_793_005).wrapping_add(1_442_695_040_888_963_407);
        (self.0 >> 33) as usize % end
    }
}

#[test]
fn changed_bytes_are_refused_as_the_library_refuses_them() {
    let refs = vec![RefId(1), RefId(2)];
    let far_list = [list(0, 6, 3), far(0, 7, 1), far(1, 0, 2), 3 | 1 << 32, 0, 0, 0, structure(-4, 1, 1)];
    let bases = [
        Contents::of(&all_kinds()).unwrap().payload,
        message(&[&[structure(0, 0, 1), far(1, 0, 1)], &[list(0, 7, 4), structure(2, 1, 1), 5, 0, 6, list(-4, 2, 8)]]),
        message(&[&far_list, &[far(2, 1, 1), list(0, 7, 2)], &[0, structure(1, 2, 0), 5, 6]]),
    ];
    let (mut chance, mut refused) = (Chance(1), 0);
    for number in 0..6_000 {
        let mut payload = bases[number % bases.len()].clone();
        for _ in 0..1 + chance.below(3) {
            let at = chance.below(payload.len());
            payload[at] = [0, 1, 2, 3, 0xff, payload[at] ^ 1 << chance.below(8)][chance.below(6)];
        }
        if chance.below(50) == 0 {
            payload.truncate(chance.below(payload.len()));
        }
        let contents = Contents { payload, refs: refs.clone() };
        let read = contents.root();
        let is_none = matches!(read, Err(ContentsError::NoPayload(_)));
        assert_eq!(contents.number(0) == Err(Refusal::NoPayload), is_none, "{contents:?}: {read:?}");
        refused += usize::from(is_none);
        if let Ok(it) = read {
            let again = Contents::of(&it).unwrap();
            assert_eq!(again.number(0), contents.number(0), "{contents:?}");
            assert_eq!(again.text(0), contents.text(0), "{contents:?}");
            assert_eq!(Contents::of(&again.root().unwrap()), Ok(again));
        }
    }
    assert!((1_000..5_000).contains(&refused), "{refused} were refused");
}
