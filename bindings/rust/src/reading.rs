//! From the bytes of a payload to what stands at its root. All of it is checked, in the order of `docs/encoding.md`. What is made is
//! as large as what is visited, which has a limit.

use crate::fault::Fault;
use crate::node::{BITS, MOST_LEVELS, MOST_SEGMENTS, MOST_VISITED, MOST_WORDS, Node, POINTERS, STRUCTS, Scalars};
use crate::structs::Struct;

// The kinds of pointers.
const STRUCT: u32 = 0;
const LIST: u32 = 1;
const FAR: u32 = 2;
const OTHER: u32 = 3;

/// What stands at the root of a payload, with which those references go.
pub fn read<R: Clone>(payload: &[u8], refs: &[R]) -> Result<Node<R>, Fault> {
    let segments = segments(payload)?;
    Reading { segments, refs, visited: 0 }.node(Place { segment: 0, at: 0 }, 1)
}

/// The segments of a message in framed segments.
pub fn segments(payload: &[u8]) -> Result<Vec<&[u8]>, Fault> {
    let count = number(payload, 0).ok_or(Fault::Short)? as usize;
    if count >= MOST_SEGMENTS {
        return Err(Fault::TooManySegments);
    }
    let table = 8 + 4 * count;
    let start = (table + 7) / 8 * 8;
    let padding = payload.get(table..start).ok_or(Fault::Short)?;
    let sizes: Vec<u64> =
        (0..=count).map(|at| number(payload, 4 + 4 * at).map(u64::from)).collect::<Option<_>>().ok_or(Fault::Short)?;
    let words: u64 = sizes.iter().sum();
    if words > MOST_WORDS as u64 {
        return Err(Fault::TooLarge);
    }
    let mut rest = &payload[start..];
    let mut segments = Vec::with_capacity(sizes.len());
    for size in &sizes {
        let len = 8 * *size as usize;
        segments.push(rest.get(..len).ok_or(Fault::Short)?);
        rest = &rest[len..];
    }
    if !rest.is_empty() || padding.iter().any(|byte| *byte != 0) {
        return Err(Fault::Trailing);
    }
    if sizes[0] == 0 {
        return Err(Fault::OutOfBounds);
    }
    Ok(segments)
}

fn number(bytes: &[u8], at: usize) -> Option<u32> {
    let found = bytes.get(at..at.checked_add(4)?)?;
    found.try_into().map(u32::from_le_bytes).ok()
}

/// A place in a segment, in words.
#[derive(Clone, Copy)]
struct Place {
    segment: usize,
    at: usize,
}

impl Place {
    fn ahead(self, words: usize) -> Place {
        Place { at: self.at + words, ..self }
    }

    /// Where a pointer that stands here leads to, which may be before its segment.
    fn target(self, low: u32) -> i64 {
        self.at as i64 + 1 + i64::from(low as i32 >> 2)
    }
}

/// What describes a content: the segment and the place, and the halves of its pointer.
struct Pointer {
    segment: usize,
    start: i64,
    low: u32,
    high: u32,
}

/// The words of data and the pointers of a struct.
#[derive(Clone, Copy)]
struct Sections {
    words: usize,
    pointers: usize,
}

impl Sections {
    fn of(high: u32) -> Sections {
        Sections { words: (high & 0xffff) as usize, pointers: (high >> 16) as usize }
    }

    fn size(self) -> usize {
        self.words + self.pointers
    }
}

struct Reading<'a, R> {
    segments: Vec<&'a [u8]>,
    refs: &'a [R],
    visited: usize,
}

impl<'a, R: Clone> Reading<'a, R> {
    fn visit(&mut self, words: usize) -> Result<(), Fault> {
        self.visited += words;
        if self.visited > MOST_VISITED {
            return Err(Fault::Traversal);
        }
        Ok(())
    }

    /// The bytes of so many words.
    fn words(&self, place: Place, words: usize) -> Result<&'a [u8], Fault> {
        let segment = self.segments.get(place.segment).ok_or(Fault::OutOfBounds)?;
        let end = place.at.checked_add(words).and_then(|end| end.checked_mul(8)).ok_or(Fault::OutOfBounds)?;
        segment.get(8 * place.at..end).ok_or(Fault::OutOfBounds)
    }

    /// The halves of a word.
    fn word(&self, place: Place) -> Result<(u32, u32), Fault> {
        let word = self.words(place, 1)?;
        Ok((number(word, 0).unwrap_or(0), number(word, 4).unwrap_or(0)))
    }

    /// What the pointer at a place leads to; the content has that level.
    fn node(&mut self, place: Place, level: usize) -> Result<Node<R>, Fault> {
        let (low, high) = self.word(place)?;
        if (low, high) == (0, 0) {
            return Ok(Node::Null);
        }
        let Pointer { segment, start, low, high } = match low & 3 {
            OTHER => return self.reference(low, high),
            FAR => self.landed(low, high)?,
            _ => Pointer { segment: place.segment, start: place.target(low), low, high },
        };
        if level > MOST_LEVELS {
            return Err(Fault::Depth);
        }
        let start = Place { segment, at: usize::try_from(start).map_err(|_| Fault::OutOfBounds)? };
        match low & 3 {
            STRUCT => self.structure(start, Sections::of(high), level),
            _ => self.list(start, high & 7, (high >> 3) as usize, level),
        }
    }

    fn reference(&self, low: u32, high: u32) -> Result<Node<R>, Fault> {
        if low != OTHER {
            return Err(Fault::BadOther);
        }
        self.refs.get(high as usize).map(|reference| Node::Reference(reference.clone())).ok_or(Fault::CapIndex)
    }

    /// Behind a far pointer.
    fn landed(&mut self, low: u32, high: u32) -> Result<Pointer, Fault> {
        let pad = Place { segment: high as usize, at: (low >> 3) as usize };
        let words = 1 + (low >> 2 & 1) as usize;
        self.words(pad, words)?;
        self.visit(words)?;
        let (low, high) = self.word(pad)?;
        if words == 1 {
            if low & 3 > LIST || (low, high) == (0, 0) {
                return Err(Fault::BadFar);
            }
            return Ok(Pointer { segment: pad.segment, start: pad.target(low), low, high });
        }
        let (tag_low, tag_high) = self.word(pad.ahead(1))?;
        if low & 7 != FAR || tag_low > LIST || (tag_low, tag_high) == (0, 0) {
            return Err(Fault::BadFar);
        }
        if high as usize >= self.segments.len() {
            return Err(Fault::OutOfBounds);
        }
        Ok(Pointer { segment: high as usize, start: i64::from(low >> 3), low: tag_low, high: tag_high })
    }

    fn structure(&mut self, start: Place, sections: Sections, level: usize) -> Result<Node<R>, Fault> {
        self.words(start, sections.size())?;
        self.visit(sections.size())?;
        self.content(start, sections, level).map(Node::Struct)
    }

    fn content(&mut self, start: Place, sections: Sections, level: usize) -> Result<Struct<R>, Fault> {
        let data = self.words(start, sections.words)?.to_vec();
        let pointers = self.pointers(start.ahead(sections.words), sections.pointers, level)?;
        Ok(Struct { data, pointers })
    }

    fn pointers(&mut self, first: Place, count: usize, level: usize) -> Result<Vec<Node<R>>, Fault> {
        (0..count).map(|at| self.node(first.ahead(at), level + 1)).collect()
    }

    fn list(&mut self, start: Place, size: u32, count: usize, level: usize) -> Result<Node<R>, Fault> {
        if size == STRUCTS {
            return self.structs(start, count, level);
        }
        let bits = if size == POINTERS { 64 } else { BITS[size as usize] };
        let words = (bits * count + 63) / 64;
        let content = self.words(start, words)?;
        self.visit(words)?;
        if size == POINTERS {
            return self.pointers(start, count, level).map(Node::Pointers);
        }
        let data = content[..(bits * count + 7) / 8].to_vec();
        Ok(Node::Scalars(Scalars { bits, count, data }))
    }

    fn structs(&mut self, start: Place, size: usize, level: usize) -> Result<Node<R>, Fault> {
        self.words(start, size + 1)?;
        let (low, high) = self.word(start)?;
        let (count, sections) = ((low >> 2) as usize, Sections::of(high));
        if low & 3 != STRUCT || count * sections.size() > size {
            return Err(Fault::BadTag);
        }
        self.visit(size + 1 + if sections.size() == 0 { count } else { 0 })?;
        let first = start.ahead(1);
        (0..count)
            .map(|at| self.content(first.ahead(at * sections.size()), sections, level))
            .collect::<Result<_, _>>()
            .map(Node::Structs)
    }
}
