//! From a struct to the bytes of a message of one segment, with it at the root: `docs/encoding.md` says where each content is placed.

use crate::fault::Fault;
use crate::node::{BITS, MOST_LEVELS, MOST_SECTION, MOST_VISITED, MOST_WORDS, Node, POINTERS, STRUCTS, Scalars};
use crate::structs::Struct;

const LIST: u32 = 1;
const OTHER: u32 = 3;

/// The message, and what its capabilities stand for.
pub fn write<R: Clone>(root: &Struct<R>) -> Result<(Vec<u8>, Vec<R>), Fault> {
    let words = measured(root)?;
    let mut writing = Writing { words: Vec::with_capacity(words), refs: Vec::new() };
    writing.words.push(0);
    writing.place_struct(0, root);
    let head = (writing.words.len() as u64) << 32;
    let message = std::iter::once(&head).chain(&writing.words).flat_map(|word| word.to_le_bytes()).collect();
    Ok((message, writing.refs))
}

/// How many words the message takes, or the first reason in the order of `docs/encoding.md` for which it can't be written.
fn measured<R>(root: &Struct<R>) -> Result<usize, Fault> {
    let mut measure = Measure::default();
    measure.structure(root, 1);
    if measure.is_deep {
        Err(Fault::Depth)
    } else if measure.is_large || measure.words > MOST_WORDS - 1 {
        Err(Fault::TooLarge)
    } else if measure.visited > MOST_VISITED {
        Err(Fault::Traversal)
    } else {
        Ok(1 + measure.words)
    }
}

#[derive(Default)]
struct Measure {
    /// Without the root pointer.
    words: usize,
    visited: usize,
    is_deep: bool,
    is_large: bool,
}

impl Measure {
    fn node<R>(&mut self, node: &Node<R>, level: usize) {
        match node {
            Node::Null | Node::Reference(_) => {}
            _ if level > MOST_LEVELS => self.is_deep = true,
            Node::Struct(it) => self.structure(it, level),
            Node::Scalars(list) => self.content((list.data.len() + 7) / 8),
            Node::Pointers(items) => {
                self.content(items.len());
                items.iter().for_each(|item| self.node(item, level + 1));
            }
            Node::Structs(items) => self.structs(items, level),
        }
    }

    fn structure<R>(&mut self, it: &Struct<R>, level: usize) {
        let words = self.sized(Sections::of(it));
        self.content(words);
        it.pointers.iter().for_each(|pointer| self.node(pointer, level + 1));
    }

    fn structs<R>(&mut self, items: &[Struct<R>], level: usize) {
        let each = self.sized(Sections::of_all(items));
        self.content(1 + each.saturating_mul(items.len()));
        if each == 0 {
            self.visited += items.len();
        }
        items.iter().flat_map(|item| &item.pointers).for_each(|pointer| self.node(pointer, level + 1));
    }

    fn sized(&mut self, sections: Sections) -> usize {
        self.is_large |= sections.words > MOST_SECTION || sections.pointers > MOST_SECTION;
        sections.words + sections.pointers
    }

    fn content(&mut self, words: usize) {
        self.words = self.words.saturating_add(words);
        self.visited = self.visited.saturating_add(words);
    }
}

/// The words of data and the pointers of a struct.
#[derive(Clone, Copy)]
struct Sections {
    words: usize,
    pointers: usize,
}

impl Sections {
    fn of<R>(it: &Struct<R>) -> Sections {
        Sections { words: (it.data.len() + 7) / 8, pointers: it.pointers.len() }
    }

    /// The least that each of them has room in.
    fn of_all<R>(items: &[Struct<R>]) -> Sections {
        items.iter().map(Sections::of).fold(Sections { words: 0, pointers: 0 }, |most, it| Sections {
            words: most.words.max(it.words),
            pointers: most.pointers.max(it.pointers),
        })
    }

    fn of_pointer(self) -> u32 {
        self.words as u32 | (self.pointers as u32) << 16
    }
}

/// What was measured before, so that all numbers fit.
struct Writing<R> {
    words: Vec<u64>,
    refs: Vec<R>,
}

impl<R: Clone> Writing<R> {
    /// Writes a pointer, for which there is a word of zeros, and appends what it leads to.
    fn place(&mut self, at: usize, node: &Node<R>) {
        match node {
            Node::Null => {}
            Node::Reference(reference) => {
                self.words[at] = halves(OTHER, self.refs.len() as u32);
                self.refs.push(reference.clone());
            }
            Node::Struct(it) => self.place_struct(at, it),
            Node::Scalars(list) => self.place_scalars(at, list),
            Node::Pointers(items) => {
                self.point_at_list(at, POINTERS, items.len());
                let first = self.append_zeros(items.len());
                self.place_all(first, items);
            }
            Node::Structs(items) => self.place_structs(at, items),
        }
    }

    fn place_all(&mut self, first: usize, nodes: &[Node<R>]) {
        nodes.iter().enumerate().for_each(|(number, node)| self.place(first + number, node));
    }

    fn place_struct(&mut self, at: usize, it: &Struct<R>) {
        let sections = Sections::of(it);
        let is_empty = sections.words + sections.pointers == 0;
        let offset = if is_empty { u32::MAX } else { self.offset(at) };
        self.words[at] = halves(offset << 2, sections.of_pointer());
        let pointers = self.append_struct(it, sections);
        self.place_all(pointers, &it.pointers);
    }

    fn place_scalars(&mut self, at: usize, list: &Scalars) {
        let size = BITS.iter().position(|bits| *bits == list.bits).expect("a size of elements");
        self.point_at_list(at, size as u32, list.count);
        self.append_data(&list.data);
    }

    fn place_structs(&mut self, at: usize, items: &[Struct<R>]) {
        let sections = Sections::of_all(items);
        self.point_at_list(at, STRUCTS, (sections.words + sections.pointers) * items.len());
        self.words.push(halves((items.len() as u32) << 2, sections.of_pointer()));
        let places: Vec<usize> = items.iter().map(|item| self.append_struct(item, sections)).collect();
        places.into_iter().zip(items).for_each(|(first, item)| self.place_all(first, &item.pointers));
    }

    /// From the end of a pointer to what is appended next.
    fn offset(&self, at: usize) -> u32 {
        (self.words.len() - at - 1) as u32
    }

    fn point_at_list(&mut self, at: usize, size: u32, count: usize) {
        self.words[at] = halves(self.offset(at) << 2 | LIST, size | (count as u32) << 3);
    }

    /// Where its pointers begin.
    fn append_struct(&mut self, it: &Struct<R>, sections: Sections) -> usize {
        let start = self.append_data(&it.data);
        let first = start + sections.words;
        self.words.resize(first + sections.pointers, 0);
        first
    }

    fn append_data(&mut self, data: &[u8]) -> usize {
        let start = self.words.len();
        self.words.extend(data.chunks(8).map(|piece| {
            let mut word = [0; 8];
            word[..piece.len()].copy_from_slice(piece);
            u64::from_le_bytes(word)
        }));
        start
    }

    fn append_zeros(&mut self, words: usize) -> usize {
        let start = self.words.len();
        self.words.resize(start + words, 0);
        start
    }
}

fn halves(low: u32, high: u32) -> u64 {
    u64::from(low) | u64::from(high) << 32
}
