//! What a payload says, without where it lies in it, and the limits: `docs/encoding.md`.

use crate::structs::Struct;

/// What stands at a pointer, where `R` stands for a capability.
#[derive(Clone, Debug)]
pub enum Node<R> {
    Null,
    Struct(Struct<R>),
    /// Elements of so many bits, without pointers.
    Scalars(Scalars),
    Pointers(Vec<Node<R>>),
    Structs(Vec<Struct<R>>),
    Reference(R),
}

#[derive(Clone, Debug)]
pub struct Scalars {
    pub bits: usize,
    pub count: usize,
    pub data: Vec<u8>,
}

impl<R> Node<R> {
    /// What it is, for the text of an error.
    pub fn kind(&self) -> &'static str {
        match self {
            Node::Null => "nothing",
            Node::Struct(_) => "a struct",
            Node::Scalars(_) => "a list of numbers",
            Node::Pointers(_) => "a list of pointers",
            Node::Structs(_) => "a list of structs",
            Node::Reference(_) => "a reference",
        }
    }
}

/// The bits of an element without pointers, by the number of its size.
pub const BITS: [usize; 6] = [0, 1, 8, 16, 32, 64];
/// The sizes of elements that are pointers, and structs.
pub const POINTERS: u32 = 6;
pub const STRUCTS: u32 = 7;

pub const MOST_SEGMENTS: usize = 16;
pub const MOST_WORDS: usize = 65_536;
pub const MOST_VISITED: usize = 65_536;
pub const MOST_LEVELS: usize = 64;
/// The most words of data, and the most pointers, of a struct.
pub const MOST_SECTION: usize = 65_535;
