//! A struct of any fields.

use crate::contents_error::ContentsError;
use crate::ids::RefId;
use crate::node::{MOST_SECTION, MOST_VISITED, Node, Scalars};
use crate::number::Number;
use std::borrow::Cow;

/// A struct of a payload, by the places of its fields: what is written into [`Contents::of`](crate::Contents::of), and what
/// [`Contents::root`](crate::Contents::root) reads.
///
/// `capnp compile -ocapnp` says the place of each field. `bits[32, 64)` are the number of 32 bits with the index 1, and `ptr[2]` is
/// pointer 2:
///
/// | In the schema | Writes | Reads |
/// |---|---|---|
/// | a number, `Bool`, an enum | `set_number` | `number` |
/// | `Text` | `set_text` | `text` |
/// | `Data` | `set_data` | `data` |
/// | `List` of numbers | `set_numbers` | `numbers` |
/// | `List` of structs | `set_structs` | `structs` |
/// | `List` of texts, data, lists, interfaces | `set_pointers` | `structs` |
/// | a struct | `set_struct` | `struct_at` |
/// | an interface | `set_reference` | `reference` |
///
/// A field that was not written is zero or null, also if it is past the end, and a null pointer reads as an empty text, list or
/// struct. So a reader whose schema has other fields than the writer's reads those that both have. The defaults of a schema that are
/// not zero are the reader's to add; a number is stored as its bits xor those of its default.
///
/// A capability is a reference of a vat, and in contents that go over a [`Connection`](crate::Connection) a
/// [`Capability`](crate::Capability).
#[derive(Clone, Debug)]
pub struct Struct<R = RefId> {
    pub(crate) data: Vec<u8>,
    pub(crate) pointers: Vec<Node<R>>,
}

impl Struct {
    /// A struct of zeros and nulls, whose capabilities are references. One with others is made by `default`.
    pub fn new() -> Struct {
        Struct::default()
    }
}

impl<R> Default for Struct<R> {
    fn default() -> Struct<R> {
        Struct { data: Vec::new(), pointers: Vec::new() }
    }
}

impl<R: Clone + 'static> Struct<R> {
    const EMPTY: &'static Struct<R> = &Struct { data: Vec::new(), pointers: Vec::new() };

    /// Writes a number. The index counts numbers of this size.
    ///
    /// ```
    /// # use lovendak::Struct;
    /// let mut it = Struct::new();
    /// it.set_number(0, 7u64).set_number(3, -1i32).set_number(128, true);
    /// assert_eq!((it.number(0), it.number(3), it.number(128)), (7u64, -1i32, true));
    /// assert_eq!(it.number::<f32>(9), 0.0);
    /// ```
    pub fn set_number<T: Number>(&mut self, index: usize, number: T) -> &mut Struct<R> {
        let bits = index.saturating_add(1).saturating_mul(T::BITS);
        // One word more than there may be has the struct refused when it is written.
        let words = ((bits - 1) / 64 + 1).min(MOST_SECTION + 1);
        if self.data.len() < 8 * words {
            self.data.resize(8 * words, 0);
        }
        number.store(&mut self.data, index);
        self
    }

    /// The number there.
    pub fn number<T: Number>(&self, index: usize) -> T {
        T::stored(&self.data, index)
    }

    /// Whether something stands at a pointer.
    pub fn has(&self, pointer: u16) -> bool {
        !matches!(self.at(pointer), Node::Null)
    }

    /// Writes a text.
    ///
    /// ```
    /// # use lovendak::{ContentsError, Struct};
    /// let mut it = Struct::new();
    /// it.set_text(1, "grüß Gott");
    /// assert_eq!((it.text(0)?, it.text(1)?), ("", "grüß Gott"));
    /// # Ok::<(), ContentsError>(())
    /// ```
    pub fn set_text(&mut self, pointer: u16, text: &str) -> &mut Struct<R> {
        self.set_data(pointer, &[text.as_bytes(), &[0]].concat())
    }

    /// The text there. `WrongKind`, `BadText`.
    pub fn text(&self, pointer: u16) -> Result<&str, ContentsError> {
        match self.bytes(pointer, "a text")? {
            None => Ok(""),
            Some([text @ .., 0]) => std::str::from_utf8(text).map_err(|_| ContentsError::BadText(pointer)),
            Some(_) => Err(ContentsError::BadText(pointer)),
        }
    }

    /// Writes data.
    ///
    /// ```
    /// # use lovendak::{ContentsError, Struct};
    /// let mut it = Struct::new();
    /// it.set_data(0, &[0xca, 0xfe]);
    /// assert_eq!((it.data(0)?, it.data(1)?), (&[0xca, 0xfe][..], &[][..]));
    /// # Ok::<(), ContentsError>(())
    /// ```
    pub fn set_data(&mut self, pointer: u16, data: &[u8]) -> &mut Struct<R> {
        self.set_numbers(pointer, data)
    }

    /// The data there. `WrongKind`.
    pub fn data(&self, pointer: u16) -> Result<&[u8], ContentsError> {
        self.bytes(pointer, "data").map(Option::unwrap_or_default)
    }

    /// Writes a list of numbers.
    ///
    /// ```
    /// # use lovendak::{ContentsError, Struct};
    /// let mut it = Struct::new();
    /// it.set_numbers(0, &[1.5, -2.0]).set_numbers(1, &[true, false, true]);
    /// assert_eq!(it.numbers::<f64>(0)?, [1.5, -2.0]);
    /// assert_eq!(it.numbers::<bool>(1)?, [true, false, true]);
    /// assert!(it.numbers::<u16>(1).is_err());
    /// # Ok::<(), ContentsError>(())
    /// ```
    pub fn set_numbers<T: Number>(&mut self, pointer: u16, numbers: &[T]) -> &mut Struct<R> {
        let mut data = vec![0; (numbers.len() * T::BITS + 7) / 8];
        numbers.iter().enumerate().for_each(|(index, number)| number.store(&mut data, index));
        self.set(pointer, Node::Scalars(Scalars { bits: T::BITS, count: numbers.len(), data }))
    }

    /// The numbers there. A list that became a list of structs in a later version of a schema gives the first field of each.
    /// `WrongKind`.
    pub fn numbers<T: Number>(&self, pointer: u16) -> Result<Vec<T>, ContentsError> {
        match self.at(pointer) {
            Node::Null => Ok(Vec::new()),
            Node::Scalars(list) if list.bits == T::BITS => {
                Ok((0..list.count).map(|index| T::stored(&list.data, index)).collect())
            }
            Node::Structs(items) if T::BITS > 1 && items.iter().all(|item| !item.data.is_empty()) => {
                Ok(items.iter().map(|item| item.number(0)).collect())
            }
            other => Err(wrong(pointer, "a list of such numbers", other)),
        }
    }

    /// Writes a list of structs.
    ///
    /// ```
    /// # use lovendak::{ContentsError, Struct};
    /// let line = |name, number: u32| {
    ///     let mut line = Struct::new();
    ///     line.set_text(0, name).set_number(0, number);
    ///     line
    /// };
    /// let mut it = Struct::new();
    /// it.set_structs(0, [line("ann", 1), line("bob", 2)]);
    /// let lines = it.structs(0)?;
    /// assert_eq!((lines.len(), lines[1].text(0)?, lines[1].number::<u32>(0)), (2, "bob", 2));
    /// # Ok::<(), ContentsError>(())
    /// ```
    pub fn set_structs(&mut self, pointer: u16, items: impl IntoIterator<Item = Struct<R>>) -> &mut Struct<R> {
        self.set(pointer, Node::Structs(items.into_iter().collect()))
    }

    /// Writes a list of pointers: of texts, data, lists or references. Each is pointer 0 of a struct, and `structs` reads it so.
    ///
    /// ```
    /// # use lovendak::{ContentsError, Struct};
    /// let name = |name| std::mem::take(Struct::new().set_text(0, name));
    /// let mut it = Struct::new();
    /// it.set_pointers(0, [name("ann"), name("bob")]);
    /// let names = it.structs(0)?;
    /// assert_eq!((names.len(), names[1].text(0)?), (2, "bob"));
    /// # Ok::<(), ContentsError>(())
    /// ```
    pub fn set_pointers(&mut self, pointer: u16, items: impl IntoIterator<Item = Struct<R>>) -> &mut Struct<R> {
        let first = |item: Struct<R>| item.pointers.into_iter().next().unwrap_or(Node::Null);
        self.set(pointer, Node::Pointers(items.into_iter().map(first).collect()))
    }

    /// The structs there. A list of numbers or pointers, which an earlier version of the schema may have had, gives structs whose
    /// first field they are. `WrongKind`.
    pub fn structs(&self, pointer: u16) -> Result<Cow<'_, [Struct<R>]>, ContentsError> {
        match self.at(pointer) {
            Node::Null => Ok(Cow::Borrowed(&[])),
            Node::Structs(items) => Ok(Cow::Borrowed(items)),
            // Elements of a bit never became structs, and of those of no bits there may be too many.
            Node::Scalars(list) if list.bits > 1 && list.count <= MOST_VISITED => {
                Ok(list.data.chunks(list.bits / 8).map(|it| Struct { data: it.to_vec(), pointers: vec![] }).collect())
            }
            Node::Pointers(items) => {
                Ok(items.iter().map(|it| Struct { data: vec![], pointers: vec![it.clone()] }).collect())
            }
            other => Err(wrong(pointer, "a list of structs", other)),
        }
    }

    /// Writes a struct.
    ///
    /// ```
    /// # use lovendak::{ContentsError, RefId, Struct};
    /// let mut inner = Struct::new();
    /// inner.set_reference(0, RefId(5));
    /// let mut it = Struct::new();
    /// it.set_struct(2, inner);
    /// assert_eq!(it.struct_at(2)?.reference(0)?, Some(RefId(5)));
    /// assert_eq!(it.struct_at(1)?.reference(0)?, None);
    /// # Ok::<(), ContentsError>(())
    /// ```
    pub fn set_struct(&mut self, pointer: u16, it: Struct<R>) -> &mut Struct<R> {
        self.set(pointer, Node::Struct(it))
    }

    /// The struct there. `WrongKind`.
    pub fn struct_at(&self, pointer: u16) -> Result<&Struct<R>, ContentsError> {
        match self.at(pointer) {
            Node::Null => Ok(Self::EMPTY),
            Node::Struct(it) => Ok(it),
            other => Err(wrong(pointer, "a struct", other)),
        }
    }

    /// Writes a reference, which is then one of [`Contents::refs`](crate::Contents::refs).
    pub fn set_reference(&mut self, pointer: u16, reference: R) -> &mut Struct<R> {
        self.set(pointer, Node::Reference(reference))
    }

    /// The reference there, which is still to be dropped as one of the contents' references. `WrongKind`.
    pub fn reference(&self, pointer: u16) -> Result<Option<R>, ContentsError> {
        match self.at(pointer) {
            Node::Null => Ok(None),
            Node::Reference(reference) => Ok(Some(reference.clone())),
            other => Err(wrong(pointer, "a reference", other)),
        }
    }

    fn at(&self, pointer: u16) -> &Node<R> {
        self.pointers.get(usize::from(pointer)).unwrap_or(&Node::Null)
    }

    fn set(&mut self, pointer: u16, node: Node<R>) -> &mut Struct<R> {
        let at = usize::from(pointer);
        if self.pointers.len() <= at {
            self.pointers.resize(at + 1, Node::Null);
        }
        self.pointers[at] = node;
        self
    }

    fn bytes(&self, pointer: u16, wanted: &'static str) -> Result<Option<&[u8]>, ContentsError> {
        match self.at(pointer) {
            Node::Null => Ok(None),
            Node::Scalars(Scalars { bits: 8, data, .. }) => Ok(Some(data)),
            other => Err(wrong(pointer, wanted, other)),
        }
    }
}

fn wrong<R>(pointer: u16, wanted: &'static str, found: &Node<R>) -> ContentsError {
    ContentsError::WrongKind { pointer: Some(pointer), wanted, found: found.kind() }
}
