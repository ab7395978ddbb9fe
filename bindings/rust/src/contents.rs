//! What calls and answers carry.

use crate::contents_error::ContentsError;
use crate::ffi;
use crate::ids::RefId;
use crate::node::Node;
use crate::refusal::Refusal;
use crate::structs::Struct;
use crate::{reading, writing};

/// What a call or an answer carries: a payload, and a reference for each of its capabilities.
///
/// `new` makes one of numbers, a text and references, and `number`, `text` and `reference` look into one. [`Contents::of`] writes a
/// [`Struct`] of any fields, and [`Contents::root`] reads one. Another library for Cap'n Proto messages does as well: the payload is a
/// message in framed segments, whose root is what is carried and whose capability pointers number the references.
///
/// Over a [`Connection`](crate::Connection) go contents whose capabilities are each a [`Capability`](crate::Capability) in place of a
/// reference.
#[derive(Clone, Debug, PartialEq, Eq)]
pub struct Contents<R = RefId> {
    /// The message, in framed segments.
    pub payload: Vec<u8>,
    /// What its capabilities stand for. References that came are to be dropped; those that are given stay the giver's.
    pub refs: Vec<R>,
}

impl Contents {
    /// A struct whose data words are the numbers. The text, if there is one, is its pointer 0, and the references are the pointers
    /// behind it: without a text 0, 1 and so on. `Full` where there is too much for a payload, `Memory`.
    pub fn new(numbers: &[u64], text: Option<&str>, refs: &[RefId]) -> Result<Contents, Refusal> {
        // The frame's head and the root pointer, a word of each number and reference, the text with its pointer.
        let text_room = text.map_or(0, |text| text.len() + 16);
        let mut payload = vec![0; 16 + 8 * (numbers.len() + refs.len()) + text_room];
        let caps = u32::try_from(refs.len()).map_err(|_| Refusal::Full)?;
        let (mut code, mut len) = ffi::contents(numbers, text, caps, &mut payload);
        if code == ffi::ROOM {
            payload.resize(len, 0);
            (code, len) = ffi::contents(numbers, text, caps, &mut payload);
        }
        Refusal::check(code)?;
        payload.truncate(len);
        Ok(Contents { payload, refs: refs.to_vec() })
    }
}

impl<R: Clone + 'static> Contents<R> {
    /// A message whose root is that struct. `TooMuch` if it is too large for a message, or nests too deep.
    ///
    /// ```
    /// use lovendak::{Contents, ContentsError, Struct};
    ///
    /// let line = |name| std::mem::take(Struct::new().set_text(0, name));
    /// let mut it = Struct::new();
    /// it.set_text(0, "hello").set_data(1, &[0xca, 0xfe]).set_numbers(2, &[1u32, 2, 3]).set_structs(3, [line("ann"), line("bob")]);
    /// let root = Contents::of(&it)?.root()?;
    /// assert_eq!((root.text(0)?, root.data(1)?), ("hello", &[0xca, 0xfe][..]));
    /// assert_eq!(root.numbers::<u32>(2)?, [1, 2, 3]);
    /// assert_eq!(root.structs(3)?[1].text(0)?, "bob");
    /// # Ok::<(), ContentsError>(())
    /// ```
    pub fn of(root: &Struct<R>) -> Result<Contents<R>, ContentsError> {
        let (payload, refs) = writing::write(root).map_err(ContentsError::TooMuch)?;
        Ok(Contents { payload, refs })
    }

    /// The struct at the root, an empty one if the root is null. The whole payload is checked, and refused as the library refuses it.
    /// `NoPayload`, or `WrongKind` if the root is something else.
    ///
    /// ```
    /// use lovendak::{Contents, ContentsError, Fault};
    ///
    /// let contents: Contents = Contents { payload: vec![1, 2, 3], refs: vec![] };
    /// assert_eq!(contents.root().unwrap_err(), ContentsError::NoPayload(Fault::Short));
    /// ```
    pub fn root(&self) -> Result<Struct<R>, ContentsError> {
        match reading::read(&self.payload, &self.refs).map_err(ContentsError::NoPayload)? {
            Node::Null => Ok(Struct::default()),
            Node::Struct(root) => Ok(root),
            other => Err(ContentsError::WrongKind { pointer: None, wanted: "a struct", found: other.kind() }),
        }
    }

    /// The data word of that index; 0 where there is none. `NoPayload` where the payload is none, `Memory`.
    pub fn number(&self, index: usize) -> Result<u64, Refusal> {
        let (code, number) = ffi::number_at(&self.payload, self.caps(), index);
        if code == ffi::NOTHING {
            return Ok(0);
        }
        Refusal::check(code).map(|()| number)
    }

    /// The text at that pointer, an empty one where the pointer is null or not there; none where it leads to something else.
    /// `NoPayload` where the payload is none, `Memory`.
    pub fn text(&self, pointer: u16) -> Result<Option<String>, Refusal> {
        let mut text = vec![0; 64];
        let (mut code, mut len) = ffi::text_at(&self.payload, self.caps(), pointer, &mut text);
        if code == ffi::ROOM {
            text.resize(len, 0);
            (code, len) = ffi::text_at(&self.payload, self.caps(), pointer, &mut text);
        }
        if code == ffi::NOTHING {
            return Ok(None);
        }
        Refusal::check(code)?;
        text.truncate(len);
        Ok(String::from_utf8(text).ok())
    }

    /// The reference at a path of pointers' numbers, if there is one. `NoPayload` where the payload is none, `Memory`.
    pub fn reference(&self, path: &[u16]) -> Result<Option<R>, Refusal> {
        let (code, index) = ffi::ref_at(&self.payload, self.caps(), path);
        if code == ffi::NOTHING {
            return Ok(None);
        }
        Refusal::check(code)?;
        Ok(self.refs.get(index).cloned())
    }

    fn caps(&self) -> u32 {
        // More references than that make no payload, which the library then says.
        u32::try_from(self.refs.len()).unwrap_or(u32::MAX)
    }
}
