//! The numbers of a schema, as they lie in the data of a struct and in a list.

/// A number of a schema: `bool`, an integer of 8 to 64 bits, `f32` or `f64`.
pub trait Number: Stored {}

/// How a number lies in bytes. This trait is not public, so that no others have it.
pub trait Stored: Copy + Default {
    const BITS: usize;

    /// The number of that index, counted in numbers of this size: zero past the end.
    fn stored(data: &[u8], index: usize) -> Self;

    /// Puts the number there; past the end it does nothing.
    fn store(self, data: &mut [u8], index: usize);
}

macro_rules! numbers {
    ($($kind:ident)*) => {$(
        impl Number for $kind {}

        impl Stored for $kind {
            const BITS: usize = 8 * std::mem::size_of::<$kind>();

            fn stored(data: &[u8], index: usize) -> $kind {
                let mut bytes = $kind::default().to_le_bytes();
                if let Some(found) = data.chunks_exact(bytes.len()).nth(index) {
                    bytes.copy_from_slice(found);
                }
                $kind::from_le_bytes(bytes)
            }

            fn store(self, data: &mut [u8], index: usize) {
                let bytes = self.to_le_bytes();
                if let Some(place) = data.chunks_exact_mut(bytes.len()).nth(index) {
                    place.copy_from_slice(&bytes);
                }
            }
        }
    )*};
}

numbers! { u8 u16 u32 u64 i8 i16 i32 i64 f32 f64 }

impl Number for bool {}

impl Stored for bool {
    const BITS: usize = 1;

    fn stored(data: &[u8], index: usize) -> bool {
        data.get(index / 8).map_or(false, |byte| byte >> (index % 8) & 1 == 1)
    }

    fn store(self, data: &mut [u8], index: usize) {
        if let Some(byte) = data.get_mut(index / 8) {
            let bit = 1 << (index % 8);
            *byte = if self { *byte | bit } else { *byte & !bit };
        }
    }
}
