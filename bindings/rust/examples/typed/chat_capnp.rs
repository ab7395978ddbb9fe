//! Accessors as `capnpc` makes them of
//!
//! ```text
//! struct Join { name @0 :Text; listener @1 :Listener; }
//! struct Line { number @0 :UInt32; text @1 :Text; }
//! struct History { lines @0 :List(Line); }
//! ```

use capnp::private::layout::{PointerBuilder, PointerReader, StructBuilder, StructReader, StructSize};
use capnp::traits::{
    FromPointerBuilder, FromPointerReader, FromStructBuilder, FromStructReader, HasStructSize,
    IntoInternalStructReader, OwnedStruct, SetPointerBuilder,
};
use capnp::{Result, Word};

macro_rules! accessors {
    ($words:literal words, $pointers:literal pointers) => {
        #[derive(Clone, Copy)]
        pub struct Reader<'a>(StructReader<'a>);

        pub struct Builder<'a>(StructBuilder<'a>);

        impl<'a> FromStructReader<'a> for Reader<'a> {
            fn new(reader: StructReader<'a>) -> Self {
                Reader(reader)
            }
        }

        impl<'a> FromPointerReader<'a> for Reader<'a> {
            fn get_from_pointer(reader: &PointerReader<'a>, default: Option<&'a [Word]>) -> Result<Self> {
                Ok(Reader(reader.get_struct(default)?))
            }
        }

        impl<'a> IntoInternalStructReader<'a> for Reader<'a> {
            fn into_internal_struct_reader(self) -> StructReader<'a> {
                self.0
            }
        }

        impl<'a> SetPointerBuilder for Reader<'a> {
            fn set_pointer_builder(builder: PointerBuilder<'_>, from: Self, canonicalize: bool) -> Result<()> {
                builder.set_struct(&from.0, canonicalize)
            }
        }

        const SIZE: StructSize = StructSize { data: $words, pointers: $pointers };

        impl<'a> HasStructSize for Builder<'a> {
            fn struct_size() -> StructSize {
                SIZE
            }
        }

        impl<'a> FromStructBuilder<'a> for Builder<'a> {
            fn new(builder: StructBuilder<'a>) -> Self {
                Builder(builder)
            }
        }

        impl<'a> FromPointerBuilder<'a> for Builder<'a> {
            fn init_pointer(builder: PointerBuilder<'a>, _: u32) -> Self {
                Builder(builder.init_struct(SIZE))
            }

            fn get_from_pointer(builder: PointerBuilder<'a>, default: Option<&'a [Word]>) -> Result<Self> {
                Ok(Builder(builder.get_struct(SIZE, default)?))
            }
        }
    };
}

pub mod listener {
    use capnp::capability::FromClientHook;
    use capnp::private::capability::ClientHook;

    pub struct Client {
        pub client: capnp::capability::Client,
    }

    impl FromClientHook for Client {
        fn new(hook: Box<dyn ClientHook>) -> Self {
            Client { client: capnp::capability::Client::new(hook) }
        }
    }
}

pub mod join {
    use super::*;
    use capnp::capability::FromClientHook;

    accessors!(0 words, 2 pointers);

    impl<'a> Reader<'a> {
        pub fn get_name(self) -> Result<&'a str> {
            self.0.get_pointer_field(0).get_text(None)
        }

        pub fn get_listener(self) -> Result<listener::Client> {
            self.0.get_pointer_field(1).get_capability().map(FromClientHook::new)
        }
    }

    impl<'a> Builder<'a> {
        pub fn set_name(&mut self, value: &str) {
            self.0.get_pointer_field(0).set_text(value);
        }

        pub fn set_listener(&mut self, value: listener::Client) {
            self.0.get_pointer_field(1).set_capability(value.client.hook);
        }
    }
}

pub mod line {
    use super::*;

    accessors!(1 words, 1 pointers);

    pub enum Owned {}

    impl<'a> OwnedStruct<'a> for Owned {
        type Reader = Reader<'a>;
        type Builder = Builder<'a>;
    }

    impl<'a> Reader<'a> {
        pub fn get_number(self) -> u32 {
            self.0.get_data_field(0)
        }

        pub fn get_text(self) -> Result<&'a str> {
            self.0.get_pointer_field(0).get_text(None)
        }
    }

    impl<'a> Builder<'a> {
        pub fn set_number(&mut self, value: u32) {
            self.0.set_data_field(0, value);
        }

        pub fn set_text(&mut self, value: &str) {
            self.0.get_pointer_field(0).set_text(value);
        }
    }
}

pub mod history {
    use super::*;
    use capnp::struct_list;

    accessors!(0 words, 1 pointers);

    impl<'a> Reader<'a> {
        pub fn get_lines(self) -> Result<struct_list::Reader<'a, line::Owned>> {
            FromPointerReader::get_from_pointer(&self.0.get_pointer_field(0), None)
        }
    }

    impl<'a> Builder<'a> {
        pub fn init_lines(self, size: u32) -> struct_list::Builder<'a, line::Owned> {
            FromPointerBuilder::init_pointer(self.0.get_pointer_field(0), size)
        }
    }
}
