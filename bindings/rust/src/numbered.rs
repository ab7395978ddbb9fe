//! An enum of numbers that have a name, a meaning, and something to do about each: `docs/numbers.md`, with which `bindings/agree`
//! compares them.

/// The name on the page: that of the variant, if no other is given.
macro_rules! shown_name {
    ($name:ident) => {
        stringify!($name)
    };
    ($name:ident $shown:literal) => {
        $shown
    };
}

macro_rules! numbered {
    ($(#[$doc:meta])* $kind:ident of $number_type:ident:
     $($number:literal $name:ident $($shown:literal)?: $meaning:literal, $remedy:expr;)*) => {
        $(#[$doc])*
        #[derive(Clone, Copy, Debug, PartialEq, Eq, Hash)]
        pub enum $kind {
            $(#[doc = concat!($meaning, ".")] $name,)*
        }

        impl $kind {
            /// What a number stands for, if it is one of these.
            pub fn of(number: $number_type) -> Option<$kind> {
                match number {
                    $($number => Some($kind::$name),)*
                    _ => None,
                }
            }

            /// Its number.
            pub fn number(self) -> $number_type {
                match self {
                    $($kind::$name => $number,)*
                }
            }

            /// Its name in `docs/numbers.md`.
            pub fn name(self) -> &'static str {
                match self {
                    $($kind::$name => shown_name!($name $($shown)?),)*
                }
            }

            /// What it means.
            pub fn meaning(self) -> &'static str {
                match self {
                    $($kind::$name => $meaning,)*
                }
            }

            /// What to do about it.
            pub fn remedy(self) -> &'static str {
                match self {
                    $($kind::$name => $remedy,)*
                }
            }
        }

        /// Its name, what it means, and what to do about it.
        impl std::fmt::Display for $kind {
            fn fmt(&self, f: &mut std::fmt::Formatter<'_>) -> std::fmt::Result {
                write!(f, "{}: {}. {}", self.name(), self.meaning(), self.remedy())
            }
        }

        impl std::error::Error for $kind {}
    };
}

pub(crate) use {numbered, shown_name};
