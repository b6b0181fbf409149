//! The refusals and their reasons.

use crate::ffi;
use core::fmt;

macro_rules! errors {
    ($($(#[$doc:meta])* $name:ident = $number:literal,)*) => {
        /// A refusal, after which the library has written nothing. The numbers are those of
        /// `rigzumal.h`.
        #[derive(Clone, Copy, Debug, PartialEq, Eq, Hash)]
        #[non_exhaustive]
        pub enum Error {
            $($(#[$doc])* $name,)*
            /// A fault of a newer library.
            Other(i32),
        }

        impl Error {
            /// The fault's number in `rigzumal.h`.
            #[must_use]
            pub fn number(self) -> i32 {
                match self {
                    $(Error::$name => $number,)*
                    Error::Other(number) => number,
                }
            }

            fn of_number(number: i32) -> Error {
                match number {
                    $($number => Error::$name,)*
                    _ => Error::Other(number),
                }
            }
        }
    };
}

errors! {
    /// A text doesn't begin with `$`, lacks a field, or has one too many.
    Shape = 1,
    /// A text's scheme is none of argon2d, argon2i, argon2id and scrypt.
    Scheme = 2,
    /// Unsupported version: settings need 19, records 19, 16 or none.
    Version = 3,
    /// The costs are not in the form of the scheme.
    Params = 4,
    /// A text's number is outside its range.
    Range = 5,
    /// The salt is not base64, or its size is outside its range: 8 to 48 bytes, of scrypt 1 to 48.
    Salt = 6,
    /// The tag is not base64, or its size is outside its range: 4 to 64 bytes.
    Tag = 7,
    /// Out of memory.
    Memory = 8,
    /// A text has over 512 bytes.
    TooLong = 9,
    /// The record is one of another password.
    Mismatch = 10,
    /// The room for a text is too small.
    NoRoom = 11,
    /// A number names no kind of Argon2.
    NoKind = 12,
    /// A number names no version of Argon2.
    NoVersion = 13,
    /// The number of lanes isn't 1 to 255.
    Lanes = 14,
    /// The memory isn't 8 KiB a lane to 2 GiB.
    Cost = 15,
    /// The number of passes is 0.
    Passes = 16,
    /// The size of a raw tag isn't 4 to 2^32 - 1.
    TagSize = 17,
    /// An input has 2^32 bytes or more.
    InputSize = 18,
    /// log2 of N isn't 1 to 23 and below 16 r, or the table is over 2 GiB.
    ScryptCost = 19,
    /// r isn't 1 to 255.
    BlockSize = 20,
    /// p isn't 1 to 255.
    Blocks = 21,
    /// The size of a raw key isn't 1 to 2^32 - 1.
    KeySize = 22,
    /// The system returned no random bytes for a salt.
    NoRandom = 26,
}

impl Error {
    pub(crate) fn check(number: i32) -> Result<(), Error> {
        match number {
            0 => Ok(()),
            _ => Err(Error::of_number(number)),
        }
    }
}

impl fmt::Display for Error {
    fn fmt(&self, to: &mut fmt::Formatter<'_>) -> fmt::Result {
        to.write_str(ffi::meaning(self.number()))
    }
}

#[cfg(feature = "std")]
impl std::error::Error for Error {}
