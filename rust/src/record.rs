//! Records of passwords, and their numbers.

use crate::{ffi, Algorithm, Error};
use alloc::ffi::CString;
use core::{ffi::CStr, fmt, hint, str::FromStr};

/// A record of a password: a string of Argon2 or scrypt that this crate can verify, such as
/// `$argon2id$v=19$m=65536,t=3,p=4$SALT$TAG`.
///
/// A [`Hasher`](crate::Hasher) builds a record, and `parse` reads one from a text. `Debug` shows
/// only the costs; `Display` and [`as_str`](Record::as_str) show the whole record.
///
/// ```
/// use rigzumal::{Error, Record};
/// let record: Record = "$argon2id$v=19$m=64,t=1,p=3$c29tZXNhbHQ$yzTAtA".parse()?;
/// assert_eq!(record.parts()?.memory, 64);
/// let text = "$argon2id$v=19$m=7,t=2,p=1$c29tZXNhbHQ$nf65EA";
/// assert_eq!(text.parse::<Record>(), Err(Error::Range));
/// # Ok::<(), Error>(())
/// ```
#[derive(Clone, Eq)]
pub struct Record(CString);

impl PartialEq for Record {
    /// Compares two records in a time that depends on their lengths, but not on where they differ.
    fn eq(&self, other: &Record) -> bool {
        let (one, other) = (self.0.as_bytes(), other.0.as_bytes());
        let differences =
            one.iter().zip(other).fold(0, |sum, (a, b)| hint::black_box(sum | (a ^ b)));
        one.len() == other.len() && differences == 0
    }
}

impl Record {
    pub(crate) fn of_library(text: CString) -> Record {
        Record(text)
    }

    pub(crate) fn as_c_str(&self) -> &CStr {
        &self.0
    }

    /// Returns the record's text, which is ASCII.
    #[must_use]
    pub fn as_str(&self) -> &str {
        self.0.to_str().unwrap_or_default()
    }

    /// Returns the record's numbers.
    ///
    /// # Errors
    /// None for a record: reading a text refuses any text that isn't one.
    pub fn parts(&self) -> Result<Parts, Error> {
        ffi::parts(&self.0)
    }
}

impl FromStr for Record {
    type Err = Error;

    /// Reads a record, or returns the text's first fault from the left, one of [`Error::Shape`] to
    /// [`Error::TooLong`].
    fn from_str(text: &str) -> Result<Record, Error> {
        let text = CString::new(text).map_err(|_| Error::Shape)?;
        ffi::record_fault(&text)?;
        Ok(Record(text))
    }
}

impl TryFrom<&str> for Record {
    type Error = Error;

    fn try_from(text: &str) -> Result<Record, Error> {
        text.parse()
    }
}

impl AsRef<str> for Record {
    fn as_ref(&self) -> &str {
        self.as_str()
    }
}

impl fmt::Display for Record {
    fn fmt(&self, to: &mut fmt::Formatter<'_>) -> fmt::Result {
        to.write_str(self.as_str())
    }
}

impl fmt::Debug for Record {
    fn fmt(&self, to: &mut fmt::Formatter<'_>) -> fmt::Result {
        let costs = self.as_str().rsplitn(3, '$').last().unwrap_or_default();
        write!(to, "Record({costs}$..)")
    }
}

/// The function of a record.
#[derive(Clone, Copy, Debug, PartialEq, Eq, Hash)]
pub enum Scheme {
    /// Argon2d.
    Argon2d,
    /// Argon2i.
    Argon2i,
    /// Argon2id: the one for passwords.
    Argon2id,
    /// scrypt.
    Scrypt,
}

impl From<Algorithm> for Scheme {
    fn from(algorithm: Algorithm) -> Scheme {
        match algorithm {
            Algorithm::Argon2d => Scheme::Argon2d,
            Algorithm::Argon2i => Scheme::Argon2i,
            Algorithm::Argon2id => Scheme::Argon2id,
        }
    }
}

/// The numbers of a record.
#[derive(Clone, Copy, Debug, PartialEq, Eq, Hash)]
pub struct Parts {
    /// The function.
    pub scheme: Scheme,
    /// 0x13 or 0x10 for Argon2, 0 for scrypt.
    pub version: u32,
    /// KiB for Argon2, log2 of N for scrypt.
    pub memory: u32,
    /// The passes of Argon2, or the block size r of scrypt.
    pub passes: u32,
    /// The lanes of Argon2, or the parallelization p of scrypt.
    pub lanes: u32,
    /// Bytes of the salt.
    pub salt_len: u32,
    /// Bytes of the tag.
    pub tag_len: u32,
}

impl Parts {
    /// Builds the parts from numbers in the order of `struct rigzumal_parts`.
    pub(crate) fn from_numbers(numbers: [u32; 7]) -> Parts {
        let [scheme, version, memory, passes, lanes, salt_len, tag_len] = numbers;
        let scheme = match scheme {
            0 => Scheme::Argon2d,
            1 => Scheme::Argon2i,
            2 => Scheme::Argon2id,
            _ => Scheme::Scrypt,
        };
        Parts { scheme, version, memory, passes, lanes, salt_len, tag_len }
    }
}
