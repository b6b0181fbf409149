//! Tags of Argon2 and keys of scrypt, as bytes.

use crate::{ffi, Error};

/// The kinds of Argon2 (RFC 9106).
#[derive(Clone, Copy, Debug, Default, PartialEq, Eq, Hash)]
pub enum Algorithm {
    /// Argon2d.
    Argon2d,
    /// Argon2i.
    Argon2i,
    /// Argon2id: the one for passwords.
    #[default]
    Argon2id,
}

impl Algorithm {
    /// Returns the kind's name in a record.
    pub(crate) fn name(self) -> &'static str {
        match self {
            Algorithm::Argon2d => "argon2d",
            Algorithm::Argon2i => "argon2i",
            Algorithm::Argon2id => "argon2id",
        }
    }
}

/// The versions of Argon2.
#[derive(Clone, Copy, Debug, Default, PartialEq, Eq, Hash)]
pub enum Version {
    /// 0x10, of old records.
    V0x10,
    /// 0x13, of RFC 9106.
    #[default]
    V0x13,
}

/// Argon2 (RFC 9106) with its numbers, and the inputs that most tags don't have.
///
/// ```
/// use rigzumal::{Algorithm, Argon2};
/// let mut key = [0; 32];
/// let argon2 = Argon2 { memory: 256, passes: 2, lanes: 1, ..Argon2::default() };
/// argon2.hash_password_into(b"password", b"somesalt", &mut key)?;
/// assert_eq!(key[..4], [0x9d, 0xfe, 0xb9, 0x10]);
/// # Ok::<(), rigzumal::Error>(())
/// ```
#[derive(Clone, Copy)]
pub struct Argon2<'a> {
    /// The kind.
    pub algorithm: Algorithm,
    /// The version.
    pub version: Version,
    /// KiB: 8 a lane to 2097152.
    pub memory: u32,
    /// 1 or more.
    pub passes: u32,
    /// 1 to 255.
    pub lanes: u32,
    /// K of RFC 9106, section 3.1.
    pub secret: &'a [u8],
    /// X of RFC 9106, section 3.1.
    pub associated: &'a [u8],
    /// The number of threads that may work the lanes; 0 means 1.
    pub threads: u32,
}

impl Default for Argon2<'_> {
    /// Returns RFC 9106's second recommendation: Argon2id with 64 MiB, three passes and four lanes.
    fn default() -> Self {
        Argon2 {
            algorithm: Algorithm::Argon2id,
            version: Version::V0x13,
            memory: 65536,
            passes: 3,
            lanes: 4,
            secret: &[],
            associated: &[],
            threads: 1,
        }
    }
}

impl Argon2<'_> {
    /// Returns the numbers in the order of `struct rigzumal_argon2`.
    pub(crate) fn numbers(&self) -> [u32; 5] {
        let version = match self.version {
            Version::V0x10 => 0x10,
            Version::V0x13 => 0x13,
        };
        [self.algorithm as u32, version, self.memory, self.passes, self.lanes]
    }

    /// Fills `out`, of 4 bytes or more, with the tag.
    ///
    /// # Errors
    /// [`Error::Lanes`] to [`Error::InputSize`] for the numbers and sizes; [`Error::Memory`].
    pub fn hash_password_into(
        &self,
        password: &[u8],
        salt: &[u8],
        out: &mut [u8],
    ) -> Result<(), Error> {
        ffi::argon2(self, password, salt, out)
    }
}

/// scrypt (RFC 7914) with its numbers; its table has 128 r N bytes.
#[derive(Clone, Copy, Debug, PartialEq, Eq, Hash)]
pub struct Scrypt {
    /// N is 2 to this power: 1 to 23, below 16 r.
    pub log2_n: u32,
    /// The block size r: 1 to 255.
    pub r: u32,
    /// The parallelization p: 1 to 255.
    pub p: u32,
}

impl Scrypt {
    /// Returns the numbers in the order of `struct rigzumal_scrypt`.
    pub(crate) fn numbers(self) -> [u32; 3] {
        [self.log2_n, self.r, self.p]
    }

    /// Fills `out`, of 1 byte or more, with the key.
    ///
    /// # Errors
    /// [`Error::ScryptCost`] to [`Error::KeySize`] for the numbers and sizes; [`Error::Memory`].
    pub fn hash_password_into(
        self,
        password: &[u8],
        salt: &[u8],
        out: &mut [u8],
    ) -> Result<(), Error> {
        ffi::scrypt(self, password, salt, out)
    }
}
