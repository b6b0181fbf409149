//! The hasher, which builds records and verifies them.

use crate::{ffi, Algorithm, Error, Record};
use alloc::{boxed::Box, ffi::CString, format, string::ToString};
use core::fmt;

/// The function for new records, with its costs.
///
/// The `Display` of costs is the front of a record: `$argon2id$v=19$m=65536,t=3,p=4`.
#[derive(Clone, Copy, Debug, PartialEq, Eq, Hash)]
pub enum Costs {
    /// Argon2, version 0x13.
    Argon2 {
        /// The kind.
        algorithm: Algorithm,
        /// KiB: 8 a lane to 2097152.
        memory: u32,
        /// 1 or more.
        passes: u32,
        /// 1 to 255.
        lanes: u32,
    },
    /// scrypt.
    Scrypt {
        /// N is 2 to this power: 1 to 23.
        log2_n: u32,
        /// The block size: 1 to 255.
        r: u32,
        /// The parallelization: 1 to 255.
        p: u32,
    },
}

impl Costs {
    /// Returns the costs of Argon2id with this many KiB, passes and lanes.
    #[must_use]
    pub fn argon2id(memory: u32, passes: u32, lanes: u32) -> Costs {
        Costs::Argon2 { algorithm: Algorithm::Argon2id, memory, passes, lanes }
    }

    fn text(self) -> CString {
        // No text of costs has a zero byte.
        CString::new(self.to_string()).unwrap_or_default()
    }
}

impl Default for Costs {
    /// Returns RFC 9106's second recommendation: Argon2id with 64 MiB, three passes and four lanes.
    fn default() -> Self {
        Costs::argon2id(65536, 3, 4)
    }
}

impl fmt::Display for Costs {
    fn fmt(&self, to: &mut fmt::Formatter<'_>) -> fmt::Result {
        match self {
            Costs::Argon2 { algorithm, memory, passes, lanes } => {
                write!(to, "${}$v=19$m={memory},t={passes},p={lanes}", algorithm.name())
            }
            Costs::Scrypt { log2_n, r, p } => write!(to, "$scrypt$ln={log2_n},r={r},p={p}"),
        }
    }
}

/// A secret's bytes, which a drop of their hasher clears, as does a drop of each clone.
#[derive(Clone)]
struct Secret(Box<[u8]>);

impl Drop for Secret {
    fn drop(&mut self) {
        ffi::clear(&mut self.0);
    }
}

/// Builds records and verifies them.
///
/// A hasher is `Send` and `Sync`: one is enough for all threads of a program. The constructors
/// refuse costs and sizes that no record can have, so a user's login never meets that refusal.
#[derive(Clone, Default)]
pub struct Hasher {
    costs: Costs,
    salt_len: Option<usize>,
    tag_len: Option<usize>,
    secret: Option<Secret>,
    pub(crate) threads: u32,
}

impl Hasher {
    /// Builds a hasher with random salts of 16 bytes, tags of 32, no secret and one thread.
    ///
    /// # Errors
    /// [`Error::Range`] if a number is outside its range.
    pub fn new(costs: Costs) -> Result<Hasher, Error> {
        Hasher { costs, ..Hasher::default() }.readable()
    }

    /// Returns the hasher with random salts of this many bytes: 8 to 48, or for scrypt 1 to 48.
    ///
    /// # Errors
    /// [`Error::Salt`] for any other number.
    pub fn salt_len(self, bytes: usize) -> Result<Hasher, Error> {
        Hasher { salt_len: Some(bytes), ..self }.readable()
    }

    /// Returns the hasher with tags of this many bytes: 4 to 64.
    ///
    /// # Errors
    /// [`Error::Tag`] for any other number.
    pub fn tag_len(self, bytes: usize) -> Result<Hasher, Error> {
        Hasher { tag_len: Some(bytes), ..self }.readable()
    }

    /// Returns the hasher with a secret beside each password: a pepper that a program keeps apart
    /// from its records, K of RFC 9106, section 3.1. Such a hasher verifies only records with this
    /// secret, and refuses those of scrypt with [`Error::Scheme`]. A drop of the hasher clears its
    /// copy.
    ///
    /// # Errors
    /// [`Error::Scheme`] if the hasher's own costs are scrypt's; [`Error::InputSize`].
    pub fn secret(self, secret: &[u8]) -> Result<Hasher, Error> {
        if matches!(self.costs, Costs::Scrypt { .. }) {
            return Err(Error::Scheme);
        }
        u32::try_from(secret.len()).map_err(|_| Error::InputSize)?;
        Ok(Hasher { secret: Some(Secret(secret.into())), ..self })
    }

    /// Returns the hasher with up to this many threads for the lanes of each record. Threads make
    /// one login faster on an idle machine, but not many logins at once.
    #[must_use]
    pub fn threads(self, threads: u32) -> Hasher {
        Hasher { threads, ..self }
    }

    pub(crate) fn secret_bytes(&self) -> Option<&[u8]> {
        self.secret.as_ref().map(|secret| &*secret.0)
    }

    pub(crate) fn tag_size(&self) -> usize {
        self.tag_len.unwrap_or(32)
    }

    pub(crate) fn salt_size(&self) -> usize {
        self.salt_len.unwrap_or(16)
    }

    /// Returns the hasher, if the library can read a record with its costs and sizes.
    fn readable(self) -> Result<Hasher, Error> {
        const OVER: usize = 65; // no salt and no tag has as many bytes
        let zeros = |bytes: usize| "A".repeat((bytes.min(OVER) * 4 + 2) / 3);
        let (salt, tag) = (zeros(self.salt_size()), zeros(self.tag_size()));
        format!("{}${salt}${tag}", self.costs).parse::<Record>()?;
        Ok(self)
    }

    /// Returns a new record of the password, with a salt from the system's getrandom.
    ///
    /// # Errors
    /// [`Error::InputSize`]; [`Error::Memory`]; [`Error::NoRandom`].
    pub fn hash_password(&self, password: &[u8]) -> Result<Record, Error> {
        ffi::record(self, &self.costs.text(), password, None).map(Record::of_library)
    }

    /// Returns a new record of the password with this salt, which must be fresh.
    ///
    /// # Errors
    /// Those of [`hash_password`](Hasher::hash_password) except the last; [`Error::Salt`] or
    /// [`Error::TooLong`] for the salt's size, and [`Error::Shape`] for an empty salt.
    pub fn hash_password_with_salt(&self, password: &[u8], salt: &[u8]) -> Result<Record, Error> {
        ffi::record(self, &self.costs.text(), password, Some(salt)).map(Record::of_library)
    }

    /// Checks whether the record is one of the password, whatever its costs.
    ///
    /// # Errors
    /// [`Error::Mismatch`] for a record of another password; [`Error::Scheme`] for a record of
    /// scrypt if the hasher has a secret; [`Error::InputSize`]; [`Error::Memory`].
    pub fn verify_password(&self, password: &[u8], record: &Record) -> Result<(), Error> {
        ffi::check(record.as_c_str(), password, self.secret_bytes(), self.threads)
    }

    /// Whether the record has another scheme, version, cost or size than a new one.
    #[must_use]
    pub fn needs_rehash(&self, record: &Record) -> bool {
        let costs = self.costs.text();
        ffi::needs_rehash(record.as_c_str(), &costs, self.salt_size(), self.tag_size())
    }
}

impl fmt::Debug for Hasher {
    /// Shows the costs and sizes, and whether the hasher has a secret.
    fn fmt(&self, to: &mut fmt::Formatter<'_>) -> fmt::Result {
        to.debug_struct("Hasher")
            .field("costs", &self.costs)
            .field("salt_len", &self.salt_size())
            .field("tag_len", &self.tag_size())
            .field("has_secret", &self.secret.is_some())
            .field("threads", &self.threads)
            .finish()
    }
}
