//! Argon2, scrypt and the strings of password records, over librigzumal.
//!
//! The hashing and the reading and writing of strings are proved. The thin layer of C and this
//! crate, in front of them, aren't. The crate has no dependencies, and calls only the library.
//!
//! ```
//! use rigzumal::{verify, Costs, Error, Hasher, Record};
//!
//! let hasher = Hasher::new(Costs::argon2id(1024, 1, 1))?; // Hasher::default() has 64 MiB
//! store(&hasher.hash_password(b"correct horse")?);
//!
//! let record: Record = stored().parse()?;
//! match verify(b"correct horse", &record) {
//!     // In SQL: UPDATE .. WHERE id = .. AND record = old; if no row changed, begin again.
//!     Ok(()) if hasher.needs_rehash(&record) => store(&hasher.hash_password(b"correct horse")?),
//!     Ok(()) => {}
//!     Err(Error::Mismatch) => println!("the password is wrong"),
//!     Err(fault) => println!("the check failed: {fault}"),
//! }
//! # fn store(_: &Record) {}
//! # fn stored() -> String {
//! #     "$argon2id$v=19$m=64,t=1,p=3$c29tZXNhbHQ$yzTAtA".into()
//! # }
//! # Ok::<(), Error>(())
//! ```
//!
//! # With the traits of `password-hash`
//!
//! The names and shapes are those of `RustCrypto`'s crate `password-hash` 0.5. A program that uses
//! that crate can implement its traits in a few lines:
//!
//! ```
//! # mod password_hash {
//! #     use std::fmt;
//! #     #[derive(Debug)]
//! #     pub enum Error { Crypto, Password, PhcStringField }
//! #     pub type Result<T> = core::result::Result<T, Error>;
//! #     pub struct PasswordHash<'a>(pub &'a str);
//! #     impl fmt::Display for PasswordHash<'_> {
//! #         fn fmt(&self, to: &mut fmt::Formatter<'_>) -> fmt::Result { to.write_str(self.0) }
//! #     }
//! #     pub trait PasswordVerifier {
//! #         fn verify_password(&self, password: &[u8], hash: &PasswordHash<'_>) -> Result<()>;
//! #     }
//! # }
//! use password_hash::{Error, PasswordHash, PasswordVerifier, Result};
//!
//! struct Verifier(rigzumal::Hasher);
//!
//! impl PasswordVerifier for Verifier {
//!     fn verify_password(&self, password: &[u8], hash: &PasswordHash<'_>) -> Result<()> {
//!         let record = hash.to_string().parse().map_err(|_| Error::PhcStringField)?;
//!         self.0.verify_password(password, &record).map_err(|fault| match fault {
//!             rigzumal::Error::Mismatch => Error::Password,
//!             _ => Error::Crypto,
//!         })
//!     }
//! }
//! # let verifier = Verifier(rigzumal::Hasher::default());
//! # let record = PasswordHash("$argon2id$v=19$m=64,t=1,p=3$c29tZXNhbHQ$yzTAtA");
//! # assert!(verifier.verify_password(b"password", &record).is_ok());
//! # let refused = verifier.verify_password(b"Password", &record);
//! # assert!(matches!(refused, Err(Error::Password)));
//! ```
//!
//! # Features
//!
//! `std`, which is on by default, makes [`Error`] a `std::error::Error`. Without `std` the crate
//! needs only `core` and `alloc`; the library below still needs Linux and its C library. README.md
//! says where the build looks for the library.

#![cfg_attr(not(feature = "std"), no_std)]
#![deny(missing_docs, unsafe_code, unsafe_op_in_unsafe_fn)]
#![warn(clippy::pedantic)]

extern crate alloc;

mod error;
#[allow(unsafe_code)]
mod ffi;
mod hasher;
mod raw;
mod record;

pub use error::Error;
pub use hasher::{Costs, Hasher};
pub use raw::{Algorithm, Argon2, Scrypt, Version};
pub use record::{Parts, Record, Scheme};

/// Checks whether the record is one of the password, without a secret and only on this thread.
///
/// # Errors
/// [`Error::Mismatch`] for a record of another password; [`Error::InputSize`]; [`Error::Memory`].
pub fn verify(password: &[u8], record: &Record) -> Result<(), Error> {
    ffi::check(record.as_c_str(), password, None, 1)
}

/// Returns to the system the memory that the library keeps for the next hashes, and returns its
/// size.
///
/// The library keeps as much as hashes took at one time, and at most the bound of [`keep`]. A
/// system that is short of memory reclaims this memory without this call.
#[allow(clippy::must_use_candidate)] // it is called for what it does
pub fn trim() -> usize {
    ffi::trim()
}

/// Bounds the bytes that the library keeps from now on, rounded down to a multiple of 2 MiB, and
/// returns the old bound. The first bound is 64 MiB, or `RIGZUMAL_KEEP` in the environment.
#[allow(clippy::must_use_candidate)] // it is called for what it does
pub fn keep(most: usize) -> usize {
    ffi::keep(most)
}

/// Returns the version of the library in use.
#[must_use]
pub fn library_version() -> &'static str {
    ffi::version()
}
