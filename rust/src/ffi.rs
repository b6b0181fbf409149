//! The calls of librigzumal, and all unsafe code. rigzumal.h has the caller's conditions: a pointer
//! with a size reaches that many bytes, texts end with a zero byte, and outputs don't overlap
//! inputs. Slices, `CStr` and borrows meet these conditions.

use crate::{Argon2, Error, Hasher, Parts, Scrypt};
use alloc::{ffi::CString, vec};
use core::ffi::{c_char, c_int, CStr};
use core::{ptr, sync::atomic};

/// The bytes that hold any record with its zero byte.
const TEXT_SIZE: usize = 513;

#[rustfmt::skip]
extern "C" {
    fn rigzumal_version() -> *const c_char;
    fn rigzumal_trim() -> usize;
    fn rigzumal_keep(most: usize) -> usize;
    fn rigzumal_strerror(fault: c_int) -> *const c_char;
    fn rigzumal_record_fault(record: *const c_char) -> c_int;
    fn rigzumal_parts(parts: *mut [u32; 7], record: *const c_char) -> c_int;
    fn rigzumal_needs_rehash(record: *const c_char, costs: *const c_char,
        salt_size: usize, tag_size: usize) -> c_int;
    fn rigzumal_record_threads(text: *mut u8, text_size: usize, tag_size: usize,
        costs: *const c_char, salt: *const u8, salt_size: usize,
        password: *const u8, password_size: usize, threads: u32) -> c_int;
    fn rigzumal_record_with_secret_threads(text: *mut u8, text_size: usize, tag_size: usize,
        costs: *const c_char, salt: *const u8, salt_size: usize,
        password: *const u8, password_size: usize,
        secret: *const u8, secret_size: usize, threads: u32) -> c_int;
    fn rigzumal_check_threads(record: *const c_char,
        password: *const u8, password_size: usize, threads: u32) -> c_int;
    fn rigzumal_check_with_secret_threads(record: *const c_char,
        password: *const u8, password_size: usize,
        secret: *const u8, secret_size: usize, threads: u32) -> c_int;
    fn rigzumal_argon2_threads(tag: *mut u8, tag_size: usize, numbers: *const [u32; 5],
        password: *const u8, password_size: usize, salt: *const u8, salt_size: usize,
        secret: *const u8, secret_size: usize,
        associated: *const u8, associated_size: usize, threads: u32) -> c_int;
    fn rigzumal_scrypt(key: *mut u8, key_size: usize, numbers: *const [u32; 3],
        password: *const u8, password_size: usize, salt: *const u8, salt_size: usize) -> c_int;
}

/// Returns a pointer with its size.
fn pair(data: &[u8]) -> (*const u8, usize) {
    (data.as_ptr(), data.len())
}

/// Returns a text of the library.
fn text_of(text: *const c_char) -> &'static str {
    // SAFETY: both calls whose text this reads return a constant text, and never null.
    unsafe { CStr::from_ptr(text) }.to_str().unwrap_or_default()
}

pub(crate) fn version() -> &'static str {
    // SAFETY: a program may call it at any time.
    text_of(unsafe { rigzumal_version() })
}

pub(crate) fn meaning(fault: c_int) -> &'static str {
    // SAFETY: the call accepts any number.
    text_of(unsafe { rigzumal_strerror(fault) })
}

pub(crate) fn trim() -> usize {
    // SAFETY: the call doesn't release memory in use.
    unsafe { rigzumal_trim() }
}

pub(crate) fn keep(most: usize) -> usize {
    // SAFETY: the call accepts any number.
    unsafe { rigzumal_keep(most) }
}

/// Writes zeros that no optimisation omits.
pub(crate) fn clear(secret: &mut [u8]) {
    for byte in secret {
        // SAFETY: the borrow of the byte is exclusive.
        unsafe { ptr::write_volatile(byte, 0) };
    }
    atomic::compiler_fence(atomic::Ordering::SeqCst);
}

pub(crate) fn record_fault(record: &CStr) -> Result<(), Error> {
    // SAFETY: the text ends with a zero byte.
    Error::check(unsafe { rigzumal_record_fault(record.as_ptr()) })
}

pub(crate) fn parts(record: &CStr) -> Result<Parts, Error> {
    let mut numbers = [0; 7];
    // SAFETY: struct rigzumal_parts is seven numbers.
    Error::check(unsafe { rigzumal_parts(&mut numbers, record.as_ptr()) })?;
    Ok(Parts::from_numbers(numbers))
}

pub(crate) fn needs_rehash(record: &CStr, costs: &CStr, salt_len: usize, tag_len: usize) -> bool {
    const OTHER_COSTS: c_int = 27;
    // SAFETY: both texts end with a zero byte.
    unsafe {
        rigzumal_needs_rehash(record.as_ptr(), costs.as_ptr(), salt_len, tag_len) == OTHER_COSTS
    }
}

#[rustfmt::skip]
pub(crate) fn record(it: &Hasher, costs: &CStr, password: &[u8], salt: Option<&[u8]>)
    -> Result<CString, Error> {
    let mut text = vec![0; TEXT_SIZE];
    let (out, size, costs) = (text.as_mut_ptr(), it.tag_size(), costs.as_ptr());
    let ((salt, n), (pw, len)) = (salt.map_or((ptr::null(), it.salt_size()), pair), pair(password));
    // SAFETY: each pointer reaches its size, except a null salt, which the call generates.
    Error::check(unsafe { match it.secret_bytes().map(pair) {
        None => rigzumal_record_threads(out, TEXT_SIZE, size, costs, salt, n, pw, len, it.threads),
        Some((key, key_len)) => rigzumal_record_with_secret_threads(
            out, TEXT_SIZE, size, costs, salt, n, pw, len, key, key_len, it.threads),
    }})?;
    text.truncate(text.iter().position(|byte| *byte == 0).unwrap_or_default());
    Ok(CString::new(text).unwrap_or_default())
}

#[rustfmt::skip]
pub(crate) fn check(record: &CStr, password: &[u8], secret: Option<&[u8]>, threads: u32)
    -> Result<(), Error> {
    let (text, (pw, len)) = (record.as_ptr(), pair(password));
    // SAFETY: the text ends with a zero byte, and each pointer reaches its size.
    Error::check(unsafe { match secret.map(pair) {
        None => rigzumal_check_threads(text, pw, len, threads),
        Some((key, key_len)) =>
            rigzumal_check_with_secret_threads(text, pw, len, key, key_len, threads),
    }})
}

#[rustfmt::skip]
pub(crate) fn argon2(it: &Argon2<'_>, pw: &[u8], salt: &[u8], tag: &mut [u8]) -> Result<(), Error> {
    let ((pw, len), (salt, n), (key, key_len), (data, data_len)) =
        (pair(pw), pair(salt), pair(it.secret), pair(it.associated));
    // SAFETY: each pointer reaches its size, and the borrow of the tag is exclusive.
    Error::check(unsafe { rigzumal_argon2_threads(tag.as_mut_ptr(), tag.len(), &it.numbers(),
        pw, len, salt, n, key, key_len, data, data_len, it.threads) })
}

#[rustfmt::skip]
pub(crate) fn scrypt(it: Scrypt, pw: &[u8], salt: &[u8], key: &mut [u8]) -> Result<(), Error> {
    let ((pw, len), (salt, n)) = (pair(pw), pair(salt));
    // SAFETY: each pointer reaches its size, and the borrow of the key is exclusive.
    Error::check(unsafe {
        rigzumal_scrypt(key.as_mut_ptr(), key.len(), &it.numbers(), pw, len, salt, n) })
}
