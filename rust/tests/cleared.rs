//! A hasher's secret is cleared before its memory is given back, and so is each copy of it. The
//! kernel reads the memory, so that the compiler sees no reader of what is cleared.

use rigzumal::{Costs, Hasher};
use std::fs::{self, File};
use std::hint::black_box;
use std::os::unix::fs::FileExt;

/// The secret's bytes are those of another text, so that the program itself doesn't have them.
const SIZE: usize = 61;
const MASKED: &[u8; SIZE] = b"A pepper of as many bytes as no other, and of no other letter";
const MASK: u8 = 0x5a;
/// The C library writes over the first bytes of what is given back to it.
const SEEN: usize = 32;

/// The result of some work with the secret, of which this copy is cleared then.
fn with_secret<T>(work: impl FnOnce(&[u8]) -> T) -> T {
    let mut secret: Vec<u8> = MASKED.iter().map(|byte| byte ^ MASK).collect();
    let done = work(&secret);
    secret.fill(0);
    black_box(&secret);
    done
}

fn is_end_of_secret(bytes: &[u8]) -> bool {
    bytes.iter().zip(&MASKED[SIZE - SEEN..]).all(|(found, masked)| found ^ MASK == *masked)
}

/// The number of copies of the secret's end in this process's own memory.
fn copies() -> usize {
    rigzumal::trim();
    let memory = File::open("/proc/self/mem").unwrap();
    let maps = fs::read_to_string("/proc/self/maps").unwrap();
    let of_process = maps.lines().filter(|line| line.contains(" rw-p "));
    of_process
        .map(|line| {
            let place = line.split(' ').next().unwrap().split_once('-').unwrap();
            let [start, end] = [place.0, place.1].map(|it| u64::from_str_radix(it, 16).unwrap());
            let mut bytes = vec![0; usize::try_from(end - start).unwrap()];
            if memory.read_exact_at(&mut bytes, start).is_err() {
                return 0; // it was given back meanwhile
            }
            let found = bytes.windows(SEEN).filter(|it| is_end_of_secret(it)).count();
            bytes.fill(0);
            black_box(&bytes);
            found
        })
        .sum()
}

fn hasher() -> Hasher {
    with_secret(|secret| Hasher::new(Costs::argon2id(8, 1, 1)).unwrap().secret(secret).unwrap())
}

#[test]
fn secrets_are_cleared() {
    let held = hasher();
    assert!(copies() > 0); // the count itself
    drop(held);
    assert_eq!(copies(), 0);
    drop(hasher().clone());
    assert_eq!(copies(), 0);
    drop(hasher().threads(2).salt_len(9));
    assert_eq!(copies(), 0);
    drop(hasher().salt_len(7)); // refused
    assert_eq!(copies(), 0);
    drop(hasher().secret(b"another"));
    assert_eq!(copies(), 0);
    drop(hasher().hash_password(b"x"));
    assert_eq!(copies(), 0);
}
