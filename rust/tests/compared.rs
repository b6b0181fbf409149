//! To be run under valgrind, whose memcheck counts the jumps that depend on bytes marked as
//! undefined: the comparison of two records has as many wherever they differ.

use rigzumal::Record;
use std::hint::black_box;

/// Requests of valgrind.h and memcheck.h.
const COUNT_ERRORS: usize = 0x1201;
const MAKE_UNDEFINED: usize = 0x4d43_0001;
const MAKE_DEFINED: usize = 0x4d43_0002;
const NONE: usize = usize::MAX;

/// The answer of valgrind, which knows these instructions that do nothing; `NONE` without it.
fn ask(request: usize, bytes: &[u8]) -> usize {
    let words = [request, bytes.as_ptr() as usize, bytes.len(), 0, 0, 0];
    #[allow(unused_mut)]
    let mut answer = NONE;
    #[cfg(target_arch = "x86_64")]
    // SAFETY: the rotations add up to 128 bits, and valgrind writes to rdx alone.
    unsafe {
        std::arch::asm!("rol rdi, 3", "rol rdi, 13", "rol rdi, 61", "rol rdi, 51", "xchg rbx, rbx",
            in("rax") words.as_ptr(), inout("rdx") answer);
    }
    answer
}

/// The number of jumps that depend on the bytes of two records as they are compared.
fn jumps(one: &str, other: &str) -> usize {
    let records = [one, other].map(|text| text.parse::<Record>().unwrap());
    for record in &records {
        ask(MAKE_UNDEFINED, record.as_str().as_bytes());
    }
    let before = ask(COUNT_ERRORS, &[]);
    let is_equal = [u8::from(black_box(&records[0]) == black_box(&records[1]))];
    ask(MAKE_DEFINED, &is_equal);
    let jumps = ask(COUNT_ERRORS, &[]) - before;
    for record in &records {
        ask(MAKE_DEFINED, record.as_str().as_bytes());
    }
    assert_eq!(is_equal == [1], one == other);
    jumps
}

fn main() {
    assert_ne!(ask(COUNT_ERRORS, &[]), NONE, "this isn't under valgrind");
    let text = "$argon2id$v=19$m=8,t=1,p=1$c29tZXNhbHQ$nf65EA";
    let equal = jumps(text, text);
    assert!(equal <= 1, "{equal}");
    for other in [text.replace("m=8", "m=9"), text.replace("$nf", "$gf"), text.replace("EA", "EQ")]
    {
        assert_eq!(jumps(text, &other), equal, "{other}");
    }
}
