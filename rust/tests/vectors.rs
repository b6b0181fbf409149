//! The standards' values, records of other programs, and what is refused.

use rigzumal::{
    verify, Algorithm, Argon2, Costs, Error, Hasher, Parts, Record, Scheme, Scrypt, Version,
};

fn hex(data: &[u8]) -> String {
    data.iter().fold(String::new(), |text, byte| text + &format!("{byte:02x}"))
}

/// By threads for each lane too.
fn check_tags(argon2: Argon2<'_>, password: &[u8], salt: &[u8], wanted: [&str; 3]) {
    let algorithms = [Algorithm::Argon2d, Algorithm::Argon2i, Algorithm::Argon2id];
    for (algorithm, tag) in algorithms.into_iter().zip(wanted) {
        for threads in [0, 1, 4] {
            let mut out = [0; 32];
            let argon2 = Argon2 { algorithm, threads, ..argon2 };
            assert_eq!(argon2.hash_password_into(password, salt, &mut out), Ok(()));
            assert_eq!(hex(&out), tag);
        }
    }
}

/// The second by `argon2 somesalt -v 10 -t 2 -k 256 -p 1 -r`.
#[test]
fn tags_are_those_of_rfc_9106_and_of_the_argon2_program() {
    let wanted = [
        "512b391b6f1162975371d30919734294f868e3be3984f3c1a13a4db9fabe4acb",
        "c814d9d1dc7f37aa13f0d77f2494bda1c8de6b016dd388d29952a4c4672b6ce8",
        "0d640df58d78766c08c037a34a8b53c9d01ef0452d75b65eb52520e96b01e659",
    ];
    let (secret, associated) = (&[3; 8], &[4; 12]);
    let numbers = Argon2 { memory: 32, passes: 3, lanes: 4, ..Argon2::default() };
    check_tags(Argon2 { secret, associated, ..numbers }, &[1; 32], &[2; 16], wanted);
    let wanted = [
        "bd404868ff00c52e7543c8332e6a772a5724892d7e328d5cf253bbc8e726b371",
        "fd4dd83d762c49bdeaf57c47bdcd0c2f1babf863fdeb490df63ede9975fccf06",
        "da070e576e50f2f38a3c897cbddc6c7fb4028e870971ff9eae7b4e1879295e6e",
    ];
    let numbers = Argon2 { memory: 256, passes: 2, lanes: 1, ..Argon2::default() };
    let version = Version::V0x10;
    check_tags(Argon2 { version, ..numbers }, b"password", b"somesalt", wanted);
}

/// RFC 7914, section 12: the second, whose numbers are three.
#[test]
fn keys_are_those_of_rfc_7914() {
    let mut key = [0; 64];
    let scrypt = Scrypt { log2_n: 10, r: 8, p: 16 };
    assert_eq!(scrypt.hash_password_into(b"password", b"NaCl", &mut key), Ok(()));
    let front = "fdbabe1c9d3472007856e7190d01e9fe7c6ad7cbc8237830e77";
    assert!(hex(&key).starts_with(front));
}

/// Of the reference library's own tests; the last is passlib's.
const RECORDS: [&str; 3] = [
    "$argon2id$v=19$m=256,t=2,p=1$c29tZXNhbHQ$nf65EOgLrQMR/uIPnA4rEsF5h7TKyQwu9U1bMCHGi/4",
    "$argon2i$v=19$m=256,t=2,p=1$c29tZXNhbHQ$iekCn0Y3spW+sCcFanM2xBT63UP2sghkUoHLIUpWRS8",
    "$argon2i$m=256,t=2,p=1$c29tZXNhbHQ$/U3YPXYsSb3q9XxHvc0MLxur+GP960kN9j7emXX8zwY",
];

#[test]
fn the_right_password_alone_is_verified() {
    for text in RECORDS {
        let record: Record = text.parse().unwrap();
        assert_eq!(record.as_str(), text);
        assert_eq!(record.to_string(), text);
        assert_eq!(verify(b"password", &record), Ok(()));
        for wrong in [&b"Password"[..], b"", b"password\0", b"passwor", b"\xff"] {
            assert_eq!(verify(wrong, &record), Err(Error::Mismatch));
            assert_eq!(Hasher::default().verify_password(wrong, &record), Err(Error::Mismatch));
        }
    }
}

/// By `argon2 "a salt of 17 byte" -d -t 3 -k 100 -p 5 -l 20 -e`, and so on.
#[test]
fn new_records_are_those_of_the_argon2_program() {
    let of = |algorithm, memory, passes, lanes| {
        Hasher::new(Costs::Argon2 { algorithm, memory, passes, lanes }).unwrap()
    };
    let (d, i, id) = (Algorithm::Argon2d, Algorithm::Argon2i, Algorithm::Argon2id);
    let salt: &[u8] = b"a salt of 17 byte";
    for (hasher, salt, wanted) in [
        (of(id, 256, 2, 1), &b"somesalt"[..], RECORDS[0]),
        (of(i, 256, 2, 1), b"somesalt", RECORDS[1]),
        (
            of(d, 100, 3, 5).tag_len(20).unwrap(),
            salt,
            "$argon2d$v=19$m=100,t=3,p=5$YSBzYWx0IG9mIDE3IGJ5dGU$ZsHrGZ7IIB3epvxaMYwZ6DX4SNk",
        ),
        (
            of(i, 77, 1, 3).tag_len(33).unwrap().threads(3),
            salt,
            "$argon2i$v=19$m=77,t=1,p=3$YSBzYWx0IG9mIDE3IGJ5dGU$\
             Om4zsbEA+C4i3QNhnmD34mmNJCaA/XHAoxaS0yfxoUlL",
        ),
    ] {
        let record = hasher.hash_password_with_salt(b"password", salt).unwrap();
        assert_eq!(record.as_str(), wanted);
        assert_eq!(hasher.verify_password(b"password", &record), Ok(()));
    }
}

#[test]
fn parts_are_in_their_places() {
    let record: Record = "$argon2d$v=16$m=2048,t=7,p=5$c29tZXNhbHQ$nf65EA".parse().unwrap();
    let wanted = Parts {
        scheme: Scheme::Argon2d,
        version: 16,
        memory: 2048,
        passes: 7,
        lanes: 5,
        salt_len: 8,
        tag_len: 4,
    };
    assert_eq!(record.parts(), Ok(wanted));
    let record: Record = "$scrypt$ln=4,r=3,p=2$YmVucyBzYWx0$nf65EA".parse().unwrap();
    let found = record.parts().unwrap();
    assert_eq!((found.scheme, found.version), (Scheme::Scrypt, 0));
    assert_eq!((found.memory, found.passes, found.lanes), (4, 3, 2));
}

#[test]
fn texts_are_refused_by_their_first_fault() {
    let good = RECORDS[0];
    for (text, fault) in [
        (String::new(), Error::Shape),
        (format!("{good}\0"), Error::Shape),
        (format!(" {good}"), Error::Shape),
        (format!("{good}\n"), Error::Tag),
        (good.replace("2id", "2x"), Error::Scheme),
        (good.replace("m=256", "m=7"), Error::Range),
        (good.repeat(9), Error::TooLong),
    ] {
        assert_eq!(text.parse::<Record>(), Err(fault), "{text}");
        assert_eq!(Record::try_from(text.as_str()), Err(fault), "{text}");
    }
}

/// One of each call: the library's own tests have the others.
#[test]
fn bad_numbers_and_sizes_are_refused() {
    let mut out = [0x5a; 32];
    let argon2 = Argon2 { memory: 64, passes: 1, lanes: 0, ..Argon2::default() };
    assert_eq!(argon2.hash_password_into(b"x", b"somesalt", &mut out), Err(Error::Lanes));
    let argon2 = Argon2 { lanes: 1, ..argon2 };
    assert_eq!(argon2.hash_password_into(b"x", b"somesalt", &mut out[..3]), Err(Error::TagSize));
    assert_eq!(argon2.hash_password_into(b"x", b"somesalt", &mut []), Err(Error::TagSize));
    let scrypt = Scrypt { log2_n: 4, r: 0, p: 1 };
    assert_eq!(scrypt.hash_password_into(b"x", b"", &mut out), Err(Error::BlockSize));
    let scrypt = Scrypt { r: 1, ..scrypt };
    assert_eq!(scrypt.hash_password_into(b"x", b"", &mut []), Err(Error::KeySize));
    assert_eq!(out, [0x5a; 32]);
    let hasher = Hasher::new(Costs::argon2id(8, 1, 1)).unwrap();
    assert_eq!(hasher.hash_password_with_salt(b"x", b"short"), Err(Error::Salt));
    assert_eq!(hasher.hash_password_with_salt(b"x", b""), Err(Error::Shape));
}

#[test]
fn errors_have_the_numbers_and_words_of_the_library() {
    for (fault, number, words) in [
        (Error::Shape, 1, "lacks a field"),
        (Error::Range, 5, "outside its range"),
        (Error::Memory, 8, "out of memory"),
        (Error::Mismatch, 10, "another password"),
        (Error::KeySize, 22, "the key size"),
        (Error::NoRandom, 26, "no random bytes"),
        (Error::Other(99), 99, "no such fault"),
    ] {
        assert_eq!(fault.number(), number);
        let said: Box<dyn std::error::Error> = Box::new(fault);
        assert!(said.to_string().contains(words), "{said}");
    }
    assert_eq!(rigzumal::library_version(), env!("CARGO_PKG_VERSION"));
}
