//! The effects of a hasher's settings, and its Debug.

use rigzumal::{verify, Algorithm, Argon2, Costs, Error, Hasher, Record, Version};
use std::collections::HashSet;
use std::process::Command;
use std::{env, fs, thread};

/// A hasher of costs that there are.
fn of(costs: Costs) -> Hasher {
    Hasher::new(costs).unwrap()
}

fn least() -> Hasher {
    of(Costs::argon2id(8, 1, 1))
}

#[test]
fn salts_are_drawn() {
    let salts: HashSet<String> = (0..50)
        .map(|_| least().hash_password(b"x").unwrap().as_str().rsplit('$').nth(1).unwrap().into())
        .collect();
    assert_eq!(salts.len(), 50);
}

#[test]
fn sizes_are_those_asked_for() {
    for salt in [8, 9, 16, 47, 48] {
        for tag in [4, 5, 32, 63, 64] {
            for hasher in [least(), least().secret(b"pepper").unwrap(), of(scrypt(1, 1, 1))] {
                let hasher = hasher.salt_len(salt as usize).unwrap();
                let hasher = hasher.tag_len(tag as usize).unwrap();
                let parts = hasher.hash_password(b"x").unwrap().parts().unwrap();
                assert_eq!((parts.salt_len, parts.tag_len), (salt, tag));
            }
        }
    }
}

/// RFC 9106, section 4, the second recommendation.
#[test]
fn numbers_by_default() {
    let costs = "$argon2id$v=19$m=65536,t=3,p=4";
    assert_eq!(Costs::default().to_string(), costs);
    let parts = Hasher::default().hash_password(b"x").unwrap().parts().unwrap();
    assert_eq!((parts.memory, parts.passes, parts.lanes), (65536, 3, 4));
    assert_eq!((parts.salt_len, parts.tag_len), (16, 32));
    assert_eq!(Algorithm::default(), Algorithm::Argon2id);
    assert_eq!(Version::default(), Version::V0x13);
    assert_eq!(
        format!("{:?}", Hasher::default()),
        "Hasher { costs: Argon2 { algorithm: Argon2id, memory: 65536, passes: 3, lanes: 4 }, \
         salt_len: 16, tag_len: 32, has_secret: false, threads: 0 }"
    );
    let raw = Argon2::default();
    assert_eq!((raw.algorithm, raw.version), (Algorithm::Argon2id, Version::V0x13));
    assert_eq!((raw.memory, raw.passes, raw.lanes, raw.threads), (65536, 3, 4, 1));
    assert!(raw.secret.is_empty() && raw.associated.is_empty());
}

fn scrypt(log2_n: u32, r: u32, p: u32) -> Costs {
    Costs::Scrypt { log2_n, r, p }
}

/// The library's own tests have each number, lower and higher.
#[test]
fn what_is_of_other_costs_is_to_be_rehashed() {
    let argon2 =
        |algorithm, memory, passes, lanes| of(Costs::Argon2 { algorithm, memory, passes, lanes });
    let hashers = [
        argon2(Algorithm::Argon2id, 64, 2, 3),
        argon2(Algorithm::Argon2id, 64, 3, 2),
        argon2(Algorithm::Argon2i, 64, 2, 3),
        argon2(Algorithm::Argon2id, 64, 2, 3).salt_len(17).unwrap(),
        argon2(Algorithm::Argon2id, 64, 2, 3).tag_len(17).unwrap(),
        of(scrypt(4, 2, 3)),
        of(scrypt(4, 3, 2)),
        of(scrypt(4, 3, 2)).salt_len(1).unwrap(),
    ];
    for (i, made_by) in hashers.iter().enumerate() {
        let record = made_by.hash_password(b"x").unwrap();
        assert_eq!(verify(b"x", &record), Ok(()));
        for (j, hasher) in hashers.iter().enumerate() {
            assert_eq!(hasher.needs_rehash(&record), i != j, "{hasher:?} of {record:?}");
        }
    }
    let made = hashers[0].hash_password(b"x").unwrap();
    let old: Record = made.as_str().replace("v=19", "v=16").parse().unwrap();
    assert!(hashers[0].needs_rehash(&old));
}

#[test]
fn a_secret_counts() {
    let hasher = least().secret(b"pepper").unwrap();
    let record = hasher.hash_password(b"password").unwrap();
    assert_eq!(hasher.verify_password(b"password", &record), Ok(()));
    assert_eq!(hasher.verify_password(b"Password", &record), Err(Error::Mismatch));
    for other in [Ok(least()), least().secret(b""), least().secret(b"Pepper")] {
        assert_eq!(other.unwrap().verify_password(b"password", &record), Err(Error::Mismatch));
    }
    assert_eq!(verify(b"password", &record), Err(Error::Mismatch));
    let record = least().hash_password(b"password").unwrap();
    assert_eq!(least().secret(b"").unwrap().verify_password(b"password", &record), Ok(()));
    let scrypt = of(scrypt(1, 1, 1));
    let record = scrypt.hash_password(b"x").unwrap();
    assert_eq!(hasher.verify_password(b"x", &record), Err(Error::Scheme));
    assert!(matches!(scrypt.secret(b"x"), Err(Error::Scheme)));
}

/// So no right login fails at its rehash: a hasher makes records, and wants no rehash of them.
#[test]
fn a_hasher_makes_records_or_is_refused() {
    let fault_of = |made: Result<Hasher, Error>| made.err();
    for (costs, fault) in [
        (Costs::argon2id(8, 1, 1), None),
        (Costs::argon2id(7, 1, 1), Some(Error::Range)),
        (Costs::argon2id(2040, 1, 255), None),
        (Costs::argon2id(2048, 1, 256), Some(Error::Range)),
        (Costs::argon2id(0, 1, 0), Some(Error::Range)),
        (Costs::argon2id(8, 0, 1), Some(Error::Range)),
        (Costs::argon2id(2_097_153, 1, 1), Some(Error::Range)),
        (scrypt(0, 8, 1), Some(Error::Range)),
        (scrypt(24, 8, 1), Some(Error::Range)),
        (scrypt(16, 1, 1), Some(Error::Range)),
        (scrypt(4, 1, 0), Some(Error::Range)),
    ] {
        let made = Hasher::new(costs);
        assert_eq!(made.as_ref().err(), fault.as_ref(), "{costs}");
        if let Ok(hasher) = made {
            let record = hasher.hash_password(b"x").unwrap();
            assert!(!hasher.needs_rehash(&record) && verify(b"x", &record).is_ok(), "{costs}");
        }
    }
    for bytes in [0, 3, 7, 8, 48, 49, 64, 65, 100, 1 << 40, usize::MAX] {
        let salt = (!(8..=48).contains(&bytes)).then_some(Error::Salt);
        assert_eq!(fault_of(least().salt_len(bytes)), salt, "{bytes}");
        let salt = (!(1..=48).contains(&bytes)).then_some(Error::Salt);
        assert_eq!(fault_of(of(scrypt(1, 1, 1)).salt_len(bytes)), salt, "{bytes}");
        let tag = (!(4..=64).contains(&bytes)).then_some(Error::Tag);
        assert_eq!(fault_of(least().tag_len(bytes)), tag, "{bytes}");
    }
}

/// Each byte counts, and so do both lengths.
#[test]
fn records_are_equal_byte_by_byte() {
    let text = "$argon2id$v=19$m=8,t=1,p=1$c29tZXNhbHQ$nf65EA";
    let record: Record = text.parse().unwrap();
    assert!(record == text.parse().unwrap() && record == record.clone());
    for at in 0..text.len() {
        for letter in ["A", "g", "1", "2", "i", "d"] {
            let mut other = text.to_string();
            other.replace_range(at..=at, letter);
            if let Ok(other) = other.parse::<Record>() {
                assert_eq!(record == other, text == other.as_str(), "{other}");
            }
        }
    }
    let longer: Record = format!("{text}AA").parse().unwrap();
    assert!(record != longer);
    assert!(longer != record);
}

#[test]
fn nothing_secret_is_shown() {
    let hasher = least().secret(b"pepper").unwrap();
    let record = hasher.hash_password(b"hunter2").unwrap();
    let (salt, tag) = {
        let mut fields = record.as_str().rsplit('$');
        let tag = fields.next().unwrap();
        (fields.next().unwrap(), tag)
    };
    for said in [format!("{hasher:?}"), format!("{record:?}"), format!("{:?}", Error::Mismatch)] {
        for secret in ["pepper", "hunter2", salt, tag, "112, 101"] {
            assert!(!said.contains(secret), "{said}");
        }
    }
    assert_eq!(format!("{record:?}"), "Record($argon2id$v=19$m=8,t=1,p=1$..)");
}

/// The number of threads of this process for most of the time of some work: one that was joined
/// may be listed for a moment more.
fn usual_threads_in(work: impl FnOnce() + Send) -> usize {
    let mut times = [0; 64];
    thread::scope(|scope| {
        let working = scope.spawn(work);
        while !working.is_finished() {
            times[fs::read_dir("/proc/self/task").unwrap().count()] += 1;
        }
    });
    (0..times.len()).max_by_key(|count| times[*count]).unwrap()
}

fn is_for_threads<T: Send + Sync>() {}

#[test]
fn what_is_shared_may_be() {
    is_for_threads::<Hasher>();
    is_for_threads::<Record>();
    is_for_threads::<Costs>();
    is_for_threads::<Error>();
    is_for_threads::<Argon2<'_>>();
    is_for_threads::<rigzumal::Scrypt>();
}

const CHILD: &str = "RIGZUMAL_TEST_CHILD";

/// Whether this is a test's own process: one is run if not, since what is counted or kept there is
/// the process's.
fn is_child(test: &str) -> bool {
    if env::var_os(CHILD).is_some() {
        return true;
    }
    let words = ["--exact", test, "--nocapture", "--test-threads", "1"];
    let mut child = Command::new(env::current_exe().unwrap());
    let done = child.args(words).env(CHILD, "1").env_remove("RIGZUMAL_KEEP").output().unwrap();
    let said = String::from_utf8_lossy(&done.stdout);
    assert!(done.status.success() && said.contains("1 passed"), "{said}");
    false
}

#[test]
fn threads_are_those_asked_for() {
    if !is_child("threads_are_those_asked_for") {
        return;
    }
    let record = of(Costs::argon2id(65536, 2, 4)).hash_password(b"x").unwrap();
    let with = |threads| {
        let hasher = of(Costs::argon2id(65536, 2, 4)).threads(threads);
        let (one, other) = (&hasher, &record);
        [
            usual_threads_in(|| drop(one.hash_password(b"x").unwrap())),
            usual_threads_in(|| one.verify_password(b"x", other).unwrap()),
        ]
    };
    let [alone, _] = with(1);
    if thread::available_parallelism().unwrap().get() > 1 {
        assert!(with(4).iter().all(|count| *count > alone));
    }
    assert_eq!(with(0), [alone; 2]);
    assert_eq!(usual_threads_in(|| verify(b"x", &record).unwrap()), alone);
}

#[test]
fn what_is_kept_is_bounded() {
    if !is_child("what_is_kept_is_bounded") {
        return;
    }
    assert_eq!(rigzumal::keep(0), 1 << 26);
    least().hash_password(b"x").unwrap();
    of(Costs::argon2id(1024, 1, 1)).hash_password(b"x").unwrap();
    assert_eq!((rigzumal::trim(), rigzumal::keep(1 << 21)), (0, 0));
    of(Costs::argon2id(4096, 1, 1)).hash_password(b"x").unwrap();
    assert_eq!((rigzumal::trim(), rigzumal::keep(0)), (1 << 21, 1 << 21));
}
