//! `probe_digest` against the second program's hashes.

use compare::library;
use second::{cases::lent::Lent, random::Random, sha2};

const IDS: [u64; 3] = [2, 3, 4];
const UNKNOWN: [u64; 5] = [0, 1, 5, 65538, u64::MAX];

/// What the call leaves in an output that held 0x77 everywhere.
fn digest(id: u64, message: &[u8], out_length: usize) -> (u64, Vec<u8>) {
    let mut message = Lent::new(message);
    let mut out = Lent::new(&vec![0x77; out_length]);
    let length = library::digest(id, message.bytes(), out.bytes());
    (length, out.back().0)
}

fn agree(id: u64, message: &[u8]) {
    let expected = sha2::digest(id, message);
    let (length, out) = digest(id, message, 64);
    let case = format!("hash {id}, {} bytes", message.len());
    assert_eq!(length, expected.len() as u64, "{case}");
    assert_eq!(out[..expected.len()], expected, "{case}");
    assert!(
        out[expected.len()..].iter().all(|&byte| byte == 0),
        "{case}"
    );
}

#[test]
fn every_length_up_to_1000() {
    let mut random = Random::new(1);
    for length in 0..=1000 {
        let message = random.bytes(length);
        for id in IDS {
            agree(id, &message);
        }
    }
}

#[test]
fn random_and_long_messages() {
    let mut random = Random::new(2);
    for _ in 0..2000 {
        let length = random.below(1001) as usize;
        let message = random.bytes(length);
        agree(random.pick(&IDS), &message);
    }
    for length in [4095, 4096, 65_537, 1_000_000, (1 << 22) + 111] {
        let message = random.bytes(length);
        for id in IDS {
            agree(id, &message);
        }
    }
}

#[test]
fn an_unknown_id_has_an_empty_digest() {
    for id in UNKNOWN {
        agree(id, b"abc");
        assert_eq!(digest(id, b"abc", 64), (0, vec![0; 64]));
    }
}

#[test]
fn an_output_of_another_length_is_not_written() {
    for out_length in [0, 1, 32, 63, 65, 128] {
        for id in IDS {
            assert_eq!(digest(id, b"abc", out_length).1, vec![0x77; out_length]);
        }
    }
}
