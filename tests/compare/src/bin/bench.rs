//! Speed of the proved library against plain Rust of the same method, and OpenSSL where it is; or, with
//! the feature `old`, against an earlier build whose calls have the same parameters.

use compare::timing::{race, spent, title};
use compare::{library, old_calls, openssl, Calls};
use second::cases::{lent::Mapping, run_lines::File};
use second::{machine, sbs, sha2};
use std::cell::RefCell;
use std::hint::black_box;

const MIB_64: usize = 64 << 20;
const MODE: u64 = 64;

fn main() {
    title();
    hashes();
    streams();
    commands();
    loads();
}

/// A job of the library against another way to do it, or against the old library where there is one.
fn row(job: &str, by: impl FnMut(&Calls), other_way: &str, other: impl FnMut()) {
    let by = RefCell::new(by);
    let this = || by.borrow_mut()(&library::CALLS);
    match old_calls() {
        None => race(&format!("{job}: {other_way}"), this, other),
        Some(old) => race(job, this, || by.borrow_mut()(&old)),
    }
}

fn some_bytes(length: usize) -> Vec<u8> {
    (0..length).map(|i| (i % 251) as u8).collect()
}

fn hashes() {
    let data = some_bytes(MIB_64);
    let digest = |id, calls: &Calls| {
        let mut out = [0; 64];
        black_box((calls.digest)(id, black_box(&data), &mut out));
        black_box(out);
    };
    for (id, name) in [(4, "SHA2-512"), (2, "SHA2-256")] {
        row(
            &format!("{name} of 64 MiB"),
            |calls| digest(id, calls),
            "plain Rust",
            || drop(black_box(sha2::digest(id, black_box(&data)))),
        );
    }
    match openssl::sha512() {
        _ if old_calls().is_some() => (),
        None => println!("SHA2-512 of 64 MiB: no OpenSSL here"),
        Some(sha512) => race(
            "SHA2-512 of 64 MiB: OpenSSL",
            || digest(4, &library::CALLS),
            || {
                black_box(sha512(black_box(&data)));
            },
        ),
    }
}

const IDS: [u64; 4] = [4, 0, 0, 0];
const BLOCK: usize = 64 << 10;
const DATA: usize = BLOCK - 64;
const SIGNATURE: u64 = 256;
const HEADER: usize = 100;
const FIRST: usize = HEADER + SIGNATURE as usize;

/// The image of a file: SHA2-512, blocks of 64 KiB.
fn packed(file: &[u8]) -> Vec<u8> {
    let mut image = vec![0; FIRST + file.len().div_ceil(DATA) * BLOCK];
    assert_eq!(sbs::pack(file, IDS, BLOCK as u64, SIGNATURE, &mut image), 0);
    image
}

/// Plain Rust hashing of an image's blocks.
fn hash_blocks(image: &[u8]) {
    for block in image[FIRST..].chunks_exact(BLOCK) {
        black_box(sha2::sha512(block));
    }
}

fn streams() {
    let file = some_bytes(MIB_64 / BLOCK * DATA);
    let image = packed(&file);
    let (mut output, mut answer) = (vec![1; file.len()], [0; 40]);
    row(
        "open of 64 MiB",
        |calls| {
            let header = &image[..HEADER];
            let code = (calls.open)(&image, header, SIGNATURE, &mut output, &mut answer);
            assert_eq!(code, 0);
        },
        "plain Rust hashing",
        || hash_blocks(&image),
    );
    let mut output = vec![1; image.len()];
    row(
        "pack of 64 MiB",
        |calls| {
            let code = (calls.pack)(&file, IDS, BLOCK as u64, SIGNATURE, &mut output);
            assert_eq!(code, 0);
        },
        "plain Rust hashing",
        || hash_blocks(&image),
    );
}

/// Regions of one length, a gap of the same length behind each.
fn regions(count: u64, length: u64) -> Vec<u8> {
    let pairs = (0..count).flat_map(|i| [2 * i * length, length]);
    pairs.flat_map(u64::to_le_bytes).collect()
}

fn commands() {
    let mut memory = Mapping::new(1 << 30);
    memory.fill(1);
    let mut answer = [0; 40];
    let mut run = |calls: &Calls, file: &[u8], map: &[u8], memory: &mut [u8]| {
        let code = (calls.run)(black_box(file), map, &[], MODE, memory, &mut answer);
        assert_eq!(code, 0);
    };
    let bytes = some_bytes(MIB_64);
    let file = File::new().write(0, &bytes).entry(0).0;
    let (part, mut copy) = (regions(1, MIB_64 as u64), vec![1; MIB_64]);
    row(
        "write of 64 MiB",
        |calls| run(calls, &file, &part, &mut memory[..MIB_64]),
        "copy_from_slice",
        || black_box(&mut copy).copy_from_slice(black_box(&bytes)),
    );
    let file = File::new().fill(0, 1 << 30, 7).entry(0).0;
    let whole = regions(1, 1 << 30);
    let mut other = Mapping::new(1 << 30);
    row(
        "fill of 1 GiB",
        |calls| run(calls, &file, &whole, &mut memory),
        "fill",
        || black_box(&mut other).fill(7),
    );
    drop(other);
    let mut file = Mapping::new(1 << 30);
    let length = file.len() as u64 - 8 - 16 - 24;
    let head = File::new().says(60_000, length, &[]).0;
    file[..head.len()].copy_from_slice(&head);
    let tail = &File::new().entry(0).0[8..];
    let end = file.len() - tail.len();
    file[end..].copy_from_slice(tail);
    let mut skips = |calls: &Calls, times| {
        for _ in 0..times {
            run(calls, &file, &part, &mut memory[..MIB_64]);
        }
    };
    if old_calls().is_some() {
        let many = |calls: &Calls| skips(calls, 100_000);
        row("100,000 skips of 1 GiB", many, "", || ());
    } else {
        let took = spent(&mut || skips(&library::CALLS, 1));
        println!("{:<44} {took:>7.3} ms", "skip of 1 GiB");
    }
    drop(file);
    let (map, room) = (regions(16, 1 << 10), 16 << 10);
    let file = (0..1_000_000u64).fold(File::new(), |file, i| {
        let address = 2048 * (i % 16) + i % 1000;
        file.write(address, &[i as u8; 16])
    });
    let file = file.entry(0).0;
    let mut answer = [0; 40];
    let mut copy = vec![1; room];
    row(
        "a million writes of 16",
        |calls| run(calls, &file, &map, &mut memory[..room]),
        "second program",
        || {
            let code = machine::run(black_box(&file), &map, &[], MODE, &mut copy, &mut answer);
            assert_eq!(code, 0);
        },
    );
}

fn loads() {
    // the write takes all of the blocks but magic, two headers, address and entry
    let length = MIB_64 / BLOCK * DATA - 8 - 24 - 24;
    let image = packed(&File::new().write(0, &some_bytes(length)).entry(0).0);
    let map = regions(1, length as u64);
    let (mut memory, mut answer) = (vec![1; length], [0; 40]);
    let mut load = |calls: &Calls| {
        let code = (calls.load)(
            black_box(&image),
            &image[..HEADER],
            &map,
            &[],
            MODE,
            SIGNATURE,
            &mut memory,
            &mut answer,
        );
        assert_eq!(code, 0);
    };
    let job = "load of 64 MiB";
    row(job, &mut load, "plain Rust hashing", || hash_blocks(&image));
    if old_calls().is_some() {
        return;
    }
    race(
        "load of 64 MiB: its own hashing",
        || load(&library::CALLS),
        || {
            let mut out = [0; 64];
            for block in image[FIRST..].chunks_exact(BLOCK) {
                black_box(library::digest(4, block, &mut out));
            }
        },
    );
}
