//! Prints the digests of the published messages and of messages at each padding border,
//! line for line what the Rattle program `vectors` prints: that one feeds the messages
//! named `..-by-N` in pieces of N bytes, this one hashes them whole.

use second::sha2;

const MESSAGE_448: &[u8] = b"abcdbcdecdefdefgefghfghighijhijkijkljklmklmnlmnomnopnopq";
const MESSAGE_896: &[u8] = b"abcdefghbcdefghicdefghijdefghijkefghijklfghijklmghijklmn\
    hijklmnoijklmnopjklmnopqklmnopqrlmnopqrsmnopqrstnopqrstu";
const BORDERS: [usize; 14] = [
    55, 56, 57, 63, 64, 65, 111, 112, 113, 119, 120, 127, 128, 129,
];

fn main() {
    show("empty", b"");
    show_by("abc", b"abc", &[1]);
    show_by("448-bit", MESSAGE_448, &[55]);
    show_by("896-bit", MESSAGE_896, &[1, 63, 64, 65]);
    show_by("million-a", &[b'a'; 1_000_000], &[1, 127, 128, 1000]);
    for length in BORDERS {
        let message: Vec<u8> = (0..length).map(|i| (i % 251) as u8).collect();
        show(&format!("border-{length}"), &message);
    }
}

fn show_by(name: &str, message: &[u8], sizes: &[usize]) {
    show(name, message);
    for size in sizes {
        show(&format!("{name}-by-{size}"), message);
    }
}

fn show(name: &str, message: &[u8]) {
    for (id, hash) in [(2, "sha256"), (3, "sha384"), (4, "sha512")] {
        print!("{hash} {name} ");
        for byte in sha2::digest(id, message) {
            print!("{byte:02x}");
        }
        println!();
    }
}
