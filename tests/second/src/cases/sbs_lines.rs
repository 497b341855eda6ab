//! Open, pack and signature on both sides of each line that FORMAT draws, for either program.

use super::lent::Mapping;
use super::sbs::{Open, Pack, Signature};
use crate::sbs::{self, field};

const ONE: [u64; 4] = [2, 0, 0, 0];
const WIDE: u64 = 1 << 32;

/// A stream that opens, to be changed in one place: SHA2-256, block data of 64 bytes.
#[derive(Clone)]
struct Sound {
    image: Vec<u8>,
    approved: usize,
    signature_length: u64,
    output: usize,
    answer: usize,
}

fn sound(file_length: usize) -> Sound {
    let (_, image) = packed(sbs::pack, file_length, ONE, 96, 8);
    Sound {
        image,
        approved: 68,
        signature_length: 8,
        output: file_length,
        answer: 40,
    }
}

impl Sound {
    fn with(&self, f: field::Field, value: u64) -> Sound {
        let mut changed = self.clone();
        field::set(&mut changed.image, f, value);
        changed
    }

    fn of(&self, image: Vec<u8>) -> Sound {
        Sound {
            image,
            ..self.clone()
        }
    }

    /// The code and the record, or the code alone where the record was not to be written.
    fn answer(&self, open: Open) -> Vec<u64> {
        let mut output = vec![0x77; self.output];
        let mut answer = vec![0x77; self.answer];
        let header = self.image[..self.approved].to_vec();
        let expected = self.signature_length;
        let code = open(&self.image, &header, expected, &mut output, &mut answer);
        if answer.iter().all(|&byte| byte == 0x77) {
            return vec![code];
        }
        let numbers: Vec<u64> = answer.chunks_exact(8).map(crate::answer::number).collect();
        assert_eq!(numbers[0], code);
        assert!(output[numbers[3] as usize..].iter().all(|&b| b == 0x77));
        numbers
    }

    fn refused(&self, open: Open, code: u64) {
        assert_eq!(self.answer(open), [code, 0, 0, 0, 0]);
    }

    fn opens(&self, open: Open) {
        assert_eq!(self.answer(open), [0, 0, 0, self.output as u64, 0]);
    }
}

fn packed(
    pack: Pack,
    file_length: usize,
    ids: [u64; 4],
    size: u64,
    sig: u64,
) -> (Vec<u8>, Vec<u8>) {
    let file: Vec<u8> = (0..file_length).map(|i| i as u8 | 1).collect();
    let sizes = sbs::Packing::judge(file_length, ids, size, sig).unwrap();
    let mut image = vec![0x77; sizes.length as usize];
    assert_eq!(pack(&file, ids, size, sig, &mut image), 0);
    (file, image)
}

pub fn open_lines(open: Open) {
    let good = sound(150);
    good.opens(open);
    for answer in [0, 39, 41, 48, 80] {
        let other = Sound {
            answer,
            ..good.clone()
        };
        assert_eq!(other.answer(open), [1]);
    }
    for signature_length in [0, 4097, WIDE + 8, u64::MAX] {
        let other = Sound {
            signature_length,
            ..good.clone()
        };
        other.refused(open, 1);
    }
    for signature_length in [1, 7, 9, 4096] {
        let other = Sound {
            signature_length,
            ..good.clone()
        };
        other.refused(open, 10);
        good.with(field::SIGNATURE, signature_length)
            .refused(open, 10);
    }
    for (approved, code) in [(0, 4), (35, 4), (36, 8), (67, 8), (69, 8), (76, 8)] {
        let other = Sound {
            approved,
            ..good.clone()
        };
        other.refused(open, code);
    }
    for output in [0, 149, 151] {
        let other = Sound {
            output,
            ..good.clone()
        };
        other.refused(open, 29);
    }
    good.with(field::MAGIC, sbs::MAGIC + 1).refused(open, 5);
    for id in [0, 1, 5, 6, 60000, 65535] {
        good.with(field::IDS[0], id).refused(open, 6);
    }
    good.with(field::IDS[3], 2).refused(open, 7);
    good.with(field::SUM, 64).refused(open, 7);
    good.with(field::HEADER_SIZE, 69).refused(open, 8);
    for scheme in [0, 2, 257] {
        good.with(field::SCHEME, scheme).refused(open, 9);
    }
    good.with(field::COUNT, 0).refused(open, 11);
    good.with(field::COUNT, 2).refused(open, 12);
    good.with(field::COUNT, u64::MAX).refused(open, 12);
    for (size, code) in [
        (0, 11),
        (32, 11),
        (33, 11),
        (96 + 64, 12),
        (1 << 20, 12),
        ((1 << 20) + 1, 11),
    ] {
        good.with(field::BLOCK_SIZE, size).refused(open, code);
    }
    good.with(field::PADDING, 64).refused(open, 11);
    good.with(field::PADDING, 63).refused(open, 29);
    good.with(field::RESERVED, 0xffff).opens(open);
    let (_, image) = packed(sbs::pack, 129, ONE, 96, 8);
    assert_eq!(field::get(&image, field::PADDING), 63);
    Sound {
        output: 129,
        ..good.of(image)
    }
    .opens(open);
    for size in [sbs::LARGEST_BLOCK, 33] {
        let (_, image) = packed(sbs::pack, 3, ONE, size, 8);
        Sound {
            output: 3,
            ..good.of(image)
        }
        .opens(open);
    }
    open_blocks(open);
    open_lengths(open);
}

/// 13 before 14 before 15, block after block; what is proved before stays.
fn open_blocks(open: Open) {
    let good = sound(150);
    let (first, sum) = (68 + 8, 32);
    let change = |at: usize, hashed: bool| {
        let mut image = good.image.clone();
        image[at] ^= 1;
        if hashed {
            let (header, blocks) = image.split_at_mut(first);
            sbs::chain(header, blocks, ONE, 96);
        }
        good.of(image).answer(open)
    };
    assert_eq!(change(first, false), [13, 1, 0, 0, 0]);
    assert_eq!(change(first + 95, false), [13, 1, 0, 0, 0]);
    assert_eq!(change(first + 96, false), [13, 2, 0, 22, 0]);
    assert_eq!(change(first + 2 * 96, false), [13, 3, 0, 22 + 64, 0]);
    assert_eq!(change(first + sum, true), [14, 1, 0, 0, 0]);
    assert_eq!(change(first + sum + 41, true), [14, 1, 0, 0, 0]);
    assert_eq!(change(first + sum + 42, true), [0, 0, 0, 150, 0]);
    for at in [0, sum - 1] {
        assert_eq!(change(first + 2 * 96 + at, true), [15, 3, 0, 22 + 64, 0]);
    }
    assert_eq!(change(first + sum, false), [13, 1, 0, 0, 0]);
    // one block that breaks 14 and 15, and not hashed again 13 as well
    let one = sound(61);
    let mut image = one.image.clone();
    (image[first], image[first + sum]) = (1, 1);
    assert_eq!(one.of(image.clone()).answer(open), [13, 1, 0, 0, 0]);
    let (header, blocks) = image.split_at_mut(first);
    sbs::chain(header, blocks, ONE, 96);
    assert_eq!(one.of(image).answer(open), [14, 1, 0, 0, 0]);
}

/// The header of an image of the largest length, and its signature length.
pub(super) fn longest() -> (Vec<u8>, u64) {
    let mut header = sound(64).image[..68].to_vec();
    field::set(&mut header, field::BLOCK_SIZE, 4096);
    field::set(&mut header, field::SIGNATURE, 4028);
    field::set(&mut header, field::COUNT, (1 << 18) - 1);
    (header, 4028)
}

/// Images around the largest length, which nobody has filled.
fn open_lengths(open: Open) {
    let (header, signature) = longest();
    let mut answer = [0; 40];
    for (length, output, expected) in [
        ((1 << 30) + 1, 0, [1, 0]),
        (1 << 30, 0, [29, 0]),
        (1 << 30, ((1 << 18) - 1) * 4064, [13, 1]),
        ((1 << 30) - 1, 0, [12, 0]),
    ] {
        let mut image = Mapping::new(length);
        image[..68].copy_from_slice(&header);
        let mut output = Mapping::new(output + 1);
        let end = output.len() - 1;
        let code = open(&image, &header, signature, &mut output[..end], &mut answer);
        let place = crate::answer::number(&answer[8..16]);
        assert_eq!([code, place], expected, "image of {length} bytes");
    }
}

pub fn signature_lines(signature: Signature) {
    let good = sound(150);
    let ask = |s: &Sound, expected| signature(&s.image, &s.image[..s.approved], expected);
    assert_eq!(ask(&good, 8), (68, 8));
    for expected in [0, 7, 9, 4096, 4097, WIDE + 8] {
        assert_eq!(ask(&good, expected), (0, 0));
    }
    let mut bad_block = good.clone();
    bad_block.image[100] ^= 1;
    assert_eq!(ask(&bad_block, 8), (68, 8));
    for (f, value) in [(field::MAGIC, 0), (field::COUNT, 2), (field::PADDING, 64)] {
        assert_eq!(ask(&good.with(f, value), 8), (0, 0));
    }
    let four = packed(sbs::pack, 9, [4; 4], 257, 4096).1;
    assert_eq!(signature(&four, &four[..292], 4096), (292, 4096));
    assert_eq!(signature(&[], &[], 8), (0, 0));
}

pub fn pack_lines(pack: Pack) {
    for (length, count, padding) in [(61, 1, 3), (64, 1, 0), (65, 2, 63)] {
        let (file, image) = packed(pack, length, ONE, 96, 8);
        assert_eq!(field::get(&image, field::HEADER_SIZE), 68);
        assert_eq!(field::get(&image, field::COUNT), count);
        assert_eq!(field::get(&image, field::PADDING), padding);
        assert_eq!(image[68..76], [0; 8]);
        assert!(image.ends_with(&file[length.saturating_sub(64)..]));
    }
    let (_, four) = packed(pack, 1, [4, 4, 4, 4], 257, 1);
    assert_eq!(field::get(&four, field::HEADER_SIZE), 292);
    let (_, gaps) = packed(pack, 9, [3, 0, 2, 0], 81, 1);
    assert_eq!(field::IDS.map(|f| field::get(&gaps, f)), [3, 0, 2, 0]);

    let code = |file: &[u8], ids, size, sig, room: usize| {
        let mut output = vec![0x77; room];
        let code = pack(file, ids, size, sig, &mut output);
        assert_eq!(code == 0, output.iter().any(|&byte| byte != 0x77));
        code
    };
    let room = 68 + 8 + 96;
    assert_eq!(code(&[1; 61], ONE, 96, 8, room), 0);
    assert_eq!(code(&[1; 61], ONE, 96, 8, room - 1), 29);
    assert_eq!(code(&[1; 61], ONE, 96, 8, room + 1), 29);
    for id in [1, 5, 60000, 65538, WIDE + 2] {
        assert_eq!(code(&[1; 61], [id, 0, 0, 0], 96, 8, room), 6);
        assert_eq!(code(&[1; 61], [2, 0, 0, id], 96, 8, room), 6);
    }
    assert_eq!(code(&[], [0, 2, 0, 0], 0, 0, 0), 6);
    for size in [0, 32, (1 << 20) + 1, WIDE + 96, u64::MAX] {
        assert_eq!(code(&[], ONE, size, 0, room), 11);
    }
    assert_eq!(code(&[], ONE, 96, 0, room), 28);
    for sig in [0, 4097, WIDE + 8] {
        assert_eq!(code(&[1; 61], ONE, 96, sig, room), 1);
    }
    assert_eq!(code(&[1; 61], ONE, 96, 4096, 68 + 4096 + 96), 0);
    assert_eq!(code(&[1; 3], ONE, 33, 1, 69 + 3 * 33), 0);
    assert_eq!(code(&[1; 3], ONE, 1 << 20, 1, 69 + (1 << 20)), 0);

    // the image would have 2^30 bytes, and one block more
    let file = Mapping::new(((1 << 18) - 1) * 4064 + 1);
    let exact = file.len() - 1;
    assert_eq!(code(&file[..exact], ONE, 4096, 4028, 0), 29);
    assert_eq!(code(&file[..exact], ONE, 4096, 4029, 0), 1);
    assert_eq!(code(&file, ONE, 4096, 4028, 0), 1);
    // the image's length would wrap 32 bits
    assert_eq!(code(&Mapping::new(1 << 27), ONE, 33, 8, 0), 1);
    assert_eq!(code(&Mapping::new((1 << 30) + 1), ONE, 96, 8, 0), 1);
}

#[cfg(test)]
mod tests {
    use super::*;

    #[test]
    fn open_on_both_sides() {
        open_lines(sbs::open);
    }

    #[test]
    fn signature_on_both_sides() {
        signature_lines(sbs::signature);
    }

    #[test]
    fn pack_on_both_sides() {
        pack_lines(sbs::pack);
    }
}
