//! When load judges what: files cut so that the last block begins at a chosen byte, for either
//! program.

use super::lent::Mapping;
use super::load::Load;
use super::run_lines::File;
use super::sbs_lines::longest;
use crate::answer::number;
use crate::sbs::{self, field};

const IDS: [u64; 4] = [2, 0, 3, 0];
const SUM: usize = 80;
const SIGNATURE: usize = 5;
const FIRST: usize = field::ROOT + SUM + SIGNATURE;

/// An image whose last block holds the file from `cut` on, and the number of its blocks.
fn cut(file: &[u8], cut: usize) -> (Vec<u8>, u64) {
    let data = file.len() - cut;
    let size = (SUM + data) as u64;
    let sizes = sbs::Packing::judge(file.len(), IDS, size, SIGNATURE as u64).unwrap();
    let mut image = vec![0; sizes.length as usize];
    assert_eq!(sbs::pack(file, IDS, size, SIGNATURE as u64, &mut image), 0);
    (image, sizes.count)
}

/// The record and the first six bytes of memory: one region of 64 bytes at 0x1000, mode 32.
fn load(call: Load, image: &[u8]) -> (Vec<u64>, Vec<u8>) {
    load_by(call, image, &image[..field::ROOT + SUM], SIGNATURE as u64)
}

fn load_by(call: Load, image: &[u8], header: &[u8], expected: u64) -> (Vec<u64>, Vec<u8>) {
    let map = [0x1000u64.to_le_bytes(), 64u64.to_le_bytes()].concat();
    let (mut memory, mut answer) = ([0; 64], [0x77; 40]);
    let code = call(
        image,
        header,
        &map,
        &[],
        32,
        expected,
        &mut memory,
        &mut answer,
    );
    let record: Vec<u64> = answer.chunks_exact(8).map(number).collect();
    assert_eq!(record[0], code);
    (record, memory[..6].to_vec())
}

pub fn load_lines(call: Load) {
    cuts_make_no_difference(call);
    sizes_come_before_the_next_block(call);
    headers_and_data_wait(call);
    stores_come_before_the_next_block(call);
    order(call);
    lengths(call);
}

fn cuts_make_no_difference(call: Load) {
    let file = File::new()
        .write(0x1001, &[1, 2, 3])
        .command(60_000, &[7; 3])
        .fill(0x1002, 3, 9)
        .write(0x1000, &[])
        .entry(77);
    for at in 0..file.0.len() {
        let (image, _) = cut(&file.0, at);
        let expected = (vec![0, 0, 5, 6, 77], vec![0, 1, 9, 9, 9, 0]);
        assert_eq!(load(call, &image), expected, "cut at {at}");
    }
}

/// The answer where the last block, from `at` on, is bad; 13 at its number is given as 13, 0.
fn bad(call: Load, file: &File, at: usize) -> (Vec<u64>, Vec<u8>) {
    let (mut image, count) = cut(&file.0, at);
    *image.last_mut().unwrap() ^= 1;
    let (mut record, memory) = load(call, &image);
    if record[0] == 13 {
        assert_eq!(record[1], count);
        record[1] = 0;
    }
    (record, memory)
}

fn sizes_come_before_the_next_block(call: Load) {
    let stop = |file: &File, at| bad(call, file, at).0;
    for length in 1..8 {
        let short = File(File::new().0[..length].to_vec());
        assert_eq!(stop(&short, 0), [16, 0, 0, 0, 0]);
    }
    let mut wrong = File::new().entry(1);
    wrong.0[0] ^= 1;
    assert_eq!(stop(&wrong, 7), [13, 0, 0, 0, 0]);
    assert_eq!(stop(&wrong, 8), [16, 0, 0, 0, 0]);
    for more in [1, 15] {
        let mut left = File::new();
        left.0.resize(8 + more, 0);
        assert_eq!(stop(&left, 7), [13, 0, 0, 0, 0]);
        assert_eq!(stop(&left, 8), [17, 8, 0, 0, 0]);
        let mut left = File::new().entry(1);
        let end = left.0.len();
        left.0.resize(end + more, 0);
        assert_eq!(stop(&left, end - 1), [13, 0, 0, 0, 0]);
        assert_eq!(stop(&left, end), [17, end as u64, 1, 0, 0]);
    }
    let past = File::new().says(60_000, 2, &[1]);
    assert_eq!(stop(&past, 23), [13, 0, 0, 0, 0]);
    assert_eq!(stop(&past, 24), [17, 8, 0, 0, 0]);
}

fn headers_and_data_wait(call: Load) {
    let stop = |file: &File, at| bad(call, file, at).0;
    for (file, code, judged) in [
        (File::new().command(4, &[0; 9]), 18, 24),
        (File::new().command(1, &[0; 9]), 19, 24),
        (File::new().write(1 << 32, &[1; 3]), 20, 32),
        (File::new().write(0x1000, &[1; 65]), 21, 32),
        (File::new().fill(u64::MAX, 2, 3).entry(1), 20, 48),
        (File::new().fill(0, 2, 3).entry(1), 21, 48),
        (File::new().entry(1 << 32).entry(1), 20, 32),
        (File::new().check([0; 4], 9, None).entry(1), 22, 112),
        (File::new().check([0; 4], 9, Some(0)).entry(1), 23, 112),
    ] {
        assert_eq!(stop(&file, judged - 1), [13, 0, 0, 0, 0]);
        assert_eq!(stop(&file, judged), [code, 8, 0, 0, 0]);
    }
}

fn stores_come_before_the_next_block(call: Load) {
    let file = File::new().entry(5).write(0x1000, &[1, 2, 3]).entry(6);
    let first = 8 + 24 + 24;
    for stored in 0..3 {
        let mut memory = vec![1, 2, 3, 0, 0, 0];
        memory[stored..].fill(0);
        let expected = (vec![13, 0, 1, stored as u64, 0], memory);
        assert_eq!(bad(call, &file, first + stored), expected);
    }
    assert_eq!(bad(call, &file, first + 3).0, [13, 0, 2, 3, 0]);
    let skip = File::new().command(65_535, &[1; 3]).entry(6);
    assert_eq!(bad(call, &skip, 26).0, [13, 0, 0, 0, 0]);
    assert_eq!(bad(call, &skip, 27).0, [13, 0, 1, 0, 0]);
    let empty = File::new().write(0x9000, &[]).entry(6);
    assert_eq!(bad(call, &empty, 31).0, [13, 0, 0, 0, 0]);
    assert_eq!(bad(call, &empty, 32).0, [13, 0, 1, 0, 0]);
}

/// 1, 2, 3, then the header's, then 16; 14 and 15 prove nothing of their block.
fn order(call: Load) {
    let (image, _) = cut(&File::new().entry(1).0, 20);
    let header = &image[..field::ROOT + SUM];
    let good_map = [0u64.to_le_bytes(), 1u64.to_le_bytes()].concat();
    let ask = |map: &[u8], cpuid: &[u8], mode, expected| {
        let (mut memory, mut answer) = ([0; 1], [0; 40]);
        call(
            &image[..40],
            header,
            map,
            cpuid,
            mode,
            expected,
            &mut memory,
            &mut answer,
        )
    };
    assert_eq!(ask(&[], &[1], 33, SIGNATURE as u64), 1);
    assert_eq!(ask(&[], &[1], 32, 0), 1);
    assert_eq!(ask(&[], &[1], 32, 9), 2);
    assert_eq!(ask(&good_map, &[1], 32, 9), 3);
    assert_eq!(ask(&good_map, &[], 32, 9), 4);

    let (image, _) = cut(&[1, 2, 3], 0);
    let mut other = image.clone();
    field::set(&mut other, field::COUNT, 2);
    assert_eq!(load(call, &other).0, [12, 0, 0, 0, 0]);
    assert_eq!(load(call, &image).0, [16, 0, 0, 0, 0]);

    let file = File::new().write(0x1000, &[1]).entry(1).0;
    let size = SUM + file.len() - 5;
    for (at, code, place) in [(SUM, 14, 1), (size, 15, 2)] {
        let (mut image, _) = cut(&file, 5);
        image[FIRST + at] = 1;
        let (header, blocks) = image.split_at_mut(FIRST);
        sbs::chain(header, blocks, IDS, size);
        assert_eq!(load(call, &image).0, [code, place, 0, 0, 0]);
    }
}

/// Images around the largest length, which nobody has filled.
fn lengths(call: Load) {
    let (header, expected) = longest();
    for (length, code, place) in [
        ((1 << 30) + 1, 1, 0),
        (1 << 30, 13, 1),
        ((1 << 30) - 1, 12, 0),
    ] {
        let mut image = Mapping::new(length);
        image[..header.len()].copy_from_slice(&header);
        let (record, _) = load_by(call, &image, &header, expected);
        assert_eq!(record, [code, place, 0, 0, 0], "image of {length} bytes");
    }
}

#[cfg(test)]
mod tests {
    use super::*;

    #[test]
    fn load_judges_in_time() {
        load_lines(crate::load::load);
    }
}
