//! Signed block streams, from the customer's document (FORMAT's H, B, I, K): packing, opening, the signature field.

use crate::answer::{rule, Answer, LARGEST, RECORD};
use crate::sha2;

pub const MAGIC: u64 = 0xe6019598;
pub const LARGEST_BLOCK: u64 = 1_048_576;

/// Where each header field stands: its first byte and its width.
pub mod field {
    pub type Field = (usize, usize);
    pub const MAGIC: Field = (0, 4);
    pub const COUNT: Field = (4, 4);
    pub const BLOCK_SIZE: Field = (8, 4);
    pub const SIGNATURE: Field = (12, 4);
    pub const HEADER_SIZE: Field = (16, 2);
    pub const SUM: Field = (18, 2);
    pub const IDS: [Field; 4] = [(20, 2), (22, 2), (24, 2), (26, 2)];
    pub const SCHEME: Field = (28, 2);
    pub const RESERVED: Field = (30, 2);
    pub const PADDING: Field = (32, 4);
    pub const ROOT: usize = 36;

    pub fn get(header: &[u8], (at, width): Field) -> u64 {
        crate::answer::number(&header[at..at + width])
    }

    /// Writes the low bytes of a number.
    pub fn set(header: &mut [u8], (at, width): Field, value: u64) {
        header[at..at + width].copy_from_slice(&value.to_le_bytes()[..width]);
    }
}

/// The joined length of the configured digests; 6 for an unknown ID or a first ID of 0.
pub fn sum_length(ids: [u64; 4]) -> Result<usize, u64> {
    rule(6, ids[0] != 0)?;
    let mut length = 0;
    for id in ids {
        let one = sha2::digest_length(id);
        rule(6, id == 0 || one != 0)?;
        length += one;
    }
    Ok(length)
}

/// The configured digests joined, the first position first.
pub fn hashsum(ids: [u64; 4], block: &[u8]) -> Vec<u8> {
    ids.iter().flat_map(|&id| sha2::digest(id, block)).collect()
}

/// An image whose header has passed 1 and 4 to 12.
pub struct Image<'a> {
    pub signature: std::ops::Range<usize>,
    pub count: usize,
    ids: [u64; 4],
    sum: usize,
    padding: usize,
    root: &'a [u8],
    blocks: &'a [u8],
    size: usize,
}

impl<'a> Image<'a> {
    pub fn judge(image: &'a [u8], header: &[u8], expected: u64) -> Result<Image<'a>, u64> {
        arguments(image, expected)?;
        rule(4, header.len() >= field::ROOT && image.starts_with(header))?;
        let get = |f| field::get(header, f);
        rule(5, get(field::MAGIC) == MAGIC)?;
        let ids = field::IDS.map(get);
        let sum = sum_length(ids)?;
        rule(7, get(field::SUM) == sum as u64)?;
        let size = field::ROOT + sum;
        rule(8, get(field::HEADER_SIZE) == size as u64)?;
        rule(8, header.len() == size)?;
        rule(9, get(field::SCHEME) == 1)?;
        rule(10, get(field::SIGNATURE) == expected)?;
        let (count, block, padding) = (
            get(field::COUNT),
            get(field::BLOCK_SIZE),
            get(field::PADDING),
        );
        rule(11, count != 0)?;
        rule(11, block > sum as u64 && block <= LARGEST_BLOCK)?;
        rule(11, padding < block - sum as u64)?;
        rule(
            12,
            image.len() as u64 == size as u64 + expected + count * block,
        )?;
        let signature = size..size + expected as usize;
        Ok(Image {
            count: count as usize,
            ids,
            sum,
            padding: padding as usize,
            root: &image[field::ROOT..size],
            blocks: &image[signature.end..],
            size: block as usize,
            signature,
        })
    }

    pub fn file_length(&self) -> usize {
        self.count * (self.size - self.sum) - self.padding
    }

    /// Block k, from 0.
    fn block(&self, k: usize) -> &'a [u8] {
        &self.blocks[k * self.size..(k + 1) * self.size]
    }

    /// The file bytes of block k, from 0, where all before it are proved: 13, 14, 15 if it is not.
    pub fn prove(&self, k: usize) -> Result<&'a [u8], u64> {
        let expected = match k {
            0 => self.root,
            _ => &self.block(k - 1)[..self.sum],
        };
        rule(13, hashsum(self.ids, self.block(k)) == expected)?;
        let (hash, data) = self.block(k).split_at(self.sum);
        let (padding, data) = data.split_at(if k == 0 { self.padding } else { 0 });
        let zero = |bytes: &[u8]| bytes.iter().all(|&byte| byte == 0);
        rule(14, zero(padding))?;
        rule(15, k + 1 < self.count || zero(hash))?;
        Ok(data)
    }
}

/// 1 for the expected signature length or the image's size.
pub fn arguments(image: &[u8], expected: u64) -> Result<(), u64> {
    rule(1, signature_allowed(expected) && image.len() <= LARGEST)
}

fn signature_allowed(length: u64) -> bool {
    (1..=4096).contains(&length)
}

/// Copies the proved file out.
pub fn open(
    image: &[u8],
    header: &[u8],
    signature_length: u64,
    output: &mut [u8],
    answer: &mut [u8],
) -> u64 {
    if answer.len() != RECORD {
        return 1;
    }
    let opened = match Image::judge(image, header, signature_length) {
        Ok(opened) => opened,
        Err(code) => return Answer::refusal(code).write(answer),
    };
    if output.len() != opened.file_length() {
        return Answer::refusal(29).write(answer);
    }
    let mut stored = 0;
    let mut stop = (0, 0);
    for k in 0..opened.count {
        match opened.prove(k) {
            Ok(data) => {
                output[stored..stored + data.len()].copy_from_slice(data);
                stored += data.len();
            }
            Err(code) => {
                stop = (code, k as u64 + 1);
                break;
            }
        }
    }
    Answer {
        code: stop.0,
        place: stop.1,
        stored: stored as u64,
        ..Answer::default()
    }
    .write(answer)
}

/// Where the signature field stands: its start and length, 0 and 0 where open gives 1 or 4 to 12.
pub fn signature(image: &[u8], header: &[u8], signature_length: u64) -> (u64, u64) {
    match Image::judge(image, header, signature_length) {
        Ok(judged) => (judged.signature.start as u64, judged.signature.len() as u64),
        Err(_) => (0, 0),
    }
}

/// The sizes of the image that pack makes of a file.
pub struct Packing {
    pub sum: usize,
    pub count: u64,
    pub padding: u64,
    pub length: u64,
}

impl Packing {
    pub fn judge(
        file_length: usize,
        ids: [u64; 4],
        block_size: u64,
        signature_length: u64,
    ) -> Result<Packing, u64> {
        let sum = sum_length(ids)?;
        rule(11, block_size > sum as u64 && block_size <= LARGEST_BLOCK)?;
        rule(28, file_length != 0)?;
        rule(1, signature_allowed(signature_length))?;
        rule(1, file_length <= LARGEST)?;
        let data = block_size - sum as u64;
        let count = (file_length as u64).div_ceil(data);
        let length = (field::ROOT + sum) as u64 + signature_length + count * block_size;
        rule(1, length <= LARGEST as u64)?;
        Ok(Packing {
            sum,
            count,
            padding: count * data - file_length as u64,
            length,
        })
    }
}

/// Writes the image of a file, its signature field zero.
pub fn pack(
    file: &[u8],
    ids: [u64; 4],
    block_size: u64,
    signature_length: u64,
    output: &mut [u8],
) -> u64 {
    let packing = match Packing::judge(file.len(), ids, block_size, signature_length) {
        Ok(packing) => packing,
        Err(code) => return code,
    };
    if output.len() as u64 != packing.length {
        return 29;
    }
    output.fill(0);
    let size = field::ROOT + packing.sum;
    let (header, rest) = output.split_at_mut(size);
    let blocks = &mut rest[signature_length as usize..];
    for (f, value) in [
        (field::MAGIC, MAGIC),
        (field::COUNT, packing.count),
        (field::BLOCK_SIZE, block_size),
        (field::SIGNATURE, signature_length),
        (field::HEADER_SIZE, size as u64),
        (field::SUM, packing.sum as u64),
        (field::SCHEME, 1),
        (field::PADDING, packing.padding),
    ] {
        field::set(header, f, value);
    }
    for (f, id) in field::IDS.into_iter().zip(ids) {
        field::set(header, f, id);
    }
    let mut left = file;
    for (k, block) in blocks.chunks_exact_mut(block_size as usize).enumerate() {
        let padding = if k == 0 { packing.padding as usize } else { 0 };
        let data = &mut block[packing.sum + padding..];
        let (now, later) = left.split_at(data.len());
        data.copy_from_slice(now);
        left = later;
    }
    chain(header, blocks, ids, block_size as usize);
    0
}

/// Writes the hashsum of each block into the one before it, and that of the first into the header.
pub fn chain(header: &mut [u8], blocks: &mut [u8], ids: [u64; 4], block_size: usize) {
    for k in (0..blocks.len() / block_size).rev() {
        let (before, rest) = blocks.split_at_mut(k * block_size);
        let sum = hashsum(ids, &rest[..block_size]);
        let place = match k {
            0 => &mut header[field::ROOT..],
            _ => &mut before[(k - 1) * block_size..],
        };
        place[..sum.len()].copy_from_slice(&sum);
    }
}
