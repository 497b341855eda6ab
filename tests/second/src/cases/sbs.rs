//! Cases of open, pack and signature: sound streams, and damaged ones.

use super::lent::Lent;
use super::{Bytes, Case, Outcome};
use crate::answer::RECORD;
use crate::random::Random;
use crate::sbs::{self, field, Image, Packing, LARGEST_BLOCK};

/// How a stream is laid out before it is damaged.
#[derive(Clone, Debug)]
pub struct Layout {
    pub ids: [u64; 4],
    pub block_size: u64,
    pub signature_length: u64,
}

impl Layout {
    pub fn make(random: &mut Random) -> Layout {
        let others: [u64; 3] = std::array::from_fn(|_| random.pick(&[0, 0, 0, 2, 3, 4]));
        let ids = [random.pick(&[2, 3, 4]), others[0], others[1], others[2]];
        let sum = sum_of(ids);
        let data = match random.below(2000) {
            0 => LARGEST_BLOCK - sum,
            1..400 => 1 + random.below(4),
            400..1800 => 1 + random.below(80),
            _ => 1 + random.below(1000),
        };
        Layout {
            ids,
            block_size: sum + data,
            signature_length: match random.below(20) {
                0 => 4096,
                1..5 => 1,
                _ => 1 + random.below(200),
            },
        }
    }

    fn sum(&self) -> u64 {
        sum_of(self.ids)
    }

    fn data(&self) -> u64 {
        self.block_size - self.sum()
    }

    /// A length that takes one to six blocks, the last block's end and beginning often met.
    fn file_length(&self, random: &mut Random) -> u64 {
        let blocks = if self.block_size == LARGEST_BLOCK {
            1 + random.below(2)
        } else {
            1 + random.below(6)
        };
        let short = match random.below(4) {
            0 => 0,
            1 => self.data() - 1,
            _ => random.below(self.data()),
        };
        blocks * self.data() - short
    }
}

fn sum_of(ids: [u64; 4]) -> u64 {
    sbs::sum_length(ids).unwrap() as u64
}

/// An image with the header that the chip approved and the signature length it expects.
#[derive(Clone, Debug)]
pub struct Stream {
    pub image: Bytes,
    pub header: Bytes,
    pub signature_length: u64,
    layout: Layout,
}

impl Stream {
    /// A sound stream of a file; its signature and reserved fields hold anything.
    pub fn of(file: &[u8], layout: Layout, random: &mut Random) -> Stream {
        let l = &layout;
        let sizes = Packing::judge(file.len(), l.ids, l.block_size, l.signature_length).unwrap();
        let mut image = vec![0; sizes.length as usize];
        sbs::pack(file, l.ids, l.block_size, l.signature_length, &mut image);
        let (size, blocks) = (field::ROOT + sizes.sum, l.block_size * sizes.count);
        let end = image.len() - blocks as usize;
        image[size..end].copy_from_slice(&random.bytes(end - size));
        let reserved = random.pick(&[0, 0xffff]);
        field::set(&mut image, field::RESERVED, reserved);
        Stream {
            header: Bytes(image[..size].to_vec()),
            image: Bytes(image),
            signature_length: l.signature_length,
            layout,
        }
    }

    /// No damage for a third of the streams, else one or two.
    pub fn damage(&mut self, random: &mut Random) {
        for _ in 0..random.below(3) {
            let ways: [fn(&mut Stream, &mut Random); 11] = [
                Stream::field,
                Stream::field,
                Stream::field,
                Stream::approved,
                Stream::length,
                Stream::expected,
                Stream::any_byte,
                Stream::root,
                Stream::padding_hashed,
                Stream::last_hash_hashed,
                Stream::block_hashed,
            ];
            random.pick(&ways)(self, random);
        }
    }

    fn header_end(&self) -> usize {
        field::ROOT + self.layout.sum() as usize
    }

    fn first_block(&self) -> usize {
        self.header_end() + self.layout.signature_length as usize
    }

    /// Another value in a header field, approved like the rest.
    fn field(&mut self, random: &mut Random) {
        let (sum, data) = (self.layout.sum(), self.layout.data());
        let f = random.pick(&[
            field::MAGIC,
            field::COUNT,
            field::BLOCK_SIZE,
            field::SIGNATURE,
            field::HEADER_SIZE,
            field::SUM,
            field::IDS[0],
            field::IDS[1],
            field::IDS[2],
            field::IDS[3],
            field::SCHEME,
            field::RESERVED,
            field::PADDING,
        ]);
        if self.header.len() < field::ROOT || self.image.len() < field::ROOT {
            return;
        }
        let was = field::get(&self.header, f);
        let edge = match f {
            field::BLOCK_SIZE => random.pick(&[sum, sum + 1, LARGEST_BLOCK, LARGEST_BLOCK + 1]),
            field::PADDING => random.pick(&[data - 1, data]),
            _ => random.pick(&[1, 2, 3, 4, 5, 60000]),
        };
        let any = random.number();
        let value = random.pick(&[0, u64::MAX, was ^ 1, was + 1, edge, edge, edge, any]);
        field::set(&mut self.header, f, value);
        field::set(&mut self.image, f, value);
    }

    /// An approved header of another length, or one that the image does not begin with.
    fn approved(&mut self, random: &mut Random) {
        let size = self.header.len();
        let length = random.pick(&[0, 35, 36, 37, size.saturating_sub(1), size + 1, size + 40]);
        match random.below(3) {
            0 => {
                if let Some(byte) = random.one_of(&mut self.header) {
                    *byte ^= 1;
                }
            }
            1 => self.header = Bytes(self.image[..length.min(self.image.len())].to_vec()),
            _ => {
                self.header = Bytes(self.image[..self.image.len().min(size + 1)].to_vec());
                if size >= field::ROOT && self.image.len() >= field::ROOT {
                    field::set(&mut self.header, field::HEADER_SIZE, size as u64 + 1);
                    field::set(&mut self.image, field::HEADER_SIZE, size as u64 + 1);
                }
            }
        }
    }

    fn length(&mut self, random: &mut Random) {
        let was = self.image.len();
        let cut = random.below(was as u64 + 1) as usize;
        let ends = [self.header_end(), self.first_block(), field::ROOT, 0];
        let end = random.pick(&ends);
        let length = random.pick(&[was + 1, was.saturating_sub(1), was + 64, cut, end]);
        self.image.resize(length, 0);
    }

    fn expected(&mut self, random: &mut Random) {
        let l = self.signature_length;
        let any = random.number();
        self.signature_length = random.pick(&[
            0,
            1,
            4096,
            4097,
            l.wrapping_add(1),
            l.wrapping_sub(1),
            l.wrapping_add(1 << 32),
            any,
        ]);
    }

    fn any_byte(&mut self, random: &mut Random) {
        let start = random.pick(&[0, self.header_end(), self.first_block()]);
        let start = start.min(self.image.len());
        if let Some(byte) = random.one_of(&mut self.image[start..]) {
            *byte ^= 1 << random.below(8);
        }
    }

    /// A byte of the root hash, approved like the rest: one of several digests may differ.
    fn root(&mut self, random: &mut Random) {
        let at = field::ROOT + random.below(self.layout.sum()) as usize;
        if at < self.header.len() && at < self.image.len() {
            self.header[at] ^= 1;
            self.image[at] = self.header[at];
        }
    }

    /// A byte that is not zero in the padding, the chain hashed again.
    fn padding_hashed(&mut self, random: &mut Random) {
        let at = self.first_block() + self.layout.sum() as usize;
        if self.image.len() >= at {
            let padding = field::get(&self.image, field::PADDING) as usize;
            let end = self.image.len().min(at.saturating_add(padding));
            self.set_hashed(at..end, random);
        }
    }

    /// A byte that is not zero in the last hash field, the chain hashed again.
    fn last_hash_hashed(&mut self, random: &mut Random) {
        let (size, sum) = (self.layout.block_size, self.layout.sum());
        if let Some(at) = self.image.len().checked_sub(size as usize) {
            self.set_hashed(at..at + sum as usize, random);
        }
    }

    /// A byte of the blocks, the chain hashed again: another sound stream, or 14 or 15.
    fn block_hashed(&mut self, random: &mut Random) {
        let start = self.first_block().min(self.image.len());
        self.set_hashed(start..self.image.len(), random);
    }

    fn set_hashed(&mut self, part: std::ops::Range<usize>, random: &mut Random) {
        let first = self.first_block();
        if let Some(byte) = random.one_of(&mut self.image[part]) {
            *byte = 1 + random.below(255) as u8;
        }
        if self.image.len() >= first {
            let (header, blocks) = self.image.split_at_mut(first);
            sbs::chain(
                header,
                blocks,
                self.layout.ids,
                self.layout.block_size as usize,
            );
            let both = self.header.len().min(self.header_end());
            self.header[..both].copy_from_slice(&self.image[..both]);
        }
    }
}

/// A record of the right length, most times.
pub fn record(random: &mut Random) -> Bytes {
    let length = match random.below(50) {
        0 => random.pick(&[0, 39, 41, 48, 80]),
        _ => RECORD,
    };
    Bytes(random.bytes(length))
}

#[derive(Debug)]
pub struct OpenCase {
    stream: Stream,
    output: Bytes,
    answer: Bytes,
}

pub type Open = fn(&[u8], &[u8], u64, &mut [u8], &mut [u8]) -> u64;

impl Case for OpenCase {
    type Call = Open;
    const NAME: &'static str = "open";
    const CODES: &'static [u64] = &[0, 1, 4, 5, 6, 7, 8, 9, 10, 11, 12, 13, 14, 15, 29];

    fn make(random: &mut Random) -> OpenCase {
        let stream = stream(random);
        let length = match Image::judge(&stream.image, &stream.header, stream.signature_length) {
            Ok(image) => image.file_length(),
            Err(_) => random.below(100) as usize,
        };
        let length = match random.below(30) {
            0 => random.pick(&[length + 1, length.saturating_sub(1), 0]),
            _ => length,
        };
        OpenCase {
            stream,
            output: Bytes(random.bytes(length)),
            answer: record(random),
        }
    }

    fn run(&self, call: Open) -> Outcome {
        let s = &self.stream;
        let [mut image, mut header, mut output, mut answer] =
            [&s.image, &s.header, &self.output, &self.answer].map(|bytes| Lent::new(bytes));
        let code = call(
            image.bytes(),
            header.bytes(),
            s.signature_length,
            output.bytes(),
            answer.bytes(),
        );
        Outcome {
            code,
            written: vec![output.back(), answer.back()],
        }
    }
}

/// A stream of any file, damaged or not.
fn stream(random: &mut Random) -> Stream {
    let layout = Layout::make(random);
    let length = layout.file_length(random);
    let mut stream = Stream::of(&random.bytes(length as usize), layout, random);
    stream.damage(random);
    stream
}

#[derive(Debug)]
pub struct SignatureCase(Stream);

pub type Signature = fn(&[u8], &[u8], u64) -> (u64, u64);

/// The code counted is 0 where there is a field and 1 where it is empty.
impl Case for SignatureCase {
    type Call = Signature;
    const NAME: &'static str = "signature";
    const CODES: &'static [u64] = &[0, 1];

    fn make(random: &mut Random) -> SignatureCase {
        SignatureCase(stream(random))
    }

    fn run(&self, call: Signature) -> Outcome {
        let s = &self.0;
        let [mut image, mut header] = [&s.image, &s.header].map(|bytes| Lent::new(bytes));
        let (start, length) = call(image.bytes(), header.bytes(), s.signature_length);
        let pair = [start.to_le_bytes(), length.to_le_bytes()].concat();
        Outcome {
            code: u64::from(length == 0),
            written: vec![Bytes(pair)],
        }
    }
}

#[derive(Debug)]
pub struct PackCase {
    file: Bytes,
    layout: Layout,
    output: Bytes,
}

pub type Pack = fn(&[u8], [u64; 4], u64, u64, &mut [u8]) -> u64;

impl Case for PackCase {
    type Call = Pack;
    const NAME: &'static str = "pack";
    const CODES: &'static [u64] = &[0, 1, 6, 11, 28, 29];

    fn make(random: &mut Random) -> PackCase {
        let mut layout = Layout::make(random);
        let mut length = layout.file_length(random);
        for _ in 0..random.below(3) {
            let any = random.number();
            match random.below(4) {
                0 => {
                    let unknown = [0, 1, 5, 6, 60000, 65535, 65538, (1 << 32) + 2, any];
                    layout.ids[random.below(4) as usize] = random.pick(&unknown);
                }
                1 => {
                    let sum = sbs::sum_length(layout.ids).unwrap_or(32) as u64;
                    let (most, wide) = (LARGEST_BLOCK, (1 << 32) + sum + 1);
                    let sizes = [0, sum, sum + 1, sum + 1, most + 1, wide, any];
                    layout.block_size = random.pick(&sizes);
                }
                2 => length = random.pick(&[0, 0, length]),
                _ => {
                    let l = layout.signature_length;
                    let lengths = [0, 1, 4096, 4097, l + 1, l.wrapping_add(1 << 32), any];
                    layout.signature_length = random.pick(&lengths);
                }
            }
        }
        let l = &layout;
        let sizes = Packing::judge(length as usize, l.ids, l.block_size, l.signature_length);
        let exact = sizes.map_or(random.below(100), |sizes| sizes.length);
        let room = match random.below(20) {
            0 => random.pick(&[exact + 1, exact.saturating_sub(1), 0]),
            _ => exact,
        };
        PackCase {
            file: Bytes(random.bytes(length as usize)),
            output: Bytes(random.bytes(room as usize)),
            layout,
        }
    }

    fn run(&self, call: Pack) -> Outcome {
        let [mut file, mut output] = [&self.file, &self.output].map(|bytes| Lent::new(bytes));
        let l = &self.layout;
        let code = call(
            file.bytes(),
            l.ids,
            l.block_size,
            l.signature_length,
            output.bytes(),
        );
        Outcome {
            code,
            written: vec![output.back()],
        }
    }
}
