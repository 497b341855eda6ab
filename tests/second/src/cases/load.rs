//! Cases of load: command files in streams, either sound or damaged.

use super::commands::{file, Ground};
use super::lent::Lent;
use super::sbs::{record, Layout, Stream};
use super::{Bytes, Case, Outcome};
use crate::random::Random;

#[derive(Debug)]
pub struct LoadCase {
    stream: Stream,
    ground: Ground,
    answer: Bytes,
}

pub type Load = fn(&[u8], &[u8], &[u8], &[u8], u64, u64, &mut [u8], &mut [u8]) -> u64;

impl Case for LoadCase {
    type Call = Load;
    const NAME: &'static str = "load";
    const CODES: &'static [u64] = &[
        0, 1, 2, 3, 4, 5, 6, 7, 8, 9, 10, 11, 12, 13, 14, 15, 16, 17, 18, 19, 20, 21, 22, 23, 24,
        25, 26, 27,
    ];

    fn make(random: &mut Random) -> LoadCase {
        let mut ground = Ground::make(random);
        let mut file = file(&ground, random);
        if file.is_empty() {
            file.push(0);
        }
        let mut stream = Stream::of(&file, Layout::make(random), random);
        match random.below(8) {
            0 => ground.damage(random),
            1..4 => stream.damage(random),
            _ => {}
        }
        LoadCase {
            stream,
            ground,
            answer: record(random),
        }
    }

    fn run(&self, call: Load) -> Outcome {
        let (s, g) = (&self.stream, &self.ground);
        let [mut image, mut header, mut map, mut cpuid, mut memory, mut answer] = [
            &s.image,
            &s.header,
            &g.map,
            &g.cpuid,
            &g.memory,
            &self.answer,
        ]
        .map(|bytes| Lent::new(bytes));
        let code = call(
            image.bytes(),
            header.bytes(),
            map.bytes(),
            cpuid.bytes(),
            g.mode,
            s.signature_length,
            memory.bytes(),
            answer.bytes(),
        );
        Outcome {
            code,
            written: vec![memory.back(), answer.back()],
        }
    }
}
