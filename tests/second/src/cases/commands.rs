//! Cases of running bare: command files, maps and CPUID tables, sound and damaged.

use super::lent::Lent;
use super::sbs::record;
use super::{Bytes, Case, Outcome};
use crate::machine::MAGIC;
use crate::random::Random;

const EDGES: [u64; 7] = [0, 1, 1 << 32, 1 << 52, 1 << 63, u64::MAX, u64::MAX - 1];

/// A map, a table, a mode and the memory.
#[derive(Debug)]
pub struct Ground {
    pub map: Bytes,
    pub cpuid: Bytes,
    pub mode: u64,
    pub memory: Bytes,
    regions: Vec<(u64, u64)>,
    records: Vec<[u32; 6]>,
}

impl Ground {
    /// A ground that keeps all rules.
    pub fn make(random: &mut Random) -> Ground {
        let regions = regions(random);
        let records = records(random);
        let sum = regions.iter().map(|r| r.1).sum::<u64>();
        let modes = match regions.last() {
            Some(&(base, _)) if base >= 1 << 32 => [32, 64, 64, 64],
            _ => [32, 32, 64, 64],
        };
        Ground {
            map: spelled(regions.iter().flat_map(|r| [r.0, r.1]), 8),
            cpuid: spelled(records.iter().flatten().map(|&word| word.into()), 4),
            mode: random.pick(&modes),
            memory: Bytes(random.bytes(sum as usize)),
            regions,
            records,
        }
    }

    /// Breaks a rule on the arguments, or comes near to it.
    pub fn damage(&mut self, random: &mut Random) {
        match random.below(8) {
            0 => self.mode = random.pick(&[0, 16, 33, 63, 65, (1 << 32) + 32, u64::MAX]),
            1 => {
                let length = self.memory.len();
                let length = random.pick(&[length + 1, length - 1, 0]);
                self.memory.resize(length, 0);
            }
            2 => resize(&mut self.map, 16, 16, random),
            3 | 4 => {
                let at = random.below(self.map.len() as u64 / 8) as usize;
                nudge(&mut self.map[8 * at..8 * at + 8], random);
            }
            5 => resize(&mut self.cpuid, 24, 64, random),
            6 if self.records.len() > 1 => {
                let at = 24 * random.below(self.records.len() as u64 - 1) as usize;
                let (one, two) = self.cpuid[at..at + 48].split_at_mut(24);
                match random.below(2) {
                    0 => one.swap_with_slice(two),
                    _ => one[..8].copy_from_slice(&two[..8]),
                }
            }
            _ => {
                self.regions[0].1 += 1;
                self.map = spelled(self.regions.iter().flat_map(|r| [r.0, r.1]), 8);
                self.memory.push(7);
            }
        }
    }

    /// A range of RAM, often to its region's last byte or across touching regions.
    fn range(&self, random: &mut Random) -> (u64, u64) {
        let first = random.below(self.regions.len() as u64) as usize;
        let (base, length) = self.regions[first];
        let mut end = base + length;
        for next in &self.regions[first + 1..] {
            if next.0 == end && random.once_in(2) {
                end += next.1;
            }
        }
        let address = base + random.below(length);
        let most = end - address;
        let any = random.below(most + 1);
        (address, random.pick(&[0, 1, most, most, any, any]))
    }
}

/// Ascending regions, some touching, some at the ends of what can be reached.
fn regions(random: &mut Random) -> Vec<(u64, u64)> {
    let count = random.pick(&[1, 2, 3, 4, 16]);
    let mut at = random.pick(&[0, 0x1000, (1 << 32) - 100, 1 << 40]);
    let mut all = Vec::new();
    for _ in 0..count {
        let length = 1 + random.below(60);
        all.push((at, length));
        at += length + random.pick(&[0, 0, 1, 40, 1 << 20]);
    }
    if random.once_in(4) {
        let last = all.last_mut().unwrap();
        *last = ((1 << 52) - last.1, last.1);
    }
    all
}

/// Strictly ascending records, none for some.
fn records(random: &mut Random) -> Vec<[u32; 6]> {
    let count = match random.below(30) {
        0..3 => 0,
        3 => 64,
        _ => 1 + random.below(5),
    };
    let mut inputs: Vec<(u32, u32)> = (0..count)
        .map(|_| {
            let high = random.pick(&[0, 0x8000_0000]);
            (high + random.below(40) as u32, random.below(4) as u32)
        })
        .collect();
    inputs.sort_unstable();
    inputs.dedup();
    let mut result = || random.number() as u32;
    let with = |(eax, ecx)| [eax, ecx, result(), result(), result(), result()];
    inputs.into_iter().map(with).collect()
}

fn spelled(numbers: impl Iterator<Item = u64>, width: usize) -> Bytes {
    Bytes(
        numbers
            .flat_map(|n| n.to_le_bytes().into_iter().take(width))
            .collect(),
    )
}

/// Another length: none, not whole records, or one record more than the most.
fn resize(bytes: &mut Bytes, record: usize, most: usize, random: &mut Random) {
    let length = bytes.len();
    let length = random.pick(&[0, length + 1, length + record / 2, record * (most + 1)]);
    let last = bytes.last_chunk::<16>().copied().unwrap_or([9; 16]);
    let more = last.into_iter().cycle();
    let missing = length.saturating_sub(bytes.len());
    bytes.extend(more.take(missing));
    bytes.truncate(length);
}

/// Another number in its place, one away or an edge.
fn nudge(place: &mut [u8], random: &mut Random) {
    let was = crate::answer::number(place);
    let edge = random.pick(&EDGES);
    let now = random.pick(&[was.wrapping_add(1), was.wrapping_sub(1), edge, 0]);
    place.copy_from_slice(&now.to_le_bytes()[..place.len()]);
}

/// A command: ID, reserved bytes, data.
struct Command {
    id: u64,
    data: Vec<u8>,
    /// What the header says of the data's length.
    length: u64,
}

impl Command {
    fn new(id: u64, data: Vec<u8>) -> Command {
        let length = data.len() as u64;
        Command { id, data, length }
    }

    /// A command that the ground allows.
    fn sound(ground: &Ground, random: &mut Random) -> Command {
        let limit = reach(ground);
        match random.below(6) {
            0 | 1 => {
                let (address, n) = ground.range(random);
                let bytes = random.bytes(n as usize);
                Command::new(0, [address.to_le_bytes().to_vec(), bytes].concat())
            }
            2 => {
                let (address, n) = ground.range(random);
                Command::fill(address, n, random)
            }
            3 => {
                let any = random.below(limit);
                Command::entry(random.pick(&[0, limit - 1, any]))
            }
            4 if !ground.records.is_empty() => Command::check(ground, random),
            _ => {
                let (any_length, any_id) = (random.below(40), 60000 + random.below(5536));
                let length = random.pick(&[0, 0, 1, any_length]);
                let id = random.pick(&[60000, 65535, any_id]);
                Command::new(id, random.bytes(length as usize))
            }
        }
    }

    fn fill(address: u64, n: u64, random: &mut Random) -> Command {
        let numbers = [address.to_le_bytes(), n.to_le_bytes()].concat();
        Command::new(1, [numbers, random.bytes(8)].concat())
    }

    fn entry(address: u64) -> Command {
        Command::new(2, address.to_le_bytes().to_vec())
    }

    /// A check that passes.
    fn check(ground: &Ground, random: &mut Random) -> Command {
        let record = random.pick(&ground.records);
        let register = random.below(4);
        let any = random.number() as u32;
        let mask = random.pick(&[0, u32::MAX, any]);
        let words = [
            record[1],
            record[0],
            record[2 + register as usize] & mask,
            mask,
        ];
        let mut data: Vec<u8> = words.into_iter().flat_map(u32::to_le_bytes).collect();
        data.push(register as u8);
        data.extend(random.bytes(7));
        let mut text: Vec<u8> = random.bytes(64).iter().map(|byte| byte | 1).collect();
        let any = random.below(64) as usize;
        text[random.pick(&[0, 63, any])] = 0;
        data.extend(text);
        Command::new(3, data)
    }

    /// A command that breaks a rule, or comes near to it.
    fn damaged(ground: &Ground, random: &mut Random) -> Command {
        let mut command = Command::sound(ground, random);
        match (command.id, random.below(4)) {
            (_, 0) => command.id = random.pick(&[4, 5, 59999, 256, 0, 1, 2, 3]),
            (_, 1) => {
                let was = command.length;
                let any = random.number();
                let longer = [
                    was + 1,
                    was.wrapping_sub(1),
                    was + 1000,
                    u64::MAX,
                    7,
                    8,
                    any,
                ];
                command.length = random.pick(&longer);
                let shown = command.length.min(command.data.len() as u64 + 1);
                command.data.resize(shown as usize, 5);
            }
            (0 | 1, 2) => {
                let (address, _) = ground.range(random);
                let limit = reach(ground);
                let edges = [limit, limit - 1, limit - 2, u64::MAX, address];
                let edge = random.pick(&edges);
                command.data[..8].copy_from_slice(&edge.to_le_bytes());
            }
            (0, _) => {
                let past = 1 + random.below(40) as usize;
                command.data.resize(command.data.len() + past, 6);
                command.length = command.data.len() as u64;
            }
            (1, _) => {
                let (address, limit) = (crate::answer::number(&command.data[..8]), reach(ground));
                let wraps = 0u64.wrapping_sub(address);
                let to_limit = limit.wrapping_sub(address);
                let over = to_limit.wrapping_add(1);
                let n = random.pick(&[
                    0,
                    1,
                    61,
                    wraps,
                    wraps.wrapping_sub(1),
                    to_limit,
                    over,
                    u64::MAX,
                ]);
                command.data[8..16].copy_from_slice(&n.to_le_bytes());
            }
            (2, _) => {
                let limit = reach(ground);
                command = Command::entry(random.pick(&[limit, limit - 1, u64::MAX, 1 << 52]));
            }
            (3, _) => command.damage_check(random),
            _ => {}
        }
        if ground.records.is_empty() && random.once_in(2) {
            let data = random.bytes(88);
            command = Command::new(3, [&data[..24], &[0; 64]].concat());
        }
        command
    }

    fn damage_check(&mut self, random: &mut Random) {
        match random.below(5) {
            0 => self.data[24..].fill(1),
            1 => self.data[16] = random.pick(&[4, 5, 128, 255]),
            2 => self.data[random.below(8) as usize] ^= 1,
            3 => self.data[8 + random.below(4) as usize] ^= 1 << random.below(8),
            // a bit of the value that the mask leaves out
            _ => {
                self.data[12..16].fill(0);
                self.data[8..12].copy_from_slice(&1u32.to_le_bytes());
            }
        }
    }

    fn write(&self, file: &mut Vec<u8>, random: &mut Random) {
        file.extend(&self.id.to_le_bytes()[..2]);
        file.extend(random.bytes(6));
        file.extend(self.length.to_le_bytes());
        file.extend(&self.data);
    }
}

fn reach(ground: &Ground) -> u64 {
    if ground.mode == 32 {
        1 << 32
    } else {
        1 << 52
    }
}

/// A command file: most run to the end, some break a rule in one command or in their length.
pub fn file(ground: &Ground, random: &mut Random) -> Vec<u8> {
    let mut file = MAGIC.to_le_bytes().to_vec();
    let broken = random.once_in(2);
    for _ in 0..random.below(5) {
        Command::sound(ground, random).write(&mut file, random);
    }
    if broken {
        Command::damaged(ground, random).write(&mut file, random);
    }
    if !random.once_in(12) {
        Command::entry(random.below(reach(ground))).write(&mut file, random);
        for _ in 0..random.below(2) {
            Command::sound(ground, random).write(&mut file, random);
        }
    }
    match random.below(40) {
        0 => file[random.below(8) as usize] ^= 1,
        1 => file.truncate(random.below(24) as usize),
        2 => file.truncate(random.below(file.len() as u64) as usize),
        3 => {
            let more = random.below(17) as usize;
            file.extend(random.bytes(more));
        }
        _ => {}
    }
    file
}

#[derive(Debug)]
pub struct RunCase {
    file: Bytes,
    ground: Ground,
    answer: Bytes,
}

pub type Run = fn(&[u8], &[u8], &[u8], u64, &mut [u8], &mut [u8]) -> u64;

impl Case for RunCase {
    type Call = Run;
    const NAME: &'static str = "run";
    const CODES: &'static [u64] = &[0, 1, 2, 3, 16, 17, 18, 19, 20, 21, 22, 23, 24, 25, 26, 27];

    fn make(random: &mut Random) -> RunCase {
        let mut ground = Ground::make(random);
        let file = Bytes(file(&ground, random));
        if random.once_in(6) {
            ground.damage(random);
        }
        RunCase {
            file,
            ground,
            answer: record(random),
        }
    }

    fn run(&self, call: Run) -> Outcome {
        let g = &self.ground;
        let [mut file, mut map, mut cpuid, mut memory, mut answer] =
            [&self.file, &g.map, &g.cpuid, &g.memory, &self.answer].map(|b| Lent::new(b));
        let code = call(
            file.bytes(),
            map.bytes(),
            cpuid.bytes(),
            g.mode,
            memory.bytes(),
            answer.bytes(),
        );
        Outcome {
            code,
            written: vec![memory.back(), answer.back()],
        }
    }
}
