//! Running bare on both sides of each line that FORMAT draws, for either program.

use super::commands::Run;
use super::lent::Mapping;
use crate::answer::number;
use crate::machine::MAGIC;

/// Two regions, 12,288 bytes of memory: the map of FORMAT's worked cases.
const M: [u64; 4] = [0x1000, 0x1000, 0x100000, 0x2000];
/// EAX 1, ECX 2; the four results.
const TABLE: [u32; 6] = [1, 2, 0xf0, 0x11, 0x22, 0x33];

/// A command file, one command after the other. Reserved bytes are all ones.
#[derive(Clone)]
pub struct File(pub Vec<u8>);

impl File {
    pub fn new() -> File {
        File(MAGIC.to_le_bytes().to_vec())
    }

    /// A command whose header tells another length than its data has.
    pub fn says(mut self, id: u16, length: u64, data: &[u8]) -> File {
        self.0.extend(id.to_le_bytes());
        self.0.extend([0xff; 6]);
        self.0.extend(length.to_le_bytes());
        self.0.extend(data);
        self
    }

    pub fn command(self, id: u16, data: &[u8]) -> File {
        self.says(id, data.len() as u64, data)
    }

    pub fn write(self, address: u64, bytes: &[u8]) -> File {
        self.command(0, &[&address.to_le_bytes(), bytes].concat())
    }

    pub fn fill(self, address: u64, count: u64, pattern: u8) -> File {
        let numbers = [address.to_le_bytes(), count.to_le_bytes()].concat();
        self.command(1, &[&numbers, &[pattern][..], &[0xff; 7]].concat())
    }

    pub fn entry(self, address: u64) -> File {
        self.command(2, &address.to_le_bytes())
    }

    /// ECX, EAX, value and mask; the text is zero at one place, or nowhere.
    pub fn check(self, words: [u32; 4], register: u8, zero: Option<usize>) -> File {
        let mut data = words.map(u32::to_le_bytes).concat();
        data.push(register);
        data.extend([0xff; 7 + 64]);
        if let Some(at) = zero {
            data[24 + at] = 0;
        }
        self.command(3, &data)
    }
}

impl Default for File {
    fn default() -> File {
        File::new()
    }
}

fn spell64(numbers: &[u64]) -> Vec<u8> {
    numbers.iter().flat_map(|n| n.to_le_bytes()).collect()
}

fn spell32(words: &[u32]) -> Vec<u8> {
    words.iter().flat_map(|n| n.to_le_bytes()).collect()
}

/// What a file is run on.
struct Bench {
    run: Run,
    map: Vec<u8>,
    table: Vec<u8>,
    mode: u64,
    memory: usize,
    answer: usize,
}

impl Bench {
    fn new(run: Run, mode: u64) -> Bench {
        Bench {
            run,
            map: spell64(&M),
            table: spell32(&TABLE),
            mode,
            memory: 12_288,
            answer: 40,
        }
    }

    fn map(mut self, map: &[u64]) -> Bench {
        self.map = spell64(map);
        self.memory = map.iter().skip(1).step_by(2).sum::<u64>() as usize;
        self
    }

    fn table(mut self, words: &[u32]) -> Bench {
        self.table = spell32(words);
        self
    }

    /// The record and the memory, which begins as zeros; the code alone where nothing was written.
    fn run(&self, file: &[u8]) -> (Vec<u64>, Mapping) {
        let mut memory = Mapping::new(self.memory.max(1));
        let mut answer = vec![0x77; self.answer];
        let lent = &mut memory[..self.memory];
        let code = (self.run)(file, &self.map, &self.table, self.mode, lent, &mut answer);
        if answer.iter().all(|&byte| byte == 0x77) {
            return (vec![code], memory);
        }
        let numbers: Vec<u64> = answer.chunks_exact(8).map(number).collect();
        assert_eq!(numbers[0], code);
        (numbers, memory)
    }

    fn gives(&self, file: &File, expected: [u64; 5]) {
        assert_eq!(self.run(&file.0).0, expected);
    }

    /// A refusal of the first command.
    fn refuses(&self, file: &File, code: u64) {
        self.gives(file, [code, 8, 0, 0, 0]);
    }

    /// With an entry behind it the file is done.
    fn does(&self, file: &File, commands: u64, stored: u64) {
        let file = file.clone().entry(0x1234);
        self.gives(&file, [0, 0, commands + 1, stored, 0x1234]);
    }
}

pub fn run_lines(run: Run) {
    arguments(run);
    maps(run);
    tables(run);
    sizes(run);
    ranges(run);
    entries(run);
    checks(run);
    counts(run);
}

fn arguments(run: Run) {
    let good = File::new().entry(0);
    for answer in [0, 39, 41, 48, 80] {
        let bench = Bench {
            answer,
            ..Bench::new(run, 64)
        };
        assert_eq!(bench.run(&good.0).0, [1]);
    }
    for mode in [0, 31, 33, 63, 65, (1 << 32) + 32, u64::MAX] {
        Bench::new(run, mode).gives(&good, [1, 0, 0, 0, 0]);
    }
    let bench = Bench::new(run, 32);
    for (length, code) in [(1 << 30, 16), ((1 << 30) + 1, 1)] {
        let file = Mapping::new(length);
        assert_eq!(bench.run(&file).0, [code, 0, 0, 0, 0]);
    }
    // 1 before 2 before 3 before 16
    let mut bad = Bench::new(run, 0).map(&[]).table(&[1]);
    assert_eq!(bad.run(b"").0, [1, 0, 0, 0, 0]);
    bad.mode = 32;
    assert_eq!(bad.run(b"").0, [2, 0, 0, 0, 0]);
    let bad = bad.map(&M);
    assert_eq!(bad.run(b"").0, [3, 0, 0, 0, 0]);
    let bad = bad.table(&[]);
    assert_eq!(bad.run(b"").0, [16, 0, 0, 0, 0]);
}

fn maps(run: Run) {
    let good = File::new().entry(0);
    let top = 1 << 52;
    let regions = |n: u64| (0..n).flat_map(|i| [3 * i, 2]).collect::<Vec<u64>>();
    for map in [
        vec![0, 1],
        vec![0, 8, 8, 8],
        vec![top - 1, 1],
        vec![0, 1 << 32],
        regions(16),
    ] {
        Bench::new(run, 32).map(&map).gives(&good, [0, 0, 1, 0, 0]);
    }
    for map in [
        vec![],
        vec![0, 0],
        vec![0, 8, 7, 8],
        vec![8, 8, 0, 8],
        vec![top - 1, 2],
        vec![top, 1],
        vec![u64::MAX - 7, 16],
        vec![u64::MAX, 1],
        vec![0, (1 << 32) + 1],
        vec![0, 1 << 31, 1 << 32, (1 << 31) + 1],
        regions(17),
    ] {
        Bench::new(run, 64).map(&map).gives(&good, [2, 0, 0, 0, 0]);
    }
    for memory in [0, 12_287, 12_289] {
        let bench = Bench {
            memory,
            ..Bench::new(run, 64)
        };
        bench.gives(&good, [2, 0, 0, 0, 0]);
    }
    for length in [1, 15, 17, 24, 31] {
        let mut bench = Bench::new(run, 64).map(&[0, 8, 8, 8]);
        bench.map.truncate(length);
        bench.memory = length / 16 * 8;
        bench.gives(&good, [2, 0, 0, 0, 0]);
    }
}

fn tables(run: Run) {
    let good = File::new().entry(0);
    let records = |n: u32| (0..n).flat_map(|i| [i / 8, i % 8, 0, 0, 0, 0]).collect();
    let two = |a: u32, b: u32, c: u32, d: u32| vec![a, b, 0, 0, 0, 0, c, d, 0, 0, 0, 0];
    for (table, code) in [
        (vec![], 0),
        (records(64), 0),
        (records(65), 3),
        (two(1, 1, 1, 2), 0),
        (two(1, 9, 2, 0), 0),
        (two(0x7fff_ffff, 0, 0x8000_0000, 0), 0),
        (two(0, 0x7fff_ffff, 0, 0x8000_0000), 0),
        (two(1, 1, 1, 1), 3),
        (two(1, 2, 1, 1), 3),
        (two(2, 0, 1, 9), 3),
        (vec![0; 5], 3),
        (vec![0; 7], 3),
    ] {
        let commands = u64::from(code == 0);
        Bench::new(run, 64)
            .table(&table)
            .gives(&good, [code, 0, commands, 0, 0]);
    }
}

/// What is judged from the file's length, and command IDs and lengths.
fn sizes(run: Run) {
    let bench = Bench::new(run, 64);
    let whole = File::new().entry(0).0;
    let stop = |file: &[u8]| bench.run(file).0[..2].to_vec();
    for length in 0..8 {
        assert_eq!(stop(&whole[..length]), [16, 0]);
    }
    assert_eq!(stop(&whole[..8]), [27, 8]);
    for length in 9..whole.len() {
        assert_eq!(stop(&whole[..length]), [17, 8]);
    }
    for more in 1..16 {
        let longer = [&whole[..], &vec![0; more]].concat();
        assert_eq!(bench.run(&longer).0, [17, 32, 1, 0, 0]);
    }
    for at in 0..8 {
        let mut other = whole.clone();
        other[at] ^= 1;
        assert_eq!(stop(&other), [16, 0]);
        assert_eq!(stop(&other[..9]), [16, 0]);
    }
    for id in [4, 5, 256, 59_999] {
        bench.refuses(&File::new().says(id, u64::MAX, &[]), 18);
    }
    for id in [60_000, 61_234, 65_535] {
        bench.does(&File::new().command(id, &[]), 1, 0);
        bench.does(&File::new().command(id, &[1; 33]), 1, 0);
        for length in [34, u64::MAX, u64::MAX - 23, u64::MAX - 24] {
            bench.refuses(&File::new().says(id, length, &[1; 33]), 17);
        }
    }
    for (id, length) in [(0, 7), (1, 23), (1, 25), (2, 7), (2, 9), (3, 87), (3, 89)] {
        bench.refuses(&File::new().command(id, &vec![0; length as usize]), 19);
        bench.refuses(&File::new().says(id, length, &[]), 19);
    }
    bench.refuses(&File::new().says(1, 999, &[]), 19);
    for (id, length) in [(0, 8), (0, u64::MAX), (1, 24), (2, 8), (3, 88)] {
        bench.refuses(&File::new().says(id, length, &[0; 7]), 17);
    }
}

fn ranges(run: Run) {
    let [narrow, wide] = [32, 64].map(|mode| Bench::new(run, mode));
    for bench in [&narrow, &wide] {
        bench.does(&File::new().write(0x1ff0, &[1; 16]), 1, 16);
        bench.refuses(&File::new().write(0x1ff0, &[1; 17]), 21);
        bench.refuses(&File::new().write(0xfff, &[1; 2]), 21);
        bench.refuses(&File::new().fill(0, 1 << 20, 1), 21);
        bench.does(&File::new().fill(0x100000, 0x2000, 7), 1, 0x2000);
        bench.refuses(&File::new().fill(0x100000, 0x2001, 7), 21);
    }
    let (_, memory) = wide.run(&File::new().write(0x100010, &[9]).0);
    assert_eq!(memory[4_111..4_114], [0, 9, 0]);
    for (bench, limit) in [(&narrow, 1u64 << 32), (&wide, 1 << 52)] {
        bench.refuses(&File::new().fill(limit - 1, 1, 0), 21);
        bench.refuses(&File::new().fill(limit - 1, 2, 0), 20);
        bench.does(&File::new().fill(limit - 1, 0, 0), 1, 0);
        bench.does(&File::new().write(limit - 1, &[]), 1, 0);
        for past in [limit, limit + 1, u64::MAX] {
            bench.refuses(&File::new().fill(past, 0, 0), 20);
            bench.refuses(&File::new().write(past, &[]), 20);
        }
        bench.refuses(&File::new().fill(0x1000, limit - 0x1000, 0), 21);
        bench.refuses(&File::new().fill(0x1000, limit - 0xfff, 0), 20);
        for count in [u64::MAX, u64::MAX - 0xfff, u64::MAX - 0x1000] {
            bench.refuses(&File::new().fill(0x1000, count, 0), 20);
        }
        bench.refuses(&File::new().fill(u64::MAX, 2, 0), 20);
        bench.refuses(&File::new().write(u64::MAX, &[1; 2]), 20);
        bench.refuses(&File::new().write(limit - 1, &[1; 2]), 20);
    }
    // a region that ends at 2^52, and one that begins at 2^32
    let top = 1 << 52;
    let map = [(1 << 32) - 4, 4, 1 << 32, 4, top - 8, 8];
    let [narrow, wide] = [narrow, wide].map(|bench| bench.map(&map));
    wide.does(&File::new().fill(top - 8, 8, 3), 1, 8);
    wide.refuses(&File::new().fill(top - 8, 9, 3), 20);
    narrow.refuses(&File::new().fill(top - 8, 1, 3), 20);
    narrow.does(&File::new().fill((1 << 32) - 4, 4, 3), 1, 4);
    narrow.refuses(&File::new().fill((1 << 32) - 4, 5, 3), 20);
    narrow.refuses(&File::new().write(1 << 32, &[1]), 20);
    // touching regions are joined
    wide.does(&File::new().write((1 << 32) - 3, &[1; 7]), 1, 7);
    wide.refuses(&File::new().write((1 << 32) - 3, &[1; 8]), 21);
    // all of 2^32 bytes of memory, of which only the last is written
    let whole = Bench::new(run, 32).map(&[0, 1 << 32]);
    whole.does(&File::new().write((1 << 32) - 1, &[5]), 1, 1);
    whole.refuses(&File::new().fill(1, 1 << 32, 5), 20);
}

fn entries(run: Run) {
    for (mode, limit) in [(32, 1u64 << 32), (64, 1 << 52)] {
        let bench = Bench::new(run, mode);
        for entry in [0, 0x1000, limit - 1] {
            bench.gives(&File::new().entry(entry), [0, 0, 1, 0, entry]);
        }
        for entry in [limit, limit + 1, u64::MAX] {
            bench.refuses(&File::new().entry(entry), 20);
            bench.gives(&File::new().entry(5).entry(entry), [20, 32, 1, 0, 0]);
        }
        bench.gives(&File::new().entry(5).entry(6), [0, 0, 2, 0, 6]);
        bench.gives(&File::new(), [27, 8, 0, 0, 0]);
        let stored = File::new().write(0x1000, &[1]);
        bench.gives(&stored, [27, 33, 1, 1, 0]);
    }
}

fn checks(run: Run) {
    let bench = Bench::new(run, 64);
    let file = |words, register, zero| File::new().check(words, register, zero);
    let pass = [2, 1, 0x30, 0x30];
    for zero in [0, 31, 63] {
        bench.does(&file(pass, 0, Some(zero)), 1, 0);
    }
    for (register, value) in [(0, 0xf0), (1, 0x11), (2, 0x22), (3, 0x33)] {
        bench.does(&file([2, 1, value, u32::MAX], register, Some(9)), 1, 0);
        let other = [2, 1, value ^ 0x8000_0000, u32::MAX];
        bench.refuses(&file(other, register, Some(9)), 26);
    }
    bench.refuses(&file([2, 1, 0xf0, 0x30], 0, Some(9)), 26);
    bench.does(&file([2, 1, 0, 0], 0, Some(9)), 1, 0);
    bench.refuses(&file([2, 1, 1, 0], 0, Some(9)), 26);
    for inputs in [[1, 2], [2, 2], [1, 1], [2, 0x8000_0001]] {
        let words = [inputs[0], inputs[1], 0x30, 0x30];
        bench.refuses(&file(words, 0, Some(9)), 25);
        bench.refuses(&file(words, 4, Some(9)), 24);
        bench.refuses(&file(words, 4, None), 22);
    }
    bench.refuses(&file(pass, 4, Some(9)), 24);
    bench.refuses(&file(pass, 255, Some(9)), 24);
    bench.refuses(&file(pass, 0, None), 22);
    let bench = bench.table(&[]);
    bench.refuses(&file(pass, 4, Some(9)), 23);
    bench.refuses(&file(pass, 4, None), 22);
}

/// A refused command is not done; what was stored before it stays.
fn counts(run: Run) {
    let bench = Bench::new(run, 64);
    let file = File::new()
        .entry(9)
        .command(60_000, &[1; 5])
        .write(0x1000, &[1, 2, 3])
        .fill(0x1001, 4, 8);
    let place = file.0.len() as u64;
    bench.gives(&file, [0, 0, 4, 7, 9]);
    let (record, memory) = bench.run(&file.fill(0x1000, 0x1001, 5).0);
    assert_eq!(record, [21, place, 4, 7, 0]);
    assert_eq!(memory[..6], [1, 8, 8, 8, 8, 0]);
    assert!(memory[6..].iter().all(|&byte| byte == 0));
}

#[cfg(test)]
mod tests {
    use super::*;

    #[test]
    fn run_on_both_sides() {
        run_lines(crate::machine::run);
    }
}
