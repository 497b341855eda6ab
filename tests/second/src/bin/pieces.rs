//! Runs short command files whole and cut into pieces in every way, line for line what the Rattle
//! program `pieces` prints: the answer, how many cuts were tried, and how many of them agree.

use second::answer::Answer;
use second::board::Board;
use second::machine::{run, Machine, MAGIC};

/// A command with its header; reserved bytes are zero.
fn command(id: u16, data: &[u8]) -> Vec<u8> {
    header(id, data.len() as u64, data)
}

/// A header with a data length of its own, and what follows it.
fn header(id: u16, length: u64, behind: &[u8]) -> Vec<u8> {
    let parts = [
        &id.to_le_bytes()[..],
        &[0; 6],
        &length.to_le_bytes(),
        behind,
    ];
    parts.concat()
}

fn eight(numbers: &[u64]) -> Vec<u8> {
    numbers.iter().flat_map(|n| n.to_le_bytes()).collect()
}

fn write(address: u64) -> Vec<u8> {
    command(
        0,
        &[address.to_le_bytes(), [1, 2, 3, 4, 5, 6, 7, 8]].concat(),
    )
}

fn fill(address: u64, count: u64, pattern: u8) -> Vec<u8> {
    command(1, &eight(&[address, count, u64::from(pattern)]))
}

fn entry(address: u64) -> Vec<u8> {
    command(2, &eight(&[address]))
}

/// Of ECX where EAX is 7 and ECX is 1, under the mask 0x30.
fn check(value: u32) -> Vec<u8> {
    let words: Vec<u8> = [1, 7, value, 0x30]
        .iter()
        .flat_map(|w| w.to_le_bytes())
        .collect();
    let text = [&[b' '; 63][..], &[0]].concat();
    command(3, &[words, eight(&[2]), text].concat())
}

fn file(commands: &[Vec<u8>]) -> Vec<u8> {
    [eight(&[MAGIC]), commands.concat()].concat()
}

fn files() -> Vec<(&'static str, Vec<u8>)> {
    let first = write(0x1000);
    vec![
        (
            "writes",
            file(&[write(0x100c), write(0x1010), entry(0x1000)]),
        ),
        (
            "write-and-fill",
            file(&[fill(0x1006, 20, 0xaa), write(0x1008), entry(0x3000)]),
        ),
        ("check", file(&[check(0x30), entry((1 << 52) - 1)])),
        (
            "skipped",
            file(&[
                command(60000, &[0; 8]),
                command(65535, &[]),
                command(0, &eight(&[0x2000])),
                entry(0x1000),
                entry(0x1004),
            ]),
        ),
        ("empty", vec![]),
        ("short", MAGIC.to_le_bytes()[..7].to_vec()),
        ("magic-alone", file(&[])),
        ("no-entry", file(&[write(0x1008)])),
        (
            "cut-header",
            file(&[first.clone(), entry(0x1000), eight(&[2])]),
        ),
        ("no-magic", [eight(&[MAGIC + 1]), entry(0x1000)].concat()),
        (
            "cut-data",
            file(&[first.clone(), header(0, 100, &eight(&[0x1000, 0]))]),
        ),
        (
            "unknown",
            file(&[fill(0x3000, 16, 1), command(59999, &[0; 8])]),
        ),
        (
            "wrong-length",
            file(&[
                entry(0x1000),
                header(2, 9, &[&eight(&[0x1000])[..], &[0]].concat()),
            ]),
        ),
        (
            "not-reachable",
            file(&[first.clone(), fill((1 << 52) - 1, 2, 1)]),
        ),
        ("not-ram", file(&[first.clone(), write(0x1019)])),
        ("check-failed", file(&[first, check(0xf0)])),
    ]
}

/// 16 bytes at 0x1000, 16 at 0x1010, which touch, and 16 at 0x3000.
fn map() -> Vec<u8> {
    eight(&[0x1000, 16, 0x1010, 16, 0x3000, 16])
}

/// EAX 0, ECX 0 gives 1, 2, 3, 4; EAX 7, ECX 1 gives 5, 6, 0xf0, 8.
fn table() -> Vec<u8> {
    let words: [u32; 12] = [0, 0, 1, 2, 3, 4, 7, 1, 5, 6, 0xf0, 8];
    words.iter().flat_map(|w| w.to_le_bytes()).collect()
}

const FRESH: [u8; 48] = [0xee; 48];

/// The answer and memory of a run that is given the file up to each of these ends in turn.
fn cut(file: &[u8], ends: &[usize]) -> ([u8; 40], [u8; 48]) {
    let (mut record, mut memory) = ([0; 40], FRESH);
    let board = Board::judge(&map(), &table(), 64, memory.len()).expect("a good unit");
    let answer = match Machine::new(board, file.len()) {
        Err(code) => Answer::refusal(code),
        Ok(mut machine) => {
            let mut stops = ends
                .iter()
                .filter_map(|&end| machine.advance(&file[..end], &mut memory));
            let stop = stops.next().expect("the end of the file stops the run");
            machine.answer(stop)
        }
    };
    answer.write(&mut record);
    (record, memory)
}

fn main() {
    for (name, file) in files() {
        let (mut record, mut memory) = ([0; 40], FRESH);
        run(&file, &map(), &table(), 64, &mut memory, &mut record);
        let whole = (record, memory);
        let n = file.len();
        let mut cuts = vec![(1..=n.max(1)).map(|end| end.min(n)).collect::<Vec<_>>()];
        for first in 0..=n {
            cuts.push(vec![first, n]);
            cuts.extend((first..=n).map(|second| vec![first, second, n]));
        }
        let agree = cuts.iter().filter(|ends| cut(&file, ends) == whole).count();
        let numbers: Vec<u64> = record.chunks(8).map(second::answer::number).collect();
        print!("{name}: code {}, place {}, ", numbers[0], numbers[1]);
        print!(
            "commands {}, stored {}, entry {}",
            numbers[2], numbers[3], numbers[4]
        );
        println!("; {} cuts, {agree} agree", cuts.len());
    }
}
