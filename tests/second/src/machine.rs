//! The command machine and running bare, from the customer's document (FORMAT's F, T).

use crate::answer::{number, rule, Answer, LARGEST, RECORD};
use crate::board::Board;

pub const MAGIC: u64 = 0x8adc5fa2448cb65e;
pub const HEADER: usize = 16;

/// A refusal, or the end of the run: its code and place.
#[derive(Clone, Copy, Debug, PartialEq)]
pub struct Stop {
    pub code: u64,
    pub place: u64,
}

/// What the next byte belongs to.
#[derive(Clone, Copy)]
enum Phase {
    Magic,
    Header,
    /// A command's data that is used all at once, or a write's address.
    Parameters {
        id: u64,
        length: u64,
    },
    Storing {
        to: usize,
        left: usize,
    },
    Skipping {
        left: usize,
    },
}

pub struct Machine {
    board: Board,
    length: usize,
    phase: Phase,
    /// Bytes of the file used so far.
    used: usize,
    /// Where the command that is being read begins.
    first: usize,
    commands: u64,
    stored: u64,
    entry: Option<u64>,
}

impl Machine {
    /// The machine before the first byte of a file; 16 where the file is too short for its magic.
    pub fn new(board: Board, length: usize) -> Result<Machine, u64> {
        rule(16, length >= 8)?;
        Ok(Machine {
            board,
            length,
            phase: Phase::Magic,
            used: 0,
            first: 0,
            commands: 0,
            stored: 0,
            entry: None,
        })
    }

    /// Does all that the proved first part of the file allows, and says where it stopped if it did.
    pub fn advance(&mut self, proved: &[u8], memory: &mut [u8]) -> Option<Stop> {
        loop {
            match self.turn(&proved[self.used..], memory) {
                Ok(true) => {}
                Ok(false) => return None,
                Err(code) => return Some(self.stop(code)),
            }
        }
    }

    pub fn answer(&self, stop: Stop) -> Answer {
        Answer {
            code: stop.code,
            place: stop.place,
            commands: self.commands,
            stored: self.stored,
            entry: match stop.code {
                0 => self.entry.unwrap_or(0),
                _ => 0,
            },
        }
    }

    fn stop(&self, code: u64) -> Stop {
        let place = match code {
            17..=26 => self.first,
            27 => self.length,
            _ => 0,
        };
        Stop {
            code,
            place: place as u64,
        }
    }

    /// One turn on the proved bytes that are not yet used: whether it got on. The end of the file
    /// stops the run too, with 0 or 27.
    fn turn(&mut self, rest: &[u8], memory: &mut [u8]) -> Result<bool, u64> {
        match self.phase {
            Phase::Magic => {
                let Some(bytes) = rest.get(..8) else {
                    return Ok(false);
                };
                rule(16, number(bytes) == MAGIC)?;
                self.used = 8;
                self.command_begins()?;
            }
            Phase::Header => {
                let Some(bytes) = rest.get(..HEADER) else {
                    return Ok(false);
                };
                self.header(number(&bytes[..2]), number(&bytes[8..]))?;
            }
            Phase::Parameters { id, length } => {
                let wanted = if id == 0 { 8 } else { length as usize };
                let Some(bytes) = rest.get(..wanted) else {
                    return Ok(false);
                };
                self.parameters(id, length, bytes, memory)?;
            }
            Phase::Storing { to, left } => {
                let now = left.min(rest.len());
                memory[to..to + now].copy_from_slice(&rest[..now]);
                self.stored += now as u64;
                self.used += now;
                self.phase = Phase::Storing {
                    to: to + now,
                    left: left - now,
                };
                return self.went_on(left - now, now);
            }
            Phase::Skipping { left } => {
                let now = left.min(rest.len());
                self.used += now;
                self.phase = Phase::Skipping { left: left - now };
                return self.went_on(left - now, now);
            }
        }
        Ok(true)
    }

    /// After some bytes of a long command: it is done where none is left.
    fn went_on(&mut self, left: usize, now: usize) -> Result<bool, u64> {
        if left == 0 {
            self.command_done()?;
        }
        Ok(left == 0 || now != 0)
    }

    /// Judged from sizes alone: the file's end, or a header that would run past it.
    fn command_begins(&mut self) -> Result<(), u64> {
        self.first = self.used;
        let left = self.length - self.used;
        if left == 0 {
            return Err(if self.entry.is_some() { 0 } else { 27 });
        }
        rule(17, left >= HEADER)?;
        self.phase = Phase::Header;
        Ok(())
    }

    fn command_done(&mut self) -> Result<(), u64> {
        self.commands += 1;
        self.command_begins()
    }

    fn header(&mut self, id: u64, length: u64) -> Result<(), u64> {
        let fits = match id {
            0 => length >= 8,
            1 => length == 24,
            2 => length == 8,
            3 => length == 88,
            60000..=65535 => true,
            _ => return Err(18),
        };
        rule(19, fits)?;
        rule(17, length <= (self.length - self.used - HEADER) as u64)?;
        self.used += HEADER;
        self.phase = match id {
            60000..=65535 => Phase::Skipping {
                left: length as usize,
            },
            _ => Phase::Parameters { id, length },
        };
        Ok(())
    }

    fn parameters(
        &mut self,
        id: u64,
        length: u64,
        bytes: &[u8],
        memory: &mut [u8],
    ) -> Result<(), u64> {
        match id {
            0 => {
                let left = length - 8;
                let to = self.room(number(bytes), left)?;
                self.used += bytes.len();
                self.phase = Phase::Storing {
                    to,
                    left: left as usize,
                };
                return Ok(());
            }
            1 => {
                let count = number(&bytes[8..16]);
                let to = self.room(number(&bytes[..8]), count)?;
                memory[to..to + count as usize].fill(bytes[16]);
                self.stored += count;
            }
            2 => {
                let entry = number(bytes);
                rule(20, self.board.reachable(entry, 1))?;
                self.entry = Some(entry);
            }
            _ => self.check(bytes)?,
        }
        self.used += bytes.len();
        self.command_done()
    }

    /// The memory byte at which a range that may be stored to begins; any for an empty one.
    fn room(&self, address: u64, n: u64) -> Result<usize, u64> {
        rule(20, self.board.reachable(address, n))?;
        rule(21, self.board.ram(address, n))?;
        Ok(match n {
            0 => 0,
            _ => self.board.memory_byte(address),
        })
    }

    fn check(&self, bytes: &[u8]) -> Result<(), u64> {
        let word = |at: usize| number(&bytes[at..at + 4]) as u32;
        let (ecx, eax, value, mask) = (word(0), word(4), word(8), word(12));
        let register = usize::from(bytes[16]);
        rule(22, bytes[24..].contains(&0))?;
        rule(23, self.board.has_cpuid())?;
        rule(24, register <= 3)?;
        let results = self.board.look_up(eax, ecx).ok_or(25u64)?;
        rule(26, results[register] & mask == value)
    }
}

/// Runs a command file without a stream around it.
pub fn run(
    file: &[u8],
    map: &[u8],
    cpuid: &[u8],
    mode: u64,
    memory: &mut [u8],
    answer: &mut [u8],
) -> u64 {
    if answer.len() != RECORD {
        return 1;
    }
    let begun = rule(1, file.len() <= LARGEST)
        .and_then(|()| Board::judge(map, cpuid, mode, memory.len()))
        .and_then(|board| Machine::new(board, file.len()));
    match begun {
        Err(code) => Answer::refusal(code).write(answer),
        Ok(mut machine) => {
            let stop = machine.advance(file, memory);
            let stop = stop.expect("the end of the file stops the run");
            machine.answer(stop).write(answer)
        }
    }
}
