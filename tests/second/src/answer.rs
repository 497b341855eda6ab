//! What the calls share: the numbered rules, the answer record, little-endian numbers.

pub const RECORD: usize = 40;
pub const LARGEST: usize = 1 << 30;

/// The record: five 64-bit little-endian numbers in this order.
#[derive(Clone, Copy, Debug, Default, PartialEq)]
pub struct Answer {
    pub code: u64,
    pub place: u64,
    pub commands: u64,
    pub stored: u64,
    pub entry: u64,
}

impl Answer {
    pub fn refusal(code: u64) -> Answer {
        Answer {
            code,
            ..Answer::default()
        }
    }

    /// Fills the lent record, which has the right length, and gives the code to return.
    pub fn write(self, record: &mut [u8]) -> u64 {
        let numbers = [
            self.code,
            self.place,
            self.commands,
            self.stored,
            self.entry,
        ];
        for (part, number) in record.chunks_exact_mut(8).zip(numbers) {
            part.copy_from_slice(&number.to_le_bytes());
        }
        self.code
    }
}

/// A rule of the table: its number where it is broken.
pub fn rule(code: u64, holds: bool) -> Result<(), u64> {
    if holds {
        Ok(())
    } else {
        Err(code)
    }
}

/// The little-endian number that at most 8 bytes spell.
pub fn number(bytes: &[u8]) -> u64 {
    bytes
        .iter()
        .rev()
        .fold(0, |sum, &byte| sum << 8 | u64::from(byte))
}
