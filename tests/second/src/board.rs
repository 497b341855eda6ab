//! The board that commands run on: memory map, CPUID table, mode. From the
//! customer's document (FORMAT's M, R, C).

use crate::answer::{number, rule};

pub const REGION: usize = 16;
pub const RECORD: usize = 24;
const HIGHEST_END: u128 = 1 << 52;
const MOST_MEMORY: u128 = 1 << 32;

pub struct Board {
    regions: Vec<Region>,
    records: Vec<[u32; 6]>,
    limit: u128,
}

struct Region {
    base: u128,
    end: u128,
}

impl Board {
    /// 1 for the mode, 2 for the map or the memory, 3 for the table.
    pub fn judge(map: &[u8], cpuid: &[u8], mode: u64, memory: usize) -> Result<Board, u64> {
        let limit = match mode {
            32 => 1 << 32,
            64 => 1 << 52,
            _ => return Err(1),
        };
        rule(2, map.chunks_exact(REGION).remainder().is_empty())?;
        let regions: Vec<Region> = map.chunks_exact(REGION).map(Region::read).collect();
        rule(2, (1..=16).contains(&regions.len()))?;
        rule(2, regions.iter().all(|r| r.base < r.end))?;
        rule(2, regions.iter().all(|r| r.end <= HIGHEST_END))?;
        rule(2, regions.windows(2).all(|two| two[0].end <= two[1].base))?;
        let sum: u128 = regions.iter().map(|r| r.end - r.base).sum();
        rule(2, sum <= MOST_MEMORY && memory as u128 == sum)?;
        rule(3, cpuid.chunks_exact(RECORD).remainder().is_empty())?;
        let records: Vec<[u32; 6]> = cpuid.chunks_exact(RECORD).map(words).collect();
        rule(3, records.len() <= 64)?;
        rule(3, records.windows(2).all(|two| two[0][..2] < two[1][..2]))?;
        Ok(Board {
            regions,
            records,
            limit,
        })
    }

    /// An empty range is reachable below the limit, any other where its end is at most the limit.
    pub fn reachable(&self, address: u64, n: u64) -> bool {
        let (address, n) = (u128::from(address), u128::from(n));
        match n {
            0 => address < self.limit,
            _ => address + n <= self.limit,
        }
    }

    /// Whether each byte of the range lies in a region: no two regions share a byte, so what the
    /// range has in common with each adds up to all of it.
    pub fn ram(&self, address: u64, n: u64) -> bool {
        let (from, n) = (u128::from(address), u128::from(n));
        let common = |r: &Region| r.end.min(from + n).saturating_sub(r.base.max(from));
        self.regions.iter().map(common).sum::<u128>() == n
    }

    /// The memory byte of a RAM address: its distance from its region's base, behind the bytes of
    /// the regions before. Along a RAM range memory bytes follow one another.
    pub fn memory_byte(&self, address: u64) -> usize {
        let address = u128::from(address);
        let holds = |r: &Region| r.base <= address && address < r.end;
        let at = self.regions.iter().position(holds).expect("a RAM address");
        let before: u128 = self.regions[..at].iter().map(|r| r.end - r.base).sum();
        (before + address - self.regions[at].base) as usize
    }

    /// The four results of the record with both inputs.
    pub fn look_up(&self, eax: u32, ecx: u32) -> Option<&[u32]> {
        let record = self.records.iter().find(|r| r[..2] == [eax, ecx])?;
        Some(&record[2..])
    }

    pub fn has_cpuid(&self) -> bool {
        !self.records.is_empty()
    }
}

impl Region {
    fn read(record: &[u8]) -> Region {
        let [base, length] = [&record[..8], &record[8..]].map(|b| u128::from(number(b)));
        Region {
            base,
            end: base + length,
        }
    }
}

fn words(record: &[u8]) -> [u32; 6] {
    std::array::from_fn(|i| number(&record[4 * i..4 * i + 4]) as u32)
}
