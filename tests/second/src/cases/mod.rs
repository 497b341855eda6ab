//! Generated cases of the calls, and the comparison of two programs on them.

pub mod commands;
pub mod lent;
pub mod load;
pub mod load_lines;
pub mod run_lines;
pub mod sbs;
pub mod sbs_lines;

use crate::random::Random;
use std::collections::BTreeMap;
use std::fmt::{Debug, Formatter, Result};
use std::{env, ops};

/// One call's arguments. `Call` is the type of the function that both programs have.
pub trait Case: Debug + Sized {
    type Call: Copy;
    const NAME: &'static str;
    /// The codes that the call can give.
    const CODES: &'static [u64];
    fn make(random: &mut Random) -> Self;
    fn run(&self, call: Self::Call) -> Outcome;
}

/// What a call returned, and every buffer lent for writing as it is left.
#[derive(Debug, PartialEq)]
pub struct Outcome {
    pub code: u64,
    pub written: Vec<Bytes>,
}

/// Runs both programs on N cases from SEED. Case i has the seed SEED + i, so that a case that
/// differs is run again by its own seed and N=1. From 1,000 cases on, every code of the call must
/// come, no other, and at least a tenth must be done.
pub fn agree<C: Case>(one: C::Call, other: C::Call) {
    let (seed, n) = (setting("SEED", 1), setting("N", 20_000));
    let mut met = BTreeMap::new();
    for seed in seed..seed + n {
        let case = C::make(&mut Random::new(seed));
        let (left, right) = (case.run(one), case.run(other));
        assert!(
            left == right,
            "{} differs, SEED={seed} N=1:\n{case:#?}\n{left:#?}\n{right:#?}",
            C::NAME
        );
        *met.entry(left.code).or_insert(0) += 1;
    }
    println!("{}: {n} cases, codes met {met:?}", C::NAME);
    if n >= 1000 {
        let codes: Vec<u64> = met.keys().copied().collect();
        assert_eq!(codes, C::CODES, "{}: the codes met", C::NAME);
        assert!(
            met[&0] * 10 >= n,
            "{}: fewer than a tenth are done",
            C::NAME
        );
    }
}

fn setting(name: &str, default: u64) -> u64 {
    env::var(name).map_or(default, |text| text.parse().expect(name))
}

/// Bytes that are printed in hexadecimal.
#[derive(Clone, Default, PartialEq)]
pub struct Bytes(pub Vec<u8>);

impl Debug for Bytes {
    fn fmt(&self, f: &mut Formatter) -> Result {
        write!(f, "{} bytes ", self.len())?;
        self.iter().try_for_each(|byte| write!(f, "{byte:02x}"))
    }
}

impl ops::Deref for Bytes {
    type Target = Vec<u8>;
    fn deref(&self) -> &Vec<u8> {
        &self.0
    }
}

impl ops::DerefMut for Bytes {
    fn deref_mut(&mut self) -> &mut Vec<u8> {
        &mut self.0
    }
}
