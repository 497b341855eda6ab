//! The second program: what the proved library does, written once more in Rust
//! from FIPS 180-4 and the customer's document alone, to compare the two.

pub mod answer;
pub mod board;
pub mod cases;
pub mod load;
pub mod machine;
pub mod random;
pub mod sbs;
pub mod sha2;
