//! The proved library as Rust sees it, and what its bench needs.

pub mod library;
pub mod openssl;
pub mod timing;

#[cfg(feature = "old")]
pub mod old {
    include!(concat!(env!("OUT_DIR"), "/old.rs"));
}

/// The calls that the bench times.
#[allow(clippy::type_complexity)] // they are the library's
pub struct Calls {
    pub digest: fn(u64, &[u8], &mut [u8]) -> u64,
    pub open: fn(&[u8], &[u8], u64, &mut [u8], &mut [u8]) -> u64,
    pub pack: fn(&[u8], [u64; 4], u64, u64, &mut [u8]) -> u64,
    pub run: fn(&[u8], &[u8], &[u8], u64, &mut [u8], &mut [u8]) -> u64,
    pub load: fn(&[u8], &[u8], &[u8], &[u8], u64, u64, &mut [u8], &mut [u8]) -> u64,
}

/// Those of an earlier build, where the bench was given one.
pub fn old_calls() -> Option<Calls> {
    #[cfg(feature = "old")]
    return Some(old::CALLS);
    #[cfg(not(feature = "old"))]
    None
}
