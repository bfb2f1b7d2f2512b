//! A naive model of documents 01 and 004, for tests only. It shares no code
//! with the library: terms are trees, tables are read by recursion, the machine
//! is the paper's ML written down in Rust.
#![allow(dead_code)]

pub mod list;
pub mod machine;
pub mod passing;
pub mod terms;
pub mod translation;

/// The seeds of a test: so many from 0 on. For a longer run, SEED_FROM gives
/// the first one and SEED_TIMES how many times as many.
pub fn seeds(count: u64) -> std::ops::Range<u64> {
    let number = |name, otherwise| {
        std::env::var(name).ok().and_then(|text| text.parse().ok()).unwrap_or(otherwise)
    };
    let from: u64 = number("SEED_FROM", 0);
    from..from + count * number("SEED_TIMES", 1)
}
