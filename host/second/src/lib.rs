//! The rules of 01, and of 02 as far as they have landed, once more, in plain Rust. Nothing here is taken from the proved code or its specifications.
//! For tests there are besides its calls as values (`calls`), and samples and chance to make their arguments of.
pub mod adopt;
pub mod block;
pub mod calls;
pub mod chain;
pub mod chance;
pub mod genesis;
pub mod issue;
pub mod lent;
pub mod lms;
pub mod manifest;
pub mod number;
pub mod order;
pub mod pool;
pub mod report;
pub mod samples;
pub mod sha256;
pub mod walk;

/// A refusal: its number and its place.
#[derive(Debug, Clone, Copy, PartialEq, Eq)]
pub struct Refusal {
    pub number: u32,
    pub place: u32,
}

/// A refusal with no place.
pub fn refusal(number: u32) -> Refusal {
    Refusal { number, place: 0 }
}
