//! The proved library beside the second program: the same calls on the same bytes, and whatever differs is a failure.
// An index is a copy's or an instance's number here, and reads best as one.
#![allow(clippy::needless_range_loop)]

pub mod both;
pub mod cases;
mod classify;
pub mod demand;
pub mod guarded;
pub mod journals;
pub mod linear;
pub mod make;
pub mod measure;
pub mod old;
pub mod places;
pub mod probe;
pub mod random;
pub mod reasons;
pub mod shapes;
pub mod stack;
pub mod streams;
pub mod sweeps;
pub mod threads;
pub mod world;

/// Contents of lent memory before a call, to see what the call leaves alone.
pub const UNTOUCHED: u8 = 0xa5;
pub const UNTOUCHED_CODE: u16 = 0xa5a5;

/// The refusals of calls on tables and messages; only a journal's have others.
pub const REFUSALS: [u8; 15] = [1, 2, 4, 5, 6, 7, 8, 9, 10, 11, 31, 32, 33, 34, 35];

/// Which of them it is.
pub fn refusal_place(number: u8) -> usize {
    REFUSALS.iter().position(|&its| its == number).expect("a refusal of the paper")
}

/// A message is not valid.
pub fn not_valid(number: u8) -> bool {
    (31..=35).contains(&number)
}

/// The length of each kind of message; kind 0 is none.
pub const LENGTHS: [usize; 13] = [0, 37, 24, 37, 10, 37, 10, 42, 14, 41, 41, 41, 46];
pub const LONGEST: usize = 46;
