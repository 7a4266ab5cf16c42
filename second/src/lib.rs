//! One copy of the edit log, working in place on lent bytes. Written from the paper alone, to be compared with the
//! proved library call by call.
//!
//! Without `std` there is no heap to reach for.
#![no_std]
#![forbid(unsafe_code)]
// An index is a copy's or an instance's number here, and reads best as one.
#![allow(clippy::needless_range_loop)]

pub mod broken;
mod bytes;
pub mod events;
pub mod fields;
pub mod journal;
pub mod message;
pub mod old;
pub mod order;
pub mod refusal;
pub mod rules;
pub mod setup;
pub mod stream;
pub mod table;

pub use events::{message, message_by, nudge, recover, request, request_by, Event};
pub use message::{read_message, write_message, Message};
pub use order::{hand_out, settled, Settled};
pub use refusal::Refusal;
pub use table::{blank_table, bring_over, judge_table, record_part, table_len};
