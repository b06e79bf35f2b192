//! The two limiters and the gateway above them as an ordinary Rust program over the same fixed words, written from document 01
//! and tickets 1, 2, 4, 5, 6, 7, 8 and 12.
//! docs/WORDS.md says which words each call writes.

pub mod absolute;
pub mod calls;
pub mod desk;
pub mod gateway;
pub mod lines;
pub mod parties;
pub mod provider;
pub mod readback;
pub mod replay;
pub mod room;
pub mod rules;
pub mod set;
pub mod shared;
pub mod shots;
pub mod suppressed;
#[cfg(trusting)]
mod trusting;
pub mod units;
