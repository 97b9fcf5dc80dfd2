//! The second program: the rules of document 01, and of the requests in 02, written
//! once more in plain Rust.
//!
//! It exists to be compared with the proved library, so it is written from the
//! documents alone and shares nothing with that library.

pub mod address;
pub mod call;
pub mod capcode;
pub mod chain;
pub mod day;
pub mod fragment;
pub mod frames;
pub mod heard;
pub mod layout;
pub mod listing;
pub mod mirror;
pub mod numbers;
pub mod numeric;
pub mod packet;
pub mod pocsag;
pub mod refusal;
pub mod sums;
pub mod vector;
