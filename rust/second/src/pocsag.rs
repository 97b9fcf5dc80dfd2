//! POCSAG pages (02, item 5; CCIR Radiopaging Code No. 1, the code of document 003).
//!
//! A transmitter sends batches: a sync word and sixteen other words, two to each of
//! eight frames. Each is a word of 32 bits that a receiver can mend, if at most two
//! of its code bits came wrong. A page is an address word and the message words
//! after it, up to the next address word or idle word.

pub mod mending;
pub mod reader;
pub mod sender;
pub mod table;
pub mod text;
pub mod word;
