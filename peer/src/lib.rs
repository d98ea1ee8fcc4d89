//! The instant cover book of a clearing house: codes, tickets, day files, messages, the book itself and the programs' text.

pub mod asking;
pub mod book;
pub mod codes;
pub mod dayfile;
pub mod flaw;
pub mod handing;
mod index;
pub mod markup;
pub mod message;
pub mod printing;
pub mod refusal;
pub mod report;
pub mod ticket;
pub mod writing;

#[cfg(test)]
mod message_tests;
#[cfg(test)]
mod tests;

/// No amount of cover, and no sum of all cover, is above this.
pub const MOST_COVER: u64 = 1_000_000_000_000_000_000;
