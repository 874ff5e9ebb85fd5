//! The lent words of the proved machine (include/machine.h): where each table stands, a machine's
//! state as words and back, full machines made by hand, other rows for the same state, and R1 to R6
//! over words.

mod build;
mod check;
mod decode;
mod encode;
mod layout;
mod recount;
mod rows;
mod shuffle;

pub use build::{Amounts, build};
pub use check::{Broken, check};
pub use decode::decode;
pub use encode::encode;
pub use layout::{FRAME_BYTES, REGIONS, TABLES, Table, WORDS, Words};
pub use recount::recount;
pub use rows::{Backing, Entry, File, Mapping, Process, Region, Tables};
pub use shuffle::shuffle;
