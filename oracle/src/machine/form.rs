//! The rules' tests of form for the machine's arguments (RULES E3 to E6).

use crate::answer::Refusal;
use crate::calls::{Create, Kind};

pub const PAGE: u64 = 4096;
pub const USER_END: u64 = 1 << 47;
const KNOWN_FLAGS: u64 = 1 << 63 | 0b111;

pub fn user(addr: u64) -> Result<(), Refusal> {
    test(addr < USER_END, Refusal::BadAddress)
}

/// An arena of user addresses, page-aligned at both ends.
pub fn arena(start: u64, size: u64) -> Result<(), Refusal> {
    user(start)?;
    let fits = size <= USER_END - start;
    test(fits && aligned(start) && aligned(size), Refusal::BadRange)
}

pub fn flags(flags: u64) -> Result<(), Refusal> {
    test(
        flags & 1 == 1 && flags & !KNOWN_FLAGS == 0,
        Refusal::BadFlags,
    )
}

pub fn carve(start: u64, end: u64) -> Result<(), Refusal> {
    let good = aligned(start) && aligned(end) && start <= end && end <= USER_END;
    test(good, Refusal::BadRange)
}

/// Start, size, file offset and file length, and then the flags.
pub fn create(create: &Create) -> Result<(), Refusal> {
    create.start.map_or(Ok(()), user)?;
    test((1..=USER_END).contains(&create.size), Refusal::BadRange)?;
    if let Some(start) = create.start {
        let fits = segment_len(create.size) <= USER_END - start;
        test(fits && aligned(start), Refusal::BadRange)?;
    }
    match create.kind {
        Kind::Shared => Ok(()),
        Kind::Lazy(marks) | Kind::Eager(marks) => flags(marks.flags),
        Kind::File(marks, part) => {
            let good = part.offset <= USER_END && part.length <= create.size;
            test(good, Refusal::BadRange)?;
            flags(marks.flags)
        }
    }
}

/// A size whose segment an unguarded machine can still compute.
pub fn countable(size: u64) -> Result<(), Refusal> {
    test(size <= 2 * USER_END, Refusal::BadRange)
}

/// A countable size, rounded up to pages.
pub fn segment_len(size: u64) -> u64 {
    size.div_ceil(PAGE) * PAGE
}

fn aligned(number: u64) -> bool {
    number.is_multiple_of(PAGE)
}

fn test(good: bool, refusal: Refusal) -> Result<(), Refusal> {
    good.then_some(()).ok_or(refusal)
}
