//! Whether the arguments of a call have the form that the rules ask for. This is written apart from the
//! harness's own tests, so that the two are compared as well.

use super::PAGE;
use crate::answer::Refusal;
use crate::calls::{Create, Kind, Marks, Part};

/// RULES N10: one past the last user address.
const END: u128 = 1 << 47;
/// RULES F1: PRESENT, WRITABLE, USER_ACCESSIBLE and NO_EXECUTE.
const FLAG_BITS: [u32; 4] = [0, 1, 2, 63];

/// RULES O4: of the refusals that apply, the one with the lowest number.
fn lowest<const N: usize>(tests: [(bool, Refusal); N]) -> Result<(), Refusal> {
    let applying = tests.into_iter().filter(|(applies, _)| *applies);
    applying
        .map(|(_, refusal)| refusal)
        .min()
        .map_or(Ok(()), Err)
}

/// RULES E3.
pub fn user(addr: u64) -> Result<(), Refusal> {
    lowest([(is_outside(addr), Refusal::BadAddress)])
}

/// RULES W7.
pub fn arena(start: u64, size: u64) -> Result<(), Refusal> {
    let end = u128::from(start) + u128::from(size);
    lowest([
        (is_outside(start), Refusal::BadAddress),
        (is_broken(start.into()) || is_broken(end), Refusal::BadRange),
        (end > END, Refusal::BadRange),
    ])
}

/// RULES V1.
pub fn carve(start: u64, end: u64) -> Result<(), Refusal> {
    lowest([
        (is_broken(start.into()), Refusal::BadRange),
        (is_broken(end.into()), Refusal::BadRange),
        (start > end || u128::from(end) > END, Refusal::BadRange),
    ])
}

/// RULES E5.
pub fn flags(flags: u64) -> Result<(), Refusal> {
    lowest([(has_bad_flags(flags), Refusal::BadFlags)])
}

/// RULES C3 to C5 and C8, of what does not look at the machine.
pub fn create(create: &Create) -> Result<(), Refusal> {
    let start = create.start.unwrap_or(0);
    let size = u128::from(create.size);
    let end = u128::from(start) + size.next_multiple_of(PAGE.into());
    let (marks, part) = match create.kind {
        Kind::Lazy(marks) | Kind::Eager(marks) => (Some(marks), None),
        Kind::File(marks, part) => (Some(marks), Some(part)),
        Kind::Shared => (None, None),
    };
    let is_off = |part: Part| u128::from(part.offset) > END || part.length > create.size;
    let has_bad_marks = |marks: Marks| has_bad_flags(marks.flags);
    lowest([
        (is_outside(start), Refusal::BadAddress),
        (is_broken(start.into()), Refusal::BadRange),
        (size == 0 || size > END || end > END, Refusal::BadRange),
        (part.is_some_and(is_off), Refusal::BadRange),
        (marks.is_some_and(has_bad_marks), Refusal::BadFlags),
    ])
}

/// RULES C9, of a size that creation takes.
pub fn segment_len(size: u64) -> u64 {
    size.next_multiple_of(PAGE)
}

fn is_outside(addr: u64) -> bool {
    u128::from(addr) >= END
}

/// Whether an address lies inside a page and not at its start.
fn is_broken(addr: u128) -> bool {
    addr & (u128::from(PAGE) - 1) != 0
}

fn has_bad_flags(flags: u64) -> bool {
    let rest = FLAG_BITS.iter().fold(flags, |rest, bit| rest & !(1 << bit));
    flags & 1 == 0 || rest != 0
}
