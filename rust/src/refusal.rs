//! Why a call refused: the numbers and names of crate `answers`.

use core::error::Error;
use core::fmt;

/// Why a call refused (docs/RULES.md, E1 to E22), by its number.
///
/// Of several the lowest is answered, but that the clone of a region says `SegmentReserved`, `TableFull` and `OutOfMemory` in
/// this order.
#[derive(Clone, Copy, Debug, PartialEq, Eq, PartialOrd, Ord, Hash)]
#[repr(u8)]
pub enum Refusal {
    /// The memory is no sound machine or manager, or it is not as long as one.
    BadTable = 1,
    /// No open process has this number.
    NoProcess,
    /// An address is not canonical, or of a machine's call not below 2^47.
    BadAddress,
    /// A range is empty, too long, not in whole pages, or leaves its half of the addresses.
    BadRange,
    /// PRESENT is missing, or a bit outside the four flags is set.
    BadFlags,
    /// No file has this number.
    NoFile,
    /// No region is there.
    NoRegion,
    /// There is no free place in the arena.
    NoSpace,
    /// Some of it is reserved.
    SegmentReserved,
    /// A segment cannot be split there.
    InvalidSplitPoint,
    /// The segment is not reserved, or not exactly so.
    NotReserved,
    /// The region is not for the process to use.
    NotAccessible,
    /// The region does not allow stores.
    NotWritable,
    /// No frame, or no run of frames, is free.
    OutOfMemory,
    /// The file cannot be read.
    ReadFailed,
    /// The process has 128 mapped pages.
    MapFailed,
    /// A shared region does not take this call.
    UnsupportedRegion,
    /// A region with a run of frames cannot be split.
    EagerBacking,
    /// A shared region cannot be split.
    Shared,
    /// A region is pinned.
    InUse,
    /// A table is full: of processes, regions, page entries, pins or segments.
    TableFull,
    /// The page is not mapped with the right that a load or a store needs.
    Denied,
}

use Refusal::*;

const ALL: [Refusal; 22] = [
    BadTable,
    NoProcess,
    BadAddress,
    BadRange,
    BadFlags,
    NoFile,
    NoRegion,
    NoSpace,
    SegmentReserved,
    InvalidSplitPoint,
    NotReserved,
    NotAccessible,
    NotWritable,
    OutOfMemory,
    ReadFailed,
    MapFailed,
    UnsupportedRegion,
    EagerBacking,
    Shared,
    InUse,
    TableFull,
    Denied,
];

impl Refusal {
    /// The number of this refusal, 1 to 22.
    #[must_use]
    pub const fn number(self) -> u8 {
        self as u8
    }

    /// The refusal of a number, if it has one.
    #[must_use]
    pub fn from_number(number: u64) -> Option<Self> {
        let at = usize::try_from(number.checked_sub(1)?).ok()?;
        ALL.get(at).copied()
    }
}

impl fmt::Display for Refusal {
    fn fmt(&self, f: &mut fmt::Formatter<'_>) -> fmt::Result {
        write!(f, "{} {self:?}", self.number())
    }
}

impl Error for Refusal {}

/// What the library's number says: 0 is success.
///
/// # Panics
/// For a number that the library never answers (include/machine.h, include/segments.h).
#[cfg(any(has_machine, has_segments))]
pub(crate) fn settle(number: u64) -> Result<(), Refusal> {
    if number == 0 {
        return Ok(());
    }
    Err(Refusal::from_number(number).expect("the library answers 0 to 22"))
}
