//! The lone segment manager, as a value that owns its words.

use core::fmt;

use crate::address::VirtAddr;
use crate::ffi::segments as c;
use crate::refusal::{Refusal, settle};

/// The words of a manager.
pub const WORDS: usize = 131;

/// The most segments of a manager.
pub const SEGMENTS: usize = 64;

/// The words of a call's results.
pub const RESULTS: usize = 4;

/// `len` bytes from `start` on.
#[derive(Clone, Copy, Debug, PartialEq, Eq, PartialOrd, Ord, Hash)]
pub struct Segment {
    /// Its first byte.
    pub start: VirtAddr,
    /// How many bytes it is.
    pub len: u64,
}

impl Segment {
    /// The segment of `len` bytes from `start` on.
    #[must_use]
    pub const fn new(start: VirtAddr, len: u64) -> Self {
        Self { start, len }
    }
}

/// A segment that was reserved.
#[derive(Clone, Copy, Debug, PartialEq, Eq)]
pub struct Reserved {
    /// Where.
    pub segment: Segment,
    /// How often the search started over.
    pub restarts: u64,
}

/// An arena of addresses and up to 64 reserved segments. A refusal has changed nothing.
///
/// ```
/// use jhilkompa::segments::{Manager, Segment};
/// use jhilkompa::{Refusal, VirtAddr};
///
/// // point P2 of docs/RULES.md
/// let mut manager = Manager::new(VirtAddr(0x10000), 0x10000)?;
/// manager.mark_as_reserved(Segment::new(VirtAddr(0x11000), 0x1000))?;
/// manager.mark_as_reserved(Segment::new(VirtAddr(0x13000), 0x2000))?;
/// let reserved = manager.reserve_bytes(0x2000)?;
/// assert_eq!((reserved.segment.start, reserved.restarts), (VirtAddr(0x15000), 2));
/// assert_eq!(manager.segments().count(), 3);
/// # Ok::<(), Refusal>(())
/// ```
#[derive(Clone, PartialEq, Eq)]
pub struct Manager {
    words: [u64; WORDS],
}

impl Manager {
    /// A manager with no segments over an arena.
    ///
    /// # Errors
    /// `BadAddress`, `BadRange`.
    pub fn new(start: VirtAddr, size: u64) -> Result<Self, Refusal> {
        let mut words = [0; WORDS];
        settle(c::manager_new(&mut words, start.0, size))?;
        Ok(Self { words })
    }

    /// The manager in these words, as [`words`](Self::words) gave them.
    ///
    /// # Errors
    /// `BadTable` where they break the table's rule.
    pub fn from_words(words: [u64; WORDS]) -> Result<Self, Refusal> {
        let mut manager = Self { words };
        // No page lies inside a segment of 0 bytes, so this split is refused and changes nothing; the table is tested first.
        match manager.split(Segment::new(VirtAddr(0), 0), VirtAddr(0)) {
            Err(Refusal::BadTable) => Err(Refusal::BadTable),
            _ => Ok(manager),
        }
    }

    /// Its words: arena start, arena size, how many segments there are, and 64 pairs of start and length.
    #[must_use]
    pub fn words(&self) -> &[u64; WORDS] {
        &self.words
    }

    /// Its words, for [`ffi`](crate::ffi): what is written there is tested by the next call.
    pub fn words_mut(&mut self) -> &mut [u64; WORDS] {
        &mut self.words
    }

    /// Reserves so many bytes at the lowest free start.
    ///
    /// # Errors
    /// `NoSpace`, `TableFull`.
    pub fn reserve_bytes(&mut self, len: u64) -> Result<Reserved, Refusal> {
        let mut out = [0; RESULTS];
        settle(c::manager_reserve(&mut self.words, len, &mut out))?;
        let [start, restarts, ..] = out;
        Ok(Reserved {
            segment: Segment::new(VirtAddr(start), len),
            restarts,
        })
    }

    /// Reserves this segment, in the arena or not.
    ///
    /// # Errors
    /// `BadAddress`, `BadRange`, `SegmentReserved`, `TableFull`.
    pub fn mark_as_reserved(&mut self, segment: Segment) -> Result<(), Refusal> {
        settle(c::manager_mark(
            &mut self.words,
            segment.start.0,
            segment.len,
        ))
    }

    /// Gives the segment up, and answers whether it was held exactly so.
    ///
    /// # Errors
    /// `BadAddress`, `BadRange`.
    pub fn release(&mut self, segment: Segment) -> Result<bool, Refusal> {
        let mut out = [0; RESULTS];
        settle(c::manager_release(
            &mut self.words,
            segment.start.0,
            segment.len,
            &mut out,
        ))?;
        Ok(out[0] == 1)
    }

    /// Replaces the segment by the two that meet at a page inside it, and answers the lower and the upper.
    ///
    /// # Errors
    /// `BadAddress`, `BadRange`, `InvalidSplitPoint`, `NotReserved`, `TableFull`.
    pub fn split(&mut self, segment: Segment, at: VirtAddr) -> Result<(Segment, Segment), Refusal> {
        let mut out = [0; RESULTS];
        settle(c::manager_split(
            &mut self.words,
            segment.start.0,
            segment.len,
            at.0,
            &mut out,
        ))?;
        let [low, low_len, high, high_len] = out;
        Ok((
            Segment::new(VirtAddr(low), low_len),
            Segment::new(VirtAddr(high), high_len),
        ))
    }

    /// The segments in list order.
    pub fn segments(&self) -> impl Iterator<Item = Segment> {
        let [_, _, count, rows @ ..] = &self.words;
        let count = usize::try_from(*count).unwrap_or(SEGMENTS);
        rows.chunks_exact(2)
            .take(count)
            .map(|row| Segment::new(VirtAddr(row[0]), row[1]))
    }
}

impl fmt::Debug for Manager {
    fn fmt(&self, f: &mut fmt::Formatter<'_>) -> fmt::Result {
        f.debug_list().entries(self.segments()).finish()
    }
}
