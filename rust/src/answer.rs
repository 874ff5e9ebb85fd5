//! What a call answers when it does not refuse.

use alloc::vec::Vec;

use crate::address::VirtAddr;
use crate::call::{Call, Process};

/// The answer of any call, one variant for each kind that crate `model` has.
#[derive(Clone, Debug, PartialEq, Eq)]
pub enum Answer {
    /// It is done, and there is nothing to tell.
    Done,
    /// The process that was opened.
    Opened(Process),
    /// The start of the region that was created, or that is there.
    Placed(VirtAddr),
    /// Whether the range is covered.
    Covering(bool),
    /// The byte that was loaded.
    Loaded(u8),
    /// The starts of regions, in list order.
    Listed(Vec<VirtAddr>),
}

/// The words of a call's results: one, or how many starts there are and 64 of them; zeros behind.
pub const RESULTS: usize = 65;

impl Answer {
    /// The answer that these results of a call mean, where the library answered 0.
    ///
    /// # Panics
    /// For results that the library never gives (include/machine.h).
    #[must_use]
    pub fn read(call: &Call, results: &[u64; RESULTS]) -> Self {
        match call {
            Call::Open { .. } => Self::Opened(Process(results[0])),
            Call::CreatePrivate { .. }
            | Call::CreateFile { .. }
            | Call::CreateShared { .. }
            | Call::Region { .. } => Self::Placed(VirtAddr(results[0])),
            Call::Covers { .. } => Self::Covering(results[0] == 1),
            Call::Load { .. } => Self::Loaded(byte(results[0])),
            Call::Carve { .. } | Call::Regions { .. } => Self::Listed(starts(results)),
            Call::Sound
            | Call::Close { .. }
            | Call::Remove { .. }
            | Call::Clear { .. }
            | Call::Fault { .. }
            | Call::Populate { .. }
            | Call::Eager { .. }
            | Call::CloneRegion { .. }
            | Call::Clone { .. }
            | Call::Protect { .. }
            | Call::Pin { .. }
            | Call::Unpin { .. }
            | Call::Store { .. } => Self::Done,
        }
    }
}

/// A result that is a byte.
pub(crate) fn byte(result: u64) -> u8 {
    u8::try_from(result).expect("the library answers a byte")
}

/// The starts behind their number.
pub(crate) fn starts(results: &[u64; RESULTS]) -> Vec<VirtAddr> {
    let [count, starts @ ..] = results;
    let count = usize::try_from(*count).unwrap_or(RESULTS);
    starts.iter().take(count).copied().map(VirtAddr).collect()
}
