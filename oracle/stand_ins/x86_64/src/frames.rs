//! Physical frames and inclusive ranges of them.

use core::marker::PhantomData;
use core::ops::Add;

use crate::PhysAddr;
use crate::pages::{PageSize, Size4KiB};

#[derive(Clone, Copy, Debug, PartialEq, Eq, PartialOrd, Ord, Hash)]
pub struct PhysFrame<S: PageSize = Size4KiB> {
    start: PhysAddr,
    size: PhantomData<S>,
}

impl<S: PageSize> PhysFrame<S> {
    #[must_use]
    pub fn containing_address(addr: PhysAddr) -> Self {
        Self {
            start: PhysAddr::new(addr.as_u64() / S::SIZE * S::SIZE),
            size: PhantomData,
        }
    }

    #[must_use]
    pub fn start_address(self) -> PhysAddr {
        self.start
    }
}

impl<S: PageSize> Add<u64> for PhysFrame<S> {
    type Output = Self;

    fn add(self, rhs: u64) -> Self {
        Self::containing_address(PhysAddr::new(self.start.as_u64() + rhs * S::SIZE))
    }
}

/// The frames from `start` to `end`, both among them.
#[derive(Clone, Copy, Debug, PartialEq, Eq)]
pub struct PhysFrameRangeInclusive<S: PageSize = Size4KiB> {
    pub start: PhysFrame<S>,
    pub end: PhysFrame<S>,
}

impl<S: PageSize> PhysFrameRangeInclusive<S> {
    #[must_use]
    pub fn len(&self) -> u64 {
        let start = self.start.start_address().as_u64();
        let end = self.end.start_address().as_u64();
        if self.is_empty() {
            0
        } else {
            (end - start) / S::SIZE + 1
        }
    }

    #[must_use]
    pub fn is_empty(&self) -> bool {
        self.start > self.end
    }
}

impl<S: PageSize> Iterator for PhysFrameRangeInclusive<S> {
    type Item = PhysFrame<S>;

    fn next(&mut self) -> Option<Self::Item> {
        let frame = self.start;
        if self.is_empty() {
            return None;
        }
        self.start = frame + 1;
        Some(frame)
    }
}
