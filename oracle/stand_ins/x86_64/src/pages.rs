//! Pages of 4,096 bytes and inclusive ranges of them.

use core::fmt::Debug;
use core::hash::Hash;
use core::marker::PhantomData;
use core::ops::{Add, Sub};

use crate::VirtAddr;

pub trait PageSize: Copy + Debug + Eq + Ord + Hash {
    const SIZE: u64;
}

#[derive(Clone, Copy, Debug, PartialEq, Eq, PartialOrd, Ord, Hash)]
pub enum Size4KiB {}

impl PageSize for Size4KiB {
    const SIZE: u64 = 4096;
}

#[derive(Clone, Copy, Debug, PartialEq, Eq, PartialOrd, Ord, Hash)]
pub struct Page<S: PageSize = Size4KiB> {
    start: VirtAddr,
    size: PhantomData<S>,
}

impl<S: PageSize> Page<S> {
    #[must_use]
    pub fn containing_address(addr: VirtAddr) -> Self {
        Self {
            start: VirtAddr::new(addr.as_u64() / S::SIZE * S::SIZE),
            size: PhantomData,
        }
    }

    #[must_use]
    pub fn start_address(self) -> VirtAddr {
        self.start
    }

    #[must_use]
    pub fn range_inclusive(start: Self, end: Self) -> PageRangeInclusive<S> {
        PageRangeInclusive { start, end }
    }

    fn ends_half(self) -> bool {
        let next = self.start.as_u64().checked_add(S::SIZE);
        next.is_none_or(|next| VirtAddr::try_new(next).is_err())
    }
}

impl<S: PageSize> Add<u64> for Page<S> {
    type Output = Self;

    #[track_caller]
    fn add(self, rhs: u64) -> Self {
        Self::containing_address(self.start + rhs * S::SIZE)
    }
}

impl<S: PageSize> Sub for Page<S> {
    type Output = u64;

    #[track_caller]
    fn sub(self, rhs: Self) -> u64 {
        (self.start - rhs.start) / S::SIZE
    }
}

/// The pages from `start` to `end`, both among them.
#[derive(Clone, Copy, Debug, PartialEq, Eq)]
pub struct PageRangeInclusive<S: PageSize = Size4KiB> {
    pub start: Page<S>,
    pub end: Page<S>,
}

impl<S: PageSize> Iterator for PageRangeInclusive<S> {
    type Item = Page<S>;

    fn next(&mut self) -> Option<Page<S>> {
        let page = self.start;
        if page > self.end {
            return None;
        }
        // The last page of a canonical half has no next page to step to.
        if page == self.end && page.ends_half() {
            self.end = Page::containing_address(page.start - S::SIZE);
        } else {
            self.start = page + 1;
        }
        Some(page)
    }
}
