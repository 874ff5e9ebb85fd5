//! The flags of a page table entry: the bits that the kernel's memory regions use.

use core::ops::{BitOr, Sub};

#[derive(Clone, Copy, Debug, PartialEq, Eq)]
pub struct PageTableFlags(u64);

impl PageTableFlags {
    pub const PRESENT: Self = Self(1);
    pub const WRITABLE: Self = Self(1 << 1);
    pub const USER_ACCESSIBLE: Self = Self(1 << 2);
    pub const NO_EXECUTE: Self = Self(1 << 63);

    #[must_use]
    pub const fn bits(self) -> u64 {
        self.0
    }

    /// Every bit as given, known or not.
    #[must_use]
    pub const fn from_bits_retain(bits: u64) -> Self {
        Self(bits)
    }

    #[must_use]
    pub const fn contains(self, other: Self) -> bool {
        self.0 & other.0 == other.0
    }
}

impl BitOr for PageTableFlags {
    type Output = Self;

    fn bitor(self, rhs: Self) -> Self {
        Self(self.0 | rhs.0)
    }
}

impl Sub for PageTableFlags {
    type Output = Self;

    fn sub(self, rhs: Self) -> Self {
        Self(self.0 & !rhs.0)
    }
}
