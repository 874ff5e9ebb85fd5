//! Addresses, pages, frames and page flags, kept apart by type, under the names of crate `address`.

use core::fmt;
use core::ops::BitOr;

/// The bytes of a page, and of a frame.
pub const PAGE_SIZE: u64 = 4096;

/// The first address past a process's own: 2^47.
pub const USER_END: u64 = 1 << 47;

/// A byte address, as a process names it. Any number may stand here: a call refuses what is no address of a process.
#[derive(Clone, Copy, Debug, Default, PartialEq, Eq, PartialOrd, Ord, Hash)]
#[repr(transparent)]
pub struct VirtAddr(pub u64);

/// The number of a page of 4,096 bytes.
#[derive(Clone, Copy, Debug, Default, PartialEq, Eq, PartialOrd, Ord, Hash)]
#[repr(transparent)]
pub struct Page(pub u64);

/// The number of a frame of 4,096 bytes.
#[derive(Clone, Copy, Debug, Default, PartialEq, Eq, PartialOrd, Ord, Hash)]
#[repr(transparent)]
pub struct PhysFrame(pub u64);

/// Flag bits of a page table entry: four are known, and a call refuses any other.
#[derive(Clone, Copy, Debug, Default, PartialEq, Eq, Hash)]
#[repr(transparent)]
pub struct PageTableFlags(pub u64);

impl VirtAddr {
    /// The number itself.
    #[must_use]
    pub const fn as_u64(self) -> u64 {
        self.0
    }

    /// Whether it is below 2^47, where a process's own addresses are.
    #[must_use]
    pub const fn is_user(self) -> bool {
        self.0 < USER_END
    }

    /// Whether a page starts here.
    #[must_use]
    pub const fn is_aligned(self) -> bool {
        self.0.is_multiple_of(PAGE_SIZE)
    }

    /// Its place in its page.
    #[must_use]
    pub const fn page_offset(self) -> u64 {
        self.0 % PAGE_SIZE
    }
}

impl Page {
    /// The page that holds an address.
    #[must_use]
    pub const fn containing_address(addr: VirtAddr) -> Self {
        Self(addr.0 / PAGE_SIZE)
    }

    /// The address of its first byte; a number past the last page counts from page 0 again.
    #[must_use]
    pub const fn start_address(self) -> VirtAddr {
        VirtAddr(self.0.wrapping_mul(PAGE_SIZE))
    }
}

impl PageTableFlags {
    /// The page may be used at all; every region has it.
    pub const PRESENT: Self = Self(1);
    /// Stores are allowed.
    pub const WRITABLE: Self = Self(2);
    /// A process may use the page, and not the kernel alone.
    pub const USER_ACCESSIBLE: Self = Self(4);
    /// Instructions may not be fetched.
    pub const NO_EXECUTE: Self = Self(1 << 63);

    /// The bits themselves.
    #[must_use]
    pub const fn bits(self) -> u64 {
        self.0
    }

    /// Whether every bit of `other` is set here.
    #[must_use]
    pub const fn contains(self, other: Self) -> bool {
        self.0 & other.0 == other.0
    }

    /// These flags, the bits of `other` off.
    #[must_use]
    pub const fn without(self, other: Self) -> Self {
        Self(self.0 & !other.0)
    }
}

impl BitOr for PageTableFlags {
    type Output = Self;

    fn bitor(self, other: Self) -> Self {
        Self(self.0 | other.0)
    }
}

impl fmt::Display for VirtAddr {
    fn fmt(&self, f: &mut fmt::Formatter<'_>) -> fmt::Result {
        write!(f, "{:#x}", self.0)
    }
}
