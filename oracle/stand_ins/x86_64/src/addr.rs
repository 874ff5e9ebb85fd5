//! Virtual addresses, canonical for 48 bits, and physical addresses.

use core::fmt;
use core::ops::{Add, Sub};

use crate::machine;

/// An address whose bits 63 to 47 are all equal.
#[derive(Clone, Copy, PartialEq, Eq, PartialOrd, Ord, Hash)]
pub struct VirtAddr(u64);

#[derive(Clone, Copy, Debug, PartialEq, Eq)]
pub struct VirtAddrNotValid(pub u64);

impl VirtAddr {
    /// # Panics
    /// If `addr` is not canonical.
    #[must_use]
    #[track_caller]
    pub const fn new(addr: u64) -> Self {
        match Self::try_new(addr) {
            Ok(addr) => addr,
            Err(_) => panic!("virtual address must be sign extended in bits 48 to 64"),
        }
    }

    /// # Errors
    /// If `addr` is not canonical.
    pub const fn try_new(addr: u64) -> Result<Self, VirtAddrNotValid> {
        match addr >> 47 {
            0 | 0x1_ffff => Ok(Self(addr)),
            _ => Err(VirtAddrNotValid(addr)),
        }
    }

    #[must_use]
    pub const fn as_u64(self) -> u64 {
        self.0
    }

    /// The place in this process's memory of the byte that the active page table maps here.
    ///
    /// # Panics
    /// If the page is not mapped.
    #[must_use]
    pub fn as_ptr<T>(self) -> *const T {
        self.as_mut_ptr()
    }

    /// As [`VirtAddr::as_ptr`].
    ///
    /// # Panics
    /// If the page is not mapped.
    #[must_use]
    pub fn as_mut_ptr<T>(self) -> *mut T {
        machine::place(self).cast()
    }

    #[must_use]
    pub const fn is_aligned(self, align: u64) -> bool {
        self.0.is_multiple_of(align)
    }
}

impl Add<u64> for VirtAddr {
    type Output = Self;

    #[track_caller]
    fn add(self, rhs: u64) -> Self {
        Self::new(self.0.checked_add(rhs).expect("virtual address overflows"))
    }
}

impl Sub<u64> for VirtAddr {
    type Output = Self;

    #[track_caller]
    fn sub(self, rhs: u64) -> Self {
        Self::new(self.0.checked_sub(rhs).expect("virtual address underflows"))
    }
}

impl Sub for VirtAddr {
    type Output = u64;

    #[track_caller]
    fn sub(self, rhs: Self) -> u64 {
        self.0
            .checked_sub(rhs.0)
            .expect("difference of virtual addresses underflows")
    }
}

impl fmt::Debug for VirtAddr {
    fn fmt(&self, f: &mut fmt::Formatter<'_>) -> fmt::Result {
        write!(f, "VirtAddr({:#x})", self.0)
    }
}

impl fmt::Pointer for VirtAddr {
    fn fmt(&self, f: &mut fmt::Formatter<'_>) -> fmt::Result {
        write!(f, "{:#x}", self.0)
    }
}

/// A byte's place in the machine's frames: frame number times 4,096 plus offset.
#[derive(Clone, Copy, Debug, PartialEq, Eq, PartialOrd, Ord, Hash)]
pub struct PhysAddr(u64);

impl PhysAddr {
    #[must_use]
    pub const fn new(addr: u64) -> Self {
        Self(addr)
    }

    #[must_use]
    pub const fn as_u64(self) -> u64 {
        self.0
    }
}

impl fmt::Pointer for PhysAddr {
    fn fmt(&self, f: &mut fmt::Formatter<'_>) -> fmt::Result {
        write!(f, "{:#x}", self.0)
    }
}
