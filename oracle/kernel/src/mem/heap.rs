//! Stands in for the kernel's heap, whose place `virt::init` reserves.

use x86_64::VirtAddr;

pub struct Heap;

impl Heap {
    pub fn bottom() -> VirtAddr {
        VirtAddr::new(0xffff_c000_0000_0000)
    }

    pub fn size() -> usize {
        1 << 20
    }
}
