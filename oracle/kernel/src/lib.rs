//! Stands in for the kernel's boot crate: the modules that its unchanged mem.rs, virt.rs and
//! mapper.rs lean on, and these three.

// As in the kernel: the names of the standard prelude would change what mem.rs means.
#![no_std]

extern crate alloc;
extern crate std;

mod limine;
pub mod mcore;
pub mod mem;
pub mod sync;

/// Runs the kernel's own `virt::init` on the stand-ins, once.
pub fn boot() {
    static BOOT: std::sync::Once = std::sync::Once::new();
    BOOT.call_once(|| {
        mem::address_space::RECURSIVE_INDEX.init_once(|| x86_64::machine::ROOT_INDEX);
        mem::virt::init();
    });
}

pub trait U64Ext {
    fn into_usize(self) -> usize;
}

impl U64Ext for u64 {
    fn into_usize(self) -> usize {
        usize::try_from(self).expect("a word is 64 bits wide")
    }
}

pub trait UsizeExt {
    fn into_u64(self) -> u64;
}

impl UsizeExt for usize {
    fn into_u64(self) -> u64 {
        self as u64
    }
}
