//! The kernel's crate `kernel_virtual_memory`: its lib.rs and segment.rs, compiled where they stand.

// The kernel's lib.rs begins with `#![no_std]`, which only a crate's root may say with effect.
include!(concat!(env!("OUT_DIR"), "/unchanged.rs"));

pub use unchanged::*;
