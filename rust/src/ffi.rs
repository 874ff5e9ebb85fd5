//! The library's functions on lent memory of whatever lengths: numbers in, numbers out, as include/machine.h and include/segments.h
//! say. The one module with unsafe code.
//!
//! They are safe to call with any slices: each function is proved to read and write inside what it is lent and nowhere else, and to
//! refuse what is no machine or manager. [`Machine`](crate::Machine) and [`Manager`](crate::segments::Manager) are easier to use.

#![allow(unsafe_code)]
// As many arguments as the headers have.
#![allow(clippy::too_many_arguments)]

/// A slice as C takes it: where it begins, and the type of a reference that may be lent so.
macro_rules! pointer {
    (mut $of:ty) => { *mut $of };
    (const $of:ty) => { *const $of };
}
macro_rules! slice {
    (mut $of:ty) => {
        &mut [$of]
    };
    (const $of:ty) => {
        &[$of]
    };
}
macro_rules! begin {
    (mut $slice:ident) => {
        $slice.as_mut_ptr()
    };
    (const $slice:ident) => {
        $slice.as_ptr()
    };
}

/// Declares the C functions, each with a safe one of the same name that takes slices: first those of `lent`, then numbers, then the rest.
macro_rules! exports {
    ($(
        $(#[$doc:meta])*
        fn $name:ident($($way:ident $lent:ident: $of:ty),*; $($number:ident: $kind:ty),*; $($rest_way:ident $rest:ident),*);
    )*) => {
        mod c {
            unsafe extern "C" {
                $(pub fn $name(
                    $($lent: pointer!($way $of), _: usize,)*
                    $($number: $kind,)*
                    $($rest: pointer!($rest_way u64), _: usize,)*
                ) -> u64;)*
            }
        }
        $(
            $(#[$doc])*
            #[must_use]
            pub fn $name(
                $($lent: slice!($way $of),)*
                $($number: $kind,)*
                $($rest: slice!($rest_way u64),)*
            ) -> u64 {
                // SAFETY: the function is declared as its header does (tests/header.rs compares them). Each slice goes with its own
                // length, is alive for the call, and is written to only where it is lent mutably; two that are lent, one of them
                // mutably, do not overlap, for they are references. The function keeps no pointer and takes any contents.
                unsafe {
                    c::$name(
                        $(begin!($way $lent), $lent.len(),)*
                        $($number,)*
                        $(begin!($rest_way $rest), $rest.len(),)*
                    )
                }
            }
        )*
    };
}

/// The machine's functions (include/machine.h).
#[cfg(has_machine)]
pub mod machine {
    exports! {
        /// Makes an empty machine; three words a file in `rows`.
        fn machine_start(mut words: u64, const frames: u8, const files: u8; ; const rows);
        /// 0 for a sound machine, 1 for anything else.
        fn machine_sound(const words: u64, const frames: u8, const files: u8; ;);
        /// Opens a process.
        fn machine_open(mut words: u64, const frames: u8, const files: u8; start: u64, size: u64; mut out);
        /// Closes a process.
        fn machine_close(mut words: u64, const frames: u8, const files: u8; process: u64;);
        /// Creates a private region.
        fn machine_create_private(
            mut words: u64, mut frames: u8, const files: u8;
            process: u64, given: u64, start: u64, size: u64, flags: u64, copy: u64, thread: u64, eager: u64; mut out
        );
        /// Creates a region with the contents of a file.
        fn machine_create_file(
            mut words: u64, mut frames: u8, const files: u8;
            process: u64, given: u64, start: u64, size: u64, flags: u64, copy: u64, thread: u64, file: u64, offset: u64,
            length: u64; mut out
        );
        /// Creates a shared region.
        fn machine_create_shared(
            mut words: u64, mut frames: u8, const files: u8; process: u64, given: u64, start: u64, size: u64; mut out
        );
        /// Removes a region.
        fn machine_remove(mut words: u64, const frames: u8, const files: u8; process: u64, addr: u64;);
        /// Removes all regions of a process.
        fn machine_clear(mut words: u64, const frames: u8, const files: u8; process: u64;);
        /// Splits regions at two bounds.
        fn machine_carve(mut words: u64, const frames: u8, const files: u8; process: u64, start: u64, end: u64; mut out);
        /// The region at an address.
        fn machine_region(const words: u64, const frames: u8, const files: u8; process: u64, addr: u64; mut out);
        /// The regions of a process.
        fn machine_regions(const words: u64, const frames: u8, const files: u8; process: u64; mut out);
        /// Whether a range is covered.
        fn machine_covers(const words: u64, const frames: u8, const files: u8; process: u64, start: u64, end: u64; mut out);
        /// A page fault.
        fn machine_fault(mut words: u64, mut frames: u8, const files: u8; process: u64, addr: u64, write: u64;);
        /// Faults over a range.
        fn machine_populate(
            mut words: u64, mut frames: u8, const files: u8; process: u64, addr: u64, len: u64, write: u64;
        );
        /// Faults over all regions that are copied at fork.
        fn machine_eager(mut words: u64, mut frames: u8, const files: u8; process: u64;);
        /// Clones a region.
        fn machine_clone_region(
            mut words: u64, mut frames: u8, const files: u8; process: u64, addr: u64, target: u64;
        );
        /// Clones a process.
        fn machine_clone(mut words: u64, mut frames: u8, const files: u8; process: u64, target: u64;);
        /// Gives a region other flags.
        fn machine_protect(mut words: u64, const frames: u8, const files: u8; process: u64, addr: u64, flags: u64;);
        /// Pins a region.
        fn machine_pin(mut words: u64, const frames: u8, const files: u8; process: u64, addr: u64;);
        /// Takes a pin off a region.
        fn machine_unpin(mut words: u64, const frames: u8, const files: u8; process: u64, addr: u64;);
        /// Loads a byte.
        fn machine_load(const words: u64, const frames: u8, const files: u8; process: u64, addr: u64; mut out);
        /// Stores a byte.
        fn machine_store(const words: u64, mut frames: u8, const files: u8; process: u64, addr: u64, byte: u8;);
        /// Any call by its number.
        fn machine_call(mut words: u64, mut frames: u8, const files: u8; ; const call, mut out);
        /// Many calls with one soundness test for all.
        fn machine_run(mut words: u64, mut frames: u8, const files: u8; ; const calls, mut answers);
    }
}

/// The lone manager's functions (include/segments.h).
#[cfg(has_segments)]
pub mod segments {
    exports! {
        /// Makes a manager.
        fn manager_new(mut words: u64; start: u64, size: u64;);
        /// Reserves the lowest free start.
        fn manager_reserve(mut words: u64; len: u64; mut out);
        /// Reserves a segment.
        fn manager_mark(mut words: u64; start: u64, len: u64;);
        /// Gives a segment up.
        fn manager_release(mut words: u64; start: u64, len: u64; mut out);
        /// Splits a segment.
        fn manager_split(mut words: u64; start: u64, len: u64, at: u64; mut out);
    }
}
