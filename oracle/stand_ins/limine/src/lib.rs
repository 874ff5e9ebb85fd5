//! Stands in for the crate `limine`: the kinds of memory that the kernel's `init` looks for.

pub mod memory_map {
    #[derive(Clone, Copy, Debug, PartialEq, Eq)]
    pub struct EntryType(u64);

    impl EntryType {
        pub const BOOTLOADER_RECLAIMABLE: Self = Self(5);
        pub const EXECUTABLE_AND_MODULES: Self = Self(6);
    }
}
