//! Stands in for the crate `x86_64`: addresses, pages, frames, flags, and a flat page table that a
//! pointer made from a virtual address goes through.

mod addr;
mod flags;
mod frames;
pub mod machine;
mod pages;
mod table;

pub use addr::{PhysAddr, VirtAddr, VirtAddrNotValid};

pub mod registers {
    pub mod control {
        pub use crate::machine::{Cr3, Cr3Flags};
    }
}

pub mod structures {
    pub mod paging {
        pub use crate::flags::PageTableFlags;
        pub use crate::frames::PhysFrame;
        pub use crate::pages::{Page, PageSize, Size4KiB};
        pub use crate::table::{FrameAllocator, Mapper, PageTable, RecursivePageTable, Translate};

        pub mod frame {
            pub use crate::frames::PhysFrameRangeInclusive;
        }
        pub mod mapper {
            pub use crate::table::{
                FlagUpdateError, InvalidPageTable, MapToError, MapperFlush, TranslateResult,
                UnmapError,
            };
        }
        pub mod page {
            pub use crate::pages::PageRangeInclusive;
        }
    }
}
