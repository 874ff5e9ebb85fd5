//! Stands in for the kernel's `AddressSpace`: the locks and calls around its unchanged mapper, on a
//! page table that holds 128 user pages.

use alloc::vec::Vec;

use conquer_once::spin::OnceCell;
use mapper::AddressSpaceMapper;
use spin::RwLock;
use x86_64::machine::{clear_table, new_table, user_mappings};
use x86_64::registers::control::Cr3;
use x86_64::structures::paging::mapper::{FlagUpdateError, MapToError};
use x86_64::structures::paging::page::PageRangeInclusive;
use x86_64::structures::paging::{
    Mapper, Page, PageSize, PageTableFlags, PhysFrame, RecursivePageTable,
};
use x86_64::{PhysAddr, VirtAddr};

// The kernel has more callers than the oracle.
#[allow(dead_code)]
mod mapper {
    include!(env!("MAPPER_RS"));
}

pub const USER_PAGES: usize = 128;

pub static RECURSIVE_INDEX: OnceCell<usize> = OnceCell::uninit();

#[must_use]
pub const fn sign_extend_vaddr(vaddr: u64) -> u64 {
    ((vaddr << 16).cast_signed() >> 16).cast_unsigned()
}

pub struct AddressSpace {
    level4_frame: PhysFrame,
    inner: RwLock<AddressSpaceMapper>,
}

impl AddressSpace {
    /// An empty address space for a process.
    #[must_use]
    pub fn for_process() -> Self {
        Self::with_limit(USER_PAGES)
    }

    /// An empty address space with room for every page of an eager region while it is zeroed.
    #[must_use]
    pub fn for_creation() -> Self {
        Self::with_limit(usize::MAX)
    }

    fn with_limit(user_limit: usize) -> Self {
        let (level4_frame, level4_vaddr) = new_table(user_limit);
        let inner = RwLock::new(AddressSpaceMapper::new(level4_frame, level4_vaddr));
        Self {
            level4_frame,
            inner,
        }
    }

    pub fn activate(&self) {
        Cr3::write(self.level4_frame);
    }

    pub fn is_active(&self) -> bool {
        self.inner.read().is_active()
    }

    /// The mapped user pages in page order: page start, frame and flags.
    #[must_use]
    pub fn user_mappings(&self) -> Vec<(u64, PhysAddr, PageTableFlags)> {
        user_mappings(self.level4_frame)
    }

    /// There is one processor.
    pub fn flush_on_all_cpus(&self) {}

    /// There is one thread.
    #[must_use]
    pub fn lock_kernel_half() -> KernelHalfGuard {
        KernelHalfGuard
    }

    /// # Errors
    /// If the page is mapped or the table is full.
    pub fn map<S: PageSize>(
        &self,
        page: Page<S>,
        frame: PhysFrame<S>,
        flags: PageTableFlags,
    ) -> Result<(), MapToError<S>>
    where
        for<'a> RecursivePageTable<'a>: Mapper<S>,
    {
        self.inner.write().map(page, frame, flags)
    }

    /// # Errors
    /// If a page is mapped or the table is full. No page of the range is then left mapped.
    pub fn map_range<S: PageSize>(
        &self,
        pages: impl Into<PageRangeInclusive<S>>,
        frames: impl Iterator<Item = PhysFrame<S>>,
        flags: PageTableFlags,
    ) -> Result<(), MapToError<S>>
    where
        for<'a> RecursivePageTable<'a>: Mapper<S>,
    {
        self.inner.write().map_range(pages.into(), frames, flags)
    }

    pub fn unmap<S: PageSize>(&self, page: Page<S>) -> Option<PhysFrame<S>>
    where
        for<'a> RecursivePageTable<'a>: Mapper<S>,
    {
        self.inner.write().unmap(page)
    }

    pub fn unmap_range<S: PageSize>(
        &self,
        pages: impl Into<PageRangeInclusive<S>>,
        callback: impl Fn(PhysFrame<S>),
    ) where
        for<'a> RecursivePageTable<'a>: Mapper<S>,
    {
        self.inner.write().unmap_range(pages.into(), callback);
    }

    /// # Errors
    /// If the page is not mapped.
    pub fn remap<S: PageSize, F: Fn(PageTableFlags) -> PageTableFlags>(
        &self,
        page: Page<S>,
        f: F,
    ) -> Result<(), FlagUpdateError>
    where
        for<'a> RecursivePageTable<'a>: Mapper<S>,
    {
        self.inner.write().remap(page, &f)
    }

    pub fn translate(&self, vaddr: VirtAddr) -> Option<PhysAddr> {
        self.inner.read().translate(vaddr)
    }

    pub fn translate_flags(&self, vaddr: VirtAddr) -> Option<PageTableFlags> {
        self.inner.read().translate_flags(vaddr)
    }
}

impl Drop for AddressSpace {
    fn drop(&mut self) {
        clear_table(self.level4_frame);
    }
}

/// Stands for the lock on the kernel's half.
pub struct KernelHalfGuard;
