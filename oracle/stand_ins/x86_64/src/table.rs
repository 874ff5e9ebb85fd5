//! Map, unmap, flag update and translation on a flat page table, in the names of the recursive one.

use core::marker::PhantomData;

use crate::flags::PageTableFlags;
use crate::frames::PhysFrame;
use crate::machine::{Entry, Table, with_table};
use crate::pages::{Page, PageSize, Size4KiB};
use crate::{PhysAddr, VirtAddr};

const LOWER_HALF_END: u64 = 1 << 47;

/// The handle by which a level 4 address leads to its flat table.
pub struct PageTable {
    pub(crate) root: usize,
}

#[derive(Debug)]
pub struct RecursivePageTable<'a> {
    root: usize,
    table: PhantomData<&'a mut ()>,
}

#[derive(Debug)]
pub struct InvalidPageTable;

impl<'a> RecursivePageTable<'a> {
    /// # Errors
    /// None here: each handle leads to a table.
    pub fn new(table: &'a mut PageTable) -> Result<Self, InvalidPageTable> {
        Ok(Self {
            root: table.root,
            table: PhantomData,
        })
    }
}

/// Lent to `map_to` for inner tables, which a flat table has none of.
pub trait FrameAllocator {}

#[derive(Debug)]
pub enum MapToError<S: PageSize> {
    /// No room for another page of the lower half.
    FrameAllocationFailed,
    PageAlreadyMapped(PhysFrame<S>),
}

#[derive(Debug)]
pub enum UnmapError {
    PageNotMapped,
}

#[derive(Debug)]
pub enum FlagUpdateError {
    PageNotMapped,
    ParentEntryHugePage,
}

#[derive(Debug)]
pub enum TranslateResult {
    Mapped {
        frame: PhysFrame,
        offset: u64,
        flags: PageTableFlags,
    },
    NotMapped,
    InvalidFrameAddress(PhysAddr),
}

/// There is no translation buffer to flush.
#[must_use]
pub struct MapperFlush;

impl MapperFlush {
    pub fn flush(self) {}
}

pub trait Mapper<S: PageSize> {
    /// # Safety
    /// As in the real crate.
    ///
    /// # Errors
    /// If the page is mapped, or the table is full.
    unsafe fn map_to<A: FrameAllocator>(
        &mut self,
        page: Page<S>,
        frame: PhysFrame<S>,
        flags: PageTableFlags,
        allocator: &mut A,
    ) -> Result<MapperFlush, MapToError<S>>;

    /// # Errors
    /// If the page is not mapped.
    fn unmap(&mut self, page: Page<S>) -> Result<(PhysFrame<S>, MapperFlush), UnmapError>;

    /// # Safety
    /// As in the real crate.
    ///
    /// # Errors
    /// If the page is not mapped.
    unsafe fn update_flags(
        &mut self,
        page: Page<S>,
        flags: PageTableFlags,
    ) -> Result<MapperFlush, FlagUpdateError>;
}

impl Mapper<Size4KiB> for RecursivePageTable<'_> {
    unsafe fn map_to<A: FrameAllocator>(
        &mut self,
        page: Page,
        frame: PhysFrame,
        flags: PageTableFlags,
        _allocator: &mut A,
    ) -> Result<MapperFlush, MapToError<Size4KiB>> {
        with_table(self.root, |table| table.map(page, frame, flags))
    }

    fn unmap(&mut self, page: Page) -> Result<(PhysFrame, MapperFlush), UnmapError> {
        with_table(self.root, |table| table.unmap(page))
    }

    unsafe fn update_flags(
        &mut self,
        page: Page,
        flags: PageTableFlags,
    ) -> Result<MapperFlush, FlagUpdateError> {
        with_table(self.root, |table| {
            let entry = table.entries.get_mut(&page.start_address().as_u64());
            entry.ok_or(FlagUpdateError::PageNotMapped)?.flags = flags;
            Ok(MapperFlush)
        })
    }
}

impl Table {
    fn map(
        &mut self,
        page: Page,
        frame: PhysFrame,
        flags: PageTableFlags,
    ) -> Result<MapperFlush, MapToError<Size4KiB>> {
        let at = page.start_address().as_u64();
        if let Some(entry) = self.entries.get(&at) {
            let held = PhysFrame::containing_address(entry.frame);
            return Err(MapToError::PageAlreadyMapped(held));
        }
        if at < LOWER_HALF_END {
            if self.user_pages >= self.user_limit {
                return Err(MapToError::FrameAllocationFailed);
            }
            self.user_pages += 1;
        }
        let frame = frame.start_address();
        self.entries.insert(at, Entry { frame, flags });
        Ok(MapperFlush)
    }

    fn unmap(&mut self, page: Page) -> Result<(PhysFrame, MapperFlush), UnmapError> {
        let at = page.start_address().as_u64();
        let entry = self.entries.remove(&at).ok_or(UnmapError::PageNotMapped)?;
        if at < LOWER_HALF_END {
            self.user_pages -= 1;
        }
        Ok((PhysFrame::containing_address(entry.frame), MapperFlush))
    }
}

pub trait Translate {
    fn translate(&self, addr: VirtAddr) -> TranslateResult;

    fn translate_addr(&self, addr: VirtAddr) -> Option<PhysAddr> {
        match self.translate(addr) {
            TranslateResult::Mapped { frame, offset, .. } => {
                Some(PhysAddr::new(frame.start_address().as_u64() + offset))
            }
            _ => None,
        }
    }
}

impl Translate for RecursivePageTable<'_> {
    fn translate(&self, addr: VirtAddr) -> TranslateResult {
        let page = Page::<Size4KiB>::containing_address(addr).start_address();
        let entry = with_table(self.root, |table| {
            table.entries.get(&page.as_u64()).copied()
        });
        match entry {
            Some(Entry { frame, flags }) => TranslateResult::Mapped {
                frame: PhysFrame::containing_address(frame),
                offset: addr - page,
                flags,
            },
            None => TranslateResult::NotMapped,
        }
    }
}
