//! What the processor holds: the flat page tables, the active one of them, and the frames' bytes.
//! Each thread is a processor of its own.

use std::cell::{Cell, RefCell};
use std::collections::BTreeMap;

use crate::flags::PageTableFlags;
use crate::frames::PhysFrame;
use crate::table::PageTable;
use crate::{PhysAddr, VirtAddr};

const PAGE: u64 = 4096;
/// Level 4 tables lie in frames far above the pool's, and in a window of the upper half.
const ROOT_FRAMES: u64 = 1 << 40;
const ROOT_WINDOW: u64 = 0xffff_f000_0000_0000;
/// The level 4 entry of that window.
pub const ROOT_INDEX: usize = 480;

thread_local! {
    static TABLES: RefCell<Vec<Table>> = const { RefCell::new(Vec::new()) };
    static ACTIVE: Cell<u64> = const { Cell::new(u64::MAX) };
    static BYTES: Cell<*mut u8> = const { Cell::new(std::ptr::null_mut()) };
}

/// A flat page table: page start to frame and flags.
pub(crate) struct Table {
    pub entries: BTreeMap<u64, Entry>,
    pub user_pages: usize,
    pub user_limit: usize,
    handle: Box<PageTable>,
}

#[derive(Clone, Copy)]
pub(crate) struct Entry {
    pub frame: PhysAddr,
    pub flags: PageTableFlags,
}

pub(crate) fn with_table<R>(root: usize, f: impl FnOnce(&mut Table) -> R) -> R {
    TABLES.with_borrow_mut(|tables| f(&mut tables[root]))
}

/// The first frame's bytes; the frames lie one behind the other.
pub fn set_frame_bytes(first: *mut u8) {
    BYTES.set(first);
}

/// An empty page table for at most `user_limit` pages of the lower half, as the number, level 4
/// frame and level 4 address that the kernel's mapper is made with.
#[must_use]
pub fn new_table(user_limit: usize) -> (PhysFrame, VirtAddr) {
    let root = TABLES.with_borrow_mut(|tables| {
        let root = tables.len();
        tables.push(Table {
            entries: BTreeMap::new(),
            user_pages: 0,
            user_limit,
            handle: Box::new(PageTable { root }),
        });
        root as u64
    });
    (
        PhysFrame::containing_address(PhysAddr::new(ROOT_FRAMES + root * PAGE)),
        VirtAddr::new(ROOT_WINDOW + root * PAGE),
    )
}

/// Gives up what a page table maps, once no processor uses it any more.
pub fn clear_table(level4: PhysFrame) {
    with_table(root_of(level4), |table| table.entries.clear());
}

/// The mapped pages of the lower half in page order: page start, frame and flags.
#[must_use]
pub fn user_mappings(level4: PhysFrame) -> Vec<(u64, PhysAddr, PageTableFlags)> {
    with_table(root_of(level4), |table| {
        let user = table.entries.range(..1 << 47);
        user.map(|(page, entry)| (*page, entry.frame, entry.flags))
            .collect()
    })
}

fn root_of(level4: PhysFrame) -> usize {
    ((level4.start_address().as_u64() - ROOT_FRAMES) / PAGE) as usize
}

/// The byte that `addr` stands for: a level 4 table in its window, or through the active table.
pub(crate) fn place(addr: VirtAddr) -> *mut u8 {
    let page = addr.as_u64() / PAGE * PAGE;
    TABLES.with_borrow_mut(|tables| {
        let tables_end = ROOT_WINDOW + tables.len() as u64 * PAGE;
        if (ROOT_WINDOW..tables_end).contains(&page) {
            let table = &mut tables[((page - ROOT_WINDOW) / PAGE) as usize];
            return (&raw mut *table.handle).cast();
        }
        let active = root_of(Cr3::read().0);
        let Some(entry) = tables[active].entries.get(&page) else {
            panic!("page fault in the kernel at {addr:p}");
        };
        let at = entry.frame.as_u64() + addr.as_u64() % PAGE;
        BYTES.get().wrapping_add(at as usize)
    })
}

/// The register that names the active page table.
pub struct Cr3;

#[derive(Clone, Copy, Debug)]
pub struct Cr3Flags;

impl Cr3 {
    #[must_use]
    pub fn read() -> (PhysFrame, Cr3Flags) {
        let frame = PhysFrame::containing_address(PhysAddr::new(ACTIVE.get()));
        (frame, Cr3Flags)
    }

    pub fn write(level4: PhysFrame) {
        ACTIVE.set(level4.start_address().as_u64());
    }
}
