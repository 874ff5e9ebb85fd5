//! Faults, populate and eager populate: the kernel's own, with the entry table's limit before them. A doomed write,
//! which the kernel grants once (request 2026-01), is answered here.

use std::sync::Arc;

use kernel::mcore::mtask::process::mem::probe::{self, Seen, SeenKind};
use kernel::mcore::mtask::process::mem::{ForkPolicy, MemoryRegion, PageInError};
use kernel::mem::address_space::USER_PAGES;
use kernel::mem::phys;
use x86_64::VirtAddr;
use x86_64::structures::paging::{Page, PageTableFlags};

use super::form::{self, PAGE, USER_END};
use super::process::Process;
use super::{ENTRIES, Machine};
use crate::answer::{Answer, Refusal};
use crate::calls::MachineCall;

/// The kernel walks every page of a range. A longer range is handed to it region by region, for the
/// pages between regions change nothing.
pub(super) const LONGEST_WALK: u64 = 1024 * PAGE;
const UPPER_HALF: u64 = 0xffff_8000_0000_0000;

impl Machine {
    pub(super) fn fault(&self, p: u64, addr: u64, write: bool) -> Result<Answer, Refusal> {
        let process = self.process(p)?;
        form::user(addr)?;
        let region = process.region_at(addr)?;
        let page = Page::containing_address(VirtAddr::new(addr));
        let start = page.start_address().as_u64();
        self.not_doomed(process, &region, start, write)?;
        self.room_for_entry(process, &region, start, write)?;
        region
            .handle_fault(&process.space, page, write)
            .map_err(refusal)?;
        Ok(Answer::done())
    }

    pub(super) fn populate(
        &self,
        p: u64,
        addr: u64,
        len: u64,
        write: bool,
    ) -> Result<Answer, Refusal> {
        let process = self.process(p)?;
        form::user(addr)?;
        let last = len
            .checked_sub(1)
            .and_then(|to_last| addr.checked_add(to_last));
        match last {
            Some(last) if !self.guarded => walk_short(addr, last)?,
            Some(UPPER_HALF..) => return Err(Refusal::BadRange),
            Some(last @ ..USER_END) => {
                self.populate_to(process, addr, last, write)?;
                return Ok(Answer::done());
            }
            _ => {}
        }
        hand_over(process, addr, len, write)?;
        Ok(Answer::done())
    }

    /// The kernel asks for write access everywhere; where that is not what a region grants (request 2026-02), or the
    /// entries can run out, its regions are populated one by one.
    pub(super) fn eager(&self, p: u64) -> Result<Answer, Refusal> {
        let process = self.process(p)?;
        let eager: Vec<_> = process
            .attached()
            .iter()
            .filter_map(|region| eager_region(region))
            .collect();
        let agreed = eager.iter().all(|region| region.user && region.writable);
        if self.entries_suffice() && (agreed || !self.guarded) {
            let done = process.regions.populate_eager_copies(&process.space);
            return done.map(|()| Answer::done()).map_err(refusal);
        }
        for region in eager.iter().filter(|region| region.user) {
            self.populate_to(process, region.start, region.last, region.writable)?;
        }
        Ok(Answer::done())
    }

    /// Populates from `addr` to `last`, both user addresses.
    fn populate_to(
        &self,
        process: &Process,
        addr: u64,
        last: u64,
        write: bool,
    ) -> Result<(), Refusal> {
        let whole = self.entries_suffice() && !self.may_doom(process, write);
        if whole && last - addr < LONGEST_WALK {
            return hand_over(process, addr, last - addr + 1, write);
        }
        for (region, from, to) in in_regions(process, addr, last) {
            self.populate_region(process, &region, from, to, write)?;
        }
        Ok(())
    }

    /// Populates inside one region: page by page where the entries can run out, or a write be doomed.
    fn populate_region(
        &self,
        process: &Process,
        region: &MemoryRegion,
        from: u64,
        to: u64,
        write: bool,
    ) -> Result<(), Refusal> {
        if self.entries_suffice() && !(write && is_read_only(region)) {
            return hand_over(process, from, to - from + 1, write);
        }
        for page in (from..=to).step_by(PAGE as usize) {
            self.not_doomed(process, region, page, write)?;
            self.room_for_entry(process, region, page, write)?;
            hand_over(process, page, 1, write)?;
        }
        Ok(())
    }

    /// Whether a call may go by a request's rule and not by the Rust's: a write may be doomed (2026-01), or eager populate
    /// meets a region that it may not write (2026-02).
    pub fn by_request(&self, call: &MachineCall) -> bool {
        let of = |p: u64| self.process(p).ok();
        match *call {
            MachineCall::Fault { p, write, .. } | MachineCall::Populate { p, write, .. } => {
                of(p).is_some_and(|process| self.may_doom(process, write))
            }
            MachineCall::Eager { p } => of(p).is_some_and(|process| {
                let mut eager = process.attached().into_iter().filter_map(|r| eager_region(&r));
                eager.any(|region| !region.user || !region.writable)
            }),
            _ => false,
        }
    }

    /// Whether a write to some page of a process may be doomed. An unguarded machine has the Rust's answers alone.
    fn may_doom(&self, process: &Process, write: bool) -> bool {
        self.guarded && write && process.attached().iter().any(|region| is_read_only(region))
    }

    /// `NotWritable` for a write to a read-only region's page that is neither mapped nor backed.
    fn not_doomed(
        &self,
        process: &Process,
        region: &MemoryRegion,
        page: u64,
        write: bool,
    ) -> Result<(), Refusal> {
        let doomed = self.guarded
            && write
            && is_read_only(region)
            && process.space.translate_flags(VirtAddr::new(page)).is_none()
            && !is_backed(&probe::see(region), page);
        if doomed {
            Err(Refusal::NotWritable)
        } else {
            Ok(())
        }
    }

    /// Each new entry takes a frame, so there are enough entries if the free frames are fewer.
    fn entries_suffice(&self) -> bool {
        self.entries() + phys::free_frames() <= ENTRIES
    }

    /// `TableFull` if the fault wants an entry, none is left, and no lower refusal is due.
    fn room_for_entry(
        &self,
        process: &Process,
        region: &MemoryRegion,
        page: u64,
        write: bool,
    ) -> Result<(), Refusal> {
        if self.entries() < ENTRIES || phys::free_frames() == 0 {
            return Ok(());
        }
        let wants = wants_entry(process, &probe::see(region), page, write);
        if wants {
            Err(Refusal::TableFull)
        } else {
            Ok(())
        }
    }
}

/// The regions that lie between the two, by start, and where: the first page and the last address.
pub(super) fn in_regions(
    process: &Process,
    addr: u64,
    last: u64,
) -> impl Iterator<Item = (Arc<MemoryRegion>, u64, u64)> {
    let mut regions = process.attached();
    regions.sort_by_key(|region| region.addr());
    let parts = regions.into_iter().map(move |region| {
        let first = region.addr().as_u64();
        let from = first.max(addr / PAGE * PAGE);
        let to = last.min(first + (region.size() as u64 - 1));
        (region, from, to)
    });
    parts.filter(|(_, from, to)| from <= to)
}

/// What an unguarded machine still refuses: a walk that would not end within our lifetime.
fn walk_short(addr: u64, last: u64) -> Result<(), Refusal> {
    let short = last.min(USER_END) - addr < LONGEST_WALK;
    short.then_some(()).ok_or(Refusal::BadRange)
}

/// Has the kernel populate.
pub(super) fn hand_over(
    process: &Process,
    addr: u64,
    len: u64,
    write: bool,
) -> Result<(), Refusal> {
    let addr = VirtAddr::new(addr);
    let done = process
        .regions
        .populate(&process.space, addr, len as usize, write);
    done.map_err(refusal)
}

/// A Private CopyEager region: where it lies, and what it grants.
struct EagerRegion {
    start: u64,
    last: u64,
    user: bool,
    writable: bool,
}

fn eager_region(region: &MemoryRegion) -> Option<EagerRegion> {
    let seen = probe::see(region);
    let SeenKind::Private(marks) = seen.kind else {
        return None;
    };
    (marks.fork == ForkPolicy::CopyEager).then(|| EagerRegion {
        start: seen.start,
        last: seen.start + (seen.size - 1),
        user: marks.flags.contains(PageTableFlags::USER_ACCESSIBLE),
        writable: marks.flags.contains(PageTableFlags::WRITABLE),
    })
}

/// Whether a region lets a process read its pages and not write them.
fn is_read_only(region: &MemoryRegion) -> bool {
    let (SeenKind::Private(marks) | SeenKind::File(marks, _)) = probe::see(region).kind else {
        return false;
    };
    let user = marks.flags.contains(PageTableFlags::USER_ACCESSIBLE);
    user && !marks.flags.contains(PageTableFlags::WRITABLE)
}

fn is_backed(seen: &Seen, page: u64) -> bool {
    seen.range.is_some() || seen.pages.iter().any(|(at, ..)| *at == page)
}

/// Whether a fault would end with a new page entry, if the table had one left.
fn wants_entry(process: &Process, seen: &Seen, page: u64, write: bool) -> bool {
    let (SeenKind::Private(marks) | SeenKind::File(marks, _)) = &seen.kind else {
        return false;
    };
    let writable = marks.flags.contains(PageTableFlags::WRITABLE);
    if !marks.flags.contains(PageTableFlags::USER_ACCESSIBLE) {
        return false;
    }
    // The copy of a page that has an entry takes that entry's place.
    if seen.pages.iter().any(|(at, ..)| *at == page) {
        return false;
    }
    let copies = write && writable && seen.range.is_some_and(|range| range.holders > 1);
    if let Some(flags) = process.space.translate_flags(VirtAddr::new(page)) {
        return copies && !flags.contains(PageTableFlags::WRITABLE);
    }
    let fills = seen.range.is_none() && !reads_unreadable(seen, page);
    let has_room = process.space.user_mappings().len() < USER_PAGES;
    has_room && (copies || fills)
}

fn reads_unreadable(seen: &Seen, page: u64) -> bool {
    let SeenKind::File(_, part) = &seen.kind else {
        return false;
    };
    !part.node.is_readable() && page - seen.start < part.length
}

pub(super) fn refusal(error: PageInError) -> Refusal {
    match error {
        PageInError::OutOfMemory => Refusal::OutOfMemory,
        PageInError::MapFailed => Refusal::MapFailed,
        PageInError::ReadFailed => Refusal::ReadFailed,
        PageInError::NotWritable => Refusal::NotWritable,
        PageInError::NotAccessible => Refusal::NotAccessible,
    }
}
