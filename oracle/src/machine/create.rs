//! Creation of regions: the kernel's manager finds the place, the kernel zeroes an eager range.

use std::sync::Arc;

use kernel::mcore::mtask::process::mem::{
    FileBackedMemoryRegion, ForkPolicy, MemoryRegion, PrivateMemoryRegion, SharedMemoryRegion,
    probe,
};
use kernel::mem::phys::{self, PhysicalMemory};
use kernel::mem::virt::{OwnedSegment, VirtualMemoryAllocator};
use kernel_vfs::MmapRegion;
use kernel_virtual_memory::Segment;
use probe::SeenMarks;
use x86_64::VirtAddr;
use x86_64::structures::paging::page::PageRangeInclusive;
use x86_64::structures::paging::{PageTableFlags, Size4KiB};

use super::form::{self, PAGE, segment_len};
use super::{Machine, SLOTS};
use crate::answer::{Answer, Refusal};
use crate::calls::{Create, Kind, Marks, Part};

impl Machine {
    pub(super) fn create(&self, create: &Create) -> Result<Answer, Refusal> {
        let process = self.process(create.p)?;
        self.guard(form::create(create))?;
        form::countable(create.size)?;
        if let Kind::File(_, part) = create.kind {
            self.file_of(part)?;
        }
        let segment = self.reserve(create)?;
        if let Kind::Eager(_) | Kind::Shared = create.kind {
            has_run(segment.len)?;
        }
        if process.slots() >= SLOTS {
            return Err(Refusal::TableFull);
        }
        let start = segment.start.as_u64();
        let region = self.make(create, segment)?;
        process.regions.add_region(region);
        Ok(Answer::hex(start))
    }

    fn file_of(&self, part: Part) -> Result<&kernel_vfs::node::VfsNode, Refusal> {
        let number = usize::try_from(part.file).ok();
        number
            .and_then(|number| self.files.get(number))
            .ok_or(Refusal::NoFile)
    }

    /// The region's segment, held in the process's manager until it is dropped.
    pub(super) fn reserve(&self, create: &Create) -> Result<OwnedSegment<'static>, Refusal> {
        let vmm = &self.at(create.p)?.vmm;
        let len = segment_len(create.size);
        match create.start {
            Some(start) => {
                let segment = Segment::new(VirtAddr::new(start), len);
                vmm.mark_as_reserved(segment)
                    .map_err(|_| Refusal::SegmentReserved)
            }
            None => vmm.reserve((len / PAGE) as usize).ok_or(Refusal::NoSpace),
        }
    }

    pub(super) fn make(
        &self,
        create: &Create,
        segment: OwnedSegment<'static>,
    ) -> Result<MemoryRegion, Refusal> {
        let size = create.size as usize;
        Ok(match create.kind {
            Kind::Lazy(given) => MemoryRegion::Private(probe::lazy(segment, size, marks(given))),
            Kind::Eager(given) => MemoryRegion::Private(self.eager_region(create, segment, given)?),
            Kind::File(given, part) => {
                let region = probe::lazy(segment, size, marks(given));
                let node = self.file_of(part)?.clone();
                let (offset, length) = (part.offset as usize, part.length as usize);
                let file = FileBackedMemoryRegion::new(region, node, offset, length);
                MemoryRegion::FileBacked(file)
            }
            Kind::Shared => MemoryRegion::Shared(shared(segment, size)?),
        })
    }

    /// The kernel populates whole pages, writable and mapped. It does so in an address space of
    /// creation's own, whose pages are unmapped again; then the region gets its size and flags.
    fn eager_region(
        &self,
        create: &Create,
        segment: OwnedSegment<'static>,
        given: Marks,
    ) -> Result<PrivateMemoryRegion, Refusal> {
        let SeenMarks {
            flags,
            fork,
            per_thread,
        } = marks(given);
        let window = *segment;
        let (start, pages) = (window.start, (window.len / PAGE) as usize);
        let asked = if self.guarded {
            flags | PageTableFlags::WRITABLE
        } else {
            flags
        };
        self.creation.activate();
        let populated = PrivateMemoryRegion::new_populated(
            segment,
            start,
            pages,
            asked,
            fork,
            per_thread,
            &self.creation,
        );
        let mut region = populated.map_err(|_| Refusal::OutOfMemory)?;
        let window = PageRangeInclusive::<Size4KiB>::from(&window);
        self.creation.unmap_range(window, |_| {});
        probe::make_exact(&mut region, create.size as usize, flags);
        Ok(region)
    }
}

fn marks(given: Marks) -> SeenMarks {
    SeenMarks {
        flags: PageTableFlags::from_bits_retain(given.flags),
        fork: if given.copy {
            ForkPolicy::CopyEager
        } else {
            ForkPolicy::CopyOnWrite
        },
        per_thread: given.thread,
    }
}

pub(super) fn has_run(len: u64) -> Result<(), Refusal> {
    let run = phys::has_run((len / PAGE) as usize);
    run.then_some(()).ok_or(Refusal::OutOfMemory)
}

/// A shared region over the lowest zeroed run, which the device behind it owns.
fn shared(segment: OwnedSegment<'static>, size: usize) -> Result<SharedMemoryRegion, Refusal> {
    let pages = (segment.len / PAGE) as usize;
    let owned = PhysicalMemory::allocate_frames::<Size4KiB>(pages);
    let owned = owned.ok_or(Refusal::OutOfMemory)?;
    let frames = *owned;
    for frame in frames {
        phys::with_bytes(phys::number(frame), |bytes| bytes.fill(0));
    }
    let memory = MmapRegion::new(Arc::new(owned));
    Ok(SharedMemoryRegion::new(segment, size, frames, memory))
}
