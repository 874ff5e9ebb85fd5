//! Reads and makes what the kernel's mem.rs keeps private. Nothing here decides an answer but
//! [`carve_with_slots`], which stands beside the kernel's carve where the slots can run out.

use super::*;
use crate::mem::phys;

/// What a region holds, as numbers.
pub struct Seen {
    pub start: u64,
    pub size: u64,
    pub segment: (u64, u64),
    pub kind: SeenKind,
    /// Page start, frame and holders of each page entry, in page order.
    pub pages: Vec<(u64, usize, usize)>,
    pub range: Option<SeenRange>,
}

pub enum SeenKind {
    Private(SeenMarks),
    File(SeenMarks, SeenPart),
    Shared,
}

#[derive(Clone, Copy)]
pub struct SeenMarks {
    pub flags: PageTableFlags,
    pub fork: ForkPolicy,
    pub per_thread: bool,
}

pub struct SeenPart {
    pub node: VfsNode,
    pub offset: u64,
    pub length: u64,
}

#[derive(Clone, Copy)]
pub struct SeenRange {
    pub page: u64,
    pub frame: usize,
    pub len: u64,
    pub holders: usize,
}

/// The regions of a process in list order.
#[must_use]
pub fn regions(regions: &MemoryRegions) -> Vec<Arc<MemoryRegion>> {
    regions.regions.lock_without_interrupts().clone()
}

#[must_use]
pub fn see(region: &MemoryRegion) -> Seen {
    match region {
        MemoryRegion::Private(r) => see_private(r, SeenKind::Private(marks(r))),
        MemoryRegion::FileBacked(r) => {
            let part = SeenPart {
                node: r.node.clone(),
                offset: r.file_offset.into_u64(),
                length: r.file_len.into_u64(),
            };
            see_private(&r.region, SeenKind::File(marks(&r.region), part))
        }
        MemoryRegion::Shared(r) => see_shared(r),
    }
}

fn marks(region: &PrivateMemoryRegion) -> SeenMarks {
    SeenMarks {
        flags: region.state.lock().flags,
        fork: region.fork,
        per_thread: region.per_thread,
    }
}

fn see_private(region: &PrivateMemoryRegion, kind: SeenKind) -> Seen {
    let state = region.state.lock();
    let pages = state.pages.iter().map(|(page, backing)| {
        let frame = phys::number(backing.start);
        (
            page.start_address().as_u64(),
            frame,
            Arc::strong_count(backing),
        )
    });
    let range = state
        .ranges
        .first_key_value()
        .map(|(first, backing)| SeenRange {
            page: first.start_address().as_u64(),
            frame: phys::number(backing.start),
            len: backing.len(),
            holders: Arc::strong_count(backing),
        });
    Seen {
        start: region.start.as_u64(),
        size: region.size.into_u64(),
        segment: (region._segment.start.as_u64(), region._segment.len),
        kind,
        pages: pages.collect(),
        range,
    }
}

fn see_shared(region: &SharedMemoryRegion) -> Seen {
    let start = region.segment.start.as_u64();
    Seen {
        start,
        size: region.size.into_u64(),
        segment: (start, region.segment.len),
        kind: SeenKind::Shared,
        pages: Vec::new(),
        range: Some(SeenRange {
            page: start,
            frame: phys::number(region.frames.start),
            len: region.frames.len(),
            holders: region.memory.shares(),
        }),
    }
}

/// A lazy region with any fork policy and mark, which the kernel makes by other ways only.
#[must_use]
pub fn lazy(segment: OwnedSegment<'static>, size: usize, marks: SeenMarks) -> PrivateMemoryRegion {
    let mut region = PrivateMemoryRegion::new(segment, size, marks.flags);
    region.fork = marks.fork;
    region.per_thread = marks.per_thread;
    region
}

/// Gives a region that the kernel has populated the exact size and flags that were asked for.
pub fn make_exact(region: &mut PrivateMemoryRegion, size: usize, flags: PageTableFlags) {
    region.size = size;
    region.state.lock().flags = flags;
}

/// Why a carve with few slots stopped.
pub enum CarveStop {
    Split(SplitError),
    TableFull,
}

/// The kernel's carve for a process with `free` slots left: its list steps written again around its
/// own split, so that a region that wants more slots than are left goes back whole.
///
/// # Errors
/// The first region's that cannot split.
pub fn carve_with_slots(
    regions: &MemoryRegions,
    range: &Range<u64>,
    mut free: usize,
) -> Result<Vec<Arc<MemoryRegion>>, CarveStop> {
    let all = mem::take(&mut *regions.regions.lock_without_interrupts());
    let crosses = |r: &Arc<MemoryRegion>| r.overlaps(range) && !r.lies_inside(range);
    let (partial, kept): (Vec<_>, Vec<_>) = all.into_iter().partition(crosses);
    *regions.regions.lock_without_interrupts() = kept;

    let mut stop = None;
    for region in partial {
        match split_with_slots(region, range, &mut free, stop.is_some()) {
            Ok(parts) => parts
                .into_iter()
                .for_each(|part| drop(regions.add_region(part))),
            Err((region, why)) => {
                regions.regions.lock_without_interrupts().push(region);
                stop = stop.or(why);
            }
        }
    }
    stop.map_or_else(|| regions.carve(range).map_err(CarveStop::Split), Err)
}

type NotSplit = (Arc<MemoryRegion>, Option<CarveStop>);

fn split_with_slots(
    region: Arc<MemoryRegion>,
    range: &Range<u64>,
    free: &mut usize,
    stopped: bool,
) -> Result<Vec<MemoryRegion>, NotSplit> {
    let more = more_parts(&region.span(), range);
    let can_split = region.check_split().is_ok() && Arc::strong_count(&region) == 1;
    if stopped {
        return Err((region, None));
    }
    if can_split && more > *free {
        return Err((region, Some(CarveStop::TableFull)));
    }
    let parts = MemoryRegion::split_at_bounds(region, range);
    let parts = parts.map_err(|(region, error)| (region, Some(CarveStop::Split(error))))?;
    *free -= more;
    Ok(parts)
}

/// How many more regions there are once `span` is split at the bounds of `range` inside it.
fn more_parts(span: &Range<u64>, range: &Range<u64>) -> usize {
    let inside = |bound: u64| span.start < bound && bound < span.end;
    let one_bound = range.start == range.end;
    usize::from(inside(range.start)) + usize::from(inside(range.end) && !one_bound)
}
