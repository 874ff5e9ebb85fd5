//! The whole machine as plain values, and their text: what `state` writes.

use std::fmt;
use std::sync::Arc;

use kernel::mcore::mtask::process::mem::probe::{self, Seen, SeenKind, SeenMarks};
use kernel::mcore::mtask::process::mem::{ForkPolicy, MemoryRegion};
use kernel::mem::phys;

use super::Machine;
use super::process::Process;
use crate::calls::{Marks, Part};

#[derive(Clone, Debug, PartialEq, Eq)]
pub struct Snapshot {
    pub frames: usize,
    pub in_use: Vec<bool>,
    pub processes: Vec<ProcessView>,
    /// The sum over the bytes of each frame in use.
    pub sums: Vec<(usize, u32)>,
}

#[derive(Clone, Debug, PartialEq, Eq)]
pub struct ProcessView {
    pub number: usize,
    pub arena: (u64, u64),
    /// What its manager holds.
    pub segments: Vec<(u64, u64)>,
    /// Attached regions in list order, then detached ones by start.
    pub regions: Vec<RegionView>,
    /// Page start, frame and flags, in page order.
    pub mapped: Vec<(u64, usize, u64)>,
}

#[derive(Clone, Debug, PartialEq, Eq)]
pub struct RegionView {
    pub start: u64,
    pub size: u64,
    pub segment: (u64, u64),
    pub attached: bool,
    pub kind: RegionKind,
    pub pins: u64,
    /// Page start, frame and holders.
    pub pages: Vec<(u64, usize, usize)>,
    /// First frame, pages and holders.
    pub range: Option<(usize, u64, usize)>,
}

#[derive(Clone, Copy, Debug, PartialEq, Eq)]
pub enum RegionKind {
    Private(Marks),
    File(Marks, Part),
    Shared,
}

impl Machine {
    /// The tables, and the sums over the frames' bytes where they are asked for.
    #[must_use]
    pub fn snapshot(&self, bytes: bool) -> Snapshot {
        let in_use = phys::in_use();
        let used = in_use
            .iter()
            .enumerate()
            .filter(|(_, used)| **used && bytes);
        let sums = used.map(|(frame, _)| (frame, phys::with_bytes(frame, |bytes| sum(bytes))));
        let open = self.processes.iter().enumerate();
        let open = open.filter_map(|(number, process)| Some(view(number, process.as_ref()?)));
        Snapshot {
            frames: self.frames,
            sums: sums.collect(),
            in_use,
            processes: open.collect(),
        }
    }
}

impl Machine {
    /// The bytes of all frames, one frame after the other.
    #[must_use]
    pub fn frame_bytes(&self) -> Vec<u8> {
        let mut all = Vec::with_capacity(self.frames * phys::FRAME_BYTES);
        for frame in 0..self.frames {
            phys::with_bytes(frame, |bytes| all.extend_from_slice(bytes));
        }
        all
    }

    /// Whether a frame has exactly these bytes.
    #[must_use]
    pub fn has_bytes(&self, frame: usize, bytes: &[u8]) -> bool {
        phys::with_bytes(frame, |own| own[..] == *bytes)
    }
}

#[must_use]
pub fn sum(bytes: &[u8]) -> u32 {
    let step = |sum: u32, byte: &u8| sum.wrapping_mul(31).wrapping_add(u32::from(*byte) + 1);
    bytes.iter().fold(0, step)
}

fn view(number: usize, process: &Process) -> ProcessView {
    let attached = process.attached();
    let detached = process.detached();
    let see =
        |attached: bool| move |region: &Arc<MemoryRegion>| view_region(process, region, attached);
    let regions = attached
        .iter()
        .map(see(true))
        .chain(detached.iter().map(see(false)));
    let mapped = process
        .space
        .user_mappings()
        .into_iter()
        .map(|(page, frame, flags)| {
            (
                page,
                frame.as_u64() as usize / phys::FRAME_BYTES,
                flags.bits(),
            )
        });
    ProcessView {
        number,
        arena: process.arena,
        segments: process
            .vmm
            .read()
            .segments()
            .map(|s| (s.start.as_u64(), s.len))
            .collect(),
        regions: regions.collect(),
        mapped: mapped.collect(),
    }
}

fn view_region(process: &Process, region: &Arc<MemoryRegion>, attached: bool) -> RegionView {
    let Seen {
        start,
        size,
        segment,
        kind,
        pages,
        range,
    } = probe::see(region);
    let kind = match kind {
        SeenKind::Private(seen) => RegionKind::Private(marks(seen)),
        SeenKind::File(seen, part) => RegionKind::File(
            marks(seen),
            Part {
                file: part.node.number as u64,
                offset: part.offset,
                length: part.length,
            },
        ),
        SeenKind::Shared => RegionKind::Shared,
    };
    RegionView {
        start,
        size,
        segment,
        attached,
        kind,
        pins: process.pin_count(region),
        pages,
        range: range.map(|range| (range.frame, range.len, range.holders)),
    }
}

fn marks(seen: SeenMarks) -> Marks {
    Marks {
        flags: seen.flags.bits(),
        copy: seen.fork == ForkPolicy::CopyEager,
        thread: seen.per_thread,
    }
}

impl fmt::Display for Snapshot {
    fn fmt(&self, f: &mut fmt::Formatter<'_>) -> fmt::Result {
        let free = self.in_use.iter().filter(|used| !**used).count();
        let next = self.in_use.iter().position(|used| !*used);
        let next = next.map_or_else(|| "-".into(), |frame| frame.to_string());
        writeln!(f, "frames {} free {free} next {next}", self.frames)?;
        self.processes
            .iter()
            .try_for_each(|process| process.fmt(f))?;
        self.sums
            .iter()
            .try_for_each(|(frame, sum)| writeln!(f, "frame {frame} {sum}"))
    }
}

impl fmt::Display for ProcessView {
    fn fmt(&self, f: &mut fmt::Formatter<'_>) -> fmt::Result {
        let p = self.number;
        writeln!(f, "process {p} {:#x} {:#x}", self.arena.0, self.arena.1)?;
        for region in &self.regions {
            writeln!(f, "region {p} {region}")?;
            for (page, frame, holders) in &region.pages {
                writeln!(f, "page {p} {page:#x} {frame} {holders}")?;
            }
        }
        for (page, frame, flags) in &self.mapped {
            writeln!(f, "mapped {p} {page:#x} {frame} {flags:#x}")?;
        }
        Ok(())
    }
}

impl fmt::Display for RegionView {
    fn fmt(&self, f: &mut fmt::Formatter<'_>) -> fmt::Result {
        let (kind, marks) = match self.kind {
            RegionKind::Private(marks) => ("private", Some(marks)),
            RegionKind::File(marks, _) => ("file", Some(marks)),
            RegionKind::Shared => ("shared", None),
        };
        let attached = if self.attached {
            "attached"
        } else {
            "detached"
        };
        write!(f, "{:#x} {:#x} {kind} {attached}", self.start, self.size)?;
        if let Some(Marks {
            flags,
            copy,
            thread,
        }) = marks
        {
            let copy = if copy { "copy" } else { "cow" };
            let thread = if thread { "thread" } else { "-" };
            write!(f, " {flags:#x} {copy} {thread}")?;
        }
        write!(f, " pins {}", self.pins)?;
        if let RegionKind::File(
            _,
            Part {
                file,
                offset,
                length,
            },
        ) = self.kind
        {
            write!(f, " file {file} {offset:#x} {length:#x}")?;
        }
        if let Some((frame, len, holders)) = self.range {
            write!(f, " range {frame} {len} {holders}")?;
        }
        Ok(())
    }
}
