//! The rules R1 to R6 over a machine's state, read anew from docs/RULES.md: nothing here
//! knows how a call works.

use std::collections::BTreeMap;

use crate::calls::Marks;
use crate::machine::{ProcessView, RegionKind, RegionView, Snapshot};

const PAGE: u64 = 4096;
const USER_END: u64 = 1 << 47;
const WRITABLE: u64 = 1 << 1;
const ALL_FLAGS: u64 = 1 << 63 | 0b111;

/// A backing: whether it is a range, its first frame, its length in pages.
type Backing = (bool, usize, u64);

/// Who holds a backing: at which page, in a shared region or not, with which stored count.
type Hold = (u64, bool, usize);

/// # Errors
/// The rule that is broken, and where.
pub fn check(state: &Snapshot) -> Result<(), String> {
    for process in &state.processes {
        segments(process).map_err(|what| format!("R1: process {}: {what}", process.number))?;
        tables(process).map_err(|what| format!("R6: process {}: {what}", process.number))?;
        for mapping in &process.mapped {
            mapped(process, *mapping)?;
        }
    }
    let entries: usize = regions(state).map(|region| region.pages.len()).sum();
    require(entries <= 512, "R6: too many page entries")?;
    backings(state)
}

fn require(good: bool, what: impl Into<String>) -> Result<(), String> {
    if good { Ok(()) } else { Err(what.into()) }
}

fn regions(state: &Snapshot) -> impl Iterator<Item = &RegionView> {
    state.processes.iter().flat_map(|process| &process.regions)
}

/// R1, and that the process's manager holds just the regions' segments.
fn segments(process: &ProcessView) -> Result<(), String> {
    let mut held: Vec<(u64, u64)> = process
        .regions
        .iter()
        .map(|region| region.segment)
        .collect();
    held.sort_unstable();
    let apart = held
        .windows(2)
        .all(|pair| pair[0].0 + pair[0].1 <= pair[1].0);
    require(apart, "segments overlap")?;
    require(held == process.segments, "the manager holds other segments")
}

/// R2 and R3, and of R6 that a backing's holders hold it at one page, all Shared or none.
fn backings(state: &Snapshot) -> Result<(), String> {
    let mut holds: BTreeMap<Backing, Vec<Hold>> = BTreeMap::new();
    for region in regions(state) {
        let shared = region.kind == RegionKind::Shared;
        for &(page, frame, holders) in &region.pages {
            holds
                .entry((false, frame, 1))
                .or_default()
                .push((page, shared, holders));
        }
        if let Some((frame, len, holders)) = region.range {
            holds
                .entry((true, frame, len))
                .or_default()
                .push((region.start, shared, holders));
        }
    }
    let mut used = vec![false; state.frames];
    for ((_, first, len), held) in &holds {
        let frames = *first..first + *len as usize;
        require(
            frames.end <= state.frames,
            format!("R2: no frame {}", frames.end - 1),
        )?;
        for frame in frames {
            require(
                !used[frame],
                format!("R2: frame {frame} lies in two backings"),
            )?;
            used[frame] = true;
        }
        let counted = held.iter().all(|(_, _, holders)| *holders == held.len());
        require(counted, format!("R3: frame {first} has other holders"))?;
        let alike = held
            .iter()
            .all(|(page, shared, _)| (*page, *shared) == (held[0].0, held[0].1));
        require(
            alike,
            format!("R6: frame {first} is held at two pages or kinds"),
        )?;
    }
    require(
        used == state.in_use,
        "R2: a frame is free in a backing, or lost",
    )
}

/// R4 and R5.
fn mapped(process: &ProcessView, (page, frame, flags): (u64, usize, u64)) -> Result<(), String> {
    let at = |what: &str| format!("{what}: process {} page {page:#x}", process.number);
    let inside = |r: &&RegionView| r.attached && r.start <= page && page < r.start + r.size;
    let holding: Vec<&RegionView> = process.regions.iter().filter(inside).collect();
    let [region] = holding[..] else {
        return Err(at("R4: not in one attached region"));
    };
    let Some((backing, holders)) = backing(region, page) else {
        return Err(at("R4: no backing"));
    };
    require(backing == frame, at("R4: another frame than the backing's"))?;
    match region.kind {
        RegionKind::Shared => require(flags == ALL_FLAGS, at("R5: a shared page lacks flags")),
        RegionKind::Private(marks) | RegionKind::File(marks, _) => {
            let good = flags == marks.flags || flags == marks.flags & !WRITABLE;
            require(good, at("R5: other flags than the region's"))?;
            let alone = flags & WRITABLE == 0 || holders == 1;
            require(alone, at("R5: writable with more than one holder"))
        }
    }
}

fn backing(region: &RegionView, page: u64) -> Option<(usize, usize)> {
    let entry = region.pages.iter().find(|(at, ..)| *at == page);
    let in_range = region.range.and_then(|(frame, len, holders)| {
        let offset = (page - region.start) / PAGE;
        (offset < len).then(|| (frame + offset as usize, holders))
    });
    entry
        .map(|(_, frame, holders)| (*frame, *holders))
        .or(in_range)
}

/// R6 of one process: counts, order and creation's limits.
fn tables(process: &ProcessView) -> Result<(), String> {
    let (start, size) = process.arena;
    let good = start.is_multiple_of(PAGE)
        && size.is_multiple_of(PAGE)
        && start < USER_END
        && start + size <= USER_END;
    require(good, "the arena is wrong")?;
    require(process.regions.len() <= 64, "too many regions")?;
    require(process.mapped.len() <= 128, "too many mapped pages")?;
    let rising = process.mapped.windows(2).all(|pair| pair[0].0 < pair[1].0);
    require(rising, "mapped pages out of order")?;
    let places = process
        .mapped
        .iter()
        .all(|(page, ..)| page.is_multiple_of(PAGE));
    require(places, "a mapped page that is no page")?;
    process.regions.iter().try_for_each(region)
}

fn region(region: &RegionView) -> Result<(), String> {
    let at = |what: &str| format!("region {:#x}: {what}", region.start);
    let end = region.start + region.size;
    let limits = region.start.is_multiple_of(PAGE) && region.size > 0 && end <= USER_END;
    require(limits, at("start or size wrong"))?;
    let segment = (region.start, region.size.div_ceil(PAGE) * PAGE);
    require(region.segment == segment, at("segment wrong"))?;
    require(region.pins <= 65_535, at("too many pins"))?;
    require(
        region.attached || region.pins > 0,
        at("detached and not pinned"),
    )?;
    let rising = region.pages.windows(2).all(|pair| pair[0].0 < pair[1].0);
    require(rising, at("entries out of order"))?;
    let inside = |page: u64| region.start <= page && page < end && page.is_multiple_of(PAGE);
    require(
        region.pages.iter().all(|(page, ..)| inside(*page)),
        at("an entry outside"),
    )?;
    let whole = region
        .range
        .is_none_or(|(_, len, _)| len == region.segment.1 / PAGE);
    require(whole, at("a range that is not the whole region's"))?;
    kind(region).map_err(|what| at(&what))
}

fn kind(region: &RegionView) -> Result<(), String> {
    match region.kind {
        RegionKind::Shared => require(
            region.range.is_some() && region.pages.is_empty(),
            "shared without its range",
        ),
        RegionKind::Private(marks) => flags(marks),
        RegionKind::File(marks, part) => {
            flags(marks)?;
            require(region.range.is_none(), "a file with a range")?;
            require(part.length <= region.size, "file length past the size")?;
            require(
                part.offset + region.size <= 1 << 48,
                "file offset too large",
            )
        }
    }
}

fn flags(marks: Marks) -> Result<(), String> {
    let good = marks.flags & 1 == 1 && marks.flags & !ALL_FLAGS == 0;
    require(good, "bad flags")
}
