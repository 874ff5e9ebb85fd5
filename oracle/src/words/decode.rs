//! The words' state: what `state` writes of them.

use super::layout::{FRAME_BYTES, PAGES, SLOTS, Words};
use super::rows::{Region, Tables};
use crate::calls::{Marks, Part};
use crate::machine::form::{PAGE, USER_END, segment_len};
use crate::machine::{ProcessView, RegionKind, RegionView, Snapshot, sum};

/// The state of these words and frames' bytes, with the sums over the bytes where they are asked for.
///
/// # Errors
/// What cannot be read in them. Words that can be read may still break a rule.
pub fn decode(words: &Words, frames: &[u8], bytes: bool) -> Result<Snapshot, String> {
    let tables = Tables::read(words);
    let in_use = in_use(&tables, frames.len() / FRAME_BYTES);
    let sums = frames.chunks_exact(FRAME_BYTES).enumerate();
    let sums = sums.filter(|(frame, _)| bytes && in_use[*frame]);
    let open = (0..tables.processes.len()).filter(|p| tables.processes[*p].opened != 0);
    Ok(Snapshot {
        frames: tables.frame_count as usize,
        sums: sums.map(|(frame, bytes)| (frame, sum(bytes))).collect(),
        processes: open
            .map(|p| process(&tables, p))
            .collect::<Result<_, _>>()?,
        in_use,
    })
}

fn in_use(tables: &Tables, frames: usize) -> Vec<bool> {
    let mut in_use = vec![false; frames];
    for (first, backing) in tables.backings.iter().enumerate() {
        let run = in_use.iter_mut().skip(first).take(backing.length as usize);
        run.for_each(|used| *used = true);
    }
    in_use
}

fn process(tables: &Tables, p: usize) -> Result<ProcessView, String> {
    let row = tables.processes[p];
    let order = tables.order[p * SLOTS..(p + 1) * SLOTS].iter();
    let order: Vec<usize> = order
        .take(row.attached as usize)
        .map(|slot| *slot as usize)
        .collect();
    if order.iter().any(|slot| *slot >= SLOTS) {
        return Err(format!("process {p}: its list names no slot"));
    }
    let mut detached: Vec<usize> = (0..SLOTS)
        .filter(|slot| !order.contains(slot) && tables.regions[p * SLOTS + slot].kind != 0)
        .collect();
    detached.sort_by_key(|slot| tables.regions[p * SLOTS + slot].start);
    let attached = order.iter().map(|slot| (*slot, true));
    let all = attached.chain(detached.iter().map(|slot| (*slot, false)));
    let regions: Vec<RegionView> = all
        .map(|(slot, attached)| region(tables, p * SLOTS + slot, attached))
        .collect::<Result<_, _>>()?;
    let mut segments: Vec<_> = regions.iter().map(|region| region.segment).collect();
    segments.sort_unstable();
    let mapped = tables.mapped[p * PAGES..(p + 1) * PAGES].iter();
    Ok(ProcessView {
        number: p,
        arena: (row.arena_start, row.arena_size),
        segments,
        regions,
        mapped: mapped
            .take(row.mapped as usize)
            .map(|m| (m.page.wrapping_mul(PAGE), m.frame as usize, m.flags))
            .collect(),
    })
}

fn region(tables: &Tables, row: usize, attached: bool) -> Result<RegionView, String> {
    let region = tables.regions[row];
    if region.size > USER_END {
        return Err(format!("region row {row}: no size {:#x}", region.size));
    }
    let backing = |frame: u64| {
        let backing = usize::try_from(frame)
            .ok()
            .and_then(|frame| tables.backings.get(frame));
        backing.ok_or_else(|| format!("region row {row}: no frame {frame}"))
    };
    let owned = tables.entries.iter().filter(|e| e.owner == row as u64 + 1);
    let mut pages = Vec::new();
    for entry in owned {
        let holders = backing(entry.frame)?.holders as usize;
        pages.push((entry.page.wrapping_mul(PAGE), entry.frame as usize, holders));
    }
    pages.sort_unstable();
    let range = match region.ranged {
        0 => None,
        _ => {
            let held = backing(region.range)?;
            Some((region.range as usize, held.length, held.holders as usize))
        }
    };
    Ok(RegionView {
        start: region.start,
        size: region.size,
        segment: (region.start, segment_len(region.size)),
        attached,
        kind: kind(&region).ok_or_else(|| format!("region row {row}: no kind"))?,
        pins: region.pins,
        pages,
        range,
    })
}

fn kind(region: &Region) -> Option<RegionKind> {
    let marks = Marks {
        flags: region.flags,
        copy: region.fork != 0,
        thread: region.per_thread != 0,
    };
    let part = Part {
        file: region.file,
        offset: region.offset,
        length: region.length,
    };
    match region.kind {
        1 => Some(RegionKind::Private(marks)),
        2 => Some(RegionKind::File(marks, part)),
        3 => Some(RegionKind::Shared),
        _ => None,
    }
}
