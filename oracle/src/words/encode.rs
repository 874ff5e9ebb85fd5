//! A machine's state as words. A region's slot is its place in the state, attached regions in list
//! order and then detached ones; entries take the rows from 0 on; holders and pool are counted.

use super::layout::{PAGES, SLOTS, Words};
use super::rows::{Entry, File, Mapping, Process, Region, Tables};
use crate::calls::Marks;
use crate::machine::form::PAGE;
use crate::machine::{ProcessView, RegionKind, RegionView, Snapshot};

/// The words of this state with these files, or nothing where a table is too small for it.
#[must_use]
pub fn encode(state: &Snapshot, files: &[File]) -> Option<Box<Words>> {
    let mut tables = Tables::empty();
    put_all(&mut tables.files, 0, files)?;
    tables.file_count = files.len() as u64;
    tables.frame_count = state.frames as u64;
    let mut entries = Vec::new();
    for view in &state.processes {
        process(&mut tables, &mut entries, view)?;
    }
    put_all(&mut tables.entries, 0, &entries)?;
    pool(&mut tables, &state.in_use);
    Some(tables.write())
}

/// Puts `rows` from row `first` on, or nothing where they do not fit.
fn put_all<R: Copy>(table: &mut [R], first: usize, rows: &[R]) -> Option<()> {
    table
        .get_mut(first..first + rows.len())?
        .copy_from_slice(rows);
    Some(())
}

fn process(tables: &mut Tables, entries: &mut Vec<Entry>, view: &ProcessView) -> Option<()> {
    let attached = view.regions.iter().filter(|region| region.attached).count();
    if view.regions.len() > SLOTS || view.mapped.len() > PAGES {
        return None;
    }
    *tables.processes.get_mut(view.number)? = Process {
        opened: 1,
        arena_start: view.arena.0,
        arena_size: view.arena.1,
        attached: attached as u64,
        mapped: view.mapped.len() as u64,
    };
    for (slot, view_of) in view.regions.iter().enumerate() {
        let row = view.number * SLOTS + slot;
        *tables.regions.get_mut(row)? = region(view_of);
        if view_of.attached {
            *tables.order.get_mut(row)? = slot as u64;
        }
        hold(tables, entries, row, view_of)?;
    }
    let mapped: Vec<Mapping> = view.mapped.iter().map(mapping).collect();
    put_all(&mut tables.mapped, view.number * PAGES, &mapped)
}

fn mapping(&(page, frame, flags): &(u64, usize, u64)) -> Mapping {
    Mapping {
        page: page / PAGE,
        frame: frame as u64,
        flags,
    }
}

fn region(view: &RegionView) -> Region {
    let mut row = Region {
        start: view.start,
        size: view.size,
        pins: view.pins,
        ..Region::default()
    };
    match view.kind {
        RegionKind::Private(marks) => mark(&mut row, 1, marks),
        RegionKind::File(marks, part) => {
            mark(&mut row, 2, marks);
            (row.file, row.offset, row.length) = (part.file, part.offset, part.length);
        }
        RegionKind::Shared => row.kind = 3,
    }
    if let Some((frame, ..)) = view.range {
        (row.ranged, row.range) = (1, frame as u64);
    }
    row
}

fn mark(row: &mut Region, kind: u64, marks: Marks) {
    row.kind = kind;
    row.flags = marks.flags;
    row.fork = marks.copy.into();
    row.per_thread = marks.thread.into();
}

/// Writes the region's entries and counts it as a holder of its backings.
fn hold(
    tables: &mut Tables,
    entries: &mut Vec<Entry>,
    row: usize,
    view: &RegionView,
) -> Option<()> {
    for &(page, frame, _) in &view.pages {
        entries.push(Entry {
            owner: row as u64 + 1,
            page: page / PAGE,
            frame: frame as u64,
        });
        add_holder(tables, frame, 1)?;
    }
    view.range
        .map_or(Some(()), |(frame, len, _)| add_holder(tables, frame, len))
}

fn add_holder(tables: &mut Tables, frame: usize, length: u64) -> Option<()> {
    let backing = tables.backings.get_mut(frame)?;
    backing.length = length;
    backing.holders += 1;
    Some(())
}

fn pool(tables: &mut Tables, in_use: &[bool]) {
    tables.free = in_use.iter().filter(|used| !**used).count() as u64;
    let next = in_use.iter().position(|used| !*used);
    tables.next = next.map_or(tables.frame_count, |frame| frame as u64);
}
