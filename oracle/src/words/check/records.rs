//! R6: counts, order, limits of records, free rows.

use super::super::layout::{FRAME_BYTES, PAGES, SLOTS};
use super::super::rows::{Backing, Entry, File, Mapping, Process, Region, Tables};
use super::{ALL_FLAGS, PAGE, SHARED, attached, backings, holds, owner, require, segment, used};

const PRIVATE: u64 = 1;
const FILE: u64 = 2;
const USER_END: u128 = 1 << 47;
const LONGEST_FILE: u128 = 1 << 48;
const MOST_PINS: u64 = 65_535;
const MOST_FRAMES: u64 = 256;
const MOST_FILES: u64 = 8;

pub(super) fn r6(tables: &Tables, frame_bytes: usize, file_bytes: usize) -> Result<(), String> {
    counts(tables, frame_bytes)?;
    files(tables, file_bytes)?;
    for p in 0..tables.processes.len() {
        process(tables, p).map_err(|what| format!("process {p}: {what}"))?;
    }
    for (row, region) in used(tables) {
        limits(tables, region).map_err(|what| format!("region row {row}: {what}"))?;
    }
    for (row, region) in tables.regions.iter().enumerate() {
        require(region.kind != 0 || *region == Region::default(), || {
            format!("region row {row} is free and not zero")
        })?;
    }
    entries(tables)?;
    held_alike(tables)?;
    for (row, backing) in tables.backings.iter().enumerate() {
        require(
            backing.length != 0 || *backing == Backing::default(),
            || format!("backing row {row} is free and not zero"),
        )?;
    }
    Ok(())
}

/// "Table counts .. and the frame bytes' length fit": 0 to 256 frames of 4,096 lent bytes.
fn counts(tables: &Tables, frame_bytes: usize) -> Result<(), String> {
    let fits = tables.frame_count <= MOST_FRAMES
        && u128::from(tables.frame_count) * FRAME_BYTES as u128 == frame_bytes as u128;
    require(fits, || "the frames' bytes do not fit".into())?;
    require(tables.file_count <= MOST_FILES, || "too many files".into())
}

/// Files stand inside the lent bytes.
fn files(tables: &Tables, file_bytes: usize) -> Result<(), String> {
    for (number, file) in (0_u64..).zip(&tables.files) {
        let end = u128::from(file.offset) + u128::from(file.len);
        let good = if number < tables.file_count {
            file.readable <= 1 && end <= file_bytes as u128
        } else {
            *file == File::default()
        };
        require(good, || format!("file {number} is wrong"))?;
    }
    Ok(())
}

fn process(tables: &Tables, p: usize) -> Result<(), String> {
    let row = tables.processes[p];
    let regions = &tables.regions[p * SLOTS..(p + 1) * SLOTS];
    let list = &tables.order[p * SLOTS..(p + 1) * SLOTS];
    let mapped = &tables.mapped[p * PAGES..(p + 1) * PAGES];
    match row.opened {
        0 => {
            let empty = row == Process::default() && regions.iter().all(|region| region.kind == 0);
            require(empty, || "closed and not empty".into())?;
        }
        1 => arena(&row)?,
        _ => return Err("neither open nor closed".into()),
    }
    require(row.attached <= SLOTS as u64, || {
        "the list is too long".into()
    })?;
    require(row.mapped <= PAGES as u64, || {
        "too many mapped pages".into()
    })?;
    let (listed, rest) = list.split_at(row.attached as usize);
    require(rest.iter().all(|slot| *slot == 0), || {
        "a place past the list is not zero".into()
    })?;
    for (place, slot) in listed.iter().enumerate() {
        let is_used = usize::try_from(*slot)
            .ok()
            .and_then(|slot| regions.get(slot))
            .is_some_and(|region| region.kind != 0);
        let once = !listed[..place].contains(slot);
        require(is_used && once, || {
            format!("the list's place {place} is wrong")
        })?;
    }
    let (pages, rest) = mapped.split_at(row.mapped as usize);
    require(rest.iter().all(|m| *m == Mapping::default()), || {
        "a row past the mapped pages is not zero".into()
    })?;
    let rising = pages.windows(2).all(|pair| pair[0].page < pair[1].page);
    require(rising, || "mapped pages out of order".into())?;
    for (slot, region) in regions.iter().enumerate() {
        let detached = region.kind != 0 && !attached(tables, p * SLOTS + slot);
        require(!detached || region.pins >= 1, || {
            format!("slot {slot} is detached and not pinned")
        })?;
    }
    Ok(())
}

/// An arena of user addresses, page-aligned at both ends.
fn arena(row: &Process) -> Result<(), String> {
    let (start, size) = (u128::from(row.arena_start), u128::from(row.arena_size));
    let good = start.is_multiple_of(PAGE)
        && size.is_multiple_of(PAGE)
        && start < USER_END
        && start + size <= USER_END;
    require(good, || "the arena is wrong".into())
}

/// "records keep creation's limits (file offset plus size up to 2^48)"; "a range covers its whole
/// region, and Shared has one and no entries".
fn limits(tables: &Tables, region: &Region) -> Result<(), String> {
    require((PRIVATE..=SHARED).contains(&region.kind), || {
        "no kind".into()
    })?;
    let (start, end) = segment(region);
    let good = start.is_multiple_of(PAGE) && region.size >= 1 && end <= USER_END;
    require(good, || "start or size wrong".into())?;
    let marks = region.fork <= 1 && region.per_thread <= 1 && region.ranged <= 1;
    require(marks, || "a mark is neither 0 nor 1".into())?;
    require(region.pins <= MOST_PINS, || "too many pins".into())?;
    if region.kind == SHARED {
        let bare = (region.flags, region.fork, region.per_thread) == (0, 0, 0);
        require(bare, || "shared with flags or marks".into())?;
        require(region.ranged == 1, || "shared without a range".into())?;
    } else {
        let known = region.flags & 1 == 1 && region.flags & !ALL_FLAGS == 0;
        require(known, || "bad flags".into())?;
    }
    if region.kind == FILE {
        let end = u128::from(region.offset) + u128::from(region.size);
        let good =
            region.file < tables.file_count && region.length <= region.size && end <= LONGEST_FILE;
        require(good, || "its part of a file is wrong".into())?;
        require(region.ranged == 0, || "a file with a range".into())?;
    } else {
        let none = (region.file, region.offset, region.length) == (0, 0, 0);
        require(none, || "a file where there is none".into())?;
    }
    if region.ranged == 0 {
        return require(region.range == 0, || "no range, and yet a frame".into());
    }
    let pages = (end - start) / PAGE;
    let whole =
        backings(tables).any(|(first, b)| first == region.range && u128::from(b.length) == pages);
    require(whole, || "its range is not the whole region's".into())
}

/// "entries start in their region, one a page"; Shared has none; a free row is zero.
fn entries(tables: &Tables) -> Result<(), String> {
    for (row, entry) in tables.entries.iter().enumerate() {
        let at = |what: &str| format!("entry row {row}: {what}");
        if entry.owner == 0 {
            require(*entry == Entry::default(), || at("free and not zero"))?;
            continue;
        }
        let Some((_, region)) = owner(tables, entry.owner) else {
            return Err(at("no region has it"));
        };
        require(region.kind != SHARED, || at("in a shared region"))?;
        let start = u128::from(entry.page) * PAGE;
        let from = u128::from(region.start);
        let inside = from <= start && start < from + u128::from(region.size);
        require(inside, || at("outside its region"))?;
        let twice = tables.entries[..row]
            .iter()
            .any(|other| (other.owner, other.page) == (entry.owner, entry.page));
        require(!twice, || at("a page has two"))?;
        let backed = backings(tables).any(|(first, b)| first == entry.frame && b.length == 1);
        require(backed, || at("no backing of one frame"))?;
    }
    Ok(())
}

/// "a backing's holders hold it at one page, all Shared or none"
fn held_alike(tables: &Tables) -> Result<(), String> {
    let holds = holds(tables);
    for (at, hold) in holds.iter().enumerate() {
        let alike = holds[..at].iter().all(|other| {
            other.first != hold.first || (other.page, other.shared) == (hold.page, hold.shared)
        });
        require(alike, || {
            format!("frame {} is held at two pages or kinds", hold.first)
        })?;
    }
    Ok(())
}
