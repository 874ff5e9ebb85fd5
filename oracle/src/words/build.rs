//! Machines made by hand, up to full ones: so many processes, each a copy-on-write clone of the first.

use super::layout::{PAGES, SLOTS, Words};
use super::rows::{Entry, Mapping, Process, Region, Tables};

const PAGE: u64 = 4096;
const FIRST_PAGE: u64 = 16;
const FLAGS: u64 = 0b111;
const READ_ONLY: u64 = 0b101;

/// What a machine made by hand has.
#[derive(Clone, Copy, Debug, Default)]
pub struct Amounts {
    pub frames: u64,
    pub processes: u64,
    /// Regions of each process.
    pub regions: u64,
    /// Pages of each region.
    pub pages: u64,
    /// Whether each region has a range, held by its clones too.
    pub ranged: bool,
    /// Entries of each region, from its first page on; each frame is held by the region's clones too.
    pub entries: u64,
    /// Mapped pages of each region, from its first on: backed, by an entry or by the range.
    pub mapped: u64,
}

impl Amounts {
    fn frames_of_region(&self) -> u64 {
        self.entries + if self.ranged { self.pages } else { 0 }
    }

    /// Page number of the region's first page.
    fn page(&self, slot: u64) -> u64 {
        FIRST_PAGE + slot * self.pages
    }

    /// The frame of the entry of this page of the region; its range stands behind its entries' frames.
    fn entry_frame(&self, slot: u64, page: u64) -> u64 {
        slot * self.frames_of_region() + page
    }

    fn range(&self, slot: u64) -> u64 {
        slot * self.frames_of_region() + self.entries
    }

    /// The addresses of the mapped pages of a process.
    pub fn mapped_addresses(&self) -> impl Iterator<Item = u64> + '_ {
        (0..self.regions)
            .flat_map(move |slot| (0..self.mapped).map(move |page| (self.page(slot) + page) * PAGE))
    }
}

/// The words of such a machine, without files, or nothing where a table is too small. Whether they
/// are sound is for `check` to say.
#[must_use]
pub fn build(amounts: &Amounts) -> Option<Box<Words>> {
    let mut tables = Tables::empty();
    tables.frame_count = amounts.frames;
    let mut entries = Vec::new();
    for p in 0..amounts.processes {
        process(&mut tables, &mut entries, amounts, p)?;
    }
    tables
        .entries
        .get_mut(..entries.len())?
        .copy_from_slice(&entries);
    for slot in 0..amounts.regions {
        for page in 0..amounts.entries {
            back(&mut tables, amounts, amounts.entry_frame(slot, page), 1)?;
        }
        if amounts.ranged {
            back(&mut tables, amounts, amounts.range(slot), amounts.pages)?;
        }
    }
    let used = match amounts.processes {
        0 => 0,
        _ => amounts.regions * amounts.frames_of_region(),
    };
    tables.free = amounts.frames.checked_sub(used)?;
    tables.next = used;
    Some(tables.write())
}

fn back(tables: &mut Tables, amounts: &Amounts, frame: u64, length: u64) -> Option<()> {
    let backing = tables.backings.get_mut(usize::try_from(frame).ok()?)?;
    if amounts.processes > 0 {
        (backing.length, backing.holders) = (length, amounts.processes);
    }
    Some(())
}

fn process(tables: &mut Tables, entries: &mut Vec<Entry>, amounts: &Amounts, p: u64) -> Option<()> {
    let at = p as usize;
    let mapped = amounts.regions * amounts.mapped;
    if amounts.regions > SLOTS as u64 || mapped > PAGES as u64 {
        return None;
    }
    *tables.processes.get_mut(at)? = Process {
        opened: 1,
        arena_start: FIRST_PAGE * PAGE,
        arena_size: 1 << 40,
        attached: amounts.regions,
        mapped,
    };
    for slot in 0..amounts.regions {
        let row = at * SLOTS + slot as usize;
        tables.order[row] = slot;
        tables.regions[row] = Region {
            kind: 1,
            start: amounts.page(slot) * PAGE,
            size: amounts.pages * PAGE,
            flags: FLAGS,
            ranged: amounts.ranged.into(),
            range: if amounts.ranged {
                amounts.range(slot)
            } else {
                0
            },
            ..Region::default()
        };
        entries.extend((0..amounts.entries).map(|page| Entry {
            owner: row as u64 + 1,
            page: amounts.page(slot) + page,
            frame: amounts.entry_frame(slot, page),
        }));
        let first = at * PAGES + (slot * amounts.mapped) as usize;
        for page in 0..amounts.mapped {
            tables.mapped[first + page as usize] = mapping(amounts, slot, page);
        }
    }
    Some(())
}

fn mapping(amounts: &Amounts, slot: u64, page: u64) -> Mapping {
    let by_entry = page < amounts.entries;
    Mapping {
        page: amounts.page(slot) + page,
        frame: if by_entry {
            amounts.entry_frame(slot, page)
        } else {
            amounts.range(slot) + page
        },
        flags: if amounts.processes == 1 {
            FLAGS
        } else {
            READ_ONLY
        },
    }
}
