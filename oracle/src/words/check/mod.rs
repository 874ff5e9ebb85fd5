//! R1 to R6 of docs/RULES.md over lent words, sentence by sentence and without haste: each rule is
//! asked for itself, over any words, and none leans on another. Nothing here knows the proved code.

mod records;

use std::fmt;

use super::layout::{PAGES, SLOTS, Words};
use super::rows::{Backing, Mapping, Region, Tables};

const PAGE: u128 = 4096;
const WRITABLE: u64 = 1 << 1;
const ALL_FLAGS: u64 = 1 << 63 | 0b111;
const SHARED: u64 = 3;

/// The first rule that does not hold, by its number, and why.
#[derive(Clone, Debug, PartialEq, Eq)]
pub struct Broken {
    pub rule: usize,
    pub what: String,
}

impl fmt::Display for Broken {
    fn fmt(&self, f: &mut fmt::Formatter<'_>) -> fmt::Result {
        write!(f, "R{}: {}", self.rule, self.what)
    }
}

type Rule = fn(&Tables) -> Result<(), String>;

/// Whether these words, with so many bytes of frames and of files, are a sound machine.
///
/// # Errors
/// The first rule that does not hold.
pub fn check(words: &[u64], frame_bytes: usize, file_bytes: usize) -> Result<(), Broken> {
    let broken = |rule: usize| move |what: String| Broken { rule, what };
    let words: &Words = words
        .try_into()
        .map_err(|_| broken(6)("another number of words".into()))?;
    let tables = Tables::read(words);
    let rules: [Rule; 5] = [r1, r2, r3, r4, r5];
    for (at, rule) in rules.iter().enumerate() {
        rule(&tables).map_err(broken(at + 1))?;
    }
    records::r6(&tables, frame_bytes, file_bytes).map_err(broken(6))
}

fn require(good: bool, what: impl FnOnce() -> String) -> Result<(), String> {
    if good { Ok(()) } else { Err(what()) }
}

/// A region in use, with its row.
type Row<'a> = (usize, &'a Region);

fn used(tables: &Tables) -> impl Iterator<Item = Row<'_>> + Clone {
    let rows = tables.regions.iter().enumerate();
    rows.filter(|(_, region)| region.kind != 0)
}

fn process_of(row: usize) -> usize {
    row / SLOTS
}

/// Whether the region of this row is in its process's list.
fn attached(tables: &Tables, row: usize) -> bool {
    let p = process_of(row);
    let list = &tables.order[p * SLOTS..(p + 1) * SLOTS];
    let count = tables.processes[p].attached;
    let mut listed = (0_u64..).zip(list).take_while(|(place, _)| *place < count);
    listed.any(|(_, slot)| *slot == (row % SLOTS) as u64)
}

/// Where a region's segment starts, and where the next byte after it is: the size rounded up to pages.
fn segment(region: &Region) -> (u128, u128) {
    let start = u128::from(region.start);
    (start, start + u128::from(region.size).div_ceil(PAGE) * PAGE)
}

/// "Attached and detached regions of a process have disjoint segments."
fn r1(tables: &Tables) -> Result<(), String> {
    for (a, one) in used(tables) {
        for (b, other) in used(tables).filter(|(b, _)| *b > a && process_of(*b) == process_of(a)) {
            let ((start, end), (from, to)) = (segment(one), segment(other));
            require(end <= from || to <= start, || {
                format!("region rows {a} and {b} overlap")
            })?;
        }
    }
    Ok(())
}

/// The backings with their first frames.
fn backings(tables: &Tables) -> impl Iterator<Item = (u64, &Backing)> + Clone {
    let rows = (0_u64..).zip(&tables.backings);
    rows.filter(|(_, backing)| backing.length != 0)
}

/// How many backings the frame lies in.
fn lies_in(tables: &Tables, frame: u64) -> usize {
    let holding = backings(tables)
        .filter(|(first, backing)| *first <= frame && frame - first < backing.length);
    holding.count()
}

/// "A frame lies in at most one backing and is free exactly if in none." The pool tells how many
/// frames are free and which is the lowest.
fn r2(tables: &Tables) -> Result<(), String> {
    for (first, backing) in backings(tables) {
        let end = u128::from(first) + u128::from(backing.length);
        require(end <= u128::from(tables.frame_count), || {
            format!("the backing at frame {first} has frames that are none")
        })?;
    }
    let frames = 0..tables.frame_count.min(tables.backings.len() as u64);
    let mut free = Vec::new();
    for frame in frames {
        match lies_in(tables, frame) {
            0 => free.push(frame),
            1 => {}
            _ => return Err(format!("frame {frame} lies in two backings")),
        }
    }
    require(tables.free == free.len() as u64, || {
        "another number of frames is free".into()
    })?;
    let next = free.first().copied().unwrap_or(tables.frame_count);
    require(tables.next == next, || "another frame is the next".into())
}

/// What holds a backing: at which page, and whether in a shared region.
struct Hold {
    first: u64,
    page: u64,
    shared: bool,
}

/// Every entry and every range.
fn holds(tables: &Tables) -> Vec<Hold> {
    let ranges = used(tables).filter(|(_, region)| region.ranged != 0);
    let ranges = ranges.map(|(_, region)| Hold {
        first: region.range,
        page: region.start / PAGE as u64,
        shared: region.kind == SHARED,
    });
    let entries = tables.entries.iter().filter(|entry| entry.owner != 0);
    let entries = entries.map(|entry| Hold {
        first: entry.frame,
        page: entry.page,
        shared: owner(tables, entry.owner).is_some_and(|(_, region)| region.kind == SHARED),
    });
    ranges.chain(entries).collect()
}

/// The region in use that an entry's word names.
fn owner(tables: &Tables, word: u64) -> Option<Row<'_>> {
    used(tables).find(|(row, _)| *row as u64 + 1 == word)
}

/// "A backing's holder count is the number of regions' entries or ranges that hold it, at least 1."
fn r3(tables: &Tables) -> Result<(), String> {
    let holds = holds(tables);
    for (first, backing) in backings(tables) {
        let count = holds.iter().filter(|hold| hold.first == first).count() as u64;
        require(count >= 1 && backing.holders == count, || {
            format!(
                "the backing at frame {first} has {count} holders and says {}",
                backing.holders
            )
        })?;
    }
    Ok(())
}

/// The mapped pages with their processes.
fn mapped(tables: &Tables) -> impl Iterator<Item = (usize, &Mapping)> {
    let rows = tables.mapped.iter().enumerate();
    rows.map(|(row, mapping)| (row / PAGES, row % PAGES, mapping))
        .filter(|(p, place, _)| (*place as u64) < tables.processes[*p].mapped)
        .map(|(p, _, mapping)| (p, mapping))
}

/// The attached regions of a process that a page starts inside.
fn homes(tables: &Tables, p: usize, page: u64) -> Vec<Row<'_>> {
    let at = u128::from(page) * PAGE;
    let inside = |region: &Region| {
        let start = u128::from(region.start);
        start <= at && at < start + u128::from(region.size)
    };
    used(tables)
        .filter(|(row, region)| process_of(*row) == p && inside(region) && attached(tables, *row))
        .collect()
}

/// A page's frame in the region of this row, and the first frame of its backing: "the page entry if
/// any, else the range".
fn backing_of(tables: &Tables, (row, region): Row<'_>, page: u64) -> Option<(u64, u64)> {
    let mut entries = tables.entries.iter();
    let entry = entries.find(|entry| entry.owner == row as u64 + 1 && entry.page == page);
    if let Some(entry) = entry {
        return Some((entry.frame, entry.frame));
    }
    let by = page.checked_sub(region.start / PAGE as u64)?;
    let frame = region.range.checked_add(by)?;
    (region.ranged != 0).then_some((frame, region.range))
}

/// "A mapped page starts inside exactly one attached region, and its frame is that region's backing of
/// the page."
fn r4(tables: &Tables) -> Result<(), String> {
    for (p, mapping) in mapped(tables) {
        let at = || format!("process {p} page {:#x}", mapping.page);
        let [home] = homes(tables, p, mapping.page)[..] else {
            return Err(format!("{} is not in one attached region", at()));
        };
        let backing = backing_of(tables, home, mapping.page);
        require(
            backing.is_some_and(|(frame, _)| frame == mapping.frame),
            || format!("{} has another frame than its backing", at()),
        )?;
    }
    Ok(())
}

/// "A private mapping has its region's flags, or those without WRITABLE; it is writable only with one
/// holder; a shared mapping has all four."
fn r5(tables: &Tables) -> Result<(), String> {
    for (p, mapping) in mapped(tables) {
        let at = || format!("process {p} page {:#x}", mapping.page);
        for home in homes(tables, p, mapping.page) {
            let flags = home.1.flags;
            if home.1.kind == SHARED {
                require(mapping.flags == ALL_FLAGS, || {
                    format!("{} is shared and lacks flags", at())
                })?;
                continue;
            }
            let good = mapping.flags == flags || mapping.flags == flags & !WRITABLE;
            require(good, || format!("{} has other flags", at()))?;
            let first = backing_of(tables, home, mapping.page).map(|(_, first)| first);
            let alone = backings(tables).any(|(f, b)| Some(f) == first && b.holders == 1);
            require(mapping.flags & WRITABLE == 0 || alone, || {
                format!("{} is writable and not held by one", at())
            })?;
        }
    }
    Ok(())
}
