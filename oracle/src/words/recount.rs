//! Backings and pool counted afresh from entries and ranges, whatever else the words say.

use super::layout::Words;
use super::rows::{Backing, Region, Tables};

const PAGE: u64 = 4096;

/// Words whose backings are those that entries and ranges hold, with as many holders, and whose pool
/// is that of these backings. A length that stands there already stays.
#[must_use]
pub fn recount(words: &Words) -> Box<Words> {
    let mut tables = Tables::read(words);
    let ranged = |region: &&Region| region.kind != 0 && region.ranged != 0;
    let ranges = tables.regions.iter().filter(ranged);
    let ranges = ranges.map(|region| (region.range, region.size.div_ceil(PAGE)));
    let entries = tables.entries.iter().filter(|entry| entry.owner != 0);
    let held: Vec<(u64, u64)> = ranges
        .chain(entries.map(|entry| (entry.frame, 1)))
        .collect();
    for (first, backing) in (0_u64..).zip(&mut tables.backings) {
        let holds = held.iter().filter(|(frame, _)| *frame == first);
        let length = holds.clone().map(|(_, length)| *length).max();
        *backing = length.map_or(Backing::default(), |length| Backing {
            length: if backing.length == 0 {
                length
            } else {
                backing.length
            },
            holders: holds.count() as u64,
        });
    }
    let free = |frame: &u64| {
        let mut backings = (0_u64..).zip(&tables.backings);
        !backings.any(|(first, b)| first <= *frame && frame - first < b.length)
    };
    let free: Vec<u64> = (0..tables.frame_count.min(256)).filter(free).collect();
    tables.free = free.len() as u64;
    tables.next = free.first().copied().unwrap_or(tables.frame_count);
    tables.write()
}
