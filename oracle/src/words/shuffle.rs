//! The same state in other rows: slots and entries as they stand after calls have come and gone.

use super::layout::{SLOTS, Words};
use super::rows::Tables;
use crate::random::Random;

/// Words of the same state whose slots and entries are permuted. What is drawn does not depend on the
/// words.
#[must_use]
pub fn shuffle(words: &Words, random: &mut Random) -> Box<Words> {
    let before = Tables::read(words);
    let mut after = before.clone();
    for p in 0..before.processes.len() {
        let first = p * SLOTS;
        let to = permutation(SLOTS, random);
        for (slot, to) in to.iter().enumerate() {
            after.regions[first + to] = before.regions[first + slot];
        }
        let listed = before.processes[p].attached as usize;
        for place in (first..first + SLOTS).take(listed) {
            let slot = before.order[place] as usize;
            after.order[place] = to.get(slot).map_or(before.order[place], |to| *to as u64);
        }
        for (row, entry) in before.entries.iter().enumerate() {
            let slot = (entry.owner as usize).checked_sub(first + 1);
            if let Some(to) = slot.and_then(|slot| to.get(slot)) {
                after.entries[row].owner = (first + to) as u64 + 1;
            }
        }
    }
    let entries = after.entries.clone();
    for (entry, to) in entries.iter().zip(permutation(entries.len(), random)) {
        after.entries[to] = *entry;
    }
    after.write()
}

/// The numbers below `count` in random order.
fn permutation(count: usize, random: &mut Random) -> Vec<usize> {
    let mut order: Vec<usize> = (0..count).collect();
    for at in (1..count).rev() {
        order.swap(at, random.below(at as u64 + 1) as usize);
    }
    order
}
