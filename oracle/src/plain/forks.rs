//! Clones in the plain machine.

use super::region::Region;
use super::{ENTRIES, PAGE, PlainMachine, WRITABLE};
use crate::answer::{Answer, Refusal};

impl PlainMachine {
    pub(super) fn clone_region(
        &mut self,
        p: u64,
        addr: u64,
        target: u64,
    ) -> Result<Answer, Refusal> {
        self.process(p)?;
        self.process(target)?;
        let at = self.find(p, addr)?;
        self.clone_one(p, at, target)?;
        Ok(Answer::done())
    }

    pub(super) fn clone_process(&mut self, p: u64, target: u64) -> Result<Answer, Refusal> {
        let count = self.process(p)?.attached.len();
        self.process(target)?;
        for at in 0..count {
            if !self.process(p)?.attached[at].is_per_thread() {
                self.clone_one(p, at, target)?;
            }
        }
        Ok(Answer::done())
    }

    /// Refuses in the order 9, 21, 14.
    fn clone_one(&mut self, p: u64, at: usize, target: u64) -> Result<(), Refusal> {
        let region = self.process(p)?.attached[at].clone();
        let segment = region.segment();
        if self
            .process(target)?
            .is_taken(segment.start, segment.end - segment.start)
        {
            return Err(Refusal::SegmentReserved);
        }
        let copied = backed(&region);
        let entries = if region.copies() {
            copied.len()
        } else {
            region.pages.len()
        };
        if self.process(target)?.slots_left() == 0 || self.entries() + entries > ENTRIES {
            return Err(Refusal::TableFull);
        }
        let mut clone = Region { pins: 0, ..region };
        if clone.copies() {
            self.copy_pages(&mut clone, &copied)?;
        } else if clone.flags().is_some() {
            // The wrong machine demotes page entries but not range pages.
            let demotes = |page: &u64| !self.wrong || clone.pages.contains_key(page);
            let pages: Vec<u64> = self
                .process(p)?
                .mapped
                .keys()
                .copied()
                .filter(demotes)
                .collect();
            let process = self.process_mut(p)?;
            let in_region = process.mapped_in((clone.start, clone.size));
            let demoted = in_region.filter(|(page, _)| pages.contains(page));
            demoted.for_each(|(_, mapping)| mapping.1 &= !WRITABLE);
        }
        self.process_mut(target)?.attached.push(clone);
        Ok(())
    }

    /// Gives the clone frames of its own, with the bytes of the old ones.
    fn copy_pages(&mut self, clone: &mut Region, copied: &[(u64, usize)]) -> Result<(), Refusal> {
        let free: Vec<usize> = (0..self.frames.len())
            .filter(|frame| self.is_free(*frame))
            .collect();
        if free.len() < copied.len() {
            return Err(Refusal::OutOfMemory);
        }
        clone.range = None;
        for ((page, source), frame) in copied.iter().zip(free) {
            self.frames[frame] = self.frames[*source];
            clone.pages.insert(*page, frame);
        }
        Ok(())
    }
}

/// The backed pages with their frames in the order of copying: the range's, then the entries.
fn backed(region: &Region) -> Vec<(u64, usize)> {
    let range = region
        .range_frames()
        .zip(0..)
        .map(|(frame, i)| (region.start + i * PAGE, frame));
    let range = range.filter(|(page, _)| !region.pages.contains_key(page));
    let entries = region.pages.iter().map(|(page, frame)| (*page, *frame));
    range.chain(entries).collect()
}
