//! Faults, populate and eager populate in the plain machine.

use super::region::Region;
use super::{ALL_FLAGS, Bytes, ENTRIES, PAGE, PlainMachine, USER, WRITABLE, form};
use crate::answer::{Answer, Refusal};
use crate::machine::RegionKind;

impl PlainMachine {
    /// The fault at a page of the region at place `at` in the list.
    pub(super) fn fault(
        &mut self,
        p: u64,
        at: usize,
        page: u64,
        write: bool,
    ) -> Result<(), Refusal> {
        let process = self.process(p)?;
        let region = &process.attached[at];
        let Some(flags) = region.flags() else {
            return self.shared_fault(p, at, page);
        };
        let mapping = process.mapped.get(&page).copied();
        let backing = region.backing(page);
        let holders = self.holders(region, page);
        if flags & USER == 0 {
            return Err(Refusal::NotAccessible);
        }
        match (mapping, backing) {
            (Some((_, f)), _) if !write || f & WRITABLE != 0 => Ok(()),
            (_, _) if write && flags & WRITABLE == 0 => Err(Refusal::NotWritable),
            (Some((frame, _)), _) if holders == 1 => {
                self.process_mut(p)?.map(page, frame, flags);
                Ok(())
            }
            (None, Some(frame)) if holders == 1 => self.map_new(p, page, frame, flags),
            (None, Some(frame)) if !write => self.map_new(p, page, frame, flags & !WRITABLE),
            (_, Some(frame)) => self.give_frame(p, at, page, self.frames[frame]),
            (_, None) => {
                self.lowest_run(1)?;
                let bytes = self.fill(&self.process(p)?.attached[at], page)?;
                self.give_frame(p, at, page, bytes)
            }
        }
    }

    fn shared_fault(&mut self, p: u64, at: usize, page: u64) -> Result<(), Refusal> {
        let process = self.process(p)?;
        if process.mapped.contains_key(&page) {
            return Ok(());
        }
        let frame = process.attached[at]
            .backing(page)
            .expect("a shared region has a range");
        self.map_new(p, page, frame, ALL_FLAGS)
    }

    fn map_new(&mut self, p: u64, page: u64, frame: usize, flags: u64) -> Result<(), Refusal> {
        let process = self.process_mut(p)?;
        if process.is_full() {
            return Err(Refusal::MapFailed);
        }
        process.map(page, frame, flags);
        Ok(())
    }

    /// Backs the page by the lowest free frame with these bytes and maps it with the region's flags.
    fn give_frame(&mut self, p: u64, at: usize, page: u64, bytes: Bytes) -> Result<(), Refusal> {
        let frame = self.lowest_run(1)?;
        let full = self.entries() == ENTRIES;
        let process = self.process_mut(p)?;
        if process.is_full() && !process.mapped.contains_key(&page) {
            return Err(Refusal::MapFailed);
        }
        let region = &mut process.attached[at];
        if full && !region.pages.contains_key(&page) {
            return Err(Refusal::TableFull);
        }
        region.pages.insert(page, frame);
        let flags = region
            .flags()
            .expect("a shared region's pages are never given");
        process.map(page, frame, flags);
        self.frames[frame] = bytes;
        Ok(())
    }

    /// What a page without backing is filled with.
    fn fill(&self, region: &Region, page: u64) -> Result<Bytes, Refusal> {
        let mut bytes = [0; PAGE as usize];
        let RegionKind::File(_, part) = region.kind else {
            return Ok(bytes);
        };
        let offset = page - region.start;
        if offset >= part.length {
            return Ok(bytes);
        }
        let file = self.files[part.file as usize]
            .as_ref()
            .ok_or(Refusal::ReadFailed)?;
        for (i, byte) in (0..).zip(&mut bytes) {
            let place = (part.offset + offset + i) as usize;
            if offset + i < part.length {
                *byte = file.get(place).copied().unwrap_or(0);
            }
        }
        Ok(bytes)
    }

    pub(super) fn populate(
        &mut self,
        p: u64,
        addr: u64,
        len: u64,
        write: bool,
    ) -> Result<Answer, Refusal> {
        self.process(p)?;
        form::user(addr)?;
        let last = u128::from(addr) + u128::from(len);
        match last.checked_sub(1) {
            Some(last) if len > 0 && last < 1 << 47 => self.visit(p, addr, last as u64, write)?,
            Some(last) if len > 0 && last >> 47 == 0x1_ffff => return Err(Refusal::BadRange),
            _ => {}
        }
        Ok(Answer::done())
    }

    /// The pages from that of `addr` to that of `last` that lie in a region, in rising order.
    fn visit(&mut self, p: u64, addr: u64, last: u64, write: bool) -> Result<(), Refusal> {
        let mut spans: Vec<_> = self
            .process(p)?
            .attached
            .iter()
            .map(|r| (r.start, r.end()))
            .collect();
        spans.sort_unstable();
        for (start, end) in spans {
            let first = start.max(addr / PAGE * PAGE);
            for page in (first..end.min(last + 1)).step_by(PAGE as usize) {
                let mapping = self.process(p)?.mapped.get(&page);
                if mapping.is_some_and(|(_, flags)| !write || flags & WRITABLE != 0) {
                    continue;
                }
                let at = self.find(p, page)?;
                self.fault(p, at, page, write)?;
            }
        }
        Ok(())
    }

    pub(super) fn eager(&mut self, p: u64) -> Result<Answer, Refusal> {
        let asks = |r: &&Region| matches!(r.kind, RegionKind::Private(marks) if marks.copy);
        let regions = self.process(p)?.attached.iter().filter(asks);
        let spans: Vec<_> = regions
            .filter_map(|r| Some((r.start, r.end() - 1, r.flags()?)))
            .collect();
        for (start, last, flags) in spans {
            if flags & USER != 0 {
                self.visit(p, start, last, flags & WRITABLE != 0)?;
            }
        }
        Ok(Answer::done())
    }
}
