//! Removal, carve, covers, protection and pins in the plain machine.

use super::region::Region;
use super::{PINS, PlainMachine, Process, SLOTS, WRITABLE, form};
use crate::answer::{Answer, Refusal};
use crate::machine::RegionKind;

impl PlainMachine {
    pub(super) fn remove(&mut self, p: u64, addr: u64) -> Result<Answer, Refusal> {
        let at = self.find(p, addr)?;
        let process = self.process_mut(p)?;
        let region = process.attached.remove(at);
        process.give_up(region);
        Ok(Answer::done())
    }

    pub(super) fn clear(&mut self, p: u64) -> Result<Answer, Refusal> {
        let process = self.process_mut(p)?;
        let regions = std::mem::take(&mut process.attached);
        regions
            .into_iter()
            .for_each(|region| process.give_up(region));
        Ok(Answer::done())
    }

    pub(super) fn carve(&mut self, p: u64, start: u64, end: u64) -> Result<Answer, Refusal> {
        let process = self.process_mut(p)?;
        form::carve(start, end)?;
        let crosses = |r: &Region| {
            let overlaps = r.end() > start && r.start < end;
            overlaps && !(start <= r.start && r.end() <= end)
        };
        let all = std::mem::take(&mut process.attached);
        let (taken_out, kept): (Vec<_>, Vec<_>) = all.into_iter().partition(crosses);
        process.attached = kept;
        let mut out = taken_out.len();
        let mut refused = None;
        for region in taken_out {
            out -= 1;
            let parts = parts(region.clone(), &[start, end]);
            let held = process.regions().count() + out;
            refused = refused.or(process.cannot_split(&region, held + parts.len()));
            process.attached.extend(if refused.is_some() {
                vec![region]
            } else {
                parts
            });
        }
        refused.map_or(Ok(()), Err)?;
        let inside = process
            .attached
            .iter()
            .filter(|r| start <= r.start && r.end() <= end);
        if inside.clone().any(|region| region.pins > 0) {
            return Err(Refusal::InUse);
        }
        Ok(Answer::list(inside.map(|region| region.start).collect(), 1))
    }

    pub(super) fn covers(&self, p: u64, start: u64, end: u64) -> Result<Answer, Refusal> {
        let process = self.process(p)?;
        let mut at = start;
        while at < end {
            let Some(region) = process.at(at) else {
                return Ok(Answer::verdict(false));
            };
            at = process.attached[region].end();
        }
        Ok(Answer::verdict(true))
    }

    pub(super) fn protect(&mut self, p: u64, addr: u64, flags: u64) -> Result<Answer, Refusal> {
        self.process(p)?;
        form::user(addr)?;
        form::flags(flags)?;
        let at = self.find(p, addr)?;
        let region = self.process(p)?.attached[at].clone();
        if region.kind == RegionKind::Shared {
            return Err(Refusal::UnsupportedRegion);
        }
        let mapped: Vec<u64> = self.process(p)?.mapped.keys().copied().collect();
        for page in mapped.into_iter().filter(|page| region.contains(*page)) {
            let shared = self.holders(&region, page) > 1;
            let kept = if shared { flags & !WRITABLE } else { flags };
            let process = self.process_mut(p)?;
            process
                .mapped_in((page, 1))
                .for_each(|(_, mapping)| mapping.1 = kept);
        }
        self.process_mut(p)?.attached[at].set_flags(flags);
        Ok(Answer::done())
    }

    pub(super) fn pin(&mut self, p: u64, addr: u64) -> Result<Answer, Refusal> {
        let at = self.find(p, addr)?;
        let region = &mut self.process_mut(p)?.attached[at];
        if region.pins == PINS {
            return Err(Refusal::TableFull);
        }
        region.pins += 1;
        Ok(Answer::done())
    }

    pub(super) fn unpin(&mut self, p: u64, addr: u64) -> Result<Answer, Refusal> {
        let process = self.process_mut(p)?;
        form::user(addr)?;
        let mut regions = process.attached.iter_mut().chain(&mut process.detached);
        let region = regions.find(|region| region.contains(addr) && region.pins > 0);
        region.ok_or(Refusal::NoRegion)?.pins -= 1;
        process.detached.retain(|region| region.pins > 0);
        Ok(Answer::done())
    }
}

impl Process {
    /// Unmaps a region that has left the list, and keeps it detached while it is pinned.
    fn give_up(&mut self, region: Region) {
        self.unmap(region.start, region.size);
        if region.pins > 0 {
            self.detached.push(region);
            self.detached.sort_by_key(|region| region.start);
        }
    }

    /// Why a region cannot be split, with so many slots held afterwards.
    fn cannot_split(&self, region: &Region, slots: usize) -> Option<Refusal> {
        match region {
            Region {
                kind: RegionKind::Shared,
                ..
            } => Some(Refusal::Shared),
            Region { range: Some(_), .. } => Some(Refusal::EagerBacking),
            Region { pins: 1.., .. } => Some(Refusal::InUse),
            _ => (slots > SLOTS).then_some(Refusal::TableFull),
        }
    }
}

/// The region cut at those bounds that lie strictly inside it, in address order.
fn parts(region: Region, bounds: &[u64]) -> Vec<Region> {
    let mut parts = vec![region];
    for bound in bounds {
        let last = parts.pop().expect("there is always a last part");
        let inside = last.start < *bound && *bound < last.end();
        if inside {
            parts.extend(last.split(*bound))
        } else {
            parts.push(last)
        }
    }
    parts
}
