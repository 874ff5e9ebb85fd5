//! What a run over random sequences went through: calls by their name and answer, and edges met.

use std::collections::BTreeMap;
use std::fmt;

use crate::answer::Answer;
use crate::calls::{Create, Kind, MachineCall};
use crate::machine::{ENTRIES, MAPPED, ProcessView, RegionKind, RegionView, SLOTS, Snapshot};
use crate::plain::PAGE;

/// Every name that is counted: the library's calls but its soundness test, which `state` asks.
pub const NAMES: [&str; 24] = [
    "start",
    "open",
    "close",
    "create lazy",
    "create eager",
    "create file",
    "create shared",
    "remove",
    "clear",
    "carve",
    "covers",
    "region",
    "regions",
    "fault",
    "populate",
    "eager",
    "clone_region",
    "clone",
    "protect",
    "pin",
    "unpin",
    "load",
    "store",
    "state",
];

/// Every edge that is counted.
pub const EDGES: [&str; 8] = [
    "a page filled in which the file ends",
    "a call in a region with a shadowed range",
    "an unpin of a detached region",
    "a call granted with 64 regions",
    "a call granted with 128 mapped pages",
    "a call granted with 512 entries",
    "a refusal that kept what was done before it",
    "a populate over a gap",
];

#[derive(Debug, Default)]
pub struct Counts {
    pub granted: BTreeMap<&'static str, usize>,
    /// By name and number.
    pub refused: BTreeMap<(&'static str, u8), usize>,
    pub edges: BTreeMap<&'static str, usize>,
}

/// One call with the states around it.
pub struct Made<'a> {
    pub call: &'a MachineCall,
    pub answer: &'a Answer,
    pub before: &'a Snapshot,
    pub after: &'a Snapshot,
    /// How many bytes each file has.
    pub files: &'a [u64],
}

impl Counts {
    pub fn note(&mut self, made: &Made<'_>) {
        let Some(name) = name(made.call) else {
            return;
        };
        let count = match made.answer {
            Answer::No(refusal) => self.refused.entry((name, refusal.number())).or_default(),
            _ => self.granted.entry(name).or_default(),
        };
        *count += 1;
        for (edge, is_met) in EDGES.into_iter().zip(made.edges()) {
            *self.edges.entry(edge).or_default() += usize::from(is_met);
        }
    }

    /// Calls by this name that were refused, whatever the number.
    #[must_use]
    pub fn refusals(&self, name: &str) -> usize {
        let own = self.refused.iter().filter(|((of, _), _)| *of == name);
        own.map(|(_, count)| count).sum()
    }
}

impl fmt::Display for Counts {
    fn fmt(&self, f: &mut fmt::Formatter<'_>) -> fmt::Result {
        for name in NAMES {
            let granted = self.granted.get(name).copied().unwrap_or_default();
            write!(f, "\n  {name}: granted {granted}")?;
            let own = self.refused.iter().filter(|((of, _), _)| *of == name);
            for (at, ((_, number), count)) in own.enumerate() {
                let what = if at == 0 { "; refused" } else { "," };
                write!(f, "{what} {number}: {count}")?;
            }
        }
        let mut edges = self.edges.iter();
        edges.try_for_each(|(edge, count)| write!(f, "\n  {edge}: {count}"))
    }
}

/// The name under which a call is counted; a file is no call of a machine.
fn name(call: &MachineCall) -> Option<&'static str> {
    match call {
        MachineCall::File { .. } => None,
        MachineCall::Create(Create { kind, .. }) => Some(match kind {
            Kind::Lazy(_) => "create lazy",
            Kind::Eager(_) => "create eager",
            Kind::File(..) => "create file",
            Kind::Shared => "create shared",
        }),
        _ => Some(call.name()),
    }
}

impl Made<'_> {
    /// Which of `EDGES` are met.
    fn edges(&self) -> [bool; EDGES.len()] {
        let granted = !matches!(self.answer, Answer::No(_)) && *self.call != MachineCall::State;
        let process = self.process();
        let has = |full: fn(&ProcessView) -> bool| granted && process.is_some_and(full);
        let entries = |state: &Snapshot| -> usize {
            let regions = state.processes.iter().flat_map(|p| &p.regions);
            regions.map(|region| region.pages.len()).sum()
        };
        [
            granted && self.fills_a_files_end(),
            self.region(true).is_some_and(is_shadowed),
            granted
                && matches!(self.call, MachineCall::Unpin { .. })
                && self.region(true).is_none(),
            has(|process| process.regions.len() == SLOTS),
            has(|process| process.mapped.len() == MAPPED),
            granted && entries(self.before) == ENTRIES,
            matches!(self.answer, Answer::No(_)) && self.before != self.after,
            self.passes_a_gap(),
        ]
    }

    /// The process that the call names, as it was.
    fn process(&self) -> Option<&ProcessView> {
        let number = self.call.process()?;
        let mut open = self.before.processes.iter();
        open.find(|process| process.number as u64 == number)
    }

    /// The region that the call names by an address.
    fn region(&self, attached: bool) -> Option<&RegionView> {
        let addr = self.call.address()?;
        let mut regions = self.process()?.regions.iter();
        regions.find(|region| {
            let inside = region.start <= addr && addr - region.start < region.size;
            inside && region.attached == attached
        })
    }

    fn fills_a_files_end(&self) -> bool {
        let MachineCall::Fault { addr, .. } = self.call else {
            return false;
        };
        let Some(region) = self.region(true) else {
            return false;
        };
        let RegionKind::File(_, part) = region.kind else {
            return false;
        };
        let page = addr / PAGE * PAGE;
        let from = page - region.start;
        let fills = region.pages.iter().all(|(start, ..)| *start != page);
        let has = |end: u64| from < end && end < from + PAGE;
        let file = self.files[part.file as usize].saturating_sub(part.offset);
        fills && (has(part.length) || has(file))
    }

    /// A populate that maps a page, passes one that lies in no region, and maps another.
    fn passes_a_gap(&self) -> bool {
        let (MachineCall::Populate { .. }, Some(process)) = (self.call, self.process()) else {
            return false;
        };
        let mut after = self.after.processes.iter();
        let after = after.find(|other| other.number == process.number);
        let mapped = after.map_or(&[][..], |after| &after.mapped);
        let is_new = |page: &u64| process.mapped.iter().all(|old| old.0 != *page);
        let new: Vec<u64> = mapped.iter().map(|page| page.0).filter(is_new).collect();
        let in_none = |page: u64| {
            let mut regions = process.regions.iter();
            regions.all(|region| page < region.start || page >= region.start + region.size)
        };
        let apart = |pages: &[u64]| pages[0] + PAGE < pages[1] && in_none(pages[0] + PAGE);
        new.windows(2).any(apart)
    }
}

/// Whether page entries stand before pages of the region's range.
fn is_shadowed(region: &RegionView) -> bool {
    region.range.is_some() && !region.pages.is_empty()
}
