//! The plain machine's state, in the form that the oracle's has.

use super::region::Region;
use super::{PlainMachine, Process};
use crate::machine::{ProcessView, RegionView, Snapshot, sum};

impl PlainMachine {
    /// The tables, and the sums over the frames' bytes where they are asked for.
    #[must_use]
    pub fn snapshot(&self, bytes: bool) -> Snapshot {
        let in_use = self.used();
        let used = in_use
            .iter()
            .enumerate()
            .filter(|(_, used)| **used && bytes);
        let open = self.processes.iter().enumerate();
        let open = open.filter_map(|(number, process)| Some(self.view(number, process.as_ref()?)));
        Snapshot {
            frames: self.frames.len(),
            sums: used
                .map(|(frame, _)| (frame, sum(&self.frames[frame])))
                .collect(),
            processes: open.collect(),
            in_use,
        }
    }

    fn view(&self, number: usize, process: &Process) -> ProcessView {
        let attached = process
            .attached
            .iter()
            .map(|region| self.view_region(region, true));
        let detached = process
            .detached
            .iter()
            .map(|region| self.view_region(region, false));
        let segment = |r: &Region| (r.segment().start, r.segment().end - r.segment().start);
        let mut segments: Vec<_> = process.regions().map(segment).collect();
        segments.sort_unstable();
        ProcessView {
            number,
            arena: process.arena,
            segments,
            regions: attached.chain(detached).collect(),
            mapped: process
                .mapped
                .iter()
                .map(|(page, (frame, flags))| (*page, *frame, *flags))
                .collect(),
        }
    }

    fn view_region(&self, region: &Region, attached: bool) -> RegionView {
        let segment = region.segment();
        let page = |(page, frame): (&u64, &usize)| (*page, *frame, self.holders(region, *page));
        let range_holders = || {
            self.all_regions()
                .filter(|other| other.range == region.range)
                .count()
        };
        RegionView {
            start: region.start,
            size: region.size,
            segment: (segment.start, segment.end - segment.start),
            attached,
            kind: region.kind,
            pins: region.pins,
            pages: region.pages.iter().map(page).collect(),
            range: region
                .range
                .map(|(frame, len)| (frame, len, range_holders())),
        }
    }
}
