//! Creation in the plain machine.

use std::collections::BTreeMap;

use super::region::Region;
use super::{PAGE, PlainMachine, Process, form};
use crate::answer::{Answer, Refusal};
use crate::calls::{Create, Kind};
use crate::machine::RegionKind;

impl PlainMachine {
    pub(super) fn create(&mut self, create: &Create) -> Result<Answer, Refusal> {
        self.process(create.p)?;
        form::create(create)?;
        if let Kind::File(_, part) = create.kind {
            self.files.get(part.file as usize).ok_or(Refusal::NoFile)?;
        }
        let len = form::segment_len(create.size);
        let process = self.process(create.p)?;
        let start = match create.start {
            Some(start) if process.is_taken(start, len) => return Err(Refusal::SegmentReserved),
            Some(start) => start,
            None => process.lowest_free(len).ok_or(Refusal::NoSpace)?,
        };
        let kind = match create.kind {
            Kind::Lazy(marks) | Kind::Eager(marks) => RegionKind::Private(marks),
            Kind::File(marks, part) => RegionKind::File(marks, part),
            Kind::Shared => RegionKind::Shared,
        };
        let range = match create.kind {
            Kind::Eager(_) | Kind::Shared => {
                Some((self.lowest_run((len / PAGE) as usize)?, len / PAGE))
            }
            Kind::Lazy(_) | Kind::File(..) => None,
        };
        if self.process(create.p)?.slots_left() == 0 {
            return Err(Refusal::TableFull);
        }
        let region = Region {
            start,
            size: create.size,
            kind,
            pins: 0,
            pages: BTreeMap::new(),
            range,
        };
        region
            .range_frames()
            .for_each(|frame| self.frames[frame].fill(0));
        self.process_mut(create.p)?.attached.push(region);
        Ok(Answer::hex(start))
    }
}

impl Process {
    pub(super) fn is_taken(&self, start: u64, len: u64) -> bool {
        let overlaps = |r: &Region| r.segment().start < start + len && start < r.segment().end;
        self.regions().any(overlaps)
    }

    /// The lowest start in the arena with this many free bytes: the arena's own or one just past
    /// a region's segment.
    fn lowest_free(&self, len: u64) -> Option<u64> {
        let (arena, size) = self.arena;
        let last = size.checked_sub(len)? + arena;
        let starts = self
            .regions()
            .map(|region| region.segment().end)
            .chain([arena]);
        let fits = |start: &u64| (arena..=last).contains(start) && !self.is_taken(*start, len);
        starts.filter(fits).min()
    }
}
