//! The arguments of random calls: sizes, places, addresses, flags.

use super::{HALF, LARGE_SIZES, MachineScript, Mood, SIZES};
use crate::calls::Part;
use crate::machine::PROCESSES;
use crate::plain::{PAGE, Process};

const NO_EXECUTE: u64 = 1 << 63;
const FLAGS: [u64; 8] = [7, 7, 7, 7 | NO_EXECUTE, 5, 5 | NO_EXECUTE, 3, 1];
const BAD_FLAGS: [u64; 5] = [0, 6, 0xf, 1 << 62 | 1, u64::MAX];

impl MachineScript {
    pub(super) fn size(&mut self) -> u64 {
        if self.bad() {
            return self.random.pick(&[0, HALF + 1, u64::MAX]);
        }
        match self.mood {
            Mood::Crowded => self.random.pick(&[1, PAGE, 3 * PAGE]),
            Mood::Wide if self.random.once_in(4) => self.random.pick(&LARGE_SIZES),
            Mood::Wide => self
                .random
                .pick(&[8 * PAGE, 12 * PAGE, 24 * PAGE, 40 * PAGE]),
            _ if self.random.once_in(24) => self.random.pick(&LARGE_SIZES),
            _ => self.random.pick(&SIZES),
        }
    }

    /// About as many pages as there are frames, or a few.
    pub(super) fn run_size(&mut self) -> u64 {
        let frames = self.frames;
        let pages = [1, 2, 3, frames / 3, frames / 2, frames, frames + 1];
        let pages = self.random.pick(&pages).max(1);
        pages * PAGE - self.random.pick(&[0, 0, 1, PAGE - 1])
    }

    pub(super) fn part(&mut self, size: u64) -> Part {
        let offset = self
            .random
            .pick(&[0, 0, 1, 2, PAGE - 1, PAGE, PAGE + 1, HALF]);
        let lengths = [size, size, size / 2 + 1, size.saturating_sub(1), 0, 1];
        let length = self.random.pick(&lengths).min(size);
        let bad_file = self.bad();
        let file = if bad_file {
            self.random.pick(&[4, 8, u64::MAX])
        } else {
            self.random.below(4)
        };
        let by = if self.bad() {
            self.random.pick(&[1, HALF, u64::MAX - HALF])
        } else {
            0
        };
        Part {
            file,
            offset: offset + by,
            length: length.saturating_add(by),
        }
    }

    /// A page-aligned start: behind a region, in the arena, or at the end of the user addresses.
    pub(super) fn place(&mut self, p: u64) -> u64 {
        let near = match self.random.below(8) {
            0 => HALF - self.random.below(8) * PAGE,
            1..4 => self.arena.0 + self.random.below(24) * PAGE,
            _ => self.edge(p),
        };
        let start = near.div_ceil(PAGE) * PAGE;
        if self.bad() {
            return start + self.random.pick(&[1, PAGE / 2, HALF]);
        }
        start.min(HALF - PAGE)
    }

    pub(super) fn bound(&mut self, p: u64) -> u64 {
        let near = self.edge(p) / PAGE + self.random.below(3);
        (near.saturating_sub(1) * PAGE).min(HALF)
    }

    pub(super) fn process(&mut self) -> u64 {
        let none = self.mood == Mood::Mixed && self.random.once_in(60);
        if none || self.bad() {
            return self.random.pick(&[7, 8, u64::MAX]);
        }
        let open = (0..PROCESSES).filter(|p| self.model.open_process(*p).is_some());
        let open: Vec<usize> = open.collect();
        self.random.pick(&open) as u64
    }

    /// The open process with the fewest regions.
    pub(super) fn emptiest(&self) -> u64 {
        let open = (0..PROCESSES).filter_map(|p| Some((self.model.open_process(p)?, p as u64)));
        open.min_by_key(|(process, _)| process.spans().len())
            .map_or(0, |(_, p)| p)
    }

    pub(super) fn flags(&mut self) -> u64 {
        if self.bad() {
            return self.random.pick(&BAD_FLAGS);
        }
        let easy = self.mood.is_easy() && !self.random.once_in(8);
        if easy { 7 } else { self.random.pick(&FLAGS) }
    }

    pub(super) fn write(&mut self) -> bool {
        !self.random.once_in(3)
    }

    /// An address in or beside a region of the process.
    pub(super) fn address(&mut self, p: u64) -> u64 {
        if self.bad() {
            return self.random.pick(&[HALF, u64::MAX, 0xffff_8000_0000_0000]);
        }
        if self.wild && self.random.once_in(4) {
            return HALF - PAGE;
        }
        let (start, size) = self.span(p);
        let inside = self.random.below(size.min(8 * PAGE));
        let by = match self.random.below(8) {
            0 => size,
            1 => size - 1,
            2 => (size - 1) / PAGE * PAGE,
            3 => 0,
            _ => inside,
        };
        (start + by).min(HALF - 1)
    }

    /// Mostly an address that is mapped.
    pub(super) fn mapped(&mut self, p: u64) -> u64 {
        let pages = self.of_process(p, Process::mapped_pages);
        if pages.is_empty() || self.random.once_in(6) {
            return self.address(p);
        }
        self.random.pick(&pages) + self.random.pick(&[0, 1, 100, PAGE - 1])
    }

    /// Mostly an address of a pinned region.
    pub(super) fn pinned(&mut self, p: u64) -> u64 {
        let spans = self.of_process(p, Process::pinned_spans);
        if spans.is_empty() || self.random.once_in(6) {
            return self.address(p);
        }
        let (start, size) = self.random.pick(&spans);
        start + self.random.pick(&[0, size / 2, size - 1])
    }

    /// An end of a region, or an address inside one.
    fn edge(&mut self, p: u64) -> u64 {
        let (start, size) = self.span(p);
        let inside = self.random.below(size.min(8 * PAGE));
        let top = if self.wild && self.random.once_in(4) {
            HALF
        } else {
            start
        };
        self.random
            .pick(&[start, top, start + size, start + inside])
    }

    /// Start and size of a region of the process, at times a detached one.
    pub(super) fn span(&mut self, p: u64) -> (u64, u64) {
        let spans = self.of_process(p, Process::spans);
        if spans.is_empty() {
            (self.arena.0, PAGE)
        } else {
            self.random.pick(&spans)
        }
    }

    /// What `list` lists of the process, or nothing where it is not open.
    fn of_process<T>(&self, p: u64, list: fn(&Process) -> Vec<T>) -> Vec<T> {
        let number = usize::try_from(p).ok().filter(|p| *p < PROCESSES);
        let process = number.and_then(|p| self.model.open_process(p));
        process.map_or_else(Vec::new, list)
    }

    /// Whether a populate may end in the upper half.
    pub(super) fn bad_sum(&self) -> bool {
        matches!(self.mood, Mood::Mixed | Mood::Wild)
    }

    /// Whether to draw an argument of bad form.
    pub(super) fn bad(&mut self) -> bool {
        match self.mood {
            Mood::Mixed => self.random.once_in(80),
            Mood::Wild => self.random.once_in(6),
            _ => false,
        }
    }
}
