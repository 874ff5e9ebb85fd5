//! A region of the plain machine.

use std::collections::BTreeMap;
use std::ops::Range;

use super::{PAGE, form};
use crate::machine::RegionKind;

#[derive(Clone)]
pub struct Region {
    pub start: u64,
    pub size: u64,
    pub kind: RegionKind,
    pub pins: u64,
    /// The frame of each page entry, by page start.
    pub pages: BTreeMap<u64, usize>,
    /// First frame and length in pages.
    pub range: Option<(usize, u64)>,
}

impl Region {
    pub fn end(&self) -> u64 {
        self.start + self.size
    }

    pub fn contains(&self, addr: u64) -> bool {
        (self.start..self.end()).contains(&addr)
    }

    /// The addresses that the region takes in its process's manager.
    pub fn segment(&self) -> Range<u64> {
        self.start..self.start + form::segment_len(self.size)
    }

    /// The frame of the page's backing: the page entry if any, else the range.
    pub fn backing(&self, page: u64) -> Option<usize> {
        let offset = (page - self.start) / PAGE;
        let in_range = self.range.map(|(frame, _)| frame + offset as usize);
        self.pages.get(&page).copied().or(in_range)
    }

    pub fn range_frames(&self) -> Range<usize> {
        self.range
            .map_or(0..0, |(frame, len)| frame..frame + len as usize)
    }

    pub fn holds(&self, frame: usize) -> bool {
        self.range_frames().contains(&frame) || self.pages.values().any(|held| *held == frame)
    }

    /// The flags of a private or file region.
    pub fn flags(&self) -> Option<u64> {
        match self.kind {
            RegionKind::Private(marks) | RegionKind::File(marks, _) => Some(marks.flags),
            RegionKind::Shared => None,
        }
    }

    pub fn set_flags(&mut self, flags: u64) {
        match &mut self.kind {
            RegionKind::Private(marks) | RegionKind::File(marks, _) => marks.flags = flags,
            RegionKind::Shared => {}
        }
    }

    pub fn is_per_thread(&self) -> bool {
        match self.kind {
            RegionKind::Private(marks) | RegionKind::File(marks, _) => marks.thread,
            RegionKind::Shared => false,
        }
    }

    pub fn copies(&self) -> bool {
        match self.kind {
            RegionKind::Private(marks) | RegionKind::File(marks, _) => marks.copy,
            RegionKind::Shared => false,
        }
    }

    /// The part below `at` and the part from `at` on; `at` is a page inside.
    pub fn split(self, at: u64) -> [Region; 2] {
        let low_size = at - self.start;
        let (mut low, mut high) = (self.clone(), self);
        low.size = low_size;
        low.pages.retain(|page, _| *page < at);
        high.start = at;
        high.size -= low_size;
        high.pages.retain(|page, _| *page >= at);
        if let RegionKind::File(_, part) = &mut low.kind {
            part.length = part.length.min(low_size);
        }
        if let RegionKind::File(_, part) = &mut high.kind {
            part.offset += low_size;
            part.length = part.length.saturating_sub(low_size);
        }
        [low, high]
    }
}
