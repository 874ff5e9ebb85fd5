//! Where each table stands in the words: the one place that knows.

pub const WORDS: usize = 11_844;
pub const FRAME_BYTES: usize = 4096;
/// Region slots of a process, and as many places of its list.
pub const SLOTS: usize = 64;
/// Mapped pages of a process.
pub const PAGES: usize = 128;

pub type Words = [u64; WORDS];

/// A table: its first word, its rows, and the words of a row.
#[derive(Clone, Copy, Debug)]
pub struct Table {
    pub name: &'static str,
    pub first: usize,
    pub rows: usize,
    pub width: usize,
}

pub const PROCESSES: Table = table("process", 0, 8, 5);
pub const REGIONS: Table = table("region", 40, 512, 12);
pub const ORDER: Table = table("order", 6184, 512, 1);
pub const MAPPED: Table = table("mapped", 6696, 1024, 3);
pub const ENTRIES: Table = table("entry", 9768, 512, 3);
pub const BACKINGS: Table = table("backing", 11_304, 256, 2);
/// Free frames, and the next free one.
pub const POOL: Table = table("pool", 11_816, 1, 2);
pub const FILES: Table = table("file", 11_818, 8, 3);
/// Frames, and files.
pub const COUNTS: Table = table("counts", 11_842, 1, 2);

/// All of them, which fill the words.
pub const TABLES: [Table; 9] = [
    PROCESSES, REGIONS, ORDER, MAPPED, ENTRIES, BACKINGS, POOL, FILES, COUNTS,
];

const fn table(name: &'static str, first: usize, rows: usize, width: usize) -> Table {
    Table {
        name,
        first,
        rows,
        width,
    }
}

impl Table {
    /// The words of each row.
    pub fn rows_of<'a>(&self, words: &'a Words) -> impl Iterator<Item = &'a [u64]> {
        words[self.first..self.first + self.rows * self.width].chunks_exact(self.width)
    }

    pub(super) fn rows_mut<'a>(&self, words: &'a mut Words) -> impl Iterator<Item = &'a mut [u64]> {
        words[self.first..self.first + self.rows * self.width].chunks_exact_mut(self.width)
    }

    /// The row and the word of it at this place of the words, if it is one of this table's.
    #[must_use]
    pub fn place(&self, at: usize) -> Option<(usize, usize)> {
        let inside = at
            .checked_sub(self.first)
            .filter(|by| *by < self.rows * self.width);
        inside.map(|by| (by / self.width, by % self.width))
    }
}
