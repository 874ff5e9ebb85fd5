//! The words read as tables of rows, and written back: one to one for any words.

use super::layout::{
    BACKINGS, COUNTS, ENTRIES, FILES, MAPPED, ORDER, POOL, PROCESSES, REGIONS, Table, WORDS, Words,
};

/// A row of `$width` words under the names of its words.
macro_rules! row {
    ($(#[$doc:meta])* $name:ident, $width:literal, $($(#[$field_doc:meta])* $field:ident),+) => {
        $(#[$doc])*
        #[derive(Clone, Copy, Debug, Default, PartialEq, Eq)]
        pub struct $name {
            $($(#[$field_doc])* pub $field: u64,)+
        }

        impl From<[u64; $width]> for $name {
            fn from([$($field),+]: [u64; $width]) -> Self {
                Self { $($field),+ }
            }
        }

        impl From<$name> for [u64; $width] {
            fn from($name { $($field),+ }: $name) -> Self {
                [$($field),+]
            }
        }
    };
}

row!(
    Process,
    5,
    opened,
    arena_start,
    arena_size,
    attached,
    mapped
);
row!(
    /// Row process * 64 + slot.
    Region, 12,
    /// 0 free, 1 Private, 2 FileBacked, 3 Shared.
    kind,
    start,
    size,
    flags,
    /// 0 CopyOnWrite, 1 CopyEager.
    fork,
    per_thread,
    pins,
    file,
    offset,
    length,
    ranged,
    /// The first frame of its range.
    range
);
row!(
    /// Row process * 128 + place.
    Mapping, 3,
    /// A page number.
    page,
    frame,
    flags
);
row!(
    Entry, 3,
    /// The region's row plus 1, 0 for a free entry.
    owner,
    /// A page number.
    page,
    frame
);
row!(
    /// Row f is the backing whose first frame is f.
    Backing, 2,
    /// In frames, 0 for none.
    length,
    holders
);
row!(File, 3, readable, offset, len);

impl File {
    /// Puts a file's bytes behind the lent ones and its row behind the others; answers its number, or
    /// nothing where there are 8 already.
    pub fn lend(
        rows: &mut Vec<Self>,
        lent: &mut Vec<u8>,
        readable: bool,
        bytes: &[u8],
    ) -> Option<u64> {
        let number = rows.len();
        if number == FILES.rows {
            return None;
        }
        rows.push(Self {
            readable: readable.into(),
            offset: lent.len() as u64,
            len: bytes.len() as u64,
        });
        lent.extend(bytes);
        Some(number as u64)
    }
}

/// All tables.
#[derive(Clone, Debug, PartialEq, Eq)]
pub struct Tables {
    pub processes: Vec<Process>,
    pub regions: Vec<Region>,
    /// Row process * 64 + place: a slot.
    pub order: Vec<u64>,
    pub mapped: Vec<Mapping>,
    pub entries: Vec<Entry>,
    pub backings: Vec<Backing>,
    pub free: u64,
    pub next: u64,
    pub files: Vec<File>,
    pub frame_count: u64,
    pub file_count: u64,
}

impl Tables {
    #[must_use]
    pub fn empty() -> Self {
        Self::read(&[0; WORDS])
    }

    #[must_use]
    pub fn read(words: &Words) -> Self {
        let pair = |table: Table| {
            let place = table.first;
            (words[place], words[place + 1])
        };
        let ((free, next), (frame_count, file_count)) = (pair(POOL), pair(COUNTS));
        Self {
            processes: read_rows(PROCESSES, words),
            regions: read_rows(REGIONS, words),
            order: ORDER.rows_of(words).flatten().copied().collect(),
            mapped: read_rows(MAPPED, words),
            entries: read_rows(ENTRIES, words),
            backings: read_rows(BACKINGS, words),
            free,
            next,
            files: read_rows(FILES, words),
            frame_count,
            file_count,
        }
    }

    #[must_use]
    pub fn write(&self) -> Box<Words> {
        let mut words = Box::new([0; WORDS]);
        write_rows(PROCESSES, &mut words, &self.processes);
        write_rows(REGIONS, &mut words, &self.regions);
        let order: Vec<[u64; 1]> = self.order.iter().map(|slot| [*slot]).collect();
        write_rows(ORDER, &mut words, &order);
        write_rows(MAPPED, &mut words, &self.mapped);
        write_rows(ENTRIES, &mut words, &self.entries);
        write_rows(BACKINGS, &mut words, &self.backings);
        write_rows(POOL, &mut words, &[[self.free, self.next]]);
        write_rows(FILES, &mut words, &self.files);
        write_rows(COUNTS, &mut words, &[[self.frame_count, self.file_count]]);
        words
    }
}

fn read_rows<const WIDTH: usize, R: From<[u64; WIDTH]>>(table: Table, words: &Words) -> Vec<R> {
    let rows = table.rows_of(words);
    rows.map(|row| R::from(std::array::from_fn(|at| row[at])))
        .collect()
}

fn write_rows<const WIDTH: usize, R: Copy + Into<[u64; WIDTH]>>(
    table: Table,
    words: &mut Words,
    rows: &[R],
) {
    for (place, row) in table.rows_mut(words).zip(rows) {
        let row: [u64; WIDTH] = (*row).into();
        place.copy_from_slice(&row);
    }
}
