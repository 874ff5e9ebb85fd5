//! One change of lent memory: a word, a bit, a length; and what makes the rest fit the change, so that
//! one rule alone is broken.

use std::fmt;

use crate::proved::Lent;
use crate::random::Random;
use crate::words::{FRAME_BYTES, REGIONS, TABLES, Table, WORDS, Words, recount};

const WRITABLE: u64 = 1 << 1;
/// Numbers at the edges of the tables and of the addresses, those of pages among them.
const EDGES: [u64; 28] = [
    2,
    3,
    4,
    5,
    7,
    63,
    64,
    65,
    127,
    128,
    129,
    255,
    256,
    257,
    511,
    512,
    513,
    4095,
    4096,
    65_535,
    65_536,
    1 << 35,
    (1 << 47) - 4096,
    1 << 47,
    1 << 48,
    1 << 52,
    1 << 63,
    u64::MAX,
];

#[derive(Clone, Debug)]
pub enum Change {
    Word {
        at: usize,
        value: u64,
    },
    Bit {
        at: usize,
        bit: u32,
    },
    /// Two rows of so many words change places.
    Swap {
        at: usize,
        width: usize,
    },
    /// Backings and pool are counted afresh.
    Recount,
    Words {
        len: usize,
    },
    Frames {
        len: usize,
    },
    Files {
        len: usize,
    },
}

impl Change {
    pub fn apply(&self, lent: &mut Lent) {
        match *self {
            Self::Word { at, value } => {
                if let Some(word) = lent.words.get_mut(at) {
                    *word = value;
                }
            }
            Self::Bit { at, bit } => {
                if let Some(word) = lent.words.get_mut(at) {
                    *word ^= 1 << bit;
                }
            }
            Self::Swap { at, width } => {
                if let Some(rows) = lent.words.get_mut(at..at + 2 * width) {
                    rows.rotate_left(width);
                }
            }
            Self::Recount => {
                if let Ok(words) = <&Words>::try_from(&lent.words[..]) {
                    lent.words = recount(words).to_vec();
                }
            }
            Self::Words { len } => lent.words.resize(len, 0),
            Self::Frames { len } => lent.frames.resize(len, 0),
            Self::Files { len } => lent.files.resize(len, 0),
        }
    }
}

/// Mostly one change, at times more of them, or with all counts made afresh.
pub fn draw(random: &mut Random, lent: &Lent) -> Vec<Change> {
    let count = match random.below(16) {
        0 => 3,
        1 => 2,
        2 => return shared(random, lent),
        _ => 1,
    };
    let mut changes: Vec<Change> = (0..count).map(|_| draw_one(random, lent)).collect();
    if random.once_in(4) {
        changes.push(Change::Recount);
    }
    changes
}

/// A region in use becomes a shared one, without flags and marks; at times without its range.
fn shared(random: &mut Random, lent: &Lent) -> Vec<Change> {
    let Ok(words) = <&Words>::try_from(&lent.words[..]) else {
        return Vec::new();
    };
    let (at, _) = row(random, words, REGIONS);
    let mut fields = vec![(0, 3), (3, 0), (4, 0), (5, 0)];
    if random.once_in(3) {
        fields.extend([(10, 0), (11, 0)]);
    }
    let word = |(field, value)| Change::Word {
        at: at + field,
        value,
    };
    let mut changes: Vec<Change> = fields.into_iter().map(word).collect();
    changes.push(Change::Recount);
    changes
}

fn draw_one(random: &mut Random, lent: &Lent) -> Change {
    let Ok(words) = <&Words>::try_from(&lent.words[..]) else {
        return Change::Words { len: WORDS };
    };
    match random.below(32) {
        0 => length(random, lent),
        1 => {
            let table = random.pick(&TABLES);
            let (at, width) = row(random, words, table);
            Change::Swap { at, width }
        }
        2..10 => {
            let high = random.once_in(4);
            let bit = random.below(if high { 64 } else { 13 }) as u32;
            Change::Bit {
                at: place(random, words).1,
                bit,
            }
        }
        _ => {
            let (table, at) = place(random, words);
            let value = value(random, words, table, at);
            Change::Word { at, value }
        }
    }
}

fn length(random: &mut Random, lent: &Lent) -> Change {
    let near = |random: &mut Random, len: usize| {
        let by = random.pick(&[1, 1, FRAME_BYTES, 2 * FRAME_BYTES, len]);
        let longer = random.once_in(2);
        if longer {
            len + by
        } else {
            len.saturating_sub(by)
        }
    };
    match random.below(3) {
        0 => Change::Words {
            len: random.pick(&[0, 1, WORDS - 1, WORDS + 1, WORDS / 2]),
        },
        1 => Change::Frames {
            len: near(random, lent.frames.len()),
        },
        _ => Change::Files {
            len: near(random, lent.files.len()),
        },
    }
}

/// A word of a table.
fn place(random: &mut Random, words: &Words) -> (Table, usize) {
    let table = random.pick(&TABLES);
    let (at, width) = row(random, words, table);
    (table, at + random.below(width as u64) as usize)
}

/// Where a row starts, and its width: mostly a row in use, at times the first that is not, or any.
fn row(random: &mut Random, words: &Words, table: Table) -> (usize, usize) {
    let rows = table.rows_of(words).enumerate();
    let used: Vec<usize> = rows
        .filter(|(_, row)| row.iter().any(|word| *word != 0))
        .map(|(at, _)| at)
        .collect();
    let behind = used.last().map_or(0, |last| (last + 1) % table.rows);
    let row = match random.below(8) {
        0 => random.below(table.rows as u64) as usize,
        1 => behind,
        _ if used.is_empty() => 0,
        _ => random.pick(&used),
    };
    (table.first + row * table.width, table.width)
}

/// Another value for a word: beside the old one, that of another row, or at an edge.
fn value(random: &mut Random, words: &Words, table: Table, at: usize) -> u64 {
    let old = words[at];
    match random.below(16) {
        0..2 => old.wrapping_add(1),
        2..5 => old.wrapping_sub(1),
        5 => old ^ WRITABLE,
        6 => old.wrapping_add(4096),
        7 => old.wrapping_sub(4096),
        8 => 0,
        9 => 1,
        10 => random.number(),
        11 => random.below(512),
        12 => random.pick(&EDGES),
        _ => {
            let row = random.below(table.rows as u64) as usize;
            words[table.first + row * table.width + (at - table.first) % table.width]
        }
    }
}

impl fmt::Display for Change {
    fn fmt(&self, f: &mut fmt::Formatter<'_>) -> fmt::Result {
        let name = |at: usize| {
            let found = TABLES
                .iter()
                .find_map(|table| table.place(at).map(|place| (table.name, place)));
            found.map_or_else(
                || format!("word {at}"),
                |(table, (row, word))| format!("word {at}, {table} row {row} word {word}"),
            )
        };
        match *self {
            Self::Word { at, value } => write!(f, "{} becomes {value:#x}", name(at)),
            Self::Bit { at, bit } => write!(f, "{} loses or gets bit {bit}", name(at)),
            Self::Swap { at, width } => {
                write!(
                    f,
                    "{} and the row behind it of {width} words swapped",
                    name(at)
                )
            }
            Self::Recount => write!(f, "backings and pool counted afresh"),
            Self::Words { len } => write!(f, "{len} words"),
            Self::Frames { len } => write!(f, "{len} bytes of frames"),
            Self::Files { len } => write!(f, "{len} bytes of files"),
        }
    }
}
