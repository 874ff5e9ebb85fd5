//! Where sound machines come from: random sequences of all calls, and machines made by hand.

use std::fmt;

use crate::calls::MachineCall;
use crate::compare::{is_script, shrink, with_files};
use crate::generate::MachineScript;
use crate::machine::Machine;
use crate::proved::Lent;
use crate::random::Random;
use crate::words::{Amounts, FRAME_BYTES, File, Words, build, encode, shuffle};

/// One machine in so many is made by hand.
const BY_HAND: u64 = 8;

pub struct Source {
    script: MachineScript,
    random: Random,
}

/// How a sound machine was made, and the seed by which its rows were shuffled, if they were.
#[derive(Clone)]
pub struct Origin {
    made: Made,
    shuffled: Option<u64>,
}

#[derive(Clone)]
enum Made {
    Script(Vec<MachineCall>),
    Hand(Amounts),
}

impl Source {
    pub fn new(seed: u64) -> Self {
        Self {
            script: MachineScript::new(seed),
            random: Random::new(seed),
        }
    }

    pub fn next_origin(&mut self) -> Origin {
        let made = self.made();
        let seed = self.random.number();
        let shuffled = self.random.once_in(2).then_some(seed);
        Origin { made, shuffled }
    }

    fn made(&mut self) -> Made {
        if self.random.once_in(BY_HAND) {
            return Made::Hand(self.amounts());
        }
        let mut calls = with_files(self.script.sequence());
        let shorter = self.random.once_in(4);
        let files = MachineScript::files().len();
        if shorter {
            let rest = (calls.len() - files) as u64;
            calls.truncate(files + 1 + self.random.below(rest) as usize);
        }
        Made::Script(calls)
    }

    /// A full machine, or one with less of everything.
    fn amounts(&mut self) -> Amounts {
        let processes: u64 = self.random.pick(&[1, 2, 4, 8]);
        let regions: u64 = self.random.pick(&[1, 7, 8, 32, 64]);
        let (frames, most) = (256 / regions, 512 / (processes * regions));
        let pages = frames.saturating_sub(most).clamp(1, 16);
        let entries = self.random.pick(&[0, most / 2, most]).min(pages);
        let ranged = entries + pages <= frames && !self.random.once_in(4);
        let backed = if ranged { pages } else { entries };
        Amounts {
            frames: 256,
            processes,
            regions,
            pages,
            ranged,
            entries,
            mapped: self
                .random
                .pick(&[0, backed / 2, backed])
                .min(128 / regions),
        }
    }
}

impl Origin {
    /// The machine itself.
    pub fn lent(&self) -> Lent {
        let mut lent = match &self.made {
            Made::Script(calls) => run(calls),
            Made::Hand(amounts) => Lent {
                words: build(amounts).map_or_else(Vec::new, |words| words.to_vec()),
                frames: vec![1; amounts.frames as usize * FRAME_BYTES],
                files: Vec::new(),
            },
        };
        if let (Some(seed), Ok(words)) = (self.shuffled, <&Words>::try_from(&lent.words[..])) {
            lent.words = shuffle(words, &mut Random::new(seed)).to_vec();
        }
        lent
    }

    /// With the calls left out that `found` does not need.
    pub fn shrunk(self, found: impl Fn(&Self) -> bool) -> Self {
        let Made::Script(calls) = &self.made else {
            return self;
        };
        let with = |calls: &[MachineCall]| Self {
            made: Made::Script(calls.to_vec()),
            shuffled: self.shuffled,
        };
        let calls = shrink(calls, |calls| is_script(calls) && found(&with(calls)));
        with(&calls)
    }
}

impl fmt::Display for Origin {
    fn fmt(&self, f: &mut fmt::Formatter<'_>) -> fmt::Result {
        match &self.made {
            Made::Script(calls) => calls.iter().try_for_each(|call| writeln!(f, "{call}"))?,
            Made::Hand(amounts) => writeln!(f, "# by hand: {amounts:?}")?,
        }
        self.shuffled.map_or(Ok(()), |seed| {
            writeln!(f, "# its rows shuffled by {seed:#x}")
        })
    }
}

/// The oracle's machine after these calls, as lent memory. A state that the words cannot hold gives
/// no words, which is then found as a difference.
fn run(calls: &[MachineCall]) -> Lent {
    let mut machine = Machine::new(true);
    let (mut rows, mut files) = (Vec::new(), Vec::new());
    for call in calls {
        machine.answer(call);
        if let MachineCall::File { readable, bytes } = call {
            File::lend(&mut rows, &mut files, *readable, bytes);
        }
    }
    let words = encode(&machine.snapshot(false), &rows);
    Lent {
        words: words.map_or_else(Vec::new, |words| words.to_vec()),
        frames: machine.frame_bytes(),
        files,
    }
}
