//! Each proved call on a damaged machine, by its own function and by its number: 1 and nothing changed
//! where the machine is not sound; where it is, no 1, and a sound machine afterwards. One of them is also
//! made without room for its results, and in words that are no call. Then all of them in one batch.

use jhilkompa::ROW;

use crate::calls::{Create, Kind, MachineCall, Marks, Part};
use crate::proved::{LIST, Lent, keeps, numbered, results};
use crate::random::Random;
use crate::words::{FRAME_BYTES, Tables, WORDS, Words};

const BAD_TABLE: u64 = 1;

/// How many calls were made, or what one did that it must not.
pub fn call_all(lent: &Lent, sound: bool, random: &mut Random) -> Result<usize, String> {
    let calls = calls(lent, random);
    let mut after = lent.clone();
    for call in &calls {
        let trial = Trial { lent, sound, call };
        let mut out = vec![u64::MAX; results(call)];
        let number = after.ask(call, &[], &mut out);
        trial.judge(number, &out, &mut after)?;
        let mut all = [u64::MAX; LIST];
        let by_number = after.ask_number(&numbered(call, &[]), &mut all);
        trial.judge(by_number, &all, &mut after)?;
        let same = all.starts_with(&out) && all[out.len()..].iter().all(|word| *word == 0);
        if number != by_number || !same {
            return Err(format!(
                "{call} answers {number}, by its number {by_number}"
            ));
        }
    }
    let call = &calls[random.below(calls.len() as u64) as usize];
    let trial = Trial { lent, sound, call };
    trial.without_room(&mut after)?;
    trial.no_call(random, &mut after)?;
    in_one_batch(lent, calls, random)
}

/// All the calls in one batch, a start anywhere among them: answers and memory are those of the calls one by one. One more has no
/// room for its answer and does not run. Answers how many calls were made in all.
fn in_one_batch(
    lent: &Lent,
    mut calls: Vec<MachineCall>,
    random: &mut Random,
) -> Result<usize, String> {
    let count = calls.len();
    calls.rotate_left(random.below(count as u64) as usize);
    let (mut alone, mut at_once) = (lent.clone(), lent.clone());
    let (mut words, mut rows) = (Vec::new(), Vec::new());
    for call in &calls {
        let (asked, mut out) = (numbered(call, &[]), [u64::MAX; LIST]);
        rows.push(alone.ask_number(&asked, &mut out));
        rows.extend(out);
        words.push(asked.len() as u64);
        words.extend(asked);
    }
    words.extend([1, 1]);
    let mut answers = vec![u64::MAX; rows.len() + LIST];
    let ran = at_once.run(&words, &mut answers);
    let behind = answers.split_off(rows.len());
    let left = behind.iter().all(|word| *word == u64::MAX);
    if ran == count as u64 && left && answers == rows && at_once == alone {
        return Ok(3 * count);
    }
    let first = answers.chunks(ROW).zip(rows.chunks(ROW));
    let first = first.zip(&calls).find(|((ours, theirs), _)| ours != theirs);
    Err(match first {
        Some((_, call)) => format!("{call} answers otherwise in a batch"),
        None => format!("a batch of {count} ran {ran}, or left another machine"),
    })
}

/// A call on a machine.
struct Trial<'a> {
    lent: &'a Lent,
    sound: bool,
    call: &'a MachineCall,
}

impl Trial<'_> {
    /// Judges what a call answered and left, and puts the machine back.
    fn judge(&self, number: u64, out: &[u64], after: &mut Lent) -> Result<(), String> {
        let Self { lent, call, .. } = self;
        let wrong = |what: &str| Err(format!("{call} answers {number}: {what}"));
        if (number == BAD_TABLE) == self.grants() {
            return wrong("the machine's soundness is not seen");
        }
        if number != 0 && !keeps(call, number) && after != *lent {
            return wrong("a refusal changed the machine");
        }
        if number != 0 && out.iter().any(|word| *word != 0) {
            return wrong("a refusal's results are not 0");
        }
        if after != *lent {
            if after.sound() != 0 {
                return wrong("the machine is sound no more");
            }
            after.clone_from(lent);
        }
        Ok(())
    }

    /// Whether the call must not say 1: a start takes any words, but no other lengths.
    fn grants(&self) -> bool {
        let Lent { words, frames, .. } = self.lent;
        let frames_fit = frames.len() % FRAME_BYTES == 0 && frames.len() / FRAME_BYTES <= 256;
        match self.call {
            MachineCall::Start { .. } => words.len() == WORDS && frames_fit,
            _ => self.sound,
        }
    }

    /// With no room for its results a call is refused, and by its number with too little.
    fn without_room(&self, after: &mut Lent) -> Result<(), String> {
        let by_name = results(self.call) == 0 || after.ask(self.call, &[], &mut []) == BAD_TABLE;
        let mut few = [u64::MAX; LIST - 1];
        let by_number = after.ask_number(&numbered(self.call, &[]), &mut few) == BAD_TABLE;
        let left = after == self.lent && few.iter().all(|word| *word == u64::MAX);
        if by_name && by_number && left {
            return Ok(());
        }
        Err(format!("{} without room is not refused", self.call))
    }

    /// Words that are no call are refused and leave the room for results: no number, another number, an
    /// argument too many or too few, a flag that is 2, a byte of 256. A start with one word of a file is a
    /// call that is refused, and its results are 0.
    fn no_call(&self, random: &mut Random, after: &mut Lent) -> Result<(), String> {
        let good = numbered(self.call, &[]);
        let (more, fewer) = ([&good[..], &[0]].concat(), good[..good.len() - 1].to_vec());
        let mut words = vec![more, fewer, vec![random.pick(&[23, 24, u64::MAX])]];
        for (at, least) in bounded(&good) {
            let mut bad = good.clone();
            bad[at] = random.pick(&[least, least + 1, u64::MAX]);
            words.push(bad);
        }
        for words in words {
            let mut out = [u64::MAX; LIST];
            let number = after.ask_number(&words, &mut out);
            let left = if words.first() == Some(&0) {
                0
            } else {
                u64::MAX
            };
            if number != BAD_TABLE || after != self.lent || out != [left; LIST] {
                return Err(format!("the words {words:x?} are not refused"));
            }
        }
        Ok(())
    }
}

/// The places of a call in words that take no number from a bound on.
fn bounded(words: &[u64]) -> Vec<(usize, u64)> {
    let flags: &[usize] = match words[0] {
        4 => &[2, 4, 7, 8],
        5 => &[2, 6, 7],
        6 => &[2],
        13 => &[3],
        14 => &[4],
        22 => return vec![(3, 256)],
        _ => &[],
    };
    flags.iter().map(|at| (*at, 2)).collect()
}

/// One call of each kind, near what the machine has.
fn calls(lent: &Lent, random: &mut Random) -> Vec<MachineCall> {
    let (p, target) = (random.below(8), random.below(8));
    let addr = address(lent, p, random);
    let (write, start) = (random.once_in(2), addr / 4096 * 4096);
    let marks = Marks {
        flags: 7,
        copy: random.once_in(2),
        thread: false,
    };
    let part = Part {
        file: 0,
        offset: 0,
        length: 1,
    };
    let create = |kind: Kind| {
        MachineCall::Create(Create {
            p,
            start: None,
            size: 4096,
            kind,
        })
    };
    let len = 4 * 4096;
    let end = start + random.below(4) * 4096;
    vec![
        MachineCall::Start { frames: 0 },
        MachineCall::State,
        MachineCall::Open {
            start: 0x1000,
            size: 0x10_0000,
        },
        MachineCall::Close { p },
        create(Kind::Lazy(marks)),
        create(Kind::Eager(marks)),
        create(Kind::File(marks, part)),
        create(Kind::Shared),
        MachineCall::Remove { p, addr },
        MachineCall::Clear { p },
        MachineCall::Carve { p, start, end },
        MachineCall::Covers { p, start, end },
        MachineCall::Region { p, addr },
        MachineCall::Regions { p },
        MachineCall::Fault { p, addr, write },
        MachineCall::Populate {
            p,
            addr,
            len,
            write,
        },
        MachineCall::Eager { p },
        MachineCall::CloneRegion { p, addr, target },
        MachineCall::Clone { p, target },
        MachineCall::Protect { p, addr, flags: 5 },
        MachineCall::Pin { p, addr },
        MachineCall::Unpin { p, addr },
        MachineCall::Load { p, addr },
        MachineCall::Store { p, addr, byte: 9 },
    ]
}

/// Mostly an address that the process has mapped or has a region at.
fn address(lent: &Lent, p: u64, random: &mut Random) -> u64 {
    let Ok(words) = <&Words>::try_from(&lent.words[..]) else {
        return 0x1000;
    };
    let tables = Tables::read(words);
    let row = random.below(8) as usize;
    let addr = if random.once_in(2) {
        tables.mapped[p as usize * 128 + row].page.min(1 << 34) * 4096
    } else {
        tables.regions[p as usize * 64 + row].start.min(1 << 46)
    };
    addr + random.below(2)
}
