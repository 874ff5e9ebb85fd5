//! Damages the words of sound machines and compares two verdicts on them: that of the proved library
//! and that of `words::check`.

mod change;
mod refuse;
mod source;

use std::fmt;

use change::Change;
use source::{Origin, Source};

use crate::compare::shrink;
use crate::proved::Lent;
use crate::random::Random;
use crate::words::{Broken, check};

/// So many damages of one machine.
const EACH: usize = 40;

/// What became of the damaged machines.
#[derive(Debug, Default)]
pub struct Totals {
    /// Machines before damage: sound for both.
    pub whole: usize,
    pub damaged: usize,
    pub still_sound: usize,
    /// By the first rule that is broken; place 0 is not used.
    pub broken: [usize; 7],
    /// Calls that had to refuse, and calls on machines that were sound still.
    pub calls: usize,
}

impl fmt::Display for Totals {
    fn fmt(&self, f: &mut fmt::Formatter<'_>) -> fmt::Result {
        let Self { whole, damaged, .. } = self;
        write!(
            f,
            "{whole} sound machines, {damaged} damages, no difference; {} sound still, {} not:",
            self.still_sound,
            self.broken.iter().sum::<usize>()
        )?;
        for (rule, count) in self.broken.iter().enumerate().skip(1) {
            write!(f, " R{rule} {count}")?;
        }
        if self.calls > 0 {
            write!(f, "; {} calls on them as they must be", self.calls)?;
        }
        Ok(())
    }
}

/// A damaged machine on which the two differ, or on which a call did what it must not.
pub struct Finding {
    origin: Origin,
    changes: Vec<Change>,
    what: String,
}

impl fmt::Display for Finding {
    fn fmt(&self, f: &mut fmt::Formatter<'_>) -> fmt::Result {
        write!(f, "{}", self.origin)?;
        for change in &self.changes {
            writeln!(f, "# damage: {change}")?;
        }
        write!(f, "# {}", self.what)
    }
}

/// Damages machines at least `times` times and compares the verdicts.
///
/// # Errors
/// The smallest example found on which they differ.
pub fn damage(seed: u64, times: usize) -> Result<Totals, Box<Finding>> {
    let mut source = Source::new(seed);
    let mut random = Random::new(!seed);
    let mut totals = Totals::default();
    while totals.damaged < times {
        let origin = source.next_origin();
        let lent = origin.lent();
        let sound = judge(&lent, &mut random).and_then(|judged| match judged.broken {
            None => Ok(()),
            Some(broken) => Err(format!("not sound undamaged: {broken}")),
        });
        sound.map_err(|what| smallest(origin.clone(), Vec::new(), what))?;
        totals.whole += 1;
        for _ in 0..EACH {
            let changes = change::draw(&mut random, &lent);
            let judged = judge(&damaged(&lent, &changes), &mut random)
                .map_err(|what| smallest(origin.clone(), changes, what))?;
            totals.damaged += 1;
            totals.calls += judged.calls;
            match judged.broken {
                None => totals.still_sound += 1,
                Some(Broken { rule, .. }) => totals.broken[rule] += 1,
            }
        }
    }
    Ok(totals)
}

fn damaged(lent: &Lent, changes: &[Change]) -> Lent {
    let mut lent = lent.clone();
    changes.iter().for_each(|change| change.apply(&mut lent));
    lent
}

/// What both said of a machine.
struct Judged {
    broken: Option<Broken>,
    calls: usize,
}

/// The verdict on which both agree; else how they differ.
fn judge(lent: &Lent, random: &mut Random) -> Result<Judged, String> {
    let broken = check(&lent.words, lent.frames.len(), lent.files.len()).err();
    let number = lent.sound();
    if number != u64::from(broken.is_some()) {
        let ours = broken.map_or_else(|| "sound".into(), |broken| broken.to_string());
        return Err(format!("the library answers {number}, the check: {ours}"));
    }
    let calls = refuse::call_all(lent, broken.is_none(), random)?;
    Ok(Judged { broken, calls })
}

/// Drops calls and changes while a difference stays.
fn smallest(origin: Origin, changes: Vec<Change>, what: String) -> Box<Finding> {
    let differs = |origin: &Origin, changes: &[Change]| {
        judge(&damaged(&origin.lent(), changes), &mut Random::new(0)).err()
    };
    let origin = origin.shrunk(|origin| differs(origin, &changes).is_some());
    let changes = shrink(&changes, |changes| differs(&origin, changes).is_some());
    let what = differs(&origin, &changes).unwrap_or(what);
    Box::new(Finding {
        origin,
        changes,
        what,
    })
}
