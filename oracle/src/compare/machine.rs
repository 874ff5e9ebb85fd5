//! Runs the machine on random sequences: beside a second machine, and with its rules checked.

use std::fmt;

use super::counts::{Counts, Made};
use super::second::Second;
use super::shrink::shrink;
use super::{Difference, Finding};
use crate::answer::Answer;
use crate::calls::MachineCall;
use crate::generate::MachineScript;
use crate::machine::{Machine, Snapshot};
use crate::rules;

/// What a run over random sequences went through.
#[derive(Debug, Default)]
pub struct Totals {
    pub calls: usize,
    /// Those up to the first answer of their sequence that ends a comparison, that answer included.
    pub in_domain: usize,
    pub counts: Counts,
}

impl fmt::Display for Totals {
    fn fmt(&self, f: &mut fmt::Formatter<'_>) -> fmt::Result {
        let Self {
            calls, in_domain, ..
        } = self;
        write!(f, "{calls} calls, {in_domain} of them in the domain")
    }
}

/// Compares at least `calls` calls, those of the domain alone counted, of sequences drawn from
/// `seed`: the answers, and after each call the tables and every byte of every frame in use. A
/// sequence goes on past an answer that ends a comparison with the Rust: from there on the refusals
/// and limits that the harness puts around the Rust are compared.
///
/// # Errors
/// The shortest script found on which the two differ.
pub fn compare_machines<S: Second>(
    seed: u64,
    calls: usize,
    second: impl Fn() -> S,
) -> Result<Totals, Finding<MachineCall>> {
    over_sequences(seed, calls, &|calls, totals| {
        run(calls, totals, &mut Beside(second()))
    })
}

/// Runs as many calls, and checks after each that there was no panic and that R1 to R6 hold.
///
/// # Errors
/// The shortest script found that panics or breaks a rule.
pub fn check_machine(seed: u64, calls: usize) -> Result<Totals, Finding<MachineCall>> {
    over_sequences(seed, calls, &|calls, totals| run(calls, totals, &mut Alone))
}

/// Runs a script.
type Run<'a> = &'a dyn Fn(&[MachineCall], &mut Totals) -> Result<(), Difference>;

fn over_sequences(seed: u64, calls: usize, run: Run<'_>) -> Result<Totals, Finding<MachineCall>> {
    let mut script = MachineScript::new(seed);
    let mut totals = Totals::default();
    while totals.in_domain < calls {
        let sequence = with_files(script.sequence());
        if let Err(difference) = run(&sequence, &mut totals) {
            return Err(shortest(&sequence[..=difference.at], run));
        }
    }
    Ok(totals)
}

pub fn with_files(sequence: Vec<MachineCall>) -> Vec<MachineCall> {
    MachineScript::files().into_iter().chain(sequence).collect()
}

/// What is looked at after each call of the oracle: the difference is what should have been and what is.
trait Look {
    fn look(
        &mut self,
        call: &MachineCall,
        oracle: &Machine,
        answer: &Answer,
        state: &Snapshot,
    ) -> Result<(), (Answer, Answer)>;
}

fn run(calls: &[MachineCall], totals: &mut Totals, look: &mut dyn Look) -> Result<(), Difference> {
    let mut oracle = Machine::new(true);
    let mut before = oracle.snapshot(false);
    let mut in_domain = true;
    let mut files = Vec::new();
    for (at, call) in calls.iter().enumerate() {
        if let MachineCall::File { bytes, .. } = call {
            files.push(bytes.len() as u64);
        }
        let answer = oracle.answer(call);
        let after = oracle.snapshot(false);
        let looked = look.look(call, &oracle, &answer, &after);
        looked.map_err(|(oracle, second)| Difference { at, oracle, second })?;
        totals.counts.note(&Made {
            call,
            answer: &answer,
            before: &before,
            after: &after,
            files: &files,
        });
        // Files are lent by the harness: they are no call of a machine.
        let is_call = !matches!(call, MachineCall::File { .. });
        totals.calls += usize::from(is_call);
        totals.in_domain += usize::from(is_call && in_domain);
        in_domain &= !answer.ends_comparison();
        before = after;
    }
    Ok(())
}

/// Nobody else answers: no panic, and the rules hold.
struct Alone;

impl Look for Alone {
    fn look(
        &mut self,
        _: &MachineCall,
        _: &Machine,
        answer: &Answer,
        state: &Snapshot,
    ) -> Result<(), (Answer, Answer)> {
        let broken = match answer {
            Answer::Panic(_) => Err("no panic".into()),
            _ => rules::check(state),
        };
        broken.map_err(|rule| (answer.clone(), Answer::Broken(rule)))
    }
}

/// A second machine answers too: the same, with the same tables and bytes.
struct Beside<S>(S);

impl<S: Second> Look for Beside<S> {
    fn look(
        &mut self,
        call: &MachineCall,
        oracle: &Machine,
        answer: &Answer,
        state: &Snapshot,
    ) -> Result<(), (Answer, Answer)> {
        let Self(second) = self;
        let theirs = second.answer(call);
        if *answer != theirs {
            return Err((answer.clone(), theirs));
        }
        let ours = || Answer::State(state.to_string());
        match second.tables() {
            Err(what) => return Err((ours(), Answer::Broken(what))),
            Ok(tables) if tables != *state => {
                return Err((ours(), Answer::State(tables.to_string())));
            }
            Ok(_) => {}
        }
        let mut used = (0..state.frames).filter(|frame| state.in_use[*frame]);
        let other = used.find(|frame| !oracle.has_bytes(*frame, second.frame(*frame)));
        other.map_or(Ok(()), |frame| {
            let what = format!("frame {frame} has other bytes");
            Err((ours(), Answer::Broken(what)))
        })
    }
}

fn shortest(calls: &[MachineCall], run: Run<'_>) -> Finding<MachineCall> {
    let run = |calls: &[MachineCall]| run(calls, &mut Totals::default());
    let calls = shrink(calls, |calls| is_script(calls) && run(calls).is_err());
    let difference = run(&calls).expect_err("the difference stays");
    Finding { calls, difference }
}

/// The files are lent, then the machine is started, before it is used.
pub fn is_script(calls: &[MachineCall]) -> bool {
    let first = calls
        .iter()
        .find(|call| !matches!(call, MachineCall::File { .. }));
    matches!(first, Some(MachineCall::Start { .. }))
}
