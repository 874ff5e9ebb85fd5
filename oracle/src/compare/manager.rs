//! Compares a second manager with the kernel's own on random sequences.

use super::shrink::shrink;
use super::{Difference, Finding, Outcome, Pair, run};
use crate::answer::Answer;
use crate::calls::ManagerCall;
use crate::generate::ManagerScript;
use crate::manager::RustManager;

/// Makes a second manager, afresh for each sequence.
pub type MakeManager<'a> = &'a dyn Fn() -> Box<dyn FnMut(&ManagerCall) -> Answer>;

/// Compares at least `calls` calls of sequences drawn from `seed`, and answers how many they were.
///
/// # Errors
/// The shortest script found on which the two differ.
pub fn compare_managers(
    seed: u64,
    calls: usize,
    second: MakeManager<'_>,
) -> Result<usize, Finding<ManagerCall>> {
    let mut script = ManagerScript::new(seed);
    let mut compared = 0;
    while compared < calls {
        compared += compare_sequence(&script.sequence(), second)?;
    }
    Ok(compared)
}

/// Compares one sequence, and answers how many of its calls were run.
///
/// # Errors
/// The shortest script found on which the two differ.
pub fn compare_sequence(
    sequence: &[ManagerCall],
    second: MakeManager<'_>,
) -> Result<usize, Finding<ManagerCall>> {
    match run_managers(sequence, second) {
        Outcome::Agreed(count) => Ok(count),
        Outcome::Differed(difference) => Err(shortest(&sequence[..=difference.at], second)),
    }
}

fn run_managers(calls: &[ManagerCall], second: MakeManager<'_>) -> Outcome {
    let mut rust = RustManager::new(true);
    let pair = Pair {
        oracle: Box::new(move |call| rust.answer(call)),
        second: second(),
    };
    run(pair, calls, &ManagerCall::Segments)
}

fn shortest(calls: &[ManagerCall], second: MakeManager<'_>) -> Finding<ManagerCall> {
    let calls = shrink(calls, |calls| {
        is_script(calls) && differ(calls, second).is_some()
    });
    let difference = differ(&calls, second).expect("the difference stays");
    Finding { calls, difference }
}

/// A manager is made before it is used.
pub fn is_script(calls: &[ManagerCall]) -> bool {
    matches!(calls.first(), Some(ManagerCall::Manager { .. }))
}

fn differ(calls: &[ManagerCall], second: MakeManager<'_>) -> Option<Difference> {
    match run_managers(calls, second) {
        Outcome::Agreed(_) => None,
        Outcome::Differed(difference) => Some(difference),
    }
}
