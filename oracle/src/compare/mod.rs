//! Runs two answerers side by side and finds the shortest script on which they differ.

mod counts;
mod machine;
mod manager;
mod panics;
mod second;
mod short;
mod shrink;

pub use counts::{Counts, EDGES, NAMES};
pub use machine::{Totals, check_machine, compare_machines, is_script, with_files};
pub use manager::compare_managers;
pub use panics::{Panics, find_panics};
pub use second::Second;
pub use short::compare_short;
pub use shrink::shrink;

use std::fmt;

use crate::answer::Answer;

/// Two that answer the same calls; the first is the oracle.
pub struct Pair<'a, C> {
    pub oracle: Box<dyn FnMut(&C) -> Answer + 'a>,
    pub second: Box<dyn FnMut(&C) -> Answer + 'a>,
}

/// The first call that two answered differently.
pub struct Difference {
    pub at: usize,
    pub oracle: Answer,
    pub second: Answer,
}

/// What became of the calls of one sequence.
pub enum Outcome {
    /// The answers agreed for this many calls.
    Agreed(usize),
    Differed(Difference),
}

/// Runs `calls` up to the first answer that ends a comparison, that answer included. After each call
/// both are asked `look`, so that their tables are compared as well.
pub fn run<C>(mut pair: Pair<'_, C>, calls: &[C], look: &C) -> Outcome {
    for (at, call) in calls.iter().enumerate() {
        let oracle = (pair.oracle)(call);
        let second = (pair.second)(call);
        if oracle != second {
            return Outcome::Differed(Difference { at, oracle, second });
        }
        let (oracle_table, second_table) = ((pair.oracle)(look), (pair.second)(look));
        if oracle_table != second_table {
            let (oracle, second) = (oracle_table, second_table);
            return Outcome::Differed(Difference { at, oracle, second });
        }
        if oracle.ends_comparison() {
            return Outcome::Agreed(at + 1);
        }
    }
    Outcome::Agreed(calls.len())
}

/// The shortest script found on which two differ, with their answers to its last call.
pub struct Finding<C> {
    pub calls: Vec<C>,
    pub difference: Difference,
}

impl<C: fmt::Display> fmt::Display for Finding<C> {
    fn fmt(&self, f: &mut fmt::Formatter<'_>) -> fmt::Result {
        self.calls
            .iter()
            .try_for_each(|call| writeln!(f, "{call}"))?;
        writeln!(f, "# the oracle: {}", self.difference.oracle)?;
        write!(f, "# the other:  {}", self.difference.second)
    }
}
