//! Looks for panics of the Rust outside the domain (RULES A5), with the smallest script of each.

use std::collections::BTreeMap;

use super::machine::with_files;
use super::shrink::shrink;
use super::{machine, manager};
use crate::answer::Answer;
use crate::calls::{MachineCall, ManagerCall};
use crate::generate::{MachineScript, ManagerScript};
use crate::machine::Machine;
use crate::manager::RustManager;

/// Panics by their message, whose numbers are left out.
pub type Panics = BTreeMap<String, Panic>;

pub struct Panic {
    pub message: String,
    /// The shortest script found.
    pub script: Vec<String>,
    /// How often this panic was met.
    pub met: usize,
}

/// After so many scripts of one panic the shortest is short enough.
const SHORTENED: usize = 30;

/// Runs at least `calls` calls on an unguarded manager, and as many on an unguarded machine.
#[must_use]
pub fn find_panics(seed: u64, calls: usize) -> Panics {
    let mut panics = Panics::new();
    let mut script = ManagerScript::new(seed);
    search(calls, || script.sequence(), manager_panic, &mut panics);
    let mut script = MachineScript::wild(seed);
    search(
        calls,
        || with_files(script.sequence()),
        machine_panic,
        &mut panics,
    );
    panics
}

/// Where a script's first panic is, and its message.
type FirstPanic<C> = fn(&[C]) -> Option<(usize, String)>;

fn search<C: Clone + ToString>(
    calls: usize,
    mut sequence: impl FnMut() -> Vec<C>,
    first_panic: FirstPanic<C>,
    panics: &mut Panics,
) {
    let mut run = 0;
    while run < calls {
        let sequence = sequence();
        run += sequence.len();
        if let Some((at, message)) = first_panic(&sequence) {
            note(panics, &sequence[..=at], first_panic, message);
        }
    }
}

fn note<C: Clone + ToString>(
    panics: &mut Panics,
    calls: &[C],
    first_panic: FirstPanic<C>,
    message: String,
) {
    let key = without_numbers(&message);
    let panic = panics.entry(key.clone());
    let panic = panic.or_insert(Panic {
        message,
        script: Vec::new(),
        met: 0,
    });
    panic.met += 1;
    if panic.met > SHORTENED {
        return;
    }
    let same = |calls: &[C]| first_panic(calls).is_some_and(|(_, m)| without_numbers(&m) == key);
    let script: Vec<String> = shrink(calls, same).iter().map(C::to_string).collect();
    if panic.script.is_empty() || script.len() < panic.script.len() {
        panic.script = script;
    }
}

fn without_numbers(message: &str) -> String {
    let words = message.split(' ').filter(|word| !word.starts_with("0x"));
    words.collect::<Vec<_>>().join(" ")
}

fn manager_panic(calls: &[ManagerCall]) -> Option<(usize, String)> {
    let mut rust = RustManager::new(false);
    first_panic(calls, |call| rust.answer(call)).filter(|_| manager::is_script(calls))
}

fn machine_panic(calls: &[MachineCall]) -> Option<(usize, String)> {
    let mut rust = Machine::new(false);
    first_panic(calls, |call| rust.answer(call)).filter(|_| machine::is_script(calls))
}

fn first_panic<C>(calls: &[C], mut answer: impl FnMut(&C) -> Answer) -> Option<(usize, String)> {
    calls
        .iter()
        .enumerate()
        .find_map(|(at, call)| match answer(call) {
            Answer::Panic(message) => Some((at, message)),
            _ => None,
        })
}
