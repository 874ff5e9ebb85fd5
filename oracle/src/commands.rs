//! What each command of the oracle does.

use std::fmt::Display;
use std::fs::File;
use std::io::{self, BufRead, BufReader, BufWriter, Write};
use std::process::ExitCode;
use std::time::Instant;

use oracle::answer::Answer;
use oracle::calls::{self, ManagerCall};
use oracle::compare::{
    Totals, check_machine, compare_machines, compare_managers, compare_short, find_panics,
};
use oracle::generate::{MachineScript, ManagerScript};
use oracle::manager::PlainManager;
use oracle::plain::PlainMachine;
use oracle::script::Script;

pub type Done = Result<ExitCode, String>;

const NOT_LINKED: &str = "the proved library is not linked: see oracle/native";

pub fn script(file: &str, guarded: bool) -> Done {
    let mut input: Box<dyn BufRead> = match file {
        "-" => Box::new(io::stdin().lock()),
        _ => Box::new(BufReader::new(
            File::open(file).map_err(|e| format!("{file}: {e}"))?,
        )),
    };
    let mut output = BufWriter::new(io::stdout().lock());
    Script::new(guarded)
        .run(&mut input, &mut output)
        .map_err(|e| e.to_string())?;
    Ok(ExitCode::SUCCESS)
}

pub fn generate(seed: &str, calls: &str, kind: &str) -> Done {
    let (seed, calls) = (number(seed)?, number(calls)?);
    let lines: Box<dyn Iterator<Item = String>> = match kind {
        "manager" => {
            let mut script = ManagerScript::new(seed);
            Box::new((0..calls).map(move |_| script.next_call().to_string()))
        }
        "machine" => Box::new(machine_lines(MachineScript::new(seed), calls)),
        _ => return Err(format!("neither manager nor machine: {kind}")),
    };
    let mut output = BufWriter::new(io::stdout().lock());
    for line in lines {
        writeln!(output, "{line}").map_err(|e| e.to_string())?;
    }
    Ok(ExitCode::SUCCESS)
}

/// The files that are lent, and then random calls.
fn machine_lines(mut script: MachineScript, calls: u64) -> impl Iterator<Item = String> {
    let files = MachineScript::files();
    let files = files.into_iter().map(|file| file.to_string());
    files.chain((0..calls).map(move |_| script.next_call().to_string()))
}

/// The second answerer of a comparison.
enum Second {
    Manager(fn() -> Manager),
    Machine(fn() -> PlainMachine),
    ProvedMachine,
}

type Manager = Box<dyn FnMut(&ManagerCall) -> Answer>;

pub fn compare(words: &[&str]) -> Done {
    let (named, words): (Vec<&str>, Vec<&str>) =
        words.iter().partition(|word| second(word).is_some());
    let second = match named[..] {
        [] => proved().map(Second::Manager),
        [name] => second(name),
        _ => return Err("one second answerer at a time".into()),
    };
    let second = second.filter(is_linked).ok_or(NOT_LINKED)?;
    each_seed(&words, "--calls", |seed, calls| match second {
        Second::Manager(make) => {
            let compared = compare_managers(seed, calls, &make);
            compared
                .map(|calls| format!("{calls} calls, no difference"))
                .map_err(|finding| finding.to_string())
        }
        Second::Machine(make) => compare_machines(seed, calls, make)
            .map(agreed)
            .map_err(|finding| finding.to_string()),
        Second::ProvedMachine => proved_machine(seed, calls),
    })
}

/// Whether the library of this answerer has what it takes.
fn is_linked(second: &Second) -> bool {
    cfg!(proved_machine) || !matches!(second, Second::ProvedMachine)
}

fn agreed(totals: Totals) -> String {
    format!("{totals}, no difference{}", totals.counts)
}

#[cfg(proved_machine)]
fn proved_machine(seed: u64, calls: usize) -> Result<String, String> {
    compare_machines(seed, calls, oracle::proved::ProvedMachine::default)
        .map(agreed)
        .map_err(|finding| finding.to_string())
}

#[cfg(not(proved_machine))]
fn proved_machine(_: u64, _: usize) -> Result<String, String> {
    Err(NOT_LINKED.into())
}

pub fn short(words: &[&str]) -> Done {
    let second = match words {
        [] => proved(),
        ["--plain-manager"] => Some(plain_manager as fn() -> Manager),
        ["--wrong-manager"] => Some(wrong_manager as fn() -> Manager),
        _ => return Err("no such manager".into()),
    };
    let second = second.ok_or(NOT_LINKED)?;
    let begun = Instant::now();
    let compared = compare_short(&second);
    let seconds = begun.elapsed().as_secs_f64();
    match compared {
        Ok(calls) => println!("{seconds:.3} s: {calls} calls, no difference"),
        Err(finding) => {
            println!("{seconds:.3} s: a difference\n{finding}");
            return Ok(ExitCode::FAILURE);
        }
    }
    Ok(ExitCode::SUCCESS)
}

fn second(name: &str) -> Option<Second> {
    match name {
        "--plain-manager" => Some(Second::Manager(plain_manager)),
        "--wrong-manager" => Some(Second::Manager(wrong_manager)),
        "--plain-machine" => Some(Second::Machine(PlainMachine::new)),
        "--wrong-machine" => Some(Second::Machine(PlainMachine::wrong)),
        "--proved-machine" => Some(Second::ProvedMachine),
        _ => None,
    }
}

fn plain_manager() -> Manager {
    let mut manager = PlainManager::new();
    Box::new(move |call| manager.answer(call))
}

fn wrong_manager() -> Manager {
    let mut manager = PlainManager::wrong();
    Box::new(move |call| manager.answer(call))
}

#[cfg(proved_segments)]
fn proved() -> Option<fn() -> Manager> {
    Some(|| {
        let mut manager = oracle::manager::ProvedManager::default();
        Box::new(move |call| manager.answer(call))
    })
}

#[cfg(not(proved_segments))]
fn proved() -> Option<fn() -> Manager> {
    None
}

pub fn check(words: &[&str]) -> Done {
    each_seed(words, "--calls", |seed, calls| {
        check_machine(seed, calls)
            .map(|totals| format!("{totals}, no panic, every rule kept"))
            .map_err(|finding| finding.to_string())
    })
}

#[cfg(proved_machine)]
pub fn damage(words: &[&str]) -> Done {
    each_seed(words, "--times", |seed, times| {
        oracle::damage::damage(seed, times).map(|totals| totals.to_string())
    })
}

#[cfg(not(proved_machine))]
pub fn damage(_: &[&str]) -> Done {
    Err(NOT_LINKED.into())
}

pub fn panics(words: &[&str]) -> Done {
    each_seed(words, "--calls", |seed, calls| {
        let mut text = String::from("these panics of the Rust");
        for panic in find_panics(seed, calls).values() {
            let script = panic.script.join("\n    ");
            text += &format!(
                "\n{} (met {} times)\n    {script}",
                panic.message, panic.met
            );
        }
        Ok::<_, String>(text)
    })
}

/// Runs `work` on each seed, as often as `option` asks for, and tells how long it took.
fn each_seed<E: Display>(
    words: &[&str],
    option: &str,
    work: impl Fn(u64, usize) -> Result<String, E>,
) -> Done {
    let (times, seeds) = match words {
        [name, times, seeds @ ..] if *name == option => (number(times)?, seeds),
        seeds => (100_000, seeds),
    };
    for seed in seeds {
        let begun = Instant::now();
        let result = work(number(seed)?, times as usize);
        let seconds = begun.elapsed().as_secs_f64();
        match result {
            Ok(text) => println!("seed {seed}, {seconds:.3} s: {text}"),
            Err(finding) => {
                println!("seed {seed}, {seconds:.3} s: a difference\n{finding}");
                return Ok(ExitCode::FAILURE);
            }
        }
    }
    Ok(ExitCode::SUCCESS)
}

fn number(word: &str) -> Result<u64, String> {
    calls::number(word).ok_or_else(|| format!("no number: {word}"))
}
