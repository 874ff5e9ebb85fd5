//! The proved machine answers as the oracle's does.
#![cfg(proved_machine)]

use oracle::answer::{Answer, Refusal};
use oracle::calls::{Call, MachineCall, parse};
use oracle::compare::compare_machines;
use oracle::generate::MachineScript;
use oracle::machine::Machine;
use oracle::proved::{ProvedMachine, typed};
use oracle::words::{FRAME_BYTES, decode};

#[test]
fn random_sequences_agree() {
    let compared = compare_machines(10, 5_000, ProvedMachine::default);
    assert!(compared.is_ok_and(|totals| totals.in_domain >= 5_000));
}

fn calls(text: &str) -> Vec<MachineCall> {
    let call = |line| match parse(line) {
        Ok(Some(Call::Machine(call))) => Some(call),
        Ok(None) => None,
        _ => panic!("no call of the machine: {line}"),
    };
    text.lines().filter_map(call).collect()
}

/// Each list four times, with up to three calls before it that change nothing: so each of its calls goes by its method, as a value,
/// in words and as a batch.
#[test]
fn lists_agree() {
    for list in [
        include_str!("../lists/machine.calls"),
        include_str!("../lists/proved.calls"),
        include_str!("../lists/points.calls"),
        include_str!("../lists/edges.calls"),
    ] {
        for first in ["", "state\n", "state\nstate\n", "state\nstate\nstate\n"] {
            let (mut oracle, mut proved) = (Machine::new(true), ProvedMachine::default());
            calls(first).iter().for_each(|call| {
                proved.answer(call);
            });
            for call in calls(list) {
                assert_eq!(proved.answer(&call), oracle.answer(&call), "{call}");
            }
        }
    }
}

/// Sequences of 500 calls in one batch, one soundness test for all: the Rust's answers one by one, and the same state at the end.
#[test]
fn batches_agree() {
    for seed in 1..=20 {
        let mut sequence = MachineScript::new(seed).long_sequence(500).into_iter();
        let Some(MachineCall::Start {
            frames: frames @ ..=256,
        }) = sequence.next()
        else {
            continue;
        };
        let calls = sequence.filter_map(|call| Some((typed(&call)?, call)));
        let (typed, calls): (Vec<_>, Vec<_>) = calls.unzip();
        let (mut oracle, mut files) = (Machine::new(true), Vec::new());
        let script = MachineScript::files();
        for call in &script {
            oracle.answer(call);
            if let MachineCall::File { readable, bytes } = call {
                let readable = *readable;
                files.push(jhilkompa::File { readable, bytes });
            }
        }
        oracle.answer(&MachineCall::Start { frames });
        let bytes = vec![0xa5; frames as usize * FRAME_BYTES];
        let mut proved = jhilkompa::Machine::start_on(bytes, &files).expect("it starts");
        for (answer, call) in proved.run(&typed).zip(&calls) {
            assert_eq!(
                Answer::from(answer.map(Answer::from)),
                oracle.answer(call),
                "seed {seed}: {call}"
            );
        }
        let state = decode(proved.words(), proved.frames(), true);
        assert_eq!(state, Ok(oracle.snapshot(true)), "seed {seed}");
    }
}

#[test]
fn a_region_takes_65535_pins() {
    let mut machine = ProvedMachine::default();
    for call in calls("start 1\nopen 0x1000 0x1000\ncreate 0 shared any 1") {
        machine.answer(&call);
    }
    let (p, addr) = (0, 0x1000);
    let (pin, unpin) = (MachineCall::Pin { p, addr }, MachineCall::Unpin { p, addr });
    for _ in 0..65_535 {
        assert_eq!(machine.answer(&pin), Answer::done());
    }
    for _ in 0..3 {
        assert_eq!(machine.answer(&pin), Answer::No(Refusal::TableFull));
    }
    let remove = MachineCall::Remove { p, addr };
    assert_eq!(machine.answer(&remove), Answer::done());
    for _ in 0..65_535 {
        assert_eq!(machine.answer(&unpin), Answer::done());
    }
    assert_eq!(machine.answer(&unpin), Answer::No(Refusal::NoRegion));
    assert_eq!(machine.answer(&MachineCall::Close { p: 0 }), Answer::done());
}
