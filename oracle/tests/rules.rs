//! The rule check passes a sound machine and names the rule that a damaged one breaks.

use oracle::calls::{Call, parse};
use oracle::machine::{Machine, RegionKind, Snapshot};
use oracle::rules::check;

/// Two processes: a private region and its clone, a range, a shared region, a detached one.
const SCRIPT: &str = "start 8
open 0x1000 0x100000
open 0x1000 0x100000
create 0 lazy 0x1000 0x2000 0x7 cow -
fault 0 0x1000 w
fault 0 0x2000 w
clone 0 1
create 0 eager 0x4000 0x1001 0x7 cow -
fault 0 0x4000 w
create 0 shared 0x8000 0x1000
fault 0 0x8000 r
create 0 lazy 0xa000 0x1000 0x7 cow -
fault 0 0xa000 w
pin 0 0xa000
remove 0 0xa000";

fn sound() -> Snapshot {
    let mut machine = Machine::new(true);
    for line in SCRIPT.lines() {
        let Ok(Some(Call::Machine(call))) = parse(line) else {
            panic!("no call of the machine: {line}");
        };
        machine.answer(&call);
    }
    machine.snapshot(true)
}

fn broken(damage: impl FnOnce(&mut Snapshot)) -> String {
    let mut state = sound();
    damage(&mut state);
    check(&state).expect_err("the damage is seen")
}

#[test]
fn a_sound_machine_passes() {
    assert_eq!(check(&sound()), Ok(()));
}

#[test]
fn r1_segments() {
    assert!(broken(|s| s.processes[0].segments.truncate(1)).starts_with("R1"));
    assert!(broken(|s| s.processes[0].regions[1].segment.0 = 0x2000).starts_with("R1"));
}

#[test]
fn r2_frames() {
    assert!(broken(|s| s.in_use[7] = true).starts_with("R2"));
    assert!(broken(|s| s.in_use[0] = false).starts_with("R2"));
    assert!(broken(|s| s.processes[0].regions[1].range = Some((0, 2, 1))).contains("R4"));
    assert!(broken(|s| s.processes[0].regions[3].pages[0].1 = 2).starts_with("R2"));
}

#[test]
fn r3_holders() {
    assert!(broken(|s| s.processes[1].regions[0].pages[0].2 = 1).starts_with("R3"));
    assert!(broken(|s| s.processes[1].regions[0].pages.truncate(1)).starts_with("R3"));
}

#[test]
fn r4_mappings() {
    assert!(broken(|s| s.processes[1].mapped.push((0x3000, 0, 5))).starts_with("R4"));
    assert!(broken(|s| s.processes[1].mapped.push((0x1000, 1, 5))).starts_with("R4"));
    assert!(broken(|s| s.processes[0].regions[0].attached = false).starts_with("R6"));
}

#[test]
fn r5_flags() {
    assert!(broken(|s| s.processes[0].mapped[0].2 = 7).starts_with("R5"));
    assert!(broken(|s| s.processes[0].mapped[2].2 = 3).starts_with("R5"));
    assert!(broken(|s| s.processes[0].mapped[3].2 = 7).starts_with("R5"));
}

#[test]
fn r6_records() {
    assert!(broken(|s| s.processes[0].regions[3].pins = 0).starts_with("R6"));
    assert!(broken(|s| s.processes[0].regions[2].range = None).starts_with("R6"));
    assert!(broken(|s| s.processes[0].regions[0].pages.swap(0, 1)).starts_with("R6"));
    assert!(broken(|s| s.processes[0].regions[0].pages[0].0 = 0x9000).starts_with("R6"));
    assert!(broken(|s| s.processes[0].mapped.swap(0, 1)).starts_with("R6"));
    assert!(broken(|s| s.processes[0].arena.1 += 1).starts_with("R6"));
    let flags = broken(|s| {
        if let RegionKind::Private(marks) = &mut s.processes[0].regions[3].kind {
            marks.flags = 6;
        }
    });
    assert!(flags.starts_with("R6"));
}
