//! Comparisons agree, and find what is wrong.

use oracle::answer::Answer;
use oracle::calls::ManagerCall;
use oracle::compare::{
    EDGES, NAMES, check_machine, compare_machines, compare_managers, find_panics,
};
use oracle::manager::PlainManager;
use oracle::plain::PlainMachine;

fn manager(mut manager: PlainManager) -> Box<dyn FnMut(&ManagerCall) -> Answer> {
    Box::new(move |call| manager.answer(call))
}

#[test]
fn the_plain_manager_agrees() {
    let compared = compare_managers(5, 20_000, &|| manager(PlainManager::new()));
    assert!(compared.is_ok_and(|calls| calls >= 20_000));
}

#[test]
fn a_wrong_manager_is_found() {
    for seed in 0..20 {
        let compared = compare_managers(seed, 20_000, &|| manager(PlainManager::wrong()));
        let finding = compared.expect_err("one line is wrong");
        assert!(finding.calls.len() <= 6, "{finding}");
    }
}

#[test]
fn the_plain_machine_agrees() {
    let compared = compare_machines(5, 3_000, PlainMachine::new);
    assert!(compared.is_ok_and(|totals| totals.in_domain >= 3_000));
}

#[test]
fn every_call_is_granted_and_refused_and_every_edge_is_met() {
    let compared = compare_machines(7, 30_000, PlainMachine::new);
    let counts = compared.unwrap_or_else(|found| panic!("{found}")).counts;
    for name in NAMES {
        assert!(
            counts.granted.contains_key(name),
            "{name} was never granted"
        );
        assert!(
            name == "state" || counts.refusals(name) > 0,
            "{name} was never refused"
        );
    }
    for edge in EDGES {
        assert!(counts.edges[edge] > 0, "never met: {edge}");
    }
    for name in [
        "carve",
        "fault",
        "populate",
        "eager",
        "clone_region",
        "clone",
    ] {
        assert!(counts.refused[&(name, 21)] > 0, "{name} met no full table");
    }
    for name in ["fault", "populate", "eager"] {
        assert!(
            counts.refused[&(name, 16)] > 0,
            "{name} met no full page table"
        );
    }
}

#[test]
fn a_wrong_machine_is_found() {
    for seed in 0..5 {
        let compared = compare_machines(seed, 20_000, PlainMachine::wrong);
        let finding = compared.expect_err("one line is wrong");
        assert!(finding.calls.len() <= 9, "{finding}");
    }
}

#[test]
fn the_machine_keeps_the_rules() {
    let checked = check_machine(6, 3_000);
    assert!(checked.is_ok_and(|totals| totals.in_domain >= 3_000));
}

#[test]
fn panics_outside_the_domain_are_found() {
    let panics = find_panics(1, 20_000);
    let has = |place: &str| panics.keys().any(|message| message.starts_with(place));
    assert!(has("segment.rs:25:"), "a segment that leaves its half");
    assert!(has("virt.rs:233:"), "a start that is no page's");
    assert!(has("mem.rs:665:"), "an eager region that is not writable");
}
