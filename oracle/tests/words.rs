//! States as words and back, and the check of words beside that of states.

use oracle::calls::{Call, MachineCall, parse};
use oracle::generate::MachineScript;
use oracle::machine::{Machine, RegionKind, Snapshot};
use oracle::random::Random;
use oracle::rules;
use oracle::words::{
    Amounts, FRAME_BYTES, File, TABLES, Tables, Words, build, check, decode, encode, shuffle,
};

const SEQUENCES: usize = 60;

/// A machine's state with what is lent beside its words.
struct Made {
    state: Snapshot,
    words: Box<Words>,
    frames: Vec<u8>,
    files: usize,
}

impl Made {
    fn by<'a>(calls: impl IntoIterator<Item = &'a MachineCall>) -> Self {
        let mut machine = Machine::new(true);
        let (mut rows, mut files) = (Vec::new(), Vec::new());
        for call in calls {
            machine.answer(call);
            if let MachineCall::File { readable, bytes } = call {
                File::lend(&mut rows, &mut files, *readable, bytes);
            }
        }
        let state = machine.snapshot(true);
        Self {
            words: encode(&state, &rows).expect("the words hold a machine"),
            frames: machine.frame_bytes(),
            files: files.len(),
            state,
        }
    }
}

/// Machines after random sequences of all calls, each at its end and half way.
fn random_machines(seed: u64) -> impl Iterator<Item = Made> {
    let mut script = MachineScript::new(seed);
    (0..SEQUENCES).flat_map(move |_| {
        let mut calls = MachineScript::files();
        calls.extend(script.sequence());
        let half = &calls[..MachineScript::files().len() + 1 + (calls.len() - 5) / 2];
        [Made::by(half), Made::by(&calls)]
    })
}

#[test]
fn a_state_becomes_words_and_comes_back() {
    for made in random_machines(3) {
        assert_eq!(decode(&made.words, &made.frames, true), Ok(made.state));
        assert_eq!(Tables::read(&made.words).write(), made.words);
    }
}

#[test]
fn shuffled_words_are_the_same_state() {
    let mut random = Random::new(1);
    for made in random_machines(2) {
        let words = shuffle(&made.words, &mut random);
        let sound = check(&words[..], made.frames.len(), made.files);
        assert_eq!(sound, Ok(()), "{}", made.state);
        assert_eq!(decode(&words, &made.frames, true), Ok(made.state));
    }
}

#[test]
fn tables_fill_the_words() {
    let mut next = 0;
    for table in TABLES {
        assert_eq!(table.first, next, "{}", table.name);
        next += table.rows * table.width;
    }
    assert_eq!(next, oracle::words::WORDS);
}

#[test]
fn sound_states_are_sound_words() {
    for made in random_machines(4) {
        assert_eq!(rules::check(&made.state), Ok(()));
        let sound = check(&made.words[..], made.frames.len(), made.files);
        assert_eq!(sound, Ok(()), "{}", made.state);
    }
}

/// Words with one word changed: what the check passes keeps the rules as a state too.
#[test]
fn what_the_words_check_passes_the_state_check_passes() {
    let mut random = Random::new(5);
    let mut passed = 0;
    for made in random_machines(6) {
        for _ in 0..40 {
            let mut words = made.words.clone();
            let table = random.pick(&TABLES);
            let rows: Vec<usize> = table
                .rows_of(&words)
                .enumerate()
                .filter(|(_, row)| row.iter().any(|word| *word != 0))
                .map(|(row, _)| row)
                .collect();
            let Some(row) = rows.get(random.below(8) as usize) else {
                continue;
            };
            let at = table.first + row * table.width + random.below(table.width as u64) as usize;
            let values = [0, 1, words[at] ^ 2, words[at].wrapping_sub(1), 4096];
            words[at] = random.pick(&values);
            if check(&words[..], made.frames.len(), made.files).is_ok() {
                let state = decode(&words, &made.frames, false).expect("sound words are read");
                assert_eq!(rules::check(&state), Ok(()), "{state}");
                passed += 1;
            }
        }
    }
    assert!(passed > 100, "{passed} were sound");
}

const SCRIPT: &str = "start 8
open 0x1000 0x100000
open 0x1000 0x100000
create 0 lazy 0x1000 0x2000 0x7 cow -
fault 0 0x1000 w
fault 0 0x2000 w
clone 0 1
create 0 eager 0x4000 0x1001 0x7 cow -
fault 0 0x4000 w
create 0 shared 0x8000 0x1000
fault 0 0x8000 r
create 0 lazy 0xa000 0x1000 0x7 cow -
fault 0 0xa000 w
pin 0 0xa000
remove 0 0xa000";

fn scripted() -> Made {
    let calls = SCRIPT.lines().map(|line| match parse(line) {
        Ok(Some(Call::Machine(call))) => call,
        _ => panic!("no call of the machine: {line}"),
    });
    Made::by(&calls.collect::<Vec<_>>())
}

/// The rule that the words of a damaged state break, which break one as a state too.
fn broken(damage: impl FnOnce(&mut Snapshot)) -> usize {
    let Made {
        mut state, frames, ..
    } = scripted();
    damage(&mut state);
    assert!(rules::check(&state).is_err());
    let words = encode(&state, &[]).expect("the words hold it");
    check(&words[..], frames.len(), 0)
        .expect_err("the damage is seen")
        .rule
}

#[test]
fn damaged_states_are_damaged_words() {
    assert_eq!(broken(|s| s.processes[0].regions[1].start = 0x2000), 1);
    assert_eq!(broken(|s| s.in_use[7] = true), 2);
    assert_eq!(broken(|s| s.processes[0].regions[3].pages[0].1 = 2), 2);
    assert_eq!(broken(|s| s.processes[0].mapped[0].0 = 0x3000), 4);
    assert_eq!(broken(|s| s.processes[0].mapped[0].1 = 1), 4);
    assert_eq!(broken(|s| s.processes[0].mapped[0].2 = 7), 5);
    assert_eq!(broken(|s| s.processes[0].mapped[3].2 = 7), 5);
    assert_eq!(broken(|s| s.processes[0].regions[3].pins = 0), 6);
    assert_eq!(broken(|s| s.processes[0].mapped.swap(0, 1)), 6);
    assert_eq!(broken(|s| s.processes[0].arena.1 += 1), 6);
    let flags = broken(|s| {
        if let RegionKind::Private(marks) = &mut s.processes[0].regions[3].kind {
            marks.flags = 6;
        }
    });
    assert_eq!(flags, 6);
}

#[test]
fn any_words_are_judged() {
    let mut random = Random::new(7);
    for _ in 0..50 {
        let some = random.pick(&[2, 100, 5000]);
        let words: Vec<u64> = (0..oracle::words::WORDS)
            .map(|_| match random.below(some) {
                0 => random.number(),
                1 => random.below(600),
                _ => 0,
            })
            .collect();
        assert!(check(&words, FRAME_BYTES, 0).is_err());
    }
    assert!(check(&[0; oracle::words::WORDS], 0, 0).is_ok());
    assert!(check(&[0; oracle::words::WORDS - 1], 0, 0).is_err());
}

#[test]
fn full_machines_made_by_hand_are_sound() {
    let full = Amounts {
        frames: 256,
        processes: 8,
        regions: 64,
        pages: 3,
        ranged: true,
        entries: 1,
        mapped: 2,
    };
    let words = build(&full).expect("the words hold it");
    assert_eq!(check(&words[..], 256 * FRAME_BYTES, 0), Ok(()));
    let tables = Tables::read(&words);
    assert_eq!((tables.free, tables.next), (0, 256));
    assert!(tables.entries.iter().all(|entry| entry.owner != 0));
    assert!(tables.mapped.iter().all(|mapping| mapping.page != 0));
    assert!(tables.regions.iter().all(|region| region.kind != 0));
}

#[cfg(proved_machine)]
#[test]
fn damage_is_seen_alike() {
    let totals = oracle::damage::damage(9, 1_000).unwrap_or_else(|finding| panic!("{finding}"));
    assert!(totals.still_sound > 0 && totals.broken.iter().skip(1).all(|count| *count > 0));
}
