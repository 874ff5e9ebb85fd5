//! Times of batches of 1,000 mixed calls, with one soundness test for all: the proved machine beside the kernel's own Rust, the same
//! calls in one run, and beside the proved machine's checked calls.
//!
//! cargo run --profile timing --example batch [FIRST_SEED LAST_SEED]

#[cfg(not(proved_machine))]
fn main() {
    eprintln!("batch: the proved library is not linked: see oracle/native");
}

#[cfg(proved_machine)]
fn main() {
    let mut seeds = std::env::args()
        .skip(1)
        .filter_map(|word| word.parse().ok());
    let (first, last) = (seeds.next().unwrap_or(1), seeds.next().unwrap_or(12));
    timed::table(first..=last);
}

#[cfg(proved_machine)]
mod timed {
    use std::collections::BTreeMap;
    use std::hint::black_box;
    use std::ops::RangeInclusive;
    use std::time::Instant;

    use jhilkompa::ffi::machine::{machine_call, machine_run};
    use jhilkompa::{Call, File, Machine as Proved, RESULTS, ROW, Room};
    use oracle::answer::{Answer, Refusal};
    use oracle::calls::{Create, Kind, MachineCall};
    use oracle::generate::MachineScript;
    use oracle::machine::{Machine, SLOTS, Snapshot};
    use oracle::proved::{keeps, typed};
    use oracle::words::{FRAME_BYTES, decode};

    /// Of whole batches, and of each call by itself.
    const ROUNDS: usize = 301;
    const CALL_ROUNDS: usize = 101;
    const CALLS: usize = 1_000;
    /// Calls of a sequence, of which most are answered by the Rust itself.
    const DRAWN: u64 = 2_000;
    /// A refusal before which a call may have done something.
    const REFUSED_LATE: Refusal = Refusal::TableFull;
    /// What a frame holds at the start, as in the oracle's machine.
    const UNTOUCHED: u8 = 0xa5;

    /// Calls that are timed, after the files and the start that make their machine.
    struct Batch {
        made: Vec<MachineCall>,
        calls: Vec<MachineCall>,
        granted: Vec<bool>,
    }

    /// Nanoseconds of a batch: in words, as values with every answer read, call by call with a test each, and the Rust's.
    struct Whole {
        words: f64,
        values: f64,
        checked: f64,
        rust: f64,
    }

    /// Of one kind of call in all batches: how many, and their nanoseconds.
    #[derive(Default)]
    struct Sum {
        calls: usize,
        proved: f64,
        rust: f64,
    }

    pub fn table(seeds: RangeInclusive<u64>) {
        println!(
            "nanoseconds of {CALLS} calls, the least of {ROUNDS} rounds, each on the machine made anew\n"
        );
        println!(
            "seed  granted  in words  as values   checked     Rust  words/Rust  values/Rust  checked/Rust"
        );
        let mut sums = BTreeMap::new();
        let mut all = Whole::from(0.0);
        for seed in seeds {
            let batch = Batch::draw(seed);
            let whole = batch.whole();
            let granted = batch.granted.iter().filter(|granted| **granted).count();
            println!("{seed:>4}  {granted:>7}  {}", whole.text());
            all = all.each(&whole, |sum, more| sum + more);
            batch.note(&mut sums);
        }
        println!(" all           {}\n", all.text());
        kinds(sums);
    }

    fn kinds(sums: BTreeMap<String, Sum>) {
        println!(
            "                           calls  proved, each  Rust, each  ratio  of all proved  of all Rust"
        );
        let mut rows: Vec<(String, Sum)> = sums.into_iter().collect();
        rows.sort_by(|a, b| b.1.proved.total_cmp(&a.1.proved));
        let proved_all: f64 = rows.iter().map(|(_, sum)| sum.proved).sum();
        let rust_all: f64 = rows.iter().map(|(_, sum)| sum.rust).sum();
        for (name, sum) in rows {
            let (proved, rust) = (sum.proved / sum.calls as f64, sum.rust / sum.calls as f64);
            println!(
                "{name:<25}  {:>5}  {proved:>12.0}  {rust:>10.0}  {:>5.2}  {:>11.1} %  {:>9.1} %",
                sum.calls,
                proved / rust,
                100.0 * sum.proved / proved_all,
                100.0 * sum.rust / rust_all,
            );
        }
    }

    impl From<f64> for Whole {
        fn from(time: f64) -> Self {
            let (words, values, checked, rust) = (time, time, time, time);
            Self {
                words,
                values,
                checked,
                rust,
            }
        }
    }

    impl Whole {
        fn each(&self, other: &Self, f: impl Fn(f64, f64) -> f64) -> Self {
            Self {
                words: f(self.words, other.words),
                values: f(self.values, other.values),
                checked: f(self.checked, other.checked),
                rust: f(self.rust, other.rust),
            }
        }

        fn text(&self) -> String {
            let Self {
                words,
                values,
                checked,
                rust,
            } = self;
            format!(
                "{words:>8.0}  {values:>9.0}  {checked:>8.0}  {rust:>7.0}  {:>10.2}  {:>11.2}  {:>12.1}",
                words / rust,
                values / rust,
                checked / rust
            )
        }
    }

    impl Batch {
        /// The first 1,000 calls of a sequence that the Rust itself answers: those that the harness refuses for it, by form or by a
        /// full table, and those that go by a request's rule are left out.
        fn draw(seed: u64) -> Self {
            let mut script = MachineScript::new(seed);
            loop {
                let mut sequence = script.long_sequence(DRAWN).into_iter();
                let start = sequence.next().expect("a sequence has a start");
                let made = [MachineScript::files(), vec![start]].concat();
                let batch = Self::answered(made, sequence);
                if batch.calls.len() == CALLS {
                    return batch;
                }
            }
        }

        fn answered(made: Vec<MachineCall>, drawn: impl Iterator<Item = MachineCall>) -> Self {
            let mut machine = made_by(&made);
            let (mut calls, mut granted) = (Vec::new(), Vec::new());
            for call in drawn.filter(|call| typed(call).is_some()) {
                if calls.len() == CALLS {
                    break;
                }
                if machine.by_request(&call) {
                    continue;
                }
                let answer = machine.answer(&call);
                if !by_harness(&call, &answer) {
                    granted.push(!matches!(answer, Answer::No(_)));
                    calls.push(call);
                } else if keeps(&call, REFUSED_LATE.number().into()) {
                    // the old one gives its frames back before there is another
                    drop(machine);
                    machine = made_by(&made);
                    calls.iter().for_each(|call| drop(machine.answer(call)));
                }
            }
            Self {
                made,
                calls,
                granted,
            }
        }

        fn rust(&self) -> Machine {
            made_by(&self.made)
        }

        fn proved(&self) -> Proved {
            let (mut files, mut bytes) = (Vec::new(), Vec::new());
            for call in &self.made {
                match call {
                    MachineCall::File { readable, bytes } => files.push(File {
                        readable: *readable,
                        bytes,
                    }),
                    MachineCall::Start { frames } => {
                        bytes = vec![UNTOUCHED; *frames as usize * FRAME_BYTES];
                    }
                    _ => {}
                }
            }
            Proved::start_on(bytes, &files).expect("the Rust starts it too")
        }

        fn typed(&self) -> Vec<Call> {
            self.calls.iter().filter_map(typed).collect()
        }

        /// The least times. All leave the same state.
        fn whole(&self) -> Whole {
            let (begun, typed) = (self.proved(), self.typed());
            let words: Vec<u64> = typed.iter().flat_map(behind_count).collect();
            let mut rows = vec![0; CALLS * ROW];
            let (mut room, mut work) = (Room::default(), begun.clone());
            let mut least = Whole::from(f64::MAX);
            let mut left = None;
            for round in 0..ROUNDS {
                let mut now = Whole::from(f64::MAX);
                work.clone_from(&begun);
                now.words = timed(|| run(&mut work, &words, &mut rows));
                let by_words = (round == 0).then(|| work.clone());
                work.clone_from(&begun);
                now.values = timed(|| {
                    let answers = work.run_in(black_box(&typed), &mut room);
                    answers.filter(Result::is_ok).count()
                });
                let by_values = (round == 0).then(|| work.clone());
                if round % 10 == 0 {
                    work.clone_from(&begun);
                    now.checked = timed(|| checked(&mut work, &typed));
                }
                let mut machine = self.rust();
                now.rust = timed(|| bare(&mut machine, &self.calls));
                if round == 0 {
                    left = Some(machine.snapshot(true));
                    assert_eq!(by_words.as_ref().and_then(state), left);
                    assert_eq!(by_values.as_ref().and_then(state), left);
                    assert_eq!(state(&work), left);
                }
                least = least.each(&now, f64::min);
            }
            assert!(left.is_some());
            least
        }

        /// Adds the times of each call by itself. Of the proved one it is that of a batch of this call less that of a batch of none on
        /// the same machine, which is the test.
        fn note(&self, sums: &mut BTreeMap<String, Sum>) {
            let begun = self.proved();
            let words: Vec<Vec<u64>> = self.typed().iter().map(behind_count).collect();
            let (mut tests, mut both, mut rust) =
                ([f64::MAX; CALLS], [f64::MAX; CALLS], [f64::MAX; CALLS]);
            let (mut work, mut row) = (begun.clone(), [0; ROW]);
            for _ in 0..CALL_ROUNDS {
                work.clone_from(&begun);
                for (i, call) in words.iter().enumerate() {
                    run(&mut work, &[], &mut row);
                    tests[i] = tests[i].min(timed(|| run(&mut work, &[], &mut row)));
                    both[i] = both[i].min(timed(|| run(&mut work, call, &mut row)));
                }
                let mut machine = self.rust();
                let mut starts = [0; SLOTS];
                for (i, call) in self.calls.iter().enumerate() {
                    let time = timed(|| machine.bare(black_box(call), &mut starts));
                    rust[i] = rust[i].min(time);
                }
            }
            let clock = clock();
            for (i, call) in self.calls.iter().enumerate() {
                let sum = sums.entry(kind(call, self.granted[i])).or_default();
                sum.calls += 1;
                sum.proved += both[i] - tests[i];
                sum.rust += rust[i] - clock;
            }
        }
    }

    fn made_by(made: &[MachineCall]) -> Machine {
        let mut machine = Machine::new(true);
        for call in made {
            machine.answer(call);
        }
        machine
    }

    /// Whether it is the harness that refused, and not the Rust.
    fn by_harness(call: &MachineCall, answer: &Answer) -> bool {
        let close = matches!(call, MachineCall::Close { .. });
        (close && *answer == Answer::No(Refusal::InUse)) || answer.ends_comparison()
    }

    fn kind(call: &MachineCall, granted: bool) -> String {
        let name = match call {
            MachineCall::Create(Create { kind, .. }) => match kind {
                Kind::Lazy(_) => "create lazy",
                Kind::Eager(_) => "create eager",
                Kind::File(..) => "create file",
                Kind::Shared => "create shared",
            },
            call => call.name(),
        };
        format!("{name}{}", if granted { "" } else { ", refused" })
    }

    /// How many words the call has, and the words.
    fn behind_count(call: &Call) -> Vec<u64> {
        let words = call.words();
        let words = words.as_slice();
        [&[words.len() as u64], words].concat()
    }

    /// Has the library run these calls, after one test for all.
    fn run(machine: &mut Proved, calls: &[u64], rows: &mut [u64]) -> u64 {
        let memory = machine.memory();
        let calls = black_box(calls);
        machine_run(memory.words, memory.frames, memory.files, calls, rows)
    }

    /// Has the library run these calls, with a test before each.
    fn checked(machine: &mut Proved, calls: &[Call]) {
        let (memory, mut out) = (machine.memory(), [0; RESULTS]);
        for call in black_box(calls) {
            let words = call.words();
            let (words, files) = (words.as_slice(), memory.files);
            black_box(machine_call(
                memory.words,
                memory.frames,
                files,
                words,
                &mut out,
            ));
        }
    }

    /// Has the Rust run these calls.
    fn bare(machine: &mut Machine, calls: &[MachineCall]) -> usize {
        let mut starts = [0; SLOTS];
        let answers = calls
            .iter()
            .map(|call| machine.bare(black_box(call), &mut starts));
        answers.filter(Result::is_ok).count()
    }

    fn state(machine: &Proved) -> Option<Snapshot> {
        decode(machine.words(), machine.frames(), true).ok()
    }

    /// What looking at the clock takes.
    fn clock() -> f64 {
        (0..1_001).map(|_| timed(|| 0)).fold(f64::MAX, f64::min)
    }

    fn timed<T>(f: impl FnOnce() -> T) -> f64 {
        let begun = Instant::now();
        black_box(f());
        begun.elapsed().as_nanos() as f64
    }
}
