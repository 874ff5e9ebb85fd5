//! Times of the proved calls' cores, without the soundness test, beside the kernel's own Rust: the same calls on the same
//! machine in one run.
//!
//! cargo run --profile timing --example cores

#[cfg(not(proved_bench))]
fn main() {
    eprintln!("cores: the proved library is not linked: see oracle/native");
}

#[cfg(proved_bench)]
fn main() {
    timed::table();
}

#[cfg(proved_bench)]
mod timed {
    use std::hint::black_box;
    use std::sync::Arc;
    use std::time::Instant;

    use kernel::mcore::mtask::process::mem::MemoryRegion;
    use oracle::calls::{Create, Kind, MachineCall, Marks};
    use oracle::machine::{Machine, Process};
    use oracle::words::{FRAME_BYTES, decode, encode};
    use x86_64::VirtAddr;
    use x86_64::structures::paging::{Page, PageTableFlags};

    const ROUNDS: usize = 1_001;
    const FRAMES: u64 = 256;
    const PAGE: u64 = 4096;
    const PAGES: u64 = 64;
    const FIRST: u64 = 16 * PAGE;
    /// From one region's start to the next.
    const APART: u64 = 128 * PAGE;
    const CALL_WORDS: usize = 11;
    const READ: u64 = 5;
    const WRITE: u64 = 7;

    unsafe extern "C" {
        fn bench_steps(
            words: *mut u64,
            words_len: usize,
            frames: *mut u8,
            frames_len: usize,
            files: *const u8,
            files_len: usize,
            starts: *mut u64,
            starts_len: usize,
            calls: *const u64,
            calls_len: usize,
        ) -> u64;
    }

    /// A row: calls that make a machine, and calls that are timed on it, each for the library in words.
    struct Row {
        name: &'static str,
        before: Vec<MachineCall>,
        calls: Vec<Timed>,
    }

    #[derive(Clone, Copy)]
    enum Timed {
        Remove { p: u64, addr: u64 },
        Carve { p: u64, start: u64, end: u64 },
        Covers { p: u64, start: u64, end: u64 },
        Fault { p: u64, addr: u64 },
        Populate { p: u64, addr: u64, len: u64 },
        CloneRegion { p: u64, addr: u64, target: u64 },
        Clone { p: u64, target: u64 },
        Protect { p: u64, addr: u64, flags: u64 },
    }

    #[derive(Clone)]
    struct Lent {
        words: Vec<u64>,
        frames: Vec<u8>,
    }

    pub fn table() {
        println!(
            "nanoseconds a call, the least of {ROUNDS} rounds, each on the machine made anew\n"
        );
        println!("{:<52}  calls   proved     Rust  ratio", "");
        let rows = [faults(), clones(), carves(), covers(), others()];
        for row in rows.into_iter().flatten() {
            let (proved, rust) = row.times();
            let (name, calls, ratio) = (row.name, row.calls.len(), proved / rust);
            println!("{name:<52}  {calls:>5}  {proved:>7.0}  {rust:>7.0}  {ratio:>5.2}");
        }
        println!(
            "{:<52}  {PAGES:>5}           {:>7.0}",
            "memcpy of 4,096 bytes",
            memcpy()
        );
    }

    // ---- the machines and their calls

    fn faults() -> Vec<Row> {
        let each = |p: u64| {
            move |i: u64| Timed::Fault {
                p,
                addr: FIRST + i * PAGE,
            }
        };
        let row = |name, p, before| Row {
            name,
            before,
            calls: (0..PAGES).map(each(p)).collect(),
        };
        let few = || [opened(2), full(0, FIRST, PAGES)].concat();
        vec![
            row(
                "fault that fills",
                0,
                [opened(1), vec![lazy(0, FIRST, PAGES)]].concat(),
            ),
            row("fault that copies", 0, shared(few(), 0)),
            row("fault that copies, crowded", 6, shared(crowded(), 6)),
            row("fault that only restores rights", 0, alone(few(), 0)),
            row(
                "fault that only restores rights, crowded",
                6,
                alone(crowded(), 6),
            ),
            Row {
                name: "populate of 64 pages",
                before: [opened(4), (0..4).map(|p| lazy(p, FIRST, PAGES)).collect()].concat(),
                calls: (0..4)
                    .map(|p| Timed::Populate {
                        p,
                        addr: FIRST,
                        len: PAGES * PAGE,
                    })
                    .collect(),
            },
        ]
    }

    fn clones() -> Vec<Row> {
        let eight = |p: u64| (0..8).flat_map(move |i| full(p, FIRST + i * APART, 8));
        let one = |p: u64| full(p, FIRST, PAGES);
        vec![
            Row {
                name: "clone of a region with 64 entries",
                before: [opened(8), (0..4).flat_map(one).collect()].concat(),
                calls: (0..4)
                    .map(|p| Timed::CloneRegion {
                        p,
                        addr: FIRST,
                        target: p + 4,
                    })
                    .collect(),
            },
            Row {
                name: "clone of a process, 8 regions with 8 entries each",
                before: [opened(8), (0..4).flat_map(eight).collect()].concat(),
                calls: (0..4).map(|p| Timed::Clone { p, target: p + 4 }).collect(),
            },
        ]
    }

    fn carves() -> Vec<Row> {
        let at = |i: u64| FIRST + i * APART;
        let many = |p: u64, n: u64| (0..n).map(move |i| lazy(p, at(i), 3));
        let whole = |i: u64| Timed::Carve {
            p: 0,
            start: at(i),
            end: at(i) + 3 * PAGE,
        };
        let middle = |p: u64| Timed::Carve {
            p,
            start: at(31) + PAGE,
            end: at(31) + 2 * PAGE,
        };
        vec![
            Row {
                name: "carve of 1 of 64 regions, whole",
                before: [opened(1), many(0, 64).collect()].concat(),
                calls: (0..64).map(whole).collect(),
            },
            Row {
                name: "carve of the middle of 1 of 62 regions, two splits",
                before: [opened(8), (0..8).flat_map(|p| many(p, 62)).collect()].concat(),
                calls: (0..8).map(middle).collect(),
            },
        ]
    }

    /// All of the range that regions of a page each cover. In a list that falls, each step along the range finds its region last.
    fn covers() -> Vec<Row> {
        let row = |name, order: &[u64]| Row {
            name,
            before: [
                opened(1),
                order.iter().map(|i| lazy(0, FIRST + i * PAGE, 1)).collect(),
            ]
            .concat(),
            calls: vec![
                Timed::Covers {
                    p: 0,
                    start: FIRST,
                    end: FIRST + order.len() as u64 * PAGE,
                };
                64
            ],
        };
        let rising: Vec<u64> = (0..PAGES).collect();
        let falling: Vec<u64> = (0..PAGES).rev().collect();
        let mixed: Vec<u64> = (0..PAGES).map(|i| i * 37 % PAGES).collect();
        vec![
            row("covers, 1 region", &[0]),
            row("covers, 64 regions, rising", &rising),
            row("covers, 64 regions, falling", &falling),
            row("covers, 64 regions, mixed", &mixed),
        ]
    }

    fn others() -> Vec<Row> {
        let flags = |i: u64| if i % 2 == 0 { READ } else { WRITE };
        let turn = |p: u64| {
            move |i: u64| Timed::Protect {
                p,
                addr: FIRST,
                flags: flags(i),
            }
        };
        let protect = |name, p, before| Row {
            name,
            before,
            calls: (0..64).map(turn(p)).collect(),
        };
        let few = [opened(1), full(0, FIRST, PAGES)].concat();
        vec![
            protect("protect of 64 mapped pages", 0, few),
            protect("protect of 64 mapped pages, crowded", 6, crowded()),
            Row {
                name: "remove of a region with 64 pages",
                before: [
                    opened(4),
                    (0..4).flat_map(|p| full(p, FIRST, PAGES)).collect(),
                ]
                .concat(),
                calls: (0..4).map(|p| Timed::Remove { p, addr: FIRST }).collect(),
            },
        ]
    }

    fn opened(processes: u64) -> Vec<MachineCall> {
        let open = MachineCall::Open {
            start: FIRST,
            size: 1 << 40,
        };
        let opens = (0..processes).map(|_| open.clone());
        [MachineCall::Start { frames: FRAMES }]
            .into_iter()
            .chain(opens)
            .collect()
    }

    fn lazy(p: u64, start: u64, pages: u64) -> MachineCall {
        let marks = Marks {
            flags: WRITE,
            copy: false,
            thread: false,
        };
        let (start, size, kind) = (Some(start), pages * PAGE, Kind::Lazy(marks));
        MachineCall::Create(Create {
            p,
            start,
            size,
            kind,
        })
    }

    /// A region whose pages all have an entry and are mapped.
    fn full(p: u64, start: u64, pages: u64) -> Vec<MachineCall> {
        let (addr, len, write) = (start, pages * PAGE, true);
        vec![
            lazy(p, start, pages),
            MachineCall::Populate {
                p,
                addr,
                len,
                write,
            },
        ]
    }

    /// A machine whose first 384 page entries are those of processes 0 to 5, with a full region of process 6 behind them: a state's entries
    /// become rows process by process.
    fn crowded() -> Vec<MachineCall> {
        let others = (1..6).map(|target| clone_region(0, FIRST, target));
        let first = full(0, FIRST, PAGES).into_iter().chain(others).collect();
        [opened(8), first, full(6, FIRST, PAGES)].concat()
    }

    /// The region of a process shared with the next.
    fn shared(before: Vec<MachineCall>, p: u64) -> Vec<MachineCall> {
        [before, vec![clone_region(p, FIRST, p + 1)]].concat()
    }

    /// Shared, and the other's removed: the pages stay read-only until they are written.
    fn alone(before: Vec<MachineCall>, p: u64) -> Vec<MachineCall> {
        let remove = MachineCall::Remove {
            p: p + 1,
            addr: FIRST,
        };
        [shared(before, p), vec![remove]].concat()
    }

    fn clone_region(p: u64, addr: u64, target: u64) -> MachineCall {
        MachineCall::CloneRegion { p, addr, target }
    }

    // ---- the times

    impl Row {
        /// Nanoseconds a call, of the proved core and of the Rust. Both must leave the same state.
        fn times(&self) -> (f64, f64) {
            let made = self.machine();
            let words = encode(&made.snapshot(false), &[]).expect("the tables hold it");
            let lent = Lent {
                words: words.to_vec(),
                frames: made.frame_bytes(),
            };
            drop(made);
            let calls: Vec<u64> = self.calls.iter().flat_map(Timed::words).collect();
            let (mut work, mut left) = (lent.clone(), None);
            let (mut tested, mut proved, mut rust) = (f64::MAX, f64::MAX, f64::MAX);
            for _ in 0..ROUNDS {
                work.clone_from(&lent);
                work.steps(&[]);
                tested = tested.min(timed(|| assert_eq!(work.steps(&[]), 0)));
                let granted = self.calls.iter().filter(|call| call.counts()).count();
                proved = proved.min(timed(|| assert_eq!(work.steps(&calls), granted as u64)));
                let machine = self.machine();
                rust = rust.min(timed(|| {
                    self.calls.iter().for_each(|call| call.by_rust(&machine))
                }));
                left.get_or_insert_with(|| machine.snapshot(true));
            }
            let words = work.words[..].try_into().expect("a machine's words");
            assert_eq!(
                decode(words, &work.frames, true).ok(),
                left,
                "{}",
                self.name
            );
            let calls = self.calls.len() as f64;
            ((proved - tested) / calls, rust / calls)
        }

        fn machine(&self) -> Machine {
            let mut machine = Machine::new(true);
            for call in &self.before {
                machine.answer(call);
            }
            machine
        }
    }

    impl Lent {
        /// How many of these calls the library grants, after one test for all.
        fn steps(&mut self, calls: &[u64]) -> u64 {
            let (w, f, mut starts) = (&mut self.words, &mut self.frames, [0; 64]);
            let (files, calls): (&[u8], &[u64]) = (&[], black_box(calls));
            // SAFETY: the function reads and writes inside the slices that it is lent, which are apart.
            unsafe {
                bench_steps(
                    w.as_mut_ptr(),
                    w.len(),
                    f.as_mut_ptr(),
                    f.len(),
                    files.as_ptr(),
                    files.len(),
                    starts.as_mut_ptr(),
                    starts.len(),
                    calls.as_ptr(),
                    calls.len(),
                )
            }
        }
    }

    impl Timed {
        /// Whether `bench_steps` counts the call: it counts what is done, and not what is answered.
        fn counts(&self) -> bool {
            !matches!(self, Self::Covers { .. })
        }

        /// The call's number, then ten arguments (include/machine.h).
        fn words(&self) -> [u64; CALL_WORDS] {
            let (number, arguments) = match *self {
                Self::Remove { p, addr } => (7, [p, addr, 0, 0]),
                Self::Carve { p, start, end } => (9, [p, start, end, 0]),
                Self::Covers { p, start, end } => (10, [p, start, end, 0]),
                Self::Fault { p, addr } => (13, [p, addr, 1, 0]),
                Self::Populate { p, addr, len } => (14, [p, addr, len, 1]),
                Self::CloneRegion { p, addr, target } => (16, [p, addr, target, 0]),
                Self::Clone { p, target } => (17, [p, target, 0, 0]),
                Self::Protect { p, addr, flags } => (18, [p, addr, flags, 0]),
            };
            let mut words = [0; CALL_WORDS];
            words[0] = number;
            words[1..5].copy_from_slice(&arguments);
            words
        }

        /// The kernel's own function, without the harness's tests around it.
        fn by_rust(&self, machine: &Machine) {
            let of = |p: u64| machine.parts(p).expect("it is open");
            match *black_box(self) {
                Self::Remove { p, addr } => {
                    let (process, region) = at(of(p), addr);
                    process.regions.remove_region(&process.space, &region);
                }
                Self::Carve { p, start, end } => {
                    black_box(of(p).regions.carve(&(start..end)).expect("it splits"));
                }
                Self::Covers { p, start, end } => {
                    assert!(of(p).regions.covers(&(start..end)));
                }
                Self::Fault { p, addr } => {
                    let (process, region) = at(of(p), addr);
                    let page = Page::containing_address(VirtAddr::new(addr));
                    region
                        .handle_fault(&process.space, page, true)
                        .expect("there is room");
                }
                Self::Populate { p, addr, len } => {
                    let (process, addr) = (of(p), VirtAddr::new(addr));
                    let done = process
                        .regions
                        .populate(&process.space, addr, len as usize, true);
                    done.expect("there is room");
                }
                Self::CloneRegion { p, addr, target } => {
                    let to = of(target);
                    let (process, region) = at(of(p), addr);
                    let clone = MemoryRegion::clone_into(&region, &process.space, &to.vmm);
                    to.regions.add_region(clone.expect("it is free"));
                }
                Self::Clone { p, target } => {
                    let to = of(target);
                    let process = of(p);
                    let done = process
                        .regions
                        .clone_into(&process.space, &to.regions, &to.vmm);
                    done.expect("there is room");
                }
                Self::Protect { p, addr, flags } => {
                    let (process, region) = at(of(p), addr);
                    let flags = PageTableFlags::from_bits_retain(flags);
                    region
                        .set_protection(&process.space, flags)
                        .expect("it is private");
                }
            }
        }
    }

    fn at(process: &Process, addr: u64) -> (&Process, Arc<MemoryRegion>) {
        let region = process.regions.region_for(VirtAddr::new(addr));
        (process, region.expect("it is there"))
    }

    fn memcpy() -> f64 {
        let mut bytes = vec![7_u8; 2 * PAGES as usize * FRAME_BYTES];
        let rounds = (0..ROUNDS).map(|_| {
            let (from, to) = black_box(&mut bytes[..]).split_at_mut(PAGES as usize * FRAME_BYTES);
            let frames = from
                .chunks_exact(FRAME_BYTES)
                .zip(to.chunks_exact_mut(FRAME_BYTES));
            timed(|| frames.for_each(|(from, to)| to.copy_from_slice(black_box(from))))
                / PAGES as f64
        });
        rounds.fold(f64::MAX, f64::min)
    }

    fn timed(f: impl FnOnce()) -> f64 {
        let begun = Instant::now();
        f();
        begun.elapsed().as_nanos() as f64
    }
}
