//! Times of the proved machine's soundness test and of a checked load, beside the Rust's look-ups.
//!
//! cargo run --profile timing --example checked

#[cfg(not(proved_machine))]
fn main() {
    eprintln!("checked: the proved library is not linked: see oracle/native");
}

#[cfg(proved_machine)]
fn main() {
    timed::tables();
}

#[cfg(proved_machine)]
mod timed {
    use std::collections::BTreeMap;
    use std::hint::black_box;
    use std::time::Instant;

    use oracle::calls::{Create, Kind, MachineCall, Marks};
    use oracle::machine::Machine;
    use oracle::proved::Lent;
    use oracle::words::{Amounts, FRAME_BYTES, build, check};

    const ROUNDS: usize = 101;
    const CALLS: usize = 50;
    const FRAMES: u64 = 256;
    const PAGE: u64 = 4096;
    /// Eight clones of eight regions with sixteen mapped pages each.
    const MIDDLE: Amounts = Amounts {
        frames: FRAMES,
        processes: 8,
        regions: 8,
        pages: 16,
        ranged: true,
        entries: 8,
        mapped: 16,
    };
    /// Every table full.
    const FULL: Amounts = Amounts {
        regions: 64,
        pages: 3,
        entries: 1,
        mapped: 2,
        ..MIDDLE
    };
    const NOTHING: Amounts = Amounts {
        frames: FRAMES,
        processes: 0,
        regions: 0,
        pages: 0,
        ranged: false,
        entries: 0,
        mapped: 0,
    };

    pub fn tables() {
        println!("nanoseconds, the least of {ROUNDS} rounds of {CALLS} calls\n");
        machines();
        growth();
    }

    fn machines() {
        println!(
            "machine   regions  entries  mapped     sound  checked load  bare load  Rust's load  tree look-up  sound/Rust's  load/Rust's  bare/Rust's"
        );
        machine("empty", &NOTHING);
        machine("middle", &MIDDLE);
        machine("full", &FULL);
        println!();
    }

    fn machine(name: &str, amounts: &Amounts) {
        let lent = lend(amounts);
        let sound = least(|| assert_eq!(black_box(&lent).sound(), 0));
        let addresses: Vec<u64> = amounts.mapped_addresses().collect();
        let addr = addresses.last().copied().unwrap_or(16 * PAGE);
        let process = amounts.processes.max(1) - 1;
        let load = checked_load(&lent, process, addr, addresses.is_empty());
        let bare = bare_load(&lent, process, addr, addresses.is_empty());
        let rust = rust_load(addresses.len() as u64);
        let tree = tree_look_up(&addresses, addr);
        println!(
            "{name:<8}  {:>7}  {:>7}  {:>6}  {sound:>8.0}  {:>12}  {:>9}  {rust:>11.1}  {tree:>12.1}  {:>12.0}  {:>11}  {:>11}",
            amounts.processes * amounts.regions,
            amounts.processes * amounts.regions * amounts.entries,
            amounts.processes * amounts.regions * amounts.mapped,
            text(Some(load), 0),
            text(bare, 1),
            sound / rust,
            text(Some(load / rust), 0),
            text(bare.map(|bare| bare / rust), 2),
        );
    }

    fn text(value: Option<f64>, digits: usize) -> String {
        value.map_or_else(|| "-".into(), |value| format!("{value:.digits$}"))
    }

    /// How the test grows with the rows in use: of one table alone, at none, half and all.
    fn growth() {
        println!("sound, by what is in use    none      half      full");
        grow("regions, 8 x 64", |part| Amounts {
            processes: 8,
            regions: 64 * part / 2,
            pages: 1,
            ..NOTHING
        });
        grow("entries, 8 x 64 in 8 regions", |part| Amounts {
            processes: 8,
            regions: 1,
            pages: 128,
            entries: 64 * part / 2,
            ..NOTHING
        });
        grow("mapped, 8 x 128 in 8 regions", |part| Amounts {
            processes: 8,
            regions: 1,
            pages: 128,
            ranged: true,
            mapped: 128 * part / 2,
            ..NOTHING
        });
        grow("backings, 256 of one process", |part| Amounts {
            processes: 1,
            regions: 1,
            pages: 256,
            entries: 256 * part / 2,
            ..NOTHING
        });
    }

    fn grow(what: &str, amounts: impl Fn(u64) -> Amounts) {
        print!("{what:<28}");
        for part in 0..=2 {
            let lent = lend(&amounts(part));
            let time = least(|| assert_eq!(black_box(&lent).sound(), 0));
            print!("{time:>8.0}  ");
        }
        println!();
    }

    /// A machine made by hand, sound by our own check.
    fn lend(amounts: &Amounts) -> Lent {
        let words = build(amounts).expect("the tables hold it");
        let frames = vec![7; amounts.frames as usize * FRAME_BYTES];
        let sound = check(&words[..], frames.len(), 0);
        assert_eq!(sound, Ok(()), "{amounts:?}");
        Lent {
            words: words.to_vec(),
            frames,
            files: Vec::new(),
        }
    }

    fn checked_load(lent: &Lent, p: u64, addr: u64, refused: bool) -> f64 {
        let mut lent = lent.clone();
        let call = MachineCall::Load { p, addr };
        least(|| {
            let mut out = [0];
            let number = lent.ask(black_box(&call), &[], &mut out);
            assert!(refused || (number == 0 && out[0] == 7));
        })
    }

    /// A load's core without the test: a page's loads with one test for all, less the test.
    #[cfg(proved_bench)]
    fn bare_load(lent: &Lent, p: u64, addr: u64, refused: bool) -> Option<f64> {
        let loads = |times: u64| {
            least(|| {
                let sum = black_box(lent).loads(p, black_box(addr), black_box(times));
                assert!(refused || sum == 7 * times);
            })
        };
        Some((loads(PAGE) - loads(0)) / PAGE as f64)
    }

    /// The library of cores is not linked.
    #[cfg(not(proved_bench))]
    fn bare_load(_: &Lent, _: u64, _: u64, _: bool) -> Option<f64> {
        None
    }

    /// The oracle's machine, one process with so many mapped pages: a load from the last of them.
    fn rust_load(pages: u64) -> f64 {
        let mut machine = Machine::new(true);
        let marks = Marks {
            flags: 7,
            copy: false,
            thread: false,
        };
        let size = pages.max(1) * PAGE;
        let start = 16 * PAGE;
        for call in [
            MachineCall::Start { frames: FRAMES },
            MachineCall::Open {
                start,
                size: 1 << 40,
            },
            MachineCall::Create(Create {
                p: 0,
                start: Some(start),
                size,
                kind: Kind::Lazy(marks),
            }),
            MachineCall::Populate {
                p: 0,
                addr: start,
                len: pages * PAGE,
                write: true,
            },
        ] {
            machine.answer(&call);
        }
        let load = MachineCall::Load {
            p: 0,
            addr: start + size - PAGE,
        };
        least(|| {
            black_box(machine.answer(black_box(&load)));
        })
    }

    /// A look-up of the page in a tree of as many mapped pages, which is what a kernel without lent
    /// words would do at best.
    fn tree_look_up(addresses: &[u64], addr: u64) -> f64 {
        let tree: BTreeMap<u64, (usize, u64)> =
            addresses.iter().map(|addr| (*addr, (1, 5))).collect();
        let frames = vec![7_u8; 2 * FRAME_BYTES];
        least(|| {
            let page = black_box(addr) / PAGE * PAGE;
            let found = black_box(&tree).get(&page);
            let byte = found
                .filter(|(_, flags)| flags & 4 != 0)
                .map(|(frame, _)| frames[frame * FRAME_BYTES + (addr % PAGE) as usize]);
            black_box(byte);
        })
    }

    /// The least time of a call over the rounds, in nanoseconds.
    fn least(mut call: impl FnMut()) -> f64 {
        (0..ROUNDS)
            .map(|_| {
                let begun = Instant::now();
                (0..CALLS).for_each(|_| call());
                begun.elapsed().as_nanos() as f64 / CALLS as f64
            })
            .fold(f64::INFINITY, f64::min)
    }
}
