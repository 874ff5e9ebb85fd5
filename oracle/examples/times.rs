//! Times of the lone manager: the Rust's own and the proved one, the same calls in one run.
//!
//! cargo run --profile timing --example times

#[cfg(not(proved_segments))]
fn main() {
    eprintln!("times: the proved library is not linked: see oracle/native");
}

#[cfg(proved_segments)]
fn main() {
    timed::table();
}

#[cfg(proved_segments)]
mod timed {
    use std::hint::black_box;
    use std::time::Instant;

    use jhilkompa::segments::{self, Manager};
    use kernel_virtual_memory::{Segment, VirtualMemoryManager};
    use x86_64::VirtAddr;

    const ROUNDS: usize = 25;
    const PAIRS: usize = 2_000;
    const ARENA: u64 = 0x10_0000;
    const SIZE: u64 = 0x4000_0000;
    const PAGE: u64 = 0x1000;

    pub fn table() {
        println!("nanoseconds a pair of reserve and release, the least of {ROUNDS} rounds");
        println!("held  in the way    Rust  proved  ratio");
        row(0, false);
        for held in [8, 32, 63] {
            row(held, false);
            row(held, true);
        }
    }

    fn row(held: u64, in_the_way: bool) {
        let (mut rust, mut proved) = managers(held, in_the_way);
        let old = least(|| {
            let got = rust.reserve_bytes(black_box(PAGE)).expect("there is room");
            assert!(rust.release(got));
        });
        let new = least(|| {
            let got = proved
                .reserve_bytes(black_box(PAGE))
                .expect("there is room");
            assert_eq!(proved.release(got.segment), Ok(true));
        });
        let way = if in_the_way { held } else { 0 };
        println!(
            "{held:>4}  {way:>10}  {old:>6.0}  {new:>6.0}  {:>5.2}",
            new / old
        );
    }

    /// Both managers with the same segments: a row of pages from the arena's start, or from its second page on.
    fn managers(held: u64, in_the_way: bool) -> (VirtualMemoryManager, Manager) {
        let mut rust = VirtualMemoryManager::new(VirtAddr::new(ARENA), SIZE);
        let arena = jhilkompa::VirtAddr(ARENA);
        let mut proved = Manager::new(arena, SIZE).expect("an arena");
        let first = if in_the_way { ARENA } else { ARENA + PAGE };
        for start in (0..held).map(|i| first + PAGE * i) {
            rust.mark_as_reserved(Segment::new(VirtAddr::new(start), PAGE))
                .expect("the rows are disjoint");
            let segment = segments::Segment::new(jhilkompa::VirtAddr(start), PAGE);
            assert_eq!(proved.mark_as_reserved(segment), Ok(()));
        }
        (rust, proved)
    }

    /// The least time of a pair over the rounds, in nanoseconds.
    fn least(mut pair: impl FnMut()) -> f64 {
        (0..ROUNDS)
            .map(|_| {
                let begun = Instant::now();
                (0..PAIRS).for_each(|_| pair());
                begun.elapsed().as_nanos() as f64 / PAIRS as f64
            })
            .fold(f64::INFINITY, f64::min)
    }
}
