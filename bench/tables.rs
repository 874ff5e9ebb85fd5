//! Nanoseconds for look-ups and for the page table of a process: the proved functions on lent words beside the Rust's
//! collections, in one run. Fails where an answer differs.

use std::collections::BTreeMap;
use std::hint::black_box;
use std::process::ExitCode;
use std::time::Instant;

const WORDS: usize = 11_844;
const REGIONS: usize = 40;
const ORDER: usize = 6_184;
const ENTRIES: usize = 9_768;
const ATTACHED: usize = 3;
const PAGE: u64 = 4096;
const BASE: u64 = 0x10_0000;
const FLAGS: u64 = 0b111;
const ROUNDS: usize = 101;
const CALLS: usize = 2_000;

// The proved functions take a slice as its address and its length.
unsafe extern "C" {
    fn tables_region_for(words: *const u64, length: usize, process: usize, addr: u64) -> usize;
    fn tables_entry_for(words: *const u64, length: usize, row: u64, page: u64) -> usize;
    fn paging_translate(words: *const u64, length: usize, process: usize, page: u64) -> u64;
    fn paging_map(words: *mut u64, length: usize, process: usize, page: u64, frame: u64, flags: u64) -> u64;
    fn paging_unmap(words: *mut u64, length: usize, process: usize, page: u64) -> u64;
}

/// A machine's words and the same tables in the Rust's collections.
struct Both {
    words: Vec<u64>,
    /// The Rust's list of regions: start and size.
    list: Vec<(u64, u64)>,
    /// By start: size and slot.
    regions: BTreeMap<u64, (u64, usize)>,
    /// A region's page entries: their row.
    entries: BTreeMap<u64, usize>,
    mapped: BTreeMap<u64, (u64, u64)>,
}

/// Process 0 with regions of 4 pages and one page between each two, in list order; region 0 has the entries; pages mapped.
fn both(regions: usize, entries: usize, mapped: usize) -> Both {
    let mut it = Both {
        words: vec![0; WORDS],
        list: Vec::new(),
        regions: BTreeMap::new(),
        entries: BTreeMap::new(),
        mapped: BTreeMap::new(),
    };
    it.words[0] = 1;
    it.words[2] = 1 << 40;
    it.words[ATTACHED] = regions as u64;
    for slot in 0..regions {
        let (start, size) = (BASE + slot as u64 * 5 * PAGE, 4 * PAGE);
        it.words[REGIONS + slot * 12..][..4].copy_from_slice(&[1, start, size, FLAGS]);
        it.words[ORDER + slot] = slot as u64;
        it.list.push((start, size));
        it.regions.insert(start, (size, slot));
    }
    for k in 0..entries {
        // Pages in no order, as rows are used again lowest first.
        let page = (k * 197 % entries.max(1)) as u64;
        it.words[ENTRIES + k * 3..][..3].copy_from_slice(&[1, page, k as u64 % 256]);
        it.entries.insert(page, k);
    }
    for k in 0..mapped as u64 {
        let page = 2 * (k * 77 % mapped as u64);
        unsafe { paging_map(it.words.as_mut_ptr(), WORDS, 0, page, k, FLAGS) };
        it.mapped.insert(page, (k, FLAGS));
    }
    it
}

/// What is timed: the k-th call.
type Step = fn(&mut Both, u64) -> u64;

fn addr(it: &Both, k: u64) -> u64 {
    BASE + (k * 31 % it.list.len() as u64) * 5 * PAGE + k % (4 * PAGE)
}

fn region_words(it: &mut Both, k: u64) -> u64 {
    unsafe { tables_region_for(it.words.as_ptr(), WORDS, 0, addr(it, k)) as u64 }
}

/// As the Rust does: one region after the other.
fn region_list(it: &mut Both, k: u64) -> u64 {
    let addr = addr(it, k);
    let at = it.list.iter().position(|&(start, size)| start <= addr && addr < start + size);
    at.map_or(64, |slot| slot as u64)
}

fn region_tree(it: &mut Both, k: u64) -> u64 {
    let addr = addr(it, k);
    match it.regions.range(..=addr).next_back() {
        Some((start, (size, slot))) if addr - start < *size => *slot as u64,
        _ => 64,
    }
}

fn entry_words(it: &mut Both, k: u64) -> u64 {
    let page = k * 31 % it.entries.len() as u64;
    unsafe { tables_entry_for(it.words.as_ptr(), WORDS, 0, page) as u64 }
}

fn entry_tree(it: &mut Both, k: u64) -> u64 {
    let page = k * 31 % it.entries.len() as u64;
    it.entries.get(&page).map_or(512, |row| *row as u64)
}

fn translate_words(it: &mut Both, k: u64) -> u64 {
    let page = k * 31 % (2 * it.mapped.len() as u64);
    unsafe { paging_translate(it.words.as_ptr(), WORDS, 0, page) }
}

fn translate_tree(it: &mut Both, k: u64) -> u64 {
    let page = k * 31 % (2 * it.mapped.len() as u64);
    it.mapped.get(&page).map_or(u64::MAX, |(frame, _)| *frame)
}

/// One page unmapped and mapped again, among all places.
fn turn_words(it: &mut Both, k: u64) -> u64 {
    let page = 2 * (k * 31 % it.mapped.len() as u64);
    let (w, n) = (it.words.as_mut_ptr(), WORDS);
    unsafe { paging_unmap(w, n, 0, page) + 2 * paging_map(w, n, 0, page, k % 256, FLAGS) }
}

fn turn_tree(it: &mut Both, k: u64) -> u64 {
    let page = 2 * (k * 31 % it.mapped.len() as u64);
    let was = it.mapped.remove(&page).is_some();
    it.mapped.insert(page, (k % 256, FLAGS));
    u64::from(was) + 2
}

/// Nanoseconds for one step.
fn time(it: &mut Both, step: Step) -> f64 {
    let step = black_box(step);
    let start = Instant::now();
    for k in 0..CALLS as u64 {
        black_box(step(black_box(it), k));
    }
    start.elapsed().as_secs_f64() * 1e9 / CALLS as f64
}

/// The lowest of the times: what the machine's other work has disturbed least.
fn lowest(times: Vec<f64>) -> f64 {
    times.into_iter().fold(f64::INFINITY, f64::min)
}

struct Row(&'static str, Both, Step, &'static str, Step);

fn main() -> ExitCode {
    let rows = [
        Row("region, 1 held", both(1, 0, 0), region_words, "Vec", region_list),
        Row("region, 64 held", both(64, 0, 0), region_words, "Vec", region_list),
        Row("region, 64 held", both(64, 0, 0), region_words, "BTreeMap", region_tree),
        Row("entry, 1 held", both(1, 1, 0), entry_words, "BTreeMap", entry_tree),
        Row("entry, 512 held", both(1, 512, 0), entry_words, "BTreeMap", entry_tree),
        Row("translate, 128 mapped", both(1, 0, 128), translate_words, "BTreeMap", translate_tree),
        Row("unmap and map, 128 mapped", both(1, 0, 128), turn_words, "BTreeMap", turn_tree),
    ];
    let mut fine = true;
    println!("{:<26} {:>11} {:>22} {:>7}", "", "proved, ns", "the Rust's, ns", "ratio");
    for Row(name, mut it, proved, kind, plain) in rows {
        if let Some(k) = (0..CALLS as u64).find(|&k| proved(&mut it, k) != plain(&mut it, k)) {
            println!("{name}: call {k} answers otherwise than {kind}");
            fine = false;
        }
        // In turns, so that both meet the same machine.
        let (a, b): (Vec<f64>, Vec<f64>) =
            (0..ROUNDS).map(|_| (time(&mut it, proved), time(&mut it, plain))).unzip();
        let (a, b) = (lowest(a), lowest(b));
        println!("{name:<26} {a:>11.1} {:>13} {b:>8.1} {:>7.2}", kind, a / b);
    }
    if fine { ExitCode::SUCCESS } else { ExitCode::FAILURE }
}
