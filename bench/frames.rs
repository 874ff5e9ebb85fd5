//! Nanoseconds to zero and to copy a frame of 4,096 bytes: the proved functions beside memset and memcpy, in one run.
//! Fails where a proved function takes more than twice as long, or leaves other bytes than it should.

use std::hint::black_box;
use std::process::ExitCode;
use std::time::Instant;

const FRAME: usize = 4096;
const ROUNDS: usize = 101;
const CALLS: usize = 5_000;
const MOST: f64 = 2.0;

// The proved functions take a slice as its address and its length.
unsafe extern "C" {
    fn frames_zero(bytes: *mut u8, length: usize, frame: usize);
    fn frames_copy(bytes: *mut u8, length: usize, from: usize, to: usize);
    fn memset(at: *mut u8, byte: i32, count: usize) -> *mut u8;
    fn memcpy(to: *mut u8, from: *const u8, count: usize) -> *mut u8;
}

/// What is timed: the frames' bytes, a frame to read and another to write.
type Step = fn(&mut [u8], usize, usize);

fn proved_zero(bytes: &mut [u8], _: usize, to: usize) {
    unsafe { frames_zero(bytes.as_mut_ptr(), bytes.len(), to) }
}

fn plain_zero(bytes: &mut [u8], _: usize, to: usize) {
    unsafe { memset(bytes[to * FRAME..][..FRAME].as_mut_ptr(), 0, FRAME) };
}

fn proved_copy(bytes: &mut [u8], from: usize, to: usize) {
    unsafe { frames_copy(bytes.as_mut_ptr(), bytes.len(), from, to) }
}

fn plain_copy(bytes: &mut [u8], from: usize, to: usize) {
    let source = bytes[from * FRAME..][..FRAME].as_ptr();
    unsafe { memcpy(bytes[to * FRAME..][..FRAME].as_mut_ptr(), source, FRAME) };
}

/// The k-th pair of frames: one to read in the lower half, one to write in the upper.
fn pair(frames: usize, k: usize) -> (usize, usize) {
    let half = frames / 2;
    (k % half, half + k % half)
}

/// Nanoseconds for one step, over all the frames in turn.
fn time(bytes: &mut [u8], step: Step) -> f64 {
    let step = black_box(step);
    let frames = bytes.len() / FRAME;
    let start = Instant::now();
    for k in 0..CALLS {
        let (from, to) = pair(frames, k);
        step(black_box(&mut *bytes), from, to);
    }
    start.elapsed().as_secs_f64() * 1e9 / CALLS as f64
}

/// The lowest of the times: what the machine's other work has disturbed least.
fn lowest(times: Vec<f64>) -> f64 {
    times.into_iter().fold(f64::INFINITY, f64::min)
}

fn pattern(frames: usize) -> Vec<u8> {
    (0..frames * FRAME).map(|i| (i * 31 % 251) as u8).collect()
}

/// Whether both steps leave the same bytes, everywhere.
fn agree(proved: Step, plain: Step) -> bool {
    let (mut a, mut b) = (pattern(8), pattern(8));
    (0..4).all(|k| {
        let (from, to) = pair(8, k);
        proved(&mut a, from, to);
        plain(&mut b, from, to);
        a == b
    })
}

fn main() -> ExitCode {
    let mut fine = true;
    println!("{:<6} {:>7} {:>12} {:>12} {:>7}", "", "frames", "proved, ns", "plain, ns", "ratio");
    let steps: [(&str, Step, Step); 2] =
        [("zero", proved_zero, plain_zero), ("copy", proved_copy, plain_copy)];
    for (name, proved, plain) in steps {
        if !agree(proved, plain) {
            println!("{name}: other bytes than the plain function's");
            fine = false;
        }
        for frames in [2, 64, 4096] {
            let mut bytes = pattern(frames);
            // In turns, so that both meet the same machine.
            let (a, b): (Vec<f64>, Vec<f64>) =
                (0..ROUNDS).map(|_| (time(&mut bytes, proved), time(&mut bytes, plain))).unzip();
            let (a, b) = (lowest(a), lowest(b));
            println!("{name:<6} {frames:>7} {a:>12.1} {b:>12.1} {:>7.2}", a / b);
            fine &= a <= MOST * b;
        }
    }
    if fine { ExitCode::SUCCESS } else { ExitCode::FAILURE }
}
