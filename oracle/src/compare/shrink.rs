//! Drops calls from a script while what was found in it stays.

/// The calls left of `calls` once no run of them can be dropped with `found` still true of the rest.
pub fn shrink<C: Clone>(calls: &[C], found: impl Fn(&[C]) -> bool) -> Vec<C> {
    let mut calls = calls.to_vec();
    let mut run = calls.len().max(1);
    loop {
        let before = calls.len();
        let mut at = 0;
        while at < calls.len() {
            let shorter = without(&calls, at, run);
            if found(&shorter) {
                calls = shorter;
            } else {
                // pairs at odd places too: what goes by every second call stays only if two are dropped
                at += (run / 2).max(1);
            }
        }
        if run == 1 && calls.len() == before {
            return calls;
        }
        run = (run / 2).max(1);
    }
}

fn without<C: Clone>(calls: &[C], at: usize, run: usize) -> Vec<C> {
    let end = calls.len().min(at + run);
    calls[..at].iter().chain(&calls[end..]).cloned().collect()
}
