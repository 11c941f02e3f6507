//! What the measuring programs share: the clock and the median.
use std::time::Instant;

/// Nanoseconds of one call, where `times` calls are made between the two readings of the clock. One call before them is not timed, so that each side
/// finds the memory as its own last call left it.
pub fn clock(times: usize, mut call: impl FnMut()) -> f64 {
    call();
    let t = Instant::now();
    for _ in 0..times {
        call();
    }
    t.elapsed().as_nanos() as f64 / times as f64
}

pub fn median(mut v: Vec<f64>) -> f64 {
    v.sort_by(|a, b| a.total_cmp(b));
    v[v.len() / 2]
}
