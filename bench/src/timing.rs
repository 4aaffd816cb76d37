//! Times of two versions side by side.

use std::hint::black_box;
use std::sync::atomic::AtomicU64;
use std::sync::atomic::Ordering::Relaxed;
use std::time::Instant;

/// Best of `rounds` of a run with each of two functions, in nanoseconds; the rounds alternate, so that both see the same machine. The run gets
/// each as a pointer that the compiler does not see through: a function of the archive can't be inlined into it or fitted to what it passes, so
/// the plain one is not, either.
pub fn race<F: Copy>(rounds: usize, functions: (F, F), run: impl Fn(F)) -> (f64, f64) {
    prepared(rounds, functions, || {}, run)
}

/// The same with all branches unlearned before each run, as when something is judged once: a run should be one call.
pub fn race_unlearned<F: Copy>(rounds: usize, functions: (F, F), run: impl Fn(F)) -> (f64, f64) {
    prepared(rounds, functions, unlearn, run)
}

fn prepared<F: Copy>(rounds: usize, functions: (F, F), prepare: impl Fn(), run: impl Fn(F)) -> (f64, f64) {
    let (one, other) = black_box(functions);
    let mut best = (f64::INFINITY, f64::INFINITY);
    for _ in 0..rounds {
        prepare();
        best.0 = best.0.min(nanoseconds(|| run(one)));
        prepare();
        best.1 = best.1.min(nanoseconds(|| run(other)));
    }
    best
}

fn nanoseconds(run: impl Fn()) -> f64 {
    let start = Instant::now();
    run();
    start.elapsed().as_nanos() as f64
}

/// Branches that go by random numbers: what was learned of others is lost. As in archives.c.
fn unlearn() {
    // Others each time.
    static STATE: AtomicU64 = AtomicU64::new(88_172_645_463_325_252);
    let mut x = STATE.load(Relaxed);
    let mut sum = 0u64;
    for i in 0..300_000 {
        x ^= x << 13;
        x ^= x >> 7;
        x ^= x << 17;
        // Unseen by the compiler, so that a branch stays one.
        if x & 1 != 0 {
            sum = black_box(sum.wrapping_add(3));
        }
        if x & 8 != 0 {
            sum = black_box(sum ^ x);
        }
        if x & 64 != 0 {
            sum = black_box(sum.wrapping_add(i));
        }
    }
    STATE.store(x, Relaxed);
}
