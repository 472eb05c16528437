//! Every bit pattern of a reading as ppm and as percent, the core against the second implementation. Minutes where the core is linked; through pipes
//! it would take days.

use std::ops::Range;
use std::thread::{available_parallelism, scope};
use std::time::Instant;

use compare::readings::{Sweep, MEASURES};

const PATTERNS: u64 = 1 << 32;

fn sweep(kind: u32, patterns: Range<u64>) -> Sweep {
    let mut sweep = Sweep::new(kind);
    patterns.for_each(|bits| sweep.see(bits as u32));
    sweep.end()
}

fn main() {
    let start = Instant::now();
    let threads = available_parallelism().map_or(1, |threads| threads.get() as u64);
    for (kind, each) in MEASURES {
        let shares = (0..threads).map(|share| PATTERNS * share / threads..PATTERNS * (share + 1) / threads);
        let seen: Vec<Sweep> = scope(|scope| {
            let sweeps: Vec<_> = shares.map(|share| scope.spawn(move || sweep(kind, share))).collect();
            sweeps.into_iter().map(|sweep| sweep.join().expect("no pattern differs")).collect()
        });
        let [usable, unusable] = [seen.iter().map(|sweep| sweep.usable).sum::<u64>(), seen.iter().map(|sweep| sweep.unusable).sum()];
        assert_eq!(usable + unusable, PATTERNS);
        println!("{each} units to one: {usable} patterns usable, {unusable} not, no difference after {} s", start.elapsed().as_secs());
    }
}
