//! Times the proved library against the second implementation, a plain C digest and a plain C check of manifests, all in one run. Prints tables of
//! ratios.
mod chains;
mod digests;
mod held;
mod manifests;

use std::hint::black_box;
use std::time::Instant;

/// Has the compiler work out a value that nobody reads.
fn keep<T>(value: T) {
    black_box(value);
}

/// The least time of many turns, the contenders taking turns, in seconds.
fn least(turns: usize, contenders: &mut [&mut dyn FnMut()]) -> Vec<f64> {
    let mut best = vec![f64::INFINITY; contenders.len()];
    for _ in 0..turns {
        for (contender, best) in contenders.iter_mut().zip(&mut best) {
            let start = Instant::now();
            contender();
            *best = best.min(start.elapsed().as_secs_f64());
        }
    }
    best
}

fn main() {
    digests::table();
    println!();
    chains::table();
    println!();
    held::table();
    println!();
    manifests::table();
}
