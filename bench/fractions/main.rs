//! Prints the nanoseconds of each operation, as rustc compiles the same code.

mod bounded;
mod divisor;
mod exact;
mod frac128;
mod frac64;
mod parts;
mod work;

pub use exact::{Exact, Op, OpKind};
use frac128::Frac128;
use frac64::Frac64;
use std::time::Instant;

const COUNT: u32 = 1024;
const ROUNDS: u32 = 400;

fn values<F: Exact>(bits: u32) -> Vec<F> {
    let mut values = Vec::new();
    let mut seed: u64 = 12345;
    for _ in 0..COUNT {
        seed = work::next(seed);
        let (n, d) = work::parts(seed, bits);
        if let Some(x) = F::from_parts(n, d) {
            values.push(x);
        }
    }
    values
}

fn report<F: Exact>(name: &str, bits: u32) {
    let list = values::<F>(bits);
    let all = list.as_slice();
    let pairs = (all.len() as u128).max(2) - 1;
    for (task, word) in [(0u8, "add"), (1, "mul"), (2, "div"), (3, "compare")] {
        let mut best = u128::MAX;
        let mut sum: u64 = 0;
        for _ in 0..ROUNDS {
            let start = Instant::now();
            sum = match task {
                0 => work::adds(all),
                1 => work::muls(all),
                2 => work::divs(all),
                _ => work::compares(all),
            };
            best = best.min(start.elapsed().as_nanos());
        }
        let tenths = best * 10 / pairs;
        println!("{name} {bits} {word} {tenths} {sum}");
    }
}

fn main() {
    for bits in [8, 30, 60, 120] {
        report::<Frac128>("Frac128", bits);
    }
    for bits in [8, 30, 60] {
        report::<Frac64>("Frac64", bits);
    }
}
