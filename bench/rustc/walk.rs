//! Walks over a generated table, as `bench/process` makes it: the least time of some turns, the pivots, and a sum of all that was found.
//!
//! usage: walk ROWS COLUMNS BELOW LO HI TURNS    LO and HI in hundredths

use frac_core::{Exact, Frac128, List};
use loss_model::{Problem, Process, Row, Segment};
use stand_in::{Global, Vec};
use std::collections::hash_map::DefaultHasher;
use std::hash::{Hash, Hasher};
use std::time::{Duration, Instant};
use tau_process::process;

const LIMIT: u32 = 100_000;

/// The cells of a table.
struct Cells {
    state: u32,
    below: u32,
}

impl Cells {
    fn next(&mut self) -> Frac128 {
        self.state = self.state.wrapping_mul(1_664_525).wrapping_add(1_013_904_223);
        fraction(i128::from(self.state / 65_536 % self.below), 1)
    }
}

fn fraction(over: i128, under: i128) -> Frac128 {
    Frac128::from_parts(over, under).expect("a fraction of small parts")
}

/// A table of an intercept and drawn columns, in which each row weighs 1.
fn generated(rows: u32, columns: u32, below: u32) -> Problem<Frac128> {
    let mut cells = Cells { state: 1, below };
    let mut made = Vec::new(Global);
    for _ in 0..rows {
        let y = cells.next();
        let mut x = Vec::new(Global);
        let _ = x.push(Frac128::one());
        for _ in 1..columns {
            let _ = x.push(cells.next());
        }
        let (zero, one) = (Frac128::zero(), Frac128::one());
        let _ = made.push(Row { x: List::from(x), y, up0: zero, up1: one, down0: one, down1: one.neg() });
    }
    Problem { columns, rows: List::from(made) }
}

fn add(sum: &mut DefaultHasher, value: Frac128) {
    (value.numerator(), value.denominator()).hash(sum);
}

fn add_segment(sum: &mut DefaultHasher, segment: &Segment<Frac128>) {
    let ends = [segment.lo, segment.hi, segment.loss_lo, segment.loss_hi];
    let duals = segment.basic_lo.as_slice().iter().chain(segment.basic_hi.as_slice());
    for value in ends.iter().chain(duals).chain(segment.vertex.coef.as_slice()) {
        add(sum, *value);
    }
    segment.vertex.basis.rows.as_slice().hash(sum);
    for side in segment.vertex.sides.as_slice() {
        (*side as u8).hash(sum);
    }
}

/// A sum of all segments and steps: two builds of the same sum have walked alike.
fn sum_of(walked: &Process<Frac128>) -> u64 {
    let mut sum = DefaultHasher::new();
    for segment in walked.segments.as_slice() {
        add_segment(&mut sum, segment);
    }
    for step in walked.trail.steps.as_slice() {
        (step.position, step.row).hash(&mut sum);
        add(&mut sum, step.theta);
    }
    sum.finish()
}

fn main() {
    let words: std::vec::Vec<u32> = std::env::args().skip(1).map(|word| word.parse().expect("a number")).collect();
    let [rows, columns, below, lo, hi, turns] = words[..] else {
        panic!("usage: walk ROWS COLUMNS BELOW LO HI TURNS");
    };
    let problem = generated(rows, columns, below);
    let mut least = Duration::MAX;
    let mut told = String::from("refused");
    for _ in 0..turns {
        let begun = Instant::now();
        let answer = process(Global, &problem, fraction(lo.into(), 100), fraction(hi.into(), 100), LIMIT);
        least = least.min(begun.elapsed());
        if let Ok(walked) = answer {
            told = format!("{} pivots, {:016x}", walked.trail.steps.as_slice().len(), sum_of(&walked));
        }
    }
    println!("{rows} x {columns} below {below}, {lo}/100 to {hi}/100: {:.3} ms, {told}", least.as_secs_f64() * 1e3);
}
