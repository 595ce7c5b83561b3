//! The costs of both sides on the same scripted bytes, and of the channel alone.
mod cases;
pub mod index;
pub mod panel;
mod script;
mod sides;

use crate::{ours, theirs};
use cases::{Case, BANNER, CASES};
use script::Op;
use std::time::{Duration, Instant};

const SIDES: [&str; 3] = ["theirs", "ours", "floor"];

/// One run of a case by one side: its time, and a sum over what was handed out.
fn timed(case: &Case, ops: &[Op], side: &str) -> (Duration, u64) {
    let mut rx = vec![0; case.capacity];
    match side {
        "theirs" => {
            let mut host = theirs::Host::new(BANNER, case.script());
            let start = Instant::now();
            let sum = sides::measured_theirs(case, &mut host, &mut rx);
            (start.elapsed(), sum)
        }
        "ours" | "single" => {
            let mut host = ours::Host::open(BANNER, rx, case.script()).expect("buffers that open");
            host.single = side == "single";
            let start = Instant::now();
            let sum = sides::measured_ours(case, &mut host);
            (start.elapsed(), sum)
        }
        _ => {
            let mut script = case.script();
            let start = Instant::now();
            let sum = sides::measured_floor(ops, &mut script, &mut rx);
            (start.elapsed(), sum)
        }
    }
}

/// A single run, for counting its instructions: of this percent of the case's size. Prints the items and the reads, then the time.
pub fn once(name: &str, side: &str, percent: usize) -> bool {
    let Some(case) = Case::named(name, percent).filter(|_| SIDES.contains(&side) || side == "single") else {
        eprintln!("the benches are {}, the sides {}", CASES.map(|c| c.0).join(", "), SIDES.join(", ") + " and single: ours, every read reported");
        return false;
    };
    let ops = sides::noted(&case);
    let reads = ops.iter().filter(|op| matches!(op, Op::Read { .. })).count();
    let (time, _) = timed(&case, &ops, side);
    println!("{name} {side}: {} items, {reads} reads, {} ns", case.count, time.as_nanos());
    true
}

/// The shortest of some runs by each side, in turn, in nanoseconds: 000, here, the channel alone.
fn shortest(case: &Case, rounds: usize) -> [f64; 3] {
    let ops = sides::noted(case);
    let mut least = [f64::MAX; 3];
    let mut sums = [0; 3];
    for _ in 0..rounds {
        for (i, side) in SIDES.iter().enumerate() {
            let (time, sum) = timed(case, &ops, side);
            (least[i], sums[i]) = (least[i].min(time.as_nanos() as f64), sum);
        }
    }
    assert_eq!(sums[0], sums[1], "both sides hand out the same");
    least
}

fn milliseconds(nanoseconds: f64) -> String {
    format!("{:.3}", nanoseconds / 1e6)
}

/// Every case, as the rows of a table: 000's time, ours, their ratio, the channel's own.
pub fn table(rounds: usize) -> bool {
    println!("| work | 000, ms | here, ms | here / 000 | channel alone, ms |\n|---|---|---|---|---|");
    for (name, ..) in CASES {
        let [theirs, ours, floor] = shortest(&Case::named(name, 100).unwrap(), rounds);
        println!("| {name} | {} | {} | {:.2} | {} |", milliseconds(theirs), milliseconds(ours), ours / theirs, milliseconds(floor));
    }
    true
}
