//! The exported functions under any input: `boundary CALLS SEED`. Sessions are run with random calls and reports; between
//! their steps, and on copies of them, the functions are called with records, buffers, paths, call numbers, flags and
//! counts of any value. Settings, ids files and hours files are of any kind too, and so are the slots of an index, and the
//! replies that it is handed; and what a panel says and hears. Totals and reads are of any size, many near 2^64 - 1; moments
//! are often at the edges of hours. Every crossing is checked: see `crossing.rs`, `totals.rs`, `reads.rs`, `hours.rs`,
//! `gate.rs`, `index.rs` and `panel_side.rs`. Exit status 1 at the first fault, and where a long run did not meet all that it
//! should.
#![forbid(unsafe_code)]

mod crossing;
mod episode;
mod gate;
mod hours;
mod hours_model;
mod index;
mod lent;
mod model;
mod opening;
mod panel_model;
mod panel_side;
mod random;
mod reads;
mod stream;
mod tables;
mod totals;

use episode::Episode;
use random::Random;
use std::io::{self, Write};
use std::process::ExitCode;

/// Answers have numbers below this one.
const ANSWERS: usize = 26;
/// What a report may be refused with where a total or the reads have no room for it.
const OF_REPORTS: [usize; 5] = [3, 5, 6, 11, 21];
/// A run of so many calls meets each of them.
const LONG: u64 = 100_000;

/// How often each thing was answered or asked.
#[derive(Default)]
pub struct Counts {
    pub calls: u64,
    pub opened: u64,
    pub answered: [u64; ANSWERS],
    pub asked: [u64; 6],
    /// The refusals of reports that a total or the reads have no room for, by number; and those that only the reads have none for.
    pub no_room: [u64; ANSWERS],
    pub no_room_for_reads: u64,
    /// Calls on a record that was altered.
    pub altered: u64,
    /// Calls of an index.
    pub indexed: u64,
    /// Replies spoken and requests heard.
    pub of_the_panel: u64,
    /// Hours files, moments that may be asked for and dates; and pushes of a session outside its hours.
    pub of_hours: u64,
    pub outside: u64,
}

fn main() -> ExitCode {
    let words: Vec<String> = std::env::args().skip(1).collect();
    let numbers: Vec<u64> = words.iter().filter_map(|word| word.parse().ok()).collect();
    let [calls, seed] = numbers[..] else {
        let _ = writeln!(io::stderr(), "usage: boundary CALLS SEED");
        return ExitCode::from(64);
    };
    let mut counts = Counts::default();
    let mut episodes = 0;
    while counts.calls < calls {
        episodes += 1;
        let random = Random(seed.wrapping_mul(1_000_003).wrapping_add(episodes));
        if let Err(fault) = Episode::run(random, &mut counts) {
            println!("boundary: seed {seed}, episode {episodes}, call {}: {fault}", counts.calls);
            return ExitCode::from(1);
        }
    }
    print(&counts, seed);
    match unmet(&counts) {
        Some(what) if calls >= LONG => {
            println!("boundary: seed {seed}: {what}");
            ExitCode::from(1)
        }
        _ => ExitCode::SUCCESS,
    }
}

/// What a long run meets and this one did not.
fn unmet(counts: &Counts) -> Option<String> {
    if counts.no_room_for_reads == 0 {
        return Some("no read that only the count of reads has no room for was answered 21".into());
    }
    if counts.outside == 0 || counts.answered[24] == 0 {
        return Some("no push was outside its hours, or no hours were answered 24".into());
    }
    let number = OF_REPORTS.into_iter().find(|number| counts.no_room[*number] == 0)?;
    Some(format!("no report that there is no room for was answered {number}"))
}

/// Each number that was met, and how often.
fn met(numbers: &[u64]) -> String {
    let met = numbers.iter().enumerate().filter(|(_, n)| **n > 0);
    met.map(|(number, n)| format!("{number}: {n}")).collect::<Vec<_>>().join(", ")
}

fn print(counts: &Counts, seed: u64) {
    let sum = |numbers: &[u64]| numbers.iter().sum::<u64>();
    println!("answers by number: {}", met(&counts.answered));
    println!(
        "of reports that a total or the reads have no room for: {}; only the reads, of 21: {}",
        met(&counts.no_room),
        counts.no_room_for_reads
    );
    println!(
        "on records that were altered: {} calls; of an index: {} calls; of replies spoken and requests heard: {} calls",
        counts.altered, counts.indexed, counts.of_the_panel
    );
    println!(
        "of hours and dates: {} calls; pushes of a session outside its hours: {}",
        counts.of_hours, counts.outside
    );
    println!(
        "{} calls (seed {seed}): {} opened, {} refused, {} answered, {} asked for reads, {} for writes, {} for the close; \
         no byte out of place, no part outside its slice",
        counts.calls,
        counts.opened,
        sum(&counts.answered[1..12]) + sum(&counts.answered[18..]),
        counts.answered[0] + sum(&counts.answered[12..18]),
        counts.asked[1],
        sum(&counts.asked[2..5]),
        counts.asked[5],
    );
}
