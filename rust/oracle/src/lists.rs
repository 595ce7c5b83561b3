//! Many random lists, one after the other.
use crate::beside::{compare, Tally};
use crate::gen::{self, Kind};
use crate::plan::List;
use crate::rng::mixed;
use std::panic::{catch_unwind, AssertUnwindSafe};

/// The comparison of one list; a panic on either side is a difference too.
pub fn checked(list: &List, tally: &mut Tally) -> Result<(), String> {
    let run = catch_unwind(AssertUnwindSafe(|| compare(list, tally)));
    run.unwrap_or_else(|panic| {
        let text = panic.downcast_ref::<String>().cloned().or_else(|| panic.downcast_ref::<&str>().map(|s| s.to_string()));
        Err(format!("a side panicked: {}", text.unwrap_or_default()))
    })
}

/// Compares `count` lists; false at the first difference, which is printed with the list.
pub fn run(count: u64, seed: u64) -> bool {
    std::panic::set_hook(Box::new(|_| ()));
    let mut tally = Tally::default();
    for i in 0..count {
        let list = gen::list(mixed(seed, i), Kind::Any);
        if let Err(text) = checked(&list, &mut tally) {
            println!("{list}{text}\n\nlist {i} of seed {seed} differs; `oracle list {:#x}` makes it again", list.seed);
            return false;
        }
    }
    println!("{} reads, {} pieces and closes", tally.reads, tally.pieces);
    println!("totals held to the channel's own counts {} times, the reads of a step {} times", tally.counted, tally.reads_counted);
    println!("answers by number: {}", numbered(&tally.answers));
    for (kind, count) in &tally.documented {
        println!("documented: {kind}: {count}");
    }
    let documented: usize = tally.documented.values().sum();
    println!("{} lists, {} calls, {} refused, {documented} documented differences: all equal", tally.lists, tally.calls, tally.refused);
    true
}

fn numbered(answers: &[usize]) -> String {
    let seen = answers.iter().enumerate().filter(|(_, count)| **count > 0);
    seen.map(|(number, count)| format!("{number}: {count}")).collect::<Vec<_>>().join(", ")
}

/// One list by its own seed, printed.
pub fn one(seed: u64) -> bool {
    let list = gen::list(seed, Kind::Any);
    println!("{list}");
    match checked(&list, &mut Tally::default()) {
        Ok(()) => println!("equal"),
        Err(ref text) => println!("{text}"),
    }
    true
}
