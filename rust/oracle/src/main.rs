//! 000, the Rust that this library is carried over from, run beside it on scripted channels.

// all of it needs 000's source, which is not part of the repository
macro_rules! beside_000 {
    ($($item:item)*) => { $(#[cfg(original)] $item)* };
}

beside_000! {
    mod bench;
    mod beside;
    mod call;
    mod counted;
    mod differences;
    mod gen;
    mod held;
    mod hex;
    mod hours;
    mod intended;
    mod lists;
    mod misuse;
    mod ours;
    mod peek;
    mod plan;
    mod record;
    mod rng;
    mod scripted;
    #[allow(dead_code)]
    mod standin;
    mod steps;
    mod theirs;
    mod trials;
    mod wire;

    // 000's own files, and the names that they expect at the root of their crate
    include!(concat!(env!("OUT_DIR"), "/original.rs"));
    extern crate alloc;
    extern crate self as embedded_io;
    extern crate self as embedded_io_async;
    use original::base;
    use standin::embedded::{ErrorType, Read, Write};
    use standin::{error, transport};
}

mod ceiling;
mod replay;

#[cfg(original)]
const USAGE: &str = "\
oracle lists N SEED            compare N random lists of calls
oracle hours N SEED            compare N random lists of calls with hours and without, on this library
oracle list SEED               one of them, by its own seed, printed
oracle trials                  document 01's trial pieces, paths with a NUL and banners, on both sides
oracle differences             the intended differences, with their bytes
oracle record N SEED           the trial pieces and N short lists, as text to be replayed
oracle replay FILE             such a text, replayed on this library
oracle bench                   times of both sides and of the channel alone
oracle bench index             times of the index, and of a sorted Vec beside it
oracle bench panel             times of a panel's replies and requests, and of plain Rust beside them
oracle bench NAME SIDE [P]     one run by theirs, ours or floor (the channel alone), of P percent of its size";

#[cfg(original)]
fn main() {
    let args: Vec<String> = std::env::args().skip(1).collect();
    let args: Vec<&str> = args.iter().map(|a| a.as_str()).collect();
    let well = match args[..] {
        ["lists", count, seed] => lists::run(number(count), number(seed)),
        ["hours", count, seed] => hours::run(number(count), number(seed)),
        ["list", seed] => lists::one(number(seed)),
        ["trials"] => trials::run(),
        ["differences"] => differences::print(),
        ["record", count, seed] => record::print(number(count), number(seed)),
        ["replay", path] => replay::run(path),
        ["bench"] => bench::table(60),
        ["bench", "index"] => bench::index::table(60),
        ["bench", "panel"] => bench::panel::table(60),
        ["bench", name, side] => bench::once(name, side, 100),
        ["bench", name, side, percent] => bench::once(name, side, number(percent) as usize),
        _ => {
            eprintln!("{USAGE}");
            false
        }
    };
    std::process::exit(!well as i32)
}

#[cfg(original)]
fn number(text: &str) -> u64 {
    let read = text.strip_prefix("0x").map_or_else(|| text.parse(), |hex| u64::from_str_radix(hex, 16));
    read.unwrap_or_else(|_| panic!("{text} is no number"))
}

#[cfg(not(original))]
fn main() {
    let args: Vec<String> = std::env::args().skip(1).collect();
    println!("000's source was not there when this was built (YUGLASNO_000): the comparison with it was left out");
    if let ["replay", path] = args.iter().map(|a| a.as_str()).collect::<Vec<_>>()[..] {
        std::process::exit(!replay::run(path) as i32)
    }
}
