//! Misuse of our functions that 000's types do not let a host commit, and reports that a total or the reads have no room for: each is answered by
//! its number, tells no reads, and alters nothing.
use crate::counted::{fill, fill_reads, OVERFLOW};
use crate::ours::Host;
use crate::rng::Rng;
use yuglasno::raw;

/// What a session waits for.
#[derive(Clone, Copy, Debug, PartialEq, Eq)]
pub enum Waits {
    Nothing,
    Read { window: usize },
    Write,
    Close,
    Ended,
}

// a copy of the session's memory, and a slice for the reply that isn't the pending call's
struct Copy {
    rec: Vec<u8>,
    rx: Vec<u8>,
    msg: Vec<u8>,
    out: Vec<u8>,
}

impl Copy {
    // 0 starts a call, 1 reports a count, 2 an accepted write, any other a fault
    fn ask(&mut self, which: usize, lent: &[u8], number: usize) -> u32 {
        let Copy { rec, rx, msg, out } = self;
        match which {
            0 => raw::start(rec, rx, msg, lent, number as u32, 0, 0, 0, out),
            1 => raw::read(rec, rx, msg, lent, number, out),
            2 => raw::wrote(rec, rx, msg, lent, out),
            _ => raw::fault(rec, rx, msg, lent, number as u32, 9, out),
        }
    }
}

// lengthens or shortens by one
fn bent(bytes: &mut Vec<u8>, rng: &mut Rng) {
    if rng.chance(50) || bytes.is_empty() {
        bytes.push(0);
    } else {
        bytes.pop();
    }
}

// what a call or a report is answered in this state, with a number that is none where it needs one; nothing where it is what is awaited
fn untimely(waits: Waits, which: usize, number: &mut usize, rng: &mut Rng) -> Option<u32> {
    Some(match (waits, which) {
        (Waits::Ended, _) => 6,
        (Waits::Nothing, 0) => {
            *number = rng.pick(&[0, 15, 16, 255, 1 << 31]);
            5
        }
        (Waits::Nothing, _) => 5,
        (_, 0) => 4,
        (Waits::Read { window }, 1) => {
            *number = if rng.chance(50) { 0 } else { window + 1 + rng.below(3) };
            11
        }
        (Waits::Read { .. }, 2) => 5,
        (Waits::Write | Waits::Close, 1) => 5,
        _ => return None,
    })
}

// what a copy of the session has no room for
#[derive(Clone, Copy, PartialEq, Eq)]
enum Full {
    Nothing,
    Totals,
    Reads,
}

// a report that is awaited, where there is no room for a byte, or for a read; a close and a fault have none to count
fn too_much(full: Full, waits: Waits, which: usize, number: &mut usize, rng: &mut Rng) -> Option<u32> {
    match (waits, which) {
        (Waits::Read { window }, 1) => *number = 1 + rng.below(window),
        (Waits::Write, 2) if full == Full::Totals => {}
        _ => return None,
    }
    Some(OVERFLOW)
}

// a reply that tells an answer to a misuse tells no reads, where it has room for them
fn tells_none(out: &[u8]) -> bool {
    out.try_into().map_or(true, |out| raw::told_reads(out) == 0)
}

// leaves the copy no room, for the bytes or for the reads
fn filled(copy: &mut Copy, rng: &mut Rng) -> Full {
    let full = if rng.chance(40) { rng.pick(&[Full::Totals, Full::Reads]) } else { Full::Nothing };
    match full {
        Full::Nothing => {}
        Full::Totals => fill(&mut copy.rec),
        Full::Reads => fill_reads(&mut copy.rec),
    }
    full
}

// bends a slice, or chooses another number: what is answered then; nothing where that is what is awaited
fn misuse(copy: &mut Copy, lent: &mut Vec<u8>, full: Full, waits: Waits, which: usize, number: &mut usize, rng: &mut Rng) -> Option<u32> {
    match rng.below(5) {
        0 => {
            let slices = [&mut copy.rec, &mut copy.rx, &mut copy.msg];
            bent(slices.into_iter().nth(rng.below(3)).unwrap(), rng);
            Some(3)
        }
        1 => {
            copy.out.truncate(rng.below(raw::REPLY));
            Some(3)
        }
        2 if which > 0 && matches!(waits, Waits::Read { .. } | Waits::Write | Waits::Close) => {
            bent(lent, rng);
            Some(3)
        }
        3 if full != Full::Nothing => too_much(full, waits, which, number, rng).or_else(|| untimely(waits, which, number, rng)),
        _ => untimely(waits, which, number, rng),
    }
}

/// One misuse, chosen at random. Gives document 01's number that it was answered with.
pub fn try_one<W>(host: &Host<W>, waits: Waits, lent: &[u8], rng: &mut Rng) -> Result<u32, String> {
    let mut copy = Copy { rec: host.rec.to_vec(), rx: host.rx.clone(), msg: host.msg.clone(), out: vec![0xEE; raw::REPLY] };
    let mut lent = lent.to_vec();
    let which = rng.below(4);
    let mut number = rng.below(18);
    let full = filled(&mut copy, rng);
    let Some(expected) = misuse(&mut copy, &mut lent, full, waits, which, &mut number, rng) else { return Ok(0) };
    let before = (copy.rec.clone(), copy.rx.clone(), copy.msg.clone());
    let reply = copy.ask(which, &lent, number);
    if reply != 256 * expected {
        return Err(format!("misuse {which} with {number} while {waits:?}: {expected} expected, told {}", reply >> 8));
    }
    if !tells_none(&copy.out) {
        return Err(format!("misuse {which} with {number} while {waits:?} told reads"));
    }
    if before != (copy.rec, copy.rx, copy.msg) {
        return Err(format!("misuse {which} with {number} while {waits:?} altered memory"));
    }
    Ok(expected)
}
