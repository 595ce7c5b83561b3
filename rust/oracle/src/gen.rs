//! Random lists of calls: valid ones, damaged ones and refused ones, with all that the host may do.
mod banner;
mod reply;

use crate::call::{Call, What};
use crate::intended::{self, PATH_MOST};
use crate::plan::{Cuts, FailedWrite, List};
use crate::rng::{mixed, Rng};
use crate::wire::Fault;
use What::*;

/// Moments have random numbers of their own, so that all else of a list is what its seed always made.
const MOMENTS: u64 = 0x6d6f_6d65_6e74;

/// What lists are made of.
#[derive(Clone, Copy, PartialEq, Eq)]
pub enum Kind {
    Any,
    /// short lists on small buffers, without misuse: to be stored
    Short,
}

pub fn list(seed: u64, kind: Kind) -> List {
    let rng = &mut Rng::new(seed);
    let capacity = capacity(rng, kind);
    let cuts = cuts(rng, capacity);
    // with reads of few bytes, only few bytes
    let most = if matches!(cuts, Cuts::Of(1..=16) | Cuts::UpTo(1..=16, _)) { capacity.min(600) } else { capacity };
    let banner = banner::random(rng);
    let mut calls = calls(rng, capacity, kind);
    calls.iter_mut().zip(0..).for_each(|(call, i)| call.moment = mixed(seed ^ MOMENTS, i) as u32);
    let damage = rng.pick(&[0, 0, 3, 8, 20]);
    let failed_write = rng.chance(25).then(|| FailedWrite { at: rng.below(14), fault: fault(rng), goes_on: rng.chance(50) });
    let fails = if failed_write.is_some() { 25 } else { 3 };
    let mut incoming: Vec<u8> = vec![];
    for call in &calls {
        // what a refused call leaves unread stays in front of all that follows: only now and then
        if intended::goes_on(call, &banner) || rng.once_in(50) {
            incoming.extend(reply::to(call, rng, most, damage, fails));
        }
    }
    if rng.chance(15) {
        incoming.truncate(rng.below(incoming.len() + 1));
    }
    let scribbles = rng.chance(20);
    List {
        seed,
        banner,
        rx: rng.bytes(capacity),
        incoming,
        end: fault(rng),
        cuts,
        failed_read: rng.chance(8).then(|| (rng.below(20), fault(rng))),
        failed_write,
        close: if rng.chance(75) { Ok(()) } else { Err(fault(rng)) },
        scribbles,
        misuses: kind == Kind::Any && rng.chance(10),
        calls,
    }
}

// some calls; now and then a quit behind them, and some more
fn calls(rng: &mut Rng, capacity: usize, kind: Kind) -> Vec<Call> {
    let count = match kind {
        Kind::Short => rng.within(1, 6),
        Kind::Any if rng.once_in(60) => rng.within(100, 300),
        Kind::Any => rng.within(1, 24),
    };
    let quits = rng.chance(30);
    let mut calls: Vec<Call> = (0..count).map(|_| call(rng, capacity, kind)).collect();
    if quits {
        calls.push(Call::new(Quit));
        (0..rng.below(4)).for_each(|_| calls.push(call(rng, capacity, kind)));
    }
    calls
}

fn fault(rng: &mut Rng) -> Fault {
    if rng.chance(50) {
        Fault::Closed
    } else {
        Fault::Error(rng.u32())
    }
}

fn capacity(rng: &mut Rng, kind: Kind) -> usize {
    match rng.below(100) {
        0 if kind == Kind::Any => rng.below(8),
        0..=55 => rng.within(8, 40),
        56..=69 => rng.within(70, 120),
        70..=79 => rng.within(41, 400),
        _ if kind == Kind::Short => rng.within(8, 100),
        // where a message with a long path just fits, or just doesn't
        80..=87 => rng.within(1_000, 1_060),
        88..=93 => 4_096,
        _ => 65_544,
    }
}

fn cuts(rng: &mut Rng, capacity: usize) -> Cuts {
    let seed = rng.next();
    let choices = [
        Cuts::Of(1), Cuts::Of(rng.within(2, 16)), Cuts::UpTo(8, seed), Cuts::UpTo(64, seed), Cuts::Of(512), Cuts::UpTo(4_096, seed),
        Cuts::Of(16_384), Cuts::UpTo(16_384, seed), Cuts::Of(usize::MAX), Cuts::UpTo(capacity.max(1), seed),
    ];
    rng.pick(&choices)
}

// 000's methods; the last four are made of the others
const CALLS: [What; 24] = [
    Stat, Stat, StatV2, StatV2, List, List, ListV2, ListV2, RecvStart, RecvV2Start, RecvNext, RecvNext, RecvNext, RecvNext, SendStart,
    SendV2Start, SendData, SendData, SendDone, SendDone, Recv, RecvV2, Send, SendV2,
];

fn call(rng: &mut Rng, capacity: usize, kind: Kind) -> Call {
    let all = if kind == Kind::Short { &CALLS[..20] } else { &CALLS };
    let mut what = rng.pick(all);
    // a record that never fits stays in front of all that follows: only now and then
    let least = |what| match what {
        Stat => 16,
        List => 20,
        StatV2 => 72,
        ListV2 => 76,
        _ => 8,
    };
    while capacity < least(what) && !rng.once_in(30) {
        what = rng.pick(all);
    }
    let mut call = Call::new(what);
    if call.takes_path() {
        call.path = path(rng, capacity, kind);
    }
    if matches!(call.what, SendData | Send | SendV2) {
        let len = data_len(rng, capacity, kind);
        call.data = rng.bytes(len);
    }
    call.mode = if rng.chance(40) { 0o100644 } else { rng.u32() };
    call.mtime = rng.u32();
    call.flags = flags(rng);
    call
}

fn path(rng: &mut Rng, capacity: usize, kind: Kind) -> String {
    let free = capacity.min(PATH_MOST);
    let len = match rng.below(10) {
        0 => 0,
        1 => rng.within(free.saturating_sub(26), free + 2),
        2 if kind == Kind::Any && rng.once_in(5) => rng.within(1_000, PATH_MOST),
        _ => rng.below(24),
    };
    let letters = ["/", "a", "Z", "0", ",", ".", "\u{e9}", "\u{20ac}", "\u{1f453}", "\n", "\u{7f}"];
    let mut path = String::new();
    while path.len() < len {
        path += rng.pick(&letters);
    }
    if rng.chance(4) {
        let at = (0..=path.len()).filter(|i| path.is_char_boundary(*i)).nth(rng.below(path.len() / 4 + 1)).unwrap_or(0);
        path.insert(at, '\0');
    }
    // what is over the limit is in `differences`, and with a NUL in `trials`
    while path.len() > PATH_MOST {
        path.pop();
    }
    path
}

fn data_len(rng: &mut Rng, capacity: usize, kind: Kind) -> usize {
    match rng.below(100) {
        0 if kind == Kind::Any => rng.pick(&[65_535, 65_536, 65_537, 131_072, 131_073, 140_000]),
        1..=12 => 0,
        13..=40 => rng.within(capacity.min(6_000).saturating_sub(10), capacity.min(6_000) + 3),
        _ => rng.below(50),
    }
}

fn flags(rng: &mut Rng) -> u32 {
    match rng.below(100) {
        0..=39 => 0,
        40..=69 => rng.pick(&[1, 2, 4]),
        70..=84 => rng.pick(&[0x8000_0000, 0x8000_0001, 0x8000_0002, 0x8000_0004]),
        85..=92 => rng.pick(&[3, 5, 6, 7, 0x8000_0003, 0x8000_0007]),
        93..=97 => (1 << rng.within(3, 30)) | rng.pick(&[0, 1, 3, 0x8000_0000]),
        _ => rng.next() as u32,
    }
}
