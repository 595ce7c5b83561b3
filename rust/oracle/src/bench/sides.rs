//! The same work by 000, by this library, and by the channel alone.
use super::cases::{Case, Kind, BANNER, PATH};
use super::script::{Noted, Op, Script};
use crate::ours::{self, Step};
use crate::original::sync::{FileMode, SyncFlags};
use crate::theirs::{self, run};
use crate::wire::Wire;
use std::hint::black_box;

#[inline(never)]
pub fn measured_theirs(case: &Case, host: &mut theirs::Host<Script>, rx: &mut [u8]) -> u64 {
    theirs_works(case, host, rx)
}

/// What is asked of the channel, for the floor.
pub fn noted(case: &Case) -> Vec<Op> {
    let mut host = theirs::Host::new(BANNER, Noted { script: case.script(), ops: vec![] });
    theirs_works(case, &mut host, &mut vec![0; case.capacity]);
    host.wire.ops
}

#[inline(always)]
fn theirs_works<W: Wire>(case: &Case, host: &mut theirs::Host<W>, rx: &mut [u8]) -> u64 {
    let mut s = host.session(rx);
    let mut sum = 0;
    match case.kind {
        Kind::Stat => (0..case.count).for_each(|_| sum += run(s.stat(PATH)).unwrap().size as u64),
        Kind::StatV2 => (0..case.count).for_each(|_| sum += run(s.stat_v2(PATH)).unwrap().size & 0xffff_ffff),
        Kind::List => run(s.list(PATH)).unwrap().iter().for_each(|e| sum += e.size as u64 + black_box(&e.name).len() as u64),
        Kind::ListV2 => {
            run(s.list_v2(PATH)).unwrap().iter().for_each(|e| sum += (e.stat.size & 0xffff_ffff) + black_box(&e.name).len() as u64)
        }
        Kind::Pull | Kind::PullV2 => {
            if case.kind == Kind::Pull {
                run(s.recv_start(PATH)).unwrap();
            } else {
                run(s.recv_v2_start(PATH, SyncFlags::NONE)).unwrap();
            }
            while let Some(chunk) = run(s.recv_next()).unwrap() {
                sum += black_box(chunk).len() as u64;
            }
        }
        Kind::Push | Kind::PushV2 => {
            if case.kind == Kind::Push {
                run(s.send_start(PATH, FileMode(0o100644))).unwrap();
            } else {
                run(s.send_v2_start(PATH, FileMode(0o100644), SyncFlags::NONE)).unwrap();
            }
            run(s.send_data(&case.data)).unwrap();
            run(s.send_done(5)).unwrap();
        }
    }
    sum
}

fn done<W: Wire>(s: &mut ours::Host<W>, step: Step, lent: &[u8], a: u32) {
    assert_eq!(s.run(step, lent, a, 0), 0);
}

// a listing or a pull: its start, then steps up to the end; each hands out a part
#[inline(always)]
fn until_end<W: Wire>(s: &mut ours::Host<W>, (start, step): (Step, Step), number: impl Fn(&ours::Host<W>) -> u64) -> u64 {
    done(s, start, PATH.as_bytes(), 0);
    let mut sum = 0;
    loop {
        done(s, step, b"", 0);
        if s.at(0) == 1 {
            return sum;
        }
        sum += number(s) + black_box(s.told()).len() as u64;
    }
}

#[inline(never)]
pub fn measured_ours(case: &Case, s: &mut ours::Host<Script>) -> u64 {
    let mut sum = 0;
    let path = PATH.as_bytes();
    match case.kind {
        Kind::Stat => (0..case.count).for_each(|_| {
            done(s, Step::Stat, path, 0);
            sum += s.at(4);
        }),
        Kind::StatV2 => (0..case.count).for_each(|_| {
            done(s, Step::StatV2, path, 0);
            sum += s.at(10) & 0xffff_ffff;
        }),
        Kind::List => sum = until_end(s, (Step::List, Step::Entry), |s| s.at(4) & 0xffff_ffff),
        Kind::ListV2 => sum = until_end(s, (Step::ListV2, Step::EntryV2), |s| s.at(10) & 0xffff_ffff),
        Kind::Pull => sum = until_end(s, (Step::Recv, Step::RecvNext), |_| 0),
        Kind::PullV2 => sum = until_end(s, (Step::RecvV2, Step::RecvNext), |_| 0),
        Kind::Push | Kind::PushV2 => {
            done(s, if case.kind == Kind::Push { Step::Send } else { Step::SendV2 }, path, 0o100644);
            done(s, Step::Data, &case.data, 0);
            done(s, Step::SendDone, b"", 5);
        }
    }
    sum
}

/// The channel alone, asked what 000 asked it.
#[inline(never)]
pub fn measured_floor(ops: &[Op], wire: &mut Script, rx: &mut [u8]) -> u64 {
    let (mut sum, capacity) = (0, rx.len());
    for op in ops {
        match *op {
            Op::Read { window } => sum += wire.read(&mut rx[capacity - window..]).unwrap() as u64,
            Op::Write { piece } => wire.write(&rx[..piece.min(capacity)]).unwrap(),
            Op::Close => wire.close().unwrap(),
        }
    }
    sum
}
