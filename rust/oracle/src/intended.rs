//! The intended differences from 000, each stated exactly: what this library answers, and what 000 does instead.
use crate::call::{Answer, Call, What, Why};
use crate::original::base::protocol::features::has_feature;
use crate::peek::Watched;
use crate::plan::{Cuts, List};
use crate::scripted::{shared, Op};
use crate::theirs;
use crate::wire::Fault;

/// The most bytes of a path (document 02, [2]).
pub const PATH_MOST: usize = 1_024;
pub const KNOWN_FLAGS: u32 = 0x8000_0007;
const DRY_RUN: u32 = 0x8000_0000;

/// The names of features by document 01's numbers, from 1.
pub const NAMES: [&str; 7] = [
    "stat_v2", "ls_v2", "sendrecv_v2", "sendrecv_v2_brotli", "sendrecv_v2_lz4", "sendrecv_v2_zstd", "sendrecv_v2_dry_run_send",
];

// flags that 000 refuses too
fn refused_by_both(call: &Call) -> bool {
    (call.flags & 7).count_ones() > 1 || (call.pulls() && call.flags & DRY_RUN != 0)
}

/// The number by which this library alone refuses a call (7, or 9 for a bit that no document names), if it does. A path with a NUL is 8 on
/// both sides, before all that.
pub fn refused_here(call: &Call) -> Option<u32> {
    if !call.takes_path() || call.path.contains('\0') {
        return None;
    }
    if call.path.len() > PATH_MOST {
        return Some(7);
    }
    let unknown = call.takes_flags() && call.flags & !KNOWN_FLAGS != 0;
    (unknown && !refused_by_both(call)).then_some(9)
}

/// Whether both sides go on to write for this call.
pub fn goes_on(call: &Call, banner: &[u8]) -> bool {
    refused_here(call).is_none() && (!call.takes_path() || done_by_theirs(call, banner).is_ok())
}

/// What 000 does with a call that takes a path: its own refusal, or the message that it writes.
fn done_by_theirs(call: &Call, banner: &[u8]) -> Result<Vec<u8>, Why> {
    if call.path.contains('\0') {
        return Err(Why::Refused(8));
    }
    if call.takes_flags() && refused_by_both(call) {
        return Err(Why::Refused(9));
    }
    let mut wanted = match call.what {
        What::StatV2 => vec![1],
        What::ListV2 => vec![2],
        _ if call.takes_flags() => vec![3],
        _ => vec![],
    };
    if call.takes_flags() {
        let of_flags = [(1, 4), (2, 5), (4, 6), (DRY_RUN, 7)];
        wanted.extend(of_flags.iter().filter(|(bit, _)| call.flags & bit != 0).map(|(_, feature)| *feature));
    }
    match wanted.iter().find(|n| !has_feature(banner, NAMES[**n as usize - 1].as_bytes())) {
        Some(n) => Err(Why::Missing(*n)),
        None => Ok(message(call)),
    }
}

/// The bytes of the request that a call starts with, from the public documents.
fn message(call: &Call) -> Vec<u8> {
    let path = call.path.as_bytes();
    let (id, rest) = match call.what {
        What::Stat => (b"STAT", vec![]),
        What::StatV2 => (b"STA2", vec![]),
        What::List => (b"LIST", vec![]),
        What::ListV2 => (b"LIS2", vec![]),
        What::RecvStart | What::Recv => (b"RECV", vec![]),
        What::RecvV2Start | What::RecvV2 => (b"RCV2", [&b"RCV2"[..], &call.flags.to_le_bytes()].concat()),
        What::SendStart | What::Send => (b"SEND", format!(",{}", call.mode).into_bytes()),
        What::SendV2Start | What::SendV2 => (b"SND2", [&b"SND2"[..], &call.mode.to_le_bytes(), &call.flags.to_le_bytes()].concat()),
        _ => panic!("{:?} takes no path", call.what),
    };
    let counted = path.len() + if id == b"SEND" { rest.len() } else { 0 };
    [&id[..], &(counted as u32).to_le_bytes(), path, &rest].concat()
}

/// Runs such a call on a session of 000 of its own, whose panel answers nothing, and holds it to the above. Gives its answer and the bytes
/// that it wrote.
pub fn aside(call: &Call, banner: &[u8], capacity: usize) -> Result<(Answer, Vec<u8>), String> {
    let start = match call.what {
        What::Recv => What::RecvStart,
        What::RecvV2 => What::RecvV2Start,
        What::Send => What::SendStart,
        What::SendV2 => What::SendV2Start,
        what => what,
    };
    let call = Call { what: start, ..call.clone() };
    let list = silent(banner, capacity);
    let wire = shared(&list);
    let rx = Watched::new(list.rx.clone());
    let mut host = theirs::Host::new(banner, wire.clone());
    let answer = theirs::make(&mut Some(host.session(rx.lend())), &call);
    let mut written = vec![];
    for op in wire.borrow_mut().take_ops() {
        if let Op::Write { piece, .. } = op {
            written.extend(piece);
        }
    }
    let reads = matches!(start, What::Stat | What::StatV2 | What::List | What::ListV2);
    let expected = match done_by_theirs(&call, banner) {
        Err(why) => (Answer::Not(why), vec![]),
        Ok(message) if reads => (Answer::Not(Why::Error(77)), message),
        Ok(message) => (Answer::Done, message),
    };
    if (&answer, &written) == (&expected.0, &expected.1) {
        Ok((answer, written))
    } else {
        Err(format!("000, alone, was expected to answer {:?}\n  and answers {answer:?}", expected.0))
    }
}

/// A list without calls whose panel sends nothing and whose reads report error 77.
pub fn silent(banner: &[u8], capacity: usize) -> List {
    List {
        seed: 0,
        banner: banner.to_vec(),
        rx: vec![0; capacity],
        incoming: vec![],
        end: Fault::Error(77),
        cuts: Cuts::Of(usize::MAX),
        failed_read: None,
        failed_write: None,
        close: Ok(()),
        scribbles: false,
        misuses: false,
        calls: vec![],
    }
}
