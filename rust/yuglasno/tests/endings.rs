//! The channel's end at every byte of a reply, the panel's own failures, and replies that the receive buffer can't hold:
//! the answer's number, what it carries, and that what was not consumed is still there.
mod common;
use common::*;
use std::io::Read;
use yuglasno::{Answer, Call, Error, FileMode, Moment, Session};

const ALL: &[u8] = b"features=stat_v2,ls_v2,sendrecv_v2";

fn session(capacity: usize) -> Session<Vec<u8>> {
    Session::open(ALL, vec![0xAA; capacity], vec![0xBB; capacity]).unwrap()
}

/// Each reading call, with a reply; and how much of it is consumed before it has come whole.
fn reading() -> Vec<(Call<'static>, Vec<u8>, usize)> {
    vec![
        (Call::Stat(b"/a"), stat(), 0),
        (Call::StatV2(b"/a"), v2(b"STA2", 0), 0),
        (Call::NextEntry, entry(b"T98"), 20),
        (Call::NextEntry, listing_end(20), 0),
        (Call::NextEntryV2, entry_v2(b"T98", 0), 76),
        (Call::NextEntryV2, listing_end(76), 0),
        (Call::RecvNext, with(b"DATA", b"heights"), 0),
        (Call::RecvNext, words(b"DONE", &[0]), 0),
        (Call::SendDone(5), words(b"OKAY", &[0]), 0),
        (Call::Stat(b"/a"), with(b"FAIL", b"no"), 8),
        (Call::NextEntry, with(b"FAIL", b"no"), 8),
        (Call::RecvNext, with(b"FAIL", b"no"), 8),
        (Call::SendDone(5), with(b"FAIL", b"no"), 8),
    ]
}

#[test]
fn the_end_at_every_byte() {
    for (call, reply, early) in reading() {
        for length in 0..reply.len() {
            for cut in [1, 3, 1000] {
                for end in [End::Closed, End::Error(110)] {
                    ended_at(&call, &reply, early, length, cut, end);
                }
            }
        }
    }
}

fn ended_at(call: &Call, reply: &[u8], early: usize, length: usize, cut: usize, end: End) {
    let case = format!("{call:?} ended by {end:?} after {length} of {reply:?}, cut {cut}");
    let mut link = Script::new(&reply[..length], cut, end);
    let mut session = session(100);
    match (session.call(&mut link, call).unwrap_err(), end) {
        (Error::Closed, End::Closed) => {}
        (Error::Io { code: 110, error: Some(error) }, End::Error(110)) => {
            assert_eq!(error.raw_os_error(), Some(110), "{case}");
        }
        (error, _) => panic!("{case}: {error}"),
    }
    assert_eq!(link.read, length, "{case}");
    if length < early || early == 0 {
        let rest = &mut Script::new(&reply[length..], cut, End::Closed);
        let whole = &mut Script::new(reply, cut, End::Closed);
        let after = format!("{:?}", session.call(rest, call));
        assert_eq!(after, format!("{:?}", self::session(100).call(whole, call)), "{case}, then the rest");
    }
}

#[test]
fn a_fail_answers_every_reading_call() {
    for (call, _, _) in reading() {
        for capacity in [8, 9, 20, 21, 4096] {
            for cut in cuts() {
                let text = b"a text of twenty by.";
                let mut link = Script::new(&[with(b"FAIL", text), words(b"DONE", &[0])].concat(), cut, End::Closed);
                let mut session = session(capacity);
                match session.call(&mut link, &call).unwrap_err() {
                    Error::Fail(told) => assert_eq!(*told, text[..capacity.min(20)], "{call:?}, {capacity}, {cut}"),
                    other => panic!("{call:?}, capacity {capacity}, cut {cut}: {other}"),
                }
                let next = session.call(&mut link, &Call::RecvNext).unwrap();
                assert_eq!(next, Answer::End, "28 bytes are consumed: {call:?}, capacity {capacity}, cut {cut}");
            }
        }
    }
}

#[test]
fn an_unexpected_id() {
    for (call, _, _) in reading() {
        let mut link = Script::new(b"QUITxxxx", 3, End::Closed);
        let mut session = session(100);
        let told = session.call(&mut link, &call).unwrap_err();
        assert_eq!(told.to_string(), "15: the panel sent an unexpected id: QUIT", "{call:?}");
        let again = session.call(&mut link, &Call::RecvNext).unwrap_err();
        assert!(matches!(again, Error::Unexpected(id) if &id == b"QUIT"), "its header is left: {call:?}");
    }
}

#[test]
fn an_errno() {
    let mut link = Script::new(&v2(b"STA2", 13), 7, End::Closed);
    let mut session = session(72);
    let told = session.stat_v2(&mut link, "/a").unwrap_err();
    assert_eq!((told.number(), told.to_string().as_str()), (16, "16: the panel reports errno 13: permission denied"));
}

#[test]
fn too_large_for_the_buffer() {
    let chunk = with(b"DATA", b"x");
    let cases: [(Call, Vec<u8>, usize, Call, &str); 5] = [
        (Call::Stat(b"/a"), stat(), 15, Call::Stat(b"/a"), "17"),
        (Call::StatV2(b"/a"), v2(b"STA2", 0), 71, Call::StatV2(b"/a"), "17"),
        (Call::RecvNext, chunk.clone(), 8, Call::RecvNext, "17"),
        (Call::NextEntry, entry(&[b'n'; 21]), 20, Call::RecvNext, "15"),
        (Call::NextEntryV2, listing_end(76), 75, Call::NextEntryV2, "17"),
    ];
    for (call, reply, capacity, next, then) in cases {
        for cut in cuts() {
            let mut link = Script::new(&reply, cut, End::Closed);
            let mut session = session(capacity);
            let told = session.call(&mut link, &call).unwrap_err();
            assert_eq!(told.number(), 17, "{call:?}, cut {cut}");
            let told = session.call(&mut link, &next).unwrap_err().to_string();
            assert!(told.starts_with(then), "{call:?}, then {next:?}: {told}");
        }
    }
    let mut link = Script::new(&[with(b"DATA", b""), chunk].concat(), 1, End::Closed);
    let mut session = session(8);
    assert_eq!(session.recv_next(&mut link).unwrap(), Some(&b""[..]));
    assert_eq!(session.recv_next(&mut link).unwrap_err().number(), 17);
}

#[test]
fn a_transfer_that_breaks_off() {
    let replies = [with(b"DATA", b"heights"), with(b"DATA", b"more")].concat();
    for length in 0..replies.len() {
        let mut link = Script::new(&replies[..length], 4, End::Closed);
        let mut file = Vec::new();
        let failure = session(100).pull(&mut link, "/a", &mut file).unwrap_err().number();
        assert_eq!(failure, Some(12));
        assert_eq!(file, if length < 15 { &b""[..] } else { b"heights" });
    }
    let mut link = Script::new(b"", 1, End::Closed);
    let mut session = session(100);
    let failure =
        session.push(&mut link, "/a", FileMode(0), 0, Moment::FIRST, &mut std::io::repeat(7).take(9)).unwrap_err();
    assert_eq!(failure.number(), Some(12));
}
