//! A session whose totals or reads stand near 2^64 - 1: what is answered 21 changes nothing, and what was asked for still is.
use super::*;
use crate::link::{Fault, Link};

/// The record's numbers: the totals, the length of the piece that was last asked to be written, and a call's reads.
const RECEIVED: usize = 32;
const CONSUMED: usize = 33;
const WRITTEN: usize = 34;
const ASKED: usize = 35;
const READS: usize = 36;
const STAT: &[u8; 16] = b"STAT\xA4\x81\0\0\xCE\x07\0\0\x05\0\0\0";
/// The length of its request.
const REQUEST: u64 = 10;
const CALL: Call<'static> = Call::Stat(b"/a");

type Small = Session<[u8; 64]>;

fn put(session: &mut Small, i: usize, number: u64) {
    session.record[8 * i..8 * i + 8].copy_from_slice(&number.to_le_bytes());
}

/// A fresh session that may still receive and write so many bytes.
fn with_room(received: u64, written: u64) -> Small {
    let mut session = Session::open(b"", [0; 64], [0; 64]).unwrap();
    let (received, written) = (u64::MAX - received, u64::MAX - written);
    for (i, number) in [(RECEIVED, received), (CONSUMED, received), (WRITTEN, written)] {
        put(&mut session, i, number);
    }
    session
}

/// Makes a report that is answered 21, twice: the answer has the totals and no reads, and neither record nor buffers have changed.
fn is_refused(session: &mut Small, report: Report) {
    let before = (session.record, session.rx, session.msg, session.totals());
    for _ in 0..2 {
        session.reply.fill(0xEE);
        match session.report(&CALL, report) {
            Step::Told(Err(Error::Overflow(totals))) => assert_eq!(totals, before.3),
            other => panic!("{other:?}"),
        }
        assert_eq!((session.record, session.rx, session.msg, session.totals()), before);
        assert_eq!(raw::told_reads(&session.reply), 0);
    }
}

/// What the last report was answered with.
fn number(step: Step<'_>) -> u32 {
    match step {
        Step::Told(Err(error)) => error.number(),
        other => panic!("{other:?}"),
    }
}

#[test]
fn a_read_that_would_pass_the_end() {
    let mut session = with_room(15, 100);
    assert!(matches!(session.start(&CALL), Step::Write(_)));
    let Step::Read(window) = session.report(&CALL, Report::Done) else { panic!() };
    window[..STAT.len()].copy_from_slice(STAT);
    is_refused(&mut session, Report::Read(16));
    assert!(matches!(session.asked(&CALL), Some(Step::Read(window)) if window.len() == 64 && window[..16] == *STAT));
    assert_eq!(number(session.report(&CALL, Report::Read(0))), 11, "11 is before 21");
    assert_eq!(number(session.report(&CALL, Report::Read(65))), 11);
    assert_eq!(number(session.report(&CALL, Report::Done)), 5);
    // 2^64 - 1 itself is reached
    assert!(matches!(session.report(&CALL, Report::Read(15)), Step::Read(window) if window.len() == 49));
    assert_eq!((session.totals().received, session.totals().held()), (u64::MAX, 15));
    is_refused(&mut session, Report::Read(1));
    assert_eq!(number(session.report(&CALL, Report::Closed)), 12, "a fault is taken");
    assert!(session.asked(&CALL).is_none());
}

#[test]
fn a_write_that_would_pass_the_end() {
    let mut session = with_room(100, REQUEST - 1);
    assert!(matches!(session.start(&CALL), Step::Write(_)));
    is_refused(&mut session, Report::Done);
    assert!(matches!(session.asked(&CALL), Some(Step::Write(b"STAT\x02\0\0\0/a"))));
    assert_eq!(number(session.report(&CALL, Report::Read(1))), 5);
    assert_eq!(number(session.start(&CALL)), 4, "the call is pending");
    assert_eq!(number(session.report(&CALL, Report::Error(9))), 13);
    assert_eq!(session.totals().written, u64::MAX - (REQUEST - 1));

    let mut session = with_room(16, REQUEST);
    assert!(matches!(session.start(&CALL), Step::Write(_)));
    let Step::Read(window) = session.report(&CALL, Report::Done) else { panic!() };
    window[..STAT.len()].copy_from_slice(STAT);
    assert!(matches!(session.report(&CALL, Report::Read(16)), Step::Told(Ok(Answer::Stat(_)))));
    assert_eq!(session.totals(), Totals { received: u64::MAX, consumed: u64::MAX, written: u64::MAX });
}

/// The count of reads begins anew with each call, and a call that has read so often has received as many bytes: no session comes so far but
/// in a record that was altered.
#[test]
fn a_read_too_many() {
    let mut session = with_room(100, 100);
    assert!(matches!(session.start(&CALL), Step::Write(_)));
    put(&mut session, READS, u64::MAX);
    let Step::Read(window) = session.report(&CALL, Report::Done) else { panic!("a write is no read") };
    window[..STAT.len()].copy_from_slice(STAT);
    for count in [1, 16] {
        is_refused(&mut session, Report::Read(count));
    }
    assert_eq!(session.reads(), u64::MAX);
    assert_eq!(number(session.report(&CALL, Report::Read(0))), 11, "11 is before 21");
    put(&mut session, READS, u64::MAX - 1);
    assert!(matches!(session.report(&CALL, Report::Read(3)), Step::Read(_)), "2^64 - 1 itself is reached");
    is_refused(&mut session, Report::Read(13));
    assert_eq!((number(session.report(&CALL, Report::Error(9))), session.reads()), (13, u64::MAX));
    assert!(matches!(session.start(&CALL), Step::Write(_)));
    assert_eq!(session.reads(), 0);
}

/// A close adds nothing, and so is taken where there is no room for a byte.
#[test]
fn a_close_where_there_is_no_room() {
    let mut session = with_room(0, 8);
    assert!(matches!(session.start(&Call::Quit), Step::Write(_)));
    assert!(matches!(session.report(&Call::Quit, Report::Done), Step::Close));
    assert_eq!(session.totals().written, u64::MAX);
    assert!(matches!(session.report(&Call::Quit, Report::Done), Step::Told(Ok(Answer::Done))));
    assert_eq!(session.totals().written, u64::MAX, "the totals stand after the end, too");
}

/// Gives a stat's reply as often as it is read, and counts what it is asked.
#[derive(Default)]
struct Counting {
    reads: usize,
    writes: usize,
}

impl Link for Counting {
    fn read_window(&mut self, window: &mut [u8]) -> Result<usize, Fault> {
        self.reads += 1;
        window[..STAT.len()].copy_from_slice(STAT);
        Ok(STAT.len())
    }
    fn write_piece(&mut self, _: &[u8]) -> Result<(), Fault> {
        self.writes += 1;
        Ok(())
    }
    fn close(&mut self) -> Result<(), Fault> {
        Ok(())
    }
}

/// Over a link what was read or written is not read or written again: only its report is made again.
#[test]
fn a_call_that_is_resumed() {
    for (received, written, asked) in [(15, 100, (1, 1)), (100, REQUEST - 1, (0, 1))] {
        let (mut link, mut session) = (Counting::default(), with_room(received, written));
        let error = session.stat(&mut link, "/a").unwrap_err();
        let text = "21: a total of bytes, or a call's reads, would pass 2^64 - 1 (18446744073709551";
        assert!(error.to_string().starts_with(text), "{error}");
        assert_eq!(session.resume(&mut link, &CALL).unwrap_err().number(), 21);
        assert_eq!((link.reads, link.writes), asked);
        session.record[8 * RECEIVED..].fill(0);
        put(&mut session, ASKED, if link.reads == 0 { REQUEST } else { 0 });
        assert!(matches!(session.resume(&mut link, &CALL), Ok(Answer::Stat(_))), "once there is room again");
        assert_eq!((link.reads, link.writes), (1, 1));
        assert_eq!(session.resume(&mut link, &CALL).unwrap_err().number(), 5);
    }
}
