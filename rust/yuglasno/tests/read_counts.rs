//! `Session::reads`: how many reads each call accepted, beside the link's own count; what counts for nothing; and the ceiling, at most 8
//! reads more than bytes consumed.
mod common;
use common::*;
use std::collections::BTreeSet;
use yuglasno::{raw, Answer, Call, Error, Fault, FileMode, Link, Moment, Session, Settings};

const ALL: &[u8] = b"features=stat_v2,ls_v2,sendrecv_v2";
const STAT: Call<'static> = Call::Stat(b"/a");
/// By how much a call's reads may pass the bytes that it consumed, unless it ends in one of these.
const CEILING: u64 = 8;
const BROKEN_OFF: [&str; 2] = ["12", "13"];

/// A link whose reads bring so many bytes each, in turn, and then one byte each.
struct InReads {
    script: Script,
    lengths: std::vec::IntoIter<usize>,
}

impl InReads {
    fn of(incoming: &[u8], lengths: Vec<usize>, end: End) -> Self {
        Self { script: Script::new(incoming, 1, end), lengths: lengths.into_iter() }
    }
}

impl Link for InReads {
    fn read_window(&mut self, window: &mut [u8]) -> Result<usize, Fault> {
        self.script.cut = self.lengths.next().unwrap_or(1);
        self.script.read_window(window)
    }

    fn write_piece(&mut self, piece: &[u8]) -> Result<(), Fault> {
        self.script.write_piece(piece)
    }

    fn close(&mut self) -> Result<(), Fault> {
        self.script.close()
    }
}

/// A session that reports each read by itself.
fn session(capacity: usize) -> Session<Vec<u8>> {
    let mut session = Session::open(ALL, vec![0xAA; capacity], vec![0xBB; capacity]).unwrap();
    session.set_gathering(false);
    session
}

fn shown(answer: Result<Answer<'_>, Error>) -> String {
    match answer {
        Ok(Answer::Stat(_) | Answer::StatV2(_)) => "stat".into(),
        Ok(Answer::Entry(_) | Answer::EntryV2(_)) => "entry".into(),
        Ok(Answer::Chunk(_)) => "chunk".into(),
        Ok(Answer::End) => "end".into(),
        Ok(Answer::Done) => "done".into(),
        Err(error) => error.number().to_string(),
    }
}

/// A call's answer, the reads that it accepted and the bytes that it consumed: the reads are those of the link, and below the ceiling.
fn made(session: &mut Session<Vec<u8>>, link: &mut InReads, call: &Call<'_>) -> (String, u64, u64) {
    let (brought, before) = (link.script.brought, session.totals().consumed);
    let told = shown(session.call(link, call));
    let (reads, consumed) = (session.reads(), session.totals().consumed - before);
    assert_eq!(reads, link.script.brought - brought, "{call}, answered {told}");
    assert!(
        reads <= consumed + CEILING || BROKEN_OFF.contains(&told.as_str()),
        "{call}, answered {told}: {reads}, {consumed}"
    );
    (told, reads, consumed)
}

#[test]
fn reads_of_these_lengths() {
    let listing = [entry(b"T98"), listing_end(20)].concat();
    let three = stat().repeat(3);
    let cases = [
        (16, stat(), vec![3, 13], STAT, vec![("stat", 2, 16)]),
        (15, stat(), vec![1, 6, 1], STAT, vec![("17", 3, 0), ("17", 0, 0)]),
        (8, with(b"DATA", b"x"), vec![1; 9], Call::RecvNext, vec![("17", 8, 0)]),
        (8, with(b"FAIL", b"twenty bytes of text"), vec![8, 8, 8, 4], Call::RecvNext, vec![("14", 4, 28)]),
        (64, listing, vec![43], Call::NextEntry, vec![("entry", 1, 23), ("end", 0, 20)]),
        // what a read brought beyond its call is there for the next
        (64, three.clone(), vec![48], STAT, vec![("stat", 1, 16), ("stat", 0, 16), ("stat", 0, 16)]),
        (64, three, vec![20, 20, 8], STAT, vec![("stat", 1, 16), ("stat", 1, 16), ("stat", 1, 16)]),
        // as far as the ceiling
        (64, b"QUITxxxx".to_vec(), vec![1; 8], STAT, vec![("15", 8, 0), ("15", 0, 0)]),
    ];
    for (capacity, incoming, lengths, call, expected) in cases {
        let (mut session, mut link) = (session(capacity), InReads::of(&incoming, lengths, End::Closed));
        for (told, reads, consumed) in expected {
            assert_eq!(
                made(&mut session, &mut link, &call),
                (told.to_string(), reads, consumed),
                "capacity {capacity}"
            );
        }
    }
}

/// A read that comes to a fault is none, and the next call begins with none.
#[test]
fn faults() {
    for (end, told) in [(End::Closed, "12"), (End::Error(110), "13")] {
        let (mut session, mut link) = (session(16), InReads::of(&stat()[..5], vec![2, 3], end));
        assert_eq!(made(&mut session, &mut link, &STAT), (told.to_string(), 2, 0));
        assert_eq!(made(&mut session, &mut link, &STAT), (told.to_string(), 0, 0));
        link.script.incoming.extend(&stat()[5..]);
        assert_eq!(made(&mut session, &mut link, &STAT), ("stat".to_string(), 11, 16));
    }
}

/// A push that finds the channel closed reads the panel's FAIL.
#[test]
fn a_write_that_finds_the_channel_closed() {
    let (mut session, mut link) = (session(64), InReads::of(&with(b"FAIL", b"no"), vec![5, 5], End::Closed));
    link.script.broken = Some((1, End::Closed));
    let push = Call::Send(b"/a", FileMode(33188), Moment::FIRST);
    assert_eq!(made(&mut session, &mut link, &push), ("done".to_string(), 0, 0));
    assert_eq!(made(&mut session, &mut link, &Call::Data(b"x")), ("14".to_string(), 2, 10));
}

/// A refusal tells none, whatever the call before it did; the library's count of that call stands in its record.
#[test]
fn refusals_where_no_call_is_pending() {
    let (mut session, mut link) = (session(16), InReads::of(&stat().repeat(2), vec![3, 13, 3, 13], End::Closed));
    for _ in 0..2 {
        assert_eq!(made(&mut session, &mut link, &STAT).1, 2);
        assert_eq!(session.resume(&mut link, &STAT).unwrap_err().number(), 5);
        assert_eq!(session.reads(), 0);
        for (call, number) in [(Call::Stat(b"\0"), "8"), (Call::Recv(&[b'p'; 1_025]), "7")] {
            assert_eq!(made(&mut session, &mut link, &call), (number.to_string(), 0, 0));
        }
    }
    assert_eq!(made(&mut session, &mut link, &Call::Quit), ("done".to_string(), 0, 0));
    assert_eq!(made(&mut session, &mut link, &STAT), ("6".to_string(), 0, 0));
}

/// Where a reply has the reads, behind all else that an answer carries.
const AT: usize = 112;
const FILL: u8 = 0xEE;
const READ: u32 = 1;
const QUIT: u32 = 11;
const RECV_NEXT: u32 = 14;

type Crossing = fn(&mut [u8], &mut [u8], &mut [u8], &mut [u8]) -> u32;

const REFUSED: [(u32, Crossing); 7] = [
    (4, |rec, rx, msg, out| raw::start(rec, rx, msg, b"", QUIT, 0, 0, 0, out)),
    (3, |rec, rx, msg, out| raw::read(rec, rx, msg, b"/a", 1, out)),
    (3, |rec, rx, msg, out| raw::fault(rec, &mut rx[1..], msg, b"", 0, 0, out)),
    (3, |_, rx, msg, out| raw::read(&mut [FILL; raw::RECORD], rx, msg, b"", 1, out)),
    (5, |rec, rx, msg, out| raw::wrote(rec, rx, msg, b"", out)),
    (11, |rec, rx, msg, out| raw::read(rec, rx, msg, b"", 0, out)),
    (11, |rec, rx, msg, out| raw::read(rec, rx, msg, b"", 14, out)),
];

/// Behind a read that was accepted, while another one is awaited: a refusal tells none and leaves the call's, and what is asked has none.
#[test]
fn refusals_beside_a_pending_call() {
    let (mut rec, mut rx, mut msg, mut out) = ([0; raw::RECORD], [0; 16], [0; 16], [FILL; raw::REPLY]);
    assert_eq!(raw::open(&mut rec, Settings::published().as_bytes(), b"", rx.len(), msg.len()), 0);
    assert_eq!(raw::start(&mut rec, &mut rx, &mut msg, b"", RECV_NEXT, 0, 0, 0, &mut out), READ);
    assert_eq!(raw::read(&mut rec, &mut rx, &mut msg, b"", 3, &mut out), READ);
    assert_eq!((raw::reads(&rec), &out[AT..]), (1, &[FILL; 8][..]));
    for (number, crossing) in REFUSED {
        out[AT..].fill(FILL);
        assert_eq!(crossing(&mut rec, &mut rx, &mut msg, &mut out), number << 8);
        assert_eq!((raw::reads(&rec), &out[AT..]), (1, &[0; 8][..]), "{number}");
    }
    rx[..9].copy_from_slice(&with(b"DATA", b"x"));
    assert_eq!(raw::read(&mut rec, &mut rx, &mut msg, b"", 5, &mut out), READ);
    assert_eq!(raw::read(&mut rec, &mut rx, &mut msg, b"", 1, &mut out), 0, "the chunk is told");
    assert_eq!((raw::reads(&rec), out[AT]), (3, 3));
    assert_eq!(raw::start(&mut rec, &mut rx, &mut msg, b"", RECV_NEXT, 0, 0, 0, &mut out), READ);
    assert_eq!((raw::reads(&rec), out[AT]), (0, 3), "a call begins with none, and a reply that asks leaves them alone");
}

/// Of a reply to no session only the reads are written; where the slice has no room for them, nothing.
#[test]
fn replies_to_no_session() {
    for (record, room) in [(raw::RECORD, raw::REPLY), (raw::RECORD - 1, raw::REPLY + 1), (0, raw::REPLY)] {
        for length in [room, raw::REPLY - 1, AT, 0] {
            let (mut rec, mut out) = (vec![FILL; record], vec![FILL; length]);
            assert_eq!(raw::read(&mut rec, &mut [0; 16], &mut [0; 16], b"", 1, &mut out), 3 << 8);
            let mut expected = vec![FILL; length];
            if length >= raw::REPLY {
                expected[AT..raw::REPLY].fill(0);
            }
            assert_eq!(out, expected, "a record of {record} bytes");
            assert!(rec.iter().all(|byte| *byte == FILL));
        }
    }
}

/// Every reading call on replies of every kind, in buffers of many a fit and reads of many a length; only what is left unread behind a
/// header comes as far as the ceiling.
#[test]
fn the_ceiling() {
    let calls = [STAT, Call::StatV2(b"/a"), Call::NextEntry, Call::NextEntryV2, Call::RecvNext, Call::SendDone(5)];
    let replies = [
        stat(),
        v2(b"STA2", 13),
        [entry(b"T98"), listing_end(20)].concat(),
        [entry_v2(b"a name of 21 letters.", 0), listing_end(76)].concat(),
        [with(b"DATA", b"heights"), words(b"DONE", &[0])].concat(),
        words(b"OKAY", &[0]),
        with(b"FAIL", &[b'x'; 150]),
        b"LST2xxxx".to_vec(),
    ];
    let mut as_far = BTreeSet::new();
    for capacity in [8, 15, 16, 19, 20, 71, 72, 76, 100, 4096] {
        for cut in [1, 2, 3, 7, 8, 50, 4096] {
            for (call, reply) in calls.iter().flat_map(|call| replies.iter().map(move |reply| (call, reply))) {
                let mut link = InReads::of(&reply.repeat(2), vec![cut; 2 * reply.len()], End::Closed);
                let mut session = session(capacity);
                for _ in 0..4 {
                    let (told, reads, consumed) = made(&mut session, &mut link, call);
                    if reads == consumed + CEILING {
                        as_far.insert(told);
                    }
                }
            }
        }
    }
    assert_eq!(as_far.into_iter().collect::<Vec<_>>(), ["15", "17"]);
}

/// A link hears of each call, those of whole transfers too; not of one that is refused, such as a v2 listing here.
#[test]
fn calls_that_are_over() {
    let list = [entry(b"T98"), listing_end(20)].concat();
    let pull = [with(b"DATA", b"x"), words(b"DONE", &[0])].concat();
    let incoming = [v2(b"STA2", 0), list, pull, words(b"OKAY", &[0])].concat();
    let mut link = Script::new(&incoming, 1, End::Closed);
    let mut session = Session::open(b"features=stat_v2", [0; 100], [0; 100]).unwrap();
    session.set_gathering(false);
    session.details(&mut link, "/a").unwrap();
    session.entries(&mut link, "/a", |_, _| ()).unwrap();
    session.pull(&mut link, "/a", &mut Vec::new()).unwrap();
    session.push(&mut link, "/a\n", FileMode(33188), 5, Moment::FIRST, &mut &b"y"[..]).unwrap();
    session.quit(&mut link).unwrap();
    let expected = [
        ("stat_v2 /a", 72),
        ("list /a", 0),
        ("next_entry", 23),
        ("next_entry", 20),
        ("recv /a", 0),
        ("recv_next", 9),
        ("recv_next", 8),
        ("send /a\\n", 0),
        ("data", 0),
        ("send_done", 8),
        ("quit", 0),
    ];
    assert_eq!(link.over, expected.map(|(call, reads)| (call.to_string(), reads)));
}
