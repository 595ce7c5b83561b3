//! The answers 1 to 11: nothing is written, and the session goes on as if they had not been asked.
mod common;
use common::*;
use yuglasno::{
    raw, Answer, Call, Error, Fault, Feature, FileMode, Link, Moment, Report, Session, Settings, Step, SyncFlags,
    PATH_MOST,
};

fn number(step: Step) -> u32 {
    match step {
        Step::Told(Err(error)) => error.number(),
        other => panic!("{other:?}"),
    }
}

#[test]
fn opening() {
    assert_eq!(Session::open(b"", [0; 7], [0; 7]).unwrap_err().number(), 1);
    assert_eq!(Session::open(b"", [0; 7], [0; 6]).unwrap_err().number(), 1);
    assert_eq!(Session::open(b"", [0; 8], [0; 7]).unwrap_err().number(), 2);
    assert!(Session::open(b"", [0; 8], [0; 8]).is_ok());
}

#[test]
fn another_length() {
    let mut buffer = vec![0; 8];
    let mut session = Session::open(b"", &mut buffer, [0; 16]).unwrap();
    let call = Call::Stat(b"/a");
    assert!(matches!(session.start(&call), Step::Write(b"STAT\x02\0\0\0")));
    assert_eq!(number(session.report(&Call::Stat(b"/ab"), Report::Done)), 3);
    assert!(matches!(session.asked(&call), Some(Step::Write(b"STAT\x02\0\0\0"))));
    assert!(matches!(session.report(&call, Report::Done), Step::Write(b"/a")));
}

#[test]
fn pending_and_reports_out_of_turn() {
    let mut session = Session::open(b"", [0; 16], [0; 16]).unwrap();
    let call = Call::Stat(b"/a");
    assert_eq!(number(session.report(&call, Report::Done)), 5);
    assert!(session.asked(&call).is_none());
    assert!(matches!(session.start(&call), Step::Write(_)));
    assert_eq!(number(session.start(&Call::Quit)), 4);
    assert_eq!(number(session.report(&call, Report::Read(1))), 5);
    assert!(matches!(session.asked(&call), Some(Step::Write(b"STAT\x02\0\0\0/a"))));
    assert!(matches!(session.report(&call, Report::Done), Step::Read(_)));
    assert_eq!(number(session.report(&call, Report::Done)), 5);
    assert_eq!(number(session.report(&call, Report::Read(0))), 11);
    assert_eq!(number(session.report(&call, Report::Read(17))), 11);
    let Some(Step::Read(window)) = session.asked(&call) else { panic!() };
    assert_eq!(window.len(), 16);
    window.copy_from_slice(&stat());
    assert!(matches!(session.report(&call, Report::Read(16)), Step::Told(Ok(Answer::Stat(_)))));
}

#[test]
fn ended() {
    let mut link = Script::new(b"", 1, End::Closed);
    let mut session = Session::open(b"", [0; 16], [0; 16]).unwrap();
    session.quit(&mut link).unwrap();
    assert_eq!((link.written(), link.closes), (b"QUIT\0\0\0\0".to_vec(), 1));
    assert_eq!(session.quit(&mut link).unwrap_err().number(), 6);
    assert_eq!(session.stat(&mut link, "/\0").unwrap_err().number(), 6);
    assert_eq!(number(session.report(&Call::Quit, Report::Done)), 6);
    assert_eq!(link.closes, 1);
}

#[test]
fn paths_flags_and_features() {
    const V2: &[u8] = b"features=sendrecv_v2,sendrecv_v2_lz4";
    const ODD: SyncFlags = SyncFlags(8);
    let long = vec![b'p'; PATH_MOST + 1];
    let long_with_nul = [&long[..], &[0]].concat();
    let mode = FileMode(0);
    let cases: [(&[u8], Call, Error); 18] = [
        (b"", Call::Stat(&long), Error::LongPath),
        (b"", Call::RecvV2(&long, SyncFlags(3)), Error::LongPath),
        (b"", Call::RecvV2(&long_with_nul, SyncFlags(3)), Error::NulInPath),
        (b"", Call::List(b"/a\0b"), Error::NulInPath),
        (b"", Call::ListV2(b"\0"), Error::NulInPath),
        (b"", Call::Send(b"\0", mode, Moment::FIRST), Error::NulInPath),
        (b"", Call::SendV2(b"\0", mode, SyncFlags(3), Moment::FIRST), Error::NulInPath),
        (b"", Call::RecvV2(b"/a", SyncFlags(3)), Error::Flags),
        (V2, Call::RecvV2(b"/a", SyncFlags::DRY_RUN), Error::Flags),
        (V2, Call::SendV2(b"/a", mode, ODD, Moment::FIRST), Error::Flags),
        (b"", Call::SendV2(b"/a", mode, ODD, Moment::FIRST), Error::Flags),
        (b"", Call::StatV2(b"/a"), Error::Missing(Feature::StatV2)),
        (b"", Call::ListV2(b"/a"), Error::Missing(Feature::LsV2)),
        (b"", Call::RecvV2(b"/a", SyncFlags::LZ4), Error::Missing(Feature::SendrecvV2)),
        (b"features=a;features=sendrecv_v2", Call::RecvV2(b"", SyncFlags::NONE), Error::Missing(Feature::SendrecvV2)),
        (V2, Call::RecvV2(b"/a", SyncFlags::BROTLI), Error::Missing(Feature::Brotli)),
        (V2, Call::RecvV2(b"/a", SyncFlags::ZSTD), Error::Missing(Feature::Zstd)),
        (
            V2,
            Call::SendV2(b"/a", mode, SyncFlags::LZ4 | SyncFlags::DRY_RUN, Moment::FIRST),
            Error::Missing(Feature::DryRunSend),
        ),
    ];
    for (banner, call, expected) in cases {
        let mut link = Script::new(&stat(), 1, End::Closed);
        let mut session = Session::open(banner, [0; 40], [0; 40]).unwrap();
        let told = session.call(&mut link, &call).unwrap_err().to_string();
        assert_eq!(told, expected.to_string());
        assert!(link.pieces.is_empty(), "{told}");
        assert!(session.stat(&mut link, "/a").is_ok(), "the session goes on after {told}");
    }
}

/// A banner with the features that the calls below need.
const ALL: &[u8] = b"features=stat_v2,ls_v2,sendrecv_v2,sendrecv_v2_lz4,sendrecv_v2_zstd";

/// The calls that have a path, each beside the bytes that it writes.
fn with_path(path: &[u8]) -> [(Call<'_>, Vec<u8>); 8] {
    let mode = FileMode(u32::MAX);
    let v2 = |id: &[u8; 4], numbers: &[u32]| [with(id, path), words(id, numbers)].concat();
    [
        (Call::Stat(path), with(b"STAT", path)),
        (Call::StatV2(path), with(b"STA2", path)),
        (Call::List(path), with(b"LIST", path)),
        (Call::ListV2(path), with(b"LIS2", path)),
        (Call::Recv(path), with(b"RECV", path)),
        (Call::RecvV2(path, SyncFlags::ZSTD), v2(b"RCV2", &[4])),
        (Call::Send(path, mode, Moment::FIRST), with(b"SEND", &[path, b",4294967295"].concat())),
        (Call::SendV2(path, mode, SyncFlags::LZ4, Moment::FIRST), v2(b"SND2", &[u32::MAX, 2])),
    ]
}

/// Lengths about the limit, in buffers that take such a message whole and in those that don't.
#[test]
fn paths_about_the_limit() {
    assert_eq!(PATH_MOST, 1024);
    for length in [0, 1, 1023, 1024, 1025, 1026, 1035, 1036, 1037, 1038, 4096, 65_535, 65_536, 65_537, 70_000] {
        let path = vec![b'p'; length];
        for (call, message) in with_path(&path) {
            for capacity in [40, 1023, 1024, 1031, 1032, 1033, 1040, 1042, 1043, 1044, 4096] {
                let mut link = Script::new(b"", 1, End::Closed);
                let mut session = Session::open(ALL, vec![0; capacity], vec![0; capacity]).unwrap();
                let told = session.call(&mut link, &call).err().map(|error| error.number());
                let expected = if length <= PATH_MOST { message.clone() } else { Vec::new() };
                assert_eq!(link.written(), expected, "{length} bytes, capacity {capacity}");
                assert_eq!(told == Some(7), length > PATH_MOST, "{length} bytes, capacity {capacity}: {told:?}");
                let whole = length <= PATH_MOST && message.len() <= capacity;
                assert_eq!(link.pieces.len() == 1, whole, "{length} bytes, capacity {capacity}");
            }
        }
    }
}

/// A NUL is 8 wherever it lies, in a path that is too long too: the whole path is searched, in buffers that would take its message whole
/// and in those that would not.
#[test]
fn a_nul_in_a_path_of_any_length() {
    for length in [1, 2, 1023, 1024, 1025, 1026, 1036, 1038, 4096, 65_536, 65_537, 70_000, 1_000_000] {
        let places = [0, 1, 7, 8, 1022, 1023, 1024, 1025, 4095, 65_535, 65_536, 69_999, length / 2, length - 1];
        for place in places.into_iter().filter(|place| *place < length) {
            let mut path = vec![b'p'; length];
            path[place] = 0;
            for (banner, capacity) in [(&b""[..], 40), (ALL, 40), (ALL, length + 64)] {
                let told = refusals_of(&path, banner, capacity);
                assert_eq!(told, [8; 10], "byte {place} of {length}, capacity {capacity}");
            }
        }
    }
}

/// The answers to each call that has this path, and to transfers with flags that are refused besides; none writes a byte, and the session
/// goes on after each.
fn refusals_of(path: &[u8], banner: &[u8], capacity: usize) -> [u32; 10] {
    let misflagged = [Call::RecvV2(path, SyncFlags(3)), Call::SendV2(path, FileMode(0), SyncFlags(8), Moment::FIRST)];
    let calls = with_path(path).into_iter().map(|(call, _)| call).chain(misflagged);
    let mut session = Session::open(banner, vec![0; capacity], vec![0; capacity]).unwrap();
    let told: Vec<u32> = calls
        .map(|call| {
            let mut link = Script::new(&stat(), 1, End::Closed);
            let told = session.call(&mut link, &call).unwrap_err().number();
            assert!(link.pieces.is_empty(), "{told}");
            assert!(session.stat(&mut link, "/a").is_ok(), "the session goes on after {told}");
            told
        })
        .collect();
    told.try_into().unwrap()
}

/// The limit is met where a call starts, and nowhere else: one that is pending with a longer path goes on to its end.
#[test]
fn a_longer_path_that_is_pending() {
    // the record's number of the length that is lent, and what a reply asks for
    const LENT: usize = 4;
    const READ: u32 = 1;
    const WRITE_LENT: u32 = 3;
    const WRITE_BYTES: u32 = 4;
    let (mut rec, mut rx, mut msg, mut out) = ([0; raw::RECORD], [0; 16], [0; 16], [0; raw::REPLY]);
    const LONG: usize = 70_000;
    let path = vec![b'p'; LONG];
    assert_eq!(raw::open(&mut rec, Settings::published().as_bytes(), b"", rx.len(), msg.len()), 0);
    let told = raw::start(&mut rec, &mut rx, &mut msg, &path[..PATH_MOST], 1, 0, 0, 0, &mut out);
    assert_eq!(told, WRITE_BYTES, "the header of a message in pieces");
    // as an older library, with a higher limit, left it
    rec[8 * LENT..8 * LENT + 8].copy_from_slice(&LONG.to_le_bytes());
    assert_eq!(raw::wrote(&mut rec, &mut rx, &mut msg, &path, &mut out), WRITE_LENT);
    assert_eq!(out[..16], [0, LONG].map(usize::to_le_bytes).concat());
    assert_eq!(raw::wrote(&mut rec, &mut rx, &mut msg, &path, &mut out), READ);
    rx[..15].copy_from_slice(&stat()[..15]);
    assert_eq!(raw::read(&mut rec, &mut rx, &mut msg, &path, 15, &mut out), READ);
    rx[15] = stat()[15];
    assert_eq!(raw::read(&mut rec, &mut rx, &mut msg, &path, 1, &mut out), 0, "the stat is told");
    let next = raw::start(&mut rec, &mut rx, &mut msg, &path, 1, 0, 0, 0, &mut out);
    assert_eq!(next, 7 << 8, "the next call meets the limit");
}

/// A link that says it read more than it was asked for.
struct Liar(Script);

impl Link for Liar {
    fn read_window(&mut self, window: &mut [u8]) -> Result<usize, Fault> {
        Ok(window.len() + 1)
    }
    fn write_piece(&mut self, piece: &[u8]) -> Result<(), Fault> {
        self.0.write_piece(piece)
    }
    fn close(&mut self) -> Result<(), Fault> {
        self.0.close()
    }
}

#[test]
fn a_call_is_resumed_after_a_wrong_count() {
    let call = Call::Stat(b"/a");
    let mut liar = Liar(Script::new(&stat(), 5, End::Closed));
    let mut session = Session::open(b"", [0; 40], [0; 40]).unwrap();
    assert_eq!(session.resume(&mut liar, &call).unwrap_err().number(), 5);
    assert_eq!(session.call(&mut liar, &call).unwrap_err().number(), 11);
    assert_eq!(session.quit(&mut liar.0).unwrap_err().number(), 4);
    assert!(matches!(session.resume(&mut liar.0, &call), Ok(Answer::Stat(_))));
    assert_eq!(liar.0.pieces.len(), 1);
}
