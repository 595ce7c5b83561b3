//! Each call's request and answer, however the cable cuts the reply, at the smallest receive buffer that holds it and at
//! larger ones.
mod common;
use common::*;
use yuglasno::{Answer, Call, Details, FileMode, Moment, Session, Stat, StatV2, SyncFlags, CAPACITY};

const ALL: &[u8] = b"device::features=stat_v2,ls_v2,sendrecv_v2,sendrecv_v2_zstd,sendrecv_v2_dry_run_send";
const STAT: Stat = Stat { mode: FileMode(33188), size: 1998, mtime: 5 };

fn stat_v2(error: u32) -> StatV2 {
    let (mode, size) = (FileMode(33188), 1 << 33);
    StatV2 { error, dev: 8, ino: 16, mode, nlink: 28, uid: 32, gid: 36, size, atime: 48, mtime: -5, ctime: 64 }
}

/// Calls in order, what each writes and answers, over all their replies; at every cut and capacity.
fn tried(calls: &[(Call, &[u8], Answer)], replies: &[u8], least: usize) {
    for capacity in [least, least + 1, 2 * least + 7, CAPACITY] {
        for cut in cuts() {
            let mut link = Script::new(replies, cut, End::Closed);
            let mut session = Session::open(ALL, vec![0xAA; capacity], vec![0xBB; capacity + 3]).unwrap();
            for (call, request, answer) in calls {
                let before = link.written().len();
                let told = session.call(&mut link, call);
                assert_eq!(&told.unwrap(), answer, "{call:?}, capacity {capacity}, cut {cut}");
                assert_eq!(&link.written()[before..], *request, "{call:?}, capacity {capacity}, cut {cut}");
            }
            assert_eq!(link.read, replies.len(), "capacity {capacity}, cut {cut}");
            let after = session.call(&mut link, &Call::RecvNext).unwrap_err().number();
            assert_eq!(after, 12, "nothing is left over: capacity {capacity}, cut {cut}");
        }
    }
}

#[test]
fn stats() {
    let one = (Call::Stat(b"/a"), &b"STAT\x02\0\0\0/a"[..], Answer::Stat(STAT));
    tried(&[one, one], &[stat(), stat()].concat(), 16);
    let two = (Call::StatV2(b"/a"), &b"STA2\x02\0\0\0/a"[..], Answer::StatV2(stat_v2(0)));
    tried(&[two], &v2(b"STA2", 0), 72);
}

#[test]
fn listings() {
    let named = |name| Answer::Entry(yuglasno::Entry { name, stat: STAT });
    let replies = [entry(b"T98"), entry(b""), entry(b"a name of 30 bytes, \xFF\0 in it."), listing_end(20)].concat();
    let calls = [
        (Call::List(b"/jobs"), &b"LIST\x05\0\0\0/jobs"[..], Answer::Done),
        (Call::NextEntry, b"", named(b"T98")),
        (Call::NextEntry, b"", named(b"")),
        (Call::NextEntry, b"", named(b"a name of 30 bytes, \xFF\0 in it.")),
        (Call::NextEntry, b"", Answer::End),
    ];
    tried(&calls, &replies, 30);
}

#[test]
fn listings_v2() {
    let named = |name, error| Answer::EntryV2(yuglasno::EntryV2 { name, stat: stat_v2(error) });
    let replies = [entry_v2(b"T98", 0), entry_v2(b"gone", 2), listing_end(76)].concat();
    let calls = [
        (Call::ListV2(b""), &b"LIS2\0\0\0\0"[..], Answer::Done),
        (Call::NextEntryV2, b"", named(b"T98", 0)),
        (Call::NextEntryV2, b"", named(b"gone", 2)),
        (Call::NextEntryV2, b"", Answer::End),
    ];
    tried(&calls, &replies, 76);
}

#[test]
fn pulls() {
    let data: Vec<u8> = (0..=255).collect();
    let replies = [with(b"DATA", &data), with(b"DATA", b""), with(b"DATA", b"x"), words(b"DONE", &[7])].concat();
    let start: [(Call, &[u8], Answer); 2] = [
        (Call::Recv(b"/a"), b"RECV\x02\0\0\0/a", Answer::Done),
        (Call::RecvV2(b"/a", SyncFlags::ZSTD), b"RCV2\x02\0\0\0/aRCV2\x04\0\0\0", Answer::Done),
    ];
    for start in start {
        let calls = [
            start,
            (Call::RecvNext, b"", Answer::Chunk(&data)),
            (Call::RecvNext, b"", Answer::Chunk(b"")),
            (Call::RecvNext, b"", Answer::Chunk(b"x")),
            (Call::RecvNext, b"", Answer::End),
        ];
        tried(&calls, &replies, 264);
    }
}

#[test]
fn pushes() {
    let flags = SyncFlags::ZSTD | SyncFlags::DRY_RUN;
    let snd2 = b"SND2\x02\0\0\0/jSND2\xA4\x81\0\0\x04\0\0\x80";
    let start: [(Call, &[u8], Answer); 3] = [
        (Call::Send(b"/j", FileMode(33188), Moment::FIRST), b"SEND\x08\0\0\0/j,33188", Answer::Done),
        (Call::Send(b"/j", FileMode(0), Moment::FIRST), b"SEND\x04\0\0\0/j,0", Answer::Done),
        (Call::SendV2(b"/j", FileMode(33188), flags, Moment::FIRST), snd2, Answer::Done),
    ];
    for start in start {
        let calls = [
            start,
            (Call::Data(b""), &b""[..], Answer::Done),
            (Call::Data(b"heights"), b"DATA\x07\0\0\0heights", Answer::Done),
            (Call::SendDone(5), b"DONE\x05\0\0\0", Answer::Done),
        ];
        tried(&calls, &words(b"OKAY", &[99]), 8);
    }
}

#[test]
fn data_in_messages_of_65536() {
    let data = vec![7; 2 * 65_536 + 1];
    let mut link = Script::new(b"", 1, End::Closed);
    let mut session = Session::open(b"", vec![0; 64], vec![0; 64]).unwrap();
    session.data(&mut link, &data).unwrap();
    let lengths: Vec<usize> = link.pieces.iter().map(Vec::len).collect();
    assert_eq!(lengths, [8, 65_536, 8, 65_536, 9]);
    let expected = [with(b"DATA", &data[..65_536]), with(b"DATA", &data[..65_536]), with(b"DATA", b"\x07")].concat();
    assert_eq!(link.written(), expected);
}

#[test]
fn pieces_where_the_message_does_not_fit() {
    let mut link = Script::new(b"", 1, End::Closed);
    let mut session = Session::open(ALL, [0; 8], [0; 8]).unwrap();
    session.send(&mut link, "/job", FileMode(33188), Moment::FIRST).unwrap();
    session.send_v2(&mut link, "/job", FileMode(1), SyncFlags::NONE, Moment::FIRST).unwrap();
    let expected: [&[u8]; 9] =
        [b"SEND\x0A\0\0\0", b"/job", b",", b"33188", b"SND2\x04\0\0\0", b"/job", b"SND2", b"\x01\0\0\0", b"\0\0\0\0"];
    assert_eq!(link.pieces, expected);
}

#[test]
fn v2_where_the_banner_has_it() {
    for (banner, replies, details) in
        [(&b""[..], stat(), Details::V1(STAT)), (ALL, v2(b"STA2", 0), Details::V2(stat_v2(0)))]
    {
        let mut link = Script::new(&replies, 5, End::Closed);
        let mut session = Session::open(banner, [0; 80], [0; 80]).unwrap();
        assert_eq!(session.details(&mut link, "/a").unwrap(), details);
        assert_eq!(link.pieces.len(), 1);
    }
}
