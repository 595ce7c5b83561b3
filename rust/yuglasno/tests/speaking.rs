//! A panel's replies and requests: what is written beside bytes that are written out by hand, what a session reads back, and what is refused.
mod common;
use common::letters::{id, loaded, tables};
use common::{entry, entry_v2, listing_end, stat, v2, with, words, End, Script};
use yuglasno::{
    Answer, Call, Entry, EntryV2, Error, FileMode, Moment, PanelReply, Session, Settings, Stat, StatV2, SyncFlags,
    DATA_MOST, PATH_MOST,
};

const STAT: Stat = Stat { mode: FileMode(33188), size: 1998, mtime: 5 };
const ALL: &[u8] = b"features=stat_v2,ls_v2,sendrecv_v2,sendrecv_v2_brotli,sendrecv_v2_lz4,sendrecv_v2_zstd,\
                     sendrecv_v2_dry_run_send";

/// The numbers that `common::v2` writes.
fn stat_v2(error: u32) -> StatV2 {
    let owner =
        StatV2 { error, dev: 8, ino: 16, mode: FileMode(33188), nlink: 28, uid: 32, gid: 36, ..StatV2::default() };
    StatV2 { size: 1 << 33, atime: 48, mtime: -5, ctime: 64, ..owner }
}

/// Each kind of reply, with its bytes.
fn replies() -> Vec<(PanelReply<'static>, Vec<u8>)> {
    vec![
        (PanelReply::Okay, words(b"OKAY", &[0])),
        (PanelReply::End, words(b"DONE", &[0])),
        (PanelReply::Stat(STAT), stat()),
        (PanelReply::StatV2(stat_v2(0)), v2(b"STA2", 0)),
        (PanelReply::StatV2(stat_v2(13)), v2(b"STA2", 13)),
        (PanelReply::Entry(Entry { name: b"T98", stat: STAT }), entry(b"T98")),
        (PanelReply::Entry(Entry { name: b"", stat: STAT }), entry(b"")),
        (PanelReply::EntryV2(EntryV2 { name: b"T\xFF8", stat: stat_v2(13) }), entry_v2(b"T\xFF8", 13)),
        (PanelReply::Chunk(b"heights"), with(b"DATA", b"heights")),
        (PanelReply::Chunk(b""), with(b"DATA", b"")),
        (PanelReply::Fail(b"no"), with(b"FAIL", b"no")),
        (PanelReply::ListingEnd, listing_end(20)),
        (PanelReply::ListingEndV2, listing_end(76)),
    ]
}

#[test]
fn the_bytes_of_each_reply() {
    for ids in tables() {
        let settings = loaded(&ids);
        for (reply, mut bytes) in replies() {
            let name = std::str::from_utf8(&bytes[..4]).unwrap().to_string();
            bytes[..4].copy_from_slice(&id(&ids, &name));
            let mut buffer = vec![0xEE; bytes.len() + 3];
            assert_eq!(reply.write(&settings, &mut buffer).unwrap(), bytes.len(), "{reply:?}");
            assert_eq!(buffer, [&bytes[..], &[0xEE; 3]].concat(), "{reply:?}");
            let mut appended = b"before".to_vec();
            reply.append(&settings, &mut appended).unwrap();
            assert_eq!(appended, [b"before", &bytes[..]].concat(), "{reply:?}");
        }
    }
}

#[test]
fn a_buffer_that_does_not_hold_it() {
    for (reply, bytes) in replies() {
        for room in 0..bytes.len() {
            let mut buffer = vec![0xEE; room];
            let error = reply.write(&Settings::published(), &mut buffer).unwrap_err();
            assert!(matches!(error, Error::LongReply) && error.number() == 20, "{reply:?}: {error}");
            assert!(buffer.iter().all(|byte| *byte == 0xEE), "{reply:?} into {room} bytes");
        }
    }
}

#[test]
fn data_over_its_limit() {
    let (settings, bytes) = (Settings::published(), vec![7; DATA_MOST + 1]);
    let mut buffer = vec![0; DATA_MOST + 100];
    assert_eq!(PanelReply::Chunk(&bytes[1..]).write(&settings, &mut buffer).unwrap(), 8 + DATA_MOST);
    assert_eq!(
        PanelReply::Fail(&bytes).write(&settings, &mut buffer).unwrap(),
        9 + DATA_MOST,
        "a text has no such limit"
    );
    let mut appended = b"before".to_vec();
    assert_eq!(PanelReply::Chunk(&bytes).append(&settings, &mut appended).unwrap_err().number(), 20);
    assert_eq!(appended, b"before", "what was refused leaves nothing");
}

#[test]
fn settings_without_a_table() {
    let mut bytes = *Settings::published().as_bytes();
    bytes[4..8].copy_from_slice(b"STAT");
    let equal = Settings::from_bytes(bytes);
    bytes[0] = 32;
    for (settings, number, seen) in [(equal, 23, "equals"), (Settings::from_bytes(bytes), 22, "has byte 32")] {
        let spoken = PanelReply::Okay.write(&settings, &mut []).unwrap_err();
        let heard = Call::heard(&settings, b"no request").unwrap_err();
        for error in [spoken, heard] {
            assert!(error.number() == number && error.to_string().contains(seen), "{error}");
        }
    }
}

/// A list of replies, read back by the calls that they belong to, however the cable cuts them.
#[test]
fn a_session_reads_them_back() {
    for ids in tables() {
        let (settings, mut stream) = (loaded(&ids), Vec::new());
        replies().iter().for_each(|(reply, _)| reply.append(&settings, &mut stream).unwrap());
        for cut in [1, 3, 7, stream.len()] {
            let mut link = Script::new(&stream, cut, End::Closed);
            let mut session = Session::open_with(&settings, ALL, [0; 76], [0; 76]).unwrap();
            for (reply, _) in replies() {
                let (call, expected) = read_as(reply);
                match (session.call(&mut link, &call), expected) {
                    (Ok(answer), Ok(expected)) => assert_eq!(answer, expected, "{reply:?}, cut {cut}"),
                    (Err(error), Err(text)) => assert_eq!(error.to_string(), text, "{reply:?}, cut {cut}"),
                    (answer, expected) => panic!("{reply:?}, cut {cut}: {answer:?} and not {expected:?}"),
                }
            }
            assert_eq!(link.read, stream.len());
        }
    }
}

/// A call that reads the reply, and what it answers.
fn read_as(reply: PanelReply<'static>) -> (Call<'static>, Result<Answer<'static>, &'static str>) {
    match reply {
        PanelReply::Okay => (Call::SendDone(5), Ok(Answer::Done)),
        PanelReply::End => (Call::RecvNext, Ok(Answer::End)),
        PanelReply::Stat(stat) => (Call::Stat(b"/a"), Ok(Answer::Stat(stat))),
        PanelReply::StatV2(stat) if stat.error > 0 => {
            (Call::StatV2(b"/a"), Err("16: the panel reports errno 13: permission denied"))
        }
        PanelReply::StatV2(stat) => (Call::StatV2(b"/a"), Ok(Answer::StatV2(stat))),
        PanelReply::Entry(entry) => (Call::NextEntry, Ok(Answer::Entry(entry))),
        PanelReply::EntryV2(entry) => (Call::NextEntryV2, Ok(Answer::EntryV2(entry))),
        PanelReply::Chunk(bytes) => (Call::RecvNext, Ok(Answer::Chunk(bytes))),
        PanelReply::Fail(_) => (Call::NextEntryV2, Err("14: the panel failed: no")),
        PanelReply::ListingEnd => (Call::NextEntry, Ok(Answer::End)),
        PanelReply::ListingEndV2 => (Call::NextEntryV2, Ok(Answer::End)),
    }
}

/// Every request that a session writes, heard as the call that wrote it.
#[test]
fn a_call_is_heard_as_it_was_made() {
    let path = [b'p'; PATH_MOST];
    let calls = [
        Call::Stat(b"/a"),
        Call::StatV2(b""),
        Call::List(&path),
        Call::ListV2(b"/\xFF"),
        Call::Recv(b"/a"),
        Call::RecvV2(b"/a", SyncFlags::ZSTD),
        Call::Send(b"/a,b", FileMode(u32::MAX), Moment::FIRST),
        Call::SendV2(&path, FileMode(33188), SyncFlags::BROTLI | SyncFlags::DRY_RUN, Moment::FIRST),
        Call::Data(b"\0heights"),
        Call::SendDone(u32::MAX),
        Call::Quit,
    ];
    for ids in tables() {
        let settings = loaded(&ids);
        for call in calls {
            let mut link = Script::new(b"", 1, End::Closed);
            let mut session = Session::open_with(&settings, ALL, [0; 76], [0; 76]).unwrap();
            let _ = session.call(&mut link, &call);
            let written = link.written();
            assert_eq!(Call::heard(&settings, &written).unwrap(), Some((call, written.len())));
            for length in 0..written.len() {
                assert_eq!(Call::heard(&settings, &written[..length]).unwrap(), None, "{call:?}, {length} bytes of it");
            }
        }
    }
}

#[test]
fn what_is_no_request() {
    let settings = Settings::published();
    for bytes in [
        &b"OKAY\0\0\0\0"[..],
        b"LST2\0\0\0\0",
        b"QUIT\x01\0\0\0",
        b"STAT\x01\x04\0\0",
        b"STAT\x01\0\0\0\0",
        b"DATA\x01\0\x01\0",
        b"SEND\x04\0\0\0/a,x",
        b"RCV2\x01\0\0\0aRCV2\x08\0\0\0",
        b"SND2\x01\0\0\0aRCV2\0\0\0\0\0\0\0\0",
    ] {
        let error = Call::heard(&settings, bytes).unwrap_err();
        assert_eq!(error.to_string(), "18: the bytes are no request", "{}", bytes.escape_ascii());
    }
}
