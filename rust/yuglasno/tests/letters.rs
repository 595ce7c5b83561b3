//! Ids from a file: what loading takes and refuses, and whole transfers under tables of other letters, beside panels of the same table and
//! of another one.
mod common;
use common::letters::*;
use common::{with, words, End, Script};
use yuglasno::panel::Panel;
use yuglasno::{
    raw, Answer, Call, Error, FileMode, Ids, Moment, Report, Session, Settings, Step, SyncFlags, CAPACITY,
    PUBLISHED_IDS,
};

const MODE: FileMode = FileMode(0o100_644);
const TORIC: &str = "/jobs/1998-toric.job";

fn session(ids: &Ids, banner: &[u8]) -> Session<Vec<u8>> {
    Session::open_with(&loaded(ids), banner, vec![0; CAPACITY], vec![0; CAPACITY]).unwrap()
}

#[test]
fn the_published_ones() {
    let settings = Settings::published();
    assert_eq!(settings.ids(), PUBLISHED_IDS);
    assert_eq!(settings.as_bytes()[60..], [0; 68]);
    assert_eq!(
        (settings, loaded(&PUBLISHED_IDS)),
        (Settings::default(), settings),
        "the heading twice is the published table"
    );
}

/// The example file has these bytes and no others.
#[test]
fn the_file_of_small_letters() {
    let file = include_bytes!("../../../examples/small-letters.ids");
    assert_eq!((&file[..], file.len()), (&file_of(&small())[..], 150));
    let mut session = session(&small(), b"");
    let Step::Write(piece) = session.start(&Call::Stat(b"/a")) else { panic!() };
    assert_eq!(piece, [0x73, 0x74, 0x61, 0x74, 0x02, 0, 0, 0, 0x2F, 0x61]);
}

/// Each call writes under the ids of its table, the inner ids of RCV2 and SND2 too; in buffers that take the message whole and in small ones.
#[test]
fn what_is_written() {
    for ids in tables() {
        let id = |name| id(&ids, name);
        let v2 = |name, numbers: &[u32]| [with(&id(name), b"/a"), words(&id(name), numbers)].concat();
        let calls = [
            (Call::Stat(b"/a"), with(&id("STAT"), b"/a")),
            (Call::StatV2(b"/a"), with(&id("STA2"), b"/a")),
            (Call::List(b"/a"), with(&id("LIST"), b"/a")),
            (Call::ListV2(b"/a"), with(&id("LIS2"), b"/a")),
            (Call::Recv(b"/a"), with(&id("RECV"), b"/a")),
            (Call::RecvV2(b"/a", SyncFlags::NONE), v2("RCV2", &[0])),
            (Call::Send(b"/a", MODE, Moment::FIRST), with(&id("SEND"), b"/a,33188")),
            (Call::SendV2(b"/a", MODE, SyncFlags::DRY_RUN, Moment::FIRST), v2("SND2", &[33188, 0x8000_0000])),
            (Call::Data(b"heights"), with(&id("DATA"), b"heights")),
            (Call::SendDone(1998), words(&id("DONE"), &[1998])),
            (Call::Quit, words(&id("QUIT"), &[0])),
        ];
        for (call, message) in calls {
            for capacity in [8, 20, 64] {
                let (rx, msg) = (vec![0; capacity], vec![0; capacity]);
                let mut session = Session::open_with(&loaded(&ids), Panel::BANNER, rx, msg).unwrap();
                let mut link = Script::new(b"", 1, End::Closed);
                let _ = session.call(&mut link, &call);
                assert_eq!(link.written(), message, "{call:?}, capacity {capacity}");
            }
        }
    }
}

/// Every kind of transfer against a panel of the same table, whole and in reads of one byte, v1 and v2.
#[test]
fn every_transfer() {
    for ids in tables() {
        for banner in [b"", Panel::BANNER] {
            for cut in [1, usize::MAX] {
                let mut panel = Panel::with_jobs().with_ids(ids).cut(cut);
                let mut session = session(&ids, banner);
                transfers(&mut session, &mut panel);
                refused_by_the_panel(&mut session, &mut panel);
                session.quit(&mut panel).unwrap();
            }
        }
    }
}

fn transfers(session: &mut Session<Vec<u8>>, panel: &mut Panel) {
    for path in [TORIC, "/jobs/empty.job"] {
        let mut file = Vec::new();
        session.pull(panel, path, &mut file).unwrap();
        assert!(file == panel.file(path).unwrap(), "{path}");
    }
    let data: Vec<u8> = (0..70_000_usize).map(|i| (i * i / 7) as u8).collect();
    session.push(panel, "/jobs/new.job", MODE, 5, Moment::FIRST, &mut &data[..]).unwrap();
    assert!(panel.file("/jobs/new.job").unwrap() == data);
    let details = session.details(panel, "/jobs/new.job").unwrap();
    assert_eq!((details.mode(), details.size(), details.mtime()), (MODE, 70_000, 5));
    let mut names = Vec::new();
    session.entries(panel, "/jobs", |name, _| names.push(name.to_vec())).unwrap();
    assert_eq!((names.len(), &names[0][..], &names[2][..]), (8, &b"."[..], &b"1998-toric.job"[..]));
    assert_eq!(session.entries(panel, "/none", |_, _| panic!()).unwrap(), 0);
}

/// A FAIL under the table's own id, which ends the panel.
fn refused_by_the_panel(session: &mut Session<Vec<u8>>, panel: &mut Panel) {
    let failure = session.push(panel, "/jobs", MODE, 5, Moment::FIRST, &mut &b"x"[..]).unwrap_err();
    assert_eq!(failure.to_string(), "14: the panel failed: couldn't create file: Is a directory");
}

/// A session of one table and a panel of another that shares no id with it: no transfer goes through, and no file is there that should
/// not be. (With the published ids in another order a reply may be taken for another one: nothing in the bytes says which table they are of.)
#[test]
fn two_tables() {
    for (ours, theirs) in apart() {
        for banner in [b"", Panel::BANNER] {
            for cut in [1, usize::MAX] {
                let (mut file, mut panel) = (Vec::new(), Panel::with_jobs().with_ids(theirs).cut(cut));
                let failure = session(&ours, banner).pull(&mut panel, TORIC, &mut file).unwrap_err();
                assert!(failure.number() == Some(15) && file.is_empty(), "{failure}");
                let mut panel = Panel::with_jobs().with_ids(theirs).cut(cut);
                let failure = session(&ours, banner)
                    .push(&mut panel, "/new", MODE, 5, Moment::FIRST, &mut &b"x"[..])
                    .unwrap_err();
                assert!(failure.number() == Some(12) && panel.file("/new").is_none(), "{failure}");
            }
        }
    }
}

/// Pairs of tables without an id in common.
fn apart() -> impl Iterator<Item = (Ids, Ids)> {
    let pairs = tables().into_iter().flat_map(|ours| tables().map(|theirs| (ours, theirs)));
    pairs.filter(|(ours, theirs)| !ours.iter().any(|id| theirs.contains(id)))
}

/// What is unexpected then is the panel's FAIL, and it is named. (A push has found the panel gone: only a FAIL counts, and by the
/// session's table there is none.)
#[test]
fn an_id_of_another_table() {
    assert_eq!(apart().count(), 14);
    for (ours, theirs) in apart() {
        let panel = || Panel::with_jobs().with_ids(theirs);
        for banner in [b"", Panel::BANNER] {
            let told = [
                session(&ours, banner).details(&mut panel(), TORIC).unwrap_err(),
                session(&ours, banner).entries(&mut panel(), "/jobs", |_, _| panic!()).unwrap_err(),
            ];
            for error in told {
                assert!(matches!(error, Error::Unexpected(named) if named == id(&theirs, "FAIL")), "{error}");
            }
        }
    }
}

/// The same bytes of a panel, read under two tables: a stat by one, an unexpected id by the other.
#[test]
fn the_same_bytes_under_two_tables() {
    let reply = |name| words(&id(&small(), name), &[33188, 1998, 5]);
    for cut in [1, 3, 16] {
        let stat = |ids: &Ids, bytes: Vec<u8>| {
            let mut link = Script::new(&bytes, cut, End::Closed);
            session(ids, b"").stat(&mut link, "/a").map(|stat| stat.size)
        };
        assert_eq!(stat(&small(), reply("STAT")).unwrap(), 1998);
        for error in [stat(&PUBLISHED_IDS, reply("STAT")), stat(&rotated(), reply("STAT"))] {
            assert_eq!(error.unwrap_err().to_string(), "15: the panel sent an unexpected id: stat");
        }
        assert!(matches!(stat(&small(), reply("DENT")), Err(Error::Unexpected(id)) if id == *b"dent"));
        let published = words(b"STAT", &[33188, 1998, 5]);
        assert!(matches!(stat(&small(), published), Err(Error::Unexpected(id)) if id == *b"STAT"));
    }
}

/// STAT spelt "LIST" and LIST "STAT", all else published.
#[test]
fn two_ids_exchanged() {
    let mut ids = PUBLISHED_IDS;
    ids.swap(0, 2);
    let mut session = session(&ids, b"");
    let call = Call::Stat(b"/a");
    assert!(matches!(session.start(&call), Step::Write(b"LIST\x02\0\0\0/a")));
    let Step::Read(window) = session.report(&call, Report::Done) else { panic!() };
    window[..16].copy_from_slice(&words(b"LIST", &[33188, 1998, 5]));
    assert!(matches!(session.report(&call, Report::Read(16)), Step::Told(Ok(Answer::Stat(stat))) if stat.size == 1998));
    for cut in [1, usize::MAX] {
        let mut panel = Panel::with_jobs().with_ids(ids).cut(cut);
        transfers(&mut session, &mut panel);
    }
    let listed = session.stat(&mut Panel::with_jobs(), "/jobs").unwrap_err();
    assert_eq!(listed.to_string(), "15: the panel sent an unexpected id: DENT");
}

/// Two sessions side by side, each with its own table and panel; and settings that change after an opening.
#[test]
fn two_sessions() {
    let (mut upper, mut lower) = (Panel::with_jobs(), Panel::with_jobs().with_ids(small()));
    let mut settings = Settings::published();
    let mut one = Session::open_with(&settings, b"", [0; 64], [0; 64]).unwrap();
    settings.load_ids(&file_of(&small())).unwrap();
    let mut two = Session::open_with(&settings, b"", [0; 64], [0; 64]).unwrap();
    settings.load_ids(&file_of(&rotated())).unwrap();
    for _ in 0..3 {
        assert_eq!(one.stat(&mut upper, TORIC).unwrap(), two.stat(&mut lower, TORIC).unwrap());
        one.list(&mut upper, "/jobs").unwrap();
        two.list(&mut lower, "/jobs").unwrap();
        while let Some(entry) = one.next_entry(&mut upper).unwrap() {
            assert_eq!(Some(entry), two.next_entry(&mut lower).unwrap());
        }
        assert_eq!(two.next_entry(&mut lower).unwrap(), None);
    }
}

/// The record and the settings that were lent are apart: what is done to the settings afterwards changes no session.
#[test]
fn settings_altered_after_an_opening() {
    let (mut rec, mut rx, mut msg, mut out) = ([0; raw::RECORD], [0; 64], [0; 64], [0; raw::REPLY]);
    let mut settings = *loaded(&small()).as_bytes();
    assert_eq!(raw::open(&mut rec, &settings, b"", rx.len(), msg.len()), 0);
    settings.fill(0xEE);
    const WRITE_RX: u32 = 2;
    assert_eq!(raw::start(&mut rec, &mut rx, &mut msg, b"/a", 1, 0, 0, 0, &mut out), WRITE_RX);
    assert!(rx.windows(10).any(|piece| piece == b"stat\x02\0\0\0/a"));
}
