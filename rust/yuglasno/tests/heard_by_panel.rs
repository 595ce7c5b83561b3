//! The panel by its bytes: what it says to requests in one piece or in many, to what is no request, and where it has nothing to say.
mod common;
use common::letters::{id, small};
use common::{with, words};
use std::io::{ErrorKind, Read, Write};
use yuglasno::panel::Panel;
use yuglasno::{Error, FileMode, Session, CAPACITY, DATA_MOST, PUBLISHED_IDS};

const MODE: FileMode = FileMode(0o100_644);

/// All that a panel says.
fn said(panel: &mut Panel) -> Vec<u8> {
    let mut bytes = Vec::new();
    panel.read_to_end(&mut bytes).unwrap();
    bytes
}

fn v1(id: &[u8; 4], mode: u32, size: u32, mtime: u32) -> Vec<u8> {
    words(id, &[mode, size, mtime])
}

/// A pull between other requests, all heard before the first reply is read: the replies come in that order.
#[test]
fn requests_ahead_of_their_replies() {
    let file: Vec<u8> = (0..DATA_MOST + 9).map(|i| i as u8).collect();
    let requests = [
        with(b"STAT", b"/w/a"),
        with(b"RECV", b"/w/a"),
        with(b"RECV", b"/w/empty"),
        with(b"LIST", b"/w"),
        with(b"STAT", b"/none"),
        words(b"QUIT", &[0]),
    ];
    let entry = |name: &str, stat: Vec<u8>| [&stat[..], &(name.len() as u32).to_le_bytes(), name.as_bytes()].concat();
    let folder = |name| entry(name, v1(b"DENT", 0o040_771, 4096, 0));
    let expected = [
        v1(b"STAT", MODE.0, file.len() as u32, 5),
        with(b"DATA", &file[..DATA_MOST]),
        with(b"DATA", &file[DATA_MOST..]),
        words(b"DONE", &[0]),
        words(b"DONE", &[0]),
        folder("."),
        folder(".."),
        entry("a", v1(b"DENT", MODE.0, file.len() as u32, 5)),
        entry("empty", v1(b"DENT", MODE.0, 0, 6)),
        words(b"DONE", &[0, 0, 0, 0]),
        v1(b"STAT", 0, 0, 0),
    ];
    for piece in [1, 7, usize::MAX] {
        for cut in [1, 100, usize::MAX] {
            let mut panel = Panel::with_jobs().cut(cut);
            panel.put("/w/a", MODE, 5, &file).unwrap();
            panel.put("/w/empty", MODE, 6, b"").unwrap();
            let stream = requests.concat();
            stream.chunks(piece.min(stream.len())).for_each(|bytes| panel.write_all(bytes).unwrap());
            assert!(said(&mut panel) == expected.concat(), "requests by {piece}, replies by {cut}");
            assert_eq!(panel.write(b"STAT").unwrap_err().kind(), ErrorKind::BrokenPipe, "QUIT was heard");
        }
    }
}

/// The same over a stream.
#[test]
fn a_host_that_reads_late() {
    let requests = [with(b"RECV", b"/jobs/sphere.job"), with(b"STAT", b"/jobs/empty.job")].concat();
    let mut written = Vec::new();
    Panel::with_jobs().serve(&mut &requests[..], &mut written).unwrap();
    let job = Panel::with_jobs().file("/jobs/sphere.job").unwrap();
    let stat = v1(b"STAT", 0o100_660, 0, 900_000_000);
    assert!(
        written
            == [with(b"DATA", &job[..DATA_MOST]), with(b"DATA", &job[DATA_MOST..]), words(b"DONE", &[0]), stat]
                .concat()
    );
}

#[test]
fn what_is_no_request() {
    for request in [
        words(b"LST2", &[0]),
        words(b"OKAY", &[0]),
        words(b"STAT", &[1025]),
        with(b"STAT", b"a\0b"),
        words(b"QUIT", &[5]),
    ] {
        let mut panel = Panel::with_jobs();
        panel.write_all(&request).unwrap();
        assert_eq!(said(&mut panel), with(b"FAIL", b"bad request"), "{}", request.escape_ascii());
        assert_eq!(panel.write(b"x").unwrap_err().kind(), ErrorKind::BrokenPipe, "it ends the service");
    }
}

/// Flags that hosts may send and this panel has no packing for; those of no host are no request.
#[test]
fn flags_that_it_does_not_have() {
    for (flags, text) in [(1, "unknown flags: 1"), (4, "unknown flags: 4"), (3, "bad request"), (8, "bad request")] {
        let pull = [with(b"RCV2", b"/jobs/empty.job"), words(b"RCV2", &[flags])].concat();
        let push = [with(b"SND2", b"/jobs/new.job"), words(b"SND2", &[33188, flags])].concat();
        for request in [pull, push] {
            let mut panel = Panel::with_jobs();
            panel.write_all(&request).unwrap();
            assert_eq!(said(&mut panel), with(b"FAIL", text.as_bytes()), "flags {flags}");
        }
    }
}

#[test]
fn data_and_done_outside_a_push() {
    for (request, text) in
        [(with(b"DATA", b"x"), "data outside a push"), (words(b"DONE", &[5]), "the end of a push outside one")]
    {
        let mut panel = Panel::with_jobs();
        panel.write_all(&request).unwrap();
        assert_eq!(said(&mut panel), with(b"FAIL", text.as_bytes()));
    }
}

/// Ids that are no table: nothing is said, and the library's answer is the error of the write; the session has it as its link's.
#[test]
fn ids_that_are_no_table() {
    let mut equal = small();
    equal[14] = equal[0];
    let mut blank = PUBLISHED_IDS;
    blank[3] = *b"LI 2";
    for (ids, number) in [(equal, 23), (blank, 22)] {
        let mut panel = Panel::with_jobs().with_ids(ids);
        let error = panel.write(&with(&id(&ids, "LIST"), b"/jobs")).unwrap_err();
        let inner = error.get_ref().and_then(|inner| inner.downcast_ref::<Error>()).expect("the library's answer");
        assert_eq!(inner.number(), number);
        assert_eq!(said(&mut panel), b"");
        let mut session = Session::open(Panel::BANNER, vec![0; CAPACITY], vec![0; CAPACITY]).unwrap();
        let error = session.stat(&mut Panel::with_jobs().with_ids(ids), "/jobs").unwrap_err();
        assert!(error.number() == 13 && error.to_string().contains(&format!("{number}: ")), "{error}");
    }
}
