//! Writes and closes that come to a fault, and the links that stand ready: streams and pairs.
mod common;
use common::*;
use std::io::{self, Read, Write};
use std::os::unix::net::UnixStream;
use yuglasno::{code_of, Call, Error, Fault, FileMode, Link, Moment, Pair, Session, SyncFlags};

const ALL: &[u8] = b"features=stat_v2,ls_v2,sendrecv_v2";

fn told(call: Call, incoming: &[u8], broken: (usize, End)) -> (String, Script) {
    let mut link = Script::new(incoming, 3, End::Error(5));
    link.broken = Some(broken);
    let mut session = Session::open(ALL, [0; 30], [0; 30]).unwrap();
    let told = format!("{:?}", session.call(&mut link, &call).map_err(|error| error.to_string()));
    (told, link)
}

#[test]
fn a_push_write_that_finds_the_channel_closed() {
    let mode = FileMode(33188);
    let pushes = [
        Call::Send(b"/j", mode, Moment::FIRST),
        Call::SendV2(b"/j", mode, SyncFlags::NONE, Moment::FIRST),
        Call::Data(b"x"),
        Call::SendDone(5),
    ];
    for call in pushes {
        let (answer, link) = told(call, &with(b"FAIL", b"full"), (0, End::Closed));
        assert_eq!(answer, "Err(\"14: the panel failed: full\")", "{call:?}");
        assert_eq!(link.read, 12);
        for waiting in [&b""[..], b"FAI", b"FAIL\x05\0\0\0full", b"DONE\0\0\0\0"] {
            let (answer, link) = told(call, waiting, (0, End::Closed));
            assert_eq!(answer, "Err(\"12: the channel is closed\")", "{call:?} before {waiting:?}");
            assert_eq!(link.read, waiting.len());
        }
        let (answer, link) = told(call, &with(b"FAIL", b"full"), (0, End::Error(32)));
        assert!(answer.starts_with("Err(\"13: the link failed: Broken pipe"), "{call:?}: {answer}");
        assert_eq!(link.read, 0);
    }
}

#[test]
fn another_write_that_finds_the_channel_closed() {
    for call in [Call::Stat(b"/a"), Call::StatV2(b"/a"), Call::List(b"/a"), Call::ListV2(b"/a"), Call::Recv(b"/a")] {
        let (answer, link) = told(call, &with(b"FAIL", b"full"), (0, End::Closed));
        assert_eq!(answer, "Err(\"12: the channel is closed\")", "{call:?}");
        assert_eq!(link.read, 0);
    }
}

#[test]
fn a_write_that_fails_between_two_pieces() {
    let long = [b'd'; 100];
    for from in 0..3 {
        let (answer, link) = told(Call::Data(&long), b"", (from, End::Error(5)));
        assert_eq!(answer.starts_with("Err(\"13"), from < 2, "{answer}");
        assert_eq!(link.written(), [&b"DATA\x64\0\0\0"[..], &long].concat()[..[0, 8, 108][from]]);
    }
}

#[test]
fn quit_closes_in_any_case() {
    let cases = [
        (None, None, "Ok(())"),
        (Some(End::Closed), None, "Ok(())"),
        (Some(End::Error(5)), None, "Err(13)"),
        (None, Some(End::Closed), "Err(12)"),
        (None, Some(End::Error(9)), "Err(13)"),
        (Some(End::Closed), Some(End::Closed), "Err(12)"),
    ];
    for (write, close, expected) in cases {
        let mut link = Script::new(b"", 1, End::Closed);
        link.broken = write.map(|end| (0, end));
        link.close = close;
        let mut session = Session::open(b"", [0; 8], [0; 8]).unwrap();
        let told = session.quit(&mut link).map_err(|error| error.number());
        assert_eq!(format!("{told:?}"), expected, "{write:?}, {close:?}");
        assert_eq!(link.closes, 1);
        assert_eq!(session.quit(&mut link).unwrap_err().number(), 6);
    }
}

#[test]
fn quit_answers_the_error_of_the_write() {
    let mut link = Script::new(b"", 1, End::Closed);
    (link.broken, link.close) = (Some((0, End::Error(5))), Some(End::Error(9)));
    let mut session = Session::open(b"", [0; 8], [0; 8]).unwrap();
    match session.quit(&mut link) {
        Err(Error::Io { code: 5, error: Some(error) }) => assert_eq!(error.raw_os_error(), Some(5)),
        other => panic!("{other:?}"),
    }
}

/// A stream of one outcome.
struct Stream(fn() -> io::Result<usize>);

impl Read for Stream {
    fn read(&mut self, _: &mut [u8]) -> io::Result<usize> {
        (self.0)()
    }
}

impl Write for Stream {
    fn write(&mut self, _: &[u8]) -> io::Result<usize> {
        (self.0)()
    }
    fn flush(&mut self) -> io::Result<()> {
        (self.0)().map(|_| ())
    }
}

#[test]
fn streams_as_links() {
    assert!(matches!(Stream(|| Ok(0)).read_window(&mut [0]), Err(Fault::Closed)));
    assert!(matches!(Stream(|| Ok(0)).write_piece(b"x"), Err(Fault::Closed)));
    let mut gone = Stream(|| Err(io::ErrorKind::BrokenPipe.into()));
    assert!(matches!(gone.write_piece(b"x"), Err(Fault::Closed)));
    assert!(matches!(gone.close(), Err(Fault::Closed)));
    assert!(matches!(gone.read_window(&mut [0]), Err(Fault::Error(_))));
    let mut late = Stream(|| Err(io::ErrorKind::TimedOut.into()));
    assert!(matches!(late.read_window(&mut [0]), Err(Fault::Error(error)) if code_of(&error) == 65_538));
    assert!(matches!(late.write_piece(b"x"), Err(Fault::Error(_))));
}

#[test]
fn a_socket_that_the_panel_closed() {
    let (mut near, far) = UnixStream::pair().unwrap();
    drop(far);
    let mut session = Session::open(b"", [0; 64], [0; 64]).unwrap();
    assert_eq!(session.stat(&mut near, "/a").unwrap_err().number(), 12);
    assert_eq!(session.recv_next(&mut near).unwrap_err().number(), 12);
    session.quit(&mut near).unwrap();
}

#[test]
fn a_pair_closes_its_writer() {
    let (near, mut far) = UnixStream::pair().unwrap();
    far.write_all(&stat()).unwrap();
    let (written, mut reader) = UnixStream::pair().unwrap();
    let mut link = Pair::new(near, written);
    let mut session = Session::open(b"", [0; 64], [0; 64]).unwrap();
    session.stat(&mut link, "/a").unwrap();
    session.quit(&mut link).unwrap();
    let mut all = Vec::new();
    reader.read_to_end(&mut all).unwrap();
    assert_eq!(all, b"STAT\x02\0\0\0/aQUIT\0\0\0\0");
    assert!(matches!(link.write_piece(b"x"), Err(Fault::Closed)));
}
