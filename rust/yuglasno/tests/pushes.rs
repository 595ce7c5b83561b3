//! Pushes of `transfer`: the bytes, bits and time that FILE had when it was opened, or no DONE; then the panel's numbers.
mod common;
use common::fake::{answer, numbers, panel, request, Numbers};
use common::program::{ended, folder, transfer};
use common::words;
use std::fs::{self, File, Permissions};
use std::io::Write;
use std::os::unix::fs::PermissionsExt;
use std::os::unix::net::UnixListener;
use std::path::{Path, PathBuf};
use std::process::{Command, Stdio};
use std::thread;
use std::time::{Duration, SystemTime};

const V2: &str = "stat_v2,sendrecv_v2";
const TIME: i64 = 892_000_000;
const JOB: &[u8] = b"SPH -2.25";

/// A folder with a source of these bytes and TIME, and a socket's place.
fn places(name: &str, bytes: &[u8]) -> (PathBuf, PathBuf) {
    let root = folder(name);
    let source = root.join("in.job");
    fs::write(&source, bytes).unwrap();
    set_time(&source, TIME);
    (source, root.join("socket"))
}

fn set_time(file: &Path, seconds: i64) {
    let away = Duration::from_secs(seconds.unsigned_abs());
    let epoch = SystemTime::UNIX_EPOCH;
    let time = if seconds < 0 { epoch - away } else { epoch + away };
    File::options().write(true).open(file).unwrap().set_modified(time).unwrap();
}

fn push(socket: &Path, features: &str, words: &[&str]) -> Command {
    let start = ["--unix", socket.to_str().unwrap(), "--features", features, "push"];
    transfer(&[&start, words].concat())
}

/// What becomes of a push of 4 MiB whose source is altered when the first DATA has come.
fn altered(name: &str, features: &str, alter: impl FnOnce(&Path)) {
    let (source, socket) = places(name, &vec![b'x'; 1 << 22]);
    let listener = UnixListener::bind(&socket).unwrap();
    let child = push(&socket, features, &[source.to_str().unwrap(), "/job"]).spawn().unwrap();
    let mut stream = listener.accept().unwrap().0;
    request(&mut stream).unwrap();
    assert_eq!(request(&mut stream).unwrap().0, "DATA");
    alter(&source);
    let heard = thread::spawn(move || answer(&mut stream, vec![], b""));
    let (status, said, error) = ended(child.wait_with_output().unwrap());
    assert_eq!((status, said.as_str()), (65, ""), "{name}: {error}");
    assert!(error.contains("in.job: it changed meanwhile: 4194304 bytes when it was opened"), "{error}");
    assert!(error.contains("to /job, after ") && error.contains(" of 4194304 bytes"), "{error}");
    assert!(heard.join().unwrap().is_empty(), "{name}: neither DONE nor QUIT");
}

#[test]
fn a_source_that_changes_is_never_done() {
    for features in ["", V2] {
        altered("shrunk", features, |file| File::options().write(true).open(file).unwrap().set_len(1 << 20).unwrap());
        altered("emptied", features, |file| fs::write(file, "").unwrap());
        altered("grown", features, |file| {
            File::options().append(true).open(file).unwrap().write_all(b"more").unwrap();
        });
        altered("rewritten", features, |file| fs::write(file, vec![b'y'; 1 << 22]).unwrap());
    }
}

/// The numbers that a panel says after a push of JOB: the exit status, and what is said.
fn afterwards(features: &str, stat: Vec<u8>) -> (i32, String) {
    let (source, socket) = places("afterwards", JOB);
    let heard = panel(&socket, vec![stat], vec![]);
    let (status, _, error) = ended(push(&socket, features, &[source.to_str().unwrap(), "/job"]).output().unwrap());
    let heard = heard.join().unwrap();
    assert_eq!(heard.len(), 4, "a push, its DONE, a stat and QUIT: {heard:?}");
    (status, error)
}

#[test]
fn the_panels_numbers_afterwards() {
    let right = Numbers { mtime: TIME, ..numbers(JOB.len()) };
    assert_eq!(afterwards(V2, right.v2()).0, 0);
    assert_eq!(afterwards("", right.v1()).0, 0);
    let other = Numbers { mode: 0o100_666, ino: 5, ..right };
    assert_eq!(afterwards(V2, other.v2()).0, 0, "the panel's own mode is its own");
    for wrong in [
        Numbers { size: 8, ..right },
        Numbers { mtime: TIME + 1, ..right },
        Numbers { mode: 0o120_777, ..right },
        Numbers { mode: 0o020_666, ..right },
    ] {
        for (features, stat) in [(V2, wrong.v2()), ("", wrong.v1())] {
            let (status, error) = afterwards(features, stat);
            assert_eq!(status, 65, "{error}");
            assert!(error.contains("/job: 9 bytes of mtime 892000000 were sent, and the panel says"), "{error}");
        }
    }
    assert_eq!(afterwards("", words(b"STAT", &[0, 0, 0])).0, 67);
}

#[test]
fn bits_and_modes() {
    for (bits, given, sent) in [(0o640, None, 0o100_640), (0o755, None, 0o100_755), (0o640, Some("604"), 0o100_604)] {
        let (source, socket) = places("bits of a push", JOB);
        fs::set_permissions(&source, Permissions::from_mode(bits)).unwrap();
        let heard = panel(&socket, vec![Numbers { mtime: TIME, ..numbers(JOB.len()) }.v1()], vec![]);
        let words: Vec<&str> = [source.to_str().unwrap(), "/job"].into_iter().chain(given).collect();
        assert_eq!(ended(push(&socket, "", &words).output().unwrap()).0, 0);
        assert_eq!(heard.join().unwrap()[0], format!("SEND /job,{sent}"));
    }
}

#[test]
fn times_outside_32_bits() {
    for time in [-1, 1 << 32, -892_000_000] {
        let (source, socket) = places("time of a push", JOB);
        set_time(&source, time);
        let heard = panel(&socket, vec![], vec![]);
        let (status, _, error) = ended(push(&socket, V2, &[source.to_str().unwrap(), "/job"]).output().unwrap());
        assert_eq!(status, 65, "{error}");
        assert!(error.contains(&format!("its mtime {time} is outside the 32 bits")), "{error}");
        assert_eq!(heard.join().unwrap(), ["QUIT "]);
    }
    let (source, socket) = places("latest time of a push", JOB);
    set_time(&source, (1 << 32) - 1);
    let heard = panel(&socket, vec![Numbers { mtime: (1 << 32) - 1, ..numbers(9) }.v2()], vec![]);
    assert_eq!(ended(push(&socket, V2, &[source.to_str().unwrap(), "/job"]).output().unwrap()).0, 0);
    heard.join().unwrap();
}

#[test]
fn from_standard_input() {
    let served = folder("stdin");
    let panel = ["--exec", common::program::PANEL, "--folder", served.to_str().unwrap(), "--"];
    let mut child = transfer(&[&panel[..], &["push", "-", "/new.job"]].concat()).stdin(Stdio::piped()).spawn().unwrap();
    child.stdin.take().unwrap().write_all(JOB).unwrap();
    let (status, said, error) = ended(child.wait_with_output().unwrap());
    assert_eq!((status, said.as_str(), error.as_str()), (0, "", "-: 9 bytes pushed to /new.job\n"));
    assert_eq!(fs::read(served.join("new.job")).unwrap(), JOB);
    let bits = fs::metadata(served.join("new.job")).unwrap().permissions().mode();
    assert_eq!(bits & 0o777, 0o644);
}
