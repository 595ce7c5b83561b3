//! Whole transfers through the test panel, in memory and over sockets, at every cut.
mod common;
use common::{cuts, with, words, End, Script};
use std::io::{Read, Write};
use std::os::unix::net::UnixStream;
use std::thread;
use yuglasno::panel::Panel;
use yuglasno::{Details, FileMode, Moment, Session, CAPACITY, PATH_MOST};

const MODE: FileMode = FileMode(0o100_644);
const BANNERS: [&[u8]; 2] = [b"", Panel::BANNER];
const TORIC: &str = "/jobs/1998-toric.job";

/// Bytes that differ from place to place.
fn heights(length: usize) -> Vec<u8> {
    (0..length).map(|i| (i * i / 7 + i / 256) as u8).collect()
}

fn session(banner: &[u8], capacity: usize) -> Session<Vec<u8>> {
    Session::open(banner, vec![0; capacity], vec![0; capacity]).unwrap()
}

#[test]
fn pulls_at_every_cut() {
    for banner in BANNERS {
        for cut in cuts() {
            let mut panel = Panel::with_jobs().cut(cut);
            let mut session = session(banner, CAPACITY);
            for path in [TORIC, "/jobs/empty.job", "/jobs/sphere.job"] {
                let mut file = Vec::new();
                let bytes = session.pull(&mut panel, path, &mut file).unwrap();
                assert_eq!(bytes, file.len() as u64);
                assert!(file == panel.file(path).unwrap(), "{path} at cut {cut}");
            }
            session.quit(&mut panel).unwrap();
        }
    }
}

#[test]
fn pushes_of_every_length() {
    let lengths = (0..40).chain([65_535, 65_536, 65_537, 131_072, 200_000]);
    for banner in BANNERS {
        for capacity in [8, 40, CAPACITY] {
            let mut panel = Panel::with_jobs().cut(3);
            let mut session = session(banner, capacity);
            for length in lengths.clone() {
                let file = heights(length);
                let path = format!("/jobs/of {length}, bytes");
                let bytes = session.push(&mut panel, &path, MODE, 5, Moment::FIRST, &mut &file[..]).unwrap();
                assert_eq!(bytes, length as u64);
                assert!(panel.file(&path).unwrap() == file, "{length} bytes at capacity {capacity}");
            }
        }
    }
}

#[test]
fn listings_at_every_cut() {
    for (banner, least) in [(BANNERS[0], 20), (BANNERS[1], 76)] {
        for cut in cuts() {
            let mut panel = Panel::with_jobs().cut(cut);
            for i in 0..30 {
                panel.put(&format!("/many/job {i:02}"), MODE, i, &heights(i as usize)).unwrap();
            }
            let mut session = session(banner, least);
            let mut next = 0;
            let mut dots = 0;
            let entries = session.entries(&mut panel, "/many/", |name, details| {
                if name == b"." || name == b".." {
                    dots += 1;
                    return assert!(details.mode().is_folder());
                }
                assert_eq!(name, format!("job {next:02}").as_bytes());
                assert_eq!((details.size(), details.mtime(), details.mode()), (next, next as i64, MODE));
                assert_eq!(matches!(details, Details::V2(_)), !banner.is_empty());
                next += 1;
            });
            assert_eq!((entries.unwrap(), next, dots), (32, 30, 2));
            assert_eq!(session.entries(&mut panel, "/none", |_, _| panic!()).unwrap(), 0);
            assert_eq!(session.details(&mut panel, "/many").unwrap().mode().to_string(), "40771");
        }
    }
}

#[test]
fn over_a_socket_at_every_cut() {
    for banner in BANNERS {
        for cut in cuts() {
            let (mut near, far) = UnixStream::pair().unwrap();
            let served = thread::spawn(move || {
                let mut panel = Panel::with_jobs().cut(cut);
                panel.serve(&mut &far, &mut &far).unwrap();
                (panel.file("/jobs/sphere.job"), panel.file("/new"))
            });
            let mut session = session(banner, CAPACITY);
            let mut file = Vec::new();
            session.pull(&mut near, "/jobs/sphere.job", &mut file).unwrap();
            session.push(&mut near, "/new", MODE, 5, Moment::FIRST, &mut &heights(70_000)[..]).unwrap();
            assert_eq!(session.details(&mut near, "/new").unwrap().size(), 70_000);
            session.quit(&mut near).unwrap();
            let (sphere, new) = served.join().unwrap();
            assert!(sphere == Some(file) && new == Some(heights(70_000)), "cut {cut}");
        }
    }
}

#[test]
fn the_panels_failures() {
    for banner in BANNERS {
        for cut in cuts() {
            let mut panel = Panel::with_jobs().cut(cut);
            let mut one = session(banner, CAPACITY);
            let failure = one.push(&mut panel, "/jobs", MODE, 5, Moment::FIRST, &mut &heights(70_000)[..]).unwrap_err();
            assert_eq!(failure.to_string(), "14: the panel failed: couldn't create file: Is a directory");
            assert_eq!(one.details(&mut panel, "/jobs").unwrap_err().number(), 12, "a FAIL ends the service");
            one.quit(&mut panel).unwrap();

            let mut panel = Panel::with_jobs().cut(cut);
            let mut two = session(banner, 100);
            let failure = two.pull(&mut panel, TORIC, &mut Vec::new()).unwrap_err();
            assert_eq!(failure.number(), Some(17), "DATA of 65,536 bytes in a buffer of 100");
        }
    }
}

/// What a panel takes of a path: 1,024 bytes, in our host's SEND with a comma and up to ten digits behind them.
#[test]
fn the_longest_path() {
    let path = format!("/jobs/{}", "p".repeat(PATH_MOST - 6));
    for banner in BANNERS {
        let mut panel = Panel::with_jobs().cut(7);
        let mut session = session(banner, 100);
        for mode in [MODE, FileMode(u32::MAX)] {
            session.push(&mut panel, &path, mode, 5, Moment::FIRST, &mut &b"heights"[..]).unwrap();
            let mut pulled = Vec::new();
            session.pull(&mut panel, &path, &mut pulled).unwrap();
            assert_eq!((pulled, session.details(&mut panel, &path).unwrap().mode()), (b"heights".to_vec(), mode));
        }
        let failure = session.push(&mut panel, format!("{path}p"), MODE, 5, Moment::FIRST, &mut &b"x"[..]).unwrap_err();
        assert_eq!(failure.to_string(), "7: the path is over 1,024 bytes");
        assert!(session.details(&mut panel, &path).is_ok(), "the session goes on");
    }
}

/// The panel by itself: headers about its limits, and SENDs within theirs whose path is too long.
#[test]
fn the_panels_limits() {
    let text = |length: usize, mode: &str| with(b"SEND", &[&vec![b'p'; length][..], mode.as_bytes()].concat());
    let header = |id: &[u8; 4], arg: u32| words(id, &[arg]);
    let too_long = [(1025, ",33188"), (1033, ",0"), (1025, ",03777777777"), (1026, ",4294967295"), (1035, ",0")];
    let too_long = too_long.map(|(length, mode)| text(length, mode));
    let cut_off = too_long.iter().map(|request| request[..request.len() - 1].to_vec());
    let taken = [header(b"STAT", 1024), header(b"SND2", 1024), header(b"SEND", 1037), header(b"DATA", 65_536)];
    for request in taken.into_iter().chain(cut_off) {
        let mut panel = Panel::with_jobs();
        panel.write_all(&request).unwrap();
        assert_eq!(panel.read(&mut [0; 100]).unwrap(), 0, "more is awaited behind {:?}", &request[..8]);
    }
    let headers = [(b"STAT", 1025), (b"RCV2", 1025), (b"SND2", 1025), (b"SEND", 1038), (b"DATA", 65_537)];
    let headers = headers.into_iter().map(|(id, arg)| header(id, arg));
    for request in headers.chain(too_long) {
        let mut panel = Panel::with_jobs();
        panel.write_all(&request).unwrap();
        let mut told = Vec::new();
        panel.read_to_end(&mut told).unwrap();
        assert_eq!(told, with(b"FAIL", b"bad request"), "{:?}", &request[..8]);
    }
}

#[test]
fn a_missing_file() {
    let mut panel = Panel::with_jobs();
    let stat = session(b"", 100).stat(&mut panel, "/none").unwrap();
    assert_eq!((stat.mode.0, stat.size, stat.mtime), (0, 0, 0));
    let mut with_v2 = session(Panel::BANNER, 100);
    assert_eq!(
        with_v2.details(&mut panel, "/none").unwrap_err().to_string(),
        "16: the panel reports errno 2: no such file or folder"
    );
}

#[test]
fn a_file_on_this_side_that_fails() {
    struct Full;
    impl std::io::Write for Full {
        fn write(&mut self, _: &[u8]) -> std::io::Result<usize> {
            Err(std::io::ErrorKind::StorageFull.into())
        }
        fn flush(&mut self) -> std::io::Result<()> {
            Ok(())
        }
    }
    let mut one = session(b"", CAPACITY);
    let failure = one.pull(&mut Panel::with_jobs(), TORIC, &mut Full).unwrap_err();
    assert_eq!((failure.number(), failure.to_string().as_str()), (None, "no storage space"));

    struct Unreadable;
    impl std::io::Read for Unreadable {
        fn read(&mut self, _: &mut [u8]) -> std::io::Result<usize> {
            Err(std::io::ErrorKind::InvalidData.into())
        }
    }
    let mut link = Script::new(b"", 1, End::Closed);
    let failure =
        session(b"", 100).push(&mut link, "/a", MODE, 5, Moment::FIRST, &mut Unreadable).unwrap_err().number();
    assert_eq!(failure, None);
    assert_eq!(link.written(), b"SEND\x08\0\0\0/a,33188", "no DONE: the panel has no whole file");
}

#[test]
fn a_folder_as_a_panel() {
    let root = std::path::Path::new(env!("CARGO_TARGET_TMPDIR")).join("folder");
    let _ = std::fs::remove_dir_all(&root);
    std::fs::create_dir_all(&root).unwrap();
    let mut panel = Panel::with_folder(&root).cut(5);
    let mut session = session(Panel::BANNER, CAPACITY);
    session.push(&mut panel, "/a/b.job", FileMode(0o100_600), 1998, Moment::FIRST, &mut &heights(70_000)[..]).unwrap();
    assert!(std::fs::read(root.join("a/b.job")).unwrap() == heights(70_000));
    let stat = session.stat_v2(&mut panel, "/a/b.job").unwrap();
    assert_eq!((stat.mode.0, stat.size, stat.mtime), (0o100_600, 70_000, 1998));
    let mut names = Vec::new();
    session.entries(&mut panel, "/a", |name, _| names.push(name.to_vec())).unwrap();
    assert_eq!(names, [&b"."[..], b"..", b"b.job"]);
    let failure = session.push(&mut panel, "/../out", MODE, 5, Moment::FIRST, &mut &b"x"[..]).unwrap_err();
    assert_eq!(failure.to_string(), "14: the panel failed: couldn't create file: Permission denied");
}

/// What README's program does, of a job that may be missing: the session is dropped before the error is looked at.
fn pulled(path: &str) -> Result<u64, Box<dyn std::error::Error + Send + Sync>> {
    let mut one = session(Panel::BANNER, CAPACITY);
    Ok(one.pull(&mut Panel::with_jobs(), path, &mut Vec::new())?)
}

#[test]
fn an_error_outlives_its_session() {
    assert_eq!(pulled("/jobs/empty.job").unwrap(), 0);
    let failure = pulled("/jobs/none.job").unwrap_err();
    assert_eq!(failure.to_string(), "14: the panel failed: open failed: No such file or directory");
}
