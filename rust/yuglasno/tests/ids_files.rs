//! Ids files: which are taken, which are refused with 22 or 23, what a person is told, and that a refused one changes nothing.
mod common;
use common::letters::*;
use common::program::*;
use std::fs;
use std::process::Command;
use yuglasno::{raw, Session, Settings, IDS_MOST, PUBLISHED_IDS};

/// The file of small letters with a part of it put for another.
fn with(old: &str, new: &str) -> Vec<u8> {
    let text = String::from_utf8(file_of(&small())).unwrap();
    assert_eq!(text.matches(old).count(), 1);
    text.replace(old, new).into_bytes()
}

/// Loads a file that is refused into settings of small letters, which stay byte for byte: what is said.
fn refused(file: &[u8]) -> String {
    let mut settings = loaded(&small());
    let before = settings;
    let error = settings.load_ids(file).unwrap_err();
    assert_eq!(settings.as_bytes(), before.as_bytes(), "{error}");
    error.to_string()
}

#[test]
fn what_a_person_is_told() {
    let (small, published) = (file_of(&small()), file_of(&PUBLISHED_IDS));
    let cases: [(Vec<u8>, &str); 20] = [
        (small[..149].to_vec(), "22: not a table of ids: line 2 does not end with byte 10"),
        (
            with("quit", "stat"),
            "23: two ids of the table are equal: value 15 (for QUIT) \"stat\" equals value 1 (for STAT)",
        ),
        (with("dnt2,quit", "dn 2,stat"), "22: not a table of ids: value 14 (for DNT2) \"dn 2\" has byte 32"),
        (with("dent", "den"), "22: not a table of ids: value 13 (for DENT) \"den\" has 3 bytes, not 4"),
        (with("dent", "dents"), "22: not a table of ids: value 13 (for DENT) \"dents\" has 5 bytes, not 4"),
        (with("dent", "d,nt"), "22: not a table of ids: line 2 has 16 values, not 15"),
        (with("dent", "de\x7Ft"), "22: not a table of ids: value 13 (for DENT) \"de\\u{7f}t\" has byte 127"),
        (with(",quit", ""), "22: not a table of ids: line 2 has 14 values, not 15"),
        (with("quit\n", "quit\r\n"), "22: not a table of ids: value 15 (for QUIT) \"quit\\r\" has 5 bytes, not 4"),
        (with("quit\n", "quit\n\n"), "22: not a table of ids: line 2 is not the last: byte 10 follows it"),
        (
            with("QUIT\n", "QUIT\r\n"),
            "22: not a table of ids: line 1 is not the published ids: its byte 75 is 13, not 10",
        ),
        (with("STAT", "stat"), "22: not a table of ids: line 1 is not the published ids: its byte 1 is 115, not 83"),
        (
            with("STAT,STA2", "STA2,STAT"),
            "22: not a table of ids: line 1 is not the published ids: its byte 4 is 50, not 84",
        ),
        (published[..75].to_vec(), "22: not a table of ids: there is no line 2"),
        (published[..76].to_vec(), "22: not a table of ids: line 2 does not end with byte 10"),
        (
            [&small[..], &[b'S'; IDS_MOST - 150]].concat(),
            "22: not a table of ids: line 2 is not the last: byte 83 follows it",
        ),
        ([&small[..], &[b'S'; IDS_MOST - 149]].concat(), "22: not a table of ids: it has over 4096 bytes"),
        (vec![b'x'; IDS_MOST + 1], "22: not a table of ids: it has over 4096 bytes"),
        (published[..70].to_vec(), "22: not a table of ids: it has 70 bytes, and line 1 alone has 75"),
        (vec![], "22: not a table of ids: it has 0 bytes, and line 1 alone has 75"),
    ];
    for (file, told) in cases {
        assert_eq!(refused(&file), told);
    }
}

/// Each byte of a file counts: any other in its place, one less, one more.
#[test]
fn every_byte() {
    let whole = file_of(&small());
    for at in 0..150 {
        let fewer = [&whole[..at], &whole[at + 1..]].concat();
        let more = [&whole[..at], b"x", &whole[at..]].concat();
        assert!(refused(&fewer).starts_with("22: ") && refused(&more).starts_with("22: "), "byte {at}");
        assert!(refused(&whole[..at]).starts_with("22: "), "{at} bytes");
        for byte in (0..=255).filter(|byte| *byte != whole[at]) {
            let mut other = whole.clone();
            other[at] = byte;
            let taken = at > 74 && (at - 75) % 5 != 4 && (33..=126).contains(&byte) && byte != b',';
            let mut settings = Settings::published();
            match settings.load_ids(&other) {
                // one byte makes "list" of "lis2"
                Err(error) if taken => {
                    assert_eq!((error.number(), different(&other)), (23, 14), "byte {at} as {byte}")
                }
                Err(error) => assert_eq!(error.number(), 22, "byte {at} as {byte}"),
                Ok(()) => assert!(taken && settings.ids().concat() == values(&other), "byte {at} as {byte}"),
            }
        }
    }
}

/// The values of a file's line 2, joined.
fn values(file: &[u8]) -> Vec<u8> {
    file[75..].iter().copied().filter(|byte| !b",\n".contains(byte)).collect()
}

/// How many different values a file has.
fn different(file: &[u8]) -> usize {
    let all = values(file);
    all.chunks(4).collect::<std::collections::BTreeSet<_>>().len()
}

/// Any two values that are equal are 23, whatever stands between them.
#[test]
fn any_two_equal() {
    for one in 0..15 {
        for other in 0..one {
            for mut ids in tables() {
                ids[one] = ids[other];
                assert!(refused(&file_of(&ids)).starts_with("23: "), "{one} and {other}");
            }
        }
    }
}

/// What a session is opened with is looked at too: behind 1, 2 and 3, form before equality; and the lengths of settings.
#[test]
fn opening_with_a_bad_table() {
    let good = *loaded(&small()).as_bytes();
    let (mut bad, mut equal) = (good, good);
    bad[3] = b' ';
    equal[56..60].copy_from_slice(b"stat");
    let mut both = equal;
    both[20] = b',';
    let open = |settings: &[u8], record: usize, rx, msg| {
        let mut rec = vec![0xEE; record];
        let number = raw::open(&mut rec, settings, b"", rx, msg);
        assert!(number == 0 || rec.iter().all(|byte| *byte == 0xEE), "{number} wrote to the record");
        number
    };
    for (settings, number) in [(good, 0), (bad, 22), (equal, 23), (both, 22)] {
        assert_eq!(open(&settings, raw::RECORD, 8, 8), number);
        assert_eq!(open(&settings, raw::RECORD, 7, 6), 1);
        assert_eq!(open(&settings, raw::RECORD, 9, 8), 2);
        assert_eq!(open(&settings, raw::RECORD - 1, 8, 8), 3);
        assert_eq!(open(&settings[..127], raw::RECORD, 8, 8), 3);
        let settings = Settings::from_bytes(settings);
        let told = Session::open_with(&settings, b"", [0; 8], [0; 8]).err().map_or(0, |error| error.number());
        assert_eq!(told, number);
    }
    let error = Session::open_with(&Settings::from_bytes(equal), b"", [0; 8], [0; 8]).unwrap_err();
    assert!(error.to_string().ends_with("value 15 (for QUIT) \"stat\" equals value 1 (for STAT)"), "{error}");
}

#[test]
fn settings_of_another_length() {
    let file = file_of(&small());
    for length in [0, 60, 127, 129, 192, 256] {
        let mut settings = vec![0xEE; length];
        assert_eq!(
            (raw::settings(&mut settings), raw::ids(&mut settings, &file), raw::ids(&mut settings, b"")),
            (3, 3, 3)
        );
        assert!(settings.iter().all(|byte| *byte == 0xEE));
    }
    let mut settings = [0xEE; raw::SETTINGS];
    assert_eq!(raw::ids(&mut settings, &file), 0, "what stood there before is not looked at");
    assert_eq!((&settings[..60], &settings[60..]), (&small().concat()[..], &[0xEE; 68][..]));
}

/// A reader that never ends, and counts.
struct Endless(usize);

impl std::io::Read for Endless {
    fn read(&mut self, window: &mut [u8]) -> std::io::Result<usize> {
        window.fill(b'S');
        self.0 += window.len();
        Ok(window.len())
    }
}

#[test]
fn a_file_without_an_end() {
    let mut file = Endless(0);
    let failure = Settings::published().read_ids(&mut file).unwrap_err();
    assert_eq!(failure.number(), Some(22));
    assert_eq!(failure.to_string(), "22: not a table of ids: it has over 4096 bytes");
    assert!(file.0 <= IDS_MOST + 1, "{} bytes were read", file.0);
}

#[test]
fn transfer_with_a_file() {
    let folder = folder("ids");
    let place = |name: &str, bytes: &[u8]| {
        fs::write(folder.join(name), bytes).unwrap();
        folder.join(name).to_str().unwrap().to_string()
    };
    let (small, rotated) = (place("small", &file_of(&small())), place("rotated", &file_of(&rotated())));
    let out = folder.join("out.job");
    let toric = yuglasno::panel::Panel::with_jobs().file("/jobs/1998-toric.job").unwrap();
    for ids in [&small, &rotated] {
        let wheres: [&[&str]; 2] = [&["--panel", "--cut", "3"], &["--exec", PANEL, "--ids", ids, "--"]];
        for place in wheres {
            let pull = ["--ids", ids, "pull", "/jobs/1998-toric.job", out.to_str().unwrap()];
            assert_eq!(told(&[place, &pull].concat()).0, 0);
            assert!(fs::read(&out).unwrap() == toric);
            fs::remove_file(&out).unwrap();
            assert_eq!(told(&[place, &["--ids", ids, "push", "Cargo.toml", "/a"]].concat()).0, 0);
            assert_eq!(told(&[place, &["ls", "/jobs", "--ids", ids]].concat()).1.lines().count(), 7);
        }
        let (status, _, error) = told(&["--exec", PANEL, "--ids", ids, "--", "stat", "/jobs"]);
        assert!(status == 15 || status == 12, "without --ids: {error}");
    }
    let answer = folder.join("answer");
    fs::write(&answer, b"dent\0\0\0\0").unwrap();
    let stat = ["--exec", "sh", "-c", "head -c 9 >/dev/null; cat \"$0\"", answer.to_str().unwrap(), "--", "stat", "/"];
    let other = format!("; ids file {small} may not be this panel's table\n");
    let hints: [(&[&str], &str); 2] =
        [(&[], "; a panel with ids of its own wants --ids FILE\n"), (&["--ids", &small], &other)];
    for (ids, hint) in hints {
        let (status, _, error) = told(&[&stat, ids].concat());
        assert!(status == 15 && error.ends_with(hint), "{status}: {error}");
        assert_eq!(error.matches("--ids FILE").count(), usize::from(ids.is_empty()));
    }
}

/// A file that is refused, or not there: the number, the reason, and nothing done: no program started, no file made.
#[test]
fn transfer_with_a_bad_file() {
    let folder = folder("bad-ids");
    let (file, out, mark) = (folder.join("bad"), folder.join("out"), folder.join("mark"));
    let [file, out, mark] = [&file, &out, &mark].map(|path| path.to_str().unwrap());
    let cases: [(&[u8], i32, &str); 3] = [
        (&with("dnt2", "dn 2"), 22, "22: not a table of ids: value 14 (for DNT2) \"dn 2\" has byte 32 (ids file "),
        (
            &with("quit", "stat"),
            23,
            "23: two ids of the table are equal: value 15 (for QUIT) \"stat\" equals value 1 (for STAT) (ids file ",
        ),
        (&[b'S'; 100_000], 22, "22: not a table of ids: it has over 4096 bytes (ids file "),
    ];
    for (bytes, number, why) in cases {
        fs::write(file, bytes).unwrap();
        let commands: [&[&str]; 4] =
            [&["pull", "/jobs/empty.job", out], &["archive", "/jobs", out], &["verify", out], &["stat", "/"]];
        for command in commands {
            let (status, said, error) = told(&[&["--exec", "touch", mark, "--", "--ids", file], command].concat());
            assert_eq!((status, said.as_str(), error), (number, "", format!("transfer: {why}{file})\n")));
        }
        let (status, _, error) = ended(Command::new(PANEL).args(["--ids", file]).output().unwrap());
        assert!(status == number && error.starts_with(&format!("panel: {number}: ")), "{error}");
    }
    fs::remove_file(file).unwrap();
    for missing in [file, "-"] {
        let (status, _, error) = told(&["--exec", "touch", mark, "--", "--ids", missing, "stat", "/"]);
        assert!(status == 66 && error.starts_with(&format!("transfer: 66: ids file {missing}: ")), "{error}");
    }
    assert!(Command::new("mkfifo").arg(file).status().unwrap().success());
    for odd in [file, folder.to_str().unwrap(), "/dev/null"] {
        let (status, _, error) = told(&["--exec", "touch", mark, "--", "--ids", odd, "stat", "/"]);
        assert_eq!((status, error), (66, format!("transfer: 66: ids file {odd}: it is no regular file\n")));
    }
    fs::remove_file(file).unwrap();
    assert_eq!(told(&["--panel", "ls", "/", "--ids"]).0, 64);
    assert_eq!(names(&folder), [""; 0]);
}
