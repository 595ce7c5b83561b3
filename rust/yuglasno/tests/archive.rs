//! `transfer archive`: what it brings, lists, leaves out and leaves alone, and that it goes on where it was.
mod common;
use common::archives::{archive, counts, places, put, summed, text, whole, V2};
use common::fake::{numbers, Numbers};
use common::program::{ended, names, told, transfer, PANEL};
use common::shelf::{Pull, Shelf, FOLDER};
use common::{listing_end, with};
use std::ffi::OsStr;
use std::fs;
use std::os::fd::OwnedFd;
use std::os::unix::ffi::OsStrExt;
use std::os::unix::fs::{symlink, MetadataExt};
use std::os::unix::net::UnixStream;
use std::path::{Path, PathBuf};
use std::process::{Command, Stdio};
use std::thread;
use std::time::Duration;
use yuglasno::PATH_MOST;

const LISTS: [&str; 2] = ["DETAILS", "SHA256SUMS"];

/// An archive of /f on a shelf.
fn shelved(name: &str, shelf: Shelf, features: &str) -> (PathBuf, (i32, String, String)) {
    let (_, dir) = places(name);
    let socket = dir.with_file_name("socket");
    shelf.served(&socket, usize::MAX);
    let said = told(&["--unix", text(&socket), "--features", features, "archive", "/f", text(&dir), "--recursive"]);
    (dir, said)
}

#[test]
fn a_folder_once_and_again() {
    let (_, dir) = places("again");
    for (features, pulled, held) in [(V2, 5, 0), (V2, 0, 5), ("", 0, 5)] {
        let (status, said, error) = told(&["--panel", "--features", features, "archive", "/jobs", text(&dir)]);
        assert_eq!((status, said, error.as_str()), (0, counts(&dir, pulled, held, 0), ""));
        whole(&dir, 5);
    }
    assert!(!dir.join(".transfer-unfinished").exists());
    let toric = fs::metadata(dir.join("1998-toric.job")).unwrap();
    assert_eq!((toric.mode(), toric.size(), toric.mtime()), (0o100_660, 160_019, 892_000_000));
    let details = fs::read(dir.join("DETAILS")).unwrap();
    assert!(String::from_utf8_lossy(&details).contains("\n160019 892000000 100660  1998-toric.job\n"));
}

#[test]
fn jobs_that_changed_are_brought_again() {
    let (served, dir) = places("changed");
    for name in ["a", "b", "c"] {
        put(&served, name, 1_000_000_000, "as it was");
    }
    assert_eq!(archive(&served, &dir, &[]).1, counts(&dir, 3, 0, 0));
    put(&served, "a", 1_000_000_001, "as it was");
    put(&served, "b", 1_000_000_000, "longer than it was");
    assert_eq!(archive(&served, &dir, &[]).1, counts(&dir, 2, 1, 0));
    whole(&dir, 3);
    assert_eq!(fs::read(dir.join("b")).unwrap(), b"longer than it was");
    fs::remove_file(served.join("c")).unwrap();
    fs::write(dir.join("a"), "of somebody else").unwrap();
    fs::remove_file(dir.join("b")).unwrap();
    assert_eq!(archive(&served, &dir, &[]), (0, counts(&dir, 2, 0, 0), String::new()));
    whole(&dir, 3);
    assert_eq!(fs::read(dir.join("c")).unwrap(), b"as it was", "what the panel no longer has stays");
}

#[test]
fn names_of_any_bytes() {
    let (served, dir) = places("bytes");
    let jobs: [&[u8]; 10] =
        [b"-", b"--", b" a", b"*a", b"#a", b"a\nb", b"a\\nb", b"a\rb\r", b"\xff\xfe", "глянец\t".as_bytes()];
    for (i, name) in jobs.into_iter().enumerate() {
        put(&served, OsStr::from_bytes(name), 1_000_000_000, format!("job {i}"));
    }
    let (status, said, _) = archive(&served, &dir, &[]);
    assert_eq!((status, said), (0, counts(&dir, 10, 0, 0)));
    whole(&dir, 10);
    for (i, name) in jobs.into_iter().enumerate() {
        assert_eq!(fs::read(dir.join(OsStr::from_bytes(name))).unwrap(), format!("job {i}").as_bytes());
    }
    assert_eq!(archive(&served, &dir, &[]).1, counts(&dir, 0, 10, 0));
}

#[test]
fn names_that_are_refused() {
    let (long, longer) = ([b'n'; 256], [b'n'; 5000]);
    let bad: [&[u8]; 11] =
        [b"", b".", b"..", b"a/b", b"../b", b"/b", b"a\0b", b"SHA256SUMS", b".transfer-unfinished", &long, &longer];
    let mut shelf = Shelf::default().job("/f", b"good", b"good");
    for name in [b".", &b".."[..]] {
        shelf = shelf.put("/f", name, FOLDER, &[Some(FOLDER)], Pull::Fail("a folder"));
    }
    for name in bad {
        shelf = shelf.job("/f", name, b"bad");
    }
    let (dir, (status, said, error)) = shelved("refused", shelf.job("/f", b"hood", b"good"), V2);
    assert_eq!((status, said), (79, counts(&dir, 2, 0, bad.len())), "{error}");
    assert_eq!(error.lines().filter(|line| line.starts_with("transfer: left out: ")).count(), bad.len(), "{error}");
    for named in ["a/b: a name with a slash", "a\\0b: a name with a NUL", "SHA256SUMS: the name is the archive's own"] {
        assert!(error.contains(named), "{error}");
    }
    assert_eq!(names(&dir), ["DETAILS", "SHA256SUMS", "good", "hood"]);
    assert_eq!(names(dir.parent().unwrap()), ["dir", "panel", "socket"]);
    whole(&dir, 2);
}

/// The NUL is what is mended first: what follows it was often never meant as a name.
#[test]
fn a_name_that_is_too_long_and_has_a_nul() {
    let name = [&b"m\0"[..], &[b'n'; 5000]].concat();
    let shelf = Shelf::default().job("/f", b"good", b"good").job("/f", &name, b"bad");
    let (dir, (status, said, error)) = shelved("long with a NUL", shelf, V2);
    assert_eq!((status, said), (79, counts(&dir, 1, 0, 1)), "{error}");
    assert!(error.contains("left out: m\\0n") && error.contains("n: a name with a NUL"), "{error}");
    whole(&dir, 1);
}

/// It may be a job: a run that does not bring it is not whole.
#[test]
fn an_entry_that_may_be_anything() {
    let nothing = Numbers { mode: 0, ..numbers(0) };
    let shelf = Shelf::default().job("/f", b"a", b"good").put("/f", b"b", nothing, &[Some(nothing)], Pull::Fail("no"));
    let (dir, (status, said, error)) = shelved("anything", shelf, "");
    assert_eq!((status, said), (79, counts(&dir, 1, 0, 1)), "{error}");
    assert!(error.contains("left out: b: the panel does not say what it is (mode 0)"), "{error}");
}

#[test]
fn names_that_are_listed_twice() {
    let shelf = Shelf::default().job("/f", b"a", b"good").job("/f", b"b", b"good").job("/f", b"a", b"goods");
    let shelf = shelf.put("/f", b"b", FOLDER, &[Some(FOLDER)], Pull::Fail("a folder")).job("/f/b", b"c", b"good");
    let (dir, (status, said, error)) = shelved("twice", shelf, V2);
    assert_eq!((status, said), (79, counts(&dir, 1, 0, 3)), "{error}");
    assert!(error.contains("left out: a: it is listed twice") && error.contains("left out: b: "), "{error}");
    assert_eq!(told(&["verify", text(&dir)]).0, 0);
}

#[test]
fn sub_folders() {
    let (served, dir) = places("deep");
    fs::create_dir_all(served.join("1998/may")).unwrap();
    fs::create_dir_all(served.join("1999/nothing")).unwrap();
    for name in ["top", "1998/a", "1998/may/a", "1998/may/SHA256SUMS"] {
        put(&served, name, 1_000_000_000, name);
    }
    symlink("top", served.join("link")).unwrap();
    symlink("1998", served.join("1999/folder")).unwrap();
    let (status, said, error) = archive(&served, &dir, &[]);
    assert_eq!((status, said.starts_with(&counts(&dir, 1, 0, 0))), (0, true), "{said}");
    assert!(said.contains("without 2 sub-folders"), "{said}");
    assert!(error.contains("skipped: link: no regular file (mode 120777)"), "{error}");
    let (status, said, error) = archive(&served, &dir, &["--recursive"]);
    assert_eq!((status, said), (0, counts(&dir, 3, 1, 0)), "{error}");
    assert!(error.contains("skipped: 1999/folder: "), "{error}");
    whole(&dir, 4);
    assert_eq!(fs::read(dir.join("1998/may/a")).unwrap(), b"1998/may/a");
    assert_eq!(archive(&served, &dir, &["--recursive"]).1, counts(&dir, 0, 4, 0));
}

#[test]
fn sub_folders_that_cant_be_had() {
    let shelf = Shelf::default().job("/f", b"a", b"good");
    let shelf = shelf.put("/f", b"closed", FOLDER, &[Some(FOLDER)], Pull::Fail("a folder"));
    let shelf = shelf.put("/f", b"gone", FOLDER, &[None], Pull::Fail("a folder"));
    let shelf = shelf.put("/f", b"sub", FOLDER, &[Some(FOLDER)], Pull::Fail("a folder")).job("/f/sub", b"b", b"good");
    let (dir, (status, said, error)) = shelved("closed folders", shelf, V2);
    assert_eq!((status, said), (79, counts(&dir, 2, 0, 2)), "{error}");
    assert!(error.contains("left out: closed: 67: ") && error.contains("left out: gone: 16: "), "{error}");
    whole(&dir, 2);
    let mut endless = Shelf::default();
    endless.endless = true;
    let (dir, (status, said, error)) = shelved("endless", endless, V2);
    assert_eq!((status, said), (79, counts(&dir, 0, 0, 1)));
    assert!(error.contains("/folder: 7: the path is over 1,024 bytes ("));
}

/// A panel ends the session over a path of more than 1,024 bytes: none is asked for, and one of 1,024 is.
#[test]
fn paths_over_the_limit() {
    let (served, dir) = places("long paths");
    let deep = vec!["d".repeat(250); 4].join("/");
    let (last, over) = ("n".repeat(PATH_MOST - deep.len() - 2), "n".repeat(PATH_MOST - deep.len() - 1));
    fs::create_dir_all(served.join(&deep).join("z".repeat(100))).unwrap();
    for name in ["a.job", &format!("{deep}/{last}"), &format!("{deep}/{over}"), &format!("{deep}/short"), "z.job"] {
        put(&served, name, 1_000_000_000, "good");
    }
    let (status, said, error) = archive(&served, &dir, &["--recursive"]);
    assert_eq!((status, said), (79, counts(&dir, 4, 0, 2)), "{error}");
    assert_eq!(error.matches(": 7: the path is over 1,024 bytes (").count(), 2, "{error}");
    assert!(dir.join(deep).join(last).is_file(), "{error}");
    whole(&dir, 4);
}

/// A FAIL ends the program that the panel is; it is started again.
#[test]
fn a_panel_that_is_started_again() {
    let (served, dir) = places("started again");
    for name in ["a", "b"] {
        put(&served, name, 1_000_000_000, "good");
    }
    let listed = |name: &[u8]| [b"DNT2", &numbers(4).v2()[4..], &1u32.to_le_bytes(), name].concat();
    let first = [listed(b"a"), listed(b"b"), listing_end(76), numbers(4).v2(), with(b"FAIL", b"no")].concat();
    fs::write(dir.with_file_name("first"), first).unwrap();
    let program = r#"cd "$0" && if mkdir was; then cat first; cat >/dev/null; else exec "$1" --folder panel; fi"#;
    let root = text(dir.parent().unwrap());
    let run = ["--exec", "sh", "-c", program, root, PANEL, "--", "--features", V2, "archive", "/", text(&dir)];
    let (status, said, error) = told(&run);
    assert_eq!((status, said), (79, counts(&dir, 1, 0, 1)), "{error}");
    assert!(error.contains("left out: a: 14: the panel failed: no"), "{error}");
    whole(&dir, 1);
}

#[test]
fn a_folder_that_is_not_there() {
    let (_, dir) = places("no folder");
    for (features, path, expected) in [(V2, "/none", 16), ("", "/none", 67), (V2, "/jobs/empty.job", 67)] {
        let (status, said, error) = told(&["--panel", "--features", features, "archive", path, text(&dir)]);
        assert_eq!((status, said.as_str()), (expected, ""), "{error}");
        assert!(error.contains(path) && !dir.exists(), "{error}");
    }
    assert_eq!(told(&["--panel", "archive", "/jobs", text(&dir.join("deeper"))]).0, 73);
    assert_eq!(told(&["--panel", "archive", "/jobs", "/dev/null"]).0, 73);
    assert_eq!(told(&["--panel", "archive", "/jobs"]).0, 64);
    assert_eq!(told(&["--panel", "ls", "/jobs", "--recursive"]).0, 64);
}

#[test]
fn nothing_is_written_through_a_link() {
    let (served, dir) = places("planted");
    fs::create_dir_all(served.join("sub")).unwrap();
    for name in ["a", "b", "sub/a"] {
        put(&served, name, 1_000_000_000, "of the panel");
    }
    let elsewhere = dir.with_file_name("elsewhere");
    fs::create_dir(&elsewhere).unwrap();
    fs::create_dir(&dir).unwrap();
    put(&elsewhere, "mine", 5, "mine");
    symlink(&elsewhere, dir.join("sub")).unwrap();
    symlink(elsewhere.join("mine"), dir.join("a")).unwrap();
    let (status, said, error) = archive(&served, &dir, &["--recursive"]);
    assert_eq!((status, said), (79, counts(&dir, 1, 0, 2)), "{error}");
    assert!(error.contains("left out: sub/a: sub is there and no folder"), "{error}");
    assert!(error.contains("left out: a: its name is taken in DIR"), "{error}");
    assert_eq!((names(&elsewhere), fs::read(elsewhere.join("mine")).unwrap()), (vec!["mine".into()], b"mine".into()));
    for place in [".transfer-unfinished", "SHA256SUMS", "DETAILS"] {
        let dir = dir.with_file_name("other");
        fs::create_dir_all(&dir).unwrap();
        symlink(&elsewhere, dir.join(place)).unwrap();
        let (status, _, error) = archive(&served, &dir, &[]);
        assert!(status == 66 || status == 73, "{place}: {error}");
        fs::remove_file(dir.join(place)).unwrap();
        assert_eq!(names(&elsewhere), ["mine"]);
    }
    let dir = dir.with_file_name("drafts");
    fs::create_dir_all(dir.join(".transfer-unfinished")).unwrap();
    for draft in ["SHA256SUMS", "DETAILS", "1"] {
        symlink(elsewhere.join("mine"), dir.join(".transfer-unfinished").join(draft)).unwrap();
    }
    assert_eq!(archive(&served, &dir, &["--recursive"]), (0, counts(&dir, 3, 0, 0), String::new()));
    assert_eq!(fs::read(elsewhere.join("mine")).unwrap(), b"mine");
    whole(&dir, 3);
}

/// What is no folder is not opened: a pipe would wait for its other end.
#[test]
fn a_dir_that_is_no_folder() {
    let (_, dir) = places("a pipe for a folder");
    assert!(Command::new("mkfifo").arg(&dir).status().unwrap().success());
    for (words, expected) in [(&["--panel", "archive", "/jobs", text(&dir)][..], 73), (&["verify", text(&dir)], 66)] {
        let (status, _, error) = told(words);
        assert!(status == expected && error.contains("dir: not a directory"), "{status}: {error}");
    }
}

#[test]
fn files_of_the_users_stay() {
    let (served, dir) = places("theirs");
    fs::create_dir_all(dir.join(".transfer-unfinished")).unwrap();
    for name in ["same", "other", "folder"] {
        put(&served, name, 1_000_000_000, "of the panel");
    }
    put(&dir, "same", 5, "of the panel");
    put(&dir, "other", 5, "of the user's");
    put(&dir, "notes", 5, "of the user's");
    put(&dir, ".transfer-unfinished/notes", 5, "of the user's");
    fs::create_dir(dir.join("folder")).unwrap();
    let (status, said, error) = archive(&served, &dir, &[]);
    assert_eq!((status, said), (79, counts(&dir, 1, 0, 2)), "{error}");
    for name in ["other", "notes", ".transfer-unfinished/notes"] {
        assert_eq!(fs::read(dir.join(name)).unwrap(), b"of the user's");
    }
    assert!(error.contains("left out: other: its name is taken in DIR, by another file"), "{error}");
    assert_eq!(fs::metadata(dir.join("same")).unwrap().mtime(), 1_000_000_000);
    summed(&dir);
    let sums = dir.with_file_name("sums");
    fs::create_dir(&sums).unwrap();
    put(&sums, "SHA256SUMS", 5, "of the user's");
    assert_eq!(archive(&served, &sums, &[]).0, 66, "a list that is none of an archive's");
    assert_eq!(names(&sums), ["SHA256SUMS"]);
    assert_eq!(fs::read(sums.join("SHA256SUMS")).unwrap(), b"of the user's");
}

#[test]
fn a_job_that_fails_is_left_out_and_the_others_go_on() {
    let was = numbers(4);
    let link = Numbers { mode: 0o120_777, ..was };
    let bad = |shelf: Shelf, name: &str, looks: &[Option<Numbers>], pull: Pull| {
        shelf.put("/f", name.as_bytes(), was, looks, pull).job("/f", format!("{name}-next").as_bytes(), b"good")
    };
    let job = || Pull::Data(b"good".to_vec());
    let mut shelf = Shelf::default();
    shelf = bad(shelf, "a-fails", &[Some(was)], Pull::Fail("open failed: Permission denied"));
    shelf = bad(shelf, "b-changes", &[Some(was), Some(Numbers { mtime: 5, ..was })], job());
    shelf = bad(shelf, "c-ends-early", &[Some(was)], Pull::Data(b"goo".to_vec()));
    shelf = bad(shelf, "d-gone", &[None], job());
    shelf = bad(shelf, "e-a-link", &[Some(link)], job());
    shelf = bad(shelf, "f-fails", &[Some(was)], Pull::Fail("read failed: I/O error"));
    let (dir, (status, said, error)) = shelved("fails", shelf.clone(), V2);
    assert_eq!((status, said), (79, counts(&dir, 6, 0, 6)), "{error}");
    let all =
        [("a-fails", 14), ("b-changes", 65), ("c-ends-early", 65), ("d-gone", 16), ("e-a-link", 65), ("f-fails", 14)];
    for (name, number) in all {
        assert!(error.contains(&format!("transfer: left out: {name}: {number}: ")), "{name}: {error}");
    }
    assert!(error.ends_with("6 files of the panel were left out\n"), "{error}");
    assert!(names(&dir).iter().all(|name| name.ends_with("-next") || LISTS.contains(&name.as_str())));
    whole(&dir, 6);
    let (dir, (status, _, error)) = shelved("fails in v1", shelf, "");
    assert_eq!(status, 79, "{error}");
    assert!(error.contains("transfer: left out: d-gone: 67: "), "{error}");
    whole(&dir, 6);
}

#[test]
fn a_session_that_cant_be_opened_anew() {
    let was = numbers(4);
    let fails = Shelf::default().job("/f", b"a", b"good").put("/f", b"b", was, &[Some(was)], Pull::Fail("no"));
    let mut shelf = fails.job("/f", b"c", b"good");
    let stopped = |dir: &Path, error: &str| {
        assert!(error.contains("left out: b: 14: ") && error.ends_with("(after 1 of 3 jobs)\n"), "{error}");
        whole(dir, 1);
    };
    let (_, dir) = places("closed");
    let socket = dir.with_file_name("socket");
    shelf.clone().served(&socket, 1);
    let (status, said, error) = told(&["--unix", text(&socket), "--features", V2, "archive", "/f", text(&dir)]);
    assert_eq!((status, said), (69, counts(&dir, 1, 0, 1)), "{error}");
    stopped(&dir, &error);

    let (_, dir) = places("archive on stdio");
    let (near, mut far) = UnixStream::pair().unwrap();
    let served = thread::spawn(move || shelf.serve(&mut far));
    let [input, output] = [near.try_clone().unwrap(), near].map(|end| Stdio::from(OwnedFd::from(end)));
    let mut run = transfer(&["--stdio", "--features", V2, "archive", "/f", text(&dir)]);
    let (status, _, error) = ended(run.stdin(input).stdout(output).output().unwrap());
    assert_eq!(status, 14, "{error}");
    stopped(&dir, &error);
    served.join().unwrap();
}

#[test]
fn one_run_at_a_time() {
    let (_, dir) = places("locked");
    let socket = dir.with_file_name("socket");
    let was = numbers(4);
    let shelf = Shelf::default().put("/f", b"a", was, &[Some(was)], Pull::Late(500, b"good".to_vec()));
    shelf.served(&socket, 1);
    let first = transfer(&["--unix", text(&socket), "--features", V2, "archive", "/f", text(&dir)]).spawn().unwrap();
    while !dir.join("SHA256SUMS").exists() {
        thread::sleep(Duration::from_millis(2));
    }
    for words in [&["--panel", "archive", "/jobs"][..], &["verify"]] {
        let (status, said, error) = told(&[words, &[text(&dir)]].concat());
        assert_eq!((status, said.as_str()), (73, ""), "{error}");
        assert!(error.contains("another run is at work on it"), "{error}");
    }
    assert_eq!(ended(first.wait_with_output().unwrap()).0, 0);
    whole(&dir, 1);
}

#[test]
fn times_and_modes() {
    let bytes = b"good".to_vec();
    let mut shelf = Shelf::default();
    for (name, mtime, mode) in [("a", -5, 0o100_644), ("b", 1 << 33, 0o106_755), ("c", 0, 0o100_000)] {
        let numbers = Numbers { mtime, mode, ..numbers(bytes.len()) };
        shelf = shelf.put("/f", name.as_bytes(), numbers, &[Some(numbers)], Pull::Data(bytes.clone()));
    }
    let (dir, (status, _, error)) = shelved("times", shelf, V2);
    assert_eq!(status, 0, "{error}");
    for (name, mtime, mode) in [("a", -5, 0o100_644), ("b", 1 << 33, 0o100_755), ("c", 0, 0o100_400)] {
        let found = fs::metadata(dir.join(name)).unwrap();
        assert_eq!((found.mtime(), found.mode()), (mtime, mode), "{name}");
    }
    assert!(fs::read_to_string(dir.join("DETAILS")).unwrap().ends_with("4 8589934592 106755  b\n4 0 100000  c\n"));
    whole(&dir, 3);
}
