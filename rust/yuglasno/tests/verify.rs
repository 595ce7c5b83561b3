//! `transfer verify`: a whole archive passes, and every damage is named with a status of its own.
mod common;
use common::archives::{archive, counts, edit, made, places, put, text, whole, TIME};
use common::program::told;
use std::fs::{self, File, Permissions};
use std::io::ErrorKind;
use std::os::unix::fs::{symlink, PermissionsExt};
use std::path::Path;
use std::time::{Duration, SystemTime};

/// What is done to an archive, the status of `verify` then, and a line that it says.
type Damage = (&'static str, fn(&Path), i32, &'static str);

const DAMAGES: [Damage; 21] = [
    ("flipped", |dir| put(dir, "b", TIME, "the jab b"), 80, "b: its sum is another"),
    ("shorter", |dir| put(dir, "b", TIME, "the job"), 80, "b: its size is 7 and not 9; its sum is another"),
    ("time", |dir| put(dir, "b", 5, "the job b"), 80, "b: its mtime is 5 and not 1000000000"),
    ("mode", |dir| mode(&dir.join("b"), 0o4644), 80, "b: its mode is 4644 and not 644"),
    ("missing", |dir| fs::remove_file(dir.join("sub/c")).unwrap(), 80, "sub/c: it is not there"),
    ("folder", |dir| fs::remove_dir_all(dir.join("sub")).unwrap(), 80, "sub/c: it is not there"),
    ("kind", |dir| linked(dir, "b", "a"), 80, "b: it is no regular file"),
    ("linked", |dir| moved_and_linked(dir), 80, "sub/c: sub is there and no folder"),
    ("sum", |dir| edit(&dir.join("SHA256SUMS"), "  b\n", OTHER), 80, "b: its sum is another"),
    ("no list", |dir| fs::remove_file(dir.join("DETAILS")).unwrap(), 80, "DETAILS: it is not there"),
    (
        "no sums",
        |dir| fs::remove_file(dir.join("SHA256SUMS")).unwrap(),
        80,
        "SHA256SUMS: it is not there, and DETAILS has",
    ),
    ("first run", |dir| begun(dir), 81, "SHA256SUMS: it is not there yet"),
    (
        "line",
        |dir| edit(&dir.join("SHA256SUMS"), "  a\n", "nothing\n"),
        80,
        "SHA256SUMS: line 1 is none of an archive's",
    ),
    ("twice", |dir| edit(&dir.join("DETAILS"), "  a\n", "1 1 1  b\n"), 80, "DETAILS: line 3 is none of an archive's"),
    ("head", |dir| edit(&dir.join("DETAILS"), "# size", "# SIZE\n"), 80, "DETAILS: line 1 is none of an archive's"),
    ("outside", |dir| edit(&dir.join("DETAILS"), "  a\n", "1 1 1  ../a\n"), 80, "DETAILS: line 2 is none"),
    ("numbers gone", |dir| edit(&dir.join("DETAILS"), "  b\n", ""), 80, "b: DETAILS has no line of it"),
    ("sum gone", |dir| edit(&dir.join("SHA256SUMS"), "  b\n", ""), 81, "b: it has no sum"),
    ("both gone", |dir| LISTS.iter().for_each(|list| edit(&dir.join(list), "  b\n", "")), 81, "b: it is in no list"),
    ("more", |dir| put(dir, "sub/more", TIME, "more"), 81, "sub/more: it is in no list"),
    (
        "left",
        |dir| fs::create_dir(dir.join(".transfer-unfinished")).unwrap(),
        81,
        ".transfer-unfinished: left by a run",
    ),
];

const LISTS: [&str; 2] = ["SHA256SUMS", "DETAILS"];
const OTHER: &str = "0000000000000000000000000000000000000000000000000000000000000000  b\n";

fn mode(path: &Path, bits: u32) {
    fs::set_permissions(path, Permissions::from_mode(bits)).unwrap();
}

/// What the first run leaves where it is interrupted between its two lists.
fn begun(dir: &Path) {
    let head = fs::read_to_string(dir.join("DETAILS")).unwrap().lines().next().unwrap().to_string() + "\n";
    fs::remove_dir_all(dir).unwrap();
    fs::create_dir(dir).unwrap();
    fs::write(dir.join("DETAILS"), head).unwrap();
}

fn linked(dir: &Path, name: &str, to: &str) {
    fs::remove_file(dir.join(name)).unwrap();
    symlink(to, dir.join(name)).unwrap();
}

fn moved_and_linked(dir: &Path) {
    let away = dir.with_file_name("away");
    fs::rename(dir.join("sub"), &away).unwrap();
    symlink(away, dir.join("sub")).unwrap();
}

#[test]
fn each_damage_is_named() {
    for (name, damage, expected, line) in DAMAGES {
        let (_, dir) = made(&format!("damage {name}"));
        damage(&dir);
        let (status, said, error) = told(&["verify", text(&dir)]);
        assert_eq!(status, expected, "{name}: {said}{error}");
        assert!(said.lines().any(|said| said.starts_with(line)), "{name}: {said}");
        assert!(error.starts_with(&format!("transfer: {expected}: {}: ", dir.display())), "{name}: {error}");
    }
}

/// What can be mended from the panel is, and the rest is refused.
#[test]
fn a_further_run_mends_what_it_can() {
    let mended = [
        "flipped",
        "shorter",
        "time",
        "mode",
        "missing",
        "folder",
        "no sums",
        "first run",
        "numbers gone",
        "sum gone",
        "both gone",
        "left",
    ];
    for (name, damage, ..) in DAMAGES.into_iter().filter(|(name, ..)| mended.contains(name)) {
        let (served, dir) = made(&format!("mended {name}"));
        damage(&dir);
        let (status, said, error) = archive(&served, &dir, &["--recursive"]);
        let silent = usize::from(name == "flipped");
        assert_eq!(status, 0, "{name}: {said}{error}");
        assert_eq!(told(&["verify", text(&dir)]).0 != 0, silent == 1, "{name}: size and time are the same");
    }
    for name in ["no list", "line", "twice", "head", "outside"] {
        let (served, dir) = made(&format!("refused {name}"));
        DAMAGES.iter().find(|(each, ..)| *each == name).unwrap().1(&dir);
        let before = LISTS.map(|list| fs::read(dir.join(list)).ok());
        assert_eq!(archive(&served, &dir, &[]).0, 66, "{name}");
        assert_eq!(LISTS.map(|list| fs::read(dir.join(list)).ok()), before, "{name}");
    }
}

#[test]
fn a_torn_end_is_told_and_mended() {
    for list in LISTS {
        let (served, dir) = made(&format!("torn {list}"));
        let whole_list = fs::read(dir.join(list)).unwrap();
        let last = whole_list.len() - whole_list.split_inclusive(|byte| *byte == b'\n').next_back().unwrap().len();
        for cut in [last + 1, last + 9, whole_list.len() - 1] {
            fs::write(dir.join(list), &whole_list[..cut]).unwrap();
            let (status, said, _) = told(&["verify", text(&dir)]);
            // no crash leaves a sum without numbers: that line was there before
            let expected = if list == "DETAILS" { 80 } else { 81 };
            assert_eq!(status, expected, "{list} at {cut}: {said}");
            assert!(said.contains(&format!("{list}: its end is no line")), "{said}");
            assert_eq!(archive(&served, &dir, &["--recursive"]), (0, counts(&dir, 1, 2, 0), String::new()));
            whole(&dir, 3);
        }
        let zeros = [&whole_list[..], &[0; 300]].concat();
        fs::write(dir.join(list), zeros).unwrap();
        assert_eq!(told(&["verify", text(&dir)]).0, 81);
        assert_eq!(archive(&served, &dir, &["--recursive"]).0, 0);
        whole(&dir, 3);
    }
}

#[test]
fn what_is_no_archive() {
    let (served, dir) = places("no archive");
    assert_eq!(told(&["verify", text(&dir)]).0, 66, "not there");
    assert_eq!(told(&["verify", text(&served)]).0, 66, "no lists");
    assert_eq!(told(&["verify", "/dev/null"]).0, 66, "no folder");
    assert_eq!(fs::read_dir(&dir).unwrap_err().kind(), ErrorKind::NotFound, "nothing is made");
    let (_, dir) = made("elsewhere");
    let copy = dir.with_file_name("moved");
    fs::rename(&dir, &copy).unwrap();
    whole(&copy, 3);
    let times = SystemTime::UNIX_EPOCH + Duration::from_secs(TIME + 1);
    File::open(copy.join("a")).unwrap().set_modified(times).unwrap();
    assert_eq!(told(&["verify", text(&copy)]).0, 80);
}
