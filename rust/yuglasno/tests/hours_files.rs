//! Hours files: what a person is told of one that is refused, that it changes nothing; and `transfer` with hours.
mod common;
use common::program::*;
use std::fs;
use std::path::Path;
use std::process::Stdio;
use yuglasno::{Settings, HOURS_MOST};

const HEADING: &str = "day,open,close\n";
const WORKSHOP: &str = "day,open,close\n0,420,1080\n3,0,1440\n6,1439,1440\n";

/// Loads a file that is refused into settings with hours, which stay byte for byte: what is said.
fn refused(file: &[u8]) -> String {
    let mut settings = Settings::published();
    settings.load_hours(WORKSHOP.as_bytes()).unwrap();
    let before = settings;
    let error = settings.load_hours(file).unwrap_err();
    assert_eq!(settings.as_bytes(), before.as_bytes(), "{error}");
    error.to_string()
}

#[test]
fn what_a_person_is_told() {
    for (lines, told) in [
        ("0,60,60\n", "line 2: open 60 is not before close 60"),
        ("0,61,60\n", "line 2: open 61 is not before close 60"),
        ("0,0,1441\n", "line 2: close 1441 is over 1440, the minutes of a day"),
        ("0,0,99999999999\n", "line 2: close 99999999999 is over 1440, the minutes of a day"),
        ("0,0,99999999999999999999\n", "line 2: close \"99999999999999999999\" is too large"),
        ("7,0,1\n", "line 2: day 7 is none: 0 is Monday, 6 is Sunday"),
        ("0,0,1\n0,2,3\n", "line 3: day 0 has a line already"),
        ("1,0,1\n0,2,3\n", "line 3: day 0 comes behind day 1, and days rise"),
        ("00,0,1\n", "line 2: day \"00\" begins with a 0"),
        ("0,+1,2\n", "line 2: open \"+1\" is not digits alone"),
        ("0,1, 2\n", "line 2: close \" 2\" is not digits alone"),
        ("0,,2\n", "line 2: open is empty"),
        ("0,1\n", "line 2: it is to have three fields, and has 2: \"0,1\""),
        ("0,1,2,\n", "line 2: it is to have three fields, and has 4: \"0,1,2,\""),
        ("\n", "line 2: it is to have three fields, and has 1: \"\""),
        ("0,1,2", "line 2: it does not end with byte 10"),
        ("0,1,2\r\n", "line 2: it ends with byte 13 before byte 10, and lines end with byte 10 alone"),
        ("0,1,2\n1,0\t,3\n", "line 3: open \"0\\t\" is not digits alone"),
    ] {
        assert_eq!(refused(format!("{HEADING}{lines}").as_bytes()), format!("24: bad hours: {told}"));
    }
    for (file, told) in [
        (&b""[..], "it is empty, and line 1 is to be day,open,close"),
        (b"day,open,close", "line 1: it does not end with byte 10"),
        (b"day,open,close\r\n", "line 1: it ends with byte 13 before byte 10, and lines end with byte 10 alone"),
        (b"0,420,1080\n", "line 1: it is to be day,open,close, and is \"0,420,1080\""),
        (&[b'x'; HOURS_MOST + 1], "it has over 4096 bytes"),
        (
            b"a line that is longer than what is shown\n",
            "line 1: it is to be day,open,close, and is \"a line that is longer th\" ..",
        ),
    ] {
        assert_eq!(refused(file), format!("24: bad hours: {told}"));
    }
}

/// A file's name as a word.
fn place(folder: &Path, name: &str, bytes: impl AsRef<[u8]>) -> String {
    fs::write(folder.join(name), bytes).unwrap();
    folder.join(name).to_str().unwrap().to_string()
}

#[test]
fn pushes_at_their_moments() {
    let folder = folder("hours");
    let (hours, job) = (place(&folder, "hours", WORKSHOP), place(&folder, "job", "SPH -2.25"));
    let push = |when: &str, features: &str| {
        let words = [
            "--panel",
            "--features",
            features,
            "--hours",
            &hours,
            "--at",
            when,
            "--card",
            "push",
            &job,
            "/jobs/new.job",
        ];
        told(&words)
    };
    for features in ["", "sendrecv_v2"] {
        for when in ["0", "1704092400", "2024-01-01T07:00", "2024-01-01 17:59:59", "2024-01-04", "2024-01-07T23:59:30"]
        {
            let (status, said, error) = push(when, features);
            assert!(
                status == 0 && said.starts_with(&format!("{job}: 9 bytes pushed to /jobs/new.job\ncard: ")),
                "{when}: {error}"
            );
        }
        for (when, why) in [
            ("1704092399", "Monday 2024-01-01 06:59:59 UTC: Mondays are open from 07:00 to 18:00; the next hours begin Monday 2024-01-01 07:00 UTC"),
            ("2024-01-02", "Tuesday 2024-01-02 00:00:00 UTC: Tuesdays have no hours; the next hours begin Thursday 2024-01-04 00:00 UTC"),
        ] {
            let (status, said, error) = push(when, features);
            let text = format!("transfer: 25: no push may start on {why} ({job} to /jobs/new.job, after 0 of 9 bytes) (hours file {hours})\n");
            assert_eq!((status, error), (25, text));
            let card = "card: 0 bytes received, 0 consumed, 8 written; most reads of a call: 0 (quit)\n";
            assert_eq!(said, card, "QUIT alone is written");
        }
    }
}

#[test]
fn pushes_by_the_clock() {
    let folder = folder("clock");
    let job = place(&folder, "job", "SPH -2.25");
    let never = place(&folder, "never", HEADING);
    let (status, _, error) = told(&["--panel", "--hours", &never, "push", &job, "/a"]);
    assert!(status == 25 && error.contains(" UTC: these hours never open ("), "{error}");
    let week: String = (0..7).map(|day| format!("{day},0,1440\n")).collect();
    let always = place(&folder, "always", format!("{HEADING}{week}"));
    assert_eq!(told(&["--panel", "push", "--hours", &always, &job, "/a"]).0, 0);
    let stdin = transfer(&["--panel", "--hours", &never, "push", "-", "/a"]).stdin(Stdio::null()).output().unwrap();
    assert_eq!(stdin.status.code(), Some(25));
}

/// With hours that never open every command but a push does what it does without.
#[test]
fn other_commands() {
    let folder = folder("other-commands");
    let (never, out) = (place(&folder, "never", HEADING), folder.join("out"));
    let dir = folder.join("dir");
    let commands: [&[&str]; 5] = [
        &["stat", "/jobs"],
        &["ls", "/jobs"],
        &["pull", "/jobs/1998-toric.job", out.to_str().unwrap()],
        &["archive", "/jobs", dir.to_str().unwrap()],
        &["verify", dir.to_str().unwrap()],
    ];
    for command in commands {
        let (status, said, error) = told(&[&["--panel", "--hours", &never], command].concat());
        assert_eq!((status, error.as_str()), (0, ""), "{command:?}: {said}");
    }
}

/// A file that is refused, or not there: the number, the reason, and nothing done.
#[test]
fn a_bad_file() {
    let folder = folder("bad-hours");
    let file = folder.join("bad").to_str().unwrap().to_string();
    let (out, mark) = (folder.join("out"), folder.join("mark"));
    let [out, mark] = [&out, &mark].map(|path| path.to_str().unwrap());
    fs::write(&file, format!("{HEADING}0,60,60\n")).unwrap();
    let why = format!("transfer: 24: bad hours: line 2: open 60 is not before close 60 (hours file {file})\n");
    let commands: [&[&str]; 4] = [
        &["pull", "/jobs/empty.job", out],
        &["push", "Cargo.toml", "/a"],
        &["archive", "/jobs", out],
        &["verify", out],
    ];
    for command in commands {
        let told = told(&[&["--exec", "touch", mark, "--", "--hours", &file], command].concat());
        assert_eq!(told, (24, String::new(), why.clone()));
    }
    assert_eq!(told(&["hours", &file]), (24, String::new(), why));
    fs::remove_file(&file).unwrap();
    for words in [&["--exec", "touch", mark, "--", "--hours", &file, "stat", "/"][..], &["hours", &file]] {
        let (status, _, error) = told(words);
        assert!(status == 66 && error.starts_with(&format!("transfer: 66: hours file {file}: ")), "{error}");
    }
    assert_eq!(names(&folder), [""; 0]);
}

#[test]
fn the_week() {
    let folder = folder("week");
    let hours = place(&folder, "hours", WORKSHOP);
    let week = "Monday     07:00 to 18:00\nTuesday    closed\nWednesday  closed\nThursday   00:00 to 24:00\nFriday     closed\nSaturday   closed\n\
                Sunday     23:59 to 24:00\n";
    for (when, told_of) in [
        ("2024-01-01T07:00", "Monday 2024-01-01 07:00:00 UTC: a push may start"),
        (
            "1704092399",
            "Monday 2024-01-01 06:59:59 UTC: no push may start; the next hours begin Monday 2024-01-01 07:00 UTC",
        ),
        ("2106-02-07T06:28:15", "Sunday 2106-02-07 06:28:15 UTC: no push may start, and no hours begin behind it"),
        ("0", "Thursday 1970-01-01 00:00:00 UTC: a push may start"),
    ] {
        assert_eq!(told(&["hours", "--at", when, &hours]), (0, format!("{week}{told_of}\n"), String::new()));
    }
    let (status, said, _) = told(&["hours", &hours]);
    let now = said.strip_prefix(week).unwrap();
    assert!(status == 0 && now.contains(" UTC: ") && now.lines().count() == 1, "by the clock: {said}");
    let example = concat!(env!("CARGO_MANIFEST_DIR"), "/../../examples/workshop.hours");
    let (status, said, _) = told(&["hours", "--at", "2024-01-06T08:00", example]);
    assert!(status == 0 && said.ends_with("Saturday 2024-01-06 08:00:00 UTC: a push may start\n"), "{said}");
}

#[test]
fn words_that_say_what_is_wanted() {
    let past = "--at wants a time from 1970-01-01 to Sunday 2106-02-07 06:28:15 UTC, and";
    for (words, why) in [
        (&["--at", "-1", "hours", "x"][..], format!("{past} -1 (Unix seconds) is before it")),
        (&["--at", "1969-12-31", "hours", "x"], format!("{past} -86400 (Unix seconds) is before it")),
        (&["--at", "4294967296", "hours", "x"], format!("{past} 4294967296 (Unix seconds) is past it")),
        (&["--at", "2106-02-07T06:28:16", "hours", "x"], format!("{past} 4294967296 (Unix seconds) is past it")),
        (&["--at", "noon", "hours", "x"], "--at wants a time, and \"noon\" is neither".into()),
        (&["hours", "x", "--at"], "--at wants a time".into()),
        (&["hours", "x", "--hours"], "--hours wants FILE".into()),
        (&["hours"], "hours wants FILE, and has none".into()),
        (&["hours", "x", "y"], "hours wants FILE, and has x y".into()),
        (&["--hours", "y", "hours", "x"], "the command hours has a FILE of its own, and goes without --hours".into()),
        (
            &["--panel", "--at", "0", "push", "x", "/a"],
            "--at goes with the command hours, and with push and --hours FILE".into(),
        ),
        (
            &["--panel", "--hours", "x", "--at", "0", "ls", "/"],
            "--at goes with the command hours, and with push and --hours FILE".into(),
        ),
    ] {
        let (status, said, error) = told(words);
        assert!(error.starts_with(&format!("transfer: 64: {why}")), "{words:?}: {error}");
        assert_eq!((status, said.as_str()), (64, ""));
    }
}
