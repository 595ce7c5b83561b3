//! What `transfer` says where something is not there or not understood, and its exit status where nothing can be said.
mod common;
use common::fake::panel;
use common::program::{folder, told, transfer, PANEL};
use common::{entry, listing_end, words};
use std::fs::File;
use std::process::Command;
use std::time::{Duration, Instant};
use yuglasno::{meaning, MEANINGS};

/// Each status as it is without words: standard error takes none.
#[test]
fn standard_error_that_takes_nothing() {
    let full = || File::create("/dev/full").unwrap();
    for (words, expected) in [
        (&["--panel", "pull", "/jobs", "/nonexistent/x"][..], 73),
        (&["--panel", "pull", "/jobs", "-"], 14),
        (&["--panel", "stat", "/none"], 16),
        (&["wash"], 64),
        (&["--panel", "stat", "/jobs"], 0),
    ] {
        assert_eq!(transfer(words).stderr(full()).status().unwrap().code(), Some(expected), "{words:?}");
    }
    assert_eq!(Command::new(PANEL).arg("--wash").stderr(full()).status().unwrap().code(), Some(64));
    let boundary = Command::new(env!("CARGO_BIN_EXE_boundary")).stderr(full()).status().unwrap();
    assert_eq!(boundary.code(), Some(64));
}

#[test]
fn what_is_not_there() {
    for (words, status, why) in [
        (&["--features", "", "stat", "/none"][..], 67, "/none: it is not there (mode, size and mtime are all 0)"),
        (&["stat", "/none"], 16, "errno 2: no such file or folder (/none)"),
        (&["ls", "/none"], 16, "errno 2: no such file or folder (/none)"),
        (&["--features", "", "ls", "/none"], 67, "/none: it is not there"),
        (&["ls", "/jobs/sphere.job"], 67, "/jobs/sphere.job: it is no folder (mode 100660)"),
        (&["--features", "", "ls", "/jobs/sphere.job"], 67, "it is no folder"),
    ] {
        let (found, said, error) = told(&[&["--panel"], words].concat());
        assert_eq!((found, said.as_str()), (status, ""), "{words:?}: {error}");
        assert!(error.starts_with(&format!("transfer: {status}: ")) && error.contains(why), "{words:?}: {error}");
    }
}

#[test]
fn a_folder_that_lists_nothing_and_one_that_is_empty() {
    let stat = words(b"STAT", &[0o040_700, 4096, 5]);
    let empty = [entry(b"."), entry(b".."), listing_end(20)].concat();
    for (name, listing, expected) in [("unread", listing_end(20), (67, 0)), ("empty folder", empty, (0, 2))] {
        let socket = folder(name).join("socket");
        let heard = panel(&socket, vec![stat.clone()], listing);
        let (status, said, error) = told(&["--unix", socket.to_str().unwrap(), "ls", "/job"]);
        assert_eq!((status, said.lines().count()), expected, "{error}");
        assert_eq!(error.contains("lists nothing of, not even `.`"), status == 67);
        heard.join().unwrap();
    }
}

#[test]
fn words_that_say_what_is_wanted() {
    for (words, wanted) in [
        (&["pull", "/a"][..], "pull wants PATH FILE, and has /a\n"),
        (&["push", "a", "b", "644", "c"], "push wants FILE PATH [MODE], and has a b 644 c\n"),
        (&["stat"], "stat wants PATH, and has none\n"),
        (&["push", "a", "b", "9"], "MODE is octal, such as 644, and not 9"),
        (&["wash"], "no command wash: stat, ls, pull, push"),
        (&[], "a command is wanted: stat, ls, pull, push"),
        (&["ls", "/", "--capacity"], "--capacity wants a number"),
        (&["ls", "/", "--capacity", "99999999999999"], "--capacity wants a number up to 1073741824"),
        (&["ls", "/", "--timeout", "soon"], "--timeout wants SECONDS, such as 5 or 0.5, and not soon"),
        (&["ls", "/", "--timeout", "0"], "--timeout wants SECONDS"),
        (&["ls", "/", "--panel", "--timeout", "5"], "--timeout goes with --server and --unix"),
        (&["ls", "/", "--server", "here"], "--server here: HOST:PORT"),
        (&["ls", "-l", "/"], "no option -l; behind -- a word may begin with -"),
        (&["--exec", "panel", "ls", "/"], "--exec wants COMMAND [ARGS..] --"),
        (&["--stdio", "pull", "/a", "-"], "with --stdio a FILE can't be -"),
        (
            &["--panel", "--stdio", "ls", "/"],
            "one of --server, --unix, --stdio, --exec, --panel and --folder is wanted",
        ),
    ] {
        let (status, said, error) = told(words);
        assert_eq!((status, said.as_str()), (64, ""), "{words:?}");
        assert!(error.starts_with("transfer: 64: ") && error.contains(wanted), "{words:?}: {error}");
    }
}

#[test]
fn options_in_any_place() {
    let plain = told(&["--panel", "--features", "", "stat", "/jobs/sphere.job"]);
    assert_eq!(plain.0, 0);
    assert_eq!(told(&["stat", "--panel", "/jobs/sphere.job", "--features", ""]), plain);
    assert_eq!(told(&["stat", "/jobs/sphere.job", "--features", "", "--exec", PANEL, "--cut", "3", "--"]), plain);
    let (status, _, error) = told(&["--panel", "stat", "--", "--help"]);
    assert_eq!((status, error.contains("(--help)")), (16, true), "a path: {error}");
}

#[test]
fn help_and_version() {
    let (status, help, _) = told(&["--help"]);
    assert_eq!(status, 0);
    for words in [&["pull", "--help"][..], &["--panel", "push", "x", "-h"]] {
        assert_eq!(told(words), (0, help.clone(), String::new()));
    }
    for (number, text) in MEANINGS.into_iter().filter(|(number, _)| *number < 18) {
        assert!(help.contains(&format!("\n  {number:>2}  {text}\n")), "{number}");
        assert_eq!(meaning(number), Some(text));
    }
    for number in [18, 20] {
        assert!(!help.contains(&format!("\n  {number}  ")), "{number} is no session's");
    }
    for number in [64, 65, 66, 67, 69, 73, 74] {
        assert!(help.contains(&format!("\n  {number}  ")), "{number}");
    }
    assert!(!help.contains("document"));
    let version = format!("transfer {}\n", env!("CARGO_PKG_VERSION"));
    assert_eq!(told(&["--version"]), (0, version.clone(), String::new()));
    assert_eq!(told(&["ls", "--version"]).1, version);
}

#[test]
fn too_large_hints_at_the_capacity() {
    let words = ["--panel", "--capacity", "1000", "pull", "/jobs/sphere.job", "-"];
    let (status, _, error) = told(&words);
    assert_eq!(status, 17);
    assert!(error.contains("--capacity N, and 65544 takes every DATA message"), "{error}");
    assert!(error.contains("(/jobs/sphere.job to standard output, after 0 of "), "{error}");
}

/// A program of `--exec` that does not end with its channel is left to itself, and that is said.
#[test]
fn a_program_that_does_not_end() {
    let sleeps = format!("'{PANEL}'; exec sleep 20 >&- 2>&-");
    let start = Instant::now();
    let (status, said, error) = told(&["--exec", "sh", "-c", &sleeps, "--", "stat", "/jobs"]);
    assert!(status == 0 && said.starts_with("mode "), "{status}: {error}");
    assert!(error.contains("the program of --exec still runs (process "), "{error}");
    assert!(start.elapsed() < Duration::from_secs(15));
}
