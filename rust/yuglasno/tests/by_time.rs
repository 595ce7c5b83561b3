//! `transfer ls` by time: which lines are printed and in what order, the words that a time may have, and what is said where there is no
//! entry, or no room for all.
mod common;
use common::dated::*;
use common::program::*;
use common::with;
use std::fs;
use std::path::Path;

/// `ls` of what a program says that has these bytes in a file, with these words.
fn of_bytes(file: &Path, bytes: &[u8], version: Version, words: &[&str]) -> (i32, String, String) {
    fs::write(file, bytes).unwrap();
    let features = if version == Version::V2 { "ls_v2" } else { "" };
    let said = ["--exec", "sh", "-c", "cat \"$0\"; cat >/dev/null", file.to_str().unwrap(), "--"];
    told(&[&said[..], &["--features", features, "ls", "/jobs"], words].concat())
}

const CROSSED: &str = "no entry can be between them: --from is later than --to";

/// The last words of each line: time and name.
fn names(said: &str) -> Vec<&str> {
    said.lines().map(|line| line.rsplit(' ').next().unwrap()).collect()
}

#[test]
fn the_trials() {
    let file = folder("by-time").join("listing");
    for version in VERSIONS {
        let bytes = version.listing(&[(b"a", 5), (b"b", 3), (b"c", 5)]);
        let ls = |words: &[&str]| of_bytes(&file, &bytes, version, words);
        let line = |name: &str| {
            let (_, all, _) = ls(&[]);
            all.lines().find(|line| line.ends_with(name)).unwrap().to_string() + "\n"
        };
        let whole = [line("b"), line("a"), line("c")].concat();
        for words in [&["--from", "3", "--to", "5"][..], &["--from", "3"], &["--to", "5"], &["--to", "1970-01-01"]] {
            assert_eq!(ls(words), (0, whole.clone(), String::new()), "{words:?}");
        }
        assert_eq!(ls(&["--latest", "5"]), (0, line("a"), String::new()));
        assert_eq!(ls(&["--latest", "4"]), (0, line("b"), String::new()));
        assert_eq!(ls(&["--from", "6"]), (0, String::new(), String::new()));
        let none = "transfer: /jobs: none of the 3 entries looked at is at or before 2 (Unix seconds)\n";
        assert_eq!(ls(&["--latest", "2"]), (0, String::new(), none.into()));
        for (from, to) in [("5", "4"), ("5", "-1"), ("9", "0")] {
            let crossed = format!("transfer: /jobs: {CROSSED} ({from} and {to}, Unix seconds)\n");
            assert_eq!(ls(&["--from", from, "--to", to]), (0, String::new(), crossed));
        }
    }
}

/// Times before 1970, which v2 has, and an entry that the panel could not look at.
#[test]
fn early_times() {
    let file = folder("early").join("listing");
    let v2 = Version::V2;
    let bytes = [v2.entry(b"lost", -5, 13), v2.entry(b"new", 7, 0), v2.entry(b"old", i64::MIN, 0), v2.end()].concat();
    let ls = |words: &[&str]| of_bytes(&file, &bytes, v2, words);
    let (status, said, _) = ls(&["--to", "1969-12-31 23:59:55"]);
    assert_eq!((status, said.lines().count()), (0, 2));
    assert!(said.ends_with(" -5 lost (errno 13)\n"), "{said}");
    assert_eq!(names(&ls(&["--from", "-5"]).1), ["13)", "new"]);
    assert_eq!(names(&ls(&["--latest", "-6"]).1), ["old"]);
    assert_eq!(ls(&["--latest", "-9223372036854775808"]).0, 0);
}

#[test]
fn days_and_minutes() {
    // 1998-04-08T01:46:40, 1998-07-09T16:00:00, 2001-09-09T01:46:40, 2017-07-14T02:40:00, 2023-11-14T22:13:20
    let cases: [(&[&str], &[&str]); 9] = [
        (&["--from", "1998-04-08", "--to", "1998-04-08"], &["1998-toric.job"]),
        (&["--from", "1998-04-09", "--to", "2001-09-09"], &["empty.job", "sphere.job"]),
        (&["--from", "1998-04-08T01:46", "--to", "1998-04-08 01:46"], &["1998-toric.job"]),
        (&["--from", "1998-04-08T01:46:41", "--to", "1998-07-09T15:59"], &[]),
        (&["--from", "1998-04-08T01:46:40", "--to", "1998-07-09T16:00:00"], &["1998-toric.job", "empty.job"]),
        (&["--latest", "1998-04-12"], &["1998-toric.job"]),
        (&["--latest", "2001-09-09T01:46:39"], &["empty.job"]),
        (&["--latest", "2001-09-09T01:46"], &["sphere.job"]),
        (&["--latest", "1998-04-08T01:46:39"], &["."]),
    ];
    for features in ["", "ls_v2"] {
        for cut in ["1", "4096"] {
            for (words, expected) in cases {
                let place = ["--panel", "--cut", cut, "--features", features, "ls"];
                let (status, said, error) = told(&[&place[..], words, &["/jobs"]].concat());
                assert_eq!((status, names(&said)), (0, expected.to_vec()), "{words:?}: {error}");
            }
        }
    }
}

/// Lines in time order, byte for byte those of `ls`.
#[test]
fn the_same_lines() {
    let mut lines: Vec<String> = told(&["--panel", "ls", "/jobs"]).1.lines().map(String::from).collect();
    lines.sort_by_key(|line| line[17..28].trim().parse::<i64>().unwrap());
    let (_, said, _) = told(&["--panel", "ls", "/jobs", "--from", "0"]);
    assert_eq!(said.lines().collect::<Vec<_>>(), lines);
}

#[test]
fn more_than_fit() {
    let file = folder("more").join("listing");
    let named: Vec<(String, i64)> = (0..4_100).map(|i| (format!("job{i:05}"), 10_000 - i)).collect();
    let entries: Vec<(&[u8], i64)> = named.iter().map(|(name, time)| (name.as_bytes(), *time)).collect();
    let text = |away, of, means| {
        format!(
            "transfer: 19: /jobs: {away} of {of} entries did not fit into the index, which takes 4096 and 65536 bytes of names: \
             {means}; ls without a time lists them all\n"
        )
    };
    let printed = "those that are printed are right, and others may be missing";
    let later = "only the others were looked at, and a later one may be missing";
    let no_other = "no other could have been printed";
    let none = "transfer: /jobs: none of the 4096 entries looked at is at or before 5904 (Unix seconds)\n";
    let crossed = format!("transfer: /jobs: {CROSSED} (9 and 8, Unix seconds)\n");
    for version in VERSIONS {
        let ls = |entries: &[(&[u8], i64)], words: &[&str]| of_bytes(&file, &version.listing(entries), version, words);
        let (status, said, error) = ls(&entries, &["--from", "0"]);
        assert_eq!((status, said.lines().count(), error), (19, 4_096, text(4, 4_100, printed)));
        assert_eq!((names(&said)[0], names(&said)[4_095]), ("job04095", "job00000"));
        let (status, said, error) = ls(&entries, &["--latest", "5904"]);
        assert_eq!((status, said.as_str(), error), (19, "", none.to_string() + &text(4, 4_100, later)));
        let (status, said, error) = ls(&entries, &["--from", "9", "--to", "8"]);
        assert_eq!((status, said.as_str(), error), (19, "", crossed.clone() + &text(4, 4_100, no_other)));
        assert_eq!(ls(&entries[..4_096], &["--from", "0"]).0, 0);
        let long = [b'n'; 255];
        let wide: Vec<(&[u8], i64)> = (0..258).map(|i| (&long[..], i)).chain([(&b"n"[..], 999)]).collect();
        let (status, said, error) = ls(&wide, &["--latest", "999"]);
        assert_eq!((status, names(&said), error), (19, vec!["n"], text(1, 259, later)));
    }
}

#[test]
fn words_that_are_no_times() {
    let said = |words: &[&str]| {
        let (status, said, error) = told(&[&["--panel", "ls", "/jobs"], words].concat());
        assert_eq!((status, said.as_str()), (64, ""), "{words:?}");
        error.lines().next().unwrap().to_string()
    };
    for option in ["--from", "--to", "--latest"] {
        for word in ["1998-13-01", "1998-02-30", "0000-01-01"] {
            let told = format!("transfer: 64: {option} wants a time, and \"{word}\" is no day of the calendar");
            assert_eq!(said(&[option, word]), told);
        }
        assert!(said(&[option, "1998-04-12T25:00"]).ends_with("\"1998-04-12T25:00\" is no time of day"));
        assert!(said(&[option, "Easter"]).contains("and \"Easter\" is neither Unix seconds nor a date such as"));
        assert!(said(&[option, "10000-01-01"]).contains("\"10000-01-01\" is neither"));
        assert!(said(&[option, "92233720368547758080"]).ends_with("is more seconds than 64 bits have"));
        assert_eq!(said(&[option]), format!("transfer: 64: {option} wants a time"));
        let (status, _, error) = told(&["--panel", "stat", "/jobs", option, "5"]);
        assert_eq!((status, error.lines().next()), (64, Some("transfer: 64: --from, --to and --latest go with ls")));
    }
    assert_eq!(said(&["--latest", "5", "--from", "5"]), "transfer: 64: --latest goes without --from and --to");
}

/// What is no folder, and a listing that breaks off: as without a time, and no line is printed.
#[test]
fn listings_that_fail() {
    let file = folder("fails").join("listing");
    for words in [&["--from", "0"][..], &["--latest", "5"], &["--from", "5", "--to", "4"]] {
        for path in ["/jobs/empty.job", "/none"] {
            for features in ["", "stat_v2,ls_v2"] {
                let plain = ["--panel", "--features", features, "ls", path];
                assert_eq!(told(&[&plain, words].concat()), told(&plain));
            }
        }
        let bytes = [Version::V1.entry(b"a", 5, 0), with(b"FAIL", b"no more")].concat();
        let broken = "transfer: 14: the panel failed: no more (/jobs, after 1 entries)\n";
        assert_eq!(of_bytes(&file, &bytes, Version::V1, words), (14, String::new(), broken.into()));
    }
}
