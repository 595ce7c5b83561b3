//! `transfer --card`: the bytes on the cable as its last line, beside those that went through a `tee` on either side of the panel; the most
//! reads of a call, of a panel whose replies come byte by byte; where a command fails, over more than one session, and where none was opened.
mod common;
use common::archives::{made, put, text, TIME, V2};
use common::program::{folder, names, told, transfer, PANEL};
use std::fs::{self, OpenOptions};
use std::path::{Path, PathBuf};

const FAIL: i32 = 14;
const NO_SESSION: &str = "card: 0 bytes received, 0 consumed, 0 written (no session was opened)";

/// What stands between the bytes and the most reads of a call.
const MOST: &str = "; most reads of a call: ";

/// The numbers of a card that is the last line, with what stands behind them of its sessions, and the lines before it.
fn card(said: &str) -> ([u64; 3], &str, Vec<&str>) {
    let mut lines: Vec<&str> = said.lines().collect();
    let last = lines.pop().unwrap_or_default();
    let (bytes, _) = last.split_once(MOST).unwrap_or((last, ""));
    let (line, behind) = bytes.split_once(" (").unwrap_or((bytes, ""));
    let words: Vec<&str> = line.split(' ').collect();
    let ["card:", received, "bytes", "received,", consumed, "consumed,", written, "written"] = words[..] else {
        panic!("no card: {said}")
    };
    ([received, consumed, written].map(|number| number.parse().unwrap()), behind, lines)
}

/// The most reads of a call on such a card, and which call it was.
fn most(said: &str) -> (u64, &str) {
    let behind = said.lines().last().and_then(|line| line.split_once(MOST)).map(|(_, most)| most);
    let most = behind.and_then(|most| most.strip_suffix(')')).and_then(|most| most.split_once(" ("));
    let (reads, call) = most.unwrap_or_else(|| panic!("no reads: {said}"));
    (reads.parse().unwrap(), call)
}

/// A panel's program on pipes, whose both ways are kept.
struct Cable {
    asked: PathBuf,
    said: PathBuf,
    script: String,
}

impl Cable {
    fn of(root: &Path, panel: &str) -> Self {
        let (asked, said) = (root.join("asked"), root.join("said"));
        let script = format!("tee -a '{}' | {PANEL} {panel} | tee -a '{}'", asked.display(), said.display());
        Self { asked, said, script }
    }

    /// What a command tells, and how many bytes the panel said and was asked.
    fn told(&self, words: &[&str]) -> ((i32, String, String), u64, u64) {
        for file in [&self.asked, &self.said] {
            fs::write(file, "").unwrap();
        }
        let told = told(&[&["--exec", "sh", "-c", &self.script, "--", "--card"], words].concat());
        let [asked, said] = [&self.asked, &self.said].map(|file| fs::metadata(file).unwrap().len());
        (told, said, asked)
    }
}

#[test]
fn the_bytes_of_each_command() {
    let root = folder("card");
    let (file, cable) = (root.join("out.job"), Cable::of(&root, "--cut 777"));
    for features in ["", V2] {
        let dir = root.join(format!("dir{features}"));
        let commands = [
            &["stat", "/jobs/1998-toric.job"][..],
            &["ls", "/jobs"],
            &["ls", "--from", "1998-01-01", "/jobs"],
            &["pull", "/jobs/1998-toric.job", text(&file)],
            &["push", text(&file), "/jobs/new.job"],
            &["archive", "/jobs", text(&dir)],
        ];
        for words in commands {
            let ((status, out, error), said, asked) = cable.told(&[&["--features", features], words].concat());
            let (totals, behind, lines) = card(&out);
            assert_eq!((status, error.as_str(), behind), (0, "", ""), "{words:?}");
            assert_eq!(totals, [said, said, asked], "{words:?}");
            assert!((1..=said).contains(&most(&out).0), "{words:?}: {out}");
            let without = told(&[&["--panel", "--features", features], words].concat()).1;
            assert_eq!(lines.len(), without.lines().count(), "{words:?}: {without}");
        }
    }
}

/// A byte to a read: a call has as many reads as its reply has bytes. Of several calls with the most it is the first.
#[test]
fn the_most_reads_of_a_call() {
    let root = folder("card of reads");
    let (file, dir) = (root.join("out.job"), root.join("dir"));
    let (job, empty) = ("/jobs/1998-toric.job", "/jobs/empty.job");
    let long = &"p".repeat(1_025);
    for (features, words, expected) in [
        (V2, &["stat", job][..], (72, "stat_v2 /jobs/1998-toric.job")),
        ("", &["stat", job], (16, "stat /jobs/1998-toric.job")),
        // an entry's record, and a name of 16 bytes
        (V2, &["ls", "/jobs"], (92, "next_entry_v2")),
        ("", &["ls", "--to", "1998-01-01", "/jobs"], (36, "next_entry")),
        (V2, &["pull", job, text(&file)], (65_544, "recv_next")),
        // the stats before and after it have more bytes than its only reply
        (V2, &["pull", empty, text(&file)], (72, "stat_v2 /jobs/empty.job")),
        ("", &["push", text(&file), "/jobs/new\n.job"], (16, "stat /jobs/new\\n.job")),
        (V2, &["archive", "/jobs", text(&dir)], (65_544, "recv_next")),
        // where it fails: an errno, a reply that the buffer can't hold, a call that is refused and is none
        (V2, &["stat", "/none"], (72, "stat_v2 /none")),
        (V2, &["--capacity", "71", "stat", "/jobs"], (8, "stat_v2 /jobs")),
        (V2, &["stat", long], (0, "quit")),
    ] {
        let (_, out, error) = told(&[&["--card", "--panel", "--cut", "1", "--features", features], words].concat());
        assert_eq!(most(&out), expected, "{words:?}: {out}{error}");
    }
}

/// Behind a message on standard error the card is on standard output all the same, and has what came until then.
#[test]
fn a_command_that_fails() {
    let root = folder("card of a failure");
    let (file, cable) = (root.join("out.job"), Cable::of(&root, ""));
    for (expected, words) in [
        (16, &["--features", V2, "stat", "/none"][..]),
        (67, &["stat", "/none"]),
        (FAIL, &["pull", "/jobs", text(&file)]),
        (7, &["stat", &"p".repeat(1_025)]),
        (66, &["push", text(&file), "/jobs/new.job"]),
        (FAIL, &["push", "Cargo.toml", "/jobs"]),
    ] {
        let ((status, out, error), said, asked) = cable.told(words);
        let (totals, behind, lines) = card(&out);
        assert_eq!((status, behind, lines.len()), (expected, "", 0), "{words:?}");
        assert!(
            error.starts_with(&format!("transfer: {expected}: ")) && !error.contains("card:"),
            "{words:?}: {error}"
        );
        assert_eq!(totals[..2], [said, said], "{words:?}");
        // behind a FAIL the panel is gone, and the last that was written may not have come to the file
        assert!(totals[2] == asked || (expected == FAIL && totals[2] > asked), "{words:?}: {totals:?}, asked {asked}");
    }
    // what the receive buffer can't hold is not consumed: 8 and 5 bytes of STA2, and QUIT
    let (status, out, _) = told(&["--card", "--panel", "--capacity", "71", "stat", "/jobs"]);
    assert_eq!((status, card(&out).0), (17, [71, 0, 21]));
}

/// Sums, and of how many sessions: a FAIL has ended the first.
#[test]
fn an_archive_over_two_sessions() {
    let (served, dir) = made("card of two");
    put(&dir, "a", TIME, "the bad a");
    let cable = Cable::of(served.parent().unwrap(), &format!("--folder '{}' --read-only", dir.display()));
    let other = served.parent().unwrap().join("other");
    let ((status, out, error), said, asked) = cable.told(&["--features", V2, "archive", "/", text(&other)]);
    let (totals, behind, lines) = card(&out);
    assert_eq!((status, behind), (79, "in 2 sessions)"), "{error}");
    assert_eq!((totals, lines.len()), ([said, said, asked], 2));
    assert!(names(&other).contains(&"b".to_string()));
    // the FAIL that ended the first session has 86 bytes, more than any reply of the second
    let place = ["--card", "--folder", text(&dir), "--cut", "1", "--features", V2];
    let third = served.parent().unwrap().join("third");
    let (_, out, _) = told(&[&place[..], &["archive", "/", text(&third)]].concat());
    assert_eq!((card(&out).1, most(&out)), ("in 2 sessions)", (86, "recv_next")));
}

#[test]
fn an_archive_in_the_panels_place() {
    let (served, dir) = made("card of a folder");
    let (_, out, error) = told(&["--card", "--folder", text(&dir), "--features", "", "stat", "/a"]);
    assert_eq!((card(&out).0, error.as_str()), ([16, 16, 18], ""), "STAT of 2 bytes, and QUIT");
    let (status, out, _) = told(&["--folder", text(&dir), "--card", "push", text(&served.join("a")), "/new"]);
    assert_eq!((status, card(&out).2.len()), (FAIL, 0));
    assert!(card(&out).0[0] > 8 && card(&out).0[2] > 8, "{out}");
}

#[test]
fn no_session() {
    let (_, dir) = made("card of none");
    let (status, out, _) = told(&["verify", text(&dir), "--card"]);
    assert_eq!((status, out.lines().count(), out.lines().last()), (0, 2, Some(NO_SESSION)));
    put(&dir, "a", TIME, "the bad a");
    for (expected, words) in [
        (80, &["verify", text(&dir)][..]),
        (69, &["--unix", "/none/such", "ls", "/"]),
        (69, &["--folder", "/none/such", "ls", "/"]),
        (66, &["--panel", "--ids", "/none/such", "ls", "/"]),
        (1, &["--panel", "--capacity", "7", "ls", "/"]),
        (73, &["--panel", "pull", "/jobs/empty.job", "/dev/null"]),
    ] {
        let (status, out, error) = told(&[&["--card"], words].concat());
        assert_eq!((status, out.lines().last()), (expected, Some(NO_SESSION)), "{words:?}: {error}");
    }
    let (status, out, _) = told(&["--card", "--panel", "wash"]);
    assert_eq!((status, out.as_str()), (64, ""), "nothing was run");
}

/// Where a file goes to standard output, or a line can't be written.
#[test]
fn where_it_goes() {
    let job = "/jobs/1998-toric.job";
    let done = transfer(&["--card", "--panel", "pull", job, "-"]).output().unwrap();
    let error = String::from_utf8(done.stderr).unwrap();
    assert_eq!((done.stdout.len(), card(&error).2.len()), (160_019, 0), "{error}");
    for (expected, path) in [(74, "/jobs"), (16, "/none")] {
        let full = OpenOptions::new().write(true).open("/dev/full").unwrap();
        let done = transfer(&["--card", "--panel", "stat", path]).stdout(full).output().unwrap();
        assert_eq!(done.status.code(), Some(expected));
    }
}
