//! `transfer --folder` while an archive is written. A file of its own: in one with other tests, a program of theirs holds the lock for a moment
//! longer, between its fork and its exec.
mod common;
use common::archives::{made, text};
use common::program::told;
use std::fs::File;

#[test]
fn while_an_archive_is_written() {
    let (_, dir) = made("busy");
    let ls = || told(&["--folder", text(&dir), "ls", "/"]);
    let opened = File::open(&dir).unwrap();
    opened.lock().unwrap();
    let (status, _, error) = ls();
    assert_eq!((status, error), (73, format!("transfer: 73: {}: another run is at work on it\n", dir.display())));
    drop(opened);
    assert_eq!(ls().0, 0);
}
