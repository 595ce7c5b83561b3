//! Archives in a test: a folder that a panel serves, DIR, and what they come to.
use super::program::{folder, told, PANEL};
use std::ffi::OsStr;
use std::fs::{self, File};
use std::path::{Path, PathBuf};
use std::process::Command;
use std::time::{Duration, SystemTime};

pub const V2: &str = "stat_v2,ls_v2,sendrecv_v2";
pub const TIME: u64 = 1_000_000_000;

pub fn text(path: &Path) -> &str {
    path.to_str().unwrap()
}

/// A folder that a panel serves, and DIR, which is not there yet.
pub fn places(name: &str) -> (PathBuf, PathBuf) {
    let root = folder(name);
    fs::create_dir(root.join("panel")).unwrap();
    (root.join("panel"), root.join("dir"))
}

/// A file with this time.
pub fn put(folder: &Path, name: impl AsRef<OsStr>, mtime: u64, bytes: impl AsRef<[u8]>) {
    let path = folder.join(name.as_ref());
    fs::write(&path, bytes).unwrap();
    File::open(&path).unwrap().set_modified(SystemTime::UNIX_EPOCH + Duration::from_secs(mtime)).unwrap();
}

/// An archive of what a folder's panel has under its root.
pub fn archive(served: &Path, dir: &Path, more: &[&str]) -> (i32, String, String) {
    let panel = ["--exec", PANEL, "--folder", text(served), "--", "--features", V2];
    told(&[&panel[..], &["archive", "/", text(dir)], more].concat())
}

/// What the run says that it did.
pub fn counts(dir: &Path, pulled: usize, held: usize, left_out: usize) -> String {
    format!("{}: {pulled} pulled, {held} there already, {left_out} left out\n", dir.display())
}

/// DIR is whole, by `verify` and by coreutils where it is there.
pub fn whole(dir: &Path, files: usize) {
    let (status, said, error) = told(&["verify", text(dir)]);
    assert_eq!((status, error.as_str()), (0, ""), "{said}");
    assert_eq!(said, format!("{}: {files} files, all as listed\n", dir.display()));
    summed(dir);
}

pub fn summed(dir: &Path) {
    let empty = fs::metadata(dir.join("SHA256SUMS")).unwrap().len() == 0;
    let checked = Command::new("sha256sum").args(["--strict", "-c", "SHA256SUMS"]).current_dir(dir).output();
    match checked {
        Ok(output) => assert!(empty || output.status.success(), "{}", String::from_utf8_lossy(&output.stdout)),
        Err(_) => println!("no sha256sum here: its check is left out"),
    }
}

/// An archive of the jobs a, b and sub/c, all of one time, behind the folder that they came from.
pub fn made(name: &str) -> (PathBuf, PathBuf) {
    let (served, dir) = places(name);
    fs::create_dir(served.join("sub")).unwrap();
    for name in ["a", "b", "sub/c"] {
        put(&served, name, TIME, format!("the job {name}"));
    }
    assert_eq!(archive(&served, &dir, &["--recursive"]).0, 0);
    whole(&dir, 3);
    (served, dir)
}

/// Takes the lines out that have this text, or writes another in its place.
pub fn edit(list: &Path, text: &str, new: &str) {
    let old = fs::read_to_string(list).unwrap();
    let lines: String = old.split_inclusive('\n').map(|line| if line.contains(text) { new } else { line }).collect();
    assert_ne!(old, lines);
    fs::write(list, lines).unwrap();
}
