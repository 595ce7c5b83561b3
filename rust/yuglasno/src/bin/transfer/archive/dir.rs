//! DIR as an archive: locked against other runs, with a folder for what is not listed yet.
//!
//! Drafts have a folder of their own, so that what an interrupted run leaves is known by its place, and no name of a job is
//! taken for a draft's. It is on DIR's file system, so that a draft gets its name by a rename, and goes with the run.
use crate::keep::flush_folder;
use crate::say::say;
use crate::stop::{Stop, CANNOT_CREATE, NO_INPUT};
use std::fs::{self, File, OpenOptions, TryLockError};
use std::io::{self, ErrorKind};
use std::os::unix::fs::OpenOptionsExt;
use std::path::{Path, PathBuf};
use yuglasno::archive::names::{DETAILS, SUMS, UNFINISHED};

pub struct Dir {
    pub path: PathBuf,
    unfinished: PathBuf,
    drafts: u64,
    /// Holds the lock.
    _opened: File,
}

impl Dir {
    /// Opens DIR to write, and makes it where it is not there. What an interrupted run left unfinished goes.
    pub fn opened(path: &Path) -> Result<Self, Stop> {
        let cannot = |error| Stop::new(CANNOT_CREATE, path.display(), error);
        made(path).map_err(cannot)?;
        let opened = folder(path).map_err(cannot)?;
        locked(path, opened.try_lock())?;
        let unfinished = path.join(UNFINISHED);
        emptied(&unfinished).map_err(|e| Stop::new(CANNOT_CREATE, unfinished.display(), e))?;
        Ok(Self { path: path.into(), unfinished, drafts: 0, _opened: opened })
    }

    /// An empty file that is no job's yet. Nobody else can read it.
    pub fn draft(&mut self) -> Result<(File, PathBuf), Stop> {
        self.drafts += 1;
        let path = self.unfinished.join(self.drafts.to_string());
        let made = OpenOptions::new().write(true).create_new(true).mode(0o600).open(&path);
        made.map_err(|e| Stop::new(CANNOT_CREATE, path.display(), e)).map(|file| (file, path))
    }
}

/// What is left of the drafts, and their folder.
impl Drop for Dir {
    fn drop(&mut self) {
        let _ = emptied(&self.unfinished);
        let _ = fs::remove_dir(&self.unfinished);
    }
}

/// DIR to be read, while no run writes to it.
pub fn read_only(path: &Path) -> Result<File, Stop> {
    let opened = folder(path).map_err(|e| Stop::new(NO_INPUT, path.display(), e))?;
    locked(path, opened.try_lock_shared())?;
    Ok(opened)
}

/// DIR, opened. What is no folder is not opened: a pipe would wait for its other end.
fn folder(path: &Path) -> io::Result<File> {
    match fs::metadata(path)?.is_dir() {
        true => File::open(path),
        false => Err(ErrorKind::NotADirectory.into()),
    }
}

/// Where the file system has no locks, the run goes on and says so.
fn locked(path: &Path, lock: Result<(), TryLockError>) -> Result<(), Stop> {
    match lock {
        Ok(()) => {}
        Err(TryLockError::WouldBlock) => {
            return Err(Stop::new(CANNOT_CREATE, path.display(), "another run is at work on it"));
        }
        Err(TryLockError::Error(error)) => {
            say(format_args!("{}: can't be locked ({error}); no other run should write to it", path.display()));
        }
    }
    Ok(())
}

fn made(path: &Path) -> io::Result<()> {
    match fs::create_dir(path) {
        Ok(()) => flush_folder(&path.join("..")),
        Err(error) if error.kind() == ErrorKind::AlreadyExists => Ok(()),
        Err(error) => Err(error),
    }
}

/// The folder of drafts, without drafts. Anything else in it is left alone.
fn emptied(unfinished: &Path) -> io::Result<()> {
    match fs::create_dir(unfinished) {
        Err(error) if error.kind() == ErrorKind::AlreadyExists => {}
        made => return made,
    }
    if !fs::symlink_metadata(unfinished)?.is_dir() {
        return Err(io::Error::new(ErrorKind::NotADirectory, "it is there and no folder"));
    }
    for entry in fs::read_dir(unfinished)? {
        let entry = entry?;
        let name = entry.file_name();
        let draft = name.as_encoded_bytes().iter().all(u8::is_ascii_digit) || name == SUMS || name == DETAILS;
        if draft && !entry.file_type()?.is_dir() {
            fs::remove_file(entry.path())?;
        }
    }
    Ok(())
}
