//! A file that gets its name only when it is whole and on disk. Until then it is a draft: a file of its own in the same
//! folder, under a short name that no other run has. A draft that is not kept is removed.
use crate::signals;
use crate::target::Target;
use std::fs::{self, File, FileTimes, OpenOptions};
use std::io::{self, ErrorKind, Write};
use std::os::unix::fs::OpenOptionsExt;
use std::path::{Path, PathBuf};
use std::process;
use std::sync::atomic::{AtomicU32, Ordering};
use std::time::{Duration, SystemTime};

pub struct Draft {
    file: File,
    path: PathBuf,
}

/// Drafts of this run so far.
static COUNT: AtomicU32 = AtomicU32::new(0);
/// How many names are tried after the first.
const TRIES: u32 = 100;

impl Draft {
    /// An empty draft in the target's folder. Nobody else can read it where the file that is there has bits of its own.
    pub fn beside(target: &Target) -> io::Result<Self> {
        File::open(&target.folder)?; // as for its flush
        let mode = if target.permissions.is_some() { 0o600 } else { 0o666 };
        let mut tries = 0;
        loop {
            let path = target.folder.join(name());
            match OpenOptions::new().write(true).create_new(true).mode(mode).open(&path) {
                Ok(file) => {
                    signals::draft_is(Some(&path));
                    return Ok(Self { file, path });
                }
                Err(error) if error.kind() == ErrorKind::AlreadyExists && tries < TRIES => tries += 1,
                Err(error) => return Err(error),
            }
        }
    }

    /// Gives the draft the target's name and this time, once it is on disk, and flushes the folder. Says whether the file system
    /// took the time.
    pub fn keep(self, target: &Target, mtime: Option<i64>) -> io::Result<bool> {
        if let Some(permissions) = &target.permissions {
            self.file.set_permissions(permissions.clone())?;
        }
        let timed = mtime.is_none_or(|seconds| set_time(&self.file, seconds));
        self.file.sync_all()?;
        fs::rename(&self.path, &target.file)?;
        flush_folder(&target.folder)?;
        Ok(timed)
    }
}

/// A hidden name: process, time, and how many there were before.
fn name() -> String {
    let time = SystemTime::now().duration_since(SystemTime::UNIX_EPOCH).map_or(0, |since| since.as_nanos() as u64);
    format!(".transfer-{:x}-{time:x}-{:x}", process::id(), COUNT.fetch_add(1, Ordering::Relaxed))
}

/// Whether the file has this time now, in Unix seconds. A file system takes only times of its own range.
pub fn set_time(file: &File, seconds: i64) -> bool {
    let away = Duration::from_secs(seconds.unsigned_abs());
    let epoch = SystemTime::UNIX_EPOCH;
    let time = if seconds < 0 { epoch.checked_sub(away) } else { epoch.checked_add(away) };
    let Some(time) = time else { return false };
    let set = file.set_times(FileTimes::new().set_modified(time));
    set.and_then(|()| file.metadata()?.modified()).is_ok_and(|kept| kept == time)
}

/// The folder's names on disk. A file system that has no flush of folders says so with EINVAL.
pub fn flush_folder(folder: &Path) -> io::Result<()> {
    match File::open(folder)?.sync_all() {
        Err(error) if error.kind() == ErrorKind::InvalidInput => Ok(()),
        done => done,
    }
}

impl Write for Draft {
    fn write(&mut self, bytes: &[u8]) -> io::Result<usize> {
        self.file.write(bytes)
    }

    fn flush(&mut self) -> io::Result<()> {
        self.file.flush()
    }
}

/// A draft that was kept no longer has this name.
impl Drop for Draft {
    fn drop(&mut self) {
        let _ = fs::remove_file(&self.path);
        signals::draft_is(None);
    }
}
