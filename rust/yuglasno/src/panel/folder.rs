//! A folder of this machine as a test panel's files, to be read and written.
use super::files::{or_errno, Files, ENOENT, ENOTDIR, NOT_THERE};
use crate::answer::StatV2;
use crate::numbers::FileMode;
use std::ffi::OsStr;
use std::fs::{self, File, Permissions};
use std::io::{self, ErrorKind, Read};
use std::os::unix::ffi::{OsStrExt, OsStringExt};
use std::os::unix::fs::{MetadataExt, PermissionsExt};
use std::path::{Component, Path, PathBuf};
use std::time::{Duration, SystemTime};

pub(super) struct Folder {
    root: PathBuf,
}

impl Folder {
    pub(super) fn new(root: PathBuf) -> Self {
        Self { root }
    }

    /// The place of a path below the root; none for one that leads out of it.
    fn place(&self, path: &[u8]) -> Option<PathBuf> {
        let mut place = self.root.clone();
        for part in Path::new(OsStr::from_bytes(path)).components() {
            match part {
                Component::Normal(name) => place.push(name),
                Component::RootDir | Component::CurDir => {}
                Component::ParentDir | Component::Prefix(_) => return None,
            }
        }
        Some(place)
    }

    fn create(&self, path: &[u8], mode: FileMode, mtime: u32, data: &[u8]) -> io::Result<()> {
        let place = self.place(path).ok_or(io::ErrorKind::PermissionDenied)?;
        if let Some(folder) = place.parent() {
            fs::create_dir_all(folder)?;
        }
        fs::write(&place, data)?;
        fs::set_permissions(&place, Permissions::from_mode(mode.0 & 0o777))?;
        File::open(&place)?.set_modified(SystemTime::UNIX_EPOCH + Duration::from_secs(mtime.into()))
    }
}

/// A file's own numbers.
pub(super) fn numbers(file: &fs::Metadata) -> StatV2 {
    StatV2 {
        error: 0,
        dev: file.dev(),
        ino: file.ino(),
        mode: FileMode(file.mode()),
        nlink: file.nlink() as u32,
        uid: file.uid(),
        gid: file.gid(),
        size: file.size(),
        atime: file.atime(),
        mtime: file.mtime(),
        ctime: file.ctime(),
    }
}

pub(super) fn errno(error: &io::Error) -> u32 {
    match (error.raw_os_error(), error.kind()) {
        (Some(number), _) => number as u32,
        (None, ErrorKind::NotADirectory) => ENOTDIR,
        _ => ENOENT,
    }
}

/// The entries of a folder by their own numbers, in order; none of what can't be listed.
pub(super) fn entries(place: &Path) -> Vec<(Vec<u8>, StatV2)> {
    let Ok(found) = fs::read_dir(place) else { return Vec::new() };
    let mut entries: Vec<_> = found
        .flatten()
        .map(|entry| {
            let stat = entry.metadata().map(|file| numbers(&file)).map_err(|error| errno(&error));
            (entry.file_name().into_vec(), or_errno(stat))
        })
        .collect();
    entries.sort_by(|a, b| a.0.cmp(&b.0));
    entries
}

impl Files for Folder {
    fn stat(&self, path: &[u8]) -> Result<StatV2, u32> {
        let place = self.place(path).ok_or(ENOENT)?;
        fs::metadata(place).map(|file| numbers(&file)).map_err(|error| errno(&error))
    }

    fn list(&self, path: &[u8]) -> Vec<(Vec<u8>, StatV2)> {
        self.place(path).map_or(Vec::new(), |place| entries(&place))
    }

    fn open(&self, path: &[u8]) -> Result<Box<dyn Read>, String> {
        let place = self.place(path).ok_or(NOT_THERE)?;
        match File::open(place) {
            Ok(file) => Ok(Box::new(file)),
            Err(error) => Err(format!("open failed: {error}")),
        }
    }

    fn may_write(&self, path: &[u8]) -> Result<(), String> {
        match self.place(path) {
            Some(place) if place.is_dir() => Err("couldn't create file: Is a directory".into()),
            Some(_) => Ok(()),
            None => Err("couldn't create file: Permission denied".into()),
        }
    }

    fn write(&mut self, path: &[u8], mode: FileMode, mtime: u32, data: &[u8]) -> Result<(), String> {
        self.create(path, mode, mtime, data).map_err(|error| format!("couldn't create file: {error}"))
    }
}
