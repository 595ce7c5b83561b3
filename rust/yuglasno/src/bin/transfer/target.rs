//! Where a pulled file goes: what FILE names, found out before the panel is asked.
use crate::say::shown;
use crate::stop::{Stop, CANNOT_CREATE};
use std::ffi::OsStr;
use std::fs::{self, Metadata, Permissions};
use std::io::ErrorKind;
use std::os::unix::ffi::OsStrExt;
use std::os::unix::fs::PermissionsExt;
use std::path::{Path, PathBuf};

/// A name that is free or a regular file's.
pub struct Target {
    pub file: PathBuf,
    pub folder: PathBuf,
    /// The permission bits of the file that is there.
    pub permissions: Option<Permissions>,
}

impl Target {
    /// What FILE names for a pull of this path: itself, or in a folder the path's last name.
    pub fn of(file: &Path, path: &[u8]) -> Result<Self, Stop> {
        if !file.is_dir() {
            return Self::named(file);
        }
        match last_name(path) {
            Some(name) => Self::named(&file.join(name)),
            None => Err(refused(file, "a folder, and the path has no last name for a file in it")),
        }
    }

    /// This name itself. A symbolic link is followed: the file that it leads to is replaced, the link stays.
    fn named(file: &Path) -> Result<Self, Stop> {
        match fs::symlink_metadata(file) {
            Ok(found) if found.is_symlink() => {
                let leads = fs::canonicalize(file).map_err(|e| refused(file, format!("a symbolic link, {e}")))?;
                let found = fs::metadata(&leads).map_err(|e| refused(file, e))?;
                Self::over(&leads, &found)
            }
            Ok(found) => Self::over(file, &found),
            Err(error) if error.kind() == ErrorKind::NotFound => Self::free(file),
            Err(error) => Err(refused(file, error)),
        }
    }

    fn free(file: &Path) -> Result<Self, Stop> {
        let bytes = file.as_os_str().as_bytes();
        match file.file_name() {
            Some(_) if !bytes.ends_with(b"/") && !bytes.ends_with(b"/.") => {
                Ok(Self { file: file.into(), folder: folder_of(file), permissions: None })
            }
            _ => Err(refused(file, "no such folder")),
        }
    }

    fn over(file: &Path, found: &Metadata) -> Result<Self, Stop> {
        if found.is_dir() {
            return Err(refused(file, "it is a folder"));
        }
        if !found.is_file() {
            return Err(refused(file, "it is there and no regular file; `-` is standard output"));
        }
        let permissions = Some(Permissions::from_mode(found.permissions().mode() & 0o777));
        Ok(Self { file: file.into(), folder: folder_of(file), permissions })
    }
}

fn refused(file: &Path, why: impl std::fmt::Display) -> Stop {
    Stop::new(CANNOT_CREATE, shown(file), why)
}

fn folder_of(file: &Path) -> PathBuf {
    match file.parent() {
        Some(folder) if !folder.as_os_str().is_empty() => folder.into(),
        _ => ".".into(),
    }
}

/// The last name of a panel's path; none of `/`, `.` or `..`.
fn last_name(path: &[u8]) -> Option<&OsStr> {
    let name = path.split(|b| *b == b'/').rfind(|name| !name.is_empty())?;
    (name != b"." && name != b".." && !name.contains(&0)).then(|| OsStr::from_bytes(name))
}
