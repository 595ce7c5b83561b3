//! Places of files in DIR. Below DIR no symbolic link is followed.
use crate::shown::Shown;
use std::ffi::OsStr;
use std::fs::{self, File, Metadata};
use std::io::{self, ErrorKind};
use std::os::unix::ffi::OsStrExt;
use std::os::unix::fs::MetadataExt;
use std::path::{Path, PathBuf};

/// Where a name is in DIR.
pub fn place(dir: &Path, name: &[u8]) -> PathBuf {
    dir.join(OsStr::from_bytes(name))
}

/// The names of the folders that a file is in, from DIR itself, which is empty, on.
pub fn above(name: &[u8]) -> impl Iterator<Item = &[u8]> {
    let slashes = name.iter().enumerate().filter(|(_, byte)| **byte == b'/');
    std::iter::once(&name[..0]).chain(slashes.map(|(at, _)| &name[..at]))
}

/// The numbers of what has this name in DIR; none where nothing has. An error for a folder on the way that is none.
pub fn found(dir: &Path, name: &[u8]) -> io::Result<Option<Metadata>> {
    for folder in above(name).skip(1) {
        match looked_at(&place(dir, folder))? {
            Some(found) if found.is_dir() => {}
            Some(_) => return Err(in_the_way(folder)),
            None => return Ok(None),
        }
    }
    looked_at(&place(dir, name))
}

/// Opens the regular file that has this name in DIR. Anything else is not opened: a pipe would wait for its other end.
pub fn opened(dir: &Path, name: &[u8]) -> io::Result<File> {
    let found = found(dir, name)?.ok_or(ErrorKind::NotFound)?;
    if !found.is_file() {
        return Err(io::Error::new(ErrorKind::InvalidInput, "it is no regular file"));
    }
    let file = File::open(place(dir, name))?;
    let opened = file.metadata()?;
    if (opened.dev(), opened.ino()) != (found.dev(), found.ino()) {
        return Err(io::Error::other("it was replaced meanwhile"));
    }
    Ok(file)
}

/// Makes the folders that a file is in.
pub fn made(dir: &Path, name: &[u8]) -> io::Result<()> {
    for folder in above(name).skip(1) {
        let path = place(dir, folder);
        match fs::create_dir(&path) {
            Err(error) if error.kind() == ErrorKind::AlreadyExists => {
                looked_at(&path)?.filter(Metadata::is_dir).ok_or_else(|| in_the_way(folder))?;
            }
            made => made?,
        }
    }
    Ok(())
}

fn looked_at(path: &Path) -> io::Result<Option<Metadata>> {
    match fs::symlink_metadata(path) {
        Ok(found) => Ok(Some(found)),
        Err(error) if error.kind() == ErrorKind::NotFound => Ok(None),
        Err(error) => Err(error),
    }
}

fn in_the_way(folder: &[u8]) -> io::Error {
    io::Error::new(ErrorKind::NotADirectory, format!("{} is there and no folder", Shown(folder)))
}

#[cfg(test)]
mod tests {
    use super::*;

    #[test]
    fn folders_above() {
        assert_eq!(above(b"a").collect::<Vec<_>>(), [b""]);
        assert_eq!(above(b"a/b/c").collect::<Vec<_>>(), [&b""[..], b"a", b"a/b"]);
    }
}
