//! A folder of this machine that is only read, by its files' own numbers. Below it no symbolic link is followed.
use super::files::{Files, ENOENT, IS_FOLDER, NOT_THERE, READ_ONLY};
use super::folder::{entries, errno, numbers};
use crate::answer::StatV2;
use crate::archive::folders;
use crate::numbers::FileMode;
use std::fs::Metadata;
use std::io::Read;
use std::path::PathBuf;

pub(super) struct ReadOnly {
    root: PathBuf,
}

/// The name that a path has below the root: its parts with a `/` between them. None where it leads out of a folder.
pub(super) fn name_of(path: &[u8]) -> Option<Vec<u8>> {
    let parts = path.split(|byte| *byte == b'/').filter(|part| !matches!(*part, b"" | b"."));
    let parts: Vec<&[u8]> = parts.collect();
    (!parts.contains(&&b".."[..])).then(|| parts.join(&b'/'))
}

impl ReadOnly {
    pub(super) fn new(root: PathBuf) -> Self {
        Self { root }
    }

    /// What a path leads to, by its name below the root.
    fn found(&self, path: &[u8]) -> Result<(Vec<u8>, Metadata), u32> {
        let name = name_of(path).ok_or(ENOENT)?;
        let found = folders::found(&self.root, &name).map_err(|error| errno(&error))?;
        Ok((name, found.ok_or(ENOENT)?))
    }
}

impl Files for ReadOnly {
    fn stat(&self, path: &[u8]) -> Result<StatV2, u32> {
        self.found(path).map(|(_, file)| numbers(&file))
    }

    fn list(&self, path: &[u8]) -> Vec<(Vec<u8>, StatV2)> {
        match self.found(path) {
            Ok((name, file)) if file.is_dir() => entries(&folders::place(&self.root, &name)),
            _ => Vec::new(),
        }
    }

    fn open(&self, path: &[u8]) -> Result<Box<dyn Read>, String> {
        let (name, file) = self.found(path).map_err(|_| NOT_THERE)?;
        if file.is_dir() {
            return Err(IS_FOLDER.into());
        }
        match folders::opened(&self.root, &name) {
            Ok(file) => Ok(Box::new(file)),
            Err(error) => Err(format!("open failed: {error}")),
        }
    }

    fn may_write(&self, _path: &[u8]) -> Result<(), String> {
        Err(READ_ONLY.into())
    }

    fn write(&mut self, _path: &[u8], _mode: FileMode, _mtime: u32, _data: &[u8]) -> Result<(), String> {
        Err(READ_ONLY.into())
    }
}

#[cfg(test)]
mod tests {
    use super::*;

    #[test]
    fn names_below_the_root() {
        for (path, name) in
            [("/", ""), ("", ""), ("a", "a"), ("/a/b", "a/b"), ("//a/./b//", "a/b"), ("/..a/b..", "..a/b..")]
        {
            assert_eq!(name_of(path.as_bytes()).as_deref(), Some(name.as_bytes()), "{path}");
        }
        for path in ["..", "/..", "/a/..", "/a/../b", "../a", "./../a"] {
            assert_eq!(name_of(path.as_bytes()), None, "{path}");
        }
    }
}
