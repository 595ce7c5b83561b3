//! The jobs of an archive, as the panel that they came from said them: what both lists have, and nothing else.
use super::files::{or_errno, Files, EIO, ENOENT, ENOTDIR, IS_FOLDER, NOT_THERE, READ_ONLY};
use super::read_only::name_of;
use super::summed::Summed;
use super::unserved::Unserved;
use crate::answer::StatV2;
use crate::archive::folders::{self, above};
use crate::archive::listed::{fault, text, Listed, DETAILS_HEAD};
use crate::archive::names::{joined, DETAILS, SUMS};
use crate::archive::numbers::Numbers;
use crate::archive::sha256::Sum;
use crate::numbers::FileMode;
use std::collections::{BTreeMap, BTreeSet};
use std::fs::File;
use std::io::Read;
use std::path::{Path, PathBuf};

pub(super) struct Archived {
    root: PathBuf,
    jobs: BTreeMap<Vec<u8>, (Numbers, Sum)>,
    /// The folders that jobs are in, and the root, which is empty.
    folders: BTreeSet<Vec<u8>>,
    /// Holds a lock, as long as the archive is served.
    _opened: File,
}

/// A folder of an archive: its lists have no numbers of one.
const FOLDER: FileMode = FileMode(0o040_555);

impl Archived {
    /// The archive in a folder, which is opened as this file; none where it has no lists of one.
    pub(super) fn read(root: &Path, opened: &File) -> Result<Option<Self>, Unserved> {
        let unread = |list: &str, why: String| Unserved::List(root.join(list), why);
        let text = |list| text(&root.join(list)).map_err(|error| unread(list, error.to_string()));
        let (sums, details) = match (text(SUMS)?, text(DETAILS)?) {
            (Some(sums), Some(details)) => (sums, details),
            (None, Some(details)) if details.starts_with(DETAILS_HEAD.as_bytes()) => {
                return Err(unread(SUMS, format!("it is not there, and {DETAILS} is")));
            }
            _ => return Ok(None),
        };
        let (sums, details) = (Listed::<Sum>::read(&sums, ""), Listed::<Numbers>::read(&details, DETAILS_HEAD));
        for (list, bad) in [(SUMS, &sums.bad), (DETAILS, &details.bad)] {
            if let Some(line) = bad.first() {
                return Err(unread(list, fault(*line)));
            }
        }
        let opened = opened.try_clone().map_err(|error| Unserved::Folder(root.into(), error))?;
        Ok(Some(Self::new(root.into(), sums, details, opened)))
    }

    fn new(root: PathBuf, sums: Listed<Sum>, details: Listed<Numbers>, opened: File) -> Self {
        let both = |(name, sum)| details.files.get(&name).map(|numbers| (name, (*numbers, sum)));
        let jobs: BTreeMap<_, _> = sums.files.into_iter().filter_map(both).collect();
        let mut folders: BTreeSet<_> = jobs.keys().flat_map(|name| above(name).map(<[u8]>::to_vec)).collect();
        folders.insert(Vec::new());
        Self { root, jobs, folders, _opened: opened }
    }

    fn numbers(&self, name: &[u8]) -> Result<StatV2, u32> {
        match self.jobs.get(name) {
            Some((numbers, _)) => self.is_whole(name, numbers).map(|()| as_said(numbers)).map_err(|_| EIO),
            None if self.folders.contains(name) => Ok(StatV2 { mode: FOLDER, ..StatV2::default() }),
            None if above(name).any(|folder| self.jobs.contains_key(folder)) => Err(ENOTDIR),
            None => Err(ENOENT),
        }
    }

    /// Whether the file can still be what the panel said: why not.
    fn is_whole(&self, name: &[u8], numbers: &Numbers) -> Result<(), String> {
        let size = numbers.size;
        match folders::found(&self.root, name) {
            Ok(Some(file)) if !file.is_file() => Err("it is no regular file any more".into()),
            Ok(Some(file)) if file.len() == size => Ok(()),
            Ok(Some(file)) => Err(format!("{size} bytes are listed, and its file has {}", file.len())),
            Ok(None) => Err("it is listed, and its file is not there".into()),
            Err(error) => Err(error.to_string()),
        }
    }
}

/// What the lists don't have of a job is 0.
fn as_said(numbers: &Numbers) -> StatV2 {
    let Numbers { size, mtime, mode } = *numbers;
    StatV2 { mode: FileMode(mode), size, mtime, ..StatV2::default() }
}

fn damaged(why: impl std::fmt::Display) -> String {
    format!("open failed: the archive no longer has what the panel said: {why}")
}

impl Files for Archived {
    fn stat(&self, path: &[u8]) -> Result<StatV2, u32> {
        self.numbers(&name_of(path).ok_or(ENOENT)?)
    }

    fn list(&self, path: &[u8]) -> Vec<(Vec<u8>, StatV2)> {
        let Some(folder) = name_of(path).filter(|name| self.folders.contains(name)) else { return Vec::new() };
        let inside = joined(&folder, b"");
        let below = self.jobs.range(inside.clone()..).map_while(|(name, _)| name.strip_prefix(&inside[..]));
        let entry = |name: &[u8]| name.split(|byte| *byte == b'/').next().unwrap_or_default().to_vec();
        let names: BTreeSet<Vec<u8>> = below.map(entry).collect();
        let stat = |name: &[u8]| or_errno(self.numbers(&joined(&folder, name)));
        names.into_iter().map(|name| (name.clone(), stat(&name))).collect()
    }

    fn open(&self, path: &[u8]) -> Result<Box<dyn Read>, String> {
        let name = name_of(path).ok_or(NOT_THERE)?;
        let Some((numbers, sum)) = self.jobs.get(&name) else {
            return Err(if self.folders.contains(&name) { IS_FOLDER } else { NOT_THERE }.into());
        };
        self.is_whole(&name, numbers).map_err(damaged)?;
        let file = folders::opened(&self.root, &name).map_err(damaged)?;
        Ok(Box::new(Summed::new(file, numbers.size, *sum)))
    }

    fn may_write(&self, _path: &[u8]) -> Result<(), String> {
        Err(READ_ONLY.into())
    }

    fn write(&mut self, _path: &[u8], _mode: FileMode, _mtime: u32, _data: &[u8]) -> Result<(), String> {
        Err(READ_ONLY.into())
    }
}
