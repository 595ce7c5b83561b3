//! The archive's two lists together. SHA256SUMS is what DIR says it holds: a name is in it only while a whole file of that
//! sum is there, on disk. DETAILS has the numbers of these files, and of those that a run was about to put there: a name in
//! DETAILS alone is left from a run that was interrupted.
//!
//! So a job's line in SHA256SUMS goes before its file is replaced, its line in DETAILS comes before the file, and its line
//! in SHA256SUMS after it, each step on disk before the next: [`Lists::announce`], the renames, [`Lists::confirm`].
use super::list::List;
use crate::stop::{Stop, NO_INPUT};
use std::fs;
use std::path::{Path, PathBuf};
use yuglasno::archive::folders;
use yuglasno::archive::listed::{fault, DETAILS_HEAD};
use yuglasno::archive::names::{DETAILS, SUMS, UNFINISHED};
use yuglasno::archive::numbers::Numbers;
use yuglasno::archive::sha256::Sum;

pub struct Lists {
    pub sums: List<Sum>,
    pub details: List<Numbers>,
    /// The folder by way of which they are written anew.
    by: PathBuf,
}

impl Lists {
    /// As they are on disk.
    pub fn read(dir: &Path) -> Result<Self, Stop> {
        let (sums, details) = (List::read(dir.join(SUMS), "")?, List::read(dir.join(DETAILS), DETAILS_HEAD)?);
        Ok(Self { sums, details, by: dir.join(UNFINISHED) })
    }

    /// As they are on disk, and mended: a torn end goes, and so do a sum without numbers and numbers without a file. Lists
    /// that are none of an archive's are left alone.
    pub fn mended(dir: &Path) -> Result<Self, Stop> {
        let mut lists = Self::read(dir)?;
        if let Some((list, fault)) = lists.faults().into_iter().next() {
            return Err(Stop::new(NO_INPUT, dir.join(list).display(), fault));
        }
        let Self { sums, details, by } = &mut lists;
        let before = (sums.files.len(), details.files.len());
        sums.files.retain(|name, _| details.files.contains_key(name));
        details.files.retain(|name, _| sums.files.contains_key(name) || is_there(dir, name));
        let whole = sums.there && details.there && !sums.torn && !details.torn;
        if !whole || before != (sums.files.len(), details.files.len()) {
            // DETAILS first: SHA256SUMS alone would be somebody else's
            details.write(by)?;
            sums.write(by)?;
        }
        Ok(lists)
    }

    /// What no interruption leaves a list like: the list, and what is wrong with it.
    pub fn faults(&self) -> Vec<(&'static str, String)> {
        let mut faults = Vec::new();
        for (list, lines) in [(SUMS, &self.sums.bad), (DETAILS, &self.details.bad)] {
            faults.extend(lines.iter().map(|line| (list, fault(*line))));
        }
        if self.sums.there && !self.details.there {
            faults.push((DETAILS, format!("it is not there, and {SUMS} is")));
        }
        faults
    }

    /// The numbers of a file that DIR says it holds.
    pub fn held(&self, name: &[u8]) -> Option<&Numbers> {
        self.sums.files.get(name).and_then(|_| self.details.files.get(name))
    }

    /// Whether a file of this name is the archive's own.
    pub fn owns(&self, name: &[u8]) -> bool {
        self.details.files.contains_key(name)
    }

    /// Before files get these names: what they will be.
    pub fn announce(&mut self, files: &[(Vec<u8>, Numbers)]) -> Result<(), Stop> {
        if !files.iter().any(|(name, _)| self.owns(name)) {
            return self.details.add(files);
        }
        let before = self.sums.files.len();
        for (name, _) in files {
            self.sums.files.remove(name);
        }
        if self.sums.files.len() < before {
            self.sums.write(&self.by)?;
        }
        self.details.files.extend(files.iter().cloned());
        self.details.write(&self.by)
    }

    /// What was announced and got no file.
    pub fn withdraw(&mut self, names: &[Vec<u8>]) -> Result<(), Stop> {
        for name in names {
            self.details.files.remove(name);
        }
        match names {
            [] => Ok(()),
            _ => self.details.write(&self.by),
        }
    }

    /// Once they are there, on disk: that DIR holds them.
    pub fn confirm(&mut self, files: &[(Vec<u8>, Sum)]) -> Result<(), Stop> {
        self.sums.add(files)
    }
}

fn is_there(dir: &Path, name: &[u8]) -> bool {
    fs::symlink_metadata(folders::place(dir, name)).is_ok()
}
