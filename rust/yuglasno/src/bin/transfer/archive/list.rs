//! A list of an archive's files: a line for each, in memory and on disk.
//!
//! Lines are added at the list's end, in one write, and flushed. What a crash leaves of such a write is a torn end: bytes
//! that are no line. It is passed over where the list is read, and goes when the list is written anew: as a file of its
//! own, flushed, that then takes the list's name.
use crate::keep::flush_folder;
use crate::stop::{Stop, IO, NO_INPUT};
use std::collections::BTreeMap;
use std::fs::{self, File, OpenOptions};
use std::io::{self, Write};
use std::path::{Path, PathBuf};
use yuglasno::archive::lines::{self, Value};
use yuglasno::archive::listed::{text, Listed};

pub struct List<V> {
    pub path: PathBuf,
    /// The first line, with its end; or nothing.
    head: &'static str,
    pub files: BTreeMap<Vec<u8>, V>,
    /// The numbers of lines that can't be read, with others behind them, or that name a file once more.
    pub bad: Vec<usize>,
    /// Whether there are bytes at the end that are no line.
    pub torn: bool,
    /// Whether it is on disk at all.
    pub there: bool,
}

impl<V: Value> List<V> {
    /// The list as it is on disk, or an empty one where it is not there.
    pub fn read(path: PathBuf, head: &'static str) -> Result<Self, Stop> {
        let text = text(&path).map_err(|e| Stop::new(NO_INPUT, path.display(), e))?;
        let there = text.is_some();
        let Listed { files, bad, torn } = Listed::read(&text.unwrap_or(head.into()), head);
        Ok(Self { path, head, files, bad, torn, there })
    }

    /// Adds files that the list does not have, and flushes it. What can't be added whole is cut off again.
    pub fn add(&mut self, files: &[(Vec<u8>, V)]) -> Result<(), Stop> {
        let lines: Vec<u8> = files.iter().flat_map(|(name, value)| lines::written(name, value)).collect();
        added(&self.path, &lines).map_err(|e| self.stop(&e))?;
        self.files.extend(files.iter().cloned());
        Ok(())
    }

    /// Writes the list anew, by way of a file in the folder `by`, and flushes its own folder.
    pub fn write(&mut self, by: &Path) -> Result<(), Stop> {
        let mut text = self.head.as_bytes().to_vec();
        text.extend(self.files.iter().flat_map(|(name, value)| lines::written(name, value)));
        let draft = by.join(self.path.file_name().unwrap_or_default());
        let written = replaced(&draft, &self.path, &text);
        let flushed = written.and_then(|()| flush_folder(self.path.parent().unwrap_or(Path::new("."))));
        flushed.map_err(|e| self.stop(&e))?;
        (self.torn, self.there) = (false, true);
        Ok(())
    }

    fn stop(&self, error: &io::Error) -> Stop {
        Stop::new(IO, self.path.display(), error)
    }
}

fn added(path: &Path, text: &[u8]) -> io::Result<()> {
    let mut file = OpenOptions::new().append(true).open(path)?;
    let before = file.metadata()?.len();
    file.write_all(text).and_then(|()| file.sync_all()).inspect_err(|_| {
        let _ = file.set_len(before);
    })
}

/// Gives the text the name `path`, once it is on disk as `draft`, a file of its own, and the permission bits of the file that
/// is there.
fn replaced(draft: &Path, path: &Path, text: &[u8]) -> io::Result<()> {
    let mut file = File::create_new(draft)?;
    let renamed = file.write_all(text).and_then(|()| {
        if let Ok(found) = fs::metadata(path) {
            file.set_permissions(found.permissions())?;
        }
        file.sync_all()?;
        fs::rename(draft, path)
    });
    renamed.inspect_err(|_| {
        let _ = fs::remove_file(draft);
    })
}
