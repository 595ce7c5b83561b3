//! The panel's side of sync, v1 and v2, in memory or over a stream: a test peer with a few jobs of its own or a folder, or an archive in the
//! place of the panel that it came from. It hears by the library's reader of requests ([`Call::heard`](crate::Call::heard)), and speaks
//! by its writer of replies ([`PanelReply`](crate::PanelReply)).
mod answers;
mod archived;
mod files;
mod folder;
mod jobs;
mod read_only;
mod summed;
mod under_way;
mod unserved;

pub use unserved::Unserved;

use crate::error::Error;
use crate::ids::Ids;
use crate::numbers::FileMode;
use crate::raw::SETTINGS;
use crate::settings::Settings;
use files::Files;
use std::fs::{self, File, TryLockError};
use std::io::{self, ErrorKind, Read, Write};
use std::path::{Path, PathBuf};
use under_way::{Turn, UnderWay};

/// A panel. It is a [`Link`](crate::Link) as it stands: requests are written to it, and its replies read from it, in
/// pieces as [`Panel::cut`] says. With nothing to say it reads as closed.
///
/// As on AOSP's service a FAIL ends it, once a push under way is through. What is no request gets one too, `bad request`.
pub struct Panel {
    files: Box<dyn Files>,
    settings: Settings,
    heard: Vec<u8>,
    replies: Vec<u8>,
    said: usize,
    under_way: Option<UnderWay>,
    push: Push,
    ended: bool,
    cut: usize,
    turns: u64,
}

/// A push under way.
enum Push {
    None,
    Taking {
        path: Vec<u8>,
        mode: FileMode,
        keep: bool,
        data: Vec<u8>,
    },
    /// It has failed: what still comes of it is dropped.
    Failed,
}

impl Panel {
    /// What such a panel's banner says.
    pub const BANNER: &'static [u8] = b"device::features=stat_v2,ls_v2,sendrecv_v2,sendrecv_v2_dry_run_send";

    /// A panel with a few jobs under `/jobs`.
    pub fn with_jobs() -> Self {
        Self::with_files(Box::new(jobs::Jobs::samples()))
    }

    /// A panel that serves a folder of this machine as its root, and pushes into it.
    pub fn with_folder(root: impl Into<PathBuf>) -> Self {
        Self::with_files(Box::new(folder::Folder::new(root.into())))
    }

    /// A panel that serves a folder of this machine as its root and writes nothing. An archive that `transfer archive` made has the jobs
    /// that both its lists have, by the numbers that the panel said; any other folder its files, by their own. Below the folder no
    /// symbolic link is followed. An archive's lists are read now, and no run of `archive` writes to it as long as it is served.
    pub fn read_only(root: impl Into<PathBuf>) -> Result<Self, Unserved> {
        let root = root.into();
        let opened = opened(&root)?;
        Ok(match archived::Archived::read(&root, &opened)? {
            Some(archive) => Self::with_files(Box::new(archive)),
            None => Self::with_files(Box::new(read_only::ReadOnly::new(root))),
        })
    }

    fn with_files(files: Box<dyn Files>) -> Self {
        let (settings, heard, replies) = (Settings::published(), Vec::new(), Vec::new());
        let (push, under_way, cut) = (Push::None, None, usize::MAX);
        Self { files, settings, heard, replies, said: 0, under_way, push, ended: false, cut, turns: 0 }
    }

    /// The same panel, which hears and says these ids and no others. Where they are no table, it says nothing: its first request is
    /// an error, 22 or 23.
    pub fn with_ids(mut self, ids: Ids) -> Self {
        let mut bytes = [0; SETTINGS];
        bytes[..ids.as_flattened().len()].copy_from_slice(ids.as_flattened());
        self.settings = Settings::from_bytes(bytes);
        self
    }

    /// The same panel, whose replies come in odd pieces of one to `most` bytes.
    pub fn cut(mut self, most: usize) -> Self {
        self.cut = most.max(1);
        self
    }

    /// A file as it is on the panel.
    pub fn file(&self, path: &str) -> Option<Vec<u8>> {
        let (mut file, mut bytes) = (self.files.open(path.as_bytes()).ok()?, Vec::new());
        file.read_to_end(&mut bytes).ok().map(|_| bytes)
    }

    /// Puts a file on the panel.
    pub fn put(&mut self, path: &str, mode: FileMode, mtime: u32, data: &[u8]) -> Result<(), String> {
        self.files.write(path.as_bytes(), mode, mtime, data)
    }

    /// Serves one host over a stream, until it quits or closes, or a FAIL ends the service.
    pub fn serve(&mut self, reader: &mut impl Read, writer: &mut impl Write) -> io::Result<()> {
        let mut window = [0; 16_384];
        loop {
            loop {
                match self.read(&mut window)? {
                    0 => break,
                    count => writer.write_all(&window[..count]).and_then(|()| writer.flush())?,
                }
            }
            if self.ended {
                return Ok(());
            }
            match reader.read(&mut window)? {
                0 => return Ok(()),
                count => self.write_all(&window[..count])?,
            }
        }
    }

    /// Makes the next message of what is under way, where none waits to be read.
    fn go_on(&mut self) -> Result<(), Error> {
        while self.said == self.replies.len() {
            let Some(under_way) = &mut self.under_way else { break };
            match under_way.next(&self.settings, &mut self.replies)? {
                Turn::Said => continue,
                Turn::Over => self.under_way = None,
                Turn::Failed(text) => {
                    self.under_way = None;
                    self.end_with(&text)?;
                }
            }
            self.attend()?;
        }
        Ok(())
    }

    /// An answer of the library that leaves nothing to say: it ends the panel, and is whoever reads or writes' to know.
    fn broken(&mut self, error: Error) -> io::Error {
        (self.ended, self.under_way) = (true, None);
        io::Error::other(error)
    }
}

/// A folder, opened and locked against runs that write to it; where the file system has no locks, opened alone.
fn opened(root: &Path) -> Result<File, Unserved> {
    let unserved = |error| Unserved::Folder(root.into(), error);
    // what is no folder is not opened: a pipe would wait for its other end
    if !fs::metadata(root).map_err(unserved)?.is_dir() {
        return Err(unserved(ErrorKind::NotADirectory.into()));
    }
    let opened = File::open(root).map_err(unserved)?;
    match opened.try_lock_shared() {
        Err(TryLockError::WouldBlock) => Err(Unserved::Busy(root.into())),
        _ => Ok(opened),
    }
}

impl Read for Panel {
    fn read(&mut self, window: &mut [u8]) -> io::Result<usize> {
        self.go_on().map_err(|error| self.broken(error))?;
        let waiting = &self.replies[self.said..];
        self.turns = self.turns.wrapping_mul(6_364_136_223_846_793_005).wrapping_add(1_442_695_040_888_963_407);
        let piece = if self.cut == usize::MAX { self.cut } else { 1 + (self.turns >> 33) as usize % self.cut };
        let count = piece.min(waiting.len()).min(window.len());
        window[..count].copy_from_slice(&waiting[..count]);
        self.said += count;
        if self.said == self.replies.len() {
            self.replies.clear();
            self.said = 0;
        }
        Ok(count)
    }
}

impl Write for Panel {
    fn write(&mut self, piece: &[u8]) -> io::Result<usize> {
        if self.ended {
            return Err(ErrorKind::BrokenPipe.into());
        }
        self.heard.extend_from_slice(piece);
        self.attend().map_err(|error| self.broken(error))?;
        Ok(piece.len())
    }

    fn flush(&mut self) -> io::Result<()> {
        Ok(())
    }
}
