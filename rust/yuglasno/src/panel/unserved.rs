//! Why a folder is not served.
use std::fmt;
use std::io;
use std::path::{Path, PathBuf};

/// Why [`Panel::read_only`](super::Panel::read_only) does not serve a folder. It is displayed with the folder's or the list's name.
#[derive(Debug)]
pub enum Unserved {
    /// It is not there, is no folder, or can't be opened.
    Folder(PathBuf, io::Error),
    /// One of an archive's two lists can't be read, or has a line that is none of an archive's.
    List(PathBuf, String),
    /// A run of `transfer archive` is at work on it.
    Busy(PathBuf),
}

impl Unserved {
    /// What the message is about, and why.
    fn parts(&self) -> (&Path, &dyn fmt::Display) {
        match self {
            Self::Folder(path, error) => (path, error),
            Self::List(path, why) => (path, why),
            Self::Busy(path) => (path, &"another run is at work on it"),
        }
    }
}

impl fmt::Display for Unserved {
    fn fmt(&self, f: &mut fmt::Formatter<'_>) -> fmt::Result {
        let (path, why) = self.parts();
        write!(f, "{}: {why}", path.display())
    }
}

impl std::error::Error for Unserved {}
