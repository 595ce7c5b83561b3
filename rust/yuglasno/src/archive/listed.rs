//! A list of an archive's files as its text has it, a line for each.
use super::lines::{self, Value};
use std::collections::BTreeMap;
use std::fs;
use std::io::{self, ErrorKind};
use std::path::Path;

/// The first line of DETAILS; SHA256SUMS has none of its own.
pub const DETAILS_HEAD: &str =
    "# size, mtime in Unix seconds, mode in octal digits, name; names are written as in SHA256SUMS\n";

pub struct Listed<V> {
    pub files: BTreeMap<Vec<u8>, V>,
    /// The numbers of lines that can't be read, with others behind them, or that name a file once more.
    pub bad: Vec<usize>,
    /// Whether there are bytes at the end that are no line.
    pub torn: bool,
}

impl<V: Value> Listed<V> {
    /// The list of a text that begins with this line, or with none.
    pub fn read(text: &[u8], head: &str) -> Self {
        let mut list = Self { files: BTreeMap::new(), bad: vec![], torn: false };
        let lines = text.strip_prefix(head.as_bytes()).unwrap_or_else(|| {
            list.bad.push(1);
            let end = text.iter().position(|byte| *byte == b'\n').map_or(text.len(), |at| at + 1);
            &text[end..]
        });
        list.take(lines, 1 + head.lines().count());
        list
    }

    fn take(&mut self, text: &[u8], first: usize) {
        let mut unread = Vec::new();
        for (number, line) in (first..).zip(text.split_inclusive(|byte| *byte == b'\n')) {
            let Some((name, value)) = line.strip_suffix(b"\n").and_then(lines::read) else {
                unread.push(number);
                continue;
            };
            self.bad.append(&mut unread);
            if self.files.insert(name, value).is_some() {
                self.bad.push(number);
            }
        }
        self.torn = !unread.is_empty();
    }
}

/// What is said of a bad line.
pub fn fault(line: usize) -> String {
    format!("line {line} is none of an archive's")
}

/// The text of a regular file; none where nothing is there.
pub fn text(path: &Path) -> io::Result<Option<Vec<u8>>> {
    match fs::symlink_metadata(path) {
        Ok(found) if found.is_file() => fs::read(path).map(Some),
        Ok(_) => Err(io::Error::new(ErrorKind::InvalidInput, "it is no regular file")),
        Err(error) if error.kind() == ErrorKind::NotFound => Ok(None),
        Err(error) => Err(error),
    }
}
