//! What a run says of single files, on standard error, and how far it is.
use crate::panel::{Panel, ERRNO, FAIL, LONG_PATH, NUL_IN_PATH};
use crate::progress::Line;
use crate::say::say;
use crate::stop::{Stop, NOT_AS_SAID, NOT_THERE};
use std::fmt::Display;
use yuglasno::Shown;

pub struct Report {
    line: Line,
    /// Files of the panel that should be in DIR and are not.
    pub left_out: usize,
    /// Sub-folders that were not asked for.
    pub folders: usize,
}

impl Report {
    pub fn new() -> Self {
        Self { line: Line::new(), left_out: 0, folders: 0 }
    }

    /// Says that a file or folder is left out because of this, and goes on. An error where the others would meet the same.
    pub fn stopped(&mut self, name: &[u8], stop: Stop, panel: &mut Panel<'_>) -> Result<(), Stop> {
        if !is_of_one_file(&stop) {
            return Err(stop);
        }
        self.left_out(name, &stop.text);
        match stop.status {
            FAIL => panel.reopen(),
            _ => Ok(()),
        }
    }

    pub fn left_out(&mut self, name: &[u8], why: impl Display) {
        self.left_out += 1;
        self.said("left out", name, why);
    }

    /// An entry that is no file to archive.
    pub fn skipped(&mut self, name: &[u8], why: impl Display) {
        self.said("skipped", name, why);
    }

    fn said(&mut self, what: &str, name: &[u8], why: impl Display) {
        self.line.clear();
        say(format_args!("{what}: {}: {why}", Shown(name)));
    }

    pub fn at(&mut self, count: usize, total: usize) {
        self.line.show(|| format!("{count} of {total}"));
    }
}

/// Whether it says something of one file alone: a path that is refused, a FAIL, an errno, a file that changed or went.
fn is_of_one_file(stop: &Stop) -> bool {
    matches!(stop.status, LONG_PATH | NUL_IN_PATH | FAIL | ERRNO | NOT_AS_SAID | NOT_THERE)
}
