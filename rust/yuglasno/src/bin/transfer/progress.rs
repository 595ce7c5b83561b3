//! How far a transfer is, on a terminal: bytes of all bytes, or files of all files, at most ten times a second.
use crate::check::size_of;
use crate::pull::Seen;
use crate::say::show;
use std::io::{self, IsTerminal};
use std::time::{Duration, Instant};
use yuglasno::Details;

const PAUSE: Duration = Duration::from_millis(100);

/// The terminal's last line, where standard error is a terminal. It is cleared in the end.
pub struct Line {
    next: Option<Instant>,
    shown: bool,
}

impl Line {
    pub fn new() -> Self {
        Self { next: io::stderr().is_terminal().then(|| Instant::now() + PAUSE), shown: false }
    }

    /// Shows the text, unless another was shown only just now.
    pub fn show(&mut self, text: impl FnOnce() -> String) {
        let Some(next) = self.next else { return };
        let now = Instant::now();
        if now >= next {
            (self.next, self.shown) = (Some(now + PAUSE), true);
            show(format_args!("\r{}\x1B[K", text()));
        }
    }

    pub fn clear(&mut self) {
        if self.shown {
            self.shown = false;
            show(format_args!("\r\x1B[K"));
        }
    }
}

impl Drop for Line {
    fn drop(&mut self) {
        self.clear();
    }
}

/// A count of bytes.
pub struct Progress {
    bytes: u64,
    total: Option<u64>,
    line: Line,
}

impl Progress {
    pub fn of(total: Option<u64>) -> Self {
        Self { bytes: 0, total, line: Line::new() }
    }

    pub fn count(&mut self, bytes: usize) {
        self.bytes += bytes as u64;
        let (bytes, total) = (self.bytes, self.total);
        self.line.show(|| far(bytes, total));
    }
}

fn far(bytes: u64, total: Option<u64>) -> String {
    let kib = bytes >> 10;
    match total {
        Some(total) if total > 0 => {
            let percent = u128::from(bytes) * 100 / u128::from(total);
            format!("{kib} of {} KiB, {percent} %", total >> 10)
        }
        _ => format!("{kib} KiB"),
    }
}

impl Seen for Progress {
    fn numbers(&mut self, before: &Details) {
        self.total = size_of(before);
    }

    fn chunk(&mut self, bytes: &[u8]) {
        self.count(bytes.len());
    }
}
