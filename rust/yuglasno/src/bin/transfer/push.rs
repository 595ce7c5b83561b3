//! A push: the bytes that the source had when it was opened, or no DONE; then the panel's numbers of them.
use crate::check;
use crate::peer::Peer;
use crate::progress::Progress;
use crate::say::shown;
use crate::stop::{Stop, NOT_AS_SAID, NO_INPUT};
use std::fs::{File, Metadata};
use std::io::{self, ErrorKind, Read};
use std::os::unix::fs::MetadataExt;
use std::path::Path;
use std::time::SystemTime;
use yuglasno::{Failure, FileMode, Moment, Shown};

/// What standard input is pushed with.
const PLAIN: FileMode = FileMode(0o100_644);
const REGULAR: u32 = 0o100_000;

/// Pushes a file with its own permission bits, or with a mode that is given.
pub fn file(
    peer: &mut Peer<'_>,
    file: &Path,
    path: &[u8],
    mode: Option<FileMode>,
    moment: Moment,
) -> Result<u64, Stop> {
    let name = shown(file).to_string();
    let unread = |error| Stop::new(NO_INPUT, &name, error);
    let opened = File::open(file).map_err(unread)?;
    let about = opened.metadata().map_err(unread)?;
    if about.is_dir() {
        return Err(unread(ErrorKind::IsADirectory.into()));
    }
    let mtime = time(&name, about.mtime())?;
    let mode = mode.unwrap_or(FileMode(REGULAR | about.mode() & 0o777));
    let stamp = Stamp { mode, mtime, moment };
    let total = about.is_file().then_some(about.len());
    let source =
        Source { from: Box::new(&opened), opened: total.map(|_| (&opened, about)), ..Source::new(&name, total) };
    pushed(peer, source, path, stamp)
}

/// Pushes standard input, with the time that it is now.
pub fn stdin(peer: &mut Peer<'_>, path: &[u8], mode: Option<FileMode>, moment: Moment) -> Result<u64, Stop> {
    let name = "standard input";
    let now = SystemTime::now().duration_since(SystemTime::UNIX_EPOCH).map_or(-1, |since| since.as_secs() as i64);
    let stamp = Stamp { mode: mode.unwrap_or(PLAIN), mtime: time(name, now)?, moment };
    pushed(peer, Source::new(name, None), path, stamp)
}

/// A push's time has 32 bits.
fn time(name: &str, seconds: i64) -> Result<u32, Stop> {
    let outside =
        |_| Stop::new(NOT_AS_SAID, name, format!("its mtime {seconds} is outside the 32 bits that a push has for it"));
    u32::try_from(seconds).map_err(outside)
}

/// What a push says of its file, and when it starts.
struct Stamp {
    mode: FileMode,
    mtime: u32,
    moment: Moment,
}

fn pushed(peer: &mut Peer<'_>, mut source: Source<'_>, path: &[u8], stamp: Stamp) -> Result<u64, Stop> {
    let Stamp { mode, mtime, moment } = stamp;
    let sent = peer.session.push(peer.link, path, mode, mtime, moment, &mut source);
    let far = format!("{} to {}, after {}", source.name, Shown(path), source.far());
    let bytes = match sent {
        Ok(bytes) => bytes,
        Err(Failure::File(error)) => return Err(Stop { dropped: true, ..source.stopped(&error) }.about(far)),
        Err(failure) => return Err(Stop::from(failure).about(far)),
    };
    drop(source);
    if mode.is_file() {
        let after = peer.details(path).map_err(|stop| stop.about("the look at its numbers after the push"))?;
        check::pushed(&after, bytes, mtime).map_err(|why| Stop::new(NOT_AS_SAID, Shown(path), why).about(far))?;
    }
    Ok(bytes)
}

/// Where a push's bytes come from.
struct Source<'a> {
    name: &'a str,
    from: Box<dyn Read + 'a>,
    /// A regular file, as it was when it was opened.
    opened: Option<(&'a File, Metadata)>,
    /// Why it is no longer that.
    changed: Option<String>,
    bytes: u64,
    progress: Progress,
}

impl<'a> Source<'a> {
    /// Standard input, of this name.
    fn new(name: &'a str, total: Option<u64>) -> Self {
        let progress = Progress::of(total);
        Self { name, from: Box::new(io::stdin()), opened: None, changed: None, bytes: 0, progress }
    }

    fn far(&self) -> String {
        match &self.opened {
            Some((_, about)) => format!("{} of {} bytes", self.bytes, about.len()),
            None => format!("{} bytes", self.bytes),
        }
    }

    fn stopped(&self, error: &io::Error) -> Stop {
        match &self.changed {
            Some(why) => Stop::new(NOT_AS_SAID, self.name, why),
            None => Stop::new(NO_INPUT, self.name, error),
        }
    }

    /// At the end, and at every byte too many: whether the file is what was opened.
    fn as_opened(&mut self, ended: bool) -> io::Result<()> {
        let Some((file, about)) = &self.opened else { return Ok(()) };
        let numbers = |about: &Metadata| (about.len(), about.mtime(), about.mtime_nsec());
        let same = if ended { self.bytes == about.len() } else { self.bytes <= about.len() };
        if same && (!ended || numbers(&file.metadata()?) == numbers(about)) {
            return Ok(());
        }
        self.changed = Some(format!("it changed meanwhile: {} bytes when it was opened", about.len()));
        Err(ErrorKind::InvalidData.into())
    }
}

impl Read for Source<'_> {
    fn read(&mut self, buffer: &mut [u8]) -> io::Result<usize> {
        let count = self.from.read(buffer)?;
        self.bytes += count as u64;
        self.progress.count(count);
        self.as_opened(count == 0)?;
        Ok(count)
    }
}
