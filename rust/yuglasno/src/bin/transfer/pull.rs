//! A pull: to a file that gets its name only where its bytes are what the panel's numbers say, or to standard output.
use crate::check::{self, size_of, time_of};
use crate::keep::Draft;
use crate::peer::Peer;
use crate::say::shown;
use crate::stop::{Stop, CANNOT_CREATE, IO, NOT_AS_SAID};
use crate::target::Target;
use std::fmt::Display;
use std::io::{self, Write};
use yuglasno::{Details, Failure, Shown};

/// A file that was pulled, checked and named.
pub struct Stored {
    pub bytes: u64,
    /// The panel's numbers of it, the same before and after.
    pub details: Details,
    /// Whether the file has the panel's mtime: not where the panel doesn't say it, or the file system can't keep it.
    pub timed: bool,
}

/// Pulls a path to a target; `seen` gets every chunk once.
pub fn to_file(peer: &mut Peer<'_>, path: &[u8], target: &Target, seen: &mut dyn Seen) -> Result<Stored, Stop> {
    let name = shown(&target.file);
    let mut draft = Draft::beside(target).map_err(|e| Stop::new(CANNOT_CREATE, name, e))?;
    let details = peer.details(path)?;
    let bytes = received(peer, path, details, &mut draft, seen, &name)?;
    let mtime = time_of(&details);
    let timed = draft.keep(target, mtime).map_err(|e| Stop::new(IO, name, e))?;
    Ok(Stored { bytes, details, timed: timed && mtime.is_some() })
}

/// The bytes of a path to a writer, checked against the panel's numbers before and after.
pub fn received(
    peer: &mut Peer<'_>,
    path: &[u8],
    before: Details,
    to: &mut dyn Write,
    seen: &mut dyn Seen,
    name: &dyn Display,
) -> Result<u64, Stop> {
    let refused = |why| Stop::new(NOT_AS_SAID, Shown(path), why);
    check::has_bytes(&before).map_err(refused)?;
    seen.numbers(&before);
    let mut way = Way { to, seen, bytes: 0 };
    let pulled = peer.session.pull(peer.link, path, &mut way);
    let bytes = way.bytes;
    let all = size_of(&before).map_or(String::new(), |size| format!(" of {size}"));
    let far = || format!("{} to {name}, after {bytes}{all} bytes", Shown(path));
    pulled.map_err(|failure| stopped(failure, name).about(far()))?;
    let after = peer.details(path).map_err(|stop| stop.about("the look at its numbers after the pull"))?;
    check::pulled(&before, &after, bytes).map_err(|why| refused(why).about(far()))?;
    Ok(bytes)
}

fn stopped(failure: Failure, name: &dyn Display) -> Stop {
    match failure {
        Failure::File(error) => Stop::new(IO, name, error),
        failure => failure.into(),
    }
}

/// Who sees a pull go by: a count, a digest.
pub trait Seen {
    /// The numbers from before the pull.
    fn numbers(&mut self, _before: &Details) {}
    /// Bytes that were written.
    fn chunk(&mut self, bytes: &[u8]);
}

struct Way<'a> {
    to: &'a mut dyn Write,
    seen: &'a mut dyn Seen,
    bytes: u64,
}

impl Write for Way<'_> {
    fn write(&mut self, bytes: &[u8]) -> io::Result<usize> {
        let count = self.to.write(bytes)?;
        self.seen.chunk(&bytes[..count]);
        self.bytes += count as u64;
        Ok(count)
    }

    fn flush(&mut self) -> io::Result<()> {
        self.to.flush()
    }
}
