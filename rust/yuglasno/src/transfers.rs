//! Whole transfers over a link: a pull to a writer, a push from a reader, a listing entry by entry. v2 is used where the
//! banner has it: a v2 start that is refused with 10 has changed and written nothing, and v1 is started instead.
use crate::answer::{Answer, Details};
use crate::call::Call;
use crate::error::Error;
use crate::index::Index;
use crate::link::Link;
use crate::moment::Moment;
use crate::numbers::{FileMode, SyncFlags};
use crate::runs::Ended;
use crate::session::Session;
use crate::DATA_MOST;
use std::io::{ErrorKind, Read, Write};
use std::{fmt, io};

/// Why a transfer did not go through: the session's answer, or the file's own error.
pub enum Failure {
    /// The session's answer.
    Session(Error),
    /// The reader or writer on this side failed. The transfer was left where it was, so the session should be closed.
    File(io::Error),
}

impl Failure {
    /// The answer's number; `None` for a failure on this side.
    pub fn number(&self) -> Option<u32> {
        match self {
            Self::Session(error) => Some(error.number()),
            Self::File(_) => None,
        }
    }
}

impl fmt::Display for Failure {
    fn fmt(&self, f: &mut fmt::Formatter<'_>) -> fmt::Result {
        match self {
            Self::Session(error) => error.fmt(f),
            Self::File(error) => error.fmt(f),
        }
    }
}

/// As it is displayed: this is what a `main` that returns it prints.
impl fmt::Debug for Failure {
    fn fmt(&self, f: &mut fmt::Formatter<'_>) -> fmt::Result {
        fmt::Display::fmt(self, f)
    }
}

impl std::error::Error for Failure {
    fn source(&self) -> Option<&(dyn std::error::Error + 'static)> {
        match self {
            Self::Session(error) => error.source(),
            Self::File(error) => Some(error),
        }
    }
}

impl From<Error> for Failure {
    fn from(error: Error) -> Self {
        Self::Session(error)
    }
}

/// Whole transfers over a [`Link`].
impl<R: AsMut<[u8]>, M: AsMut<[u8]>> Session<R, M> {
    /// Pulls a file to a writer, chunk by chunk, and says how many bytes it had. What was written before a failure is not
    /// the file.
    ///
    /// ```
    /// use yuglasno::{panel::Panel, Session, CAPACITY};
    /// let mut link = Panel::with_jobs();
    /// let mut session = Session::open(b"", vec![0; CAPACITY], vec![0; CAPACITY]).unwrap();
    /// let mut job = Vec::new();
    /// assert_eq!(session.pull(&mut link, "/jobs/empty.job", &mut job).unwrap(), 0);
    ///
    /// let failure = session.pull(&mut link, "/jobs/none.job", &mut job).unwrap_err();
    /// assert_eq!(failure.to_string(), "14: the panel failed: open failed: No such file or directory");
    /// assert_eq!(format!("{failure:?}"), failure.to_string(), "what `?` in a `main` shows");
    /// ```
    pub fn pull(
        &mut self,
        link: &mut (impl Link + ?Sized),
        path: impl AsRef<[u8]>,
        file: &mut (impl Write + ?Sized),
    ) -> Result<u64, Failure> {
        let path = path.as_ref();
        let mut ended = self.either(link, &Call::RecvV2(path, SyncFlags::NONE), &Call::Recv(path)).0;
        let mut bytes = 0;
        while ended.number == 0 {
            ended = self.run(link, &Call::RecvNext);
            if ended.number == 0 {
                match self.answered(0, None) {
                    Ok(Answer::Chunk(chunk)) => {
                        file.write_all(chunk).map_err(Failure::File)?;
                        bytes += chunk.len() as u64;
                    }
                    _ => return Ok(bytes),
                }
            }
        }
        self.outcome(ended).map(|_| bytes).map_err(Failure::Session)
    }

    /// Pushes what a reader gives, in full DATA messages and the rest in a last one, and says how many bytes it had. `moment` is when it
    /// starts: where the session has hours that don't let it, 25, and nothing is read or written.
    ///
    /// ```
    /// use yuglasno::{panel::Panel, FileMode, Moment, Session};
    /// let mut link = Panel::with_jobs();
    /// let mut session = Session::open(Panel::BANNER, [0; 512], [0; 512]).unwrap();
    /// let (mut job, now) = (&b"SPH -2.25"[..], Moment::now().unwrap());
    /// assert_eq!(session.push(&mut link, "/jobs/new.job", FileMode(0o100644), 5, now, &mut job).unwrap(), 9);
    /// assert_eq!(session.stat(&mut link, "/jobs/new.job").unwrap().size, 9);
    /// ```
    pub fn push(
        &mut self,
        link: &mut (impl Link + ?Sized),
        path: impl AsRef<[u8]>,
        mode: FileMode,
        mtime: u32,
        moment: Moment,
        file: &mut (impl Read + ?Sized),
    ) -> Result<u64, Failure> {
        let path = path.as_ref();
        let v2 = Call::SendV2(path, mode, SyncFlags::NONE, moment);
        let mut ended = self.either(link, &v2, &Call::Send(path, mode, moment)).0;
        let mut data = [0; DATA_MOST];
        let mut bytes = 0;
        while ended.number == 0 {
            let held = filled(file, &mut data).map_err(Failure::File)?;
            bytes += held as u64;
            ended = self.run(link, &Call::Data(&data[..held]));
            if ended.number == 0 && held < DATA_MOST {
                ended = self.run(link, &Call::SendDone(mtime));
                break;
            }
        }
        self.outcome(ended).map(|_| bytes).map_err(Failure::Session)
    }

    /// Lists a folder: `each` gets the name and the numbers of every entry, as they come. Says how many there were.
    ///
    /// ```
    /// use yuglasno::{panel::Panel, Session};
    /// let mut link = Panel::with_jobs();
    /// let mut session = Session::open(Panel::BANNER, [0; 512], [0; 512]).unwrap();
    /// let mut largest = 0;
    /// session.entries(&mut link, "/jobs", |_name, details| largest = details.size().max(largest)).unwrap();
    /// assert!(largest > 100_000);
    /// ```
    pub fn entries(
        &mut self,
        link: &mut (impl Link + ?Sized),
        path: impl AsRef<[u8]>,
        mut each: impl FnMut(&[u8], Details),
    ) -> Result<u64, Error> {
        self.listed(link, path.as_ref(), |session| session.entry().map(|(name, details)| each(name, details)).is_some())
    }

    /// The same, with each entry added to an index; the listing itself, and what it answers, is as without one. `each` is told besides
    /// what became of the entry there: 19 where the index has no room for it. See [`Index`].
    pub fn entries_into<A: AsRef<[u8]> + AsMut<[u8]>>(
        &mut self,
        link: &mut (impl Link + ?Sized),
        path: impl AsRef<[u8]>,
        index: &mut Index<A>,
        mut each: impl FnMut(&[u8], Details, Result<(), Error>),
    ) -> Result<u64, Error> {
        self.listed(link, path.as_ref(), |session| {
            let added = index.add(session);
            session.entry().map(|(name, details)| each(name, details, added)).is_some()
        })
    }

    /// A listing, of which `each` looks at every reply and says whether it was an entry. How many there were.
    fn listed(
        &mut self,
        link: &mut (impl Link + ?Sized),
        path: &[u8],
        mut each: impl FnMut(&mut Self) -> bool,
    ) -> Result<u64, Error> {
        let (mut ended, v2) = self.either(link, &Call::ListV2(path), &Call::List(path));
        let next = if v2 { Call::NextEntryV2 } else { Call::NextEntry };
        let mut entries = 0;
        while ended.number == 0 {
            ended = self.run(link, &next);
            if ended.number == 0 {
                if !each(self) {
                    return Ok(entries);
                }
                entries += 1;
            }
        }
        self.outcome(ended).map(|_| entries)
    }

    /// Name and numbers of the entry that the last reply carries; none at the listing's end.
    fn entry(&mut self) -> Option<(&[u8], Details)> {
        match self.answered(0, None) {
            Ok(Answer::Entry(entry)) => Some((entry.name, Details::V1(entry.stat))),
            Ok(Answer::EntryV2(entry)) => Some((entry.name, Details::V2(entry.stat))),
            _ => None,
        }
    }

    /// A file's numbers, by stat_v2 or stat.
    pub fn details(&mut self, link: &mut (impl Link + ?Sized), path: impl AsRef<[u8]>) -> Result<Details, Error> {
        let path = path.as_ref();
        let (ended, _) = self.either(link, &Call::StatV2(path), &Call::Stat(path));
        match self.outcome(ended)? {
            Answer::Stat(stat) => Ok(Details::V1(stat)),
            Answer::StatV2(stat) => Ok(Details::V2(stat)),
            other => unreachable!("a stat was answered {other:?}"),
        }
    }

    /// The first call, or the second where the panel lacks a feature for it; and whether it was the first.
    fn either(&mut self, link: &mut (impl Link + ?Sized), v2: &Call<'_>, v1: &Call<'_>) -> (Ended, bool) {
        match self.run(link, v2) {
            ended if ended.number == 10 => (self.run(link, v1), false),
            ended => (ended, true),
        }
    }
}

/// Reads until the buffer is full or the reader at its end.
fn filled(file: &mut (impl Read + ?Sized), buffer: &mut [u8]) -> io::Result<usize> {
    let mut held = 0;
    while held < buffer.len() {
        match file.read(&mut buffer[held..]) {
            Ok(0) => break,
            Ok(count) => held += count,
            Err(error) if error.kind() == ErrorKind::Interrupted => {}
            Err(error) => return Err(error),
        }
    }
    Ok(held)
}
