//! Each call over a link: the session's steps are taken until it is answered.
use crate::answer::{Answer, Entry, EntryV2, Stat, StatV2};
use crate::call::{Call, Report};
use crate::error::Error;
use crate::link::{code_of, Fault, Link};
use crate::moment::Moment;
use crate::numbers::{FileMode, SyncFlags};
use crate::reply::{refused, Ask, Part, Reply};
use crate::session::Session;
use std::io;

/// A call's end: the answer's number, and the link's fault if one was met.
pub(crate) struct Ended {
    pub(crate) number: u32,
    fault: Option<io::Error>,
}

/// Calls over a [`Link`]. Each returns when the session is answered; a call that is refused writes nothing.
impl<R: AsMut<[u8]>, M: AsMut<[u8]>> Session<R, M> {
    /// Any call.
    ///
    /// ```
    /// use yuglasno::{panel::Panel, Answer, Call, Session};
    /// let mut link = Panel::with_jobs();
    /// let mut session = Session::open(b"", [0; 64], [0; 64]).unwrap();
    /// let answer = session.call(&mut link, &Call::Stat(b"/jobs/empty.job")).unwrap();
    /// assert!(matches!(answer, Answer::Stat(stat) if stat.size == 0));
    /// ```
    pub fn call(&mut self, link: &mut (impl Link + ?Sized), call: &Call<'_>) -> Result<Answer<'_>, Error> {
        let ended = self.run(link, call);
        self.outcome(ended)
    }

    /// Goes on with a call that is pending: after an 11, or one that was started by steps. 5 where none is, and 6 after quit. After a 21
    /// the link is not asked: what it read or wrote is reported again, so that no byte is read over another, and none written twice.
    pub fn resume(&mut self, link: &mut (impl Link + ?Sized), call: &Call<'_>) -> Result<Answer<'_>, Error> {
        let reply = match (self.uncounted(), self.waits_for()) {
            (Some(report), _) => self.tell(call, report),
            (None, Some(ask)) => Reply::Ask(ask),
            // no report is awaited: the library refuses it
            (None, None) => self.tell(call, Report::Done),
        };
        let ended = self.drive(link, call, reply);
        self.outcome(ended)
    }

    /// Whether the reads of a link are gathered until the session has what it wants, as they are at first, or each is reported by
    /// itself. What is asked of the link and answered is the same. By itself each counts: [`Session::reads`] is then how often the link
    /// was read, but for a read that came to a fault.
    ///
    /// ```
    /// use yuglasno::{panel::Panel, Session};
    ///
    /// let mut link = Panel::with_jobs().cut(1); // its replies come byte by byte
    /// let mut session = Session::open(b"", [0; 64], [0; 64]).unwrap();
    /// session.stat(&mut link, "/jobs").unwrap();
    /// assert_eq!(session.reads(), 2, "the header, and the other 8 bytes");
    /// session.set_gathering(false);
    /// session.stat(&mut link, "/jobs").unwrap();
    /// assert_eq!(session.reads(), 16);
    /// ```
    pub fn set_gathering(&mut self, gathers: bool) {
        self.gathers = gathers;
    }

    /// A file's mode, size and time. One that is not there is all zeros.
    pub fn stat(&mut self, link: &mut (impl Link + ?Sized), path: impl AsRef<[u8]>) -> Result<Stat, Error> {
        match self.call(link, &Call::Stat(path.as_ref()))? {
            Answer::Stat(stat) => Ok(stat),
            other => unreachable!("a stat was answered {other:?}"),
        }
    }

    /// All that the panel knows of a file; 16 with the panel's errno where it knows nothing.
    pub fn stat_v2(&mut self, link: &mut (impl Link + ?Sized), path: impl AsRef<[u8]>) -> Result<StatV2, Error> {
        match self.call(link, &Call::StatV2(path.as_ref()))? {
            Answer::StatV2(stat) => Ok(stat),
            other => unreachable!("a stat was answered {other:?}"),
        }
    }

    /// Starts a listing.
    pub fn list(&mut self, link: &mut (impl Link + ?Sized), path: impl AsRef<[u8]>) -> Result<(), Error> {
        self.done(link, &Call::List(path.as_ref()))
    }

    /// Starts a v2 listing.
    pub fn list_v2(&mut self, link: &mut (impl Link + ?Sized), path: impl AsRef<[u8]>) -> Result<(), Error> {
        self.done(link, &Call::ListV2(path.as_ref()))
    }

    /// The next entry of a listing; `None` at its end.
    pub fn next_entry(&mut self, link: &mut (impl Link + ?Sized)) -> Result<Option<Entry<'_>>, Error> {
        match self.call(link, &Call::NextEntry)? {
            Answer::Entry(entry) => Ok(Some(entry)),
            _ => Ok(None),
        }
    }

    /// The next entry of a v2 listing; `None` at its end.
    pub fn next_entry_v2(&mut self, link: &mut (impl Link + ?Sized)) -> Result<Option<EntryV2<'_>>, Error> {
        match self.call(link, &Call::NextEntryV2)? {
            Answer::EntryV2(entry) => Ok(Some(entry)),
            _ => Ok(None),
        }
    }

    /// Starts a pull.
    pub fn recv(&mut self, link: &mut (impl Link + ?Sized), path: impl AsRef<[u8]>) -> Result<(), Error> {
        self.done(link, &Call::Recv(path.as_ref()))
    }

    /// Starts a v2 pull.
    pub fn recv_v2(
        &mut self,
        link: &mut (impl Link + ?Sized),
        path: impl AsRef<[u8]>,
        flags: SyncFlags,
    ) -> Result<(), Error> {
        self.done(link, &Call::RecvV2(path.as_ref(), flags))
    }

    /// The next chunk of a pull, a part of the receive buffer; `None` at its end.
    pub fn recv_next(&mut self, link: &mut (impl Link + ?Sized)) -> Result<Option<&[u8]>, Error> {
        match self.call(link, &Call::RecvNext)? {
            Answer::Chunk(chunk) => Ok(Some(chunk)),
            _ => Ok(None),
        }
    }

    /// Starts a push, at this moment: 25 where the session has hours and they don't let it. A push that has begun goes on past its hours.
    pub fn send(
        &mut self,
        link: &mut (impl Link + ?Sized),
        path: impl AsRef<[u8]>,
        mode: FileMode,
        moment: Moment,
    ) -> Result<(), Error> {
        self.done(link, &Call::Send(path.as_ref(), mode, moment))
    }

    /// Starts a v2 push.
    pub fn send_v2(
        &mut self,
        link: &mut (impl Link + ?Sized),
        path: impl AsRef<[u8]>,
        mode: FileMode,
        flags: SyncFlags,
        moment: Moment,
    ) -> Result<(), Error> {
        self.done(link, &Call::SendV2(path.as_ref(), mode, flags, moment))
    }

    /// Data of a push, of any length.
    pub fn data(&mut self, link: &mut (impl Link + ?Sized), data: &[u8]) -> Result<(), Error> {
        self.done(link, &Call::Data(data))
    }

    /// Ends a push with the file's time, and waits for the panel's OKAY.
    pub fn send_done(&mut self, link: &mut (impl Link + ?Sized), mtime: u32) -> Result<(), Error> {
        self.done(link, &Call::SendDone(mtime))
    }

    /// Ends the session and closes the channel. A channel that the panel has closed already is fine.
    pub fn quit(&mut self, link: &mut (impl Link + ?Sized)) -> Result<(), Error> {
        self.done(link, &Call::Quit)
    }

    fn done(&mut self, link: &mut (impl Link + ?Sized), call: &Call<'_>) -> Result<(), Error> {
        self.call(link, call).map(|_| ())
    }

    /// Any call, its answer left in the session's reply.
    pub(crate) fn run(&mut self, link: &mut (impl Link + ?Sized), call: &Call<'_>) -> Ended {
        let reply = self.begin(call);
        self.drive(link, call, reply)
    }

    pub(crate) fn outcome(&mut self, ended: Ended) -> Result<Answer<'_>, Error> {
        self.answered(ended.number, ended.fault)
    }

    fn drive(&mut self, link: &mut (impl Link + ?Sized), call: &Call<'_>, mut reply: Reply) -> Ended {
        let mut fault = None;
        let mut behind = None;
        loop {
            let came = match reply {
                Reply::Told(number) => {
                    if !refused(number) {
                        link.call_over(call, self.reads());
                    }
                    return Ended { number, fault };
                }
                Reply::Ask(Ask::Read(part)) => match behind.take() {
                    Some(met) => Err(met),
                    None => self.gather(link, part, &mut behind).map(Report::Read),
                },
                Reply::Ask(Ask::Close) => link.close().map(|()| Report::Done),
                Reply::Ask(_) => link.write_piece(self.piece(call)).map(|()| Report::Done),
            };
            reply = self.tell(call, came.unwrap_or_else(|met| reported(met, &mut fault)));
        }
    }

    /// Reads once, or until the session has what it wants or the window is full: a report of fewer bytes would only move the window
    /// on. A fault behind some bytes is kept until they are reported.
    fn gather(
        &mut self,
        link: &mut (impl Link + ?Sized),
        part: Part,
        behind: &mut Option<Fault>,
    ) -> Result<usize, Fault> {
        let enough = if self.gathers { self.wanted() } else { 1 };
        let window = self.window(part.range());
        let enough = enough.min(window.len());
        let mut count = 0;
        loop {
            match link.read_window(&mut window[count..]) {
                Ok(more) if more == 0 || more >= enough - count => return Ok(count + more),
                Ok(more) => count += more,
                Err(met) if count == 0 => return Err(met),
                Err(met) => {
                    *behind = Some(met);
                    return Ok(count);
                }
            }
        }
    }
}

/// The report of a fault. The first error is kept: it is the one that answer 13 carries.
fn reported(met: Fault, kept: &mut Option<io::Error>) -> Report {
    match met {
        Fault::Closed => Report::Closed,
        Fault::Error(error) => {
            let code = code_of(&error);
            kept.get_or_insert(error);
            Report::Error(code)
        }
    }
}
