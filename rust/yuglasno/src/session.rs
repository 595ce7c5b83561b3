//! The session: its record and its two buffers, and the steps of a call without any I/O.
use crate::answer::{answer, Answer};
use crate::call::{Call, Report};
use crate::error::Error;
use crate::hours::{Hours, Outside};
use crate::moment::Moment;
use crate::raw::{self, HOURS_IN_RECORD, RECORD, REPLY};
use crate::reply::{heard, part, refused, Ask, Reply, OUTSIDE, OVERFLOW};
use crate::settings::Settings;
use crate::totals::Totals;
use std::{fmt, io};

/// A session, over a receive buffer `R` and a message buffer `M` that it owns (`Vec<u8>`, `[u8; N]`) or borrows
/// (`&mut [u8]`).
///
/// The receive buffer has room for the largest reply ([`CAPACITY`](crate::CAPACITY) for pulls; a listing's name, 16 or 72
/// bytes for a stat); a reply that it can't hold is answered 17. The message buffer takes the text of a FAIL and is at
/// least as long. Either one must give the same slice each time it is asked.
pub struct Session<R, M = R> {
    record: [u8; RECORD],
    reply: [u8; REPLY],
    /// The number that came with the reply.
    told: u32,
    asked: Option<Ask>,
    /// A report of what is asked that was answered 21: it was read or written, and is not counted.
    uncounted: Option<Report>,
    /// When the last push was to start.
    moment: Moment,
    /// Whether reads of a link are gathered.
    pub(crate) gathers: bool,
    rx: R,
    msg: M,
}

/// What a session needs next, or what it answers.
#[derive(Debug)]
pub enum Step<'a> {
    /// Read into this window, as little as one byte: [`Report::Read`]. Past the count, its bytes may be anything.
    Read(&'a mut [u8]),
    /// Write this piece whole: [`Report::Done`].
    Write(&'a [u8]),
    /// Close the channel: [`Report::Done`].
    Close,
    /// The call is answered.
    Told(Result<Answer<'a>, Error>),
}

impl<R: AsMut<[u8]>, M: AsMut<[u8]>> Session<R, M> {
    /// Opens a session for a panel with this banner, of which only `features=..` counts, under the published ids. The channel
    /// is the caller's to open. 1 or 2 for buffers that are too short.
    ///
    /// ```
    /// use yuglasno::Session;
    /// let mut borrowed = vec![0; 4096];
    /// assert!(Session::open(b"features=stat_v2", &mut borrowed[..], [0; 4096]).is_ok());
    /// assert_eq!(Session::open(b"", [0; 7], [0; 7]).unwrap_err().number(), 1);
    /// ```
    pub fn open(banner: &[u8], rx: R, msg: M) -> Result<Self, Error> {
        Self::open_with(&Settings::published(), banner, rx, msg)
    }

    /// The same with other settings than the published ones, which the session keeps as they are now. Behind 1 and 2, 22 or 23
    /// where their ids are no table, then 24 where their hours are none.
    pub fn open_with(settings: &Settings, banner: &[u8], mut rx: R, mut msg: M) -> Result<Self, Error> {
        let mut record = [0; RECORD];
        match raw::open(&mut record, settings.as_bytes(), banner, rx.as_mut().len(), msg.as_mut().len()) {
            0 => {
                let (asked, uncounted, moment, gathers) = (None, None, Moment::FIRST, true);
                Ok(Self { record, reply: [0; REPLY], told: 0, asked, uncounted, moment, gathers, rx, msg })
            }
            number => Err(settings.refused(number)),
        }
    }

    /// The two buffers back. What a pending call held is lost.
    pub fn into_buffers(self) -> (R, M) {
        (self.rx, self.msg)
    }

    /// Starts a call and takes its first step. A refused call (3 to 10, or 25) changes nothing.
    ///
    /// ```
    /// use yuglasno::{Answer, Call, Report, Session, Step};
    ///
    /// let mut session = Session::open(b"", [0; 64], [0; 64]).unwrap();
    /// let call = Call::Stat(b"/a");
    /// let Step::Write(piece) = session.start(&call) else { panic!() };
    /// assert_eq!(piece, b"STAT\x02\0\0\0/a");
    /// let Step::Read(window) = session.report(&call, Report::Done) else { panic!() };
    /// window[..16].copy_from_slice(b"STAT\xA4\x81\0\0\xCE\x07\0\0\x05\0\0\0");
    /// let Step::Told(Ok(Answer::Stat(stat))) = session.report(&call, Report::Read(16)) else { panic!() };
    /// assert_eq!((stat.mode.to_string(), stat.size, stat.mtime), ("100644".to_string(), 1998, 5));
    /// ```
    pub fn start<'a>(&'a mut self, call: &Call<'a>) -> Step<'a> {
        let reply = self.begin(call);
        self.step(call, reply)
    }

    /// Reports what became of the last step, and takes the next one. `call` is the pending one, with the same path or
    /// data. A refused report (3, 5, 6, 11 or 21) changes nothing: the session still waits.
    pub fn report<'a>(&'a mut self, call: &Call<'a>, report: Report) -> Step<'a> {
        let reply = self.tell(call, report);
        self.step(call, reply)
    }

    /// What a pending call waits for, once more; `None` where none is pending.
    pub fn asked<'a>(&'a mut self, call: &Call<'a>) -> Option<Step<'a>> {
        let ask = self.asked?;
        Some(self.step(call, Reply::Ask(ask)))
    }

    /// How many bytes the session has received, consumed and written since it was opened: at any time, also while a call is
    /// pending and once the session has ended.
    ///
    /// ```
    /// use yuglasno::{Call, Report, Session, Step, Totals};
    ///
    /// let mut session = Session::open(b"", [0; 64], [0; 64]).unwrap();
    /// let call = Call::Stat(b"/a");
    /// assert!(matches!(session.start(&call), Step::Write(piece) if piece.len() == 10));
    /// let Step::Read(window) = session.report(&call, Report::Done) else { panic!() };
    /// window[..3].copy_from_slice(b"STA");
    /// let Step::Read(window) = session.report(&call, Report::Read(3)) else { panic!() };
    /// window[..13].copy_from_slice(b"T\xA4\x81\0\0\xCE\x07\0\0\x05\0\0\0");
    /// assert_eq!(session.totals(), Totals { received: 3, consumed: 0, written: 10 });
    /// assert!(matches!(session.report(&call, Report::Read(13)), Step::Told(Ok(_))));
    /// assert_eq!(session.totals().to_string(), "16 bytes received, 16 consumed, 10 written");
    /// ```
    pub fn totals(&self) -> Totals {
        raw::totals(&self.record)
    }

    /// How many reads the last answer tells: those that its call accepted, from its start on. A refusal tells 0. While a call is
    /// pending, and behind a refusal beside it too, the reads that it has accepted until now.
    ///
    /// A read is a [`Report::Read`] that was accepted: one that was refused is none, nor is a fault. What a read brought beyond its call
    /// is there for the next one, which may so need none. Over a [`Link`](crate::Link) several reads of it may be one
    /// report: see [`Session::set_gathering`]. A call that is answered anything but 12 or 13 has accepted at most 8 reads more than it has
    /// consumed bytes ([`Totals::consumed`]).
    ///
    /// ```
    /// use yuglasno::{Call, Report, Session, Step};
    ///
    /// let mut session = Session::open(b"", [0; 16], [0; 16]).unwrap();
    /// let call = Call::Stat(b"/a");
    /// assert!(matches!(session.start(&call), Step::Write(_)));
    /// let Step::Read(window) = session.report(&call, Report::Done) else { panic!() };
    /// window.copy_from_slice(b"STAT\xA4\x81\0\0\xCE\x07\0\0\x05\0\0\0");
    /// assert!(matches!(session.report(&call, Report::Read(3)), Step::Read(window) if window.len() == 13));
    /// assert_eq!(session.reads(), 1);
    /// assert!(matches!(session.report(&call, Report::Read(13)), Step::Told(Ok(_))));
    /// assert_eq!(session.reads(), 2);
    /// ```
    pub fn reads(&self) -> u64 {
        match self.asked {
            Some(_) => raw::reads(&self.record),
            None => raw::told_reads(&self.reply),
        }
    }

    /// What the pending call waits for, its parts unborrowed.
    pub(crate) fn waits_for(&self) -> Option<Ask> {
        self.asked
    }

    /// The report that was answered 21 and may be made again.
    pub(crate) fn uncounted(&self) -> Option<Report> {
        self.uncounted
    }

    pub(crate) fn begin(&mut self, call: &Call<'_>) -> Reply {
        let (number, a, b) = call.numbers();
        let (rx, msg) = (self.rx.as_mut(), self.msg.as_mut());
        self.moment = call.moment();
        let told = raw::start(&mut self.record, rx, msg, call.lent(), number, a, b, self.moment.0, &mut self.reply);
        self.noted(told)
    }

    pub(crate) fn tell(&mut self, call: &Call<'_>, report: Report) -> Reply {
        let (rec, rx, msg, lent, out) =
            (&mut self.record, self.rx.as_mut(), self.msg.as_mut(), call.lent(), &mut self.reply);
        let told = match report {
            Report::Read(count) => raw::read(rec, rx, msg, lent, count, out),
            Report::Done => raw::wrote(rec, rx, msg, lent, out),
            Report::Closed => raw::fault(rec, rx, msg, lent, 0, 0, out),
            Report::Error(code) => raw::fault(rec, rx, msg, lent, 1, code, out),
        };
        let reply = self.noted(told);
        if matches!(reply, Reply::Told(OVERFLOW)) {
            self.uncounted = Some(report);
        }
        reply
    }

    /// Reads a reply, and keeps what is asked. A refusal leaves that as it was.
    fn noted(&mut self, told: u32) -> Reply {
        self.told = told;
        let reply = heard(told, &self.reply);
        (self.asked, self.uncounted) = match reply {
            Reply::Told(number) if refused(number) => (self.asked, self.uncounted),
            Reply::Told(_) => (None, None),
            Reply::Ask(ask) => (Some(ask), None),
        };
        reply
    }

    fn step<'a>(&'a mut self, call: &Call<'a>, reply: Reply) -> Step<'a> {
        match reply {
            Reply::Told(number) => Step::Told(self.answered(number, None)),
            Reply::Ask(Ask::Read(part)) => Step::Read(self.window(part.range())),
            Reply::Ask(Ask::Close) => Step::Close,
            Reply::Ask(ask) => {
                self.asked = Some(ask);
                Step::Write(self.piece(call))
            }
        }
    }

    /// How many bytes the read that is asked for still wants, from one on; any count from one to the window may be
    /// reported.
    pub fn wanted(&self) -> usize {
        raw::wanted(&self.record).max(1)
    }

    pub(crate) fn window(&mut self, range: std::ops::Range<usize>) -> &mut [u8] {
        &mut self.rx.as_mut()[range]
    }

    /// The piece that is asked to be written; empty where none is.
    pub(crate) fn piece<'a>(&'a mut self, call: &Call<'a>) -> &'a [u8] {
        match &self.asked {
            Some(Ask::WriteRx(part)) => &self.rx.as_mut()[part.range()],
            Some(Ask::WriteLent(part)) => &call.lent()[part.range()],
            Some(Ask::WriteBytes(bytes)) => bytes.as_slice(),
            _ => &[],
        }
    }

    /// What the library returned last, what it wrote then, and the receive buffer: an index takes an entry from these.
    pub(crate) fn last(&mut self) -> (u32, &[u8; REPLY], &[u8]) {
        (self.told, &self.reply, self.rx.as_mut())
    }

    /// The answer of this number that the last reply carries.
    pub(crate) fn answered(&mut self, number: u32, fault: Option<io::Error>) -> Result<Answer<'_>, Error> {
        match number {
            0 => Ok(answer(&self.reply, &self.rx.as_mut()[part(&self.reply, 1).range()])),
            14 => Err(Error::told(number, &self.reply, &self.msg.as_mut()[part(&self.reply, 1).range()], fault)),
            OVERFLOW => Err(Error::Overflow(self.totals())),
            OUTSIDE => Err(self.outside()),
            _ => Err(Error::told(number, &self.reply, &[], fault)),
        }
    }
}

impl<R, M> Session<R, M> {
    /// The hours that the session was opened with; `None` where every moment will do for a push.
    pub fn hours(&self) -> Option<Hours> {
        Hours::of(self.record[HOURS_IN_RECORD..].try_into().expect("the record's last bytes"))
    }

    fn outside(&self) -> Error {
        let outside = |hours| Error::OutsideHours(Outside { moment: self.moment, hours });
        self.hours().map_or(Error::Other(OUTSIDE), outside)
    }
}

impl<R, M> fmt::Debug for Session<R, M> {
    fn fmt(&self, f: &mut fmt::Formatter<'_>) -> fmt::Result {
        f.debug_struct("Session").field("asked", &self.asked).finish_non_exhaustive()
    }
}

#[cfg(test)]
mod overflow;
