//! The answers of a call that did not go through, by their numbers.
use crate::feature::Feature;
use crate::hours::Outside;
use crate::raw::REPLY;
use crate::reply::word;
use crate::shown::Shown;
use crate::totals::Totals;
use std::{fmt, io};

/// Why a call did not go through. The text begins with [`Error::number`]; [`MEANINGS`](crate::MEANINGS)
/// has them all, docs/ANSWERS.md what to do about each.
///
/// 1 to 11 are the caller's: session and buffers are as before. 12 and 13 are the link's, 14 to 17 the panel's. 18 is that of a reader
/// of requests, 20 that of a writer of replies: nothing is taken or written. 19 is that of an index, which is as before. 21 is that of a
/// report that a total, or the count of a call's reads, has no room for: session and buffers are as before. 22 and 23 are those of a table
/// of ids, 24 that of hours: the old ones stay. 25 is that of a push which the hours don't let start: session and buffers are as before.
/// Where several apply, the first of 1, 2, then 3, 6, 4, 5, 8, 7, 9, 10, 25 is answered; of a report 3, 6, 5, 11, 21. Of a table it is 22,
/// then 23, behind 1 to 3, and of an opening's hours 24 behind them. Of an index it is 3, then 19. Of a reply the settings come first
/// (3, 22, 23), then its kind and numbers (3), then 20; of a request the settings, then 18.
/// An error borrows nothing: the text of a FAIL is copied out of the message buffer, so `?` hands it on to any caller.
///
/// ```
/// use yuglasno::{panel::Panel, Error, Session};
///
/// let mut link = Panel::with_jobs();
/// let mut session = Session::open(b"", [0; 64], [0; 64]).unwrap();
/// let error = session.stat_v2(&mut link, "/jobs").unwrap_err();
/// assert_eq!(error.number(), 10);
/// assert_eq!(error.to_string(), "10: the panel lacks stat_v2 (feature 1)");
/// ```
#[non_exhaustive]
pub enum Error {
    /// 1: the receive buffer is under 8 bytes.
    SmallBuffer,
    /// 2: the message buffer is shorter than the receive buffer.
    ShortMessageBuffer,
    /// 3: a buffer, or the path or data of a pending call, has another length than before.
    OtherLength,
    /// 4: a call while one is pending.
    Pending,
    /// 5: a report that is not awaited.
    NotAwaited,
    /// 6: a call after quit.
    Ended,
    /// 7: a path over 1,024 bytes ([`PATH_MOST`](crate::PATH_MOST)), none of them NUL.
    LongPath,
    /// 8: a NUL in the path, however long it is.
    NulInPath,
    /// 9: flags that no transfer of this kind takes.
    Flags,
    /// 10: the panel's banner lacks this feature.
    Missing(Feature),
    /// 11: a read of no bytes, or of more than the window; the session still waits.
    Count,
    /// 12: the channel is closed.
    Closed,
    /// 13: another fault of the link.
    Io {
        /// The code that was reported: see [`code_of`](crate::code_of).
        code: u32,
        /// The fault itself, where the session drove the link.
        error: Option<io::Error>,
    },
    /// 14: the panel's FAIL, with its text.
    Fail(Box<[u8]>),
    /// 15: a reply under an id that does not belong there, with its four bytes.
    Unexpected([u8; 4]),
    /// 16: the panel's errno in a v2 stat.
    Errno(u32),
    /// 17: a reply that the receive buffer can't hold.
    TooLarge,
    /// 18: bytes that are no request of a host ([`Call::heard`](crate::Call::heard)).
    BadRequest,
    /// 19: slots or name bytes of an [`Index`](crate::Index) run out: it has no room for the entry, and is as before.
    IndexFull,
    /// 20: a reply ([`PanelReply`](crate::PanelReply)) that the buffer can't hold, with data over 65,536 bytes, or with a name or
    /// text of 2^32 bytes or more. Nothing is written.
    LongReply,
    /// 21: a read or a write that would take a total past 2^64 - 1, or a read that would take the pending call's count of reads there,
    /// with the totals as they are. It is not counted, and the session still waits for its report: a read of fewer bytes may be taken
    /// where it is a total, and a fault is ([`Report`](crate::Report)).
    Overflow(Totals),
    /// 22: a file, or the settings that a session is opened with, is no table of ids. The text says what is seen to be wrong; it
    /// is this crate's, and the number the library's.
    BadIds(Box<str>),
    /// 23: two ids of the table are equal. The text says which.
    EqualIds(Box<str>),
    /// 24: bad hours, in a file or in the settings that a session is opened with. The text says what is seen to be wrong.
    BadHours(Box<str>),
    /// 25: a push outside the hours that the session was opened with. Nothing is written.
    OutsideHours(Outside),
    /// Another number.
    Other(u32),
}

impl Error {
    /// The answer's number.
    pub fn number(&self) -> u32 {
        match self {
            Self::SmallBuffer => 1,
            Self::ShortMessageBuffer => 2,
            Self::OtherLength => 3,
            Self::Pending => 4,
            Self::NotAwaited => 5,
            Self::Ended => 6,
            Self::LongPath => 7,
            Self::NulInPath => 8,
            Self::Flags => 9,
            Self::Missing(_) => 10,
            Self::Count => 11,
            Self::Closed => 12,
            Self::Io { .. } => 13,
            Self::Fail(_) => 14,
            Self::Unexpected(_) => 15,
            Self::Errno(_) => 16,
            Self::TooLarge => 17,
            Self::BadRequest => 18,
            Self::IndexFull => 19,
            Self::LongReply => 20,
            Self::Overflow(_) => 21,
            Self::BadIds(_) => 22,
            Self::EqualIds(_) => 23,
            Self::BadHours(_) => 24,
            Self::OutsideHours(_) => 25,
            Self::Other(number) => *number,
        }
    }

    /// The error of a number alone.
    pub(crate) fn plain(number: u32) -> Error {
        match number {
            1 => Error::SmallBuffer,
            2 => Error::ShortMessageBuffer,
            3 => Error::OtherLength,
            4 => Error::Pending,
            5 => Error::NotAwaited,
            6 => Error::Ended,
            7 => Error::LongPath,
            8 => Error::NulInPath,
            9 => Error::Flags,
            11 => Error::Count,
            12 => Error::Closed,
            17 => Error::TooLarge,
            18 => Error::BadRequest,
            19 => Error::IndexFull,
            20 => Error::LongReply,
            _ => Error::Other(number),
        }
    }

    /// The error of a table of ids, or of an opening with it. `seen` is what a person may look for.
    pub(crate) fn of_ids(number: u32, seen: String) -> Error {
        match number {
            22 => Error::BadIds(seen.into()),
            23 => Error::EqualIds(seen.into()),
            _ => Error::plain(number),
        }
    }

    /// The error of hours, or of an opening with them.
    pub(crate) fn of_hours(number: u32, seen: String) -> Error {
        match number {
            24 => Error::BadHours(seen.into()),
            _ => Error::plain(number),
        }
    }

    /// The error of a reply. `text` is the reply's part of the message buffer, `fault` what the link came to.
    pub(crate) fn told(number: u32, out: &[u8; REPLY], text: &[u8], fault: Option<io::Error>) -> Self {
        match number {
            10 => Feature::numbered(word(out, 3)).map_or(Self::Other(10), Self::Missing),
            13 => Self::Io { code: word(out, 3) as u32, error: fault },
            14 => Self::Fail(text.into()),
            15 => Self::Unexpected((word(out, 3) as u32).to_le_bytes()),
            16 => Self::Errno(word(out, 3) as u32),
            _ => Self::plain(number),
        }
    }
}

impl fmt::Display for Error {
    fn fmt(&self, f: &mut fmt::Formatter<'_>) -> fmt::Result {
        write!(f, "{}: ", self.number())?;
        match self {
            Self::SmallBuffer => f.write_str("the receive buffer is under 8 bytes"),
            Self::ShortMessageBuffer => f.write_str("the message buffer is shorter than the receive buffer"),
            Self::OtherLength => f.write_str("a buffer, path or data has another length than before"),
            Self::Pending => f.write_str("another call is pending"),
            Self::NotAwaited => f.write_str("the report is not awaited"),
            Self::Ended => f.write_str("the session has ended"),
            Self::LongPath => f.write_str("the path is over 1,024 bytes"),
            Self::NulInPath => f.write_str("the path has a NUL"),
            Self::Flags => f.write_str("the transfer takes no such flags"),
            Self::Missing(feature) => write!(f, "the panel lacks {feature} (feature {})", feature.number()),
            Self::Count => f.write_str("a read of no bytes, or of more than was asked for"),
            Self::Closed => f.write_str("the channel is closed"),
            Self::Io { code, error: Some(error) } => write!(f, "the link failed: {error} (code {code})"),
            Self::Io { code, error: None } => write!(f, "the link failed (code {code})"),
            Self::Fail(text) => write!(f, "the panel failed: {}", Shown(text)),
            Self::Unexpected(id) => write!(f, "the panel sent an unexpected id: {}", Shown(id)),
            Self::Errno(errno) => write!(f, "the panel reports errno {errno}{}", meaning(*errno)),
            Self::TooLarge => f.write_str("the reply is too large for the receive buffer"),
            Self::BadRequest => f.write_str("the bytes are no request"),
            Self::IndexFull => f.write_str("the index has no room for the entry"),
            Self::LongReply => f.write_str("the reply does not fit"),
            Self::Overflow(totals) => write!(f, "a total of bytes, or a call's reads, would pass 2^64 - 1 ({totals})"),
            Self::BadIds(seen) => write!(f, "not a table of ids{}", behind(seen)),
            Self::EqualIds(seen) => write!(f, "two ids of the table are equal{}", behind(seen)),
            Self::BadHours(seen) => write!(f, "bad hours{}", behind(seen)),
            Self::OutsideHours(outside) => write!(f, "no push may start on {outside}"),
            Self::Other(_) => f.write_str("not a number that this program knows"),
        }
    }
}

/// As it is displayed: this is what a `main` that returns it prints.
impl fmt::Debug for Error {
    fn fmt(&self, f: &mut fmt::Formatter<'_>) -> fmt::Result {
        fmt::Display::fmt(self, f)
    }
}

impl std::error::Error for Error {
    fn source(&self) -> Option<&(dyn std::error::Error + 'static)> {
        match self {
            Self::Io { error: Some(error), .. } => Some(error),
            _ => None,
        }
    }
}

/// What is seen behind the words of an answer.
fn behind(seen: &str) -> String {
    if seen.is_empty() {
        return String::new();
    }
    format!(": {seen}")
}

/// The panel's errnos that a stat commonly meets, by Linux's numbers.
fn meaning(errno: u32) -> &'static str {
    match errno {
        1 => ": not permitted",
        2 => ": no such file or folder",
        5 => ": input or output error",
        13 => ": permission denied",
        20 => ": not a folder",
        22 => ": invalid argument",
        36 => ": name too long",
        40 => ": too many symbolic links",
        _ => "",
    }
}
