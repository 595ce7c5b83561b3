//! The calls of a session with what each is lent, and what the host reports of a step.
use crate::moment::Moment;
use crate::numbers::{FileMode, SyncFlags};
use crate::shown::Shown;
use std::fmt;

/// A call, with the path or data that it lends to the session until it is answered. A path has at most
/// [`PATH_MOST`](crate::PATH_MOST) bytes, none of them NUL; data has any length.
#[derive(Clone, Copy, PartialEq, Eq, Debug)]
pub enum Call<'l> {
    /// A file's mode, size and time.
    Stat(&'l [u8]),
    /// Likewise, all that the panel knows of a file.
    StatV2(&'l [u8]),
    /// Starts a listing; [`Call::NextEntry`] gives its entries.
    List(&'l [u8]),
    /// Starts a v2 listing; [`Call::NextEntryV2`] gives its entries.
    ListV2(&'l [u8]),
    /// Starts a pull; [`Call::RecvNext`] gives its chunks.
    Recv(&'l [u8]),
    /// Starts a v2 pull.
    RecvV2(&'l [u8], SyncFlags),
    /// Starts a push, at a moment that a session with hours looks at; data and [`Call::SendDone`] follow.
    Send(&'l [u8], FileMode, Moment),
    /// Starts a v2 push.
    SendV2(&'l [u8], FileMode, SyncFlags, Moment),
    /// Data of a push, of any length.
    Data(&'l [u8]),
    /// Ends a push, with the file's time in Unix seconds.
    SendDone(u32),
    /// Ends the session and closes the channel.
    Quit,
    /// The next entry of a listing.
    NextEntry,
    /// The next entry of a v2 listing.
    NextEntryV2,
    /// The next chunk of a pull.
    RecvNext,
}

impl<'l> Call<'l> {
    /// The path or data of the call; empty where it has none.
    pub fn lent(&self) -> &'l [u8] {
        match *self {
            Self::Stat(path) | Self::StatV2(path) | Self::List(path) | Self::ListV2(path) => path,
            Self::Recv(path) | Self::RecvV2(path, _) | Self::Send(path, ..) | Self::SendV2(path, ..) => path,
            Self::Data(data) => data,
            Self::SendDone(_) | Self::Quit | Self::NextEntry | Self::NextEntryV2 | Self::RecvNext => &[],
        }
    }

    /// When a push starts; [`Moment::FIRST`] where the call is none, of which no moment counts.
    pub fn moment(&self) -> Moment {
        match *self {
            Self::Send(.., moment) | Self::SendV2(.., moment) => moment,
            _ => Moment::FIRST,
        }
    }

    /// The session's method that makes it.
    fn name(&self) -> &'static str {
        match self {
            Self::Stat(_) => "stat",
            Self::StatV2(_) => "stat_v2",
            Self::List(_) => "list",
            Self::ListV2(_) => "list_v2",
            Self::Recv(_) => "recv",
            Self::RecvV2(..) => "recv_v2",
            Self::Send(..) => "send",
            Self::SendV2(..) => "send_v2",
            Self::Data(_) => "data",
            Self::SendDone(_) => "send_done",
            Self::Quit => "quit",
            Self::NextEntry => "next_entry",
            Self::NextEntryV2 => "next_entry_v2",
            Self::RecvNext => "recv_next",
        }
    }

    /// The library's number of the call, its mode or time, its flags.
    pub(crate) fn numbers(&self) -> (u32, u32, u32) {
        match *self {
            Self::Stat(_) => (1, 0, 0),
            Self::StatV2(_) => (2, 0, 0),
            Self::List(_) => (3, 0, 0),
            Self::ListV2(_) => (4, 0, 0),
            Self::Recv(_) => (5, 0, 0),
            Self::RecvV2(_, flags) => (6, 0, flags.0),
            Self::Send(_, mode, _) => (7, mode.0, 0),
            Self::SendV2(_, mode, flags, _) => (8, mode.0, flags.0),
            Self::Data(_) => (9, 0, 0),
            Self::SendDone(time) => (10, time, 0),
            Self::Quit => (11, 0, 0),
            Self::NextEntry => (12, 0, 0),
            Self::NextEntryV2 => (13, 0, 0),
            Self::RecvNext => (14, 0, 0),
        }
    }
}

/// For people: its name, that of the session's method, and behind it the path, where it has one.
///
/// ```
/// use yuglasno::{Call, FileMode, Moment};
/// assert_eq!(Call::StatV2(b"/jobs/T98.job").to_string(), "stat_v2 /jobs/T98.job");
/// assert_eq!(Call::Send(b"/a\n", FileMode(0o100644), Moment(0)).to_string(), "send /a\\n");
/// assert_eq!(Call::RecvNext.to_string(), "recv_next");
/// ```
impl fmt::Display for Call<'_> {
    fn fmt(&self, f: &mut fmt::Formatter<'_>) -> fmt::Result {
        f.write_str(self.name())?;
        match self {
            Self::Data(_) => Ok(()),
            _ if self.lent().is_empty() => Ok(()),
            _ => write!(f, " {}", Shown(self.lent())),
        }
    }
}

/// What became of the step that the session asked for.
#[derive(Clone, Copy, PartialEq, Eq, Debug)]
pub enum Report {
    /// So many bytes were read to the front of the window.
    Read(usize),
    /// The piece was written whole, or the channel is closed as asked.
    Done,
    /// The channel was found closed.
    Closed,
    /// Another fault, by a code of the host's own.
    Error(u32),
}
