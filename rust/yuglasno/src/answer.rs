//! What a call answers where it goes through: stats, entries, chunks.
use crate::numbers::FileMode;
use crate::raw::REPLY;
use crate::reply::word;

/// A STAT reply, or the numbers of a DENT. A file that is not there is all zeros: v1 has no error code.
#[derive(Clone, Copy, PartialEq, Eq, Debug, Default)]
pub struct Stat {
    /// Type and permissions.
    pub mode: FileMode,
    /// Size in bytes, its low 32 bits.
    pub size: u32,
    /// Last change, in Unix seconds.
    pub mtime: u32,
}

/// A STA2 reply, or the numbers of a DNT2.
#[derive(Clone, Copy, PartialEq, Eq, Debug, Default)]
pub struct StatV2 {
    /// The panel's errno; not 0 only in an entry.
    pub error: u32,
    /// The device that the file lies on.
    pub dev: u64,
    /// The file's number on it.
    pub ino: u64,
    /// Type and permissions.
    pub mode: FileMode,
    /// Hard links.
    pub nlink: u32,
    /// Owner.
    pub uid: u32,
    /// Group.
    pub gid: u32,
    /// Size in bytes.
    pub size: u64,
    /// Last access, in Unix seconds.
    pub atime: i64,
    /// Last change, in Unix seconds.
    pub mtime: i64,
    /// Last change of these numbers, in Unix seconds.
    pub ctime: i64,
}

/// A listing's entry. The name is a part of the receive buffer.
#[derive(Clone, Copy, PartialEq, Eq, Debug)]
pub struct Entry<'a> {
    /// The name as the panel's bytes, not always UTF-8.
    pub name: &'a [u8],
    /// Its numbers.
    pub stat: Stat,
}

/// A v2 listing's entry. The name is a part of the receive buffer.
#[derive(Clone, Copy, PartialEq, Eq, Debug)]
pub struct EntryV2<'a> {
    /// The name as the panel's bytes, not always UTF-8.
    pub name: &'a [u8],
    /// Its numbers; [`StatV2::error`] is not 0 where the panel could not stat it.
    pub stat: StatV2,
}

/// The answer of a call that went through.
#[derive(Clone, Copy, PartialEq, Eq, Debug)]
pub enum Answer<'a> {
    /// The call is done.
    Done,
    /// The listing or the pull is at its end.
    End,
    /// To [`Call::Stat`](crate::Call::Stat).
    Stat(Stat),
    /// To [`Call::StatV2`](crate::Call::StatV2).
    StatV2(StatV2),
    /// To [`Call::NextEntry`](crate::Call::NextEntry).
    Entry(Entry<'a>),
    /// To [`Call::NextEntryV2`](crate::Call::NextEntryV2).
    EntryV2(EntryV2<'a>),
    /// To [`Call::RecvNext`](crate::Call::RecvNext): a part of the receive buffer.
    Chunk(&'a [u8]),
}

/// A file's numbers, of either version.
#[derive(Clone, Copy, PartialEq, Eq, Debug)]
pub enum Details {
    /// From STAT or DENT.
    V1(Stat),
    /// From STA2 or DNT2.
    V2(StatV2),
}

impl Details {
    /// Type and permissions.
    pub fn mode(&self) -> FileMode {
        match self {
            Self::V1(stat) => stat.mode,
            Self::V2(stat) => stat.mode,
        }
    }

    /// Size in bytes; of v1 its low 32 bits.
    pub fn size(&self) -> u64 {
        match self {
            Self::V1(stat) => stat.size.into(),
            Self::V2(stat) => stat.size,
        }
    }

    /// Last change, in Unix seconds.
    pub fn mtime(&self) -> i64 {
        match self {
            Self::V1(stat) => stat.mtime.into(),
            Self::V2(stat) => stat.mtime,
        }
    }

    /// The panel's errno; v1 has none.
    pub fn error(&self) -> u32 {
        match self {
            Self::V1(_) => 0,
            Self::V2(stat) => stat.error,
        }
    }
}

/// The answer of a reply numbered 0. `held` is the reply's part of the receive buffer.
pub(crate) fn answer<'a>(out: &[u8; REPLY], held: &'a [u8]) -> Answer<'a> {
    match word(out, 0) {
        0 => Answer::Done,
        1 => Answer::End,
        2 => Answer::Stat(stat(out)),
        3 => Answer::StatV2(stat_v2(out)),
        4 => Answer::Entry(Entry { name: held, stat: stat(out) }),
        5 => Answer::EntryV2(EntryV2 { name: held, stat: stat_v2(out) }),
        _ => Answer::Chunk(held),
    }
}

fn stat(out: &[u8; REPLY]) -> Stat {
    Stat { mode: FileMode(word(out, 3) as u32), size: word(out, 4) as u32, mtime: word(out, 5) as u32 }
}

fn stat_v2(out: &[u8; REPLY]) -> StatV2 {
    StatV2 {
        error: word(out, 3) as u32,
        dev: word(out, 4),
        ino: word(out, 5),
        mode: FileMode(word(out, 6) as u32),
        nlink: word(out, 7) as u32,
        uid: word(out, 8) as u32,
        gid: word(out, 9) as u32,
        size: word(out, 10),
        atime: word(out, 11) as i64,
        mtime: word(out, 12) as i64,
        ctime: word(out, 13) as i64,
    }
}
