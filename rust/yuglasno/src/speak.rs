//! A panel's replies: each into a lent buffer, by the library's writer.
use crate::answer::{Entry, EntryV2, Stat, StatV2};
use crate::error::Error;
use crate::raw::{self, REPLY};
use crate::reply::word;
use crate::settings::Settings;

/// One reply of a panel. [`PanelReply::write`] puts its bytes into a buffer; a session that makes the call it belongs to reads it back:
/// of a v2 stat with an error that error, as 16.
///
/// ```
/// use yuglasno::{FileMode, PanelReply, Settings, Stat};
///
/// let stat = Stat { mode: FileMode(33188), size: 1998, mtime: 5 };
/// let mut buffer = [0; 16];
/// assert_eq!(PanelReply::Stat(stat).write(&Settings::published(), &mut buffer).unwrap(), 16);
/// assert_eq!(&buffer, b"STAT\xA4\x81\0\0\xCE\x07\0\0\x05\0\0\0");
///
/// let error = PanelReply::Fail(b"no").write(&Settings::published(), &mut buffer[..9]).unwrap_err();
/// assert_eq!(error.to_string(), "20: the reply does not fit");
/// assert_eq!(&buffer[..4], b"STAT");
/// ```
#[derive(Clone, Copy, PartialEq, Eq, Debug)]
pub enum PanelReply<'a> {
    /// OKAY: a push was taken.
    Okay,
    /// DONE behind the last chunk of a pull.
    End,
    /// STAT.
    Stat(Stat),
    /// STA2.
    StatV2(StatV2),
    /// DENT: an entry of a listing.
    Entry(Entry<'a>),
    /// DNT2: an entry of a v2 listing.
    EntryV2(EntryV2<'a>),
    /// DATA: a chunk of a pull, of at most [`DATA_MOST`](crate::DATA_MOST) bytes.
    Chunk(&'a [u8]),
    /// FAIL, with its text.
    Fail(&'a [u8]),
    /// DONE behind the last entry of a listing, as long as an entry without its name.
    ListingEnd,
    /// The same of a v2 listing.
    ListingEndV2,
}

/// The most numbers that a reply carries, of eight bytes each.
const NUMBERS: usize = 11;
/// The most bytes of a reply beside its name, data or text.
const RECORD_MOST: usize = 76;

impl<'a> PanelReply<'a> {
    /// Writes the reply to the front of a buffer under the ids of these settings, and says how many bytes it has; the others are left
    /// alone. 20 where the buffer can't hold it, data has over [`DATA_MOST`](crate::DATA_MOST) bytes, or a name or text 2^32 or more;
    /// ahead of that 22 or 23 where the settings have no table of ids. Nothing is written then.
    pub fn write(&self, settings: &Settings, buffer: &mut [u8]) -> Result<usize, Error> {
        let mut numbers = [0; 8 * NUMBERS];
        let kind = self.put(&mut numbers);
        let mut told = [0; REPLY];
        match raw::speak(settings.as_bytes(), kind, &numbers, self.lent(), buffer, &mut told) {
            0 => Ok(word(&told, 0) as usize),
            number => Err(settings.refused(number)),
        }
    }

    /// Writes the reply behind the bytes that are there. Where it is refused, those stand as they were.
    pub fn append(&self, settings: &Settings, to: &mut Vec<u8>) -> Result<(), Error> {
        let from = to.len();
        to.resize(from + RECORD_MOST + self.lent().len(), 0);
        let written = self.write(settings, &mut to[from..]);
        to.truncate(from + written.as_ref().map_or(0, |length| *length));
        written.map(drop)
    }

    /// The name, data or text; empty where it has none.
    fn lent(&self) -> &'a [u8] {
        match *self {
            Self::Entry(Entry { name, .. }) | Self::EntryV2(EntryV2 { name, .. }) => name,
            Self::Chunk(bytes) | Self::Fail(bytes) => bytes,
            _ => &[],
        }
    }

    /// The reply's numbers as the library takes them, and the number of its kind.
    fn put(&self, numbers: &mut [u8; 8 * NUMBERS]) -> u32 {
        match self {
            Self::Okay => 0,
            Self::End => 1,
            Self::Stat(stat) => put_stat(numbers, stat, 2),
            Self::StatV2(stat) => put_stat_v2(numbers, stat, 3),
            Self::Entry(entry) => put_stat(numbers, &entry.stat, 4),
            Self::EntryV2(entry) => put_stat_v2(numbers, &entry.stat, 5),
            Self::Chunk(_) => 6,
            Self::Fail(_) => 7,
            Self::ListingEnd => 8,
            Self::ListingEndV2 => 9,
        }
    }
}

fn put(to: &mut [u8], numbers: &[u64]) {
    for (bytes, number) in to.chunks_exact_mut(8).zip(numbers) {
        bytes.copy_from_slice(&number.to_le_bytes());
    }
}

fn put_stat(to: &mut [u8], stat: &Stat, kind: u32) -> u32 {
    put(to, &[stat.mode.0.into(), stat.size.into(), stat.mtime.into()]);
    kind
}

fn put_stat_v2(to: &mut [u8], stat: &StatV2, kind: u32) -> u32 {
    let StatV2 { error, dev, ino, mode, nlink, uid, gid, size, atime, mtime, ctime } = *stat;
    let (error, mode, nlink) = (error.into(), mode.0.into(), nlink.into());
    let times = [atime, mtime, ctime].map(|time| time as u64);
    put(to, &[error, dev, ino, mode, nlink, uid.into(), gid.into(), size, times[0], times[1], times[2]]);
    kind
}
