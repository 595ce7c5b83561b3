//! What a session is opened with beside its banner: the ids of its messages, and the hours in which a push may start, each from a file.
use crate::error::Error;
use crate::hours::{Hours, Outside};
use crate::hours_file;
use crate::ids::{seen_in_file, seen_in_ids, Ids};
use crate::moment::Moment;
use crate::raw::{self, HOURS_IN_SETTINGS, HOURS_SIZE, SETTINGS};
use crate::transfers::Failure;
use std::fmt;
use std::io::Read;

/// The most bytes that are read of an ids file; a whole one has 150.
pub const IDS_MOST: usize = 4_096;
/// The most bytes that are read of an hours file; a whole one has at most 99.
pub const HOURS_MOST: usize = 4_096;

/// A session's settings, as the library keeps them: the table of ids, the hours, and room for more. A session takes them over where it
/// is opened; settings that change afterwards change no open session.
///
/// An ids file has two lines that end with byte 10 each: the published ids, joined by commas, and what is put for each, four
/// bytes from 33 to 126 without a comma, joined in the same way. No two of those are equal.
///
/// ```
/// use yuglasno::{Call, Session, Settings, Step};
///
/// let file = b"STAT,STA2,LIST,LIS2,SEND,SND2,RECV,RCV2,DATA,DONE,OKAY,FAIL,DENT,DNT2,QUIT\n\
///              stat,sta2,list,lis2,send,snd2,recv,rcv2,data,done,okay,fail,dent,dnt2,quit\n";
/// let mut settings = Settings::published();
/// settings.load_ids(file).unwrap();
/// let mut session = Session::open_with(&settings, b"", [0; 64], [0; 64]).unwrap();
/// assert!(matches!(session.start(&Call::Stat(b"/a")), Step::Write(b"stat\x02\0\0\0/a")));
///
/// let before = settings;
/// let error = settings.load_ids(&file[..149]).unwrap_err();
/// assert_eq!(error.to_string(), "22: not a table of ids: line 2 does not end with byte 10");
/// assert_eq!(settings, before);
/// ```
///
/// An hours file has the line `day,open,close`, and up to seven lines of three numbers: a day, 0 for Monday to 6, and the minutes of that day,
/// in UTC, from which and until which a push may start. Days rise; lines end with byte 10.
///
/// ```
/// use yuglasno::{Call, FileMode, Moment, Session, Settings, Step};
///
/// let mut settings = Settings::published();
/// settings.load_hours(b"day,open,close\n0,420,1080\n").unwrap(); // Mondays from 07:00 to 18:00
/// let mut session = Session::open_with(&settings, b"", [0; 64], [0; 64]).unwrap();
/// let push = |at| Call::Send(b"/a", FileMode(0o100644), Moment(at));
/// let Step::Told(Err(error)) = session.start(&push(1_704_092_399)) else { panic!() };
/// let text = "25: no push may start on Monday 2024-01-01 06:59:59 UTC: Mondays are open from 07:00 to 18:00; \
///             the next hours begin Monday 2024-01-01 07:00 UTC";
/// assert_eq!(error.to_string(), text);
/// assert!(matches!(session.start(&push(1_704_092_400)), Step::Write(_)));
///
/// let error = settings.load_hours(b"day,open,close\n0,60,60\n").unwrap_err();
/// assert_eq!(error.to_string(), "24: bad hours: line 2: open 60 is not before close 60");
/// ```
#[derive(Clone, Copy, PartialEq, Eq)]
pub struct Settings([u8; SETTINGS]);

impl Settings {
    /// The published ids, and no hours: every moment will do for a push.
    pub fn published() -> Self {
        let mut bytes = [0; SETTINGS];
        let number = raw::settings(&mut bytes);
        assert_eq!(number, 0, "settings of the library's own length were refused");
        Self(bytes)
    }

    /// These bytes as they are. Where their ids are none that a file could have brought there, [`Session::open_with`] answers
    /// 22 or 23, and where their hours are none, 24.
    ///
    /// [`Session::open_with`]: crate::Session::open_with
    pub fn from_bytes(bytes: [u8; SETTINGS]) -> Self {
        Self(bytes)
    }

    /// The bytes that the library keeps: fifteen ids of four bytes, hours of 32, then zeros.
    pub fn as_bytes(&self) -> &[u8; SETTINGS] {
        &self.0
    }

    /// The ids, in the order of [`Ids`].
    pub fn ids(&self) -> Ids {
        std::array::from_fn(|at| self.0[4 * at..4 * at + 4].try_into().expect("four bytes"))
    }

    /// Puts the ids of a file in the place of these: 22 for a file of another form, 23 for one with two equal ids, and the old
    /// ids stay. Whether the file is taken is the library's to say; what is wrong with it is looked for only then.
    pub fn load_ids(&mut self, file: &[u8]) -> Result<(), Error> {
        match raw::ids(&mut self.0, file) {
            0 => Ok(()),
            number => Err(Error::of_ids(number, seen_in_file(file))),
        }
    }

    /// The same, of a file that is still to be read. No more than [`IDS_MOST`] bytes and one are read: what is longer is
    /// refused by those.
    pub fn read_ids(&mut self, file: &mut impl Read) -> Result<(), Failure> {
        let mut bytes = Vec::new();
        file.take(IDS_MOST as u64 + 1).read_to_end(&mut bytes).map_err(Failure::File)?;
        Ok(self.load_ids(&bytes)?)
    }

    /// The hours; `None` where there are none, and every moment will do.
    pub fn hours(&self) -> Option<Hours> {
        Hours::of(self.of_hours())
    }

    /// Puts the hours of a file in the place of these: 24 for a file of another form, and the old hours stay, or none where there were none.
    /// Whether the file is taken is the library's to say; what is wrong with it is looked for only then.
    pub fn load_hours(&mut self, file: &[u8]) -> Result<(), Error> {
        match raw::hours(&mut self.0, file) {
            0 => Ok(()),
            number => Err(Error::of_hours(number, hours_file::seen_in_file(file))),
        }
    }

    /// The same, of a file that is still to be read. No more than [`HOURS_MOST`] bytes and one are read.
    pub fn read_hours(&mut self, file: &mut impl Read) -> Result<(), Failure> {
        let mut bytes = Vec::new();
        file.take(HOURS_MOST as u64 + 1).read_to_end(&mut bytes).map_err(Failure::File)?;
        Ok(self.load_hours(&bytes)?)
    }

    /// Whether the hours let a push start at this moment, as a session that is opened with them does: 25 where they don't, 24 where
    /// they are none.
    ///
    /// ```
    /// use yuglasno::{Moment, Settings};
    ///
    /// let mut settings = Settings::published();
    /// assert!(settings.may_push(Moment(0)).is_ok(), "there are no hours");
    /// settings.load_hours(b"day,open,close\n3,0,1\n").unwrap();
    /// assert!(settings.may_push(Moment(59)).is_ok(), "a Thursday, before 00:01");
    /// assert_eq!(settings.may_push(Moment(60)).unwrap_err().number(), 25);
    /// settings.load_hours(b"day,open,close\n").unwrap();
    /// assert!(settings.may_push(Moment(59)).is_err(), "the heading alone: no moment will do");
    /// ```
    pub fn may_push(&self, moment: Moment) -> Result<(), Error> {
        match (raw::may_push(&self.0, moment.0), self.hours()) {
            (0, _) => Ok(()),
            (25, Some(hours)) => Err(Error::OutsideHours(Outside { moment, hours })),
            (number, _) => Err(self.refused(number)),
        }
    }

    fn of_hours(&self) -> &[u8; HOURS_SIZE] {
        self.0[HOURS_IN_SETTINGS..HOURS_IN_SETTINGS + HOURS_SIZE].try_into().expect("their length")
    }

    /// The error of an opening with these.
    pub(crate) fn refused(&self, number: u32) -> Error {
        match number {
            24 => Error::of_hours(number, hours_file::seen_in_settings(self.of_hours())),
            _ => Error::of_ids(number, seen_in_ids(&self.ids())),
        }
    }
}

impl Default for Settings {
    fn default() -> Self {
        Self::published()
    }
}

impl fmt::Debug for Settings {
    fn fmt(&self, f: &mut fmt::Formatter<'_>) -> fmt::Result {
        f.debug_tuple("Settings").field(&crate::Shown(&self.ids().join(&b','))).field(&self.hours()).finish()
    }
}
