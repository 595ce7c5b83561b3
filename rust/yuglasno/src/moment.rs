//! A moment, and its date: Unix seconds of 32 bits, in UTC. The calendar is the library's.
use crate::raw::{self, REPLY};
use crate::reply::word;
use std::fmt;
use std::time::SystemTime;

/// A moment in Unix seconds, UTC: from 1970-01-01 00:00:00 to 2106-02-07 06:28:15, all that 32 bits have. It is displayed by its date.
///
/// ```
/// use yuglasno::{Moment, Weekday};
///
/// let date = Moment(951_782_400).date();
/// assert_eq!((date.year, date.month, date.day), (2000, 2, 29));
/// assert_eq!((date.weekday, date.minute), (Weekday::Tuesday, 0));
/// assert_eq!(Moment(1_704_092_399).to_string(), "Monday 2024-01-01 06:59:59 UTC");
/// assert_eq!(Moment::LAST.to_string(), "Sunday 2106-02-07 06:28:15 UTC");
/// ```
#[derive(Clone, Copy, PartialEq, Eq, PartialOrd, Ord, Hash, Debug, Default)]
pub struct Moment(pub u32);

impl Moment {
    /// 1970-01-01 00:00:00. A session without hours takes every moment, and this is one.
    pub const FIRST: Self = Self(0);
    /// 2106-02-07 06:28:15.
    pub const LAST: Self = Self(u32::MAX);

    /// The clock's; `None` where that stands before the first moment or past the last.
    pub fn now() -> Option<Self> {
        Self::of(SystemTime::now())
    }

    /// The moment that a time lies in; `None` for one before the first moment or past the last.
    ///
    /// ```
    /// use std::time::{Duration, SystemTime};
    /// use yuglasno::Moment;
    ///
    /// let (epoch, second) = (SystemTime::UNIX_EPOCH, Duration::from_secs(1));
    /// assert_eq!((Moment::of(epoch), Moment::of(epoch - second)), (Some(Moment::FIRST), None));
    /// let last = epoch + second * u32::MAX;
    /// assert_eq!((Moment::of(last), Moment::of(last + second)), (Some(Moment::LAST), None));
    /// ```
    pub fn of(time: SystemTime) -> Option<Self> {
        let since = time.duration_since(SystemTime::UNIX_EPOCH).ok()?;
        u32::try_from(since.as_secs()).ok().map(Self)
    }

    /// Its date, by the Gregorian calendar, and its minute of the day.
    pub fn date(self) -> Date {
        let mut out = [0; REPLY];
        let number = raw::date(self.0, &mut out);
        assert_eq!(number, 0, "a slice of the library's own length was refused");
        Date {
            year: word(&out, 0) as u32,
            month: word(&out, 1) as u8,
            day: word(&out, 2) as u8,
            weekday: Weekday::ALL[word(&out, 3) as usize],
            minute: word(&out, 4) as u16,
        }
    }
}

impl fmt::Display for Moment {
    fn fmt(&self, f: &mut fmt::Formatter<'_>) -> fmt::Result {
        write!(f, "{}:{:02} UTC", self.date(), self.0 % 60)
    }
}

/// A moment's date in UTC. It is displayed with its weekday, and to the minute.
#[derive(Clone, Copy, PartialEq, Eq, Debug)]
pub struct Date {
    /// From 1970 to 2106.
    pub year: u32,
    /// From 1 to 12.
    pub month: u8,
    /// From 1 on.
    pub day: u8,
    /// The day of the week.
    pub weekday: Weekday,
    /// The minute of the day, from 0 to 1439.
    pub minute: u16,
}

impl fmt::Display for Date {
    fn fmt(&self, f: &mut fmt::Formatter<'_>) -> fmt::Result {
        let Self { year, month, day, weekday, minute } = self;
        write!(f, "{weekday} {year}-{month:02}-{day:02} {}", Clock(*minute))
    }
}

/// A minute of the day as people read it: 1440 is 24:00.
pub(crate) struct Clock(pub(crate) u16);

impl fmt::Display for Clock {
    fn fmt(&self, f: &mut fmt::Formatter<'_>) -> fmt::Result {
        write!(f, "{:02}:{:02}", self.0 / 60, self.0 % 60)
    }
}

/// A day of the week. An hours file has Monday as 0 and Sunday as 6.
#[allow(missing_docs)]
#[derive(Clone, Copy, PartialEq, Eq, Debug)]
pub enum Weekday {
    Monday,
    Tuesday,
    Wednesday,
    Thursday,
    Friday,
    Saturday,
    Sunday,
}

impl Weekday {
    /// All of them, in the order of their numbers.
    pub const ALL: [Self; 7] =
        [Self::Monday, Self::Tuesday, Self::Wednesday, Self::Thursday, Self::Friday, Self::Saturday, Self::Sunday];

    /// The day that comes so many days later.
    pub(crate) fn later(self, days: usize) -> Self {
        Self::ALL[(self as usize + days) % Self::ALL.len()]
    }
}

impl fmt::Display for Weekday {
    fn fmt(&self, f: &mut fmt::Formatter<'_>) -> fmt::Result {
        f.pad(&format!("{self:?}"))
    }
}
