//! Hours: on which days, and between which minutes, a push may start. Whether it may is the library's to say; this is for people to read.
use crate::moment::{Clock, Moment, Weekday};
use crate::raw::HOURS_SIZE;
use std::fmt;

const MINUTE: u32 = 60;
const DAY: u32 = 86_400;
/// Where the spans begin in the bytes of hours, and how long each is.
const SPANS: usize = 4;
const SPAN: usize = 4;

/// A day's span in minutes from midnight, UTC: open is included, close is not. It is displayed as times of day.
#[derive(Clone, Copy, PartialEq, Eq, Debug)]
pub struct Span {
    /// From 0 on.
    pub open: u16,
    /// Up to 1440, midnight at the day's end.
    pub close: u16,
}

impl fmt::Display for Span {
    fn fmt(&self, f: &mut fmt::Formatter<'_>) -> fmt::Result {
        write!(f, "{} to {}", Clock(self.open), Clock(self.close))
    }
}

/// The hours of settings: a span for each day that has one. See [`Settings::load_hours`](crate::Settings::load_hours).
#[derive(Clone, Copy, PartialEq, Eq, Debug)]
pub struct Hours([Option<Span>; 7]);

impl Hours {
    /// Those of a file that has its heading alone.
    pub const NEVER: Self = Self([None; 7]);

    /// Those in the bytes of settings or a record; `None` where they have no hours.
    pub(crate) fn of(bytes: &[u8; HOURS_SIZE]) -> Option<Self> {
        let number = |at: usize| u16::from_le_bytes([bytes[at], bytes[at + 1]]);
        let span = |day: usize| Span { open: number(SPANS + SPAN * day), close: number(SPANS + SPAN * day + 2) };
        let there = |span: &Span| span.open < span.close;
        (bytes[0] != 0).then(|| Self(std::array::from_fn(|day| Some(span(day)).filter(there))))
    }

    /// The span of a day, if it has one.
    pub fn on(&self, day: Weekday) -> Option<Span> {
        self.0[day as usize]
    }

    /// When the next span begins, behind a moment; `None` where none does, in hours without a span or at the end of all moments.
    ///
    /// ```
    /// use yuglasno::{Moment, Settings};
    ///
    /// let mut settings = Settings::published();
    /// settings.load_hours(b"day,open,close\n0,420,1080\n").unwrap();
    /// let hours = settings.hours().unwrap();
    /// assert_eq!(hours.next(Moment(1_704_092_399)), Some(Moment(1_704_092_400)));
    /// assert_eq!(hours.next(Moment(1_704_092_400)), Some(Moment(1_704_092_400 + 7 * 86_400)));
    /// assert_eq!(hours.next(Moment::LAST), None);
    /// ```
    pub fn next(&self, moment: Moment) -> Option<Moment> {
        let (midnight, today) = (moment.0 - moment.0 % DAY, moment.date().weekday);
        (0..=7).find_map(|days: u32| {
            let open = self.on(today.later(days as usize))?.open;
            let begins = midnight.checked_add(days * DAY)?.checked_add(MINUTE * u32::from(open))?;
            (begins > moment.0).then_some(Moment(begins))
        })
    }
}

/// A moment at which hours let no push start. Its text says what they have for that day, and when the next span begins.
#[derive(Clone, Copy, PartialEq, Eq, Debug)]
pub struct Outside {
    /// When it was to start.
    pub moment: Moment,
    /// The hours that the session was opened with.
    pub hours: Hours,
}

impl fmt::Display for Outside {
    fn fmt(&self, f: &mut fmt::Formatter<'_>) -> fmt::Result {
        let Self { moment, hours } = self;
        let today = moment.date().weekday;
        write!(f, "{moment}: ")?;
        match hours.on(today) {
            _ if *hours == Hours::NEVER => return f.write_str("these hours never open"),
            Some(span) => write!(f, "{today}s are open from {span}")?,
            None => write!(f, "{today}s have no hours")?,
        }
        match hours.next(*moment) {
            Some(next) => write!(f, "; the next hours begin {} UTC", next.date()),
            None => write!(f, "; no others begin up to {}, the last moment there is", Moment::LAST),
        }
    }
}
