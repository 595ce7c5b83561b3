//! The hours file of `--hours`, when a push starts, and the command that shows a week.
use crate::arguments::Plan;
use crate::settings_file::{self, named};
use crate::stop::{Stop, IO};
use std::io::{self, Write};
use std::path::Path;
use yuglasno::{Hours, Moment, Settings, Weekday};

/// The answer to a push outside the hours.
const OUTSIDE: u8 = 25;

/// The plan's settings with the hours of its file, if it names one.
pub fn loaded(plan: &mut Plan) -> Result<(), Stop> {
    let Some(file) = &plan.hours else { return Ok(()) };
    settings_file::loaded("hours", file, |opened| plan.settings.read_hours(opened))
}

/// The same stop, and of a push outside the hours the file that has them.
pub fn hinted(stop: Stop, plan: &Plan) -> Stop {
    match &plan.hours {
        Some(file) if stop.status == OUTSIDE => stop.about(named("hours", file)),
        _ => stop,
    }
}

/// When a push starts. Without hours any moment will do, and the clock is not looked at.
pub fn moment(plan: &Plan) -> Result<Moment, Stop> {
    match plan.hours {
        Some(_) => given_or(plan.at, Moment::now()),
        None => Ok(Moment::FIRST),
    }
}

/// The moment that was given, or the clock's.
fn given_or(at: Option<Moment>, now: Option<Moment>) -> Result<Moment, Stop> {
    let outside =
        || format!("it stands before 1970 or past {}, and no moment is there; --at WHEN gives one", Moment::LAST);
    at.or(now).ok_or_else(|| Stop::new(IO, "the clock", outside()))
}

/// The week that a file has, and whether a push may start at a moment, or now.
pub fn show(file: &Path, at: Option<Moment>, said: &mut dyn Write) -> Result<(), Stop> {
    let mut settings = Settings::published();
    settings_file::loaded("hours", file, |opened| settings.read_hours(opened))?;
    let moment = given_or(at, Moment::now())?;
    let shown = settings.hours().map_or(Ok(()), |hours| week(&settings, &hours, moment, said));
    shown.map_err(|e| Stop::output(&e))
}

fn week(settings: &Settings, hours: &Hours, moment: Moment, said: &mut dyn Write) -> io::Result<()> {
    for day in Weekday::ALL {
        match hours.on(day) {
            Some(span) => writeln!(said, "{day:<9}  {span}")?,
            None => writeln!(said, "{day:<9}  closed")?,
        }
    }
    match settings.may_push(moment) {
        Ok(()) => writeln!(said, "{moment}: a push may start"),
        Err(_) => match hours.next(moment) {
            Some(next) => writeln!(said, "{moment}: no push may start; the next hours begin {} UTC", next.date()),
            None => writeln!(said, "{moment}: no push may start, and no hours begin behind it"),
        },
    }
}

#[cfg(test)]
mod tests {
    use super::*;

    #[test]
    fn a_clock_that_has_no_moment() {
        let (at, now) = (Moment(5), Moment(7));
        assert_eq!(given_or(Some(at), None).ok(), Some(at));
        assert_eq!(given_or(None, Some(now)).ok(), Some(now));
        let stop = given_or(None, None).err().unwrap();
        let why =
            "it stands before 1970 or past Sunday 2106-02-07 06:28:15 UTC, and no moment is there; --at WHEN gives one";
        assert_eq!((stop.status, stop.text), (74, format!("74: the clock: {why}")));
    }
}
