//! Times as the command line has them: Unix seconds, or a date of the Gregorian calendar, in UTC.

/// Which second is meant by a day or a minute.
#[derive(Clone, Copy)]
pub enum Edge {
    First,
    Last,
}

const MINUTE: i64 = 60;
const HOUR: i64 = 60 * MINUTE;
const DAY: i64 = 24 * HOUR;
/// The days of each month; February has one more in a leap year.
const MONTHS: [i64; 12] = [31, 28, 31, 30, 31, 30, 31, 31, 30, 31, 30, 31];

/// A word as Unix seconds, or why it is none.
pub fn moment(word: &str, edge: Edge) -> Result<i64, &'static str> {
    const FORM: &str = "neither Unix seconds nor a date such as 1998-04-08, 1998-04-08T12:30 or 1998-04-08T12:30:59";
    if is_number(word.strip_prefix('-').unwrap_or(word)) {
        return word.parse().map_err(|_| "more seconds than 64 bits have");
    }
    let (date, time) = match word.split_once(['T', ' ']) {
        Some((date, time)) => (date, Some(time)),
        None => (word, None),
    };
    let [year, month, day] = fields(date, '-', [4, 2, 2]).ok_or(FORM)?;
    let (first, last) = time.map_or(Some((0, DAY - 1)), seconds).ok_or(FORM)?;
    let start = DAY * days(year, month, day).ok_or("no day of the calendar")?;
    match edge {
        _ if first >= DAY => Err("no time of day"),
        Edge::First => Ok(start + first),
        Edge::Last => Ok(start + last),
    }
}

fn is_number(word: &str) -> bool {
    !word.is_empty() && word.bytes().all(|byte| byte.is_ascii_digit())
}

/// Numbers of these many digits each, with a mark between them.
fn fields<const N: usize>(text: &str, mark: char, digits: [usize; N]) -> Option<[i64; N]> {
    let parts: Vec<&str> = text.split(mark).collect();
    let well = |(part, digits): (&&str, &usize)| part.len() == *digits && is_number(part);
    if parts.len() != N || !parts.iter().zip(&digits).all(well) {
        return None;
    }
    let numbers: Vec<i64> = parts.iter().filter_map(|part| part.parse().ok()).collect();
    numbers.try_into().ok()
}

/// The first and the last second of the day that HH:MM or HH:MM:SS means; a day's length where there is no such time.
fn seconds(time: &str) -> Option<(i64, i64)> {
    let whole = fields(time, ':', [2, 2]).map(|[hour, minute]| ([hour, minute, 0], MINUTE - 1));
    let ([hour, minute, second], more) = whole.or_else(|| Some((fields(time, ':', [2, 2, 2])?, 0)))?;
    if hour >= 24 || minute >= 60 || second >= 60 {
        return Some((DAY, DAY));
    }
    let first = HOUR * hour + MINUTE * minute + second;
    Some((first, first + more))
}

/// Days since 1970-01-01; none for what is no day. The calendar's first year is 1.
fn days(year: i64, month: i64, day: i64) -> Option<i64> {
    let months = MONTHS.get(..usize::try_from(month).ok()?)?;
    let leap = i64::from(is_leap(year));
    let length = months.last()? + if month == 2 { leap } else { 0 };
    if year < 1 || !(1..=length).contains(&day) {
        return None;
    }
    let before: i64 = months[..months.len() - 1].iter().sum();
    Some(days_before(year) - days_before(1970) + before + if month > 2 { leap } else { 0 } + day - 1)
}

fn is_leap(year: i64) -> bool {
    year % 4 == 0 && (year % 100 != 0 || year % 400 == 0)
}

/// Days from 0001-01-01 to a year's first.
fn days_before(year: i64) -> i64 {
    let past = year - 1;
    365 * past + past / 4 - past / 100 + past / 400
}

#[cfg(test)]
mod tests {
    use super::*;

    fn both(word: &str) -> (i64, i64) {
        (moment(word, Edge::First).unwrap(), moment(word, Edge::Last).unwrap())
    }

    /// Days as `date -u -d DAY +%s` has them.
    #[test]
    fn known_days() {
        for (date, start) in [
            ("0001-01-01", -62_135_596_800),
            ("1600-02-29", -11_670_998_400),
            ("1900-02-28", -2_203_977_600),
            ("1900-03-01", -2_203_891_200),
            ("1969-12-31", -86_400),
            ("1970-01-01", 0),
            ("1972-02-29", 68_169_600),
            ("1998-04-12", 892_339_200),
            ("2000-02-29", 951_782_400),
            ("2000-03-01", 951_868_800),
            ("2024-12-31", 1_735_603_200),
            ("2100-02-28", 4_107_456_000),
            ("2100-03-01", 4_107_542_400),
            ("2106-02-07", 4_294_944_000),
            ("9999-12-31", 253_402_214_400),
        ] {
            assert_eq!(both(date), (start, start + DAY - 1), "{date}");
        }
    }

    /// Every day of 800 years is the one behind the day before it.
    #[test]
    fn day_by_day() {
        let mut expected = days(1600, 1, 1).unwrap();
        for year in 1600..2400 {
            for month in 1..=12 {
                for day in 1..=31 {
                    if let Some(number) = days(year, month, day) {
                        assert_eq!(number, expected, "{year}-{month}-{day}");
                        expected += 1;
                    }
                }
            }
        }
        assert_eq!(expected - days(1600, 1, 1).unwrap(), 2 * 146_097);
    }

    #[test]
    fn times_of_day() {
        assert_eq!(both("1998-04-12T00:00"), (892_339_200, 892_339_259));
        assert_eq!(both("1998-04-12T23:59"), (892_425_540, 892_425_599));
        assert_eq!(both("1998-04-12 12:30"), (892_384_200, 892_384_259));
        assert_eq!(both("1998-04-12 12:30:05"), (892_384_205, 892_384_205));
        assert_eq!(both("1969-12-31T23:59:59"), (-1, -1));
    }

    #[test]
    fn unix_seconds() {
        for seconds in [0, 5, -5, 2024, 892_000_000, i64::MIN, i64::MAX] {
            assert_eq!(both(&seconds.to_string()), (seconds, seconds));
        }
        assert_eq!(both("-0007"), (-7, -7));
    }

    #[test]
    fn what_is_no_time() {
        let why = |word| moment(word, Edge::First).unwrap_err();
        for word in ["1998-13-01", "1998-00-01", "1998-04-31", "1900-02-29", "2023-02-29", "1998-04-00", "0000-01-01"] {
            assert_eq!(why(word), "no day of the calendar", "{word}");
        }
        for word in ["1998-04-12T24:00", "1998-04-12T12:60", "1998-04-12T12:30:60", "1998-04-12T99:99:99"] {
            assert_eq!(why(word), "no time of day", "{word}");
        }
        for word in ["9223372036854775808", "-9223372036854775809"] {
            assert_eq!(why(word), "more seconds than 64 bits have");
        }
        let numbers = ["", "-", "--5", "+5", "5.0", "easter"];
        let dates = ["1998-4-12", "98-04-12", "10000-01-01", "1998-04", "1998-04-12-01", "-1998-04-12", "1998/04/12"];
        let times = ["T", "T12", "T1:30", "T12:30:5", "T12:30Z", "T12:30:00:00", "  12:30"];
        let dated = times.map(|time| format!("1998-04-12{time}"));
        for word in numbers.into_iter().chain(dates).chain(dated.iter().map(|word| &word[..])) {
            assert!(why(word).starts_with("neither"), "{word}");
        }
    }
}
