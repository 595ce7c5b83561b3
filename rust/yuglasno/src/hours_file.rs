//! What a person is told of an hours file, or of hours in settings, that the library refused. It decides nothing: the library has.
use crate::moment::Weekday;
use crate::raw::HOURS_SIZE;
use crate::settings::HOURS_MOST;
use crate::shown::Shown;

const HEADING: &[u8] = b"day,open,close";
const NAMES: [&str; 3] = ["day", "open", "close"];
const LINE_END: u8 = 10;
const RETURN: u8 = 13;
const LAST_DAY: u64 = 6;
const DAY_MINUTES: u64 = 1_440;
/// The most bytes of a line or a field that are shown.
const SHOWN: usize = 24;

/// What is seen to be wrong in a file; empty where nothing is.
pub(crate) fn seen_in_file(file: &[u8]) -> String {
    match file {
        _ if file.len() > HOURS_MOST => return format!("it has over {HOURS_MOST} bytes"),
        [] => return "it is empty, and line 1 is to be day,open,close".into(),
        _ => {}
    }
    let mut before = None;
    for (at, line) in file.split_inclusive(|byte| *byte == LINE_END).enumerate() {
        let seen = match line.strip_suffix(&[LINE_END]) {
            None => Some("it does not end with byte 10".into()),
            Some([.., RETURN]) => Some("it ends with byte 13 before byte 10, and lines end with byte 10 alone".into()),
            Some(line) if at == 0 => {
                (line != HEADING).then(|| format!("it is to be day,open,close, and is {}", quoted(line)))
            }
            Some(line) => in_line(line, &mut before).err(),
        };
        if let Some(seen) = seen {
            return format!("line {}: {seen}", at + 1);
        }
    }
    String::new()
}

/// A line behind the heading, and the day of the one before it.
fn in_line(line: &[u8], before: &mut Option<u64>) -> Result<(), String> {
    let fields: Vec<&[u8]> = line.split(|byte| *byte == b',').collect();
    let [day, open, close] = fields[..] else {
        return Err(format!("it is to have three fields, and has {}: {}", fields.len(), quoted(line)));
    };
    let numbers = [day, open, close].into_iter().zip(NAMES).map(|(field, name)| number(field, name));
    let numbers: Vec<u64> = numbers.collect::<Result<_, _>>()?;
    let (day, open, close) = (numbers[0], numbers[1], numbers[2]);
    match before.replace(day) {
        _ if day > LAST_DAY => Err(format!("day {day} is none: 0 is Monday, 6 is Sunday")),
        Some(other) if other == day => Err(format!("day {day} has a line already")),
        Some(other) if other > day => Err(format!("day {day} comes behind day {other}, and days rise")),
        _ if close > DAY_MINUTES => Err(format!("close {close} is over {DAY_MINUTES}, the minutes of a day")),
        _ if open >= close => Err(format!("open {open} is not before close {close}")),
        _ => Ok(()),
    }
}

/// A number in canonical decimal.
fn number(field: &[u8], name: &str) -> Result<u64, String> {
    let shown = quoted(field);
    let large = |_| format!("{name} {shown} is too large");
    match field {
        [] => Err(format!("{name} is empty")),
        _ if !field.iter().all(u8::is_ascii_digit) => Err(format!("{name} {shown} is not digits alone")),
        [b'0', _, ..] => Err(format!("{name} {shown} begins with a 0")),
        _ => String::from_utf8_lossy(field).parse().map_err(large),
    }
}

fn quoted(bytes: &[u8]) -> String {
    let more = if bytes.len() > SHOWN { " .." } else { "" };
    format!("\"{}\"{more}", Shown(&bytes[..bytes.len().min(SHOWN)]))
}

/// The same of the hours in settings, which have bytes of their own.
pub(crate) fn seen_in_settings(hours: &[u8; HOURS_SIZE]) -> String {
    let mut spans = hours[4..].chunks_exact(4).zip(Weekday::ALL);
    match hours[..4] {
        [0, ..] if hours.iter().any(|byte| *byte != 0) => "their first byte is 0, and another is not".into(),
        [0, ..] => String::new(),
        [1, 0, 0, 0] => spans.find_map(|(span, day)| in_span(span, day)).unwrap_or_default(),
        _ => format!("their first four bytes are {:?}, neither 0 nor 1 and zeros", &hours[..4]),
    }
}

fn in_span(span: &[u8], day: Weekday) -> Option<String> {
    let number = |at: usize| u16::from_le_bytes([span[at], span[at + 1]]);
    let (open, close) = (number(0), number(2));
    let well = (open, close) == (0, 0) || (open < close && u64::from(close) <= DAY_MINUTES);
    (!well).then(|| format!("{day} has open {open} and close {close}"))
}

#[cfg(test)]
mod tests {
    use super::*;
    use crate::raw::{self, HOURS_IN_SETTINGS, SETTINGS};

    const FILES: [&[u8]; 3] = [
        b"day,open,close\n0,420,1080\n3,0,1440\n6,1439,1440\n",
        b"day,open,close\n",
        b"day,open,close\n1,0,1\n2,9,10\n",
    ];

    fn settings() -> [u8; SETTINGS] {
        let mut settings = [0; SETTINGS];
        assert_eq!(raw::settings(&mut settings), 0);
        settings
    }

    /// Something is seen in a file exactly where the library refuses it.
    fn agrees(file: &[u8]) -> bool {
        let (number, seen) = (raw::hours(&mut settings(), file), seen_in_file(file));
        assert_eq!(number == 0, seen.is_empty(), "{}: {number}, {seen:?}", file.escape_ascii());
        number == 0
    }

    #[test]
    fn every_byte_of_a_file() {
        let mut taken = 0;
        for file in FILES {
            assert!(agrees(file));
            for at in 0..file.len() {
                assert!(!agrees(&file[..at]) || file[at - 1] == LINE_END, "{at} bytes");
                let fewer = [&file[..at], &file[at + 1..]].concat();
                taken += usize::from(agrees(&fewer));
                for byte in 0..=255 {
                    let more = [&file[..at], &[byte], &file[at..]].concat();
                    let other = [&file[..at], &[byte], &file[at + 1..]].concat();
                    taken += usize::from(agrees(&more)) + usize::from(agrees(&other));
                }
            }
        }
        assert!(taken > 200, "{taken} of the altered files are taken");
    }

    /// The same of the hours in settings, each of whose bytes is altered.
    #[test]
    fn every_byte_of_settings() {
        let mut refused = 0;
        for file in [Some(FILES[0]), Some(FILES[1]), None] {
            let mut loaded = settings();
            assert_eq!(file.map_or(0, |file| raw::hours(&mut loaded, file)), 0);
            for at in 0..HOURS_SIZE {
                for byte in 0..=255 {
                    let mut other = loaded;
                    other[HOURS_IN_SETTINGS + at] = byte;
                    let hours = other[HOURS_IN_SETTINGS..].first_chunk().unwrap();
                    let (number, seen) = (raw::may_push(&other, 0), seen_in_settings(hours));
                    assert_eq!(number == 24, !seen.is_empty(), "byte {at} as {byte}: {number}, {seen:?}");
                    refused += usize::from(number == 24);
                }
            }
        }
        assert!(refused > 10_000, "{refused} of the altered settings are refused");
    }
}
