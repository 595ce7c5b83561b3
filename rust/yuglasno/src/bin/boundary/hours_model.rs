//! What hours and dates must come to, for any bytes: hours files, hours in settings and in a record, moments.
use yuglasno::raw::HOURS_SIZE;

pub const HEADING: &str = "day,open,close\n";
pub const DAY: u64 = 86_400;
pub const MINUTES: u16 = 1_440;

/// Year, month, day, weekday and minute, by eras of 400 years that begin in March.
pub fn date(moment: u32) -> [u64; 5] {
    let (day, second) = (u64::from(moment) / DAY, u64::from(moment) % DAY);
    let of_march = day + 719_468;
    let (era, of_era) = (of_march / 146_097, of_march % 146_097);
    let year = (of_era - of_era / 1_460 + of_era / 36_524 - of_era / 146_096) / 365;
    let of_year = of_era - (365 * year + year / 4 - year / 100);
    let month = (5 * of_year + 2) / 153;
    let of_month = of_year - (153 * month + 2) / 5 + 1;
    let (month, next) = if month < 10 { (month + 3, 0) } else { (month - 9, 1) };
    [400 * era + year + next, month, of_month, (day + 3) % 7, second / 60]
}

fn number(hours: &[u8], at: usize) -> u16 {
    u16::from_le_bytes([hours[at], hours[at + 1]])
}

/// A day's open and close.
pub fn span(hours: &[u8], day: usize) -> (u16, u16) {
    (number(hours, 4 + 4 * day), number(hours, 6 + 4 * day))
}

/// Whether a push at this moment is outside the hours of a record, whatever its bytes are.
pub fn closed(hours: &[u8], moment: u32) -> bool {
    let (day, minute) = (moment / 86_400, (moment % 86_400 / 60) as u16);
    let (open, close) = span(hours, (day as usize + 3) % 7);
    hours[0] != 0 && !(open..close).contains(&minute)
}

/// Whether settings with these hours can be opened.
pub fn are_hours(hours: &[u8]) -> bool {
    let well = |(open, close)| (open, close) == (0, 0) || (open < close && close <= MINUTES);
    match hours[..4] {
        [0, 0, 0, 0] => hours.iter().all(|byte| *byte == 0),
        [1, 0, 0, 0] => (0..7).all(|day| well(span(hours, day))),
        _ => false,
    }
}

/// The hours of a file that is taken.
pub fn of_file(file: &[u8]) -> Option<[u8; HOURS_SIZE]> {
    let lines = file.strip_prefix(HEADING.as_bytes())?;
    let (mut hours, mut days) = ([0; HOURS_SIZE], 0..7);
    hours[0] = 1;
    for line in lines.split_inclusive(|byte| *byte == b'\n') {
        let text = std::str::from_utf8(line.strip_suffix(b"\n")?).ok()?;
        let numbers: Vec<usize> = text.split(',').map(|field| field.parse().ok()).collect::<Option<_>>()?;
        // what is written back is what was read: no sign, no 0 in front
        if text != numbers.iter().map(usize::to_string).collect::<Vec<_>>().join(",") {
            return None;
        }
        let [day, open, close] = numbers[..] else { return None };
        days.find(|each| *each == day)?;
        if open >= close || close > usize::from(MINUTES) {
            return None;
        }
        let bytes = [open as u16, close as u16].map(u16::to_le_bytes).concat();
        hours[4 + 4 * day..8 + 4 * day].copy_from_slice(&bytes);
    }
    Some(hours)
}
