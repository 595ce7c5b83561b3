//! Hours files and moments of any kind, the three functions of hours, and what each must come to.
use crate::hours_model::{are_hours, closed, date, of_file, span, DAY, HEADING, MINUTES};
use crate::lent::Lent;
use crate::model::put;
use crate::random::Random;
use crate::tables::noted;
use crate::Counts;
use yuglasno::raw::{self, HOURS_IN_RECORD, HOURS_IN_SETTINGS, HOURS_SIZE, REPLY, SETTINGS};

/// Loads a few files into settings of any length, each crossing checked; now and then the hours in them are altered.
pub fn put_into(random: &mut Random, counts: &mut Counts, settings: &mut Lent) -> Result<(), String> {
    for _ in 0..random.below(3) {
        loaded(random, counts, settings)?;
    }
    if settings.bytes().len() == SETTINGS && random.one_in(8) {
        let any = random.below(HOURS_SIZE);
        let at = HOURS_IN_SETTINGS + random.of(&[0, 0, 1, 3, 4, 5, 6, 7, any]);
        settings.lend()[at] = random.of(&[0, 1, 2, 5, 6, 128, 160, 255]);
    }
    may_push(random, counts, settings)?;
    dated(random, counts)
}

fn loaded(random: &mut Random, counts: &mut Counts, settings: &mut Lent) -> Result<(), String> {
    let bytes = file(random);
    let lent = Lent::new(random, &bytes);
    let mut expected = settings.bytes().to_vec();
    let number = raw::hours(settings.lend(), lent.bytes());
    let wanted = match of_file(&bytes) {
        _ if expected.len() != SETTINGS => 3,
        None => 24,
        Some(hours) => {
            expected[HOURS_IN_SETTINGS..HOURS_IN_SETTINGS + HOURS_SIZE].copy_from_slice(&hours);
            0
        }
    };
    noted(counts, number);
    counts.of_hours += 1;
    let kept = lent.bytes() == bytes && lent.guards_stand() && settings.guards_stand();
    match number == wanted && settings.bytes() == expected && kept {
        true => Ok(()),
        false => Err(format!("an hours file was answered {number}, {wanted} wanted: {}", bytes.escape_ascii())),
    }
}

fn may_push(random: &mut Random, counts: &mut Counts, settings: &Lent) -> Result<(), String> {
    let before = settings.bytes().to_vec();
    let hours = before.get(HOURS_IN_SETTINGS..HOURS_IN_SETTINGS + HOURS_SIZE).unwrap_or(&[0; HOURS_SIZE]);
    let moment = moment(random, hours);
    let number = raw::may_push(settings.bytes(), moment);
    let wanted = match before.len() {
        SETTINGS if !are_hours(hours) => 24,
        SETTINGS if closed(hours, moment) => 25,
        SETTINGS => 0,
        _ => 3,
    };
    noted(counts, number);
    counts.of_hours += 1;
    match number == wanted && settings.bytes() == before && settings.guards_stand() {
        true => Ok(()),
        false => Err(format!("a push at {moment} with hours {hours:?} was answered {number}, {wanted} wanted")),
    }
}

fn dated(random: &mut Random, counts: &mut Counts) -> Result<(), String> {
    let near = DAY * random_day(random);
    let moment = random.number(near) as u32;
    let length = if random.one_in(8) { random.number(REPLY as u64).min(400) as usize } else { REPLY };
    let mut out = Lent::filled(random, length);
    let mut expected = out.bytes().to_vec();
    let number = raw::date(moment, out.lend());
    let wanted = if length < REPLY { 3 } else { 0 };
    if wanted == 0 {
        date(moment).into_iter().enumerate().for_each(|(i, word)| put(&mut expected, i, word));
    }
    noted(counts, number);
    counts.of_hours += 1;
    match number == wanted && out.bytes() == expected && out.guards_stand() {
        true => Ok(()),
        false => Err(format!("the date of {moment} was answered {number}, or is another")),
    }
}

/// An hours file, often as it should be.
fn file(random: &mut Random) -> Vec<u8> {
    let mut text = HEADING.to_string();
    for day in 0..7 {
        if random.one_in(2) {
            let any = random.below(1_440);
            let open = random.of(&[0, 0, 420, 1_439, any]);
            let any = open + 1 + random.below(1_440 - open);
            let close = random.of(&[open + 1, 1_440, any]);
            text += &format!("{day},{open},{close}\n");
        }
    }
    let mut bytes = text.into_bytes();
    let length = bytes.len();
    match random.below(14) {
        0 => return random.bytes(30),
        1 => bytes.truncate(random.below(length + 1)),
        2 => bytes.extend(random.of(&[
            &b"\n"[..],
            b"\r\n",
            b"6,0,1\n",
            b"7,0,1\n",
            b"6,0,1441\n",
            b"6,9,9\n",
            b"06,0,1\n",
            b"\0",
        ])),
        3 => drop(bytes.remove(random.below(length))),
        4 => bytes.insert(random.below(length + 1), random.of(b"0+1-9\n\r, \0")),
        5 | 6 => bytes[random.below(length)] = random.of(b"0+1-9\n\r, \0"),
        _ => {}
    }
    bytes
}

/// Makes a byte of a record's hours another.
pub fn bent(rec: &mut [u8], random: &mut Random) {
    let at = HOURS_IN_RECORD + random.below(HOURS_SIZE);
    if let Some(byte) = rec.get_mut(at) {
        *byte = random.of(&[0, 1, 5, 160, 255]);
    }
}

/// One of the days that a moment may have.
fn random_day(random: &mut Random) -> u64 {
    let any = random.below(49_710) as u64;
    random.of(&[0, 1, 58, 59, 364, 365, 11_015, 11_016, 49_709, any, any, any])
}

/// A moment, often one at which one of these hours begin or end.
pub fn moment(random: &mut Random, hours: &[u8]) -> u32 {
    if random.one_in(6) {
        return random.number(0) as u32;
    }
    let day = random_day(random);
    let (open, close) = span(hours, (day as usize + 3) % 7);
    let any = random.below(1_440) as u16;
    let minute = u64::from(random.of(&[open, close, 0, any]).min(MINUTES));
    let second = (DAY * day + 60 * minute).wrapping_add(random.of(&[0, 0, 1, 30, 59, u64::MAX]));
    second as u32
}
