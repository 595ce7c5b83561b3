//! Settings and ids files of any kind, two of the functions that write settings, and what each must come to.
use crate::hours;
use crate::lent::Lent;
use crate::random::Random;
use crate::{Counts, ANSWERS};
use yuglasno::raw::{self, HOURS_IN_SETTINGS, HOURS_SIZE, SETTINGS};
use yuglasno::{Ids, PUBLISHED_IDS};

/// How many bytes of settings the ids have, and where the hours end.
const TABLE: usize = HOURS_IN_SETTINGS;
const ROOM: usize = HOURS_IN_SETTINGS + HOURS_SIZE;
const LETTERS: std::ops::RangeInclusive<u8> = 33..=126;

/// Settings that were made by the library and loaded with a few files, each crossing checked; now and then altered, or of another length.
pub fn settings(random: &mut Random, counts: &mut Counts) -> Result<Lent, String> {
    let length = if random.one_in(12) { random.number(SETTINGS as u64).min(400) as usize } else { SETTINGS };
    let mut settings = Lent::filled(random, length);
    made(counts, &mut settings)?;
    if length == SETTINGS && random.one_in(4) {
        let from = if random.one_in(4) { TABLE } else { ROOM };
        let room = random.bytes(SETTINGS - from);
        settings.lend()[from..].copy_from_slice(&room);
    }
    for _ in 0..random.below(4) {
        loaded(random, counts, &mut settings)?;
    }
    hours::put_into(random, counts, &mut settings)?;
    if length > 0 && random.one_in(8) {
        let at = random.below(length);
        settings.lend()[at] = random.of(&[0, 9, 10, 32, 33, 44, 65, 126, 127, 255]);
    }
    if length == SETTINGS && random.one_in(20) {
        let (from, to) = (4 * random.below(15), 4 * random.below(15));
        settings.lend().copy_within(from..from + 4, to);
    }
    Ok(settings)
}

fn made(counts: &mut Counts, settings: &mut Lent) -> Result<(), String> {
    let before = settings.bytes().to_vec();
    let number = raw::settings(settings.lend());
    let expected = match before.len() {
        SETTINGS => (0, [&PUBLISHED_IDS.concat()[..], &[0; SETTINGS - TABLE]].concat()),
        _ => (3, before),
    };
    noted(counts, number);
    let well = (number, settings.bytes()) == (expected.0, &expected.1[..]) && settings.guards_stand();
    well.then_some(()).ok_or_else(|| format!("settings of {} bytes, answered {number}", expected.1.len()))
}

fn loaded(random: &mut Random, counts: &mut Counts, settings: &mut Lent) -> Result<(), String> {
    let bytes = file(random);
    let lent = Lent::new(random, &bytes);
    let mut expected = settings.bytes().to_vec();
    let number = raw::ids(settings.lend(), lent.bytes());
    let wanted = if expected.len() == SETTINGS { of_file(&bytes) } else { 3 };
    if wanted == 0 {
        let values: Vec<u8> = bytes[bytes.len() / 2..].iter().copied().filter(|byte| !b",\n".contains(byte)).collect();
        expected[..TABLE].copy_from_slice(&values);
    }
    noted(counts, number);
    if number != wanted {
        return Err(format!("an ids file was answered {number}, not {wanted}: {}", bytes.escape_ascii()));
    }
    let kept = lent.bytes() == bytes && lent.guards_stand() && settings.guards_stand();
    if settings.bytes() != expected || !kept {
        return Err(format!("an ids file, answered {number}, changed what it may not: {}", bytes.escape_ascii()));
    }
    Ok(())
}

pub fn noted(counts: &mut Counts, number: u32) {
    counts.calls += 1;
    counts.answered[(number as usize).min(ANSWERS - 1)] += 1;
}

/// The ids in settings of their own length.
pub fn ids(settings: &[u8]) -> Ids {
    std::array::from_fn(|at| settings[4 * at..4 * at + 4].try_into().expect("four bytes"))
}

/// What the ids in settings are answered with.
pub fn of_settings(settings: &[u8]) -> u32 {
    of_values(settings[..TABLE].chunks(4).collect())
}

/// What a file is answered with: 0, 22 or 23.
fn of_file(file: &[u8]) -> u32 {
    let behind = file.strip_prefix(&line(&PUBLISHED_IDS)[..]);
    match behind.and_then(|line| line.strip_suffix(b"\n")) {
        Some(line) => of_values(line.split(|byte| *byte == b',').collect()),
        None => 22,
    }
}

fn of_values(mut values: Vec<&[u8]>) -> u32 {
    let letters = |value: &&[u8]| value.iter().all(|byte| LETTERS.contains(byte) && *byte != b',');
    if values.len() != 15 || !values.iter().all(|value| value.len() == 4 && letters(value)) {
        return 22;
    }
    values.sort_unstable();
    if values.windows(2).any(|pair| pair[0] == pair[1]) {
        return 23;
    }
    0
}

fn line(ids: &Ids) -> Vec<u8> {
    [&ids.join(&b',')[..], b"\n"].concat()
}

/// An ids file, often as it should be.
fn file(random: &mut Random) -> Vec<u8> {
    let mut bytes = [line(&PUBLISHED_IDS), line(&table(random))].concat();
    match random.below(12) {
        0 => return random.bytes(150),
        1 => bytes.truncate(random.below(151)),
        2 => bytes.extend(random.of(&[&b"\n"[..], b"\r\n", b" ", b"STAT", b"\0"])),
        3 => drop(bytes.remove(random.below(150))),
        4 => bytes.insert(random.below(151), random.of(b"\n\r, \0Sx")),
        5 | 6 => bytes[random.below(150)] = random.of(b"\n\r, \0\x7F\x20\x21~Sx"),
        7 => bytes.drain(..75).for_each(drop),
        _ => {}
    }
    bytes
}

/// A table: the published ids in any order, small letters, or letters of any kind, now and then with two equal.
fn table(random: &mut Random) -> Ids {
    let mut ids = PUBLISHED_IDS;
    match random.below(4) {
        0 => (1..15).for_each(|at| ids.swap(at, random.below(at + 1))),
        1 => ids = ids.map(|id| id.map(|byte| byte.to_ascii_lowercase())),
        2 => ids.iter_mut().flatten().for_each(|byte| *byte = random.of(b"abAB~!")),
        _ => ids.iter_mut().flatten().for_each(|byte| *byte = random.of(&LETTERS.collect::<Vec<u8>>())),
    }
    if random.one_in(10) {
        ids[random.below(15)] = ids[random.below(15)];
    }
    ids
}
