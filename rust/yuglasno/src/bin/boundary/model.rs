//! What the five functions of the index must come to, for any bytes: the slots read as they lie. Where the library wrote them all, also as
//! a list of entries in listing order, which is sorted.
use yuglasno::raw::{REPLY, SLOTS};
use yuglasno::{INDEX_ENTRIES, INDEX_NAMES};

const MARK: &[u8] = b"yugindex";
/// Words before the first slot: the mark, the area's length, how many entries, how many bytes of names.
pub const HEAD: usize = 4;
/// Words of a slot: a time; where the name starts, and its length and number.
pub const SLOT: usize = 2;
/// The factor of a length in a slot's last number.
const LENGTH: u64 = 4_096;

/// An entry of the list.
#[derive(Clone, Copy)]
pub struct Held {
    pub time: i64,
    pub start: usize,
    pub length: usize,
}

pub fn word(bytes: &[u8], i: usize) -> u64 {
    u64::from_le_bytes(bytes[8 * i..8 * i + 8].try_into().expect("eight bytes"))
}

pub fn put(bytes: &mut [u8], i: usize, number: u64) {
    bytes[8 * i..8 * i + 8].copy_from_slice(&number.to_le_bytes());
}

fn most(area: usize) -> u64 {
    area.min(INDEX_NAMES) as u64
}

pub fn is_index(slots: &[u8], area: usize) -> bool {
    let fits = || word(slots, 2) <= INDEX_ENTRIES as u64 && word(slots, 3) <= most(area);
    slots.len() == SLOTS && slots.starts_with(MARK) && word(slots, 1) == area as u64 && fits()
}

pub fn opened(slots: &mut [u8], area: usize) -> u32 {
    if slots.len() != SLOTS {
        return 3;
    }
    slots[..8].copy_from_slice(MARK);
    for (i, number) in [(1, area as u64), (2, 0), (3, 0)] {
        put(slots, i, number);
    }
    0
}

/// The slots by rank, each as its two words.
pub fn ranks(slots: &[u8]) -> Vec<(i64, u64)> {
    let at = |rank: usize| HEAD + SLOT * rank;
    (0..word(slots, 2) as usize).map(|rank| (word(slots, at(rank)) as i64, word(slots, at(rank) + 1))).collect()
}

/// How many ranks there are up to the last whose time is so.
fn up_to(ranks: &[(i64, u64)], so: impl Fn(i64) -> bool) -> usize {
    ranks.iter().rposition(|(time, _)| so(*time)).map_or(0, |rank| rank + 1)
}

/// The time and the part of an entry's name, of a reply that is taken; or what is answered without one.
pub fn entry(told: u32, reply: &[u8], rx: usize) -> Result<(i64, usize, usize), u32> {
    if told != 0 {
        return Err(0);
    }
    let (kind, start, length) = (word(reply, 0), word(reply, 1), word(reply, 2));
    let within = start.checked_add(length).is_some_and(|end| end <= rx as u64);
    let time = word(reply, if kind == 4 { 5 } else { 12 }) as i64;
    match kind {
        0..=3 => Err(0),
        4..=6 if !within => Err(3),
        6 => Err(0),
        4 if word(reply, 5) > u64::from(u32::MAX) => Err(3),
        4 | 5 => Ok((time, start as usize, length as usize)),
        _ => Err(3),
    }
}

/// Slots and area as an add must leave them, and what it answers.
pub fn added(slots: &mut [u8], area: &mut [u8], told: u32, reply: &[u8], rx: &[u8]) -> u32 {
    if !is_index(slots, area.len()) || reply.len() < REPLY {
        return 3;
    }
    let (time, start, length) = match entry(told, reply, rx.len()) {
        Ok(entry) => entry,
        Err(number) => return number,
    };
    let (mut ranks, used) = (ranks(slots), word(slots, 3) as usize);
    if ranks.len() == INDEX_ENTRIES || (used + length) as u64 > most(area.len()) {
        return 19;
    }
    area[used..used + length].copy_from_slice(&rx[start..start + length]);
    let (count, behind) = (ranks.len() as u64, up_to(&ranks, |each| each <= time));
    ranks.insert(behind, (time, slot(used, length, count)));
    written(slots, &ranks, used + length);
    0
}

/// The last word of a slot.
pub fn slot(start: usize, length: usize, number: u64) -> u64 {
    start as u64 | (LENGTH * length as u64 + number) << 32
}

/// Puts these ranks into slots, and how many bytes of names there are.
pub fn written(slots: &mut [u8], ranks: &[(i64, u64)], used: usize) {
    for (rank, (time, name)) in ranks.iter().enumerate() {
        put(slots, HEAD + SLOT * rank, *time as u64);
        put(slots, HEAD + SLOT * rank + 1, *name);
    }
    put(slots, 2, ranks.len() as u64);
    put(slots, 3, used as u64);
}

/// The words of a query's reply; none where it is answered 3.
pub fn between(slots: &[u8], from: i64, to: i64) -> Option<Vec<u64>> {
    let ranks = ranks(slots);
    let (first, end) = (up_to(&ranks, |time| time < from), up_to(&ranks, |time| time <= to));
    Some(vec![end.saturating_sub(first) as u64, first as u64])
}

pub fn latest(slots: &[u8], time: i64) -> Option<Vec<u64>> {
    let ranks = ranks(slots);
    Some(match up_to(&ranks, |each| each <= time) {
        0 => vec![0, 0],
        end => vec![1, up_to(&ranks, |each| each < ranks[end - 1].0) as u64],
    })
}

pub fn at_rank(slots: &[u8], rank: usize) -> Option<Vec<u64>> {
    let Some((time, name)) = ranks(slots).get(rank).copied() else { return Some(vec![0; 5]) };
    let (start, rest) = (name & u64::from(u32::MAX), name >> 32);
    let (length, number) = (rest / LENGTH, rest % LENGTH);
    (start + length <= word(slots, 3)).then(|| vec![1, start, length, number, time as u64])
}

/// The ranks that a list of entries comes to: sorted by time, equal times as they stand.
pub fn sorted(list: &[Held]) -> Vec<(i64, u64)> {
    let place = |(number, held): (usize, &Held)| (held.time, slot(held.start, held.length, number as u64));
    let mut ranks: Vec<(i64, u64)> = list.iter().enumerate().map(place).collect();
    ranks.sort_by_key(|(time, _)| *time);
    ranks
}
