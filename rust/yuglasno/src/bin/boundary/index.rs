//! An index beside a session: the replies of its calls, replies of any other kind, queries, and slots that the library did not write. Every
//! crossing must come to what `model.rs` says, byte for byte.
use crate::lent::Lent;
use crate::model::{self, Held, HEAD, SLOT};
use crate::random::Random;
use crate::tables;
use crate::Counts;
use yuglasno::raw::{self, REPLY, SLOTS};
use yuglasno::{INDEX_ENTRIES, INDEX_NAMES};

#[derive(Clone)]
pub struct Beside {
    slots: Lent,
    area: Lent,
    /// What it holds, in listing order; none where the library did not write all of the slots.
    held: Option<Vec<Held>>,
}

impl Beside {
    /// An index of the library's, often with little room left.
    pub fn opened(random: &mut Random, counts: &mut Counts) -> Result<Self, String> {
        let length = match random.below(3) {
            0 => random.of(&[0, INDEX_NAMES - 1, INDEX_NAMES, INDEX_NAMES + 1]),
            _ => random.below(200),
        };
        let other = random.number(SLOTS as u64).min(2 * SLOTS as u64) as usize;
        let any = random.number(length as u64) as usize;
        open(counts, &mut Lent::filled(random, other), any)?;
        let (mut slots, area) = (Lent::filled(random, SLOTS), Lent::filled(random, length));
        open(counts, &mut slots, length)?;
        let mut beside = Self { slots, area, held: Some(Vec::new()) };
        if random.one_in(3) {
            beside.stocked(random);
        }
        Ok(beside)
    }

    /// Puts entries into it as the library would have: nearly as many as it takes, or one that leaves few bytes for names.
    fn stocked(&mut self, random: &mut Random) {
        let most = self.area.bytes().len().min(INDEX_NAMES);
        let (count, length) = match random.below(2) {
            0 => (INDEX_ENTRIES - random.below(4), random.below(most / INDEX_ENTRIES + 1)),
            _ => (1, most - random.below(most + 1).min(30)),
        };
        let held = (0..count).map(|i| Held { time: time(random), start: i * length, length });
        let held: Vec<Held> = held.collect();
        model::written(self.slots.lend(), &model::sorted(&held), count * length);
        self.held = Some(held);
    }

    /// Hands a reply to it, with what was returned for it.
    pub fn add(&mut self, counts: &mut Counts, told: u32, reply: &Lent, rx: &Lent) -> Result<(), String> {
        let (mut slots, mut area) = (self.slots.bytes().to_vec(), self.area.bytes().to_vec());
        let lent = (reply.clone(), rx.clone());
        let number = raw::index_add(self.slots.lend(), self.area.lend(), told, reply.bytes(), rx.bytes());
        let used = model::is_index(&slots, area.len()).then(|| model::word(&slots, 3) as usize);
        let wanted = model::added(&mut slots, &mut area, told, reply.bytes(), rx.bytes());
        noted(counts, number);
        if number != wanted {
            return Err(format!("an add was answered {number}, not {wanted}"));
        }
        let same = self.slots.bytes() == slots && self.area.bytes() == area;
        let guards = [&self.slots, &self.area, reply, rx].iter().all(|slice| slice.guards_stand());
        if !same || !guards || (lent.0.bytes(), lent.1.bytes()) != (reply.bytes(), rx.bytes()) {
            return Err(format!("an add, answered {number}, changed what it may not, or not what it must"));
        }
        if let (0, Some(start)) = (number, used) {
            return self.listed(start, model::entry(told, reply.bytes(), rx.bytes().len()).ok());
        }
        Ok(())
    }

    /// The list has an entry more, if one was added, and the slots are that list.
    fn listed(&mut self, start: usize, entry: Option<(i64, usize, usize)>) -> Result<(), String> {
        let (Some(held), Some((time, _, length))) = (&mut self.held, entry) else { return Ok(()) };
        held.push(Held { time, start, length });
        let well = model::ranks(self.slots.bytes()) == model::sorted(held);
        well.then_some(()).ok_or_else(|| "the slots are not the entries in time order".into())
    }

    /// A query of any kind.
    pub fn queried(&self, random: &mut Random, counts: &mut Counts) -> Result<(), String> {
        let (slots, own) = (self.slots.bytes(), self.area.bytes().len());
        let area = if random.one_in(12) { random.number(own as u64) as usize } else { own };
        let length = if random.one_in(12) { random.number(REPLY as u64).min(400) as usize } else { REPLY };
        let (mut out, before) = (Lent::filled(random, length), self.slots.clone());
        let (one, other, rank) = (self.moment(random), self.moment(random), self.rank(random));
        let fits = model::is_index(slots, area) && length >= REPLY;
        let mut expected = out.bytes().to_vec();
        let (number, words) = match random.below(3) {
            0 => (raw::index_between(slots, area, one, other, out.lend()), fits.then(|| self.between(one, other))),
            1 => (raw::index_latest(slots, area, one, out.lend()), fits.then(|| self.latest(one))),
            _ => (raw::index_entry(slots, area, rank, out.lend()), fits.then(|| model::at_rank(slots, rank))),
        };
        let words = words.flatten();
        words.iter().flatten().enumerate().for_each(|(i, word)| model::put(&mut expected, i, *word));
        noted(counts, number);
        if number != if words.is_some() { 0 } else { 3 } || out.bytes() != expected {
            return Err(format!("a query of {one} to {other}, rank {rank}, answered {number} and not {words:?}"));
        }
        let same = self.slots.bytes() == before.bytes() && self.slots.guards_stand() && out.guards_stand();
        same.then_some(()).ok_or_else(|| "a query changed what it may not".into())
    }

    /// By the slots, and by the list where there is one: both must be the same.
    fn between(&self, from: i64, to: i64) -> Option<Vec<u64>> {
        let words = model::between(self.slots.bytes(), from, to)?;
        if let Some(held) = self.held.as_ref().filter(|_| from <= to) {
            let count = |so: &dyn Fn(i64) -> bool| held.iter().filter(|each| so(each.time)).count() as u64;
            assert_eq!(words, [count(&|time| (from..=to).contains(&time)), count(&|time| time < from)]);
        }
        Some(words)
    }

    fn latest(&self, time: i64) -> Option<Vec<u64>> {
        let words = model::latest(self.slots.bytes(), time)?;
        if let Some(held) = &self.held {
            let latest = held.iter().map(|each| each.time).filter(|each| *each <= time).max();
            let rank = held.iter().filter(|each| Some(each.time) < latest).count() as u64;
            assert_eq!(words, [u64::from(latest.is_some()), rank]);
        }
        Some(words)
    }

    /// A time, often one that it holds or one beside it.
    fn moment(&self, random: &mut Random) -> i64 {
        let rank = random.below(8);
        match self.slots.bytes().get(8 * (HEAD + SLOT * rank)..8 * (HEAD + SLOT * rank) + 8) {
            Some(bytes) if random.one_in(2) => {
                let time = i64::from_le_bytes(bytes.try_into().expect("eight bytes"));
                time.wrapping_add(random.of(&[-1, 0, 0, 1]))
            }
            _ => time(random),
        }
    }

    fn rank(&self, random: &mut Random) -> usize {
        let count = self.slots.bytes().get(16..24).map_or(0, |_| model::word(self.slots.bytes(), 2));
        if random.one_in(4) {
            return random.number(count) as usize;
        }
        random.below(count.min(5_000) as usize + 2)
    }

    /// Slots or area become others.
    pub fn bent(&mut self, random: &mut Random) {
        self.held = None;
        let (slots, area) = (self.slots.lend(), self.area.bytes().len());
        match random.below(8) {
            _ if slots.len() != SLOTS => {}
            0 => self.slots = resized(random, &self.slots, SLOTS),
            1 => self.area = resized(random, &self.area, area),
            2 => slots[random.below(8)] ^= 1 << random.below(8),
            3 => random.bytes(SLOTS - 32).into_iter().zip(&mut slots[32..]).for_each(|(byte, at)| *at = byte),
            4 => model::put(slots, 1, random.number(area as u64)),
            5 => model::put(slots, 2, random.number(INDEX_ENTRIES as u64)),
            6 => model::put(slots, 3, random.number(area.min(INDEX_NAMES) as u64)),
            _ => {
                let at = HEAD + random.below(2 * SLOT * 4);
                let number = if random.one_in(2) { time(random) as u64 } else { random.number(area as u64) };
                model::put(slots, at, number);
            }
        }
    }
}

fn noted(counts: &mut Counts, number: u32) {
    counts.indexed += 1;
    tables::noted(counts, number);
}

fn open(counts: &mut Counts, slots: &mut Lent, area: usize) -> Result<(), String> {
    let mut expected = slots.bytes().to_vec();
    let wanted = model::opened(&mut expected, area);
    let number = raw::index_open(slots.lend(), area);
    noted(counts, number);
    let well = number == wanted && slots.bytes() == expected && slots.guards_stand();
    well.then_some(()).ok_or_else(|| format!("opening an index in {} bytes answered {number}", expected.len()))
}

/// A time, often one of a few.
fn time(random: &mut Random) -> i64 {
    if random.one_in(4) {
        return random.number(5) as i64;
    }
    random.below(8) as i64 - 3
}

/// A slice of another length near this one, at the same start.
fn resized(random: &mut Random, slice: &Lent, near: usize) -> Lent {
    let length = random.number(near as u64).min(near as u64 + 10) as usize;
    let mut bytes = slice.bytes().to_vec();
    bytes.resize(length, 0xEE);
    Lent::new(random, &bytes)
}

/// A receive buffer that has as many bytes as all names may have, or one more or less.
pub fn long(random: &mut Random) -> Lent {
    let length = INDEX_NAMES - 1 + random.below(3);
    Lent::filled(random, length)
}

/// A reply that is mostly an entry's, with a part mostly of a receive buffer of this length; and the number that came with it.
pub fn reply(random: &mut Random, rx: usize) -> (u32, Lent) {
    let told = if random.one_in(8) { random.of(&[1, 2, 3, 4, 5, 256, 3 << 8, 14 << 8, u32::MAX]) } else { 0 };
    let length = if random.one_in(12) { random.number(REPLY as u64).min(400) as usize } else { REPLY };
    let mut bytes = random.bytes(length.max(REPLY));
    let kind = if random.one_in(4) { random.number(6) } else { random.of(&[4, 4, 5, 5, 5, 6, 0, 3]) };
    let start = random.below(rx + 1);
    let part = match random.below(16) {
        0 | 1 => [random.number(rx as u64), random.number(rx as u64)],
        2 | 3 => [0, rx as u64],
        _ => [start as u64, random.below((rx - start).min(40) + 1) as u64],
    };
    for (i, number) in [(0, kind), (1, part[0]), (2, part[1]), (5, random.number(1 << 32)), (12, time(random) as u64)] {
        model::put(&mut bytes, i, number);
    }
    if random.one_in(2) {
        model::put(&mut bytes, 5, random.below(6) as u64);
    }
    (told, Lent::new(random, &bytes[..length]))
}
