//! One crossing of the boundary: the slices lent, the function called, and what must hold of it whatever they were.
use crate::gate::OUTSIDE;
use crate::lent::Lent;
use crate::model::put;
use crate::totals::OVERFLOW;
use yuglasno::raw::{self, RECORD, REPLY};

/// The number of a reply that has the reads, where it tells an answer; it lies behind all that the answer carries.
pub const COUNT: usize = 14;

#[derive(Clone, Copy, Debug)]
pub enum Function {
    Start { call: u32, a: u32, b: u32, moment: u32 },
    Read(usize),
    Wrote,
    Fault { kind: u32, code: u32 },
}

#[derive(Clone)]
pub struct Slices {
    pub rec: Lent,
    pub rx: Lent,
    pub msg: Lent,
    pub lent: Lent,
    pub out: Lent,
}

impl Slices {
    pub fn cross(&mut self, function: Function) -> u32 {
        let (rec, rx, msg) = (self.rec.lend(), self.rx.lend(), self.msg.lend());
        let (lent, out) = (self.lent.bytes(), self.out.lend());
        match function {
            Function::Start { call, a, b, moment } => raw::start(rec, rx, msg, lent, call, a, b, moment, out),
            Function::Read(count) => raw::read(rec, rx, msg, lent, count, out),
            Function::Wrote => raw::wrote(rec, rx, msg, lent, out),
            Function::Fault { kind, code } => raw::fault(rec, rx, msg, lent, kind, code, out),
        }
    }

    /// Whether record, buffers and reply have the same bytes.
    pub fn same(&self, other: &Self) -> bool {
        let pairs = [(&self.rec, &other.rec), (&self.rx, &other.rx), (&self.msg, &other.msg), (&self.out, &other.out)];
        pairs.into_iter().all(|(one, two)| one.bytes() == two.bytes())
    }

    /// The `i`-th number of the reply.
    pub fn word(&self, i: usize) -> u64 {
        u64::from_le_bytes(self.out.bytes()[8 * i..8 * i + 8].try_into().expect("eight bytes"))
    }

    /// The part of a slice of `length` bytes that the reply names from its `i`-th number on lies within it.
    fn within(&self, i: usize, length: usize) -> bool {
        self.word(i).checked_add(self.word(i + 1)).is_some_and(|end| end <= length as u64)
    }
}

/// Whether an answer is the caller's: nothing may have changed.
pub fn refused(number: u32) -> bool {
    number & 255 == 0 && matches!(number >> 8, 1..=11 | OVERFLOW | OUTSIDE)
}

/// What a crossing broke, if anything: `before` and `after` are the slices around it, `number` what was returned.
pub fn fault(before: &Slices, after: &Slices, number: u32) -> Option<&'static str> {
    for slice in [&after.rec, &after.rx, &after.msg, &after.lent, &after.out] {
        if !slice.guards_stand() {
            return Some("a byte outside the lent slices changed");
        }
    }
    let same = |slice: fn(&Slices) -> &Lent| slice(before).bytes() == slice(after).bytes();
    if !same(|s| &s.lent) {
        return Some("the path or data changed");
    }
    if refused(number) && !(same(|s| &s.rec) && same(|s| &s.rx) && same(|s| &s.msg)) {
        return Some("a refused call changed the record or a buffer");
    }
    if before.out.bytes().len() < REPLY || before.rec.bytes().len() != RECORD {
        let away = turned_away(before, after, number);
        return (!away).then_some("a reply too short or a record of another length was not turned away");
    }
    let capacity = after.rx.bytes().len();
    if before.msg.bytes().get(capacity..) != after.msg.bytes().get(capacity..) {
        return Some("the message buffer changed behind any text");
    }
    if turned_away(before, after, number) {
        return None;
    }
    if !parts_within(after, number) {
        return Some("the reply names a part outside its slice");
    }
    match written(after, number) {
        Some(length) if behind(before, length, number, after) => None,
        Some(_) => Some("the reply changed bytes behind its own"),
        None => Some("no reply that is described"),
    }
}

/// Whether this is 3 to what holds no session: of the reply only the reads are written, which are 0, where they have room.
fn turned_away(before: &Slices, after: &Slices, number: u32) -> bool {
    let mut expected = before.out.bytes().to_vec();
    if expected.len() >= REPLY {
        put(&mut expected, COUNT, 0);
    }
    number == 3 << 8 && after.out.bytes() == expected
}

/// Whether the bytes behind a reply of this length are as they were, but for the reads of one that tells an answer.
fn behind(before: &Slices, length: usize, number: u32, after: &Slices) -> bool {
    let mut expected = before.out.bytes().to_vec();
    if number & 255 == 0 {
        put(&mut expected, COUNT, after.word(COUNT));
    }
    after.out.bytes()[length..] == expected[length..]
}

/// Whether a part that the reply names lies in its slice.
fn parts_within(s: &Slices, number: u32) -> bool {
    let (rx, msg, lent) = (s.rx.bytes().len(), s.msg.bytes().len(), s.lent.bytes().len());
    match (number & 255, number >> 8) {
        (0, 0) => s.within(1, rx),
        (0, 14) => s.within(1, msg),
        (1, 0) => s.within(0, rx) && s.word(0) + s.word(1) == rx as u64,
        (2, 0) => s.within(0, rx),
        (3, 0) => s.within(0, lent),
        _ => true,
    }
}

/// How many bytes a reply has but for the reads; none where it is none of those that Told.antt describes.
fn written(s: &Slices, number: u32) -> Option<usize> {
    let small = |i| s.word(i) <= u64::from(u32::MAX);
    let (fits, length) = match (number & 255, number >> 8, s.word(0)) {
        (0, 0, 0 | 1) => (s.word(1) == 0 && s.word(2) == 0, 24),
        (0, 0, 2) => (s.word(1) == 0 && s.word(2) == 0, 48),
        (0, 0, 3) => (s.word(1) == 0 && s.word(2) == 0, 112),
        (0, 0, 4) => (true, 48),
        (0, 0, 5) => (true, 112),
        (0, 0, 6) => (true, 24),
        (0, 3..=9 | 11 | 12 | 17 | OVERFLOW | OUTSIDE, 7) => (s.word(1) == 0 && s.word(2) == 0, 24),
        (0, 10, 7) => ((1..=7).contains(&s.word(3)), 32),
        (0, 13 | 15 | 16, 7) => (small(3), 32),
        (0, 14, 7) => (s.word(1) == 0, 24),
        (1..=3, 0, _) => (s.word(1) > 0, 16),
        (4, 0, length) => ((1..=10).contains(&length), 8 + length.min(10) as usize),
        (5, 0, _) => (true, 0),
        _ => (false, 0),
    };
    fits.then_some(length)
}
