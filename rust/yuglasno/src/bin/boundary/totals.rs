//! What the totals and the reads of a record must come to: every byte of it and of the reply, for any record. The crossing is made once more
//! with totals and reads of 0, which no report takes too far; what the record has but for them is that crossing's.
use crate::crossing::{refused, Function, Slices, COUNT};
use crate::model::{put, word};
use crate::random::Random;
use yuglasno::raw::{RECORD, REPLY};

/// The record's numbers: head and tail; received, consumed and written; the length of the piece that was last asked to be written; the reads of
/// a call.
const HEAD: usize = 2;
const TAIL: usize = 3;
pub const RECEIVED: usize = 32;
pub const CONSUMED: usize = 33;
pub const WRITTEN: usize = 34;
pub const ASKED: usize = 35;
pub const READS: usize = 36;
/// The answer to a report that a total or the reads have no room for.
pub const OVERFLOW: u32 = 21;
/// What a reply has of an answer that is a number alone: the kind of another answer, and no part.
const ALONE: [u64; 3] = [7, 0, 0];

/// What a crossing must return, and the slices as it must leave them; none where the record or the reply is turned away by its length.
pub struct Expected {
    pub number: u32,
    pub slices: Slices,
    /// Whether a total or the reads have no room for the report, whatever else there is to say of it.
    pub no_room: bool,
}

impl Expected {
    pub fn of(before: &Slices, function: Function) -> Option<Self> {
        if before.rec.bytes().len() != RECORD || before.out.bytes().len() < REPLY {
            return None;
        }
        let mut slices = before.clone();
        for total in [RECEIVED, CONSUMED, WRITTEN, READS] {
            put(slices.rec.lend(), total, 0);
        }
        let number = slices.cross(function);
        let sums = added(before.rec.bytes(), function);
        let no_room = sums.is_none();
        match sums {
            _ if refused(number) => {
                slices.rec = before.rec.clone();
                put_count(&mut slices, before, number, 0);
            }
            Some(sums) => carried(&mut slices, before, number, sums),
            None => return Some(Self { number: OVERFLOW << 8, slices: turned_away(before), no_room }),
        }
        Some(Self { number, slices, no_room })
    }
}

/// Received, written and reads with what a crossing adds to them, a call beginning with no reads; none where one would pass 2^64 - 1.
fn added(rec: &[u8], function: Function) -> Option<[u64; 3]> {
    let (read, wrote, reads) = match function {
        Function::Start { .. } => (0, 0, 0),
        Function::Read(count) => (count as u64, 0, word(rec, READS).checked_add(1)?),
        Function::Wrote => (0, word(rec, ASKED), word(rec, READS)),
        Function::Fault { .. } => (0, 0, word(rec, READS)),
    };
    Some([word(rec, RECEIVED).checked_add(read)?, word(rec, WRITTEN).checked_add(wrote)?, reads])
}

/// Whether it is only the reads that have no room for a report.
pub fn only_reads(before: &Slices, function: Function) -> bool {
    let mut others = before.rec.bytes().to_vec();
    put(&mut others, READS, 0);
    added(before.rec.bytes(), function).is_none() && added(&others, function).is_some()
}

/// Puts the reads into a reply that tells an answer; one that asks leaves those bytes as they were.
fn put_count(slices: &mut Slices, before: &Slices, number: u32, reads: u64) {
    let count = if number & 255 == 0 { reads } else { before.word(COUNT) };
    put(slices.out.lend(), COUNT, count);
}

/// The numbers of a step that was taken: consumed is received less what is held, in 64 bits. The length of a piece stands until another is
/// asked, or the close, which has none.
fn carried(slices: &mut Slices, before: &Slices, number: u32, [received, written, reads]: [u64; 3]) {
    put_count(slices, before, number, reads);
    let asked = match number & 255 {
        0 | 1 => word(before.rec.bytes(), ASKED),
        2 | 3 => slices.word(1),
        4 => slices.word(0),
        _ => 0,
    };
    let rec = slices.rec.lend();
    let consumed = received.wrapping_add(word(rec, HEAD)).wrapping_sub(word(rec, TAIL));
    let numbers = [(RECEIVED, received), (CONSUMED, consumed), (WRITTEN, written), (ASKED, asked), (READS, reads)];
    for (i, number) in numbers {
        put(rec, i, number);
    }
}

fn turned_away(before: &Slices) -> Slices {
    let mut slices = before.clone();
    for (i, number) in ALONE.into_iter().enumerate() {
        put(slices.out.lend(), i, number);
    }
    put(slices.out.lend(), COUNT, 0);
    slices
}

/// Puts a session's totals and reads near 2^64 - 1, as if it had come so far: nothing is held yet.
pub fn far(rec: &mut [u8], random: &mut Random) {
    let mut near = || u64::MAX - random.of(&[0, 1, 7, 8, 9, 15, 16, 40, 100, 1_000, 70_000]);
    let received = near();
    for (i, number) in [(RECEIVED, received), (CONSUMED, received), (WRITTEN, near()), (READS, near())] {
        put(rec, i, number);
    }
}

/// Makes one of the five numbers any other, often one near 2^64 - 1.
pub fn bent(rec: &mut [u8], random: &mut Random) {
    let i = random.of(&[RECEIVED, RECEIVED, CONSUMED, WRITTEN, WRITTEN, ASKED, READS, READS]);
    let near = random.below(if i == READS { 4 } else { 30 }) as u64;
    let number = if random.one_in(4) { random.number(near) } else { u64::MAX - near };
    if rec.len() >= 8 * (i + 1) {
        put(rec, i, number);
    }
}
