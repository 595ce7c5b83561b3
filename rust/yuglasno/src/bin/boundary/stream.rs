//! Incoming bytes: mostly what a panel would reply to the call, short enough to end within a few reads.
use crate::random::Random;
use yuglasno::{Ids, PUBLISHED_IDS};

/// A reply to call number `call` under the session's ids, or one of another call, or anything.
pub fn reply(random: &mut Random, ids: &Ids, call: u32) -> Vec<u8> {
    let ids = if random.one_in(40) { &PUBLISHED_IDS } else { ids };
    let id = |name: &[u8; 4]| ids[PUBLISHED_IDS.iter().position(|each| each == name).expect("a published id")];
    let call = if random.one_in(8) { random.below(20) as u32 } else { call };
    let mut bytes = match (call, random.below(4)) {
        (_, 0) => short(random, id(b"FAIL")),
        (1, _) => record(random, id(b"STAT"), 16),
        (2, _) => record(random, id(b"STA2"), 72),
        (12, 1) => record(random, id(b"DONE"), 20),
        (12, _) => named(random, id(b"DENT"), 20),
        (13, 1) => record(random, id(b"DONE"), 76),
        (13, _) => named(random, id(b"DNT2"), 76),
        (14, 1) => record(random, id(b"DONE"), 8),
        (14, _) => short(random, id(b"DATA")),
        (10, _) => record(random, id(b"OKAY"), 8),
        _ => random.bytes(12),
    };
    if random.one_in(16) {
        let at = random.below(bytes.len());
        bytes[at] = random.next() as u8;
    }
    bytes
}

/// An id, and random numbers behind it; a v2 record's error is mostly 0.
fn record(random: &mut Random, id: [u8; 4], length: usize) -> Vec<u8> {
    let mut bytes = random.bytes(length);
    bytes[..4].copy_from_slice(&id);
    if length > 70 && !random.one_in(4) {
        bytes[4..8].fill(0);
    }
    bytes
}

/// A record whose last number counts the name behind it.
fn named(random: &mut Random, id: [u8; 4], length: usize) -> Vec<u8> {
    let mut bytes = record(random, id, length);
    let name = random.below(40);
    bytes[length - 4..].copy_from_slice(&(name as u32).to_le_bytes());
    bytes.extend(random.bytes(name));
    bytes
}

/// A header that counts the bytes behind it.
fn short(random: &mut Random, id: [u8; 4]) -> Vec<u8> {
    let length = random.below(60);
    let mut bytes = id.to_vec();
    bytes.extend((length as u32).to_le_bytes());
    bytes.extend(random.bytes(length));
    bytes
}
