//! What the panel sends for a call: as the documents say, or damaged.
use crate::call::{Call, What};
use crate::rng::Rng;
use What::*;

const IDS: [&[u8; 4]; 16] = [
    b"STAT", b"STA2", b"LIST", b"LIS2", b"SEND", b"SND2", b"RECV", b"RCV2", b"DATA", b"DONE", b"OKAY", b"FAIL", b"DENT", b"DNT2", b"QUIT",
    b"LST2",
];

/// A reply with parts of up to about `most` bytes, damaged in `damage` of a hundred cases. In `fails` of a hundred cases a FAIL waits for
/// a push that is closed.
pub fn to(call: &Call, rng: &mut Rng, most: usize, damage: usize, fails: usize) -> Vec<u8> {
    let bytes = match call.what {
        Stat => record(rng, b"STAT", 16),
        StatV2 => record(rng, b"STA2", 72),
        List => listing(rng, b"DENT", 20, most),
        ListV2 => listing(rng, b"DNT2", 76, most),
        RecvNext if rng.chance(80) => data(rng, most),
        RecvNext => numbered(rng, b"DONE"),
        Recv | RecvV2 => {
            let mut all: Vec<u8> = (0..rng.below(4)).flat_map(|_| data(rng, most)).collect();
            all.extend(numbered(rng, b"DONE"));
            all
        }
        SendDone | Send | SendV2 if rng.chance(fails / 2) => fail(rng, most),
        SendDone | Send | SendV2 => numbered(rng, b"OKAY"),
        SendStart | SendV2Start | SendData if rng.chance(fails) => fail(rng, most),
        _ => vec![],
    };
    if rng.chance(damage) {
        damaged(rng, bytes, most)
    } else {
        bytes
    }
}

// an id and four bytes that a reply leaves free
fn numbered(rng: &mut Rng, id: &[u8; 4]) -> Vec<u8> {
    let number = if rng.chance(70) { 0 } else { rng.u32() };
    [&id[..], &number.to_le_bytes()].concat()
}

fn record(rng: &mut Rng, id: &[u8; 4], size: usize) -> Vec<u8> {
    let mut record = rng.bytes(size);
    record[..4].copy_from_slice(id);
    if size >= 72 {
        let error = if rng.chance(75) { 0 } else { rng.u32() };
        record[4..8].copy_from_slice(&error.to_le_bytes());
    }
    record
}

fn listing(rng: &mut Rng, id: &[u8; 4], size: usize, most: usize) -> Vec<u8> {
    let mut all = vec![];
    for _ in 0..rng.below(6) {
        let len = length(rng, most.min(300), 0);
        all.extend(record(rng, id, size - 4));
        all.extend((len as u32).to_le_bytes());
        all.extend(rng.bytes(len));
    }
    let mut done = if rng.chance(70) { vec![0; size] } else { rng.bytes(size) };
    done[..4].copy_from_slice(b"DONE");
    all.extend(done);
    all
}

fn data(rng: &mut Rng, most: usize) -> Vec<u8> {
    let len = length(rng, most, 8);
    [&b"DATA"[..], &(len as u32).to_le_bytes(), &rng.bytes(len)].concat()
}

// short, or about as long as fits beside `taken` bytes
fn length(rng: &mut Rng, most: usize, taken: usize) -> usize {
    let fits = most.saturating_sub(taken);
    match rng.below(20) {
        0 => 0,
        1 => fits,
        2 => fits.saturating_sub(1),
        3 if rng.chance(30) => fits + rng.within(1, 3),
        _ => rng.below(fits.min(40) + 1),
    }
}

fn fail(rng: &mut Rng, most: usize) -> Vec<u8> {
    let len = match rng.below(10) {
        0 => 0,
        1 => most,
        2 => most + 1,
        3 => rng.below(3 * most.min(200)),
        _ => rng.below(30),
    };
    [&b"FAIL"[..], &(len as u32).to_le_bytes(), &rng.bytes(len)].concat()
}

fn damaged(rng: &mut Rng, mut bytes: Vec<u8>, most: usize) -> Vec<u8> {
    match rng.below(10) {
        0..=4 => fail(rng, most),
        5 => [&rng.pick(&IDS)[..], &rng.bytes(4)].concat(),
        6 => {
            bytes.truncate(rng.below(bytes.len() + 1));
            bytes
        }
        7 => {
            // a length, or another number, that is too large
            let number = rng.next() as u32 >> rng.pick(&[0, 8, 16, 24]);
            let at = if bytes.len() >= 20 && rng.chance(50) { 16 } else { 4 };
            if bytes.len() >= at + 4 {
                bytes[at..at + 4].copy_from_slice(&number.to_le_bytes());
            }
            bytes
        }
        8 => {
            if !bytes.is_empty() {
                let at = rng.below(bytes.len().min(24));
                bytes[at] ^= 1 << rng.below(8);
            }
            bytes
        }
        _ => {
            let len = rng.below(30);
            rng.bytes(len)
        }
    }
}
