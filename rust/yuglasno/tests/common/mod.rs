//! A scripted link, and the bytes of replies, written out by hand from file_sync_protocol.h's offsets.
#![allow(dead_code)]
pub mod archives;
pub mod dated;
pub mod fake;
pub mod letters;
pub mod program;
pub mod shelf;

use std::io;
use yuglasno::{Call, Fault, Link};

/// How an incoming stream ends, or what a write comes to.
#[derive(Clone, Copy, Debug, PartialEq)]
pub enum End {
    Closed,
    /// An error of this system number.
    Error(i32),
}

impl End {
    pub fn fault(self) -> Fault {
        match self {
            Self::Closed => Fault::Closed,
            Self::Error(number) => Fault::Error(io::Error::from_raw_os_error(number)),
        }
    }
}

/// Incoming bytes in pieces of `cut`, then the end; pieces written are kept. Writes from the `broken.0`-th on, counted
/// from 0, come to `broken.1`.
pub struct Script {
    pub incoming: Vec<u8>,
    pub read: usize,
    /// Reads that brought bytes.
    pub brought: u64,
    /// The calls that are over, each with its reads.
    pub over: Vec<(String, u64)>,
    pub cut: usize,
    pub end: End,
    pub pieces: Vec<Vec<u8>>,
    pub broken: Option<(usize, End)>,
    pub close: Option<End>,
    pub closes: usize,
}

impl Script {
    pub fn new(incoming: &[u8], cut: usize, end: End) -> Self {
        let (incoming, pieces, over) = (incoming.to_vec(), Vec::new(), Vec::new());
        Self { incoming, read: 0, brought: 0, over, cut, end, pieces, broken: None, close: None, closes: 0 }
    }

    pub fn written(&self) -> Vec<u8> {
        self.pieces.concat()
    }
}

impl Link for Script {
    fn read_window(&mut self, window: &mut [u8]) -> Result<usize, Fault> {
        let left = &self.incoming[self.read..];
        let count = self.cut.min(window.len()).min(left.len());
        if count == 0 {
            return Err(self.end.fault());
        }
        window[..count].copy_from_slice(&left[..count]);
        window[count..].fill(0xEE);
        self.read += count;
        self.brought += 1;
        Ok(count)
    }

    fn write_piece(&mut self, piece: &[u8]) -> Result<(), Fault> {
        match self.broken {
            Some((from, end)) if self.pieces.len() >= from => Err(end.fault()),
            _ => {
                self.pieces.push(piece.to_vec());
                Ok(())
            }
        }
    }

    fn close(&mut self) -> Result<(), Fault> {
        self.closes += 1;
        self.close.map_or(Ok(()), |end| Err(end.fault()))
    }

    fn call_over(&mut self, call: &Call<'_>, reads: u64) {
        self.over.push((call.to_string(), reads));
    }
}

/// The cuts that a cable is tried with.
pub fn cuts() -> impl Iterator<Item = usize> {
    (1..=40).chain([64, 512, 4096, 16_384, 65_544, 1 << 20])
}

pub fn words(id: &[u8; 4], numbers: &[u32]) -> Vec<u8> {
    let mut bytes = id.to_vec();
    for number in numbers {
        bytes.extend_from_slice(&number.to_le_bytes());
    }
    bytes
}

pub fn with(id: &[u8; 4], body: &[u8]) -> Vec<u8> {
    [words(id, &[body.len() as u32]), body.to_vec()].concat()
}

/// The bytes of a STA2 or DNT2 up to ctime: mode 33188, size 2^33, mtime -5, other fields by their offsets.
pub fn v2(id: &[u8; 4], error: u32) -> Vec<u8> {
    let mut bytes = words(id, &[error]);
    for number in [8u64, 16] {
        bytes.extend_from_slice(&number.to_le_bytes());
    }
    for number in [33188u32, 28, 32, 36] {
        bytes.extend_from_slice(&number.to_le_bytes());
    }
    for number in [1i64 << 33, 48, -5, 64] {
        bytes.extend_from_slice(&number.to_le_bytes());
    }
    bytes
}

pub fn stat() -> Vec<u8> {
    words(b"STAT", &[33188, 1998, 5])
}

pub fn entry(name: &[u8]) -> Vec<u8> {
    [words(b"DENT", &[33188, 1998, 5, name.len() as u32]), name.to_vec()].concat()
}

pub fn entry_v2(name: &[u8], error: u32) -> Vec<u8> {
    [v2(b"DNT2", error), (name.len() as u32).to_le_bytes().to_vec(), name.to_vec()].concat()
}

/// DONE in a listing: a whole record.
pub fn listing_end(record: usize) -> Vec<u8> {
    let mut bytes = b"DONE".to_vec();
    bytes.resize(record, 0);
    bytes
}
