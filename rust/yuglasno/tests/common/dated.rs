//! Listings of either version whose entries have times, as the panel's bytes.
use super::{listing_end, v2, words};

#[derive(Clone, Copy, PartialEq, Debug)]
pub enum Version {
    V1,
    V2,
}

pub const VERSIONS: [Version; 2] = [Version::V1, Version::V2];

/// Where a DNT2 has its mtime.
const MTIME: std::ops::Range<usize> = 56..64;

impl Version {
    pub fn banner(self) -> &'static [u8] {
        match self {
            Self::V1 => b"",
            Self::V2 => b"features=ls_v2",
        }
    }

    pub fn entry(self, name: &[u8], mtime: i64, error: u32) -> Vec<u8> {
        let numbers = match self {
            Self::V1 => words(b"DENT", &[33188, 1998, u32::try_from(mtime).unwrap()]),
            Self::V2 => {
                let mut bytes = v2(b"DNT2", error);
                bytes[MTIME].copy_from_slice(&mtime.to_le_bytes());
                bytes
            }
        };
        [&numbers, &(name.len() as u32).to_le_bytes()[..], name].concat()
    }

    pub fn end(self) -> Vec<u8> {
        listing_end(if self == Self::V1 { 20 } else { 76 })
    }

    /// A whole listing.
    pub fn listing(self, entries: &[(&[u8], i64)]) -> Vec<u8> {
        let mut bytes: Vec<u8> = entries.iter().flat_map(|(name, mtime)| self.entry(name, *mtime, 0)).collect();
        bytes.extend(self.end());
        bytes
    }
}
