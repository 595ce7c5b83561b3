//! A reply of the library, read from the number it returned and the slice it wrote: `crates/boundary/specs/Told.antt`.
use crate::raw::REPLY;
use std::ops::Range;

/// What the library asks or answers.
#[derive(Clone, Copy, Debug)]
pub(crate) enum Reply {
    /// The call or report is answered, by its number.
    Told(u32),
    Ask(Ask),
}

/// What is asked of the host.
#[derive(Clone, Copy, Debug)]
pub(crate) enum Ask {
    Read(Part),
    WriteRx(Part),
    WriteLent(Part),
    WriteBytes(Bytes),
    Close,
}

/// A part of a lent slice.
#[derive(Clone, Copy, Debug)]
pub(crate) struct Part {
    at: usize,
    len: usize,
}

impl Part {
    pub(crate) fn range(self) -> Range<usize> {
        self.at..self.at + self.len
    }
}

/// A piece that lies in no lent buffer: a header, a comma, the digits of a mode, an inner id or a number.
#[derive(Clone, Copy, Debug)]
pub(crate) struct Bytes {
    len: u8,
    bytes: [u8; 16],
}

impl Bytes {
    pub(crate) fn as_slice(&self) -> &[u8] {
        &self.bytes[..usize::from(self.len)]
    }
}

/// The answer to a report that a total or the count of reads has no room for.
pub(crate) const OVERFLOW: u32 = 21;
/// The answer to a push outside the hours.
pub(crate) const OUTSIDE: u32 = 25;

/// Whether an answer changes nothing: what was asked for still is.
pub(crate) fn refused(number: u32) -> bool {
    matches!(number, 1..=11 | OVERFLOW | OUTSIDE)
}

/// The `i`-th number of a reply.
pub(crate) fn word(out: &[u8; REPLY], i: usize) -> u64 {
    u64::from_le_bytes(out[8 * i..8 * i + 8].try_into().expect("eight bytes"))
}

/// The part that starts at the `i`-th number.
pub(crate) fn part(out: &[u8; REPLY], i: usize) -> Part {
    Part { at: word(out, i) as usize, len: word(out, i + 1) as usize }
}

pub(crate) fn heard(number: u32, out: &[u8; REPLY]) -> Reply {
    Reply::Ask(match number & 255 {
        0 => return Reply::Told(number >> 8),
        1 => Ask::Read(part(out, 0)),
        2 => Ask::WriteRx(part(out, 0)),
        3 => Ask::WriteLent(part(out, 0)),
        4 => {
            let len = word(out, 0).min(16) as u8;
            Ask::WriteBytes(Bytes { len, bytes: out[8..24].try_into().expect("sixteen bytes") })
        }
        _ => Ask::Close,
    })
}
