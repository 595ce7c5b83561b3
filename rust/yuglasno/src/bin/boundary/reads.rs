//! The reads of a session's calls as its host counts them: what an answer tells is as many, and below the ceiling.
use crate::crossing::{refused, Function, Slices, COUNT};
use crate::model::word;
use crate::totals::{CONSUMED, READS};

/// By how much a call's reads may pass the bytes that it consumed, unless it is answered one of these.
const CEILING: u64 = 8;
const BROKEN_OFF: [u32; 2] = [12, 13];

/// Of the call that is pending or was last over.
#[derive(Default)]
pub struct Reads {
    accepted: u64,
    /// The bytes that were consumed before it.
    consumed: u64,
}

impl Reads {
    /// After a crossing of a session as the library left it: `consumed` are the bytes before it, `after` the slices behind it.
    pub fn follow(&mut self, function: Function, consumed: u64, number: u32, after: &Slices) -> Result<(), String> {
        match function {
            _ if refused(number) => return Ok(()),
            Function::Start { .. } => *self = Self { accepted: 0, consumed },
            Function::Read(_) => self.accepted += 1,
            Function::Wrote | Function::Fault { .. } => {}
        }
        let (accepted, rec) = (self.accepted, after.rec.bytes());
        let told = number & 255 == 0;
        if word(rec, READS) != accepted || (told && after.word(COUNT) != accepted) {
            return Err(format!("{function:?} returned {number:#x}, and other reads than {accepted}"));
        }
        let most = word(rec, CONSUMED).wrapping_sub(self.consumed) + CEILING;
        if told && accepted > most && !BROKEN_OFF.contains(&(number >> 8)) {
            return Err(format!("{function:?} returned {number:#x} after {accepted} reads, more than {most}"));
        }
        Ok(())
    }
}
