//! The totals of a session.
use std::fmt;

/// How many bytes a session has received, consumed and written since it was opened. They are displayed as a line for people.
///
/// The library counts them, and none of them ever passes 2^64 - 1: a report that would take one further is answered 21
/// ([`Error::Overflow`](crate::Error::Overflow)). What is refused counts for nothing, nor does a fault.
#[derive(Clone, Copy, PartialEq, Eq, Debug, Default)]
pub struct Totals {
    /// The counts of the reads that were accepted.
    pub received: u64,
    /// What the session is done with of that, what it dropped of a FAIL's text included. The others are still held in its receive buffer.
    pub consumed: u64,
    /// The lengths of the pieces that were written whole.
    pub written: u64,
}

impl Totals {
    /// The bytes that were received and are not consumed.
    pub fn held(&self) -> u64 {
        self.received.saturating_sub(self.consumed)
    }
}

impl fmt::Display for Totals {
    fn fmt(&self, f: &mut fmt::Formatter<'_>) -> fmt::Result {
        write!(f, "{} bytes received, {} consumed, {} written", self.received, self.consumed, self.written)
    }
}
