//! The scripted channel, as both sides see it: reads into a window, writes of a piece, a close.

/// What a channel reports when it does not do what was asked.
#[derive(Clone, Copy, Debug, PartialEq, Eq)]
pub enum Fault {
    Closed,
    Error(u32),
}

pub trait Wire {
    /// Brings at least one byte to the front of the window.
    fn read(&mut self, window: &mut [u8]) -> Result<usize, Fault>;
    fn write(&mut self, piece: &[u8]) -> Result<(), Fault>;
    fn close(&mut self) -> Result<(), Fault>;
}
