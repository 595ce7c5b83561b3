//! The channel that a session is driven over: read, write, close.
use crate::call::Call;
use std::io::{self, ErrorKind, Read, Write};

/// What a read, a write or the close came to, where it did not succeed.
#[derive(Debug)]
pub enum Fault {
    /// The channel is closed: 12.
    Closed,
    /// Anything else: 13, with [`code_of`] it.
    Error(io::Error),
}

/// An open channel to the panel's sync service.
///
/// Everything that is `Read + Write` is one. There, a read of 0 bytes is the end of the channel; so is a write that finds
/// the other side gone (0 bytes taken, a broken pipe, a connection reset or aborted). A close only flushes: such a
/// stream closes when it is dropped.
pub trait Link {
    /// Reads from one byte to the whole window, to its front.
    fn read_window(&mut self, window: &mut [u8]) -> Result<usize, Fault>;
    /// Writes the piece whole.
    fn write_piece(&mut self, piece: &[u8]) -> Result<(), Fault>;
    /// Closes the channel.
    fn close(&mut self) -> Result<(), Fault>;
    /// Hears of each call that is over, of those that a whole transfer makes too: what was called, and how many reads it accepted
    /// ([`Session::reads`](crate::Session::reads)). A call that is refused is none. Does nothing, unless a link has a use for it.
    fn call_over(&mut self, _call: &Call<'_>, _reads: u64) {}
}

impl<T: Read + Write + ?Sized> Link for T {
    fn read_window(&mut self, window: &mut [u8]) -> Result<usize, Fault> {
        read_from(self, window)
    }

    fn write_piece(&mut self, piece: &[u8]) -> Result<(), Fault> {
        write_to(self, piece)
    }

    fn close(&mut self) -> Result<(), Fault> {
        self.flush().map_err(found)
    }
}

/// A reader and a writer as one link, such as a child's pipes. Its close drops the writer.
#[derive(Debug)]
pub struct Pair<R, W> {
    reader: R,
    writer: Option<W>,
}

impl<R, W> Pair<R, W> {
    /// The link that reads from one and writes to the other.
    pub fn new(reader: R, writer: W) -> Self {
        Self { reader, writer: Some(writer) }
    }
}

impl<R: Read, W: Write> Link for Pair<R, W> {
    fn read_window(&mut self, window: &mut [u8]) -> Result<usize, Fault> {
        read_from(&mut self.reader, window)
    }

    fn write_piece(&mut self, piece: &[u8]) -> Result<(), Fault> {
        self.writer.as_mut().map_or(Err(Fault::Closed), |writer| write_to(writer, piece))
    }

    fn close(&mut self) -> Result<(), Fault> {
        self.writer.take().map_or(Ok(()), |mut writer| writer.flush().map_err(found))
    }
}

fn read_from(reader: &mut (impl Read + ?Sized), window: &mut [u8]) -> Result<usize, Fault> {
    loop {
        match reader.read(window) {
            Ok(0) => return Err(Fault::Closed),
            Ok(count) => return Ok(count),
            Err(error) if error.kind() == ErrorKind::Interrupted => {}
            Err(error) => return Err(Fault::Error(error)),
        }
    }
}

fn write_to(writer: &mut (impl Write + ?Sized), piece: &[u8]) -> Result<(), Fault> {
    writer.write_all(piece).and_then(|()| writer.flush()).map_err(found)
}

/// A write's fault.
fn found(error: io::Error) -> Fault {
    match error.kind() {
        ErrorKind::WriteZero | ErrorKind::BrokenPipe => Fault::Closed,
        ErrorKind::ConnectionReset | ErrorKind::ConnectionAborted => Fault::Closed,
        _ => Fault::Error(error),
    }
}

/// The code that an error is reported with, and that answer 13 carries: the system's number of it, or one from 65,536 on
/// by its kind.
pub fn code_of(error: &io::Error) -> u32 {
    const OTHER: u32 = 65_536;
    if let Some(number) = error.raw_os_error() {
        return number as u32;
    }
    OTHER
        + match error.kind() {
            ErrorKind::UnexpectedEof => 1,
            ErrorKind::TimedOut => 2,
            ErrorKind::WouldBlock => 3,
            ErrorKind::InvalidData => 4,
            ErrorKind::InvalidInput => 5,
            ErrorKind::PermissionDenied => 6,
            ErrorKind::NotConnected => 7,
            ErrorKind::ConnectionReset => 8,
            ErrorKind::ConnectionAborted => 9,
            ErrorKind::ConnectionRefused => 10,
            ErrorKind::BrokenPipe => 11,
            ErrorKind::Unsupported => 12,
            ErrorKind::OutOfMemory => 13,
            _ => 0,
        }
}
