//! A connection to an ADB server, or another socket that speaks sync: what it reads is acknowledged at once, and a wait may have
//! an end.
use super::address::{Address, LOCALHOST};
use super::GREETING;
use std::io::{self, ErrorKind, Read, Write};
use std::net::{Ipv4Addr, Ipv6Addr, SocketAddr, TcpStream, ToSocketAddrs};
use std::os::unix::net::UnixStream;
use std::path::Path;
use std::sync::mpsc;
use std::thread;
use std::time::Duration;

/// An open connection. It is a [`Link`](crate::Link), and closes when it is dropped.
#[derive(Debug)]
pub struct Channel(Stream);

#[derive(Debug)]
enum Stream {
    Tcp(TcpStream),
    Unix(UnixStream),
}

/// Linux's number for a time-out.
const ETIMEDOUT: i32 = 110;

impl Channel {
    /// A connection to this address, and a longest wait for it and for each read and write.
    pub(super) fn to(address: &Address, wait: Duration) -> io::Result<Self> {
        let stream = match address {
            Address::Tcp(host, port) => Stream::Tcp(tcp(host, *port, wait).map_err(timed)?),
            Address::Unix(path) => Stream::Unix(within(wait, path.clone(), UnixStream::connect)?),
            Address::Abstract(name) => Stream::Unix(within(wait, name.clone(), |name| in_the_abstract(&name))?),
        };
        let channel = Self(stream);
        channel.wait_at_most(Some(wait))?;
        Ok(channel)
    }

    /// A connection to a Unix socket that speaks sync itself, and a longest wait for it (or [`GREETING`]) and for each read and
    /// write.
    pub fn to_socket(path: &Path, wait: Option<Duration>) -> io::Result<Self> {
        let stream = within(wait.unwrap_or(GREETING), path.to_path_buf(), UnixStream::connect)?;
        let channel = Self(Stream::Unix(stream));
        channel.wait_at_most(wait)?;
        Ok(channel)
    }

    /// The longest wait for each read and write from now on.
    pub fn wait_at_most(&self, wait: Option<Duration>) -> io::Result<()> {
        match &self.0 {
            Stream::Tcp(stream) => stream.set_read_timeout(wait).and_then(|()| stream.set_write_timeout(wait)),
            Stream::Unix(stream) => stream.set_read_timeout(wait).and_then(|()| stream.set_write_timeout(wait)),
        }
    }
}

/// A Unix socket's connection, which has no time-out of its own: it waits while more hosts are queued there than the socket takes. A
/// thread that is given up goes with the program.
fn within<A: Send + 'static>(
    wait: Duration,
    address: A,
    connect: fn(A) -> io::Result<UnixStream>,
) -> io::Result<UnixStream> {
    let (tell, told) = mpsc::channel();
    thread::Builder::new().spawn(move || tell.send(connect(address)))?;
    told.recv_timeout(wait).unwrap_or_else(|_| Err(io::Error::from_raw_os_error(ETIMEDOUT)))
}

/// The first of the host's addresses that takes the connection.
fn tcp(host: &str, port: u16, wait: Duration) -> io::Result<TcpStream> {
    let mut failed = io::Error::new(ErrorKind::NotFound, "the host has no address");
    for address in addresses(host, port)? {
        match TcpStream::connect_timeout(&address, wait) {
            Ok(stream) => return stream.set_nodelay(true).map(|()| stream),
            Err(error) => failed = error,
        }
    }
    Err(failed)
}

/// This machine's own addresses need no looking up.
fn addresses(host: &str, port: u16) -> io::Result<Vec<SocketAddr>> {
    match host {
        LOCALHOST => Ok(vec![(Ipv4Addr::LOCALHOST, port).into(), (Ipv6Addr::LOCALHOST, port).into()]),
        _ => (host, port).to_socket_addrs().map(Iterator::collect),
    }
}

#[cfg(target_os = "linux")]
fn in_the_abstract(name: &str) -> io::Result<UnixStream> {
    use std::os::linux::net::SocketAddrExt;
    UnixStream::connect_addr(&std::os::unix::net::SocketAddr::from_abstract_name(name)?)
}

#[cfg(not(target_os = "linux"))]
fn in_the_abstract(_: &str) -> io::Result<UnixStream> {
    Err(ErrorKind::Unsupported.into())
}

/// The server writes a message in several pieces, and without this waits for the acknowledgement of each. Linux forgets it
/// with time, so it is asked for before each read.
#[cfg(target_os = "linux")]
fn acknowledge_at_once(stream: &TcpStream) {
    use std::os::linux::net::TcpStreamExt;
    let _ = stream.set_quickack(true);
}

#[cfg(not(target_os = "linux"))]
fn acknowledge_at_once(_: &TcpStream) {}

/// A wait that ended is the system's time-out, however it was told.
fn timed(error: io::Error) -> io::Error {
    match error.kind() {
        ErrorKind::WouldBlock | ErrorKind::TimedOut => io::Error::from_raw_os_error(ETIMEDOUT),
        _ => error,
    }
}

impl Read for Channel {
    fn read(&mut self, window: &mut [u8]) -> io::Result<usize> {
        let count = match &mut self.0 {
            Stream::Tcp(stream) => {
                acknowledge_at_once(stream);
                stream.read(window)
            }
            Stream::Unix(stream) => stream.read(window),
        };
        count.map_err(timed)
    }
}

impl Write for Channel {
    fn write(&mut self, piece: &[u8]) -> io::Result<usize> {
        let count = match &mut self.0 {
            Stream::Tcp(stream) => stream.write(piece),
            Stream::Unix(stream) => stream.write(piece),
        };
        count.map_err(timed)
    }

    fn flush(&mut self) -> io::Result<()> {
        Ok(())
    }
}

#[cfg(test)]
mod tests {
    use super::*;

    /// As with a socket whose queue of hosts is full.
    #[test]
    fn a_connection_that_waits() {
        let late = |(): ()| {
            thread::sleep(Duration::from_secs(60));
            Err(ErrorKind::Other.into())
        };
        let error = within(Duration::from_millis(20), (), late).unwrap_err();
        assert_eq!((error.kind(), error.raw_os_error()), (ErrorKind::TimedOut, Some(ETIMEDOUT)));
        assert_eq!(within(GREETING, (), |()| Err(ErrorKind::NotFound.into())).unwrap_err().kind(), ErrorKind::NotFound);
    }
}
