//! By way of an ADB server: a device's features as the banner, and its `sync:` service as a link.
//!
//! ```no_run
//! use yuglasno::{adb::Server, Session, CAPACITY};
//!
//! # fn main() -> Result<(), Box<dyn std::error::Error>> {
//! let server = Server::from_env()?; // where adb itself would look for it
//! let mut session = Session::open(&server.banner()?, vec![0; CAPACITY], vec![0; CAPACITY])?;
//! let mut link = server.sync()?;
//! println!("{} bytes", session.details(&mut link, "/sdcard/jobs/1998.job")?.size());
//! session.quit(&mut link)?;
//! # Ok(())
//! # }
//! ```
//!
//! A request to the server is its length in four hexadecimal digits and its text; the reply is OKAY, or FAIL and a text of
//! the same form.
mod address;
mod channel;
mod error;

pub use address::Address;
pub use channel::Channel;
pub use error::Error;

use std::env;
use std::io::{self, ErrorKind, Read, Write};
use std::time::Duration;

/// The longest wait for a connection and for each of the server's own replies, where no timeout is given.
pub const GREETING: Duration = Duration::from_secs(10);

/// A device of an ADB server.
#[derive(Clone, Debug)]
pub struct Server {
    address: Address,
    serial: Option<String>,
    timeout: Option<Duration>,
}

impl Server {
    /// The server at this address, with its only device.
    pub fn at(address: Address) -> Self {
        Self { address, serial: None, timeout: None }
    }

    /// The server and the device that the environment names, as adb reads it: `ADB_SERVER_SOCKET`, or
    /// `ANDROID_ADB_SERVER_ADDRESS` and `ANDROID_ADB_SERVER_PORT`; `ANDROID_SERIAL`.
    pub fn from_env() -> Result<Self, Error> {
        Self::at(Address::from_env()?).with_serial_from_env()
    }

    /// The same server, with the device that `ANDROID_SERIAL` names, or its only one.
    pub fn with_serial_from_env(self) -> Result<Self, Error> {
        Ok(Self { serial: variable("ANDROID_SERIAL")?, ..self })
    }

    /// The same server, with the device of this serial.
    pub fn with_serial(self, serial: impl Into<String>) -> Self {
        Self { serial: Some(serial.into()), ..self }
    }

    /// The same server, with a longest wait for a connection and for every read and write: the greeting's and those of the
    /// link. What takes longer is an error of the system's number for a time-out, 110. A host's name is looked up before
    /// that, in the system's own time.
    pub fn with_timeout(self, timeout: Duration) -> Self {
        Self { timeout: Some(timeout), ..self }
    }

    /// The device's features as [`Session::open`](crate::Session::open) takes them.
    pub fn banner(&self) -> Result<Vec<u8>, Error> {
        let request = match &self.serial {
            Some(serial) => format!("host-serial:{serial}:features"),
            None => "host:features".into(),
        };
        let mut channel = self.connected()?;
        self.asked(&mut channel, &request)?;
        let features = text(&mut channel).map_err(|error| self.lost(&request, error))?;
        Ok([b"features=", &features[..]].concat())
    }

    /// The device's `sync:` service, opened: a link for a session.
    pub fn sync(&self) -> Result<Channel, Error> {
        let transport = match &self.serial {
            Some(serial) => format!("host:transport:{serial}"),
            None => "host:transport-any".into(),
        };
        let mut channel = self.connected()?;
        self.asked(&mut channel, &transport)?;
        self.asked(&mut channel, "sync:")?;
        channel.wait_at_most(self.timeout).map_err(|error| self.lost("sync:", error))?;
        Ok(channel)
    }

    fn connected(&self) -> Result<Channel, Error> {
        let wait = self.timeout.unwrap_or(GREETING);
        Channel::to(&self.address, wait).map_err(|error| Error::Unreachable { server: self.address.clone(), error })
    }

    fn asked(&self, channel: &mut Channel, request: &str) -> Result<(), Error> {
        match answer(channel, request).map_err(|error| self.lost(request, error))? {
            None => Ok(()),
            Some(text) => Err(Error::Refused { server: self.address.clone(), request: request.into(), text }),
        }
    }

    fn lost(&self, request: &str, error: io::Error) -> Error {
        Error::Link { server: self.address.clone(), request: request.into(), error }
    }
}

/// A variable of the environment; one that is empty counts as not there.
fn variable(name: &str) -> Result<Option<String>, Error> {
    match env::var(name) {
        Ok(value) => Ok(Some(value).filter(|value| !value.is_empty())),
        Err(env::VarError::NotPresent) => Ok(None),
        Err(env::VarError::NotUnicode(_)) => Err(Error::Address(format!("{name} is no text"))),
    }
}

/// None for OKAY, or the text of the FAIL.
fn answer(channel: &mut Channel, request: &str) -> io::Result<Option<Vec<u8>>> {
    channel.write_all(format!("{:04x}{request}", request.len()).as_bytes())?;
    let status = four(channel)?;
    match &status {
        b"OKAY" => Ok(None),
        b"FAIL" => text(channel).map(Some),
        _ => Err(io::Error::new(ErrorKind::InvalidData, format!("it said {}", crate::Shown(&status)))),
    }
}

fn text(channel: &mut Channel) -> io::Result<Vec<u8>> {
    let digits = four(channel)?;
    let length = std::str::from_utf8(&digits).ok().and_then(|digits| usize::from_str_radix(digits, 16).ok());
    let length = length.ok_or_else(|| io::Error::new(ErrorKind::InvalidData, "a length of no digits"))?;
    let mut text = vec![0; length];
    channel.read_exact(&mut text).map_err(cut)?;
    Ok(text)
}

fn four(channel: &mut Channel) -> io::Result<[u8; 4]> {
    let mut bytes = [0; 4];
    channel.read_exact(&mut bytes).map_err(cut)?;
    Ok(bytes)
}

/// The end of the connection in the middle of a reply, in words.
fn cut(error: io::Error) -> io::Error {
    match error.kind() {
        ErrorKind::UnexpectedEof => io::Error::new(error.kind(), "it closed the connection before its reply was whole"),
        _ => error,
    }
}
