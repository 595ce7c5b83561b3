//! Why a device's sync service could not be opened.
use super::Address;
use crate::Shown;
use std::{fmt, io};

/// Why there is no channel to a device.
#[non_exhaustive]
pub enum Error {
    /// An address that is none, or words of the environment that make none.
    Address(String),
    /// No connection to the server.
    Unreachable {
        /// Where it should be.
        server: Address,
        /// The system's reason.
        error: io::Error,
    },
    /// The server's FAIL.
    Refused {
        /// Where it is.
        server: Address,
        /// What it was asked.
        request: String,
        /// Its reason.
        text: Vec<u8>,
    },
    /// The connection failed, or the server's reply is none.
    Link {
        /// Where it is.
        server: Address,
        /// What it was asked.
        request: String,
        /// What happened.
        error: io::Error,
    },
}

impl Error {
    /// The error of the connection, if it is one.
    pub fn io(&self) -> Option<&io::Error> {
        match self {
            Self::Unreachable { error, .. } | Self::Link { error, .. } => Some(error),
            Self::Address(_) | Self::Refused { .. } => None,
        }
    }
}

impl fmt::Display for Error {
    fn fmt(&self, f: &mut fmt::Formatter<'_>) -> fmt::Result {
        match self {
            Self::Address(text) => f.write_str(text),
            Self::Unreachable { server, error } => {
                write!(f, "ADB server at {server}: {error}")?;
                match error.kind() {
                    io::ErrorKind::ConnectionRefused | io::ErrorKind::NotFound => {
                        f.write_str("; `adb start-server` starts one")
                    }
                    _ => Ok(()),
                }
            }
            Self::Refused { server, request, text } => write!(f, "ADB server at {server}, {request}: {}", Shown(text)),
            Self::Link { server, request, error } => write!(f, "ADB server at {server}, {request}: {error}"),
        }
    }
}

/// As it is displayed: this is what a `main` that returns it prints.
impl fmt::Debug for Error {
    fn fmt(&self, f: &mut fmt::Formatter<'_>) -> fmt::Result {
        fmt::Display::fmt(self, f)
    }
}

impl std::error::Error for Error {
    fn source(&self) -> Option<&(dyn std::error::Error + 'static)> {
        self.io().map(|error| error as _)
    }
}
