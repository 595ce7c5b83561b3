//! Where an ADB server listens, in adb's own words.
use super::{variable, Error};
use std::fmt;
use std::path::PathBuf;
use std::str::FromStr;

/// A server's address: `HOST:PORT`, or as adb writes it `tcp:PORT`, `tcp:HOST:PORT`, `localfilesystem:PATH` (or `local:`) and
/// `localabstract:NAME`.
///
/// ```
/// use yuglasno::adb::Address;
/// let address: Address = "tcp:5038".parse().unwrap();
/// assert_eq!(address.to_string(), "localhost:5038");
/// let error = "vsock:1:5037".parse::<Address>().unwrap_err();
/// assert_eq!(format!("{error:?}"), error.to_string());
/// ```
#[derive(Clone, PartialEq, Eq, Debug)]
pub enum Address {
    /// A host, by its name or number, and a port.
    Tcp(String, u16),
    /// A Unix socket at this path.
    Unix(PathBuf),
    /// A Unix socket of this name in Linux's namespace without files.
    Abstract(String),
}

/// This machine.
pub(super) const LOCALHOST: &str = "localhost";
const PORT: u16 = 5037;

impl Address {
    /// The address that the environment names, or adb's default, port 5037 of this machine.
    pub fn from_env() -> Result<Self, Error> {
        if let Some(socket) = variable("ADB_SERVER_SOCKET")? {
            return Self::of_socket(&socket)
                .ok_or_else(|| Error::Address(format!("ADB_SERVER_SOCKET={socket}: {SOCKETS} is wanted")));
        }
        let host = variable("ANDROID_ADB_SERVER_ADDRESS")?.unwrap_or_else(|| LOCALHOST.into());
        match variable("ANDROID_ADB_SERVER_PORT")? {
            None => Ok(Self::Tcp(host, PORT)),
            Some(text) => match port(&text) {
                Some(port) => Ok(Self::Tcp(host, port)),
                None => {
                    Err(Error::Address(format!("ANDROID_ADB_SERVER_PORT={text}: a port from 1 to 65535 is wanted")))
                }
            },
        }
    }

    /// An address in adb's form.
    fn of_socket(text: &str) -> Option<Self> {
        let (kind, rest) = text.split_once(':')?;
        match kind {
            "tcp" if !rest.contains(':') => Some(Self::Tcp(LOCALHOST.into(), port(rest)?)),
            "tcp" => Self::of_host(rest),
            _ if rest.is_empty() => None,
            "local" | "localfilesystem" => Some(Self::Unix(rest.into())),
            "localabstract" => Some(Self::Abstract(rest.into())),
            _ => None,
        }
    }

    /// `HOST:PORT`, a host of colons in brackets.
    fn of_host(text: &str) -> Option<Self> {
        let (host, digits) = text.rsplit_once(':')?;
        let bare = host.strip_prefix('[').and_then(|host| host.strip_suffix(']'));
        let host = bare.or_else(|| (!host.contains(':')).then_some(host))?;
        (!host.is_empty()).then_some(Self::Tcp(host.into(), port(digits)?))
    }
}

/// adb's own forms.
const SOCKETS: &str = "tcp:PORT, tcp:HOST:PORT, localfilesystem:PATH or localabstract:NAME";

fn port(digits: &str) -> Option<u16> {
    digits.parse().ok().filter(|port| *port != 0)
}

impl FromStr for Address {
    type Err = Error;

    fn from_str(text: &str) -> Result<Self, Error> {
        let address = Self::of_socket(text).or_else(|| Self::of_host(text));
        address.ok_or_else(|| Error::Address(format!("{text}: HOST:PORT, {SOCKETS} is wanted")))
    }
}

impl fmt::Display for Address {
    fn fmt(&self, f: &mut fmt::Formatter<'_>) -> fmt::Result {
        match self {
            Self::Tcp(host, port) if host.contains(':') => write!(f, "[{host}]:{port}"),
            Self::Tcp(host, port) => write!(f, "{host}:{port}"),
            Self::Unix(path) => write!(f, "localfilesystem:{}", path.display()),
            Self::Abstract(name) => write!(f, "localabstract:{name}"),
        }
    }
}
