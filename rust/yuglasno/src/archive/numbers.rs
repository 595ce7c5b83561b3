//! What DETAILS says of a file: size, mtime and mode, as the panel said them.
use crate::answer::Details;
use std::fmt::{self, Display};
use std::fs::Metadata;
use std::os::unix::fs::MetadataExt;
use std::str::FromStr;

#[derive(Clone, Copy, PartialEq, Eq, Debug)]
pub struct Numbers {
    pub size: u64,
    /// In Unix seconds.
    pub mtime: i64,
    pub mode: u32,
}

impl Display for Numbers {
    fn fmt(&self, f: &mut fmt::Formatter<'_>) -> fmt::Result {
        write!(f, "{} {} {:o}", self.size, self.mtime, self.mode)
    }
}

impl FromStr for Numbers {
    type Err = ();

    fn from_str(text: &str) -> Result<Self, ()> {
        let mut words = text.split(' ');
        let mut word = || words.next().ok_or(());
        let size = word()?.parse().map_err(drop)?;
        let mtime = word()?.parse().map_err(drop)?;
        let mode = u32::from_str_radix(word()?, 8).map_err(drop)?;
        Ok(Self { size, mtime, mode })
    }
}

impl Numbers {
    /// The permission bits of the file in DIR: the panel's, and that its owner may read it. No set-user-id and the like.
    pub fn permissions(&self) -> u32 {
        self.mode & 0o777 | 0o400
    }

    /// Whether the panel's file has the same size and mtime. v1 has 32 bits of each.
    pub fn are(&self, details: &Details) -> bool {
        match details {
            Details::V1(stat) => (self.size as u32, self.mtime as u32) == (stat.size, stat.mtime),
            Details::V2(stat) => (self.size, self.mtime) == (stat.size, stat.mtime),
        }
    }

    /// How a file in DIR differs from them.
    pub fn other(&self, found: &Metadata) -> Vec<String> {
        let pairs = [
            ("size", i128::from(found.size()), i128::from(self.size)),
            ("mtime", found.mtime().into(), self.mtime.into()),
        ];
        let differ = pairs.into_iter().filter(|(_, is, was)| is != was);
        let mut other: Vec<_> = differ.map(|(what, is, was)| format!("its {what} is {is} and not {was}")).collect();
        let (is, was) = (found.mode() & 0o7777, self.permissions());
        if is != was {
            other.push(format!("its mode is {is:o} and not {was:o}"));
        }
        other
    }
}
