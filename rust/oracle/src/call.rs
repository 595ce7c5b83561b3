//! A call with what it is lent, and the answers that both sides are held to, by document 01's numbers.
use crate::hex::hex;
use std::fmt;

/// What is called, by the name of 000's method. The last four are its convenience calls.
#[derive(Clone, Copy, Debug, PartialEq, Eq)]
pub enum What {
    Stat, StatV2, List, ListV2, RecvStart, RecvV2Start, RecvNext, SendStart, SendV2Start, SendData, SendDone, Quit,
    Recv, RecvV2, Send, SendV2,
}
use What::*;

#[derive(Clone)]
pub struct Call {
    pub what: What,
    pub path: String,
    pub data: Vec<u8>,
    pub mode: u32,
    pub mtime: u32,
    pub flags: u32,
    /// when a push starts
    pub moment: u32,
}

impl Call {
    pub fn new(what: What) -> Call {
        Call { what, path: String::new(), data: vec![], mode: 0, mtime: 0, flags: 0, moment: 0 }
    }

    pub fn on(what: What, path: &str) -> Call {
        Call { path: path.to_string(), ..Call::new(what) }
    }

    pub fn takes_path(&self) -> bool {
        !matches!(self.what, RecvNext | SendData | SendDone | Quit)
    }

    pub fn takes_flags(&self) -> bool {
        matches!(self.what, RecvV2Start | SendV2Start | RecvV2 | SendV2)
    }

    pub fn pulls(&self) -> bool {
        matches!(self.what, RecvV2Start | RecvV2)
    }
}

impl fmt::Display for Call {
    fn fmt(&self, f: &mut fmt::Formatter) -> fmt::Result {
        write!(f, "{:?}", self.what)?;
        if self.takes_path() {
            write!(f, " path {}", hex(self.path.as_bytes()))?;
        }
        if self.takes_flags() {
            write!(f, " flags {:x}", self.flags)?;
        }
        if matches!(self.what, SendStart | SendV2Start | Send | SendV2) {
            write!(f, " mode {} moment {}", self.mode, self.moment)?;
        }
        if matches!(self.what, SendDone | Send | SendV2) {
            write!(f, " mtime {}", self.mtime)?;
        }
        if matches!(self.what, SendData | Send | SendV2) {
            write!(f, " data {}", hex(&self.data))?;
        }
        Ok(())
    }
}

/// An entry's numbers, three of v1 or eleven of v2, and its name.
#[derive(Clone, Debug, PartialEq, Eq)]
pub struct Entry {
    pub numbers: Vec<u64>,
    pub name: Vec<u8>,
}

#[derive(Clone, Debug, PartialEq, Eq)]
pub enum Answer {
    Done,
    /// a stat's numbers, three of v1 or eleven of v2
    Stat(Vec<u64>),
    /// the entries of a listing that came to its end
    Listed(Vec<Entry>),
    Chunk(Vec<u8>),
    End,
    /// a whole pull
    Pulled(Vec<u8>),
    Not(Why),
}

/// Why a call did not do what was asked, with document 01's number.
#[derive(Clone, Debug, PartialEq, Eq)]
pub enum Why {
    /// 1 to 9, 11: nothing goes with them
    Refused(u32),
    /// 10
    Missing(u32),
    /// 12
    Closed,
    /// 13
    Error(u32),
    /// 14
    Fail(Vec<u8>),
    /// 15
    Unexpected([u8; 4]),
    /// 16
    Errno(u32),
    /// 17
    TooLarge,
}

impl Why {
    pub fn number(&self) -> u32 {
        match self {
            Why::Refused(n) => *n,
            Why::Missing(_) => 10,
            Why::Closed => 12,
            Why::Error(_) => 13,
            Why::Fail(_) => 14,
            Why::Unexpected(_) => 15,
            Why::Errno(_) => 16,
            Why::TooLarge => 17,
        }
    }
}

impl Answer {
    /// Document 01's number of it: 0 for a call that went through.
    pub fn number(&self) -> u32 {
        if let Answer::Not(why) = self { why.number() } else { 0 }
    }

    /// Refused before anything was written: 6 to 10.
    pub fn refused(&self) -> bool {
        matches!(self, Answer::Not(why) if (6..=10).contains(&why.number()))
    }
}
