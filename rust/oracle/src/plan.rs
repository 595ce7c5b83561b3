//! A list of calls and everything that the host does in it.
use crate::call::Call;
use crate::hex::hex;
use crate::rng::mixed;
use crate::wire::Fault;
use std::fmt;

/// How many bytes a read brings.
#[derive(Clone, Debug)]
pub enum Cuts {
    /// always so many
    Of(usize),
    /// any number up to this one, by the seed and the number of the read
    UpTo(usize, u64),
    /// these one after the other, and the last of them from then on
    Each(Vec<usize>),
}

impl Cuts {
    pub fn at(&self, read: usize) -> usize {
        match self {
            Cuts::Of(n) => *n,
            Cuts::Each(counts) => counts[read.min(counts.len() - 1)],
            Cuts::UpTo(n, seed) => 1 + (mixed(*seed, read as u64) % *n as u64) as usize,
        }
    }
}

/// From the k-th write on (or only there) it fails.
#[derive(Clone, Debug)]
pub struct FailedWrite {
    pub at: usize,
    pub fault: Fault,
    pub goes_on: bool,
}

#[derive(Clone)]
pub struct List {
    pub seed: u64,
    pub banner: Vec<u8>,
    /// what the receive buffer holds before anything is read: its length is the capacity
    pub rx: Vec<u8>,
    pub incoming: Vec<u8>,
    /// what a read reports once all has come
    pub end: Fault,
    pub cuts: Cuts,
    /// a read that fails in between, once
    pub failed_read: Option<(usize, Fault)>,
    pub failed_write: Option<FailedWrite>,
    pub close: Result<(), Fault>,
    /// the host leaves other bytes in the window, past those that it reports
    pub scribbles: bool,
    /// the host also misuses our functions, which 000's types do not let it
    pub misuses: bool,
    pub calls: Vec<Call>,
}

impl fmt::Display for List {
    fn fmt(&self, f: &mut fmt::Formatter) -> fmt::Result {
        writeln!(f, "list {:#x}", self.seed)?;
        writeln!(f, "  banner {} ({})", hex(&self.banner), String::from_utf8_lossy(&self.banner))?;
        writeln!(f, "  capacity {}, at first {}", self.rx.len(), hex(&self.rx))?;
        writeln!(f, "  incoming {}, then {:?}", hex(&self.incoming), self.end)?;
        writeln!(f, "  cuts {:?}, failed read {:?}, scribbles {}", self.cuts, self.failed_read, self.scribbles)?;
        writeln!(f, "  failed write {:?}, close {:?}, misuses {}", self.failed_write, self.close, self.misuses)?;
        self.calls.iter().enumerate().try_for_each(|(i, call)| writeln!(f, "  call {i}: {call}"))
    }
}
