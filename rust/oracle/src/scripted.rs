//! The channel of the comparison: it follows a list's plan and notes what it is asked. Each side has one of its own.
use crate::call::Call;
use crate::plan::List;
use crate::rng::mixed;
use crate::wire::{Fault, Wire};
use std::cell::RefCell;
use std::ops::Range;
use std::rc::Rc;

/// Where a piece lies: in the receive buffer, in the lent path or data, or in none of them.
#[derive(Clone, Copy, Debug, PartialEq, Eq)]
pub enum Place {
    Rx(usize),
    Path(usize),
    Data(usize),
    Value,
}

#[derive(Clone, Debug, PartialEq, Eq)]
pub enum Op {
    Read { place: Place, len: usize, got: Result<Vec<u8>, Fault> },
    Write { place: Place, piece: Vec<u8>, report: Result<(), Fault> },
    Close { report: Result<(), Fault> },
}

pub struct Scripted<'l> {
    list: &'l List,
    /// bytes delivered so far
    pub at: usize,
    /// reads that brought bytes
    pub brought: usize,
    /// bytes of the writes that were accepted
    pub took: usize,
    reads: usize,
    writes: usize,
    /// addresses of the receive buffer, of the lent path and of the lent data
    rx: Range<usize>,
    path: Range<usize>,
    data: Range<usize>,
    /// what was asked since the last `take_ops`
    pub ops: Vec<Op>,
    /// while a session is only looked at: writes go through, reads fail, the plan stands still
    pub looking: bool,
}

impl<'l> Scripted<'l> {
    pub fn new(list: &'l List) -> Self {
        let none = || 0..0;
        Scripted { list, at: 0, brought: 0, took: 0, reads: 0, writes: 0, rx: none(), path: none(), data: none(), ops: vec![], looking: false }
    }

    /// Says where the receive buffer is.
    pub fn receives_at(&mut self, address: usize) {
        self.rx = address..address + self.list.rx.len();
    }

    /// Says what a call is lent.
    pub fn lent(&mut self, call: &Call) {
        let range = |slice: &[u8]| slice.as_ptr() as usize..slice.as_ptr() as usize + slice.len();
        (self.path, self.data) = (range(call.path.as_bytes()), range(&call.data));
    }

    pub fn take_ops(&mut self) -> Vec<Op> {
        std::mem::take(&mut self.ops)
    }

    fn place(&self, slice: &[u8]) -> Place {
        let address = slice.as_ptr() as usize;
        if self.rx.contains(&address) {
            Place::Rx(address - self.rx.start)
        } else if self.path.contains(&address) {
            Place::Path(address - self.path.start)
        } else if self.data.contains(&address) {
            Place::Data(address - self.data.start)
        } else {
            Place::Value
        }
    }

    fn bring(&mut self, window: &mut [u8]) -> Result<usize, Fault> {
        let read = self.reads;
        self.reads += 1;
        let faulty = self.list.failed_read.filter(|(at, _)| *at == read);
        let count = window.len().min(self.list.cuts.at(read)).min(self.list.incoming.len() - self.at);
        let got = match faulty {
            Some((_, fault)) => Err(fault),
            None if count == 0 => Err(self.list.end),
            None => Ok(count),
        };
        let count = got.unwrap_or(0);
        window[..count].copy_from_slice(&self.list.incoming[self.at..self.at + count]);
        self.at += count;
        self.brought += got.is_ok() as usize;
        if self.list.scribbles {
            let from = mixed(self.list.seed, read as u64) as usize;
            window[count..].iter_mut().take(40).enumerate().for_each(|(i, b)| *b = (from + i) as u8);
        }
        got
    }
}

impl Wire for Scripted<'_> {
    fn read(&mut self, window: &mut [u8]) -> Result<usize, Fault> {
        let got = if self.looking { Err(Fault::Closed) } else { self.bring(window) };
        let bytes = got.map(|count| window[..count].to_vec());
        self.ops.push(Op::Read { place: self.place(window), len: window.len(), got: bytes });
        got
    }

    fn write(&mut self, piece: &[u8]) -> Result<(), Fault> {
        let write = self.writes;
        let report = match &self.list.failed_write {
            _ if self.looking => Ok(()),
            Some(failed) if write == failed.at || (failed.goes_on && write > failed.at) => Err(failed.fault),
            _ => Ok(()),
        };
        self.writes += !self.looking as usize;
        if report.is_ok() && !self.looking {
            self.took += piece.len();
        }
        self.ops.push(Op::Write { place: self.place(piece), piece: piece.to_vec(), report });
        report
    }

    fn close(&mut self) -> Result<(), Fault> {
        self.ops.push(Op::Close { report: self.list.close });
        self.list.close
    }
}

/// A channel that a session holds and the comparison looks into.
pub type Shared<'l> = Rc<RefCell<Scripted<'l>>>;

pub fn shared(list: &List) -> Shared<'_> {
    Rc::new(RefCell::new(Scripted::new(list)))
}

impl<W: Wire> Wire for Rc<RefCell<W>> {
    fn read(&mut self, window: &mut [u8]) -> Result<usize, Fault> {
        self.borrow_mut().read(window)
    }
    fn write(&mut self, piece: &[u8]) -> Result<(), Fault> {
        self.borrow_mut().write(piece)
    }
    fn close(&mut self) -> Result<(), Fault> {
        self.borrow_mut().close()
    }
}
