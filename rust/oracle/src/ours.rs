//! Our session on a scripted channel, through the library's functions.
use crate::wire::{Fault, Wire};
use std::ops::Range;
use yuglasno::{raw, Settings, Totals};

/// The steps by their numbers at the boundary.
#[derive(Clone, Copy, Debug, PartialEq, Eq)]
#[repr(u32)]
pub enum Step {
    Stat = 1, StatV2, List, ListV2, Recv, RecvV2, Send, SendV2, Data, SendDone, Quit, Entry, EntryV2, RecvNext,
}

/// Opens a session under the published ids and without hours: 000 has no others, and none.
pub fn opened(rec: &mut [u8], banner: &[u8], rx: usize, msg: usize) -> u32 {
    raw::open(rec, Settings::published().as_bytes(), banner, rx, msg)
}

/// A session's memory and its channel.
#[derive(Clone)]
pub struct Host<W> {
    pub rec: [u8; raw::RECORD],
    pub rx: Vec<u8>,
    pub msg: Vec<u8>,
    pub out: [u8; raw::REPLY],
    pub wire: W,
    /// When the next step starts.
    pub moment: u32,
    /// Whether `run` reports every single read.
    pub single: bool,
}

impl<W: Wire> Host<W> {
    /// Opens a session as `opened` does; the message buffer is as long as the receive buffer.
    pub fn open(banner: &[u8], rx: Vec<u8>, wire: W) -> Result<Self, u32> {
        Self::open_with(&Settings::published(), banner, rx, wire)
    }

    /// The same, with other settings.
    pub fn open_with(settings: &Settings, banner: &[u8], rx: Vec<u8>, wire: W) -> Result<Self, u32> {
        let (rec, msg, out) = ([0; raw::RECORD], vec![0xEE; rx.len()], [0; raw::REPLY]);
        let mut host = Host { rec, msg, rx, out, wire, moment: 0, single: false };
        match raw::open(&mut host.rec, settings.as_bytes(), banner, host.rx.len(), host.msg.len()) {
            0 => Ok(host),
            number => Err(number),
        }
    }

    pub fn totals(&self) -> Totals {
        raw::totals(&self.rec)
    }

    /// The reads of the last step: as its answer tells them, and as the record has them.
    pub fn reads(&self) -> (u64, u64) {
        (raw::told_reads(&self.out), raw::reads(&self.rec))
    }

    /// The i-th number of the last reply.
    #[inline]
    pub fn at(&self, i: usize) -> u64 {
        u64::from_le_bytes(self.out[8 * i..8 * i + 8].try_into().unwrap())
    }

    /// A part by where it starts and how long it is: the i-th number and the next.
    #[inline]
    pub fn part(&self, i: usize) -> Range<usize> {
        let start = self.at(i) as usize;
        start..start + self.at(i + 1) as usize
    }

    /// The part of the receive buffer that an entry or a chunk was told to be.
    #[inline]
    pub fn told(&self) -> &[u8] {
        &self.rx[self.part(1)]
    }

    #[inline]
    fn start(&mut self, step: Step, lent: &[u8], a: u32, b: u32) -> u32 {
        raw::start(&mut self.rec, &mut self.rx, &mut self.msg, lent, step as u32, a, b, self.moment, &mut self.out)
    }

    /// A step from its start to its answer: document 01's number.
    #[inline]
    pub fn step(&mut self, step: Step, lent: &[u8], a: u32, b: u32) -> u32 {
        self.step_with(step, lent, a, b, |_, _| ())
    }

    /// The same; `before` sees the session before each report, with what it asks for.
    #[inline]
    pub fn step_with(&mut self, step: Step, lent: &[u8], a: u32, b: u32, mut before: impl FnMut(&mut Self, u32)) -> u32 {
        let mut reply = self.start(step, lent, a, b);
        loop {
            if reply & 255 == 0 {
                return reply >> 8;
            }
            before(self, reply);
            reply = if reply == 1 {
                let window = self.part(0);
                match self.wire.read(&mut self.rx[window]) {
                    Ok(count) => raw::read(&mut self.rec, &mut self.rx, &mut self.msg, lent, count, &mut self.out),
                    Err(fault) => self.fault(fault, lent),
                }
            } else {
                match self.put(reply, lent) {
                    Ok(()) => raw::wrote(&mut self.rec, &mut self.rx, &mut self.msg, lent, &mut self.out),
                    Err(fault) => self.fault(fault, lent),
                }
            };
        }
    }

    /// A step as the crate's session takes it over a link: reads are gathered until the need is met, unless `single`.
    #[inline]
    pub fn run(&mut self, step: Step, lent: &[u8], a: u32, b: u32) -> u32 {
        let mut reply = self.start(step, lent, a, b);
        loop {
            if reply & 255 == 0 {
                return reply >> 8;
            }
            reply = if reply == 1 {
                self.gather(lent)
            } else {
                match self.put(reply, lent) {
                    Ok(()) => raw::wrote(&mut self.rec, &mut self.rx, &mut self.msg, lent, &mut self.out),
                    Err(fault) => self.fault(fault, lent),
                }
            };
        }
    }

    #[inline]
    fn gather(&mut self, lent: &[u8]) -> u32 {
        let window = self.part(0);
        let enough = if self.single { 1 } else { raw::wanted(&self.rec).clamp(1, window.len()) };
        let mut count = 0;
        while count < enough {
            match self.wire.read(&mut self.rx[window.start + count..window.end]) {
                Ok(more) => count += more,
                Err(fault) if count == 0 => return self.fault(fault, lent),
                Err(_) => break,
            }
        }
        raw::read(&mut self.rec, &mut self.rx, &mut self.msg, lent, count, &mut self.out)
    }

    #[inline]
    fn put(&mut self, reply: u32, lent: &[u8]) -> Result<(), Fault> {
        match reply {
            2 => self.wire.write(&self.rx[self.part(0)]),
            3 => self.wire.write(&lent[self.part(0)]),
            4 => self.wire.write(&self.out[8..8 + self.at(0) as usize]),
            5 => self.wire.close(),
            _ => panic!("no such reply: {reply}"),
        }
    }

    fn fault(&mut self, fault: Fault, lent: &[u8]) -> u32 {
        let (kind, code) = match fault {
            Fault::Closed => (0, 0),
            Fault::Error(code) => (1, code),
        };
        raw::fault(&mut self.rec, &mut self.rx, &mut self.msg, lent, kind, code, &mut self.out)
    }
}
