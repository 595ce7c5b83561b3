//! The bench's channel: the same code for 000, for this library and for the floor, so its cost is in all three.
use crate::wire::{Fault, Wire};
use std::hint::black_box;

/// What a channel was asked, in order: the floor asks it again.
#[derive(Clone, Copy)]
pub enum Op {
    Read { window: usize },
    Write { piece: usize },
    Close,
}

/// Incoming bytes in reads of at most `step`. A reply comes only once its request was written: each write lets `reply` more bytes come.
pub struct Script<'a> {
    pub incoming: &'a [u8],
    pub at: usize,
    pub open: usize,
    pub step: usize,
    pub reply: usize,
}

impl Wire for Script<'_> {
    #[inline]
    fn read(&mut self, window: &mut [u8]) -> Result<usize, Fault> {
        let count = window.len().min(self.step).min(self.open - self.at);
        if count == 0 {
            return Err(Fault::Closed);
        }
        window[..count].copy_from_slice(&self.incoming[self.at..self.at + count]);
        self.at += count;
        Ok(count)
    }

    #[inline]
    fn write(&mut self, piece: &[u8]) -> Result<(), Fault> {
        black_box(piece);
        self.open = self.incoming.len().min(self.open + self.reply);
        Ok(())
    }

    #[inline]
    fn close(&mut self) -> Result<(), Fault> {
        Ok(())
    }
}

/// A script that notes what it is asked.
pub struct Noted<'a> {
    pub script: Script<'a>,
    pub ops: Vec<Op>,
}

impl Wire for Noted<'_> {
    fn read(&mut self, window: &mut [u8]) -> Result<usize, Fault> {
        self.ops.push(Op::Read { window: window.len() });
        self.script.read(window)
    }
    fn write(&mut self, piece: &[u8]) -> Result<(), Fault> {
        self.ops.push(Op::Write { piece: piece.len() });
        self.script.write(piece)
    }
    fn close(&mut self) -> Result<(), Fault> {
        self.ops.push(Op::Close);
        self.script.close()
    }
}
