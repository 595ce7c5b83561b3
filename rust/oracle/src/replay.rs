//! Replays a stored sample of 000's answers (record.rs says its form) on this library, and holds its totals and the reads of each step to the
//! sample's reads, writes and held bytes. Needs no source of 000.
use crate::ceiling;
use yuglasno::{raw, Settings, Totals};

/// The number of a quit at the boundary.
const QUIT: u32 = 11;
/// When a step starts: without hours it may be any moment.
const ANYTIME: u32 = 1998;

/// A record's bytes, read from the front.
struct Fields<'a>(&'a [u8]);

impl Fields<'_> {
    fn take<const N: usize>(&mut self) -> [u8; N] {
        let (front, rest) = self.0.split_first_chunk().expect("a whole record");
        self.0 = rest;
        *front
    }
    fn n1(&mut self) -> u8 {
        self.take::<1>()[0]
    }
    fn n4(&mut self) -> u32 {
        u32::from_le_bytes(self.take())
    }
    fn n8(&mut self) -> u64 {
        u64::from_le_bytes(self.take())
    }
    fn bytes(&mut self) -> Vec<u8> {
        let mut bytes = vec![];
        for _ in 0..self.n1() {
            let len = self.n4();
            let count = (len & !(1 << 31)) as usize;
            if len == count as u32 {
                bytes.extend_from_slice(&self.0[..count]);
                self.0 = &self.0[count..];
            } else {
                bytes.extend(vec![self.n1(); count]);
            }
        }
        bytes
    }
}

#[derive(Default)]
struct Replay {
    rec: Vec<u8>,
    rx: Vec<u8>,
    msg: Vec<u8>,
    out: Vec<u8>,
    lent: Vec<u8>,
    reply: u32,
    // bytes that came, and bytes of the writes that were accepted
    gave: u64,
    took: u64,
    // reads of the step that brought bytes, and what was consumed before it
    reads: u64,
    consumed: u64,
    quit: bool,
}

impl Replay {
    fn at(&self, i: usize) -> u64 {
        u64::from_le_bytes(self.out[8 * i..8 * i + 8].try_into().unwrap())
    }

    fn part<'a>(&self, of: &'a [u8], i: usize) -> &'a [u8] {
        &of[self.at(i) as usize..][..self.at(i + 1) as usize]
    }

    // an accepted write or close, or a fault
    fn report(&mut self, kind: u8, f: &mut Fields) {
        let Replay { rec, rx, msg, out, lent, .. } = self;
        self.reply = match kind {
            0 => raw::wrote(rec, rx, msg, lent, out),
            1 => raw::fault(rec, rx, msg, lent, 0, 0, out),
            _ => raw::fault(rec, rx, msg, lent, 1, f.n4(), out),
        };
    }

    fn read(&mut self, f: &mut Fields) -> bool {
        let (start, len, kind) = (f.n4() as usize, f.n4() as usize, f.n1());
        let asked = self.reply == 1 && (self.at(0), self.at(1)) == (start as u64, len as u64);
        if kind > 0 {
            self.report(kind, f);
            return asked;
        }
        let bytes = f.bytes();
        self.rx[start..start + bytes.len()].copy_from_slice(&bytes);
        self.gave += bytes.len() as u64;
        self.reads += 1;
        let Replay { rec, rx, msg, out, lent, .. } = self;
        self.reply = raw::read(rec, rx, msg, lent, bytes.len(), out);
        asked
    }

    fn write(&mut self, f: &mut Fields) -> bool {
        let (what, start, piece, kind) = (f.n1() as u32, f.n4() as u64, f.bytes(), f.n1());
        let asked = self.reply == what
            && match what {
                2 => self.at(0) == start && self.part(&self.rx, 0) == piece,
                3 => self.at(0) == start && self.part(&self.lent, 0) == piece,
                _ => self.out[8..][..self.at(0) as usize] == piece,
            };
        self.report(kind, f);
        if kind == 0 {
            self.took += piece.len() as u64;
        }
        asked
    }

    fn totals(&self) -> Totals {
        raw::totals(self.rec.as_slice().try_into().expect("a whole record"))
    }

    // the step's reads as they are told, and the ceiling; a refused one has none
    fn reads_told(&self, number: u32) -> bool {
        let told = raw::told_reads(self.out.as_slice().try_into().expect("a whole reply"));
        told == self.reads && ceiling::kept(number, told, self.totals().consumed - self.consumed)
    }

    // behind a quit the sample has no count of held bytes
    fn counted(&self, held: u64) -> bool {
        let totals = self.totals();
        let held = if self.quit { totals.held() } else { held };
        totals == Totals { received: self.gave, consumed: self.gave - held, written: self.took }
    }

    fn told(&self, f: &mut Fields) -> bool {
        let (number, kind, count) = (f.n1() as u32, f.n1() as u64, f.n1() as usize);
        let numbers: Vec<u64> = (0..count).map(|_| f.n8()).collect();
        let part = if number == 14 { &self.msg } else { &self.rx };
        let same = self.reply == 256 * number && self.at(0) == kind && self.reads_told(number);
        same && numbers == (3..3 + count).map(|i| self.at(i)).collect::<Vec<_>>() && self.part(part, 1) == f.bytes()
    }

    // one record; false where the library does otherwise
    fn follow(&mut self, mut f: Fields) -> bool {
        let f = &mut f;
        match f.n1() {
            1 => {
                let (capacity, banner, fill) = (f.n4() as usize, f.bytes(), f.n1());
                (self.rec, self.out) = (vec![0; raw::RECORD], vec![0; raw::REPLY]);
                (self.rx, self.msg) = (vec![fill; capacity], vec![fill; capacity]);
                (self.gave, self.took, self.quit) = (0, 0, false);
                raw::open(&mut self.rec, Settings::published().as_bytes(), &banner, capacity, capacity) == 0
            }
            2 => {
                let (number, a, b) = (f.n1() as u32, f.n4(), f.n4());
                self.lent = f.bytes();
                self.quit |= number == QUIT;
                (self.reads, self.consumed) = (0, self.totals().consumed);
                let Replay { rec, rx, msg, out, lent, .. } = self;
                self.reply = raw::start(rec, rx, msg, lent, number, a, b, ANYTIME, out);
                true
            }
            3 => self.read(f),
            4 => self.write(f),
            5 => {
                let asked = self.reply == 5;
                let kind = f.n1();
                self.report(kind, f);
                asked
            }
            6 => self.told(f),
            7 => {
                let held = f.n4();
                self.counted(held.into()) && self.rx == f.bytes()
            }
            other => panic!("no such record: {other}"),
        }
    }
}

/// Replays a file; false at the first record that the library does not follow.
pub fn run(path: &str) -> bool {
    let text = std::fs::read_to_string(path).expect("a file of records");
    let mut replay = Replay::default();
    let (mut lists, mut steps) = (0, 0);
    for (i, line) in text.lines().enumerate() {
        let digits: Vec<u8> = (0..line.len()).step_by(2).map(|k| u8::from_str_radix(&line[k..k + 2], 16).expect("hexadecimal")).collect();
        lists += (digits[0] == 1) as usize;
        steps += (digits[0] == 2) as usize;
        if !replay.follow(Fields(&digits)) {
            println!("line {} of {path} is not followed: {line}", i + 1);
            return false;
        }
    }
    println!("{lists} recorded lists, {steps} steps: all as 000 answered, and the totals and reads what came and went");
    true
}
