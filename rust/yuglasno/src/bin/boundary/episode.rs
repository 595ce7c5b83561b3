//! A session from its opening on: steps that a host would take, and wild ones.
use crate::crossing::{fault, refused, Function, Slices};
use crate::gate::{self, OUTSIDE};
use crate::hours;
use crate::index::{self, Beside};
use crate::lent::Lent;
use crate::model::word;
use crate::opening::opened;
use crate::panel_side;
use crate::random::Random;
use crate::reads::Reads;
use crate::stream::reply;
use crate::totals::{self, Expected, OVERFLOW};
use crate::{Counts, ANSWERS};
use yuglasno::raw::{HOURS_IN_RECORD, HOURS_SIZE, RECORD};
use yuglasno::Ids;

pub struct Episode<'c> {
    random: Random,
    counts: &'c mut Counts,
    slices: Slices,
    /// The ids that it was opened with.
    ids: Ids,
    /// What is asked, by its number; 0 where no call is pending.
    asked: u32,
    /// Whether the record is none that the library wrote.
    altered: bool,
    /// Whether little more is to be had of the session: it has ended, or a reply is in the way.
    over: bool,
    reads: Reads,
    call: u32,
    incoming: Vec<u8>,
    /// An index that is handed the replies of the session, in some of the episodes.
    beside: Option<Beside>,
}

impl<'c> Episode<'c> {
    /// Up to 80 steps after an opening.
    pub fn run(mut random: Random, counts: &'c mut Counts) -> Result<(), String> {
        if random.one_in(2) {
            panel_side::run(&mut random, counts)?;
        }
        let Some((mut slices, ids)) = opened(&mut random, counts)? else { return Ok(()) };
        if random.one_in(6) {
            totals::far(slices.rec.lend(), &mut random);
        }
        let beside = if random.one_in(4) { Some(Beside::opened(&mut random, counts)?) } else { None };
        let (asked, altered, over, reads, call, incoming) = (0, false, false, Reads::default(), 0, Vec::new());
        let mut episode = Self { random, counts, slices, ids, asked, altered, over, reads, call, incoming, beside };
        for _ in 0..episode.random.below(80) {
            if episode.over && episode.random.one_in(2) {
                break;
            }
            if episode.random.one_in(4) {
                episode.wild()?;
            } else {
                episode.live()?;
            }
            episode.indexed()?;
        }
        Ok(())
    }

    /// A step of the session that a host may take.
    fn live(&mut self) -> Result<(), String> {
        let function = match self.asked {
            0 => self.started(),
            1 => self.read(),
            _ if self.random.one_in(8) => self.broken(),
            _ => Function::Wrote,
        };
        let mut number = self.followed(function)?;
        if number == OVERFLOW << 8 {
            // it still waits, and takes a fault
            let fault = self.broken();
            number = self.followed(fault)?;
        }
        if !refused(number) {
            self.asked = number & 255;
        } else if self.asked != 0 {
            return Err(format!("{function:?} is awaited and was answered {}", number >> 8));
        }
        self.over |= [6 << 8, 15 << 8, 17 << 8].contains(&number);
        self.kept(number)?;
        match &mut self.beside {
            Some(beside) => beside.add(self.counts, number, &self.slices.out, &self.slices.rx),
            None => Ok(()),
        }
    }

    /// A crossing of the session as the library left it, whose reads are counted beside it.
    fn followed(&mut self, function: Function) -> Result<u32, String> {
        let consumed = word(self.slices.rec.bytes(), totals::CONSUMED);
        let number = self.crossed(function)?;
        self.reads.follow(function, consumed, number, &self.slices)?;
        Ok(number)
    }

    /// Queries of the index, and replies of any kind for it; now and then on one whose bytes were altered, which then is what it was.
    fn indexed(&mut self) -> Result<(), String> {
        let Some(beside) = &mut self.beside else { return Ok(()) };
        let whole = self.random.one_in(4).then(|| beside.clone());
        for _ in 0..if whole.is_some() { 1 + self.random.below(2) } else { 0 } {
            beside.bent(&mut self.random);
        }
        for _ in 0..self.random.below(4) {
            let long = self.random.one_in(12).then(|| index::long(&mut self.random));
            let rx = long.as_ref().unwrap_or(&self.slices.rx);
            let (told, reply) = index::reply(&mut self.random, rx.bytes().len());
            beside.add(self.counts, told, &reply, rx)?;
            beside.queried(&mut self.random, self.counts)?;
        }
        self.beside = whole.or(self.beside.take());
        Ok(())
    }

    /// A session that was not turned away is not turned away at its next call either.
    fn kept(&mut self, number: u32) -> Result<(), String> {
        let mut copy = self.slices.clone();
        match copy.cross(Function::Start { call: 0, a: 0, b: 0, moment: 0 }) >> 8 {
            4..=6 => Ok(()),
            then => Err(format!("after {number:#x} the session's record is answered {then}")),
        }
    }

    fn started(&mut self) -> Function {
        self.call = self.random.of(&[1, 2, 3, 4, 5, 6, 7, 8, 9, 10, 12, 12, 12, 13, 13, 13, 14, 14, 14]);
        if self.random.one_in(60) {
            self.call = 11;
        }
        let length = match self.random.below(12) {
            0 => self.random.of(&[1_023, 1_024, 1_025, 65_535, 65_536, 65_537, 70_000, 140_000]),
            1 => 0,
            _ => self.random.below(30),
        };
        let mut path: Vec<u8> = self.random.bytes(length).into_iter().map(|byte| byte | 1).collect();
        if length > 0 && self.random.one_in(20) {
            path[length - 1] = 0;
        }
        self.slices.lent = Lent::new(&mut self.random, &path);
        let b = self.random.of(&[0, 0, 0, 1, 2, 4, 3, 8, 0x8000_0000, 0x8000_0004, u32::MAX]);
        let moment = self.moment();
        Function::Start { call: self.call, a: self.random.number(0) as u32, b, moment }
    }

    /// A moment, often one at which the record's hours begin or end.
    fn moment(&mut self) -> u32 {
        let hours = self.slices.rec.bytes().get(HOURS_IN_RECORD..RECORD).unwrap_or(&[0; HOURS_SIZE]).to_vec();
        hours::moment(&mut self.random, &hours)
    }

    /// Bytes of the panel into the window, any bytes behind them; or the end of the channel.
    fn read(&mut self) -> Function {
        if self.random.one_in(16) {
            return self.broken();
        }
        if self.incoming.is_empty() {
            self.incoming = reply(&mut self.random, &self.ids, self.call);
        }
        let (at, window) = (self.slices.word(0) as usize, self.slices.word(1) as usize);
        let most = window.min(self.incoming.len());
        let count = if self.random.one_in(2) { most } else { 1 + self.random.below(most) };
        let bytes: Vec<u8> = self.incoming.drain(..count).collect();
        let window = &mut self.slices.rx.lend()[at..];
        window.fill(0xEE);
        window[..count].copy_from_slice(&bytes);
        Function::Read(count)
    }

    fn broken(&mut self) -> Function {
        Function::Fault { kind: self.random.below(2) as u32, code: self.random.next() as u32 }
    }

    /// A few crossings with anything, on slices that may be others; then the session is what it was.
    fn wild(&mut self) -> Result<(), String> {
        let (whole, asked) = (self.slices.clone(), self.asked);
        for _ in 0..self.random.below(3) {
            self.bent();
        }
        self.altered = whole.rec.bytes() != self.slices.rec.bytes();
        for _ in 0..1 + self.random.below(4) {
            let function = self.any_function();
            let number = self.crossed(function)?;
            if !refused(number) {
                self.asked = number & 255;
            }
        }
        (self.slices, self.asked, self.altered) = (whole, asked, false);
        Ok(())
    }

    /// What is asked for, in half the cases where something is; else any function with any numbers.
    fn any_function(&mut self) -> Function {
        let near = self.slices.rx.bytes().len() as u64;
        match (self.asked, self.random.below(8)) {
            (1, 0..4) => Function::Read(1 + self.random.below(20)),
            (2..=5, 0..4) | (_, 4) => Function::Wrote,
            (_, 5) => Function::Read(self.random.number(near) as usize),
            (_, 6) => Function::Fault { kind: self.random.number(0) as u32, code: self.random.number(0) as u32 },
            _ => Function::Start {
                call: if self.random.one_in(4) { self.random.number(14) as u32 } else { self.random.below(16) as u32 },
                a: self.random.number(0) as u32,
                b: self.random.number(0x8000_0007) as u32,
                moment: self.moment(),
            },
        }
    }

    /// One of the slices becomes another.
    fn bent(&mut self) {
        let random = &mut self.random;
        let s = &mut self.slices;
        match random.below(14) {
            0 => s.rec = Lent::filled(random, RECORD),
            1 => {
                let length = random.number(RECORD as u64).min(400) as usize;
                let mut bytes = s.rec.bytes().to_vec();
                bytes.resize(length, 0);
                s.rec = Lent::new(random, &bytes);
            }
            2 => s.rx = resized(random, &s.rx),
            3 => s.msg = resized(random, &s.msg),
            4 => s.lent = resized(random, &s.lent),
            5 => s.out = resized(random, &s.out),
            6 => {
                let at = random.below(s.rec.bytes().len());
                if let Some(byte) = s.rec.lend().get_mut(at) {
                    *byte ^= 1 << random.below(8);
                }
            }
            7..10 => totals::bent(s.rec.lend(), random),
            10 => hours::bent(s.rec.lend(), random),
            _ => {
                let field = if random.one_in(4) {
                    random.below(RECORD / 8)
                } else {
                    random.of(&[2, 3, 4, 7, 8, 9, 10, 11, 12, 13])
                };
                let near = s.rx.bytes().len() as u64;
                let number = if random.one_in(2) { random.below(40) as u64 } else { random.number(near) };
                if let Some(bytes) = s.rec.lend().get_mut(8 * field..8 * field + 8) {
                    bytes.copy_from_slice(&number.to_le_bytes());
                }
            }
        }
    }

    /// A crossing, checked; now and then made twice from the same slices, to the same end.
    fn crossed(&mut self, function: Function) -> Result<u32, String> {
        let before = self.slices.clone();
        let number = self.slices.cross(function);
        self.counts.calls += 1;
        match number & 255 {
            0 => self.counts.answered[(number as usize >> 8).min(ANSWERS - 1)] += 1,
            what => self.counts.asked[what.min(5) as usize] += 1,
        }
        self.counts.altered += u64::from(self.altered);
        if let Some(fault) = fault(&before, &self.slices, number) {
            return Err(format!("{function:?} returned {number:#x}: {fault}"));
        }
        self.counted(&before, function, number)?;
        self.gated(&before, function, number)?;
        if self.random.one_in(8) {
            let mut again = before;
            if again.cross(function) != number || !again.same(&self.slices) {
                return Err(format!("{function:?} returned {number:#x}, and another time something else"));
            }
        }
        Ok(number)
    }

    /// A push outside the hours is turned away, where nothing else turns it away, and all else is as without hours.
    fn gated(&mut self, before: &Slices, function: Function, number: u32) -> Result<(), String> {
        let Some((wanted, slices)) = gate::expected(before, function) else { return Ok(()) };
        self.counts.outside += u64::from(number == OUTSIDE << 8);
        match number == wanted && self.slices.same(&slices) {
            true => Ok(()),
            false => Err(format!("{function:?} returned {number:#x}, and by the hours {wanted:#x}, or other bytes")),
        }
    }

    /// The totals and the reads after a crossing, and all else, are what they must be.
    fn counted(&mut self, before: &Slices, function: Function, number: u32) -> Result<(), String> {
        let Some(expected) = Expected::of(before, function) else { return Ok(()) };
        if number != expected.number || !self.slices.same(&expected.slices) {
            let is = &self.slices.rec.bytes()[8 * totals::RECEIVED..];
            let wanted = &expected.slices.rec.bytes()[8 * totals::RECEIVED..];
            let told = expected.number;
            return Err(format!("{function:?} returned {number:#x}, not {told:#x}: {is:?}, expected {wanted:?}"));
        }
        if refused(number) && expected.no_room {
            self.counts.no_room[number as usize >> 8] += 1;
            self.counts.no_room_for_reads += u64::from(number == OVERFLOW << 8 && totals::only_reads(before, function));
        }
        Ok(())
    }
}

/// A slice of another length, at the same start.
fn resized(random: &mut Random, slice: &Lent) -> Lent {
    let length = random.number(slice.bytes().len() as u64).min(70_000) as usize;
    let mut bytes = slice.bytes().to_vec();
    bytes.resize(length, 0xEE);
    Lent::new(random, &bytes)
}
