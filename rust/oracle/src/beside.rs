//! A list of calls made on both sides, compared call by call.
use crate::call::{Call, Entry, What};
use crate::counted::{self, Before};
use crate::held;
use crate::hex::hex;
use crate::intended;
use crate::misuse::{self, Waits};
use crate::original::sync::{parse_stat_v2_body, SyncSession};
use crate::ours;
use crate::peek::Watched;
use crate::plan::List;
use crate::rng::Rng;
use crate::scripted::{shared, Op, Shared};
use crate::steps::{self, Made};
use crate::theirs;

/// What was compared.
#[derive(Default)]
pub struct Tally {
    pub lists: usize,
    pub calls: usize,
    /// calls that both sides refuse alike: 8, 9 and 10
    pub refused: usize,
    /// what differs by intent, by kind
    pub documented: std::collections::BTreeMap<&'static str, usize>,
    /// answers by document 01's number, 0 for a call that went through
    pub answers: [usize; 18],
    pub reads: usize,
    pub pieces: usize,
    /// how often the totals were held to the channel's counts, and the reads of a step
    pub counted: usize,
    pub reads_counted: usize,
}

impl Tally {
    pub fn document(&mut self, kind: &'static str) {
        *self.documented.entry(kind).or_default() += 1;
    }
}

fn unless(holds: bool, what: impl FnOnce() -> String) -> Result<(), String> {
    if holds {
        Ok(())
    } else {
        Err(what())
    }
}

/// Makes the list on both sides. An error says where and how they differ.
pub fn compare(list: &List, tally: &mut Tally) -> Result<(), String> {
    tally.lists += 1;
    if list.rx.len() < 8 {
        return too_small(list, tally);
    }
    let (their_wire, our_wire) = (shared(list), shared(list));
    let watched = Watched::new(list.rx.clone());
    their_wire.borrow_mut().receives_at(watched.address());
    let mut their_host = theirs::Host::new(&list.banner, their_wire.clone());
    let session = Some(their_host.session(watched.lend()));
    let host = ours::Host::open(&list.banner, list.rx.clone(), our_wire.clone()).map_err(|n| format!("opening was answered {n}"))?;
    our_wire.borrow_mut().receives_at(host.rx.as_ptr() as usize);
    let rng = Rng::new(list.seed ^ 0x6d69_7375_7365);
    let mut pair = Pair { list, session, watched: &watched, their_wire, host, our_wire, consumed: 0, held: 0, rng };
    pair.counted(tally)?;
    for (i, call) in list.calls.iter().enumerate() {
        let made = pair.call(call, tally).and_then(|()| pair.counted(tally));
        made.map_err(|text| format!("call {i} ({call}):\n  {text}"))?;
    }
    Ok(())
}

/// Both sessions, what both have consumed so far, and what both hold.
struct Pair<'l, 's> {
    list: &'l List,
    session: Option<SyncSession<'s, 's, theirs::Host<Shared<'l>>>>,
    watched: &'s Watched,
    their_wire: Shared<'l>,
    host: ours::Host<Shared<'l>>,
    our_wire: Shared<'l>,
    consumed: usize,
    held: usize,
    rng: Rng,
}

impl Pair<'_, '_> {
    // the totals of this library, beside the counts of its channel
    fn counted(&self, tally: &mut Tally) -> Result<(), String> {
        tally.counted += 1;
        counted::check(&self.host, &self.our_wire, self.session.is_some().then_some(self.held))
    }

    fn call(&mut self, call: &Call, tally: &mut Tally) -> Result<(), String> {
        tally.calls += 1;
        let ended = self.session.is_none();
        if self.list.misuses && self.rng.chance(30) {
            let waits = if ended { Waits::Ended } else { Waits::Nothing };
            misused(misuse::try_one(&self.host, waits, b"", &mut self.rng)?, tally);
        }
        self.their_wire.borrow_mut().lent(call);
        self.our_wire.borrow_mut().lent(call);
        if ended || intended::refused_here(call).is_some() {
            return self.refused_here(call, tally);
        }
        let before = (self.host.rec.clone(), self.host.msg.clone());
        let theirs = theirs::make(&mut self.session, call);
        let made = self.made_here(call, tally)?;
        same_ops(&self.their_wire, &self.our_wire, tally)?;
        unless(theirs == made.answer, || format!("000 answers {theirs:?}\n  this answers {:?}", made.answer))?;
        same_bytes("the receive buffer", &self.watched.bytes(), &self.host.rx)?;
        if made.answer.refused() {
            tally.refused += 1;
            unless(before.0 == self.host.rec, || "a refused call altered the record".into())?;
        }
        tally.answers[made.answer.number() as usize] += 1;
        self.consumed_alike(call, &made, &before.1, tally)
    }

    // the call by our steps, with misuse before its reports
    fn made_here(&mut self, call: &Call, tally: &mut Tally) -> Result<Made, String> {
        let Pair { list, host, rng, our_wire, .. } = self;
        let mut wrong = None;
        let made = steps::make(host, call, &mut |host, step, lent, a, b| {
            let before = Before::of(host, our_wire);
            let number = host.step_with(step, lent, a, b, |host, reply| {
                if list.misuses && rng.chance(20) {
                    let waits = match reply {
                        1 => Waits::Read { window: host.at(1) as usize },
                        5 => Waits::Close,
                        _ => Waits::Write,
                    };
                    match misuse::try_one(host, waits, lent, rng) {
                        Ok(number) => misused(number, tally),
                        Err(text) => wrong = Some(text),
                    }
                }
            });
            tally.reads_counted += 1;
            wrong = wrong.take().or(before.check(host, our_wire, number).err());
            number
        });
        wrong.map_or(Ok(made), Err)
    }

    // both hold the same count, so both consumed the same; what was handed out of it, and the text kept of a FAIL
    fn consumed_alike(&mut self, call: &Call, made: &Made, msg: &[u8], tally: &mut Tally) -> Result<(), String> {
        let from = self.consumed;
        if let Some(session) = &self.session {
            let theirs = held::by_theirs(session, self.watched, &self.their_wire);
            let ours = held::by_ours(&self.host, &self.our_wire);
            unless(theirs == ours, || format!("000 holds {theirs} bytes, this {ours}"))?;
            (self.consumed, self.held) = (self.our_wire.borrow().at - theirs, theirs);
        }
        let consumed = &self.list.incoming[..self.consumed];
        let (entries, next) = entries_in(call, &consumed[from..]);
        if !made.entries.is_empty() {
            tally.document("entries handed out before an error");
            unless(made.entries == entries, || format!("this hands out {:?}\n  but {entries:?} came", made.entries))?;
        }
        let text = fail_text(consumed, from + next, self.list.rx.len());
        same_bytes("the message buffer", &[text, &msg[text.len()..]].concat(), &self.host.msg)
    }

    // a call that only this library refuses: after quit, or 7 or 9; the memory stays as it was, and 000 does what is said of it
    fn refused_here(&mut self, call: &Call, tally: &mut Tally) -> Result<(), String> {
        let before = self.host.clone();
        let host = &mut self.host;
        let made = steps::make(host, call, &mut |host, step, lent, a, b| host.step(step, lent, a, b));
        let ended = self.session.is_none();
        let number = if ended { 6 } else { intended::refused_here(call).unwrap() };
        let told = made.answer.number();
        unless(told == number, || format!("{number} expected, this answers {:?}", made.answer))?;
        unless((&before.rec, &before.rx, &before.msg) == (&host.rec, &host.rx, &host.msg), || "a refused call altered memory".into())?;
        unless(host.reads().0 == 0, || "a refused call told reads".into())?;
        unless(self.our_wire.borrow_mut().take_ops().is_empty(), || "a refused call asked the channel".into())?;
        tally.answers[told as usize] += 1;
        if ended {
            tally.document("a call after quit: 6");
            return Ok(());
        }
        intended::aside(call, &self.list.banner, self.list.rx.len())?;
        tally.document(if number == 7 { "a path over 1,024: 7" } else { "a flag bit outside 80000007: 9" });
        Ok(())
    }
}

fn misused(number: u32, tally: &mut Tally) {
    match number {
        0 => {}
        counted::OVERFLOW => tally.document("a total or reads without room, where 000 counts neither: 21"),
        _ => tally.document("misuse that 000's types rule out: 3, 4, 5, 6, 11"),
    }
}

fn same_ops(theirs: &Shared, ours: &Shared, tally: &mut Tally) -> Result<(), String> {
    let (theirs, ours) = (theirs.borrow_mut().take_ops(), ours.borrow_mut().take_ops());
    for (k, (a, b)) in theirs.iter().zip(&ours).enumerate() {
        unless(a == b, || format!("of the channel, {k}: 000 asks {a:?}\n  this asks {b:?}"))?;
        match a {
            Op::Read { .. } => tally.reads += 1,
            _ => tally.pieces += 1,
        }
    }
    let k = theirs.len().min(ours.len());
    unless(theirs.len() == ours.len(), || format!("of the channel, {k}: 000 asks {:?}\n  this asks {:?}", theirs.get(k), ours.get(k)))
}

fn same_bytes(which: &str, theirs: &[u8], ours: &[u8]) -> Result<(), String> {
    unless(theirs == ours, || format!("{which}: expected {}\n  is {}", hex(theirs), hex(ours)))
}

// under 8 bytes 000 panics
fn too_small(list: &List, tally: &mut Tally) -> Result<(), String> {
    let opened = ours::Host::open(&list.banner, list.rx.clone(), shared(list)).err();
    unless(opened == Some(1), || format!("opening on {} bytes was answered {opened:?}", list.rx.len()))?;
    let rx = Watched::new(list.rx.clone());
    let mut host = theirs::Host::new(&list.banner, shared(list));
    let opening = std::panic::AssertUnwindSafe(|| {
        host.session(rx.lend());
    });
    let panicked = std::panic::catch_unwind(opening).is_err();
    unless(panicked, || format!("000 opened on {} bytes", list.rx.len()))?;
    tally.document("a receive buffer under 8: 1");
    Ok(())
}

// the whole entries at the front of what a listing consumed, and where they end
fn entries_in(call: &Call, bytes: &[u8]) -> (Vec<Entry>, usize) {
    let (id, size) = match call.what {
        What::List => (b"DENT", 20),
        What::ListV2 => (b"DNT2", 76),
        _ => return (vec![], chunks_in(call, bytes)),
    };
    let (mut entries, mut at) = (vec![], 0);
    while bytes.len() >= at + size && bytes[at..at + 4] == *id {
        let number = |k: usize| u32::from_le_bytes(bytes[at + k..at + k + 4].try_into().unwrap());
        let end = at + size + number(size - 4) as usize;
        if bytes.len() < end {
            break;
        }
        let numbers = if size == 20 {
            [4, 8, 12].map(|k| number(k) as u64).to_vec()
        } else {
            theirs::numbers(&parse_stat_v2_body(bytes[at + 4..at + 72].try_into().unwrap()))
        };
        entries.push(Entry { numbers, name: bytes[at + size..end].to_vec() });
        at = end;
    }
    (entries, at)
}

// the same of a whole pull's chunks
fn chunks_in(call: &Call, bytes: &[u8]) -> usize {
    let mut at = 0;
    while matches!(call.what, What::Recv | What::RecvV2) && bytes.len() >= at + 8 && bytes[at..at + 4] == *b"DATA" {
        at += 8 + u32::from_le_bytes(bytes[at + 4..at + 8].try_into().unwrap()) as usize;
    }
    at
}

// the text of a FAIL at this place of what was consumed, as much as the buffer holds, once that has come
fn fail_text(consumed: &[u8], at: usize, capacity: usize) -> &[u8] {
    let rest = &consumed[at.min(consumed.len())..];
    if rest.len() < 8 || rest[..4] != *b"FAIL" {
        return &[];
    }
    let len = u32::from_le_bytes(rest[4..8].try_into().unwrap()) as usize;
    rest[8..].get(..len.min(capacity)).unwrap_or(&[])
}

