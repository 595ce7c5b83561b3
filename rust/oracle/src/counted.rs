//! The totals and the reads of our session, held to what its channel counts by itself; document 02's [7] and [8], and what is told of them.
use crate::call::{Answer, Call, What, Why};
use crate::ceiling;
use crate::ours::{Host, Step};
use crate::plan::{Cuts, List};
use crate::scripted::{shared, Shared};
use crate::trials::{list, Trials};
use yuglasno::{raw, Totals};

/// Where the totals and the reads lie in a record, by their numbers.
const RECEIVED: usize = 32;
const CONSUMED: usize = 33;
const WRITTEN: usize = 34;
const READS: usize = 36;
/// The answer to a report that a total or the reads have no room for.
pub const OVERFLOW: u32 = 21;

/// Received is what the channel's reads gave, written what its accepted writes took, and what is not held of the one is consumed, where that
/// can be seen.
pub fn check(host: &Host<Shared>, wire: &Shared, held: Option<usize>) -> Result<(), String> {
    let (totals, wire) = (host.totals(), wire.borrow());
    let (gave, took) = (wire.at as u64, wire.took as u64);
    let unread = held.map_or(totals.held(), |held| held as u64);
    if totals == (Totals { received: gave, consumed: gave.saturating_sub(unread), written: took }) {
        return Ok(());
    }
    Err(format!("the channel gave {gave} bytes and took {took}, held are {held:?}\n  this has {totals}"))
}

/// What was counted before a step: the reads of the channel that brought bytes, the bytes consumed, and the reads in the record.
pub struct Before {
    brought: usize,
    consumed: u64,
    reads: u64,
}

impl Before {
    pub fn of(host: &Host<Shared>, wire: &Shared) -> Self {
        Before { brought: wire.borrow().brought, consumed: host.totals().consumed, reads: host.reads().1 }
    }

    /// The step's reads, as its answer tells them and the record has them, are those of the channel that brought bytes, and under the
    /// ceiling. A refusal tells none, and leaves those of the record.
    pub fn check(&self, host: &Host<Shared>, wire: &Shared, number: u32) -> Result<(), String> {
        let (told, reads) = host.reads();
        let brought = (wire.borrow().brought - self.brought) as u64;
        let expected = if (1..12).contains(&number) { (0, self.reads) } else { (brought, brought) };
        let consumed = host.totals().consumed - self.consumed;
        if (told, reads) != expected {
            return Err(format!("answered {number} with {told} reads, {reads} in the record; {expected:?} of the channel"));
        }
        if !ceiling::kept(number, brought, consumed) {
            return Err(format!("answered {number} after {brought} reads, with {consumed} bytes consumed"));
        }
        Ok(())
    }
}

fn fill_numbers(rec: &mut [u8], numbers: &[usize]) {
    for i in numbers {
        if let Some(number) = rec.get_mut(8 * i..8 * i + 8) {
            number.fill(0xFF);
        }
    }
}

/// Leaves a record no room for a byte in either total, as if it had come so far.
pub fn fill(rec: &mut [u8]) {
    fill_numbers(rec, &[RECEIVED, CONSUMED, WRITTEN]);
}

/// Leaves it no room for another read.
pub fn fill_reads(rec: &mut [u8]) {
    fill_numbers(rec, &[READS]);
}

const STAT: &[u8] = b"STAT\x01\0\0\0\x02\0\0\0\x03\0\0\0";
const FAIL: &[u8] = b"FAIL\x14\0\0\0twenty bytes of text";

/// "stat "/a", its reply in reads of 3 and 13: received 16, consumed 16, written 10. Capacity 8, FAIL of 20: consumed 28."
pub fn trials(t: &mut Trials) {
    let in_reads = List { cuts: Cuts::Each(vec![3, 13]), ..list("", 64, STAT, vec![Call::on(What::Stat, "/a")]) };
    t.show("totals of a stat in reads of 3 and 13", &in_reads, |s| {
        s[0].totals == Totals { received: 16, consumed: 16, written: 10 } && s[0].reads == 2
    });
    let fail = [FAIL, b"DONE\0\0\0\0"].concat();
    let next = || Call::new(What::RecvNext);
    t.show("totals of a FAIL of 20 at capacity 8", &list("", 8, &fail, vec![next(), next()]), |s| {
        s[0].answer == Answer::Not(Why::Fail(b"twenty b".to_vec())) && s[0].totals.consumed == 28 && s[1].totals.consumed == 36
    });
    t.holds("totals and a read of 0", nothing_read());
    reads(t);
}

/// Capacity, incoming bytes and the lengths of the reads; then of each call its answer's number, the reads that its last step tells, and the bytes
/// that it consumed.
fn reads(t: &mut Trials) {
    let next = || Call::new(What::RecvNext);
    let stats = |many: usize| vec![Call::on(What::Stat, "/a"); many];
    let listing = [&b"DENT\x01\0\0\0\x02\0\0\0\x03\0\0\0\x03\0\0\0T98DONE"[..], &[0; 16]].concat();
    let cases: [(&str, usize, &[u8], Vec<usize>, Vec<Call>, &[(u32, u64, u64)]); 6] = [
        ("STAT in 3 and 13", 16, STAT, vec![3, 13], stats(1), &[(0, 2, 16)]),
        ("STAT at capacity 15, twice", 15, STAT, vec![1, 6, 1], stats(2), &[(17, 3, 0), (17, 0, 0)]),
        ("DATA of 1 at capacity 8", 8, b"DATA\x01\0\0\0x", vec![1], vec![next()], &[(17, 8, 0)]),
        ("FAIL of 20 at capacity 8", 8, FAIL, vec![8, 8, 8, 4], vec![next()], &[(14, 4, 28)]),
        ("an id that does not belong there", 64, b"QUITxxxx", vec![1], stats(1), &[(15, 8, 0)]),
        // a listing is one call of 000's and three steps here: LIST, the entry and the end
        ("T98 and DONE in one read", 64, &listing, vec![43], vec![Call::on(What::List, "/a")], &[(0, 0, 43)]),
    ];
    for (name, capacity, incoming, lengths, calls, expected) in cases {
        let in_reads = List { cuts: Cuts::Each(lengths), ..list("", capacity, incoming, calls) };
        t.show(&format!("reads of {name}"), &in_reads, |seen| {
            let mut consumed = 0;
            seen.len() == expected.len()
                && seen.iter().zip(expected).all(|(seen, (number, told, more))| {
                    consumed += more;
                    (seen.answer.number(), seen.told, seen.totals.consumed) == (*number, *told, consumed)
                })
        });
    }
    t.holds("reads of the listing's steps", listed(&listing));
}

/// "entry 1 23, end 0 20."
fn listed(incoming: &[u8]) -> bool {
    let list = List { cuts: Cuts::Each(vec![43]), ..list("", 64, incoming, vec![]) };
    let mut host = Host::open(b"", list.rx.clone(), shared(&list)).expect("a list that opens");
    let mut step = |step: Step, lent: &[u8]| (host.step(step, lent, 0, 0), host.reads(), host.totals().consumed);
    let told = [step(Step::List, b"/a"), step(Step::Entry, b""), step(Step::Entry, b"")];
    told == [(0, (0, 0), 0), (0, (1, 1), 23), (0, (0, 0), 43)]
}

/// "A read of 0: 11, totals unchanged." And so they are by one that is beyond the window.
fn nothing_read() -> bool {
    let list = list("", 16, b"DATA\x01\0\0\0x", vec![]);
    let mut host = Host::open(b"", list.rx.clone(), shared(&list)).expect("a list that opens");
    let mut told = vec![];
    let answer = host.step_with(Step::RecvNext, b"", 0, 0, |host, _| {
        for count in [0, 17] {
            let before = host.totals();
            let number = raw::read(&mut host.rec, &mut host.rx, &mut host.msg, b"", count, &mut [0; raw::REPLY]) >> 8;
            told.push((number, host.totals() == before));
        }
    });
    answer == 0 && told == [(11, true), (11, true)] && host.totals() == Totals { received: 9, consumed: 9, written: 0 }
}
