//! A sample of the comparison as text, for a program that replays it.
//!
//! One record a line, two capital hexadecimal digits a byte. Numbers are little-endian and 1, 4 or 8 bytes wide (n1, n4, n8).
//! * bytes: n1, how many parts; each part n4, its length, and its bytes. Where the length's top bit is set, one byte follows, to be
//!   repeated as often as the other bits say.
//! * report: n1, 0 accepted, 1 closed, 2 an error, then n4, its code.
//!
//! A record's first byte says what it is:
//! * 01, a list starts, on a session just opened: n4 capacity, the banner as bytes, n1 the byte that fills both buffers. The message buffer
//!   is as long as the receive buffer.
//! * 02, a step: n1 its number at the boundary (`request_numbered` and `step_numbered`), n4 and n4 its two numbers, what it is lent as bytes.
//! * 03, the step asks for a read: n4 where the window starts, n4 how long it is, report; if accepted, the bytes that come.
//! * 04, it asks for a write: n1 what part (2 of the receive buffer, 3 of what is lent, 4 by value), n4 where the part starts (0 by value),
//!   the piece as bytes, report.
//! * 05, it asks for the close: report.
//! * 06, the step ends: n1 document 01's number, n1 the kind, as at the boundary, n1 how many numbers follow, each n8, then the name,
//!   chunk or text as bytes.
//! * 07, the list ends: n4 how many bytes are held (0 after quit), the receive buffer as bytes.
//!
//! The host alters no other byte of the window than those that come.
//!
//! What is recorded is what 000 answers, asks and leaves: every list was compared first. A listing, one call of 000, is its start and its
//! steps; lists where 000 keeps entries back, and calls that 000 has not or refuses otherwise, are left out (see DIFFERENCES.md).
use crate::beside::{compare, Tally};
use crate::call::{Call, What};
use crate::gen::{self, Kind};
use crate::held;
use crate::ours::{self, Host};
use crate::plan::List;
use crate::rng::mixed;
use crate::scripted::{shared, Op, Place, Shared};
use crate::steps;
use crate::trials::list;
use crate::wire::Fault;

const FILL: u8 = 0xEE;

struct Line(Vec<u8>);

impl Line {
    fn n4(mut self, number: usize) -> Self {
        self.0.extend((number as u32).to_le_bytes());
        self
    }

    fn bytes(mut self, bytes: &[u8]) -> Self {
        let mut parts: Vec<Vec<u8>> = vec![];
        let mut at = 0;
        while at < bytes.len() {
            let run = |from: usize| bytes[from..].iter().take_while(|b| **b == bytes[from]).count();
            let repeated = run(at);
            let end = if repeated >= 8 { at + repeated } else { (at + 1..bytes.len()).find(|k| run(*k) >= 8).unwrap_or(bytes.len()) };
            parts.push(match repeated {
                8.. => [&(repeated as u32 | 1 << 31).to_le_bytes()[..], &bytes[at..at + 1]].concat(),
                _ => [&((end - at) as u32).to_le_bytes()[..], &bytes[at..end]].concat(),
            });
            at = end;
        }
        self.0.push(parts.len().try_into().expect("few parts"));
        self.0.extend(parts.concat());
        self
    }

    fn report<T>(mut self, report: &Result<T, Fault>) -> Self {
        match report {
            Ok(_) => self.0.push(0),
            Err(Fault::Closed) => self.0.push(1),
            Err(Fault::Error(code)) => {
                self.0.push(2);
                self.0.extend(code.to_le_bytes());
            }
        }
        self
    }

    fn print(self, text: &mut String) {
        self.0.iter().for_each(|b| *text += &format!("{b:02X}"));
        *text += "\n";
    }
}

fn asked(op: &Op) -> Line {
    match op {
        Op::Read { place: Place::Rx(start), len, got } => {
            let line = Line(vec![3]).n4(*start).n4(*len).report(got);
            got.iter().fold(line, |line, bytes| line.bytes(bytes))
        }
        Op::Read { place, .. } => panic!("a window at {place:?}"),
        Op::Write { place, piece, report } => {
            let (what, start) = match place {
                Place::Rx(start) => (2, *start),
                Place::Path(start) | Place::Data(start) => (3, *start),
                Place::Value => (4, 0),
            };
            Line(vec![4, what]).n4(start).bytes(piece).report(report)
        }
        Op::Close { report } => Line(vec![5]).report(report),
    }
}

// what the last reply of a step carries
fn told(host: &Host<Shared>, number: u32) -> Line {
    let kind = host.at(0);
    let count = match (kind, number) {
        (2 | 4, _) => 3,
        (3 | 5, _) => 11,
        (7, 10 | 13 | 15 | 16) => 1,
        _ => 0,
    };
    let mut line = Line(vec![6, number as u8, kind as u8, count as u8]);
    (3..3 + count).for_each(|i| line.0.extend(host.at(i).to_le_bytes()));
    let part = host.part(1);
    line.bytes(if number == 14 { &host.msg[part] } else { &host.rx[part] })
}

// the records of a list that both sides make alike, or none
fn recorded(list: &List) -> Option<String> {
    let mut tally = Tally::default();
    compare(list, &mut tally).expect("a list that both sides make alike");
    if !tally.documented.is_empty() {
        return None;
    }
    let wire = shared(list);
    let mut host = ours::Host::open(&list.banner, list.rx.clone(), wire.clone()).ok()?;
    host.msg.fill(FILL);
    wire.borrow_mut().receives_at(host.rx.as_ptr() as usize);
    let mut text = String::new();
    let mut start = Line(vec![1]).n4(list.rx.len()).bytes(&list.banner);
    start.0.push(FILL);
    start.print(&mut text);
    for call in &list.calls {
        wire.borrow_mut().lent(call);
        steps::make(&mut host, call, &mut |host, step, lent, a, b| {
            Line(vec![2, step as u8]).n4(a as usize).n4(b as usize).bytes(lent).print(&mut text);
            let number = host.step(step, lent, a, b);
            wire.borrow_mut().take_ops().iter().for_each(|op| asked(op).print(&mut text));
            told(host, number).print(&mut text);
            number
        });
    }
    let quit = list.calls.iter().any(|call| call.what == What::Quit);
    let held = if quit { 0 } else { held::by_ours(&host, &wire) };
    Line(vec![7]).n4(held).bytes(&host.rx).print(&mut text);
    Some(text)
}

// document 01's pieces that are not starred: data of 65,536 and 65,537, flags 3
fn trials() -> Vec<List> {
    let mut lists = vec![];
    for capacity in [8, 65_544] {
        for len in [65_536, 65_537] {
            lists.push(list("", capacity, b"", vec![Call { data: vec![0x5A; len], ..Call::new(What::SendData) }]));
        }
    }
    for banner in ["", "features=", "features=sendrecv_v2", "features=sendrecv_v2,sendrecv_v2_brotli,sendrecv_v2_lz4"] {
        let calls = [What::RecvV2Start, What::SendV2Start].map(|what| Call { flags: 3, ..Call::on(what, "/a") });
        lists.push(list(banner, 16, b"", calls.to_vec()));
    }
    lists
}

/// Prints the trial pieces and `count` short lists.
pub fn print(count: u64, seed: u64) -> bool {
    let short = (0..).map(|i| gen::list(mixed(seed, i), Kind::Short));
    let filled = trials().into_iter().chain(short).map(|mut list| {
        list.rx.fill(FILL);
        list.scribbles = false;
        list
    });
    filled.filter_map(|list| recorded(&list)).take(trials().len() + count as usize).for_each(|text| print!("{text}"));
    true
}
