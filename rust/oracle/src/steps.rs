//! 000's calls made of our steps, and what was told.
use crate::call::{Answer, Call, Entry, What, Why};
use crate::ours::{Host, Step};
use crate::wire::Wire;

/// An answer, and the entries handed out before it: where a listing fails 000 keeps them to itself.
pub struct Made {
    pub answer: Answer,
    pub entries: Vec<Entry>,
}

/// Takes a step with what it is lent and its two numbers, and gives document 01's number.
pub type Stepper<'s, W> = &'s mut dyn FnMut(&mut Host<W>, Step, &[u8], u32, u32) -> u32;

pub fn make<W: Wire>(host: &mut Host<W>, call: &Call, step: Stepper<W>) -> Made {
    let mut entries = vec![];
    host.moment = call.moment;
    let answer = made(host, call, &mut entries, step).unwrap_or_else(Answer::Not);
    Made { answer, entries }
}

// one step: what was told, or why not
fn taken<W: Wire>(host: &mut Host<W>, step: Stepper<W>, which: Step, lent: &[u8], a: u32, b: u32) -> Result<Answer, Why> {
    match step(host, which, lent, a, b) {
        0 => Ok(told(host)),
        number => Err(why(host, number)),
    }
}

fn made<W: Wire>(host: &mut Host<W>, call: &Call, entries: &mut Vec<Entry>, step: Stepper<W>) -> Result<Answer, Why> {
    let path = call.path.as_bytes();
    let (mode, flags, mtime) = (call.mode, call.flags, call.mtime);
    match call.what {
        What::Stat => taken(host, step, Step::Stat, path, 0, 0),
        What::StatV2 => taken(host, step, Step::StatV2, path, 0, 0),
        What::List => {
            taken(host, step, Step::List, path, 0, 0)?;
            listed(host, step, Step::Entry, entries)
        }
        What::ListV2 => {
            taken(host, step, Step::ListV2, path, 0, 0)?;
            listed(host, step, Step::EntryV2, entries)
        }
        What::RecvStart => taken(host, step, Step::Recv, path, 0, 0),
        What::RecvV2Start => taken(host, step, Step::RecvV2, path, 0, flags),
        What::RecvNext => taken(host, step, Step::RecvNext, b"", 0, 0),
        What::SendStart => taken(host, step, Step::Send, path, mode, 0),
        What::SendV2Start => taken(host, step, Step::SendV2, path, mode, flags),
        What::SendData => taken(host, step, Step::Data, &call.data, 0, 0),
        What::SendDone => taken(host, step, Step::SendDone, b"", mtime, 0),
        What::Quit => taken(host, step, Step::Quit, b"", 0, 0),
        What::Recv => {
            taken(host, step, Step::Recv, path, 0, 0)?;
            pulled(host, step)
        }
        What::RecvV2 => {
            taken(host, step, Step::RecvV2, path, 0, flags)?;
            pulled(host, step)
        }
        What::Send | What::SendV2 => {
            let start = if call.what == What::Send { Step::Send } else { Step::SendV2 };
            taken(host, step, start, path, mode, if call.what == What::Send { 0 } else { flags })?;
            taken(host, step, Step::Data, &call.data, 0, 0)?;
            taken(host, step, Step::SendDone, b"", mtime, 0)
        }
    }
}

fn listed<W: Wire>(host: &mut Host<W>, step: Stepper<W>, which: Step, entries: &mut Vec<Entry>) -> Result<Answer, Why> {
    loop {
        if taken(host, step, which, b"", 0, 0)? == Answer::End {
            return Ok(Answer::Listed(std::mem::take(entries)));
        }
        entries.push(Entry { numbers: numbers(host), name: host.told().to_vec() });
    }
}

fn pulled<W: Wire>(host: &mut Host<W>, step: Stepper<W>) -> Result<Answer, Why> {
    let mut data = vec![];
    while taken(host, step, Step::RecvNext, b"", 0, 0)? != Answer::End {
        data.extend(host.told());
    }
    Ok(Answer::Pulled(data))
}

// the numbers of a stat or an entry, by its kind
fn numbers<W: Wire>(host: &Host<W>) -> Vec<u64> {
    let count = if matches!(host.at(0), 2 | 4) { 3 } else { 11 };
    (3..3 + count).map(|i| host.at(i)).collect()
}

fn told<W: Wire>(host: &Host<W>) -> Answer {
    match host.at(0) {
        0 => Answer::Done,
        1 => Answer::End,
        2 | 3 => Answer::Stat(numbers(host)),
        4 | 5 => Answer::Listed(vec![Entry { numbers: numbers(host), name: host.told().to_vec() }]),
        6 => Answer::Chunk(host.told().to_vec()),
        kind => panic!("no such answer: {kind}"),
    }
}

fn why<W: Wire>(host: &Host<W>, number: u32) -> Why {
    assert_eq!(host.at(0), 7, "the kind of an answer {number}");
    let value = host.at(3) as u32;
    match number {
        10 => Why::Missing(value),
        12 => Why::Closed,
        13 => Why::Error(value),
        14 => Why::Fail(host.msg[host.part(1)].to_vec()),
        15 => Why::Unexpected(value.to_le_bytes()),
        16 => Why::Errno(value),
        17 => Why::TooLarge,
        other => Why::Refused(other),
    }
}
