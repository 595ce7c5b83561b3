//! What the writer of replies and the reader of requests must come to, for any bytes: by tables of the layouts, and with none of the library's
//! code.
use crate::model::put;
use crate::tables::of_settings;
use yuglasno::raw::{REPLY, SETTINGS};
use yuglasno::{DATA_MOST, PATH_MOST, PUBLISHED_IDS};

/// The most numbers of a reply.
pub const NUMBERS: usize = 11;
/// The bytes of each field, in the order of the numbers.
const V1: &[usize] = &[4, 4, 4];
const V2: &[usize] = &[4, 8, 8, 4, 4, 4, 4, 8, 8, 8, 8];

/// What stands behind the numbers of a reply.
#[derive(Clone, Copy, PartialEq)]
enum Behind {
    Nothing,
    Zeros(usize),
    /// A length, and as many bytes.
    Lent,
}

/// The replies by their kinds: id, fields, what stands behind them.
const REPLIES: [(&[u8; 4], &[usize], Behind); 10] = [
    (b"OKAY", &[], Behind::Zeros(4)),
    (b"DONE", &[], Behind::Zeros(4)),
    (b"STAT", V1, Behind::Nothing),
    (b"STA2", V2, Behind::Nothing),
    (b"DENT", V1, Behind::Lent),
    (b"DNT2", V2, Behind::Lent),
    (b"DATA", &[], Behind::Lent),
    (b"FAIL", &[], Behind::Lent),
    (b"DONE", &[], Behind::Zeros(16)),
    (b"DONE", &[], Behind::Zeros(72)),
];

fn place(name: &[u8]) -> usize {
    PUBLISHED_IDS.iter().position(|id| id == name).expect("a published id")
}

/// How many bytes a reply of a kind has; of what is none, a few.
pub fn length(kind: u32, lent: usize) -> usize {
    let Some((_, fields, behind)) = REPLIES.get(kind as usize) else { return 20 };
    let behind = match behind {
        Behind::Nothing => 0,
        Behind::Zeros(many) => *many,
        Behind::Lent => 4 + lent,
    };
    4 + fields.iter().sum::<usize>() + behind
}

/// What settings are answered with.
fn refused(settings: &[u8]) -> u32 {
    if settings.len() == SETTINGS {
        of_settings(settings)
    } else {
        3
    }
}

/// Buffer and slice as a reply must leave them, and what it answers.
pub fn spoken(settings: &[u8], kind: u32, numbers: &[u8], lent: &[u8], out: &mut [u8], told: &mut [u8]) -> u32 {
    if told.len() < REPLY {
        return 3;
    }
    if refused(settings) > 0 {
        return refused(settings);
    }
    let Some((name, fields, behind)) = REPLIES.get(kind as usize) else { return 3 };
    let mut reply = settings[4 * place(*name)..][..4].to_vec();
    for (i, width) in fields.iter().enumerate() {
        match numbers.get(8 * i..8 * i + 8) {
            Some(number) if number[*width..].iter().all(|byte| *byte == 0) => reply.extend(&number[..*width]),
            _ => return 3,
        }
    }
    match behind {
        Behind::Nothing => {}
        Behind::Zeros(many) => reply.extend(vec![0; *many]),
        Behind::Lent if *name == b"DATA" && lent.len() > DATA_MOST => return 20,
        Behind::Lent => reply.extend([&(lent.len() as u32).to_le_bytes(), lent].concat()),
    }
    if reply.len() > out.len() {
        return 20;
    }
    out[..reply.len()].copy_from_slice(&reply);
    put(told, 0, reply.len() as u64);
    0
}

/// A request's call, the length of its path or data, mode or time, flags, and its own length.
type Heard = (u64, usize, u32, u32, usize);

/// What is told of the bytes, and what they are answered with.
pub fn heard(settings: &[u8], bytes: &[u8], out: &mut [u8]) -> u32 {
    if out.len() < REPLY {
        return 3;
    }
    if refused(settings) > 0 {
        return refused(settings);
    }
    let words = match first(settings, bytes) {
        Err(()) => return 18,
        Ok(None) => [0; 6],
        Ok(Some((call, lent, number, flags, size))) => [call, 8, lent as u64, number.into(), flags.into(), size as u64],
    };
    words.into_iter().enumerate().for_each(|(i, word)| put(out, i, word));
    0
}

fn word(bytes: &[u8]) -> u32 {
    u32::from_le_bytes(bytes[..4].try_into().expect("four bytes"))
}

/// The requests with a path and nothing but numbers behind it, and with those the bytes behind the path.
const WITH_PATH: [(&[u8; 4], u64, usize); 7] = [
    (b"STAT", 1, 0),
    (b"STA2", 2, 0),
    (b"LIST", 3, 0),
    (b"LIS2", 4, 0),
    (b"RECV", 5, 0),
    (b"RCV2", 6, 8),
    (b"SND2", 8, 12),
];

/// The first request; none where it is not whole; an error where it is none.
fn first(settings: &[u8], bytes: &[u8]) -> Result<Option<Heard>, ()> {
    let Some((header, rest)) = bytes.split_at_checked(8) else { return Ok(None) };
    let named = settings[..60].chunks(4).position(|id| id == &header[..4]).ok_or(())?;
    let (name, arg) = (&PUBLISHED_IDS[named], word(&header[4..]) as usize);
    match name {
        b"DONE" => return Ok(Some((10, 0, arg as u32, 0, 8))),
        b"QUIT" => return if arg == 0 { Ok(Some((11, 0, 0, 0, 8))) } else { Err(()) },
        b"DATA" if arg > DATA_MOST => return Err(()),
        b"DATA" => return Ok((rest.len() >= arg).then_some((9, arg, 0, 0, 8 + arg))),
        b"SEND" if arg > PATH_MOST + 13 => return Err(()),
        b"SEND" => return rest.get(..arg).map(text).transpose(),
        _ => {}
    }
    let (_, call, behind) = WITH_PATH.into_iter().find(|(each, ..)| *each == name).ok_or(())?;
    if arg > PATH_MOST {
        return Err(());
    }
    let Some((path, more)) = rest.get(..arg + behind).map(|body| body.split_at(arg)) else { return Ok(None) };
    let (mode, flags) = match behind {
        0 => (0, 0),
        8 => (0, word(&more[4..])),
        _ => (word(&more[4..]), word(&more[8..])),
    };
    let well = !path.contains(&0) && (behind == 0 || more[..4] == header[..4]) && taken(flags, call == 6);
    well.then_some(Some((call, arg, mode, flags, 8 + arg + behind))).ok_or(())
}

/// Whether a transfer takes these flags.
fn taken(flags: u32, pull: bool) -> bool {
    let dry_run = flags & 0x8000_0000 != 0;
    [0, 1, 2, 4].contains(&(flags & 0x7FFF_FFFF)) && !(pull && dry_run)
}

/// A SEND's text: the path up to the last comma, and the mode.
fn text(body: &[u8]) -> Result<Heard, ()> {
    let comma = body.iter().rposition(|byte| *byte == b',').ok_or(())?;
    let (path, digits) = (&body[..comma], &body[comma + 1..]);
    let mode = match digits {
        [b'0', octal @ ..] if !octal.is_empty() => value(octal, 8).filter(|_| octal.len() <= 11),
        _ => value(digits, 10),
    };
    let well = comma <= PATH_MOST && !path.contains(&0);
    let mode = mode.filter(|_| well).and_then(|mode| u32::try_from(mode).ok()).ok_or(())?;
    Ok((7, comma, mode, 0, 8 + body.len()))
}

/// The value of some digits; none where there are none, or others.
fn value(digits: &[u8], base: u64) -> Option<u64> {
    let digit = |byte: &u8| char::from(*byte).to_digit(base as u32).map(u64::from);
    let add = |value: u64, byte: &u8| value.checked_mul(base)?.checked_add(digit(byte)?);
    digits.iter().try_fold(0, add).filter(|_| !digits.is_empty())
}
