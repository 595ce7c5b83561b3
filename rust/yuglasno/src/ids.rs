//! The ids of sync's messages: the published ones, and what a person is told of a table that the library refused.
use crate::settings::IDS_MOST;
use crate::shown::Shown;

/// A table of ids: four bytes each, in the order STAT, STA2, LIST, LIS2, SEND, SND2, RECV, RCV2, DATA, DONE, OKAY, FAIL, DENT,
/// DNT2, QUIT.
pub type Ids = [[u8; 4]; 15];

/// The published ids, from SYNC.TXT and file_sync_protocol.h.
pub const PUBLISHED_IDS: Ids = [
    *b"STAT", *b"STA2", *b"LIST", *b"LIS2", *b"SEND", *b"SND2", *b"RECV", *b"RCV2", *b"DATA", *b"DONE", *b"OKAY",
    *b"FAIL", *b"DENT", *b"DNT2", *b"QUIT",
];

const LINE_END: u8 = 10;
/// The most bytes of a value that are shown.
const SHOWN: usize = 16;

/// What is seen to be wrong in a file that was refused; empty where nothing is. It decides nothing: the library has.
pub(crate) fn seen_in_file(file: &[u8]) -> String {
    if file.len() > IDS_MOST {
        return format!("it has over {IDS_MOST} bytes");
    }
    let mut heading = PUBLISHED_IDS.join(&b',');
    heading.push(LINE_END);
    if let Some((at, byte)) = file.iter().enumerate().find(|(at, byte)| heading.get(*at).is_some_and(|b| b != *byte)) {
        return format!("line 1 is not the published ids: its byte {} is {byte}, not {}", at + 1, heading[at]);
    }
    let Some(behind) = file.strip_prefix(&heading[..]) else {
        return format!("it has {} bytes, and line 1 alone has {}", file.len(), heading.len());
    };
    match behind.iter().position(|byte| *byte == LINE_END) {
        None if behind.is_empty() => "there is no line 2".into(),
        None => "line 2 does not end with byte 10".into(),
        Some(end) if end + 1 < behind.len() => format!("line 2 is not the last: byte {} follows it", behind[end + 1]),
        Some(end) => seen_in_values(behind[..end].split(|byte| *byte == b',').collect()),
    }
}

/// The same of the ids in settings.
pub(crate) fn seen_in_ids(ids: &Ids) -> String {
    seen_in_values(ids.iter().map(|id| &id[..]).collect())
}

fn seen_in_values(values: Vec<&[u8]>) -> String {
    let wanted = PUBLISHED_IDS.len();
    if values.len() != wanted {
        return format!("line 2 has {} values, not {wanted}", values.len());
    }
    let misshapen = values.iter().enumerate().find_map(|(at, value)| {
        let odd = value.iter().find(|byte| !(33..=126).contains(*byte) || **byte == b',');
        match odd {
            _ if value.len() != 4 => Some(format!("{} has {} bytes, not 4", named(at, value), value.len())),
            Some(byte) => Some(format!("{} has byte {byte}", named(at, value))),
            None => None,
        }
    });
    let before = |at: usize| values[..at].iter().position(|value| *value == values[at]);
    let equal = || (0..wanted).find_map(|at| Some(format!("{} equals {}", named(at, values[at]), place(before(at)?))));
    misshapen.or_else(equal).unwrap_or_default()
}

/// A value by its number and the id that it is put for.
fn place(at: usize) -> String {
    format!("value {} (for {})", at + 1, Shown(&PUBLISHED_IDS[at]))
}

fn named(at: usize, value: &[u8]) -> String {
    format!("{} \"{}\"", place(at), Shown(&value[..value.len().min(SHOWN)]))
}
