//! What the hours of a record must come to: a push outside them is turned away where nothing else turns it away, and all else is as without hours.
//! The crossing is made once more with a record that has none.
use crate::crossing::{refused, Function, Slices, COUNT};
use crate::hours_model::closed;
use crate::model::put;
use yuglasno::raw::{HOURS_IN_RECORD, RECORD, REPLY};

/// The calls that start a push.
const PUSHES: [u32; 2] = [7, 8];
/// The answer to a push outside the hours.
pub const OUTSIDE: u32 = 25;

/// What a crossing must return, and the slices as it must leave them; none where the record or the reply is turned away by its length.
pub fn expected(before: &Slices, function: Function) -> Option<(u32, Slices)> {
    if before.rec.bytes().len() != RECORD || before.out.bytes().len() < REPLY {
        return None;
    }
    let hours = before.rec.bytes()[HOURS_IN_RECORD..].to_vec();
    let mut slices = before.clone();
    slices.rec.lend()[HOURS_IN_RECORD..].fill(0);
    let number = slices.cross(function);
    slices.rec.lend()[HOURS_IN_RECORD..].copy_from_slice(&hours);
    let outside =
        matches!(function, Function::Start { call, moment, .. } if PUSHES.contains(&call) && closed(&hours, moment));
    if !outside || refused(number) {
        return Some((number, slices));
    }
    let mut away = before.clone();
    for (i, word) in [(0, 7), (1, 0), (2, 0), (COUNT, 0)] {
        put(away.out.lend(), i, word);
    }
    Some((OUTSIDE << 8, away))
}
