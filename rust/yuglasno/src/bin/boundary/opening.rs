//! Openings, for settings, buffers and banners of any kind.
use crate::crossing::Slices;
use crate::hours_model::are_hours;
use crate::lent::Lent;
use crate::random::Random;
use crate::tables::{self, noted, of_settings};
use crate::totals::RECEIVED;
use crate::Counts;
use yuglasno::raw::{self, HOURS_IN_RECORD, HOURS_IN_SETTINGS, HOURS_SIZE, RECORD, REPLY, SETTINGS};
use yuglasno::Ids;

const NAMES: [&str; 9] = [
    "stat_v2",
    "ls_v2",
    "sendrecv_v2",
    "sendrecv_v2_brotli",
    "sendrecv_v2_lz4",
    "sendrecv_v2_zstd",
    "sendrecv_v2_dry_run_send",
    "sendrecv",
    "",
];

/// An opening with any numbers, checked; then one for buffers of these lengths, where it is taken, with the session's ids.
pub fn opened(random: &mut Random, counts: &mut Counts) -> Result<Option<(Slices, Ids)>, String> {
    let rx = match random.below(12) {
        0 => random.below(8),
        1 => random.of(&[1_024, 1_032, 1_043, 4096, 65_544, 70_000]),
        _ => 8 + random.below(100),
    };
    let msg = if random.one_in(12) { random.below(rx + 2) } else { rx + random.below(9) };
    let length = random.number(RECORD as u64).min(400) as usize;
    let (any_rx, any_msg) = (random.number(8) as usize, random.number(8) as usize);
    let mut elsewhere = Lent::filled(random, length);
    let settings = tables::settings(random, counts)?;
    open(random, counts, &mut elsewhere, &settings, (any_rx, any_msg))?;
    let mut rec = Lent::filled(random, RECORD);
    if open(random, counts, &mut rec, &settings, (rx, msg))? != 0 {
        return Ok(None);
    }
    let (rx, msg) = (Lent::filled(random, rx), Lent::filled(random, msg));
    let slices = Slices { rec, rx, msg, lent: Lent::filled(random, 0), out: Lent::filled(random, REPLY) };
    Ok(Some((slices, tables::ids(settings.bytes()))))
}

fn open(
    random: &mut Random,
    counts: &mut Counts,
    rec: &mut Lent,
    settings: &Lent,
    (rx, msg): (usize, usize),
) -> Result<u32, String> {
    let (before, lent) = (rec.bytes().to_vec(), settings.clone());
    let banner = banner(random);
    let banner = Lent::new(random, &banner);
    let number = raw::open(rec.lend(), settings.bytes(), banner.bytes(), rx, msg);
    let expected = match () {
        _ if rx < 8 => 1,
        _ if msg < rx => 2,
        _ if before.len() != RECORD || lent.bytes().len() != SETTINGS => 3,
        _ if of_settings(lent.bytes()) == 0 && !are_hours(hours_in(lent.bytes())) => 24,
        _ => of_settings(lent.bytes()),
    };
    if number != expected {
        return Err(format!("opening {} bytes for {rx} and {msg} answered {number}, not {expected}", before.len()));
    }
    let guards = rec.guards_stand() && banner.guards_stand() && settings.guards_stand();
    if !guards || settings.bytes() != lent.bytes() || (number > 0 && before != rec.bytes()) {
        return Err(format!("opening for {rx} and {msg}, answered {number}, changed what it may not"));
    }
    if number == 0 && rec.bytes()[8 * RECEIVED..HOURS_IN_RECORD].iter().any(|byte| *byte != 0) {
        return Err("an opening left totals that are not 0".into());
    }
    if number == 0 && rec.bytes()[HOURS_IN_RECORD..] != *hours_in(lent.bytes()) {
        return Err("an opening left other hours than its settings have".into());
    }
    match number {
        0 => (counts.opened, counts.calls) = (counts.opened + 1, counts.calls + 1),
        _ => noted(counts, number),
    }
    Ok(number)
}

/// The hours of settings of their own length.
fn hours_in(settings: &[u8]) -> &[u8] {
    &settings[HOURS_IN_SETTINGS..HOURS_IN_SETTINGS + HOURS_SIZE]
}

fn banner(random: &mut Random) -> Vec<u8> {
    if random.one_in(2) {
        return [b"features=", NAMES.join(",").as_bytes()].concat();
    }
    let mut banner = random.of(&["", "features=", "features=", "device::features=", "feat"]).as_bytes().to_vec();
    for _ in 0..random.below(9) {
        banner.extend(random.of(&NAMES).as_bytes());
        banner.push(random.of(b",,,;x"));
    }
    if random.one_in(8) {
        let length = random.below(100);
        banner.extend(random.bytes(length));
    }
    banner
}
