//! The writer of replies and the reader of requests, with anything: kinds, numbers, names, buffers and settings of any value, and requests that
//! are whole, cut off or damaged. Every crossing must come to what `panel_model.rs` says, byte for byte.
use crate::lent::Lent;
use crate::panel_model::{self, NUMBERS};
use crate::random::Random;
use crate::tables;
use crate::Counts;
use yuglasno::raw::{self, REPLY, SETTINGS};
use yuglasno::{Ids, DATA_MOST, PATH_MOST, PUBLISHED_IDS};

/// A few crossings of each, under settings of any kind.
pub fn run(random: &mut Random, counts: &mut Counts) -> Result<(), String> {
    let settings = tables::settings(random, counts)?;
    for _ in 0..1 + random.below(4) {
        speak(random, counts, &settings)?;
        hear(random, counts, &settings)?;
    }
    Ok(())
}

fn speak(random: &mut Random, counts: &mut Counts, settings: &Lent) -> Result<(), String> {
    let kind = if random.one_in(8) { random.number(9) as u32 } else { random.below(10) as u32 };
    let (numbers, lent) = (numbers(random), lent(random));
    let need = panel_model::length(kind, lent.bytes().len());
    let room = match random.below(8) {
        0 => random.number(need as u64).min(70_000) as usize,
        1 | 2 => need.saturating_sub(1),
        3 | 4 => need + random.below(20),
        _ => need,
    };
    let told_len = length(random);
    let (mut out, mut told) = (Lent::filled(random, room), Lent::filled(random, told_len));
    let (mut expected, mut words) = (out.bytes().to_vec(), told.bytes().to_vec());
    let before = [settings, &numbers, &lent].map(|slice| slice.bytes().to_vec());
    let number = raw::speak(settings.bytes(), kind, numbers.bytes(), lent.bytes(), out.lend(), told.lend());
    let wanted = panel_model::spoken(settings.bytes(), kind, numbers.bytes(), lent.bytes(), &mut expected, &mut words);
    noted(counts, number);
    if number != wanted {
        return Err(format!("a reply of kind {kind} into {room} bytes was answered {number}, not {wanted}"));
    }
    let lent_as_before = before == [settings, &numbers, &lent].map(|slice| slice.bytes().to_vec());
    let guards = [settings, &numbers, &lent, &out, &told].iter().all(|slice| slice.guards_stand());
    let well = out.bytes() == expected && told.bytes() == words && lent_as_before && guards;
    well.then_some(()).ok_or_else(|| format!("a reply of kind {kind}, answered {number}, has other bytes than it must"))
}

fn hear(random: &mut Random, counts: &mut Counts, settings: &Lent) -> Result<(), String> {
    let ids = if settings.bytes().len() == SETTINGS { tables::ids(settings.bytes()) } else { PUBLISHED_IDS };
    let whole = request(random, &ids);
    let stream = damaged(random, whole);
    let (bytes, length) = (Lent::new(random, &stream), length(random));
    let mut out = Lent::filled(random, length);
    let mut expected = out.bytes().to_vec();
    let before = settings.bytes().to_vec();
    let number = raw::heard(settings.bytes(), bytes.bytes(), out.lend());
    let wanted = panel_model::heard(settings.bytes(), &stream, &mut expected);
    noted(counts, number);
    let shown = || stream[..stream.len().min(60)].escape_ascii().to_string();
    if number != wanted {
        return Err(format!("a request was answered {number}, not {wanted}: {}", shown()));
    }
    let guards = settings.guards_stand() && bytes.guards_stand() && out.guards_stand();
    let well = out.bytes() == expected && settings.bytes() == before && bytes.bytes() == stream && guards;
    well.then_some(())
        .ok_or_else(|| format!("a request, answered {number}, is told otherwise than it must be: {}", shown()))
}

fn noted(counts: &mut Counts, number: u32) {
    counts.of_the_panel += 1;
    tables::noted(counts, number);
}

/// The length of a slice that takes what is told: mostly as it should be.
fn length(random: &mut Random) -> usize {
    if random.one_in(12) {
        return random.number(REPLY as u64).min(400) as usize;
    }
    REPLY + random.of(&[0, 0, 0, 1, 40])
}

/// Numbers of any value, most of them of 32 bits, and mostly all of them.
fn numbers(random: &mut Random) -> Lent {
    let mut bytes: Vec<u8> = Vec::new();
    let wide = if random.one_in(4) { random.below(NUMBERS) } else { NUMBERS };
    for i in 0..NUMBERS {
        let any = random.number(1 << 32);
        let number = if i == wide || random.one_in(40) { any } else { any & u64::from(u32::MAX) };
        bytes.extend(number.to_le_bytes());
    }
    match random.below(8) {
        0 => bytes.truncate(random.below(bytes.len() + 1)),
        1 => bytes.truncate(random.of(&[23, 24, 25, 87])),
        2 => bytes.push(0xEE),
        _ => {}
    }
    Lent::new(random, &bytes)
}

/// A name, data or a text: mostly short, now and then about the limit of data.
fn lent(random: &mut Random) -> Lent {
    let length = match random.below(40) {
        0 => DATA_MOST - 1 + random.below(3),
        1 => 70_000,
        2..=8 => 0,
        _ => random.below(40),
    };
    Lent::filled(random, length)
}

fn id(ids: &Ids, name: &[u8; 4]) -> [u8; 4] {
    PUBLISHED_IDS.iter().zip(ids).find(|(published, _)| *published == name).map_or(*name, |(_, id)| *id)
}

/// A request of a host, as it should be but for modes and flags of any kind.
fn request(random: &mut Random, ids: &Ids) -> Vec<u8> {
    let name = random.of(&PUBLISHED_IDS);
    let length = match random.below(12) {
        0 => random.of(&[PATH_MOST - 1, PATH_MOST, PATH_MOST + 1, PATH_MOST + 13, PATH_MOST + 14]),
        1 => 0,
        _ => random.below(30),
    };
    let mut body: Vec<u8> = random.bytes(length).into_iter().map(|byte| byte | 1).collect();
    let flags = random.of(&[0, 0, 1, 2, 4, 3, 8, 0x8000_0000, 0x8000_0004, u32::MAX]).to_le_bytes();
    let mode = random.number(0) as u32;
    let own = id(ids, &name);
    let mut arg = body.len() as u32;
    match &name {
        b"SEND" => {
            let text = random.of(&["%d", "0%o", "%d", "0%d", "%dx", "", "0", "00000000000%o"]);
            let text = text.replace("%d", &mode.to_string()).replace("%o", &format!("{mode:o}"));
            body.extend([&b","[..], text.as_bytes()].concat());
            arg = body.len() as u32;
        }
        b"RCV2" => body.extend([own, flags].concat()),
        b"SND2" => body.extend([own, mode.to_le_bytes(), flags].concat()),
        b"DATA" if random.one_in(20) => {
            let length = DATA_MOST - 1 + random.below(3);
            body = random.bytes(length);
            arg = body.len() as u32;
        }
        b"DONE" => (arg, body) = (mode, Vec::new()),
        b"QUIT" => (arg, body) = (if random.one_in(4) { mode } else { 0 }, Vec::new()),
        _ => {}
    }
    [&own[..], &arg.to_le_bytes(), &body].concat()
}

/// The same, mostly; else cut off, longer, or with a byte altered.
fn damaged(random: &mut Random, mut stream: Vec<u8>) -> Vec<u8> {
    let length = stream.len();
    match random.below(8) {
        0 => stream.truncate(random.below(length)),
        1 => stream.truncate(length - 1),
        2 => stream[random.below(length)] = random.of(b"\0,0189\xFF"),
        3 => stream[random.below(8)] ^= 1 << random.below(8),
        4 => stream.extend(random.bytes(9)),
        5 if random.one_in(4) => return random.bytes(length),
        _ => {}
    }
    stream
}
