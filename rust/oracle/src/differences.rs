//! The intended differences of docs/DIFFERENCES.md, each run with its bytes on both sides.
use crate::beside::{compare, Tally};
use crate::call::{Answer, Call, What, Why};
use crate::counted::{fill, OVERFLOW};
use crate::error::Error;
use crate::hex::{hex, spaced};
use crate::hours::OUTSIDE;
use crate::intended::{aside, PATH_MOST};
use crate::ours::{self, opened, Step};
use crate::theirs::{self, run};
use crate::trials::{list, seen};
use crate::wire::{Fault, Wire};
use std::panic::{catch_unwind, AssertUnwindSafe};
use yuglasno::{raw, Settings};

const SENDRECV: &str = "features=sendrecv_v2";

/// Prints each difference: what is done, what this library answers, what 000 does. False where one is not as stated.
pub fn print() -> bool {
    std::panic::set_hook(Box::new(|_| ()));
    let shown = [
        small_buffers(), long_path(), long_path_with_flags(), long_path_without_feature(), unknown_flag(),
        unknown_flag_to_push(), unknown_flag_without_feature(), entries_then_fail(), chunk_then_fail(), after_quit(), read_of_nothing(),
        read_beyond(), while_pending(), no_room(), outside_hours(),
    ];
    let wrong = shown.iter().filter(|well| !**well).count();
    println!("{} differences run, {wrong} not as stated", shown.len());
    wrong == 0
}

fn say(what: &str, ours: String, theirs: String, as_stated: bool) -> bool {
    println!("{what}\n  here: {ours}\n  000:  {theirs}{}", if as_stated { "" } else { "\n  NOT AS STATED" });
    as_stated
}

fn small_buffers() -> bool {
    let mut rec = [0; raw::RECORD];
    let told = (opened(&mut rec, b"", 7, 7), opened(&mut rec, b"", 8, 7), opened(&mut rec, b"", 8, 8));
    let empty = list("", 7, b"", vec![]);
    let same = compare(&empty, &mut Tally::default());
    let theirs = if same.is_ok() { "panics on 7; has no message buffer".to_string() } else { format!("{same:?}") };
    say("opening on 7 bytes; on 8 with a message buffer of 7; on 8 and 8", format!("{told:?}"), theirs, told == (1, 2, 0) && same.is_ok())
}

// a call that only this library refuses, by this number; 000 writes as `intended` says
fn refused(what: &str, call: Call, banner: &str, number: u32) -> bool {
    let alone = list(banner, 64, b"", vec![call.clone()]);
    let told = seen(&alone).remove(0).answer;
    let well = matches!(&told, Answer::Not(why) if why.number() == number) && compare(&alone, &mut Tally::default()).is_ok();
    match aside(&call, banner.as_bytes(), 64) {
        Ok((answer, written)) => {
            let head = &written[..written.len().min(18)];
            let rest = if written.len() > 18 { format!(" .. ({} bytes)", written.len()) } else { String::new() };
            say(what, format!("{told:?}"), format!("{answer:?}, writes {}{rest}", spaced(head)), well)
        }
        Err(text) => say(what, format!("{told:?}"), text, false),
    }
}

fn long_path() -> bool {
    refused("stat of 1,025 bytes 70, without a NUL", Call::on(What::Stat, &"p".repeat(PATH_MOST + 1)), "", 7)
}

fn long_path_with_flags() -> bool {
    let call = Call { flags: 3, ..Call::on(What::RecvV2Start, &"p".repeat(PATH_MOST + 1)) };
    refused("RCV2 of 1,025 bytes 70, flags 3", call, SENDRECV, 7)
}

fn long_path_without_feature() -> bool {
    refused("RCV2 of 1,025 bytes 70, no features", Call::on(What::RecvV2Start, &"p".repeat(PATH_MOST + 1)), "", 7)
}

fn unknown_flag() -> bool {
    refused("RCV2 \"/a\", flags 8", Call { flags: 8, ..Call::on(What::RecvV2Start, "/a") }, SENDRECV, 9)
}

fn unknown_flag_to_push() -> bool {
    let call = Call { flags: 8, mode: 0o100644, ..Call::on(What::SendV2Start, "/a") };
    refused("SND2 \"/a\", mode 33188, flags 8", call, SENDRECV, 9)
}

fn unknown_flag_without_feature() -> bool {
    refused("RCV2 \"/a\", flags 8, no features", Call { flags: 8, ..Call::on(What::RecvV2Start, "/a") }, "", 9)
}

// what comes before an error is handed out here, and kept by 000: the steps, with the number and the bytes told of each
fn before_error(call: What, incoming: &[u8], steps: &[(Step, u32, &[u8])]) -> bool {
    let list = list("", 64, incoming, vec![Call::on(call, "/a")]);
    let same = compare(&list, &mut Tally::default());
    let mut host = ours::Host::open(b"", list.rx.clone(), crate::scripted::shared(&list)).unwrap();
    let (mut told, mut as_stated) = (vec![], same.is_ok());
    for (step, number, bytes) in steps {
        let lent: &[u8] = if told.is_empty() { b"/a" } else { b"" };
        let answered = host.step(*step, lent, 0, 0);
        let part = if answered == 14 { &host.msg[host.part(1)] } else { &host.rx[host.part(1)] };
        as_stated &= (answered, part) == (*number, *bytes);
        told.push(format!("{answered} {}", hex(part)));
    }
    let theirs = same.map_or_else(|text| text, |()| "14 with the text alone".to_string());
    say(&format!("{call:?} \"/a\", incoming {}", spaced(incoming)), told.join(", then "), theirs, as_stated)
}

fn entries_then_fail() -> bool {
    let incoming = b"DENT\xa4\x81\0\0\xce\x07\0\0\x05\0\0\0\x03\0\0\0T98FAIL\x02\0\0\0no";
    before_error(What::List, incoming, &[(Step::List, 0, b""), (Step::Entry, 0, b"T98"), (Step::Entry, 14, b"no")])
}

fn chunk_then_fail() -> bool {
    let incoming = b"DATA\x01\0\0\0xFAIL\x02\0\0\0no";
    before_error(What::Recv, incoming, &[(Step::Recv, 0, b""), (Step::RecvNext, 0, b"x"), (Step::RecvNext, 14, b"no")])
}

fn after_quit() -> bool {
    let told = seen(&list("", 16, b"", vec![Call::new(What::Quit), Call::on(What::Stat, "/a")])).remove(1).answer;
    let well = told == Answer::Not(Why::Refused(6));
    say("stat after quit", format!("{told:?}"), "quit takes the session: there is no such call".into(), well)
}

/// A channel whose first read reports a count of its own.
struct Miscounts<'a> {
    first: Option<usize>,
    incoming: &'a [u8],
}

impl Wire for Miscounts<'_> {
    fn read(&mut self, window: &mut [u8]) -> Result<usize, Fault> {
        if let Some(count) = self.first.take() {
            return Ok(count);
        }
        let count = window.len().min(self.incoming.len());
        window[..count].copy_from_slice(&self.incoming[..count]);
        self.incoming = &self.incoming[count..];
        if count > 0 { Ok(count) } else { Err(Fault::Closed) }
    }
    fn write(&mut self, _: &[u8]) -> Result<(), Fault> {
        Ok(())
    }
    fn close(&mut self) -> Result<(), Fault> {
        Ok(())
    }
}

// the first reply to the miscount, and what 000 makes of it
fn miscounted(what: &str, count: usize, told: u32, theirs: &str) -> bool {
    let incoming = b"DATA\x01\0\0\0x";
    let mut host = ours::Host::open(b"", vec![0; 16], Miscounts { first: None, incoming }).unwrap();
    let mut answers = vec![];
    let answer = host.step_with(Step::RecvNext, b"", 0, 0, |host, _| {
        if answers.is_empty() {
            answers.push(raw::read(&mut host.rec, &mut host.rx, &mut host.msg, b"", count, &mut [0; raw::REPLY]) >> 8);
        }
    });
    let mut rx = [0; 16];
    let mut their_host = theirs::Host::new(b"", Miscounts { first: Some(count), incoming });
    let made = catch_unwind(AssertUnwindSafe(|| {
        let mut session = their_host.session(&mut rx);
        let made = run(session.recv_next());
        made.map(|chunk| chunk.map(|bytes| bytes.to_vec()))
    }));
    let did = match made {
        Err(_) => "panics".to_string(),
        Ok(Ok(Some(chunk))) => format!("reads again, chunk {}", hex(&chunk)),
        Ok(other) => format!("{:?}", other.map_err(|e: Error<u32>| e)),
    };
    let ours = format!("{}, still waiting; then {answer}, chunk {}", answers[0], hex(host.told()));
    say(what, ours, did.clone(), answers[0] == told && answer == 0 && did.starts_with(theirs))
}

fn read_of_nothing() -> bool {
    miscounted("a read of 0 bytes", 0, 11, "reads again")
}

fn read_beyond() -> bool {
    miscounted("a read of 17 bytes into a window of 16", 17, 11, "panics")
}

fn while_pending() -> bool {
    let mut host = ours::Host::open(b"", vec![0; 16], Miscounts { first: None, incoming: b"DATA\x01\0\0\0x" }).unwrap();
    let mut told = vec![];
    host.step_with(Step::RecvNext, b"", 0, 0, |host, _| {
        let out = &mut [0; raw::REPLY];
        told.push(raw::start(&mut host.rec, &mut host.rx, &mut host.msg, b"", 14, 0, 0, 0, out) >> 8);
        told.push(raw::wrote(&mut host.rec, &mut host.rx, &mut host.msg, b"", out) >> 8);
        told.push(raw::read(&mut host.rec, &mut host.rx[1..], &mut host.msg, b"", 1, out) >> 8);
    });
    let what = "while a read is awaited: a call, an accepted write, a buffer of another length";
    let theirs = "a call borrows the session to its end: there is no such call or report";
    say(what, format!("{told:?}"), theirs.into(), told[..3] == [4, 5, 3])
}

// a session that has come so far that a total has no room for another byte
fn no_room() -> bool {
    let incoming = b"DATA\x01\0\0\0x";
    let mut host = ours::Host::open(b"", vec![0; 16], Miscounts { first: None, incoming }).unwrap();
    fill(&mut host.rec);
    let read = host.step(Step::RecvNext, b"", 0, 0);
    let mut host = ours::Host::open(b"", vec![0; 16], Miscounts { first: None, incoming }).unwrap();
    fill(&mut host.rec);
    let written = host.step(Step::Recv, b"/a", 0, 0);
    let (what, theirs) = ("a read, and a write, where 2^64 - 1 bytes were counted", "keeps no totals: it reads and writes on");
    say(what, format!("{:?}", (read, written)), theirs.into(), (read, written) == (OVERFLOW, OVERFLOW))
}

// a session whose hours have no moment for a push
fn outside_hours() -> bool {
    let mut settings = Settings::published();
    let loaded = settings.load_hours(b"day,open,close\n").is_ok();
    let mut host = ours::Host::open_with(&settings, b"", vec![0; 16], Miscounts { first: None, incoming: b"" }).unwrap();
    let (told, what) = (host.step(Step::Send, b"/a", 0o100644, 0), "SEND \"/a\", mode 33188, outside the hours");
    match aside(&Call { mode: 0o100644, ..Call::on(What::SendStart, "/a") }, b"", 16) {
        Ok((answer, written)) => {
            say(what, format!("{told}"), format!("has no hours: {answer:?}, writes {}", spaced(&written)), loaded && told == OUTSIDE)
        }
        Err(text) => say(what, format!("{told}"), text, false),
    }
}
