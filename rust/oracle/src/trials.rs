//! Document 01's trial pieces, what document 02's [6] says of paths with a NUL, banners whose pieces nearly are names, and totals and reads, each
//! made on both sides and held to what the documents say.
use crate::beside::{compare, Tally};
use crate::call::{Answer, Call, What, Why};
use crate::counted;
use crate::intended::{silent, NAMES, PATH_MOST};
use crate::ours;
use crate::plan::List;
use crate::scripted::{shared, Op};
use crate::steps;
use yuglasno::Totals;

/// What a call of this library answers, the pieces that it writes, how many reads it asks for, how many its last step tells, and the totals
/// behind it.
pub struct Seen {
    pub answer: Answer,
    pub pieces: Vec<Vec<u8>>,
    pub reads: usize,
    pub told: u64,
    pub totals: Totals,
}

/// Makes the calls of a list on this library alone.
pub fn seen(list: &List) -> Vec<Seen> {
    let wire = shared(list);
    let mut host = ours::Host::open(&list.banner, list.rx.clone(), wire.clone()).expect("a list that opens");
    let make = |call: &Call| {
        let answer = steps::make(&mut host, call, &mut |host, step, lent, a, b| host.step(step, lent, a, b)).answer;
        let ops = wire.borrow_mut().take_ops();
        let reads = ops.iter().filter(|op| matches!(op, Op::Read { .. })).count();
        let piece = |op| if let Op::Write { piece, .. } = op { Some(piece) } else { None };
        Seen { answer, pieces: ops.into_iter().filter_map(piece).collect(), reads, told: host.reads().0, totals: host.totals() }
    };
    list.calls.iter().map(make).collect()
}

pub fn list(banner: &str, capacity: usize, incoming: &[u8], calls: Vec<Call>) -> List {
    List { incoming: incoming.to_vec(), calls, ..silent(banner.as_bytes(), capacity) }
}

const V2: &str = "features=stat_v2,ls_v2,sendrecv_v2,sendrecv_v2_brotli,sendrecv_v2_lz4,sendrecv_v2_zstd,sendrecv_v2_dry_run_send";

pub struct Trials {
    shown: usize,
    wrong: usize,
}

impl Trials {
    // both sides are equal on the list, and what this library does is as `expected` says
    pub fn show(&mut self, name: &str, list: &List, expected: impl Fn(&[Seen]) -> bool) {
        let verdict = match compare(list, &mut Tally::default()) {
            Err(text) => Err(text),
            Ok(()) if expected(&seen(list)) => Ok(()),
            Ok(()) => Err("both sides are equal, and not as the documents say".to_string()),
        };
        self.note(name, verdict.map_err(|text| format!("{list}{text}")));
    }

    /// What 000 has nothing of.
    pub fn holds(&mut self, name: &str, as_said: bool) {
        self.note(name, as_said.then_some(()).ok_or_else(|| "not as the documents say".to_string()));
    }

    fn note(&mut self, name: &str, verdict: Result<(), String>) {
        self.shown += 1;
        match verdict {
            Ok(()) => println!("{name}: equal"),
            Err(text) => {
                self.wrong += 1;
                println!("{name}: WRONG\n{text}");
            }
        }
    }

    fn writes(&mut self, name: &str, call: Call, bytes: &[u8]) {
        self.show(name, &list(V2, 64, b"", vec![call]), |seen| seen[0].pieces == [bytes.to_vec()]);
    }
}

fn mode(call: Call, mode: u32) -> Call {
    Call { mode, ..call }
}

fn flags(call: Call, flags: u32) -> Call {
    Call { flags, ..call }
}

fn requests(t: &mut Trials) {
    t.writes("stat \"/a\"", Call::on(What::Stat, "/a"), b"STAT\x02\0\0\0/a");
    t.writes("RECV of \"\"", Call::on(What::RecvStart, ""), b"RECV\0\0\0\0");
    t.writes("SEND \"/j\", mode 33188", mode(Call::on(What::SendStart, "/j"), 33_188), b"SEND\x08\0\0\0/j,33188");
    t.writes("SEND \"/j\", mode 0", mode(Call::on(What::SendStart, "/j"), 0), b"SEND\x04\0\0\0/j,0");
    t.writes("RCV2 \"/a\"", flags(Call::on(What::RecvV2Start, "/a"), 1), b"RCV2\x02\0\0\0/aRCV2\x01\0\0\0");
    let snd2 = flags(mode(Call::on(What::SendV2Start, "/a"), 33_188), 4);
    t.writes("SND2 \"/a\"", snd2, b"SND2\x02\0\0\0/aSND2\xa4\x81\0\0\x04\0\0\0");
}

fn replies(t: &mut Trials) {
    let next = || Call::new(What::RecvNext);
    let stat = b"STAT\x01\0\0\0\x02\0\0\0\x03\0\0\0";
    t.show("STAT reply at capacity 16", &list("", 16, stat, vec![Call::on(What::Stat, "/a")]), |s| {
        s[0].answer == Answer::Stat(vec![1, 2, 3])
    });
    t.show("STAT reply at capacity 15", &list("", 15, stat, vec![Call::on(What::Stat, "/a"), next()]), |s| {
        s[0].answer == Answer::Not(Why::TooLarge) && s[1].answer == Answer::Not(Why::Unexpected(*b"STAT"))
    });
    t.show("DATA 0 at capacity 8", &list("", 8, b"DATA\0\0\0\0", vec![next()]), |s| s[0].answer == Answer::Chunk(vec![]));
    t.show("DATA 1 at capacity 8, twice", &list("", 8, b"DATA\x01\0\0\0x", vec![next(), next()]), |s| {
        s.iter().all(|seen| seen.answer == Answer::Not(Why::TooLarge))
    });
    let fail = [&b"FAIL\x14\0\0\0"[..], b"twenty bytes of text", b"DONE\0\0\0\0"].concat();
    // the DONE behind it is the next: 28 bytes were consumed
    t.show("FAIL of 20 at capacity 8", &list("", 8, &fail, vec![next(), next()]), |s| {
        s[0].answer == Answer::Not(Why::Fail(b"twenty b".to_vec())) && s[1].answer == Answer::End
    });
    // document 01 names the feature b; the session knows only its seven
    t.show("features=a;features=stat_v2", &list("features=a;features=stat_v2", 80, b"", vec![Call::on(What::StatV2, "/a")]), |s| {
        s[0].answer == Answer::Not(Why::Missing(1))
    });
}

// flags 3, and the other words with more than one of the bits 1, 2 and 4
fn several(t: &mut Trials) {
    let banners = [
        "", "features=", "features=sendrecv_v2", "features=sendrecv_v2,sendrecv_v2_brotli", V2, "device::x;features=ls_v2;stat_v2", "feature",
    ];
    for banner in banners {
        for word in [3, 5, 6, 7, 0x8000_0003] {
            let calls = [What::RecvV2Start, What::SendV2Start].map(|what| flags(Call::on(what, "/a"), word)).to_vec();
            t.show(&format!("flags {word:x}, banner {banner:?}"), &list(banner, 64, b"", calls), |s| {
                s.iter().all(|seen| seen.answer == Answer::Not(Why::Refused(9)) && seen.pieces.is_empty())
            });
        }
    }
}

// "A path may be too long and hold a NUL": 8, wherever it lies, before 7, 9 and 10; a path is never over the limit in `lists`
fn nuls(t: &mut Trials) {
    let starts = [
        What::Stat, What::StatV2, What::List, What::ListV2, What::RecvStart, What::RecvV2Start, What::SendStart, What::SendV2Start,
    ];
    let long = |len: usize| "p".repeat(len);
    let paths = [
        ("a NUL alone", "\0".to_string()),
        ("1,024 bytes, the last a NUL", long(PATH_MOST - 1) + "\0"),
        ("1,024 bytes and a NUL", long(PATH_MOST) + "\0"),
        ("a NUL and 1,024 bytes", "\0".to_string() + &long(PATH_MOST)),
        ("a NUL as byte 70,000 of 80,000", long(69_999) + "\0" + &long(10_000)),
    ];
    for (name, path) in paths {
        let calls = starts.map(|what| flags(Call::on(what, &path), 3)).to_vec();
        t.show(&format!("{name}, flags 3"), &list("", 64, b"", calls), |s| {
            s.iter().all(|seen| seen.answer == Answer::Not(Why::Refused(8)) && seen.pieces.is_empty())
        });
    }
}

// A feature is present where a piece equals its name: names cut, longer, run together, the beginning with what is no tail, tails alone.
fn banners(t: &mut Trials) {
    let calls = [
        (vec![1], Call::on(What::StatV2, "/a")),
        (vec![2], Call::on(What::ListV2, "/a")),
        (vec![3], Call::on(What::RecvV2Start, "/a")),
        (vec![3, 4], flags(Call::on(What::RecvV2Start, "/a"), 1)),
        (vec![3, 5], flags(Call::on(What::RecvV2Start, "/a"), 2)),
        (vec![3, 6], flags(Call::on(What::RecvV2Start, "/a"), 4)),
        (vec![3, 7], flags(Call::on(What::SendV2Start, "/a"), 0x8000_0000)),
    ];
    let beginning = NAMES[2];
    let mut pieces = vec![];
    for name in NAMES {
        pieces.extend((0..=name.len()).map(|end| name[..end].to_string()));
        pieces.extend(["_", "2", "5", "=", "\0"].map(|more| format!("{name}{more}")));
        pieces.extend(NAMES.map(|other| format!("{name}{other}")));
        let tail = name.strip_prefix(beginning).unwrap_or(name);
        pieces.extend([tail.to_string(), format!("{tail}{beginning}"), format!("{beginning}{tail}{tail}")]);
    }
    for piece in pieces {
        for banner in [format!("features={piece}"), format!("x;features=cmd,{piece};{beginning}")] {
            let has = |n: &u32| NAMES[*n as usize - 1] == piece || (*n == 3 && banner.ends_with(&format!(";{beginning}")));
            let made = calls.iter().map(|(_, call)| call.clone()).collect();
            t.show(&format!("banner {banner:?}"), &list(&banner, 64, b"", made), |s| {
                s.iter().zip(&calls).all(|(seen, (wanted, _))| match wanted.iter().find(|n| !has(n)) {
                    Some(n) => seen.answer == Answer::Not(Why::Missing(*n)) && seen.pieces.is_empty(),
                    None => !seen.pieces.is_empty(),
                })
            });
        }
    }
}

fn header(len: usize) -> Vec<u8> {
    [&b"DATA"[..], &(len as u32).to_le_bytes()].concat()
}

fn data(t: &mut Trials) {
    for capacity in [8, 4_096, 65_544] {
        for len in [65_536, 65_537] {
            let bytes: Vec<u8> = (0..len).map(|k| (k * 7) as u8).collect();
            let call = Call { data: bytes.clone(), ..Call::new(What::SendData) };
            let messages = bytes.chunks(65_536).flat_map(|part| [header(part.len()), part.to_vec()].concat());
            let messages: Vec<u8> = messages.collect();
            t.show(&format!("data of {len} at capacity {capacity}"), &list("", capacity, b"", vec![call]), |s| {
                s[0].answer == Answer::Done && s[0].pieces.concat() == messages
            });
        }
    }
}

pub fn run() -> bool {
    let mut trials = Trials { shown: 0, wrong: 0 };
    requests(&mut trials);
    replies(&mut trials);
    several(&mut trials);
    nuls(&mut trials);
    banners(&mut trials);
    data(&mut trials);
    counted::trials(&mut trials);
    println!("{} checks of trial pieces, {} wrong", trials.shown, trials.wrong);
    trials.wrong == 0
}
