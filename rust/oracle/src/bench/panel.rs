//! The panel's side, a reply said and a request heard, beside plain Rust that writes and reads the same bytes: 000 has neither.
use std::hint::black_box;
use std::time::Instant;
use yuglasno::raw::{self, REPLY};
use yuglasno::{EntryV2, FileMode, Ids, PanelReply, Settings, Stat, StatV2, CAPACITY, DATA_MOST, PATH_MOST};

/// How often a reply is said or a request heard in one run, which is then divided by it.
const AGAIN: usize = 1_000;
const NAME: &[u8; 30] = b"job00001-plate07-imposed-a.dat";
const PATH: &[u8; 30] = b"/data/jobs/job00001-plate7.dat";
const HEADER: usize = 8;
/// Where the ids stand in their table.
const STAT: usize = 0;
const DATA: usize = 8;
const OKAY: usize = 10;
const DNT2: usize = 13;
/// The calls' numbers.
const CALL_STAT: u64 = 1;
const CALL_DATA: u64 = 9;
/// The kinds of the replies.
const SAY_OKAY: u32 = 0;
const SAY_STAT: u32 = 2;
const SAY_ENTRY_V2: u32 = 5;
const SAY_CHUNK: u32 = 6;
/// The numbers of a stat and of a v2 entry, in the order of their fields.
const V1: [u64; 3] = [0o100644, 1_998, 5];
const V2: [u64; 11] = [0, 66_306, 1 << 40, 0o100644, 1, 1_000, 1_001, 1 << 33, -1i64 as u64, 5, 6];

/// What is told of a request: call, start, length, mode or time, flags, size.
type Heard = [u64; 6];

/// The front of a buffer, written from left to right.
struct Writer<'o> {
    out: &'o mut [u8],
    at: usize,
}

impl Writer<'_> {
    #[inline]
    fn put(&mut self, bytes: &[u8]) {
        self.out[self.at..self.at + bytes.len()].copy_from_slice(bytes);
        self.at += bytes.len();
    }

    fn stat_v2(&mut self, stat: &StatV2) {
        self.put(&stat.error.to_le_bytes());
        self.put(&stat.dev.to_le_bytes());
        self.put(&stat.ino.to_le_bytes());
        for number in [stat.mode.0, stat.nlink, stat.uid, stat.gid] {
            self.put(&number.to_le_bytes());
        }
        self.put(&stat.size.to_le_bytes());
        for time in [stat.atime, stat.mtime, stat.ctime] {
            self.put(&time.to_le_bytes());
        }
    }

    /// A length, and as many bytes.
    fn lent(&mut self, bytes: &[u8]) {
        self.put(&(bytes.len() as u32).to_le_bytes());
        self.put(bytes);
    }
}

/// The plain writer, of the replies that are measured: how many bytes it wrote; it panics where they do not fit.
fn plainly_said(ids: &Ids, reply: &PanelReply, out: &mut [u8]) -> usize {
    let mut writer = Writer { out, at: 0 };
    match reply {
        PanelReply::Okay => {
            writer.put(&ids[OKAY]);
            writer.put(&0u32.to_le_bytes());
        }
        PanelReply::Stat(stat) => {
            writer.put(&ids[STAT]);
            for number in [stat.mode.0, stat.size, stat.mtime] {
                writer.put(&number.to_le_bytes());
            }
        }
        PanelReply::EntryV2(entry) => {
            writer.put(&ids[DNT2]);
            writer.stat_v2(&entry.stat);
            writer.lent(entry.name);
        }
        PanelReply::Chunk(bytes) => {
            writer.put(&ids[DATA]);
            writer.lent(bytes);
        }
        other => panic!("{other:?} is not measured"),
    }
    writer.at
}

/// The plain reader, of the requests that are measured; none where the bytes are no such request, or not a whole one.
fn plainly_heard(ids: &Ids, bytes: &[u8]) -> Option<Heard> {
    let (header, rest) = bytes.split_at_checked(HEADER)?;
    let (id, arg) = header.split_at(4);
    let length = u32::from_le_bytes(arg.try_into().ok()?) as usize;
    let (call, most) = match ids.iter().position(|each| each == id)? {
        STAT => (CALL_STAT, PATH_MOST),
        DATA => (CALL_DATA, DATA_MOST),
        _ => return None,
    };
    let lent = rest.get(..length).filter(|_| length <= most)?;
    if call == CALL_STAT && lent.contains(&0) {
        return None;
    }
    Some([call, HEADER as u64, length as u64, 0, 0, (HEADER + length) as u64])
}

fn words(numbers: &[u64]) -> Vec<u8> {
    numbers.iter().flat_map(|number| number.to_le_bytes()).collect()
}

/// The nanoseconds of one call, by one run.
fn timed(mut work: impl FnMut()) -> f64 {
    let start = Instant::now();
    for _ in 0..AGAIN {
        work();
    }
    start.elapsed().as_nanos() as f64 / AGAIN as f64
}

/// A row of the table, from the shortest run of each side.
fn row(name: &str, [plain, ours]: [f64; 2]) {
    println!("| {name} | {plain:.1} | {ours:.1} | {:.2} |", ours / plain);
}

/// A reply by its kind, its numbers and its name or data, and the same as a plain program has it.
struct Reply<'a> {
    kind: u32,
    numbers: &'a [u64],
    lent: &'a [u8],
    plain: PanelReply<'a>,
}

impl Reply<'_> {
    /// The shortest of some runs by each side, in turn, into the same buffer. Both must write the same bytes.
    fn shortest(&self, rounds: usize) -> [f64; 2] {
        let (settings, numbers) = (Settings::published(), words(self.numbers));
        let (ids, mut told) = (settings.ids(), [0; REPLY]);
        let (mut out, mut wanted) = (vec![1; CAPACITY], vec![2; CAPACITY]);
        let mut say = |out: &mut [u8]| {
            let (settings, numbers, lent) = black_box((settings.as_bytes(), &numbers[..], self.lent));
            assert_eq!(raw::speak(settings, black_box(self.kind), numbers, lent, out, &mut told), 0);
            told[..8].try_into().map(u64::from_le_bytes).unwrap() as usize
        };
        let say_plainly = |out: &mut [u8]| plainly_said(black_box(&ids), black_box(&self.plain), out);
        let (length, plain) = (say(&mut out), say_plainly(&mut wanted));
        assert_eq!(out[..length], wanted[..plain], "both write the same");
        let mut least = [f64::MAX; 2];
        for _ in 0..rounds {
            least[0] = least[0].min(timed(|| _ = black_box(say_plainly(black_box(&mut out)))));
            least[1] = least[1].min(timed(|| _ = black_box(say(black_box(&mut out)))));
        }
        least
    }
}

/// The shortest of some runs by each side, in turn, of hearing one request. Both must be told the same of it.
fn shortest_heard(bytes: &[u8], rounds: usize) -> [f64; 2] {
    let settings = Settings::published();
    let (ids, mut out) = (settings.ids(), [0; REPLY]);
    let wanted = plainly_heard(&ids, bytes).expect("a request");
    assert_eq!(raw::heard(settings.as_bytes(), bytes, &mut out), 0);
    assert_eq!(out[..8 * wanted.len()], words(&wanted), "both are told the same");
    let mut least = [f64::MAX; 2];
    for _ in 0..rounds {
        least[0] = least[0].min(timed(|| _ = black_box(plainly_heard(black_box(&ids), black_box(bytes)))));
        least[1] = least[1].min(timed(|| {
            assert_eq!(raw::heard(black_box(settings.as_bytes()), black_box(bytes), black_box(&mut out)), 0);
        }));
    }
    least
}

fn request(id: &[u8; 4], lent: &[u8]) -> Vec<u8> {
    [id, &(lent.len() as u32).to_le_bytes()[..], lent].concat()
}

fn stat() -> Stat {
    let [mode, size, mtime] = V1.map(|number| number as u32);
    Stat { mode: FileMode(mode), size, mtime }
}

fn stat_v2() -> StatV2 {
    let [error, dev, ino, mode, nlink, uid, gid, size, times @ ..] = V2;
    let [error, mode, nlink, uid, gid] = [error, mode, nlink, uid, gid].map(|number| number as u32);
    let [atime, mtime, ctime] = times.map(|time| time as i64);
    StatV2 { error, dev, ino, mode: FileMode(mode), nlink, uid, gid, size, atime, mtime, ctime }
}

/// Both sides' times in nanoseconds, as the rows of a table.
pub fn table(rounds: usize) -> bool {
    println!("| work | plain Rust, ns | here, ns | here / plain Rust |\n|---|---|---|---|");
    let data: Vec<u8> = (0..DATA_MOST).map(|k| (k * 7 + 1) as u8).collect();
    let entry = PanelReply::EntryV2(EntryV2 { name: NAME, stat: stat_v2() });
    let replies = [
        ("say_stat", Reply { kind: SAY_STAT, numbers: &V1, lent: &[], plain: PanelReply::Stat(stat()) }),
        ("say_entry_v2", Reply { kind: SAY_ENTRY_V2, numbers: &V2, lent: NAME, plain: entry }),
        ("say_data", Reply { kind: SAY_CHUNK, numbers: &[], lent: &data, plain: PanelReply::Chunk(&data) }),
        ("say_okay", Reply { kind: SAY_OKAY, numbers: &[], lent: &[], plain: PanelReply::Okay }),
    ];
    for (name, reply) in replies {
        row(name, reply.shortest(rounds));
    }
    for (name, bytes) in [("hear_stat", request(b"STAT", PATH)), ("hear_data", request(b"DATA", &data))] {
        row(name, shortest_heard(&bytes, rounds));
    }
    true
}
