//! The index beside a sorted Vec that is handed the same replies and asked the same: 000 has nothing to put beside it.
use crate::rng::Rng;
use std::hint::black_box;
use std::time::Instant;
use yuglasno::raw::{self, REPLY, SLOTS};
use yuglasno::{INDEX_ENTRIES, INDEX_NAMES};

const NAME: usize = 12;
/// How often a query is made in one run, which is then divided by it.
const AGAIN: usize = 100;
/// What a fill of 4,096 entries and a query may take at most, in microseconds.
const FILL_MOST: f64 = 20_000.0;
const QUERY_MOST: f64 = 100.0;

/// A listing's replies, as the library wrote them, and the receive buffer that has their names.
struct Replies {
    outs: Vec<[u8; REPLY]>,
    rx: Vec<u8>,
}

impl Replies {
    fn of(times: impl Iterator<Item = i64>) -> Self {
        let (mut outs, mut rx) = (vec![], vec![]);
        for (i, time) in times.take(INDEX_ENTRIES).enumerate() {
            let mut out = [0; REPLY];
            for (at, number) in [(0, 5), (1, rx.len() as u64), (2, NAME as u64), (12, time as u64)] {
                out[8 * at..8 * at + 8].copy_from_slice(&number.to_le_bytes());
            }
            outs.push(out);
            rx.extend(format!("job{i:05}.dat").into_bytes());
        }
        Replies { outs, rx }
    }
}

fn word(out: &[u8], i: usize) -> u64 {
    u64::from_le_bytes(out[8 * i..8 * i + 8].try_into().unwrap())
}

/// What both sides do; what they answer must be the same.
trait Side {
    fn new() -> Self;
    fn fill(&mut self, replies: &Replies);
    /// How many ranks there are from one time to another, and the first.
    fn between(&self, from: i64, to: i64) -> (usize, usize);
    fn latest(&self, time: i64) -> Option<usize>;
    /// Time and name of a rank.
    fn item(&self, rank: usize) -> (i64, &[u8]);
}

/// Time, where the name starts, its length.
struct Sorted {
    ranks: Vec<(i64, u32, u32)>,
    names: Vec<u8>,
}

impl Side for Sorted {
    fn new() -> Self {
        Sorted { ranks: Vec::with_capacity(INDEX_ENTRIES), names: Vec::with_capacity(INDEX_NAMES) }
    }

    #[inline(never)]
    fn fill(&mut self, replies: &Replies) {
        for out in &replies.outs {
            let (time, start, length) = (word(out, 12) as i64, word(out, 1) as usize, word(out, 2) as usize);
            let at = self.ranks.partition_point(|each| each.0 <= time);
            self.ranks.insert(at, (time, self.names.len() as u32, length as u32));
            self.names.extend_from_slice(&replies.rx[start..start + length]);
        }
    }

    fn between(&self, from: i64, to: i64) -> (usize, usize) {
        let first = self.ranks.partition_point(|each| each.0 < from);
        (self.ranks.partition_point(|each| each.0 <= to).saturating_sub(first), first)
    }

    fn latest(&self, time: i64) -> Option<usize> {
        let end = self.ranks.partition_point(|each| each.0 <= time);
        let latest = self.ranks[..end].last()?.0;
        Some(self.ranks.partition_point(|each| each.0 < latest))
    }

    fn item(&self, rank: usize) -> (i64, &[u8]) {
        let (time, start, length) = self.ranks[rank];
        (time, &self.names[start as usize..(start + length) as usize])
    }
}

struct Ours {
    slots: Vec<u8>,
    area: Vec<u8>,
}

impl Ours {
    fn asked(&self, query: impl Fn(&[u8], usize, &mut [u8]) -> u32) -> [u8; REPLY] {
        let mut out = [0; REPLY];
        assert_eq!(query(&self.slots, self.area.len(), &mut out), 0);
        out
    }
}

impl Side for Ours {
    fn new() -> Self {
        Ours { slots: vec![0; SLOTS], area: vec![0; INDEX_NAMES] }
    }

    #[inline(never)]
    fn fill(&mut self, replies: &Replies) {
        assert_eq!(raw::index_open(&mut self.slots, self.area.len()), 0);
        for out in &replies.outs {
            assert_eq!(raw::index_add(&mut self.slots, &mut self.area, 0, out, &replies.rx), 0);
        }
    }

    fn between(&self, from: i64, to: i64) -> (usize, usize) {
        let out = self.asked(|slots, area, out| raw::index_between(slots, area, from, to, out));
        (word(&out, 0) as usize, word(&out, 1) as usize)
    }

    fn latest(&self, time: i64) -> Option<usize> {
        let out = self.asked(|slots, area, out| raw::index_latest(slots, area, time, out));
        (word(&out, 0) == 1).then(|| word(&out, 1) as usize)
    }

    fn item(&self, rank: usize) -> (i64, &[u8]) {
        let out = self.asked(|slots, area, out| raw::index_entry(slots, area, rank, out));
        let start = word(&out, 1) as usize;
        (word(&out, 4) as i64, &self.area[start..start + word(&out, 2) as usize])
    }
}

/// The works by their names, with the most microseconds that each may take. The first three fill, the others ask a full index.
const WORKS: [(&str, f64); 7] = [
    ("fill_ascending", FILL_MOST),
    ("fill_descending", FILL_MOST),
    ("fill_random", FILL_MOST),
    ("between_all", QUERY_MOST),
    ("between_none", QUERY_MOST),
    ("latest_earliest", QUERY_MOST),
    ("between_all_read", f64::INFINITY),
];

fn replies(name: &str) -> Replies {
    let mut rng = Rng::new(1);
    match name {
        "fill_ascending" => Replies::of(0..),
        "fill_descending" => Replies::of((0..).map(|i: i64| -i)),
        _ => Replies::of(std::iter::repeat_with(move || rng.next() as i64)),
    }
}

/// One run of a work: its time in microseconds, and a sum over what it answered.
fn timed<S: Side>(name: &str, replies: &Replies) -> (f64, i64) {
    let mut side = S::new();
    let start = Instant::now();
    side.fill(replies);
    if name.starts_with("fill") {
        return (start.elapsed().as_nanos() as f64 / 1e3, black_box(&side).item(INDEX_ENTRIES / 2).0);
    }
    let (earliest, latest) = (side.item(0).0, side.item(INDEX_ENTRIES - 1).0);
    let mut sum = 0i64;
    let start = Instant::now();
    for _ in 0..AGAIN {
        let (first, last) = black_box((earliest, latest));
        sum = sum.wrapping_add(match name {
            "between_all" => side.between(first, last).0 as i64,
            "between_none" => side.between(first - 1, first - 1).0 as i64,
            "latest_earliest" => side.latest(first).unwrap() as i64,
            _ => read(&side, side.between(first, last)),
        });
    }
    (start.elapsed().as_nanos() as f64 / 1e3 / AGAIN as f64, sum)
}

fn read(side: &impl Side, (many, first): (usize, usize)) -> i64 {
    let items = (first..first + many).map(|rank| side.item(rank));
    items.fold(0, |sum, (time, name)| sum.wrapping_add(time).wrapping_add(black_box(name).len() as i64))
}

/// The shortest of some runs by each side, in turn, as the rows of a table. False where one takes longer than it may.
pub fn table(rounds: usize) -> bool {
    println!("| work | sorted Vec, µs | here, µs | here / Vec | at most, µs |\n|---|---|---|---|---|");
    let mut well = true;
    for (name, most) in WORKS {
        let replies = replies(name);
        let (mut least, mut sums) = ([f64::MAX; 2], [0; 2]);
        for _ in 0..rounds {
            for (i, (time, sum)) in [timed::<Sorted>(name, &replies), timed::<Ours>(name, &replies)].into_iter().enumerate() {
                (least[i], sums[i]) = (least[i].min(time), sum);
            }
        }
        assert_eq!(sums[0], sums[1], "both sides answer the same");
        let limit = if most.is_finite() { most.to_string() } else { "-".into() };
        println!("| {name} | {:.3} | {:.3} | {:.2} | {limit} |", least[0], least[1], least[1] / least[0]);
        if least[1] > most {
            eprintln!("{name} takes longer than it may");
            well = false;
        }
    }
    well
}
