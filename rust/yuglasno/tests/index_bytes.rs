//! The five functions of the index, by the bytes of slots, area and reply: what each answers, what it writes, and what it leaves alone.
use yuglasno::raw::{self, REPLY, SLOTS};
use yuglasno::{INDEX_ENTRIES, INDEX_NAMES};

const STAT: u64 = 2;
const ENTRY: u64 = 4;
const ENTRY_V2: u64 = 5;
const CHUNK: u64 = 6;

/// Slots and area, both filled with a byte that shows where nothing was written.
#[derive(Clone, PartialEq, Debug)]
struct Lent {
    slots: Vec<u8>,
    area: Vec<u8>,
}

fn word(bytes: &[u8], i: usize) -> u64 {
    u64::from_le_bytes(bytes[8 * i..8 * i + 8].try_into().unwrap())
}

fn put(bytes: &mut [u8], i: usize, number: u64) {
    bytes[8 * i..8 * i + 8].copy_from_slice(&number.to_le_bytes());
}

/// A reply of this kind, with a part of the receive buffer and this time.
fn reply(kind: u64, (start, length): (u64, u64), time: i64) -> [u8; REPLY] {
    let mut out = [0xEE; REPLY];
    let at = if kind == ENTRY { 5 } else { 12 };
    for (i, number) in [(0, kind), (1, start), (2, length), (at, time as u64)] {
        put(&mut out, i, number);
    }
    out
}

impl Lent {
    fn opened(area: usize) -> Self {
        let mut lent = Self { slots: vec![0xEE; SLOTS], area: vec![0xEE; area] };
        assert_eq!(raw::index_open(&mut lent.slots, area), 0);
        lent
    }

    fn add(&mut self, name: &[u8], time: i64) -> u32 {
        let reply = reply(ENTRY_V2, (1, name.len() as u64), time);
        raw::index_add(&mut self.slots, &mut self.area, 0, &reply, &[b"<", name, b">"].concat())
    }

    /// Makes a call that is answered `number` and must leave slots and area as they are.
    fn unaltered(&mut self, number: u32, call: impl Fn(&mut [u8], &mut [u8]) -> u32) {
        let before = self.clone();
        assert_eq!(call(&mut self.slots, &mut self.area), number);
        assert!(*self == before, "{number} altered a byte");
    }
}

#[test]
fn opening() {
    for length in [0, 31, SLOTS - 1, SLOTS + 1] {
        let mut slots = vec![0xEE; length];
        assert_eq!(raw::index_open(&mut slots, 5), 3);
        assert!(slots.iter().all(|byte| *byte == 0xEE));
    }
    for area in [0, 5, INDEX_NAMES, INDEX_NAMES + 1, usize::MAX] {
        let mut slots = vec![0xEE; SLOTS];
        assert_eq!(raw::index_open(&mut slots, area), 0);
        assert_eq!(
            (&slots[..8], word(&slots, 1), word(&slots, 2), word(&slots, 3)),
            (&b"yugindex"[..], area as u64, 0, 0)
        );
        assert!(slots[32..].iter().all(|byte| *byte == 0xEE));
    }
}

/// The layout: entries in time order, 16 bytes each; the names from the area's front.
#[test]
fn the_slots() {
    let mut lent = Lent::opened(10);
    assert_eq!((lent.add(b"a", 5), lent.add(b"bcd", -3), lent.add(b"", 5)), (0, 0, 0));
    assert_eq!((word(&lent.slots, 2), word(&lent.slots, 3)), (3, 4));
    let slots = [(-3i64, 1u64, 3u64, 1u64), (5, 0, 1, 0), (5, 4, 0, 2)];
    for (rank, (time, start, length, number)) in slots.into_iter().enumerate() {
        assert_eq!(word(&lent.slots, 4 + 2 * rank), time as u64);
        assert_eq!(word(&lent.slots, 5 + 2 * rank), start | (4096 * length + number) << 32);
    }
    assert!(lent.slots[80..].iter().all(|byte| *byte == 0xEE));
    assert_eq!(lent.area, b"abcd\xEE\xEE\xEE\xEE\xEE\xEE");
}

/// What is answered 3, ahead of 19: an index that is full meets the same.
#[test]
fn no_index() {
    for area in [0, 4] {
        let mut lent = Lent::opened(area);
        lent.add(&b"abcd"[..area], 5);
        let entry = reply(ENTRY, (0, 5), 5);
        lent.unaltered(19, |slots, area| raw::index_add(slots, area, 0, &entry, b"efghi"));
        lent.unaltered(3, |slots, area| raw::index_add(&mut slots[1..], area, 0, &entry, b"efghi"));
        lent.unaltered(3, |slots, area| raw::index_add(slots, &mut [&area[..], b"x"].concat(), 0, &entry, b"efghi"));
        lent.unaltered(3, |slots, area| raw::index_add(slots, area, 0, &entry[..REPLY - 1], b"efghi"));
        lent.unaltered(3, |slots, _| raw::index_add(slots, &mut [0; 3], 0, &entry, b"efghi"));
        let (mark, entries) = (word(&lent.slots, 0), INDEX_ENTRIES as u64);
        for (at, number) in [(0, 0), (0, mark ^ 1 << 56), (1, 9), (2, entries + 1), (3, area as u64 + 1), (2, u64::MAX)]
        {
            let mut other = lent.clone();
            put(&mut other.slots, at, number);
            other.unaltered(3, |slots, area| raw::index_add(slots, area, 0, &entry, b"efghi"));
            queried(&other, 3);
        }
        queried(&lent, 0);
    }
}

/// A query of slots beside an area of this length, and the slice for its reply.
type Query<'a> = &'a dyn Fn(&[u8], usize, &mut [u8]) -> u32;

/// Each query is answered so and leaves the slots alone; where that is 3 the reply too.
fn queried(lent: &Lent, number: u32) {
    let (slots, area, before) = (&lent.slots[..], lent.area.len(), lent.clone());
    let queries: [Query<'_>; 3] = [
        &|slots, area, out| raw::index_between(slots, area, 0, 9, out),
        &|slots, area, out| raw::index_latest(slots, area, 9, out),
        &|slots, area, out| raw::index_entry(slots, area, 0, out),
    ];
    for (query, words) in queries.iter().zip([2, 2, 5]) {
        for (slots, area, length, number) in [
            (slots, area, REPLY, number),
            (&slots[..SLOTS - 1], area, REPLY, 3),
            (slots, area + 1, REPLY, 3),
            (slots, area, REPLY - 1, 3),
        ] {
            let mut out = vec![0xEE; length];
            assert_eq!(query(slots, area, &mut out), number);
            let written = if number == 0 { 8 * words } else { 0 };
            assert!(out[written..].iter().all(|byte| *byte == 0xEE) && *lent == before);
        }
    }
}

/// Replies that carry no entry, and those that no session writes.
#[test]
fn replies_of_any_kind() {
    let mut lent = Lent::opened(8);
    let rx = b"name";
    for told in [1, 2, 5, 256, 3 << 8, 14 << 8, u32::MAX] {
        lent.unaltered(0, |slots, area| raw::index_add(slots, area, told, &reply(9, (9, 9), 0), rx));
    }
    for kind in [0, 1, STAT, 3] {
        lent.unaltered(0, |slots, area| raw::index_add(slots, area, 0, &reply(kind, (9, 9), 0), rx));
    }
    lent.unaltered(0, |slots, area| raw::index_add(slots, area, 0, &reply(CHUNK, (0, 4), 0), rx));
    for kind in [7, 8, 260, u64::MAX] {
        lent.unaltered(3, |slots, area| raw::index_add(slots, area, 0, &reply(kind, (0, 4), 0), rx));
    }
    for kind in [ENTRY, ENTRY_V2, CHUNK] {
        for part in [(0, 5), (4, 1), (5, 0), (u64::MAX, 1), (1, u64::MAX), (u64::MAX, u64::MAX)] {
            lent.unaltered(3, |slots, area| raw::index_add(slots, area, 0, &reply(kind, part, 0), rx));
        }
    }
    lent.unaltered(3, |slots, area| raw::index_add(slots, area, 0, &reply(ENTRY, (0, 4), 1 << 32), rx));
    assert_eq!(raw::index_add(&mut lent.slots, &mut lent.area, 0, &reply(ENTRY, (4, 0), u32::MAX.into()), rx), 0);
    assert_eq!(
        raw::index_add(&mut lent.slots, &mut lent.area, 0, &[&reply(ENTRY_V2, (0, 4), -1)[..], b"more"].concat(), rx),
        0
    );
    assert_eq!(&lent.area[..4], rx);
}

#[test]
fn entries_run_out() {
    let mut lent = Lent::opened(INDEX_NAMES);
    for i in 0..INDEX_ENTRIES as i64 {
        assert_eq!(lent.add(b"name", (i * 7919) % 4096), 0);
    }
    lent.unaltered(19, |slots, area| raw::index_add(slots, area, 0, &reply(ENTRY_V2, (0, 0), 0), b""));
    lent.unaltered(19, |slots, area| raw::index_add(slots, area, 0, &reply(ENTRY, (0, 1), 5), b"x"));
    for kind in [STAT, CHUNK] {
        lent.unaltered(0, |slots, area| raw::index_add(slots, area, 0, &reply(kind, (0, 0), 0), b""));
    }
    for (kind, part, time) in [(ENTRY, (0, 1), 0), (ENTRY_V2, (1, 0), 0), (ENTRY, (0, 0), 1 << 32), (7, (0, 0), 0)] {
        lent.unaltered(3, |slots, area| raw::index_add(slots, area, 0, &reply(kind, part, time), b""));
    }
    lent.unaltered(3, |slots, area| raw::index_add(slots, &mut area[1..], 0, &reply(ENTRY, (0, 0), 0), b""));
    let mut out = [0; REPLY];
    for rank in 0..INDEX_ENTRIES {
        assert_eq!(raw::index_entry(&lent.slots, INDEX_NAMES, rank, &mut out), 0);
        let number = word(&out, 3);
        assert_eq!((word(&out, 0), word(&out, 1), word(&out, 2), word(&out, 4)), (1, 4 * number, 4, rank as u64));
        assert_eq!(number * 7919 % 4096, rank as u64);
    }
}

/// No more than 65,536 bytes of an area are used, and each of them.
#[test]
fn names_run_out() {
    let rx = vec![b'n'; INDEX_NAMES + 1];
    for (area, most) in [(65_535, 65_535), (65_536, 65_536), (65_537, 65_536)] {
        let mut lent = Lent::opened(area);
        let of = |length: usize| reply(ENTRY_V2, (0, length as u64), 7);
        lent.unaltered(19, |slots, area| raw::index_add(slots, area, 0, &of(most + 1), &rx));
        assert_eq!(raw::index_add(&mut lent.slots, &mut lent.area, 0, &of(most - 1), &rx), 0);
        lent.unaltered(19, |slots, area| raw::index_add(slots, area, 0, &of(2), &rx));
        for length in [0, 1, 0] {
            assert_eq!(raw::index_add(&mut lent.slots, &mut lent.area, 0, &of(length), &rx), 0);
        }
        lent.unaltered(19, |slots, area| raw::index_add(slots, area, 0, &of(1), &rx));
        assert!(
            lent.area[..most].iter().all(|byte| *byte == b'n') && lent.area[most..].iter().all(|byte| *byte == 0xEE)
        );
        assert_eq!((word(&lent.slots, 2), word(&lent.slots, 3)), (4, most as u64));
    }
}

/// One name may have all of the bytes, and one of none may stand behind it.
#[test]
fn the_longest_name() {
    let rx = vec![b'n'; INDEX_NAMES];
    for area in [INDEX_NAMES, INDEX_NAMES + 1] {
        let mut lent = Lent::opened(area);
        let mut out = [0; REPLY];
        for (rank, length) in [INDEX_NAMES as u64, 0].into_iter().enumerate() {
            let entry = reply(ENTRY, (0, length), 7);
            assert_eq!(raw::index_add(&mut lent.slots, &mut lent.area, 0, &entry, &rx), 0);
            assert_eq!(raw::index_entry(&lent.slots, area, rank, &mut out), 0);
            let start = INDEX_NAMES as u64 - length;
            assert_eq!([0, 1, 2, 3, 4].map(|i| word(&out, i)), [1, start, length, rank as u64, 7]);
        }
        put(&mut lent.slots, 3, INDEX_NAMES as u64 + 1);
        queried(&lent, 3);
    }
}

/// The words that queries write, and no others.
#[test]
fn queries() {
    let mut lent = Lent::opened(8);
    for (name, time) in [(b"a", 5), (b"b", 3), (b"c", 5)] {
        assert_eq!(lent.add(name, time), 0);
    }
    let before = lent.clone();
    let mut out = [0xEE; REPLY];
    for (from, to, many, first) in [(3, 5, 3, 0), (4, 5, 2, 1), (5, 4, 0, 1), (6, 9, 0, 3), (0, 2, 0, 0), (9, 0, 0, 3)]
    {
        assert_eq!(raw::index_between(&lent.slots, 8, from, to, &mut out), 0);
        assert_eq!((word(&out, 0), word(&out, 1)), (many, first), "{from} to {to}");
    }
    for (time, many, rank) in [(5, 1, 1), (i64::MAX, 1, 1), (4, 1, 0), (3, 1, 0), (2, 0, 0), (i64::MIN, 0, 0)] {
        assert_eq!(raw::index_latest(&lent.slots, 8, time, &mut out), 0);
        assert_eq!((word(&out, 0), word(&out, 1)), (many, rank), "{time}");
    }
    assert!(out[16..].iter().all(|byte| *byte == 0xEE));
    for (rank, words) in
        [(0, [1, 1, 1, 1, 3]), (1, [1, 0, 1, 0, 5]), (2, [1, 2, 1, 2, 5]), (3, [0; 5]), (usize::MAX, [0; 5])]
    {
        assert_eq!(raw::index_entry(&lent.slots, 8, rank, &mut out), 0);
        assert_eq!([0, 1, 2, 3, 4].map(|i| word(&out, i)), words, "rank {rank}");
    }
    assert!(out[40..].iter().all(|byte| *byte == 0xEE));
    assert!(lent == before);
}

/// A slot that the library did not write: its name is within those that the area holds, or 3.
#[test]
fn a_name_outside() {
    let mut lent = Lent::opened(8);
    lent.add(b"abcd", 5);
    let mut out = [0xEE; REPLY];
    for (start, length, number) in
        [(0, 4, 0), (4, 0, 0), (3, 1, 0), (0, 5, 3), (4, 1, 3), (5, 0, 3), (u64::from(u32::MAX), 1, 3)]
    {
        put(&mut lent.slots, 5, start | (4096 * length) << 32);
        assert_eq!(raw::index_entry(&lent.slots, 8, 0, &mut out), number, "{start} and {length}");
    }
}
