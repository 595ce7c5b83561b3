//! The index beside a listing: what it answers, in both versions and however the cable cuts; what it has no room for; and that the listing
//! answers as it does without one.
mod common;
use common::dated::*;
use common::*;
use yuglasno::panel::Panel;
use yuglasno::{Call, Details, Error, Index, Item, Report, Session, Step, INDEX_ENTRIES, INDEX_NAMES};

type Entries<'a> = &'a [(&'a [u8], i64)];

fn session(banner: &[u8]) -> Session<Vec<u8>> {
    Session::open(banner, vec![0; 512], vec![0; 512]).unwrap()
}

/// An index with an area of this length, filled beside the listing; and the number that each entry was answered with.
fn filled(version: Version, entries: Entries<'_>, cut: usize, area: usize) -> (Index<Vec<u8>>, Vec<u32>) {
    let mut link = Script::new(&version.listing(entries), cut, End::Closed);
    let mut index = Index::open(vec![0xEE; area]);
    let mut numbers = Vec::new();
    let count = session(version.banner()).entries_into(&mut link, "/jobs", &mut index, |name, details, added| {
        assert_eq!((name, details.mtime()), entries[numbers.len()]);
        numbers.push(added.map_or_else(|error| error.number(), |()| 0));
    });
    assert_eq!((count.unwrap(), numbers.len()), (entries.len() as u64, entries.len()));
    (index, numbers)
}

fn names(index: &Index<Vec<u8>>, from: i64, to: i64) -> Vec<&[u8]> {
    index.between(from, to).map(|item| item.name).collect()
}

/// Items as they should be: in time order, equal times in listing order.
fn in_order<'a>(entries: Entries<'a>) -> Vec<Item<'a>> {
    let item = |(number, (name, mtime)): (usize, &(&'a [u8], i64))| Item { mtime: *mtime, name, number };
    let mut items: Vec<Item<'a>> = entries.iter().enumerate().map(item).collect();
    items.sort_by_key(|item| item.mtime);
    items
}

/// a is at 5, b at 3, c at 5.
#[test]
fn the_trials() {
    for version in VERSIONS {
        for cut in cuts() {
            let (index, numbers) = filled(version, &[(b"a", 5), (b"b", 3), (b"c", 5)], cut, 3);
            assert_eq!(numbers, [0; 3]);
            assert_eq!(names(&index, 3, 5), [b"b", b"a", b"c"]);
            assert_eq!(index.latest(5), Some(Item { mtime: 5, name: b"a", number: 0 }));
            assert_eq!(index.latest(4), Some(Item { mtime: 3, name: b"b", number: 1 }));
            assert_eq!(index.latest(2), None);
            assert_eq!(names(&index, 5, 4), [b""; 0]);
            assert_eq!(names(&index, i64::MAX, i64::MIN), [b""; 0]);
            assert_eq!((names(&index, 4, 5), names(&index, 3, 3)), (vec![&b"a"[..], b"c"], vec![&b"b"[..]]));
            assert_eq!((index.len(), index.into_area()), (3, b"abc".to_vec()));
        }
    }
}

/// Every span and every moment between and around a few times, against a plain list.
fn agrees(index: &Index<Vec<u8>>, entries: Entries<'_>) {
    let items = in_order(entries);
    let edges = entries.iter().flat_map(|(_, time)| [time.saturating_sub(1), *time, time.saturating_add(1)]);
    let moments: Vec<i64> = edges.chain([i64::MIN, -1, 0, 1, i64::MAX]).collect();
    for from in &moments {
        let latest = items.iter().rev().find(|item| item.mtime <= *from).map(|item| item.mtime);
        assert_eq!(index.latest(*from), items.iter().find(|item| Some(item.mtime) == latest).copied());
        for to in &moments {
            let between = items.iter().filter(|item| (*from..=*to).contains(&item.mtime)).copied();
            assert!(index.between(*from, *to).eq(between), "{from} to {to}");
        }
    }
    assert_eq!((index.len(), index.is_empty()), (items.len(), items.is_empty()));
    assert!(index.between(i64::MIN, i64::MAX).rev().eq(items.into_iter().rev()));
}

/// v1's times have no sign: the greatest is after 0, where v2's -1 is before it.
#[test]
fn the_widest_times() {
    let v1: Entries<'_> = &[(b"last", 4_294_967_295), (b"first", 0), (b"middle", 2_147_483_648)];
    let (index, _) = filled(Version::V1, v1, 7, 64);
    assert_eq!(names(&index, i64::MIN, i64::MAX), [&b"first"[..], b"middle", b"last"]);
    agrees(&index, v1);
    let v2: Entries<'_> =
        &[(b"e", i64::MAX), (b"c", 0), (b"a", i64::MIN), (b"b", -1), (b"d", 4_294_967_295), (b"b2", -1)];
    let (index, _) = filled(Version::V2, v2, 7, 64);
    assert_eq!(names(&index, i64::MIN, i64::MAX), [&b"a"[..], b"b", b"b2", b"c", b"d", b"e"]);
    agrees(&index, v2);
    agrees(&filled(Version::V2, &[], 7, 64).0, &[]);
}

/// An entry that the panel could not look at is one all the same.
#[test]
fn an_entry_with_an_error() {
    let bytes = [Version::V2.entry(b"lost", 7, 13), Version::V2.entry(b"old", -7, 0), Version::V2.end()].concat();
    let mut link = Script::new(&bytes, 1, End::Closed);
    let mut index = Index::open([0; 16]);
    let each = |_: &[u8], details: Details, added: Result<(), Error>| assert!(added.is_ok() && details.error() <= 13);
    assert_eq!(session(b"features=ls_v2").entries_into(&mut link, "/jobs", &mut index, each).unwrap(), 2);
    assert_eq!(index.latest(8), Some(Item { mtime: 7, name: b"lost", number: 0 }));
}

#[test]
fn entries_run_out() {
    let named: Vec<(Vec<u8>, i64)> =
        (0..INDEX_ENTRIES + 3).map(|i| (format!("job{i:05}.dat").into_bytes(), (i as i64 * 7919) % 1000)).collect();
    let entries: Vec<(&[u8], i64)> = named.iter().map(|(name, time)| (&name[..], *time)).collect();
    for version in VERSIONS {
        let (index, numbers) = filled(version, &entries, 1 << 20, INDEX_NAMES);
        let (taken, away) = numbers.split_at(INDEX_ENTRIES);
        assert!(taken.iter().all(|number| *number == 0));
        assert_eq!(away, [19; 3]);
        assert_eq!(index.len(), INDEX_ENTRIES);
        assert!(index.between(i64::MIN, i64::MAX).eq(in_order(&entries[..INDEX_ENTRIES])));
        assert!(index
            .between(500, 501)
            .eq(in_order(&entries[..INDEX_ENTRIES]).into_iter().filter(|i| i.mtime / 2 == 250)));
    }
}

/// An entry for which the name bytes run out is turned away, and no other: a shorter one behind it is taken, and an empty name by a full area.
#[test]
fn names_run_out() {
    let entries: Entries<'_> = &[(b"abcdef", 9), (b"ghijk", 1), (b"", 8), (b"lmno", 5), (b"p", 7), (b"", 6)];
    for version in VERSIONS {
        let (index, numbers) = filled(version, entries, 3, 10);
        assert_eq!(numbers, [0, 19, 0, 0, 19, 0]);
        assert_eq!(names(&index, i64::MIN, i64::MAX), [&b"lmno"[..], b"", b"", b"abcdef"]);
        assert_eq!(index.between(0, 9).map(|item| item.number).collect::<Vec<_>>(), [2, 3, 1, 0]);
        assert_eq!(index.into_area(), b"abcdeflmno");
        let (index, numbers) = filled(version, entries, 3, 0);
        assert_eq!((numbers, index.len()), (vec![19, 19, 0, 19, 19, 0], 2));
    }
}

/// What is behind the names stays.
#[test]
fn behind_the_names() {
    let (index, _) = filled(Version::V1, &[(b"a", 5), (b"bc", 3)], 1, 9);
    index.between(0, 9).for_each(drop);
    assert_eq!(index.into_area(), b"abc\xEE\xEE\xEE\xEE\xEE\xEE");
}

/// An area that gives another length from its second look on.
struct Other {
    bytes: Vec<u8>,
    at_first: usize,
    looks: usize,
}

impl AsMut<[u8]> for Other {
    fn as_mut(&mut self) -> &mut [u8] {
        self.looks += 1;
        let length = if self.looks == 1 { self.at_first } else { self.bytes.len() };
        &mut self.bytes[..length]
    }
}

impl AsRef<[u8]> for Other {
    fn as_ref(&self) -> &[u8] {
        &self.bytes
    }
}

#[test]
fn an_area_of_another_length() {
    let mut index = Index::open(Other { bytes: vec![0; 8], at_first: 0, looks: 0 });
    let mut link = Script::new(&Version::V1.listing(&[(b"a", 5)]), 1, End::Closed);
    let mut told = 0;
    let each = |_: &[u8], _, added: Result<(), Error>| told = added.unwrap_err().number();
    session(b"").entries_into(&mut link, "/jobs", &mut index, each).unwrap();
    assert_eq!((told, index.len()), (3, 0), "3 is ahead of 19, which an area of 0 bytes had been");
}

#[test]
fn the_panels_own_jobs() {
    for (banner, version) in [(&b""[..], Version::V1), (Panel::BANNER, Version::V2)] {
        let mut lists = Vec::new();
        for cut in [1, 5, usize::MAX] {
            let mut index = Index::open(vec![0; INDEX_NAMES]);
            let mut entries = Vec::new();
            let each = |name: &[u8], details: Details, _| entries.push((name.to_vec(), details.mtime()));
            session(banner).entries_into(&mut Panel::with_jobs().cut(cut), "/jobs", &mut index, each).unwrap();
            let entries: Vec<(&[u8], i64)> = entries.iter().map(|(name, time)| (&name[..], *time)).collect();
            assert_eq!(entries.len(), 7);
            agrees(&index, &entries);
            lists.push(index.into_area());
        }
        assert!(lists.windows(2).all(|pair| pair[0] == pair[1]), "{version:?}");
    }
}

/// What a listing answers, entry by entry, and how it ends, with an index or without; and what was written.
fn answers(version: Version, incoming: &[u8], cut: usize, mut index: Option<Index<Vec<u8>>>) -> (Vec<String>, Vec<u8>) {
    let mut link = Script::new(incoming, cut, End::Error(5));
    let mut session = session(version.banner());
    let mut said = Vec::new();
    let mut each = |name: &[u8], details: Details| said.push(format!("{name:?} {details:?}"));
    let ended = match &mut index {
        Some(index) => session.entries_into(&mut link, "/jobs", index, |name, details, _| each(name, details)),
        None => session.entries(&mut link, "/jobs", each),
    };
    said.push(format!("{ended:?}"));
    said.push(format!("{:?}", session.quit(&mut link)));
    (said, link.written())
}

#[test]
fn the_listings_own_answers() {
    for version in VERSIONS {
        let whole = version.listing(&[(b"a", 5), (b"b", 3), (b"a longer name", 4), (b"c", 5)]);
        let failed = [version.entry(b"a", 5, 0), with(b"FAIL", b"no more")].concat();
        let odd = [version.entry(b"a", 5, 0), b"WASH".to_vec()].concat();
        let large = [version.entry(b"a", 5, 0), version.entry(&[b'n'; 600], 5, 0)].concat();
        for incoming in [&whole[..], &whole[..whole.len() - 9], &failed, &odd, &large, b""] {
            for cut in [1, 4, 16_384] {
                let without = answers(version, incoming, cut, None);
                for area in [0, 2, 64] {
                    assert_eq!(answers(version, incoming, cut, Some(Index::open(vec![0; area]))), without);
                }
            }
        }
    }
}

/// Only an entry that was just answered is added: no other answer, no refusal, and nothing while a call is pending.
#[test]
fn what_is_no_entry() {
    let mut index = Index::open(vec![0; 64]);
    let mut session = session(b"features=stat_v2,ls_v2");
    index.add(&mut session).unwrap();
    let replies = [stat(), v2(b"STA2", 0), with(b"DATA", b"heights"), with(b"FAIL", b"no"), v2(b"STA2", 2)];
    let calls = [Call::Stat(b"/a"), Call::StatV2(b"/a"), Call::RecvNext, Call::Stat(b"/a"), Call::StatV2(b"/a")];
    for (reply, call) in replies.iter().zip(calls) {
        let _ = session.call(&mut Script::new(reply, 1, End::Closed), &call);
        index.add(&mut session).unwrap();
    }
    assert!(is_told(session.start(&Call::List(b"a\0b"))));
    index.add(&mut session).unwrap();
    let entry = Version::V2.entry(b"a", 5, 0);
    let Step::Read(window) = session.start(&Call::NextEntryV2) else { panic!() };
    window[..entry.len()].copy_from_slice(&entry);
    index.add(&mut session).unwrap();
    assert!(!is_told(session.report(&Call::NextEntryV2, Report::Read(entry.len() - 1))));
    index.add(&mut session).unwrap();
    assert!(index.is_empty());
    assert!(is_told(session.report(&Call::NextEntryV2, Report::Read(1))));
    index.add(&mut session).unwrap();
    assert_eq!(index.latest(5).unwrap().name, b"a");
}

fn is_told(step: Step<'_>) -> bool {
    matches!(step, Step::Told(_))
}
