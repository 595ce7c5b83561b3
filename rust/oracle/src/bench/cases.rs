//! What is measured: a kind of work, the capacity, the size of a read, how many.
use super::script::Script;

#[derive(Clone, Copy, PartialEq, Eq)]
pub enum Kind {
    Stat, StatV2, List, ListV2, Pull, PullV2, Push, PushV2,
}
use Kind::*;

pub const BANNER: &[u8] = b"device::features=stat_v2,ls_v2,sendrecv_v2";
pub const PATH: &str = "/data/jobs/job00001.dat";
const CHUNK: usize = 65_536;

/// Name, kind, capacity, bytes in a read, how many (stats, entries, messages of 65,536).
pub const CASES: [(&str, Kind, usize, usize, usize); 20] = [
    ("pull_16384", Pull, 65_544, 16_384, 64),
    ("pull_512", Pull, 65_544, 512, 64),
    ("pull_64", Pull, 65_544, 64, 64),
    ("pull_1", Pull, 65_544, 1, 64),
    ("pull_v2_16384", PullV2, 65_544, 16_384, 64),
    ("pull_v2_512", PullV2, 65_544, 512, 64),
    ("pull_v2_64", PullV2, 65_544, 64, 64),
    ("pull_v2_1", PullV2, 65_544, 1, 64),
    ("push_65544", Push, 65_544, 16_384, 64),
    ("push_4096", Push, 4_096, 16_384, 64),
    ("push_v2_65544", PushV2, 65_544, 16_384, 64),
    ("push_v2_4096", PushV2, 4_096, 16_384, 64),
    ("list_65544", List, 65_544, 16_384, 40_000),
    ("list_4096", List, 4_096, 16_384, 40_000),
    ("list_v2_65544", ListV2, 65_544, 16_384, 40_000),
    ("list_v2_4096", ListV2, 4_096, 16_384, 40_000),
    ("stat_65544", Stat, 65_544, 16_384, 40_000),
    ("stat_4096", Stat, 4_096, 16_384, 40_000),
    ("stat_v2_65544", StatV2, 65_544, 16_384, 40_000),
    ("stat_v2_4096", StatV2, 4_096, 16_384, 40_000),
];

pub struct Case {
    pub kind: Kind,
    pub capacity: usize,
    pub step: usize,
    pub count: usize,
    pub incoming: Vec<u8>,
    /// what a push sends
    pub data: Vec<u8>,
}

impl Case {
    /// The case of this name, with `percent` of its count.
    pub fn named(name: &str, percent: usize) -> Option<Case> {
        let (_, kind, capacity, step, count) = *CASES.iter().find(|c| c.0 == name)?;
        let count = (count * percent / 100).max(1);
        let data = if matches!(kind, Push | PushV2) { bytes(count * CHUNK, 1) } else { vec![] };
        Some(Case { kind, capacity, step, count, incoming: incoming(kind, count), data })
    }

    pub fn script(&self) -> Script<'_> {
        let (open, reply) = match self.kind {
            Stat => (0, 16),
            StatV2 => (0, 72),
            _ => (self.incoming.len(), 0),
        };
        Script { incoming: &self.incoming, at: 0, open, step: self.step, reply }
    }
}

fn bytes(count: usize, from: usize) -> Vec<u8> {
    (0..count).map(|k| (k * 7 + from) as u8).collect()
}

// a record of this size with some numbers in it, and no error in v2's
fn record(id: &[u8; 4], size: usize, i: usize) -> Vec<u8> {
    let mut record = bytes(size, i);
    record[..4].copy_from_slice(id);
    if size >= 72 {
        record[4..8].fill(0);
    }
    record
}

fn incoming(kind: Kind, count: usize) -> Vec<u8> {
    match kind {
        Stat => (0..count).flat_map(|i| record(b"STAT", 16, i)).collect(),
        StatV2 => (0..count).flat_map(|i| record(b"STA2", 72, i)).collect(),
        List => listing(b"DENT", 20, count),
        ListV2 => listing(b"DNT2", 76, count),
        Pull | PullV2 => {
            let mut all = vec![];
            for i in 0..count {
                all.extend(b"DATA\0\0\x01\0");
                all.extend(bytes(CHUNK, i));
            }
            all.extend(b"DONE\0\0\0\0");
            all
        }
        Push | PushV2 => b"OKAY\0\0\0\0".to_vec(),
    }
}

fn listing(id: &[u8; 4], size: usize, count: usize) -> Vec<u8> {
    let mut all = vec![];
    for i in 0..count {
        let name = format!("job{i:05}.dat");
        all.extend(&record(id, size - 4, i));
        all.extend((name.len() as u32).to_le_bytes());
        all.extend(name.as_bytes());
    }
    all.extend(b"DONE");
    all.extend(vec![0; size - 4]);
    all
}
