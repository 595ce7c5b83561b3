//! A panel's own jobs, in memory.
use super::files::{or_errno, Files, ENOENT, IS_FOLDER, NOT_THERE, READ_ONLY};
use crate::answer::StatV2;
use crate::numbers::FileMode;
use std::collections::BTreeMap;
use std::io::{Cursor, Read};

struct Job {
    mode: FileMode,
    mtime: u32,
    data: Vec<u8>,
}

pub(super) struct Jobs(BTreeMap<Vec<u8>, Job>);

const FOLDER: FileMode = FileMode(0o040_771);

impl Jobs {
    pub(super) fn samples() -> Self {
        let mut jobs = Self(BTreeMap::new());
        let mut put = |name: &[u8], mtime, data| {
            let path = [b"/jobs/", name].concat();
            jobs.0.insert(path, Job { mode: FileMode(0o100_660), mtime, data });
        };
        put(b"1998-toric.job", 892_000_000, toric(200));
        put(b"empty.job", 900_000_000, Vec::new());
        put(b"sphere.job", 1_000_000_000, surface("SPHERE", 128, |x, y| (x * x + y * y) / 1_060_000));
        put(b"odd\tname\xFF.job", 1_500_000_000, b"ODD NAME\n".to_vec());
        put("глянец.job".as_bytes(), 1_700_000_000, b"SPH -2.25\n".to_vec());
        jobs
    }

    fn is_folder(&self, path: &[u8]) -> bool {
        let inside = [path, b"/"].concat();
        path.is_empty() || self.0.keys().any(|job| job.starts_with(&inside))
    }
}

/// A toric surface: two curvatures, across and along.
fn toric(side: i64) -> Vec<u8> {
    surface("TORIC 1998", side, |x, y| x * x / 1_060_000 + y * y / 940_000)
}

/// A line that names the surface, then its heights in micrometres, a row after the other.
fn surface(name: &str, side: i64, height: impl Fn(i64, i64) -> i64) -> Vec<u8> {
    let mut data = format!("{name} {side}x{side}\n").into_bytes();
    let step = 80_000 / side;
    for row in 0..side {
        for column in 0..side {
            let (x, y) = (column * step - 40_000, row * step - 40_000);
            data.extend_from_slice(&(height(x, y) as i32).to_le_bytes());
        }
    }
    data
}

/// A path without slashes at its end.
fn trimmed(path: &[u8]) -> &[u8] {
    let length = path.iter().rposition(|b| *b != b'/').map_or(0, |last| last + 1);
    &path[..length]
}

impl Files for Jobs {
    fn stat(&self, path: &[u8]) -> Result<StatV2, u32> {
        let path = trimmed(path);
        if let Some(job) = self.0.get(path) {
            let ino = 1 + self.0.range(..path.to_vec()).count() as u64;
            let (size, time) = (job.data.len() as u64, i64::from(job.mtime));
            let times = StatV2 { atime: time, mtime: time, ctime: time, ..StatV2::default() };
            return Ok(StatV2 { dev: 1998, ino, mode: job.mode, nlink: 1, uid: 2000, gid: 2000, size, ..times });
        }
        if self.is_folder(path) {
            return Ok(StatV2 { dev: 1998, mode: FOLDER, nlink: 2, size: 4096, ..StatV2::default() });
        }
        Err(ENOENT)
    }

    fn list(&self, path: &[u8]) -> Vec<(Vec<u8>, StatV2)> {
        let inside = [trimmed(path), b"/"].concat();
        let mut names: Vec<Vec<u8>> = Vec::new();
        for job in self.0.keys().filter_map(|job| job.strip_prefix(&inside[..])) {
            let name = job.split(|b| *b == b'/').next().unwrap_or_default().to_vec();
            if names.last() != Some(&name) {
                names.push(name);
            }
        }
        let stat = |name: &[u8]| or_errno(self.stat(&[&inside, name].concat()));
        names.into_iter().map(|name| (name.clone(), stat(&name))).collect()
    }

    fn open(&self, path: &[u8]) -> Result<Box<dyn Read>, String> {
        match self.0.get(path) {
            Some(job) => Ok(Box::new(Cursor::new(job.data.clone()))),
            None if self.is_folder(trimmed(path)) => Err(IS_FOLDER.into()),
            None => Err(NOT_THERE.into()),
        }
    }

    fn may_write(&self, path: &[u8]) -> Result<(), String> {
        match path.first() {
            _ if self.is_folder(trimmed(path)) => Err("couldn't create file: Is a directory".into()),
            Some(b'/') => Ok(()),
            _ => Err(READ_ONLY.into()),
        }
    }

    fn write(&mut self, path: &[u8], mode: FileMode, mtime: u32, data: &[u8]) -> Result<(), String> {
        self.may_write(path)?;
        self.0.insert(path.to_vec(), Job { mode, mtime, data: data.to_vec() });
        Ok(())
    }
}
