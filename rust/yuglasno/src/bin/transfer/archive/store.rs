//! Jobs that were pulled, on their way into DIR.
//!
//! Files, names and lines are flushed for a batch of jobs at once: the drafts, then DETAILS, then the folders with the
//! jobs' names, then SHA256SUMS. Nothing is lost by that: what DIR says it holds is what SHA256SUMS has on disk, and a job
//! gets there only behind the flush of its bytes and of its name. An interruption costs the jobs of one batch, which are
//! pulled again. Several drafts are flushed at the same time, because a journal takes them in one go.
use super::dir::Dir;
use super::lists::Lists;
use crate::keep::flush_folder;
use crate::stop::{Stop, IO};
use std::collections::BTreeSet;
use std::fs::{self, File};
use std::io;
use std::path::{Path, PathBuf};
use std::thread;
use std::time::{Duration, Instant};
use yuglasno::archive::folders;
use yuglasno::archive::numbers::Numbers;
use yuglasno::archive::sha256::{sum_of, Sum};

/// A batch ends with so many jobs, or after so long.
const MOST: usize = 128;
const LONGEST: Duration = Duration::from_secs(1);
/// How many drafts are flushed at the same time.
const AT_ONCE: usize = 16;

/// A job whose draft is whole and checked.
pub struct Pulled {
    pub name: Vec<u8>,
    pub draft: PathBuf,
    /// Until it is flushed.
    pub file: Option<File>,
    pub sum: Sum,
    pub numbers: Numbers,
    /// Whether a file has its name that it may replace.
    pub over: bool,
}

pub struct Store {
    pub dir: Dir,
    pub lists: Lists,
    batch: Vec<Pulled>,
    begun: Instant,
    /// Jobs that were listed so far.
    pub added: usize,
}

/// A job's name, and why it is left out.
pub type LeftOut = (Vec<u8>, String);

impl Store {
    pub fn opened(path: &Path) -> Result<Self, Stop> {
        let dir = Dir::opened(path)?;
        let lists = Lists::mended(path)?;
        Ok(Self { dir, lists, batch: Vec::new(), begun: Instant::now(), added: 0 })
    }

    /// Takes a job into the batch. Says which jobs were left out, where that ended one.
    pub fn take(&mut self, pulled: Pulled) -> Result<Vec<LeftOut>, Stop> {
        if self.batch.is_empty() {
            self.begun = Instant::now();
        }
        self.batch.push(pulled);
        if self.batch.len() < MOST && self.begun.elapsed() < LONGEST {
            return Ok(Vec::new());
        }
        self.commit()
    }

    /// Names and lists the batch's jobs. One that can't have its name is left out.
    pub fn commit(&mut self) -> Result<Vec<LeftOut>, Stop> {
        let mut left_out = Vec::new();
        let mut batch = std::mem::take(&mut self.batch);
        batch.retain_mut(|pulled| {
            let step = self.may_have_its_name(pulled).map(|over| pulled.over = over);
            goes(pulled, step, &mut left_out)
        });
        if !batch.is_empty() {
            let dir = self.dir.path.clone();
            let cannot = |error| Stop::new(IO, dir.display(), error);
            flushed(&batch).map_err(cannot)?;
            batch.iter_mut().for_each(|pulled| pulled.file = None);
            let of = |pulled: &Pulled| (pulled.name.clone(), pulled.numbers);
            self.lists.announce(&batch.iter().map(of).collect::<Vec<_>>())?;
            let mut nameless = Vec::new();
            batch.retain(|pulled| {
                let goes = goes(pulled, named(&dir, pulled), &mut left_out);
                nameless.extend((!goes && !pulled.over).then(|| pulled.name.clone()));
                goes
            });
            self.lists.withdraw(&nameless)?;
            folders_flushed(&dir, &batch).map_err(cannot)?;
            self.lists.confirm(&batch.iter().map(|pulled| (pulled.name.clone(), pulled.sum)).collect::<Vec<_>>())?;
            self.added += batch.len();
        }
        Ok(left_out)
    }

    /// A file that is there and not the archive's own stays, and is in the way if it is not the same. Says whether there is
    /// one that may be replaced.
    fn may_have_its_name(&self, pulled: &Pulled) -> io::Result<bool> {
        folders::made(&self.dir.path, &pulled.name)?;
        match folders::found(&self.dir.path, &pulled.name)? {
            None => Ok(false),
            Some(found) if !found.is_file() => Err(taken("by what is no regular file")),
            Some(_) if self.lists.owns(&pulled.name) => Ok(true),
            Some(_) => match sum_of(&mut File::open(folders::place(&self.dir.path, &pulled.name))?)? {
                (sum, _) if sum == pulled.sum => Ok(true),
                _ => Err(taken("by another file that is in no list")),
            },
        }
    }
}

fn taken(by: &str) -> io::Error {
    io::Error::new(io::ErrorKind::AlreadyExists, format!("its name is taken in DIR, {by}"))
}

/// The drafts on disk.
fn flushed(batch: &[Pulled]) -> io::Result<()> {
    thread::scope(|scope| {
        let parts = batch.chunks(batch.len().div_ceil(AT_ONCE).max(1));
        let flush = |part: &[Pulled]| part.iter().flat_map(|pulled| &pulled.file).try_for_each(File::sync_all);
        let spawned = parts.map(|part| thread::Builder::new().spawn_scoped(scope, move || flush(part)));
        let flushes = spawned.collect::<io::Result<Vec<_>>>()?;
        flushes.into_iter().try_for_each(|flush| flush.join().unwrap_or_else(|_| Err(io::ErrorKind::Other.into())))
    })
}

/// Whether a job goes on; else it is left out, and its draft goes.
fn goes(pulled: &Pulled, step: io::Result<()>, left_out: &mut Vec<LeftOut>) -> bool {
    match step {
        Ok(()) => true,
        Err(error) => {
            left_out.push((pulled.name.clone(), error.to_string()));
            let _ = fs::remove_file(&pulled.draft);
            false
        }
    }
}

/// What has come to the name since it was looked at stays: a file of the user's, or a job whose name is another to the panel and
/// the same to DIR's file system.
fn named(dir: &Path, pulled: &Pulled) -> io::Result<()> {
    if !pulled.over && folders::found(dir, &pulled.name)?.is_some() {
        return Err(taken("by a file that has just come there"));
    }
    fs::rename(&pulled.draft, folders::place(dir, &pulled.name))
}

/// The folders that the jobs are in, up to DIR, on disk.
fn folders_flushed(dir: &Path, batch: &[Pulled]) -> io::Result<()> {
    let folders: BTreeSet<&[u8]> = batch.iter().flat_map(|pulled| folders::above(&pulled.name)).collect();
    folders.into_iter().try_for_each(|folder| flush_folder(&folders::place(dir, folder)))
}

#[cfg(test)]
mod tests {
    use super::*;

    /// As where the user is quicker, or on a file system to which two names are one.
    #[test]
    fn a_name_that_is_taken_in_the_last_moment() {
        let dir = std::env::temp_dir().join(format!("yuglasno-store-{}", std::process::id()));
        let _ = fs::remove_dir_all(&dir);
        let mut store = Store::opened(&dir).unwrap_or_else(|stop| panic!("{}", stop.text));
        let (file, draft) = store.dir.draft().unwrap_or_else(|stop| panic!("{}", stop.text));
        let numbers = Numbers { size: 0, mtime: 5, mode: 0o100_644 };
        let sum = sum_of(&mut io::empty()).unwrap().0;
        let mut pulled = Pulled { name: b"a".to_vec(), draft, file: Some(file), sum, numbers, over: false };
        fs::write(dir.join("a"), "of the user's").unwrap();
        let error = named(&dir, &pulled).unwrap_err().to_string();
        assert_eq!(error, "its name is taken in DIR, by a file that has just come there");
        assert_eq!(fs::read(dir.join("a")).unwrap(), b"of the user's");
        pulled.over = true;
        named(&dir, &pulled).unwrap();
        assert_eq!(fs::read(dir.join("a")).unwrap(), b"");
        drop(store);
        fs::remove_dir_all(&dir).unwrap();
    }
}
