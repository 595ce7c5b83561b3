//! A panel of a test's own, on a Unix socket: files whose listings, numbers and bytes need not agree. As on AOSP's service a
//! FAIL ends the session; the next host is served then.
use super::fake::{data, numbers, request, Numbers};
use super::{with, words};
use std::collections::BTreeMap;
use std::io::Write;
use std::os::unix::net::{UnixListener, UnixStream};
use std::path::Path;
use std::thread;
use std::time::Duration;

/// A folder's numbers.
pub const FOLDER: Numbers = Numbers { mode: 0o040_755, size: 4096, mtime: 5, ino: 9, ctime: 5 };

/// What becomes of a pull.
#[derive(Clone)]
pub enum Pull {
    Data(Vec<u8>),
    /// After so many milliseconds.
    Late(u64, Vec<u8>),
    Fail(&'static str),
}

#[derive(Clone)]
struct File {
    /// Its numbers at each look, and the last one from then on. None is what is not there.
    looks: Vec<Option<Numbers>>,
    pull: Pull,
}

#[derive(Clone, Default)]
pub struct Shelf {
    listings: BTreeMap<Vec<u8>, Vec<(Vec<u8>, Numbers)>>,
    files: BTreeMap<Vec<u8>, File>,
    /// Whether every other folder has one in it.
    pub endless: bool,
}

impl Shelf {
    /// A file in a folder, as it is listed, at each look at it, and when it is pulled.
    pub fn put(mut self, folder: &str, name: &[u8], listed: Numbers, looks: &[Option<Numbers>], pull: Pull) -> Self {
        let folder = folder.as_bytes();
        self.listings.entry(folder.to_vec()).or_default().push((name.to_vec(), listed));
        self.files.insert([folder, b"/", name].concat(), File { looks: looks.to_vec(), pull });
        self
    }

    /// A file that is as it seems.
    pub fn job(self, folder: &str, name: &[u8], bytes: &[u8]) -> Self {
        let numbers = numbers(bytes.len());
        self.put(folder, name, numbers, &[Some(numbers)], Pull::Data(bytes.to_vec()))
    }

    /// Serves so many hosts, one after the other. The last one finds the socket closed behind it.
    pub fn served(mut self, socket: &Path, hosts: usize) {
        let listener = UnixListener::bind(socket).unwrap();
        thread::spawn(move || {
            for _ in 1..hosts {
                self.serve(&mut listener.accept().unwrap().0);
            }
            let mut last = listener.accept().unwrap().0;
            drop(listener);
            self.serve(&mut last);
        });
    }

    pub fn serve(&mut self, stream: &mut UnixStream) {
        while let Some((id, path)) = request(stream) {
            let (reply, ends) = match id.as_str() {
                "LIST" | "LIS2" => (self.listing(&id, &path), false),
                "STAT" | "STA2" => (self.look(&id, &path), false),
                "RECV" | "RCV2" => self.pull(&path),
                _ => (Vec::new(), true),
            };
            if stream.write_all(&reply).is_err() || ends {
                return;
            }
        }
    }

    fn listing(&self, id: &str, folder: &[u8]) -> Vec<u8> {
        let mut reply = Vec::new();
        let inner = vec![(b"folder".to_vec(), FOLDER)];
        let others = if self.endless { Some(&inner) } else { None };
        for (name, numbers) in self.listings.get(folder).or(others).into_iter().flatten() {
            let (head, numbers) = if id == "LIST" { (b"DENT", numbers.v1()) } else { (b"DNT2", numbers.v2()) };
            reply.extend([head, &numbers[4..], &(name.len() as u32).to_le_bytes(), name].concat());
        }
        reply.extend(super::listing_end(if id == "LIST" { 20 } else { 76 }));
        reply
    }

    fn look(&mut self, id: &str, path: &[u8]) -> Vec<u8> {
        let look = self.files.get_mut(path).and_then(|file| match file.looks.len() {
            1 => file.looks[0],
            _ => file.looks.remove(0),
        });
        match (look, id) {
            (Some(numbers), "STAT") => numbers.v1(),
            (Some(numbers), _) => numbers.v2(),
            (None, "STAT") => words(b"STAT", &[0; 3]),
            (None, _) => words(b"STA2", &[&[2][..], &[0; 16]].concat()),
        }
    }

    fn pull(&self, path: &[u8]) -> (Vec<u8>, bool) {
        match &self.files[path].pull {
            Pull::Data(bytes) => (data(bytes), false),
            Pull::Late(milliseconds, bytes) => {
                thread::sleep(Duration::from_millis(*milliseconds));
                (data(bytes), false)
            }
            Pull::Fail(text) => (with(b"FAIL", text.as_bytes()), true),
        }
    }
}
