//! A panel of a test's own, on a Unix socket: it hears requests, and answers with the stats and the data that it was given.
use super::words;
use std::io::{Read, Write};
use std::os::unix::net::{UnixListener, UnixStream};
use std::path::Path;
use std::thread::{self, JoinHandle};

/// The next request, as its id and its path or data; none at the channel's end.
pub fn request(stream: &mut impl Read) -> Option<(String, Vec<u8>)> {
    let mut header = [0; 8];
    stream.read_exact(&mut header).ok()?;
    let id = String::from_utf8(header[..4].to_vec()).unwrap();
    let length = u32::from_le_bytes(header[4..].try_into().unwrap()) as usize;
    let (length, behind) = match id.as_str() {
        "DONE" | "QUIT" => (0, 0),
        "RCV2" => (length, 8),
        "SND2" => (length, 12),
        _ => (length, 0),
    };
    let mut body = vec![0; length + behind];
    stream.read_exact(&mut body).ok()?;
    body.truncate(length);
    Some((id, body))
}

/// Serves one host: each stat is the next of these, a pull or a listing is answered with `data`, the end of a push with OKAY. Ends
/// where no stat is left. What it heard, DATA left out.
pub fn answer(stream: &mut UnixStream, stats: Vec<Vec<u8>>, data: &[u8]) -> Vec<String> {
    let mut heard = Vec::new();
    let mut stats = stats.into_iter();
    while let Some((id, body)) = request(stream) {
        if id != "DATA" {
            heard.push(format!("{id} {}", String::from_utf8_lossy(&body)));
        }
        match id.as_str() {
            "SEND" | "SND2" | "DATA" => {}
            "STAT" | "STA2" => match stats.next() {
                Some(stat) => stream.write_all(&stat).unwrap(),
                None => break,
            },
            "DONE" => stream.write_all(b"OKAY\0\0\0\0").unwrap(),
            "QUIT" => break,
            _ => stream.write_all(data).unwrap(),
        }
    }
    heard
}

/// The same for the first host on a new socket.
pub fn panel(socket: &Path, stats: Vec<Vec<u8>>, data: Vec<u8>) -> JoinHandle<Vec<String>> {
    let listener = UnixListener::bind(socket).unwrap();
    thread::spawn(move || answer(&mut listener.accept().unwrap().0, stats, &data))
}

/// A v2 file's numbers.
#[derive(Clone, Copy)]
pub struct Numbers {
    pub mode: u32,
    pub size: u64,
    pub mtime: i64,
    pub ino: u64,
    pub ctime: i64,
}

/// Of a regular file.
pub fn numbers(size: usize) -> Numbers {
    Numbers { mode: 0o100_644, size: size as u64, mtime: 892_000_000, ino: 7, ctime: 900_000_000 }
}

impl Numbers {
    pub fn v2(self) -> Vec<u8> {
        let mut bytes = words(b"STA2", &[0]);
        for number in [1998, self.ino] {
            bytes.extend_from_slice(&number.to_le_bytes());
        }
        for number in [self.mode, 1, 2000, 2000] {
            bytes.extend_from_slice(&number.to_le_bytes());
        }
        bytes.extend_from_slice(&self.size.to_le_bytes());
        for time in [0, self.mtime, self.ctime] {
            bytes.extend_from_slice(&time.to_le_bytes());
        }
        bytes
    }

    pub fn v1(self) -> Vec<u8> {
        words(b"STAT", &[self.mode, self.size as u32, self.mtime as u32])
    }
}

/// A file in DATA messages, and DONE.
pub fn data(file: &[u8]) -> Vec<u8> {
    let mut bytes: Vec<u8> = file.chunks(65_536).flat_map(|chunk| super::with(b"DATA", chunk)).collect();
    bytes.extend(words(b"DONE", &[0]));
    bytes
}
