//! The bytes of an archived job beside its sum: where they are others, an error stands in the place of their end.
use crate::archive::sha256::{Sha256, Sum};
use std::fs::File;
use std::io::{self, Read, Take};

pub(super) struct Summed {
    /// No more than one byte over the listed size.
    file: Take<File>,
    so_far: Sha256,
    listed: Sum,
}

impl Summed {
    pub(super) fn new(file: File, size: u64, listed: Sum) -> Self {
        Self { file: file.take(size.saturating_add(1)), so_far: Sha256::new(), listed }
    }
}

impl Read for Summed {
    fn read(&mut self, buffer: &mut [u8]) -> io::Result<usize> {
        let count = self.file.read(buffer)?;
        self.so_far.update(&buffer[..count]);
        if count == 0 && !buffer.is_empty() && self.so_far.clone().ended() != self.listed {
            return Err(io::Error::other("the archive no longer has what the panel said: its sum is another"));
        }
        Ok(count)
    }
}
