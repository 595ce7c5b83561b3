//! A reply of many messages under way: a pull's chunks, a listing's entries. One message is made at a time, so that neither a file nor a
//! listing stands whole in the panel's replies.
use crate::answer::{Entry, EntryV2, Stat, StatV2};
use crate::error::Error;
use crate::settings::Settings;
use crate::speak::PanelReply;
use crate::DATA_MOST;
use std::io::{self, ErrorKind, Read};
use std::vec::IntoIter;

#[derive(Clone, Copy, PartialEq, Eq)]
pub(super) enum Version {
    V1,
    V2,
}

pub(super) enum UnderWay {
    Pull { file: Box<dyn Read>, chunk: Box<[u8]> },
    Listing(Version, IntoIter<(Vec<u8>, StatV2)>),
}

/// What became of the next message.
pub(super) enum Turn {
    Said,
    /// It was the last one.
    Over,
    /// There is none: the text of a FAIL.
    Failed(String),
}

impl UnderWay {
    pub(super) fn pull(file: Box<dyn Read>) -> Self {
        Self::Pull { file, chunk: vec![0; DATA_MOST].into() }
    }

    /// v1 has no error code, and as on AOSP's service no entry of what can't be looked at.
    pub(super) fn listing(version: Version, mut entries: Vec<(Vec<u8>, StatV2)>) -> Self {
        entries.retain(|(_, stat)| version == Version::V2 || stat.error == 0);
        Self::Listing(version, entries.into_iter())
    }

    /// Puts the next message behind the replies.
    pub(super) fn next(&mut self, settings: &Settings, replies: &mut Vec<u8>) -> Result<Turn, Error> {
        match self {
            Self::Pull { file, chunk } => match filled(file, chunk) {
                Ok(0) => PanelReply::End.append(settings, replies).map(|()| Turn::Over),
                Ok(count) => PanelReply::Chunk(&chunk[..count]).append(settings, replies).map(|()| Turn::Said),
                Err(error) => Ok(Turn::Failed(format!("read failed: {error}"))),
            },
            Self::Listing(version, entries) => match entries.next() {
                Some((name, stat)) => entry(*version, &name, stat).append(settings, replies).map(|()| Turn::Said),
                None => end(*version).append(settings, replies).map(|()| Turn::Over),
            },
        }
    }
}

/// Reads until the chunk is full or the file at its end.
fn filled(file: &mut dyn Read, chunk: &mut [u8]) -> io::Result<usize> {
    let mut count = 0;
    while count < chunk.len() {
        match file.read(&mut chunk[count..]) {
            Ok(0) => break,
            Ok(more) => count += more,
            Err(error) if error.kind() == ErrorKind::Interrupted => {}
            Err(error) => return Err(error),
        }
    }
    Ok(count)
}

fn entry(version: Version, name: &[u8], stat: StatV2) -> PanelReply<'_> {
    match version {
        Version::V1 => PanelReply::Entry(Entry { name, stat: in_v1(&stat) }),
        Version::V2 => PanelReply::EntryV2(EntryV2 { name, stat }),
    }
}

fn end(version: Version) -> PanelReply<'static> {
    match version {
        Version::V1 => PanelReply::ListingEnd,
        Version::V2 => PanelReply::ListingEndV2,
    }
}

/// The numbers that v1 has, size and mtime by their low 32 bits, as AOSP's service cuts them.
pub(super) fn in_v1(stat: &StatV2) -> Stat {
    Stat { mode: stat.mode, size: stat.size as u32, mtime: stat.mtime as u32 }
}
