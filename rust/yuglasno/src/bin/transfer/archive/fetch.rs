//! One job from the panel to a draft that is whole and checked, and has its numbers.
use super::dir::Dir;
use super::store::Pulled;
use super::walk::Job;
use crate::keep::set_time;
use crate::peer::Peer;
use crate::pull::{received, Seen};
use crate::stop::{Stop, IO, NOT_AS_SAID};
use std::fs::{self, File, Permissions};
use std::io;
use std::os::unix::fs::PermissionsExt;
use yuglasno::archive::numbers::Numbers;
use yuglasno::archive::sha256::Sha256;
use yuglasno::Shown;

struct Digest(Sha256);

impl Seen for Digest {
    fn chunk(&mut self, bytes: &[u8]) {
        self.0.update(bytes);
    }
}

/// A draft of the job, as a pull makes it.
pub fn pulled(peer: &mut Peer<'_>, dir: &mut Dir, job: &Job) -> Result<Pulled, Stop> {
    let refused = |why: &str| Stop::new(NOT_AS_SAID, Shown(&job.path), why);
    let before = peer.details(&job.path)?;
    if !before.mode().is_file() {
        return Err(refused("it is no regular file any more"));
    }
    let (mut file, draft) = dir.draft()?;
    let mut digest = Digest(Sha256::new());
    let done = received(peer, &job.path, before, &mut file, &mut digest, &draft.display()).and_then(|size| {
        let numbers = Numbers { size, mtime: before.mtime(), mode: before.mode().0 };
        match finished(&file, &numbers).map_err(|e| Stop::new(IO, draft.display(), e))? {
            true => Ok(numbers),
            false => Err(refused("DIR's file system can't keep its time or permission bits")),
        }
    });
    match done {
        Ok(numbers) => {
            Ok(Pulled { name: job.name.clone(), draft, file: Some(file), sum: digest.0.ended(), numbers, over: false })
        }
        Err(stop) => {
            let _ = fs::remove_file(&draft);
            Err(stop)
        }
    }
}

/// Time and permission bits to a draft. Says whether it has them now.
fn finished(file: &File, numbers: &Numbers) -> io::Result<bool> {
    let _ = file.set_permissions(Permissions::from_mode(numbers.permissions())); // FAT has none and may say so
    let timed = set_time(file, numbers.mtime);
    Ok(timed && numbers.permissions() == file.metadata()?.permissions().mode() & 0o7777)
}
