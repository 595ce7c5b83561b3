//! The DIR of `--folder`: it must be there, and nothing is written to it.
use crate::arguments::{Place, Plan};
use crate::say::shown;
use crate::stop::{Stop, CANNOT_CREATE};
use std::fs;
use std::io::ErrorKind;
use std::path::{Path, PathBuf};
use yuglasno::panel::Unserved;

/// A folder that is to be served must be there, whatever else is asked for.
pub fn is_there(plan: &Plan) -> Result<(), Stop> {
    let Place::Folder { dir, .. } = &plan.place else { return Ok(()) };
    let missing = |error| Unserved::Folder(dir.clone(), error);
    match fs::metadata(dir).map_err(missing)?.is_dir() {
        true => Ok(()),
        false => Err(missing(ErrorKind::NotADirectory.into()).into()),
    }
}

/// What is to be written to a folder, which need not be there yet, must not lie in the one that is only read.
pub fn is_spared(plan: &Plan, written: &Path) -> Result<(), Stop> {
    let Place::Folder { dir, .. } = &plan.place else { return Ok(()) };
    match (fs::canonicalize(dir), placed(written)) {
        (Ok(dir), Some(place)) if place.starts_with(&dir) => {
            Err(Stop::new(CANNOT_CREATE, shown(written), "it lies in the DIR of --folder, which is only read"))
        }
        _ => Ok(()),
    }
}

/// The folder itself, or the nearest one above it that is there.
fn placed(folder: &Path) -> Option<PathBuf> {
    let named = |folder: &Path| if folder.as_os_str().is_empty() { ".".into() } else { folder.to_path_buf() };
    folder.ancestors().find_map(|folder| fs::canonicalize(named(folder)).ok())
}
