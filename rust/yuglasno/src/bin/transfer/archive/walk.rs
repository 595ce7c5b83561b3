//! What there is to archive: the regular files of a panel's folder, by its listings.
use super::report::Report;
use crate::commands::unlisted;
use crate::panel::Panel;
use crate::peer::Peer;
use crate::stop::Stop;
use std::collections::BTreeSet;
use yuglasno::archive::names::{joined, refusal};
use yuglasno::{Details, Shown};

pub struct Job {
    /// On the panel.
    pub path: Vec<u8>,
    /// In DIR.
    pub name: Vec<u8>,
    /// As the listing has them.
    pub details: Details,
}

type Entries = Vec<(Vec<u8>, Details)>;

/// The jobs of a folder in the order of their names, with those of its sub-folders if `deep`. What can't be archived is
/// reported.
pub fn jobs(panel: &mut Panel<'_>, top: &[u8], deep: bool, report: &mut Report) -> Result<Vec<Job>, Stop> {
    let mut jobs = Vec::new();
    let mut folders = vec![Vec::new()];
    let mut seen = BTreeSet::new();
    while let Some(folder) = folders.pop() {
        let entries = match entries(&mut panel.peer(), &below(top, &folder)) {
            Err(stop) if !folder.is_empty() => {
                report.stopped(&folder, stop, panel)?;
                continue;
            }
            entries => entries?,
        };
        for (entry, details) in entries {
            let name = joined(&folder, &entry);
            match kind(&folder, &entry, &details) {
                Kind::Itself => {}
                Kind::Other => report.skipped(&name, format_args!("no regular file (mode {})", details.mode())),
                Kind::Refused(why) => report.left_out(&name, why),
                _ if !seen.insert(name.clone()) => report.left_out(&name, "it is listed twice"),
                Kind::Job => jobs.push(Job { path: below(top, &name), name, details }),
                Kind::Folder if deep => folders.push(name),
                Kind::Folder => report.folders += 1,
            }
        }
    }
    jobs.sort_by(|a, b| a.name.cmp(&b.name));
    Ok(jobs)
}

fn entries(peer: &mut Peer<'_>, path: &[u8]) -> Result<Entries, Stop> {
    let mut entries = Vec::new();
    let listed = peer.session.entries(peer.link, path, |name, details| entries.push((name.to_vec(), details)));
    match listed.map_err(|e| Stop::from(e).about(Shown(path)))? {
        0 => Err(unlisted(peer, path)?),
        _ => Ok(entries),
    }
}

/// The panel's path of a name below a folder.
fn below(folder: &[u8], name: &[u8]) -> Vec<u8> {
    match (folder.strip_suffix(b"/"), name) {
        (_, b"") => folder.to_vec(),
        (Some(folder), _) => [folder, b"/", name].concat(),
        (None, _) => joined(folder, name),
    }
}

/// What an entry of a listing is to an archive.
enum Kind {
    Job,
    Folder,
    /// `.` and `..`, which AOSP's service lists in every folder, also where it may not look at them.
    Itself,
    Other,
    Refused(String),
}

fn kind(folder: &[u8], entry: &[u8], details: &Details) -> Kind {
    let mode = details.mode();
    if (entry == b"." || entry == b"..") && (mode.is_folder() || details.error() != 0) {
        return Kind::Itself;
    }
    if details.error() != 0 {
        return Kind::Refused(format!("the panel can't look at it (errno {})", details.error()));
    }
    if mode.0 == 0 {
        return Kind::Refused("the panel does not say what it is (mode 0)".into());
    }
    match refusal(folder, entry) {
        _ if !mode.is_folder() && !mode.is_file() => Kind::Other,
        Some(why) => Kind::Refused(why.into()),
        None if mode.is_folder() => Kind::Folder,
        None => Kind::Job,
    }
}

#[cfg(test)]
mod tests {
    use super::*;
    use yuglasno::{FileMode, StatV2};

    #[test]
    fn entries_that_the_panel_may_not_look_at() {
        let denied = Details::V2(StatV2 { error: 13, ..StatV2::default() });
        assert!(matches!(kind(b"", b"..", &denied), Kind::Itself));
        assert!(matches!(kind(b"", b"job", &denied), Kind::Refused(why) if why.ends_with("(errno 13)")));
        let file = Details::V2(StatV2 { mode: FileMode(0o100_644), ..StatV2::default() });
        assert!(matches!(kind(b"", b"..", &file), Kind::Refused(_)));
    }
}
