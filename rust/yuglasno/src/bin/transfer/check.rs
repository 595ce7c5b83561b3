//! Whether what was transferred is what the panel's own numbers say. v1 has 32 bits of a size and of a time, no ino and no
//! ctime, and of a symbolic link the link's own numbers.
use yuglasno::Details;

const KIND: u32 = 0o170_000;
const LINK: u32 = 0o120_000;

/// Whether the numbers are those of a link that the panel follows on a pull: they say nothing of its file.
pub fn is_link(details: &Details) -> bool {
    matches!(details, Details::V1(stat) if stat.mode.0 & KIND == LINK)
}

/// v1's answer for what is not there.
pub fn is_nothing(details: &Details) -> bool {
    matches!(details, Details::V1(stat) if (stat.mode.0, stat.size, stat.mtime) == (0, 0, 0))
}

/// The file's size, where the panel says it.
pub fn size_of(details: &Details) -> Option<u64> {
    (!is_link(details)).then(|| details.size())
}

/// The file's time, where the panel says it.
pub fn time_of(details: &Details) -> Option<i64> {
    (!is_link(details)).then(|| details.mtime())
}

/// Why this is not pulled: a device or a pipe has no size to compare with, and may have no end. A folder is the panel's to refuse.
pub fn has_bytes(before: &Details) -> Result<(), String> {
    let mode = before.mode();
    if mode.is_file() || mode.is_folder() || is_link(before) {
        return Ok(());
    }
    Err(format!("it is no regular file (mode {mode})"))
}

/// A pull of so many bytes between two looks at the file's numbers: why it is refused.
pub fn pulled(before: &Details, after: &Details, bytes: u64) -> Result<(), String> {
    for ((name, was), (_, is)) in identity(before).into_iter().zip(identity(after)) {
        if was != is {
            return Err(format!("it changed meanwhile: its {name} was {was} before the pull and is {is} after it"));
        }
    }
    if after.mode().is_folder() {
        return Err("it is a folder, and no file came of it".into());
    }
    let size = after.size();
    if is_link(after) || has_size(after, bytes) {
        return Ok(());
    }
    Err(format!("{bytes} bytes came, and the panel says that it has {size}"))
}

/// The numbers that tell a file from another, and from itself at another time.
fn identity(details: &Details) -> [(&'static str, String); 6] {
    let (ino, dev, ctime) = match details {
        Details::V1(_) => (0, 0, 0),
        Details::V2(stat) => (stat.ino, stat.dev, stat.ctime),
    };
    [
        ("kind", format!("{:o}", details.mode().0 & KIND)),
        ("size", details.size().to_string()),
        ("mtime", details.mtime().to_string()),
        ("ino", ino.to_string()),
        ("dev", dev.to_string()),
        ("ctime", ctime.to_string()),
    ]
}

fn has_size(details: &Details, bytes: u64) -> bool {
    match details {
        Details::V1(stat) => stat.size == bytes as u32,
        Details::V2(stat) => stat.size == bytes,
    }
}

/// A push of so many bytes with this time, by the numbers of the panel's file after it: why it is refused.
pub fn pushed(after: &Details, bytes: u64, mtime: u32) -> Result<(), String> {
    let (mode, size, time) = (after.mode(), after.size(), after.mtime());
    if mode.is_file() && has_size(after, bytes) && time == i64::from(mtime) {
        return Ok(());
    }
    Err(format!(
        "{bytes} bytes of mtime {mtime} were sent, and the panel says that it has {size} of mtime {time} (mode {mode})"
    ))
}
