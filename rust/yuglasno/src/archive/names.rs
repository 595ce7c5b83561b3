//! Names of an archive's files: which a panel may give, and how a list has them.
//!
//! A file's name in the lists is relative to DIR, its parts with a `/` between them, of any bytes but NUL.

/// The two lists, and the folder of what is not listed yet. No job at the top of DIR may have such a name.
pub const SUMS: &str = "SHA256SUMS";
pub const DETAILS: &str = "DETAILS";
pub const UNFINISHED: &str = ".transfer-unfinished";

/// Why an entry of the panel can't have its name in DIR; `folder` is the entry's folder, relative, empty at the top.
pub fn refusal(folder: &[u8], name: &[u8]) -> Option<&'static str> {
    let own = [SUMS, DETAILS, UNFINISHED].iter().any(|own| own.as_bytes() == name);
    match name {
        b"" => Some("an empty name"),
        b"." | b".." => Some("a name that leads out of its folder"),
        _ if name.contains(&b'/') => Some("a name with a slash"),
        _ if name.contains(&0) => Some("a name with a NUL"),
        _ if own && folder.is_empty() => Some("the name is the archive's own"),
        _ => None,
    }
}

/// Whether a name is one that an archive may have: every part of it could have come from a panel.
pub fn allowed(name: &[u8]) -> bool {
    let mut folder: &[u8] = b"";
    name.split(|byte| *byte == b'/').all(|part| {
        let fine = refusal(folder, part).is_none();
        folder = part;
        fine
    })
}

/// The name of an entry in a folder of DIR.
pub fn joined(folder: &[u8], name: &[u8]) -> Vec<u8> {
    match folder {
        b"" => name.to_vec(),
        _ => [folder, b"/", name].concat(),
    }
}

/// Bytes that coreutils escapes in a line, and the letter behind the backslash.
const ESCAPES: [(u8, u8); 3] = [(b'\\', b'\\'), (b'\n', b'n'), (b'\r', b'r')];

/// A name as a line has it, and whether it is escaped: the line then begins with a backslash. `-` alone would be
/// standard input to `sha256sum -c`.
pub fn written(name: &[u8]) -> (bool, Vec<u8>) {
    if name == b"-" {
        return (false, b"./-".to_vec());
    }
    let mut text = Vec::with_capacity(name.len());
    for byte in name {
        match ESCAPES.iter().find(|(raw, _)| raw == byte) {
            Some((_, letter)) => text.extend([b'\\', *letter]),
            None => text.push(*byte),
        }
    }
    (text.len() > name.len(), text)
}

/// The name that is written so; none for text that no name is written as.
pub fn read(escaped: bool, text: &[u8]) -> Option<Vec<u8>> {
    if text == b"./-" {
        return (!escaped).then(|| b"-".to_vec());
    }
    let mut name = Vec::with_capacity(text.len());
    let mut bytes = text.iter();
    while let Some(byte) = bytes.next() {
        name.push(match byte {
            b'\\' if escaped => {
                let letter = bytes.next()?;
                ESCAPES.iter().find(|(_, of)| of == letter)?.0
            }
            _ => *byte,
        });
    }
    (written(&name) == (escaped, text.to_vec()) && allowed(&name)).then_some(name)
}

#[cfg(test)]
mod tests {
    use super::*;

    #[test]
    fn any_bytes_there_and_back() {
        let all: Vec<u8> = (1..=255).filter(|byte| *byte != b'/').collect();
        for name in [&all[..], b"-", b"a\\n", b"\n", b" ", b"*a", b"#", b"a/b/..c", b"-x", b"a/-"] {
            let (escaped, text) = written(name);
            assert!(!text.contains(&b'\n') && !text.contains(&b'\r'));
            assert_eq!(read(escaped, &text).as_deref(), Some(name));
            assert_eq!(read(!escaped, &text), None, "one form alone");
        }
    }

    #[test]
    fn what_leads_out_of_the_folder_is_no_name() {
        let bad: [&[u8]; 11] =
            [b"", b".", b"..", b"/a", b"a/", b"a//b", b"../a", b"a/../b", b"a/./b", b"a\0b", b".transfer-unfinished/a"];
        for name in bad {
            assert!(!allowed(name), "{name:?}");
            assert_eq!(read(false, name), None, "{name:?}");
        }
        assert!(allowed(b"a/SHA256SUMS") && !allowed(b"SHA256SUMS"));
        for (escaped, text) in [(true, &b"a"[..]), (true, b"a\\"), (true, b"\\x"), (true, b"./-"), (false, b"a\\b")] {
            assert_eq!(read(escaped, text), None, "{text:?}");
        }
    }
}
