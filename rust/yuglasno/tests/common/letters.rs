//! Tables of ids, and the files that load them.
use yuglasno::{Ids, Settings, PUBLISHED_IDS};

/// The published ids in small letters.
pub fn small() -> Ids {
    PUBLISHED_IDS.map(|id| id.map(|byte| byte.to_ascii_lowercase()))
}

/// The published ids, each put for the one before it.
pub fn rotated() -> Ids {
    let mut ids = PUBLISHED_IDS;
    ids.rotate_left(1);
    ids
}

/// The tables that transfers are tried under. The last has the published ids in reverse; the one before it ids of signs and digits, which
/// differ in a byte each.
pub fn tables() -> [Ids; 5] {
    let mut reversed = PUBLISHED_IDS;
    reversed.reverse();
    let signs = std::array::from_fn(|at| [b'!', b'~', b'1', b'a' + at as u8]);
    [PUBLISHED_IDS, small(), rotated(), signs, reversed]
}

/// What a table puts for the published id.
pub fn id(ids: &Ids, name: &str) -> [u8; 4] {
    ids[PUBLISHED_IDS.iter().position(|each| each == name.as_bytes()).unwrap()]
}

pub fn file_of(ids: &Ids) -> Vec<u8> {
    [&PUBLISHED_IDS.join(&b',')[..], b"\n", &ids.join(&b',')[..], b"\n"].concat()
}

/// Settings with this table, by loading its file.
pub fn loaded(ids: &Ids) -> Settings {
    let mut settings = Settings::published();
    settings.load_ids(&file_of(ids)).unwrap();
    assert_eq!(settings.ids(), *ids);
    settings
}
