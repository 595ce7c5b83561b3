//! The mode in the text of a SEND, as the test panel reads it: in decimal, as our host writes it, or a 0 and octal digits, as the workshop's
//! oldest sender does. What was read is seen in a stat of the file.
mod common;
use common::letters::{id, tables};
use common::{with, words, End, Script};
use std::io::{Read, Write};
use yuglasno::panel::Panel;
use yuglasno::{Call, FileMode, Ids, Moment, Session, PATH_MOST, PUBLISHED_IDS};

const DECIMAL: [(&str, u32); 8] = [
    ("0", 0),
    ("7", 7),
    ("10", 10),
    ("644", 644),
    ("33188", 33188),
    ("100644", 100_644),
    ("999999999", 999_999_999),
    ("4294967295", u32::MAX),
];

const OCTAL: [(&str, u32); 16] = [
    ("00", 0),
    ("07", 7),
    ("000", 0),
    ("007", 7),
    ("010", 8),
    ("0644", 420),
    ("0755", 493),
    ("0100644", 33188),
    ("00100644", 33188),
    ("000000100644", 33188),
    ("0777777777", 0o777_777_777),
    ("017777777777", 0x7FFF_FFFF),
    ("020000000000", 0x8000_0000),
    ("037777777777", u32::MAX),
    ("000000000000", 0),
    ("000000000001", 1),
];

const REFUSED: [&[u8]; 42] = [
    // over 32 bits
    b"4294967296",
    b"9999999999",
    b"10000000000",
    b"99999999999999999999",
    b"040000000000",
    b"077777777777",
    // twelve digits behind the 0
    b"0000000000000",
    b"0000000000007",
    b"0000000100644",
    b"0037777777777",
    // not octal
    b"08",
    b"09",
    b"008",
    b"03318",
    b"0100648",
    b"09999999999",
    // another base, a sign, a space, other text
    b"0x1ff",
    b"0X1FF",
    b"0x",
    b"0o7",
    b"0b1",
    b"+7",
    b"+0",
    b"-0",
    b"-1",
    b"+07",
    b"0+7",
    b"0-7",
    b"",
    b" 7",
    b"7 ",
    b" 07",
    b"07 ",
    b"0 7",
    b"07\n",
    b"07\0",
    b"6_44",
    b"0_7",
    b"rw",
    b"644rw",
    b"0\xFF",
    "٠٧".as_bytes(),
];

fn send(ids: &Ids, path: &str, text: &[u8]) -> Vec<u8> {
    with(&id(ids, "SEND"), &[path.as_bytes(), b",", text].concat())
}

/// What the panel says to a push in these bytes of a SEND, DATA and DONE, written in pieces of `cut`. A FAIL closes it to what follows.
fn said(panel: &mut Panel, ids: &Ids, send: Vec<u8>, cut: usize) -> Vec<u8> {
    let rest = [with(&id(ids, "DATA"), b"heights"), words(&id(ids, "DONE"), &[5])].concat();
    for piece in [send, rest].concat().chunks(cut) {
        let _ = panel.write_all(piece);
    }
    let mut said = Vec::new();
    panel.read_to_end(&mut said).unwrap();
    said
}

/// The mode in the panel's stat of a file.
fn mode_of(panel: &mut Panel, ids: &Ids, path: &str) -> u32 {
    panel.write_all(&with(&id(ids, "STAT"), path.as_bytes())).unwrap();
    let mut stat = [0; 16];
    panel.read_exact(&mut stat).unwrap();
    u32::from_le_bytes(stat[4..8].try_into().unwrap())
}

/// The push of such a text goes through, and the file has that mode.
fn taken(panel: &mut Panel, ids: &Ids, path: &str, text: &str, mode: u32, cut: usize) {
    let okay = words(&id(ids, "OKAY"), &[0]);
    assert_eq!(said(panel, ids, send(ids, path, text.as_bytes()), cut), okay, "{text}");
    assert_eq!((mode_of(panel, ids, path), panel.file(path).unwrap()), (mode, b"heights".to_vec()), "{text}");
}

#[test]
fn the_modes_that_are_taken() {
    for ids in tables() {
        let mut panel = Panel::with_jobs().with_ids(ids);
        for (text, mode) in DECIMAL.into_iter().chain(OCTAL) {
            for cut in [1, 7, usize::MAX] {
                taken(&mut panel, &ids, &format!("/jobs/{text}, by {cut}"), text, mode, cut);
            }
        }
    }
}

/// Each number of 32 bits about a power of two: in decimal, and in octal with as many zeros in front as fit.
#[test]
fn numbers_of_every_length() {
    let mut panel = Panel::with_jobs();
    for mode in (0..32).flat_map(|bit| [(1 << bit) - 1, 1 << bit, u32::MAX - (1 << bit)]) {
        let texts = [format!("{mode}"), format!("0{mode:o}"), format!("00{mode:o}"), format!("0{mode:011o}")];
        for text in texts.into_iter().filter(|text| text.len() <= 12) {
            taken(&mut panel, &PUBLISHED_IDS, "/new", &text, mode, usize::MAX);
        }
    }
}

#[test]
fn the_texts_that_are_refused() {
    for ids in tables() {
        for text in REFUSED {
            for cut in [1, usize::MAX] {
                let mut panel = Panel::with_jobs().with_ids(ids);
                let said = said(&mut panel, &ids, send(&ids, "/new", text), cut);
                assert_eq!(said, with(&id(&ids, "FAIL"), b"bad request"), "{}", text.escape_ascii());
                assert!(panel.file("/new").is_none(), "{}", text.escape_ascii());
            }
        }
    }
}

/// The longest SEND of all has a mode of eleven octal digits behind its 0.
#[test]
fn the_longest_send() {
    let path = format!("/jobs/{}", "p".repeat(PATH_MOST - 6));
    for ids in tables() {
        let mut panel = Panel::with_jobs().with_ids(ids);
        for (text, mode) in [("037777777777", u32::MAX), ("000000100644", 33188), ("000000000000", 0)] {
            assert_eq!(send(&ids, &path, text.as_bytes()).len(), 8 + 1037);
            taken(&mut panel, &ids, &path, text, mode, 100);
        }
    }
}

/// Our host writes a mode that was read in decimal: the same bytes where it came so, other ones where it came in octal.
#[test]
fn the_host_writes_decimal() {
    let written = |mode| {
        let mut link = Script::new(b"", 1, End::Closed);
        let mut session = Session::open(b"", [0; 40], [0; 40]).unwrap();
        session.call(&mut link, &Call::Send(b"/a", FileMode(mode), Moment::FIRST)).unwrap();
        link.written()
    };
    for (text, mode) in DECIMAL {
        assert_eq!(written(mode), send(&PUBLISHED_IDS, "/a", text.as_bytes()));
    }
    for (text, mode) in OCTAL {
        assert_ne!(written(mode), send(&PUBLISHED_IDS, "/a", text.as_bytes()));
        assert_eq!(written(mode), send(&PUBLISHED_IDS, "/a", mode.to_string().as_bytes()));
    }
}
