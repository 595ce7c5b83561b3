//! Which features a session takes from a banner, by what it answers to the calls that need them.
use yuglasno::{Call, Error, Feature, FileMode, Moment, Session, Step, SyncFlags};

/// The names of the features 1 to 7, as the crate has them.
fn names() -> [&'static str; 7] {
    Feature::ALL.map(Feature::name)
}

/// The feature whose lack a session of this banner answers the call with; 0 where it writes.
fn missing(banner: &str, call: &Call) -> u32 {
    let mut session = Session::open(banner.as_bytes(), [0; 40], [0; 40]).unwrap();
    match session.start(call) {
        Step::Write(_) => 0,
        Step::Told(Err(Error::Missing(feature))) => feature.number(),
        other => panic!("{banner:?}: {other:?}"),
    }
}

/// The numbers of the features that a session has. What needs one of 4 to 7 needs 3 too: those are asked with it behind the banner.
fn had(banner: &str) -> Vec<u32> {
    let with_third = format!("{banner},sendrecv_v2");
    let pull = |flags| Call::RecvV2(b"/a", flags);
    let calls = [
        (banner, Call::StatV2(b"/a")),
        (banner, Call::ListV2(b"/a")),
        (banner, pull(SyncFlags::NONE)),
        (&with_third, pull(SyncFlags::BROTLI)),
        (&with_third, pull(SyncFlags::LZ4)),
        (&with_third, pull(SyncFlags::ZSTD)),
        (&with_third, Call::SendV2(b"/a", FileMode(0), SyncFlags::DRY_RUN, Moment::FIRST)),
    ];
    let present = |number: u32, banner: &str, call: &Call| match missing(banner, call) {
        0 => true,
        // the feature itself, or the third, without which none of those behind it is of use
        lacked => {
            assert!(lacked == number || (lacked == 3 && number > 3), "{banner:?}: {lacked} in the place of {number}");
            false
        }
    };
    (1..)
        .zip(calls)
        .filter(|(number, (banner, call))| present(*number, banner, call))
        .map(|(number, _)| number)
        .collect()
}

/// The numbers of the names that a piece equals: one or none.
fn named(piece: &str) -> Vec<u32> {
    (1..).zip(names()).filter(|(_, name)| *name == piece).map(|(number, _)| number).collect()
}

#[test]
fn told() {
    let all = "features=stat_v2,ls_v2,sendrecv_v2,sendrecv_v2_brotli,sendrecv_v2_lz4,sendrecv_v2_zstd,sendrecv_v2_dry_run_send";
    let cases: [(&str, &[u32]); 12] = [
        ("features=sendrecv_v2_lz4", &[5]),
        ("features=sendrecv_v2", &[3]),
        (all, &[1, 2, 3, 4, 5, 6, 7]),
        ("device::ro.product.name=x;features=cmd;sendrecv_v2_zstd,ls_v2", &[2, 6]),
        ("features=sendrecv_v2_,sendrecv_v2_lz5,sendrecv_v3_lz4,sendrecv_v2-lz4", &[]),
        ("features=_lz4,lz4,_lz4sendrecv_v2,_brotli,_zstd,_dry_run_send", &[]),
        ("features=sendrecv_v2sendrecv_v2_lz4,sendrecv_v2_lz4_zstd,stat_v2ls_v2", &[]),
        ("features=a;features=stat_v2", &[]),
        ("features=ls_v2;features=stat_v2,stat_v2", &[1, 2]),
        ("stat_v2,features=,;,", &[]),
        ("feature=stat_v2", &[]),
        ("", &[]),
    ];
    for (banner, numbers) in cases {
        assert_eq!(had(banner), numbers, "{banner}");
    }
}

/// Each name cut at each byte from either end, with another last byte, with one more, run together with each one; and each tail alone, before
/// the third name and behind every name.
#[test]
fn a_piece_equals_the_name() {
    let third = Feature::SendrecvV2.name();
    let mut pieces = vec![];
    for name in names() {
        pieces.extend((0..=name.len()).map(|end| name[..end].to_string()));
        pieces.extend((0..name.len()).map(|start| name[start..].to_string()));
        pieces.extend(["_", "2", " ", "\0", "="].map(|more| format!("{name}{more}")));
        pieces.push(format!("{}5", &name[..name.len() - 1]));
        pieces.extend(names().map(|other| format!("{name}{other}")));
        if let Some(tail) = name.strip_prefix(third) {
            pieces.push(format!("{tail}{third}"));
            pieces.extend(names().map(|other| format!("{other}{tail}")));
        }
    }
    for piece in pieces {
        for banner in [
            format!("features={piece}"),
            format!("features={piece};cmd"),
            format!("device::features=cmd,{piece},shell_v2"),
        ] {
            assert_eq!(had(&banner), named(&piece), "{banner}");
        }
    }
}

/// A banner may be long, and a name stand far behind.
#[test]
fn long_banners() {
    let filler = "shell_v2,".repeat(10_000);
    for (number, name) in (1..).zip(names()) {
        assert_eq!(had(&format!("features={filler}{name}")), [number]);
        assert_eq!(had(&format!("{filler}{}features={name}", "f".repeat(70_000))), [number]);
    }
}
