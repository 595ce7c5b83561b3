//! Finds 000: `YUGLASNO_000`, a folder with `libadb/src`, or `../shared/docs/src` beside the repository. Its files are compiled where they
//! lie, unchanged: what is generated is one module that says where. Without them the program is built to say so.
use std::env;
use std::fs;
use std::path::PathBuf;

const FILES: [&str; 9] = [
    "sync.rs", "sync/error.rs", "sync/format.rs", "base/channel.rs", "base/decimal.rs", "base/ids.rs", "base/recv_buf.rs", "base/session.rs",
    "base/protocol/features.rs",
];

fn main() {
    println!("cargo:rerun-if-env-changed=YUGLASNO_000");
    println!("cargo:rerun-if-changed=build.rs");
    let here = PathBuf::from(env::var_os("CARGO_MANIFEST_DIR").unwrap());
    let asked = env::var_os("YUGLASNO_000").map(PathBuf::from).unwrap_or_else(|| PathBuf::from("../shared/docs/src"));
    let folder = here.join("../..").join(asked).join("libadb/src");
    let missing: Vec<&str> = FILES.into_iter().filter(|f| !folder.join(f).is_file()).collect();
    let generated = PathBuf::from(env::var_os("OUT_DIR").unwrap()).join("original.rs");
    if missing.is_empty() {
        let folder = folder.canonicalize().unwrap();
        for file in FILES {
            println!("cargo:rerun-if-changed={}", folder.join(file).display());
        }
        let allowed = "#[allow(dead_code, unused_imports, unexpected_cfgs)]";
        let path = folder.display().to_string();
        fs::write(generated, format!("{allowed}\n#[path = {path:?}]\nmod original {{ {MODULES} }}\n")).unwrap();
        println!("cargo:rustc-cfg=original");
    } else {
        println!("cargo:warning=000's source is not at {}: built without the comparison", folder.display());
    }
}

// 000's modules under its own names; connection and protocol stand in (src/standin.rs)
const MODULES: &str = "
    pub mod sync;
    pub mod base {
        pub mod channel;
        pub mod decimal;
        pub mod ids;
        pub mod recv_buf;
        pub mod session;
        pub mod protocol {
            pub mod features;
            pub use crate::standin::protocol::*;
        }
        pub use crate::standin::connection;
    }
";
