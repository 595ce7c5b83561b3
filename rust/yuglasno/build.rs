//! Where the static library is: `YUGLASNO_LIB`, a folder with `libexports.a`, or `target/staticlib` of the repository.
//! A relative `YUGLASNO_LIB` is looked for from the folder where cargo was called, then from the repository's.
use std::env;
use std::path::{Path, PathBuf};

const ARCHIVE: &str = "libexports.a";

fn named() -> Option<PathBuf> {
    env::var_os("YUGLASNO_LIB").filter(|named| !named.is_empty()).map(PathBuf::from)
}

/// The folders that may have the library, the first that has it to be taken.
fn folders() -> Vec<PathBuf> {
    let repository = Path::new(&env::var_os("CARGO_MANIFEST_DIR").expect("cargo sets it")).join("../..");
    let Some(named) = named() else {
        return vec![repository.join("target/staticlib")];
    };
    // a build script runs in its package's folder; the shell's is in PWD
    let called = env::var_os("PWD").map(|folder| Path::new(&folder).join(&named));
    called.into_iter().chain([repository.join(&named)]).collect()
}

fn main() {
    println!("cargo::rerun-if-env-changed=YUGLASNO_LIB");
    let Some(folder) = folders().into_iter().find(|folder| folder.join(ARCHIVE).is_file()) else {
        let named = named().unwrap_or_else(|| "target/staticlib".into());
        let help = "run `.ci/build library` in the repository, or set YUGLASNO_LIB to the folder that has it";
        println!("cargo::error=no {ARCHIVE} in {}: {help}", named.display());
        return;
    };
    println!("cargo::rerun-if-changed={}", folder.join(ARCHIVE).display());
    println!("cargo::rustc-link-search=native={}", folder.display());
    println!("cargo::rustc-link-lib=static=exports");
}
