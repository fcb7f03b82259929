//! Finds the library's archive: in the folder `IBCWORLD_LIB`, or by `pkg-config`. With the feature `journal` that of the journal lies beside it.
use std::env;
use std::path::{Path, PathBuf};
use std::process::Command;

const ARCHIVE: &str = "libibcworld.a";
const JOURNAL: &str = "libibcworld_journal.a";

/// The folder that the variable names, which may be relative to the folder where cargo was called.
fn named() -> Option<PathBuf> {
    let named = PathBuf::from(env::var_os("IBCWORLD_LIB")?);
    let called_in = env::var_os("PWD").map_or_else(PathBuf::new, PathBuf::from);
    let folder = called_in.join(&named);
    assert!(
        folder.join(ARCHIVE).is_file(),
        "IBCWORLD_LIB is {}, and there is no {}: name the folder of {ARCHIVE}, as tools/install makes it",
        named.display(),
        folder.join(ARCHIVE).display(),
    );
    Some(folder)
}

/// The folder that pkg-config knows.
fn installed() -> Option<PathBuf> {
    let asked = Command::new("pkg-config")
        .args(["--variable=libdir", "ibcworld"])
        .output()
        .ok()?;
    let folder = PathBuf::from(String::from_utf8(asked.stdout).ok()?.trim());
    folder.join(ARCHIVE).is_file().then_some(folder)
}

/// Links the journal's archive, which lies beside the other one, before what it calls.
fn link_journal(folder: &Path) {
    let archive = folder.join(JOURNAL);
    assert!(
        archive.is_file(),
        "the feature `journal` needs {}, which tools/install makes where sqlite3's header is there (Debian: libsqlite3-dev)",
        archive.display(),
    );
    println!("cargo:rerun-if-changed={}", archive.display());
    println!("cargo:rustc-link-lib=static=ibcworld_journal");
}

fn link(folder: &Path) {
    let has_journal = env::var_os("CARGO_FEATURE_JOURNAL").is_some();
    println!("cargo:rerun-if-changed={}", folder.join(ARCHIVE).display());
    println!("cargo:rustc-link-search=native={}", folder.display());
    if has_journal {
        link_journal(folder);
    }
    println!("cargo:rustc-link-lib=static=ibcworld");
    if has_journal {
        println!("cargo:rustc-link-lib=sqlite3");
    }
}

fn main() {
    println!("cargo:rerun-if-changed=build.rs");
    println!("cargo:rerun-if-env-changed=IBCWORLD_LIB");
    println!("cargo:rerun-if-env-changed=PKG_CONFIG_PATH");
    if env::var_os("DOCS_RS").is_some() {
        return;
    }
    match named().or_else(installed) {
        Some(folder) => link(&folder),
        None => panic!("set IBCWORLD_LIB to the folder of {ARCHIVE} (tools/install PREFIX makes PREFIX/lib), or have pkg-config find the package ibcworld"),
    }
}
