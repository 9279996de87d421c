//! Links the card's archive: $CARD_ARCHIVE, or crates/card/out/libcard.a of
//! the repository.

use std::env;
use std::path::{Path, PathBuf};
use std::process::exit;

fn main() {
    println!("cargo:rerun-if-env-changed=CARD_ARCHIVE");
    let archive = archive();
    println!("cargo:rerun-if-changed={}", archive.display());
    if !archive.is_file() {
        eprintln!("The card's archive is missing: {}", archive.display());
        eprintln!("Build it first, or name another one in CARD_ARCHIVE.");
        exit(1);
    }
    let folder = archive.parent().expect("a file stands in a folder");
    let name = archive.file_name().expect("a file has a name");
    println!("cargo:rustc-link-search=native={}", folder.display());
    println!(
        "cargo:rustc-link-lib=static:+verbatim,-bundle={}",
        name.to_string_lossy()
    );
}

fn archive() -> PathBuf {
    match env::var_os("CARD_ARCHIVE") {
        Some(named) => PathBuf::from(named),
        None => {
            let package = env::var_os("CARGO_MANIFEST_DIR").expect("Cargo sets it");
            Path::new(&package).join("../crates/card/out/libcard.a")
        }
    }
}
