//! Looks for libhlcstore-file beside the library that hlcstore-sys found, and links it as that one: static or shared.
//! SQLite and zlib are linked as the system has them, as shared libraries. Where hlcstore-sys found no library, it said
//! so, and this one is left to the linker.

use std::env;
use std::path::{Path, PathBuf};

fn main() {
    let kind = env::var("DEP_HLCSTORE_KIND").unwrap_or_else(|_| "static".into());
    match env::var_os("DEP_HLCSTORE_FOLDER") {
        Some(folder) => link(&PathBuf::from(folder), &kind),
        None => println!("cargo::rustc-link-lib={kind}=hlcstore-file"),
    }
}

/// Links the library in the folder of the other one, as that is linked.
fn link(folder: &Path, kind: &str) {
    let ending = if kind == "dylib" { "so" } else { "a" };
    let file = folder.join(format!("libhlcstore-file.{ending}"));
    println!("cargo::rerun-if-changed={}", file.display());
    if !file.is_file() {
        let folder = folder.display();
        println!(
            "cargo::error={folder} has libhlcstore, but no libhlcstore-file.{ending}: run `make -C bindings file`"
        );
    }
    println!("cargo::rustc-link-search=native={}", folder.display());
    println!("cargo::rustc-link-lib={kind}=hlcstore-file");
    println!("cargo::rustc-link-lib=dylib=sqlite3");
    println!("cargo::rustc-link-lib=dylib=z");
}
