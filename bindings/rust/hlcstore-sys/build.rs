//! Looks for the library in this order:
//!
//! 1. in the folder HLCSTORE_LIB_DIR, and nowhere else if that is set;
//! 2. where pkg-config finds `hlcstore`;
//! 3. in bindings/build of this repository, where `make -C bindings` leaves it;
//! 4. in crates/hlc_ffi/out of this repository, where tests/build leaves it, with the archive of the toolchain.
//!
//! The static library is linked, or the shared one where HLCSTORE_STATIC is 0. A program that was linked with the
//! shared one must find it when it starts, for example by LD_LIBRARY_PATH. The build of hlcstore-file-sys gets the kind
//! and the folder of the library that was found, and looks for its own beside it.
//!
//! Where the library is in none of these places, that is a warning: `cargo check` and `cargo doc` need none, and what
//! links fails. The next build looks for it again. A folder of HLCSTORE_LIB_DIR without it is an error.

use std::env;
use std::path::{Path, PathBuf};
use std::process::Command;

/// What the library needs besides itself, where it is not installed.
const TOOLCHAIN_ARCHIVE: &str = "liblibc_c.a";

/// A library that was found: its files, without "lib" and the ending, and their folders.
struct Library {
    kind: &'static str,
    files: Vec<(PathBuf, &'static str)>,
}

impl Library {
    /// Prints what cargo has to pass to the linker.
    fn link(&self) {
        println!("cargo::metadata=kind={}", self.kind);
        for (folder, name) in &self.files {
            let ending = if self.kind == "dylib" { "so" } else { "a" };
            println!("cargo::rustc-link-search=native={}", folder.display());
            println!("cargo::rustc-link-lib={}={name}", self.kind);
            println!("cargo::rerun-if-changed={}", folder.join(format!("lib{name}.{ending}")).display());
        }
        if let Some((folder, _)) = self.files.first() {
            println!("cargo::metadata=folder={}", folder.display());
        }
    }
}

/// How the library is linked.
fn kind(shared: bool) -> &'static str {
    if shared { "dylib" } else { "static" }
}

/// The name of its file.
fn file(shared: bool) -> &'static str {
    if shared { "libhlcstore.so" } else { "libhlcstore.a" }
}

/// The installed library, in a folder.
fn installed(folder: &Path, shared: bool) -> Option<Library> {
    let files = vec![(folder.to_path_buf(), "hlcstore")];
    folder.join(file(shared)).is_file().then_some(Library { kind: kind(shared), files })
}

/// The library as the toolchain builds it, in a folder, with the archive of the toolchain in another.
fn built(folder: &Path, toolchain: &Path) -> Option<Library> {
    let is_there = folder.join("libhlc_ffi.a").is_file() && toolchain.join(TOOLCHAIN_ARCHIVE).is_file();
    let files = vec![(folder.to_path_buf(), "hlc_ffi"), (toolchain.to_path_buf(), "libc_c")];
    is_there.then_some(Library { kind: "static", files })
}

/// The folder that pkg-config returns.
fn known_to_pkg_config() -> Option<PathBuf> {
    let program = env::var("PKG_CONFIG").unwrap_or_else(|_| "pkg-config".into());
    let wanted = format!("hlcstore >= {}", env!("CARGO_PKG_VERSION"));
    let output = Command::new(program).args(["--variable=libdir", &wanted]).output().ok()?;
    let folder = String::from_utf8(output.stdout).ok()?;
    output.status.success().then(|| PathBuf::from(folder.trim()))
}

/// The folder of the toolchain's archives: its command `rt` is on the path.
fn toolchain_folder() -> Option<PathBuf> {
    let path = env::var_os("PATH")?;
    let command = env::split_paths(&path).map(|folder| folder.join("rt")).find(|file| file.is_file())?;
    Some(command.canonicalize().ok()?.parent()?.parent()?.join("c"))
}

/// The library in a folder, installed or as the toolchain builds it.
fn in_folder(folder: &Path, toolchain: &Path, shared: bool) -> Option<Library> {
    let built_there = if shared { None } else { built(folder, toolchain) };
    installed(folder, shared).or(built_there)
}

/// The repository of this package.
fn repository() -> PathBuf {
    let package = env::var_os("CARGO_MANIFEST_DIR").expect("cargo sets the folder of the package");
    Path::new(&package).join("../../..")
}

/// The library, in the first place that has it, where no folder is named.
fn find(shared: bool) -> Option<Library> {
    let repository = repository();
    known_to_pkg_config()
        .and_then(|folder| installed(&folder, shared))
        .or_else(|| installed(&repository.join("bindings/build"), shared))
        .or_else(|| in_folder(&repository.join("crates/hlc_ffi/out"), &toolchain_folder()?, shared))
}

/// Links the library in the folder that HLCSTORE_LIB_DIR names.
fn link_in(folder: &Path, shared: bool) {
    match in_folder(folder, folder, shared) {
        Some(library) => library.link(),
        None => {
            let (folder, file) = (folder.display(), file(shared));
            println!(
                "cargo::error=HLCSTORE_LIB_DIR is {folder}, where no {file} is: set it to the folder that has that file"
            );
        }
    }
}

/// Links the library, wherever it is; or, where it was not found, says so and leaves it to the linker.
fn link(shared: bool) {
    if let Some(library) = find(shared) {
        return library.link();
    }
    println!(
        "cargo::warning=the library hlcstore was not found, so nothing can be linked: run `make -C bindings` in the \
         repository of hlcstore, or set HLCSTORE_LIB_DIR to the folder of libhlcstore.a, or PKG_CONFIG_PATH to the \
         folder of hlcstore.pc"
    );
    println!("cargo::metadata=kind={}", kind(shared));
    println!("cargo::rustc-link-lib={}=hlcstore", kind(shared));
    // A file that is missing counts as changed, so this runs again in each build until the library is there.
    println!("cargo::rerun-if-changed={}", repository().join("bindings/build").join(file(shared)).display());
}

fn main() {
    for name in ["HLCSTORE_LIB_DIR", "HLCSTORE_STATIC", "PKG_CONFIG", "PKG_CONFIG_PATH"] {
        println!("cargo::rerun-if-env-changed={name}");
    }
    let shared = env::var("HLCSTORE_STATIC").is_ok_and(|word| word == "0");
    match env::var_os("HLCSTORE_LIB_DIR") {
        Some(folder) => link_in(Path::new(&folder), shared),
        None => link(shared),
    }
}
