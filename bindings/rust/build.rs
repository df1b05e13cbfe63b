//! Links libslc_link.a, from the folder SLC_LINK_LIB_DIR or from the repository's target/staticlib. A relative SLC_LINK_LIB_DIR is below the folder
//! that cargo was started in.
use std::ffi::OsString;
use std::os::unix::process::parent_id;
use std::path::{Path, PathBuf};
use std::{env, fs, process};

fn fail(what: String) -> ! {
    eprintln!("{what}");
    process::exit(1)
}

/// The folder that cargo was started in: a build script is cargo's child, but runs in the package's own folder.
fn start() -> PathBuf {
    println!("cargo:rerun-if-env-changed=PWD");
    fs::read_link(format!("/proc/{}/cwd", parent_id())).unwrap_or_else(|e| {
        fail(format!("SLC_LINK_LIB_DIR is relative, and where cargo was started can't be told ({e}): give it from / on"))
    })
}

fn folder(named: Option<OsString>) -> PathBuf {
    match named.filter(|f| !f.is_empty()).map(PathBuf::from) {
        Some(folder) if folder.is_absolute() => folder,
        Some(folder) => start().join(folder),
        None => Path::new(env!("CARGO_MANIFEST_DIR")).join("../../target/staticlib"),
    }
}

fn main() {
    println!("cargo:rerun-if-env-changed=SLC_LINK_LIB_DIR");
    let folder = folder(env::var_os("SLC_LINK_LIB_DIR"));
    let archive = folder.join("libslc_link.a");
    println!("cargo:rerun-if-changed={}", archive.display());
    if !archive.is_file() {
        fail(format!("there is no {}: build it with `./slc lib archive`, or set SLC_LINK_LIB_DIR to its folder", archive.display()));
    }
    println!("cargo:rustc-link-search=native={}", folder.display());
    println!("cargo:rustc-link-lib=static=slc_link");
    // for tests/users.rs
    println!("cargo:rustc-env=SLC_LINK_ARCHIVE={}", archive.display());
}
