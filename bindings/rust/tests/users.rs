//! Packages of other workspaces that use this one: each is written to a folder of its own, built by cargo and run.
use std::fs;
use std::path::{Path, PathBuf};
use std::process::{Command, Output};

const PACKAGE: &str = env!("CARGO_MANIFEST_DIR");
const ARCHIVE: &str = env!("SLC_LINK_ARCHIVE");

// a wildcard behind all cases is an error here where an enum is not #[non_exhaustive]
const PROGRAM: &str = r#"#![deny(unreachable_patterns)]
use slc_link::{read_request, Element, Reading, Refused, Requestor, Value, WriteValue, REQUEST_ROOM};

pub fn value(v: Value) -> bool {
    match v {
        Value::Whole(_) | Value::Float(_) | Value::Text(_) | Value::Words(..) | Value::Field(..) => true,
        _ => false,
    }
}

pub fn element(e: Element) -> bool {
    match e {
        Element::Whole(_) | Element::Float(_) | Element::Text(_) | Element::Fields { .. } => true,
        _ => false,
    }
}

pub fn written(w: WriteValue) -> bool {
    match w {
        WriteValue::Raw(_) | WriteValue::Bool(_) | WriteValue::Text(_) => true,
        _ => false,
    }
}

pub fn refused(r: Refused) -> bool {
    match r {
        ALL => true,
        _ => false,
    }
}

// there are two, so that a match on both needs no wildcard
pub fn stored(reading: Reading) -> bool {
    match reading {
        Reading::New => false,
        Reading::Stored => true,
    }
}

fn refuses(tag: impl AsRef<[u8]>, reading: Reading) -> bool {
    read_request(tag, reading, Requestor::default(), 0, &mut [0; REQUEST_ROOM]) == Err(Refused::BitCount)
}

fn main() {
    println!("{:?}", refuses("N7:0/3{2}", Reading::New) && refuses(b"N7:0/3{2}", Reading::Stored));
}
"#;

/// A fresh folder with a workspace, whose one member depends on the package at `path`.
fn workspace(name: &str, path: &str, more: &str) -> PathBuf {
    let root = Path::new(env!("CARGO_TARGET_TMPDIR")).join(name);
    fs::remove_dir_all(&root).ok();
    fs::create_dir_all(root.join("planner/src")).unwrap();
    fs::write(root.join("Cargo.toml"), format!("[workspace]\nmembers = [\"planner\"]\nresolver = \"2\"\n{more}")).unwrap();
    let planner = format!("[package]\nname = \"planner\"\nedition = \"2021\"\n[dependencies]\nslc_link = {{ path = {path:?} }}\n");
    fs::write(root.join("planner/Cargo.toml"), planner).unwrap();
    let all: Vec<String> = slc_link::Refused::ALL.iter().map(|r| format!("Refused::{r:?}")).collect();
    fs::write(root.join("planner/src/main.rs"), PROGRAM.replace("ALL", &all.join(" | "))).unwrap();
    root
}

/// A cargo command on a package, started in a folder of the workspace, with this SLC_LINK_LIB_DIR.
fn cargo(command: &str, package: &str, root: &Path, from: &str, lib_dir: &str) -> Output {
    let mut cargo = Command::new(env!("CARGO"));
    cargo.args([command, "--quiet", "--offline", "--manifest-path"]).arg(root.join(package).join("Cargo.toml"));
    cargo.current_dir(root.join(from)).env("SLC_LINK_LIB_DIR", lib_dir).env("CARGO_TARGET_DIR", root.join("target"));
    cargo.output().unwrap()
}

fn run(root: &Path, from: &str, lib_dir: &str) -> Output {
    cargo("run", "planner", root, from, lib_dir)
}

fn ran(output: Output) {
    assert_eq!(String::from_utf8_lossy(&output.stdout), "true\n", "{}", String::from_utf8_lossy(&output.stderr));
}

fn folder_of_archive() -> &'static str {
    Path::new(ARCHIVE).parent().unwrap().to_str().unwrap()
}

/// A copy of the archive in a folder of the workspace.
fn archive_in(root: &Path, folder: &str) {
    fs::create_dir_all(root.join(folder)).unwrap();
    fs::copy(ARCHIVE, root.join(folder).join("libslc_link.a")).unwrap();
}

/// A copy of the package in the folder `slc` of the workspace, as a clone of the repository has it.
fn repository_in(root: &Path) {
    let package = root.join("slc/bindings/rust");
    fs::create_dir_all(package.join("src")).unwrap();
    for file in ["Cargo.toml", "build.rs"] {
        fs::copy(Path::new(PACKAGE).join(file), package.join(file)).unwrap();
    }
    for source in fs::read_dir(Path::new(PACKAGE).join("src")).unwrap() {
        let source = source.unwrap();
        fs::copy(source.path(), package.join("src").join(source.file_name())).unwrap();
    }
    archive_in(root, "slc/target/staticlib");
}

#[test]
fn another_workspace() {
    ran(run(&workspace("another_workspace", PACKAGE, ""), "", folder_of_archive()));
}

#[test]
fn a_workspace_whose_folder_has_the_repository_excludes_it() {
    let root = workspace("around", "../slc/bindings/rust", "exclude = [\"slc\"]\n");
    repository_in(&root);
    ran(run(&root, "", ""));
}

#[test]
fn a_clone_in_the_folder_of_another_workspace_stands_alone() {
    let root = workspace("alone", PACKAGE, "");
    repository_in(&root);
    let output = cargo("check", "slc/bindings/rust", &root, "", "");
    assert!(output.status.success(), "{}", String::from_utf8_lossy(&output.stderr));
}

#[test]
fn a_relative_folder_is_below_that_of_cargos_start() {
    let root = workspace("relative", PACKAGE, "");
    archive_in(&root, "libs");
    ran(run(&root, "", "libs"));
    ran(run(&root, "planner/src", "../../libs"));
}

#[test]
fn an_archive_that_is_missing_is_named() {
    let root = workspace("missing", PACKAGE, "");
    let output = run(&root, "planner", "libs");
    let expected = format!(
        "there is no {}: build it with `./slc lib archive`, or set SLC_LINK_LIB_DIR to its folder",
        root.canonicalize().unwrap().join("planner/libs/libslc_link.a").display()
    );
    let said = String::from_utf8_lossy(&output.stderr);
    assert!(!output.status.success() && said.contains(&expected), "{said}");
}
