//! Compiles the yardstick by_hand.c with the C compiler CC (cc), at -O3.
use std::path::PathBuf;
use std::process::Command;
use std::env;

fn run(program: &str, words: &[&str]) {
    let status = Command::new(program).args(words).status().unwrap_or_else(|e| panic!("{program}: {e}"));
    assert!(status.success(), "{program} {words:?}");
}

fn main() {
    println!("cargo:rerun-if-changed=by_hand.c");
    println!("cargo:rerun-if-env-changed=CC");
    let folder = PathBuf::from(env::var_os("OUT_DIR").expect("cargo's folder"));
    let path = |name: &str| folder.join(name).to_str().expect("a path in UTF-8").to_owned();
    let (object, archive) = (path("by_hand.o"), path("libby_hand.a"));
    run(&env::var("CC").unwrap_or("cc".into()), &["-O3", "-c", "by_hand.c", "-o", &object]);
    run("ar", &["rcs", &archive, &object]);
    println!("cargo:rustc-link-search=native={}", folder.display());
    println!("cargo:rustc-link-lib=static=by_hand");
}
