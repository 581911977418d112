//! The library that BEFORE names, with other names for its calls, and the file of `proved` that calls them by those.

use std::path::{Path, PathBuf};
use std::process::Command;
use std::{env, fs};

const CALLS: [&str; 8] = [
    "allocate", "read", "rest", "write", "built_in", "load", "work", "sheet",
];

fn main() {
    println!("cargo::rerun-if-env-changed=BEFORE");
    let library = env::var_os("BEFORE").expect("BEFORE names a static library of the proved calls");
    let folder = PathBuf::from(env::var_os("OUT_DIR").expect("cargo sets it"));
    rename_calls(Path::new(&library), &folder.join("libbefore.a"));
    write_calls(&folder.join("before.rs"));
    println!("cargo::rustc-link-search=native={}", folder.display());
    println!("cargo::rustc-link-lib=static=before");
}

fn rename_calls(library: &Path, renamed: &Path) {
    println!("cargo::rerun-if-changed={}", library.display());
    let names = CALLS.map(|call| format!("--redefine-sym=jinqewan_{call}=before_{call}"));
    let status = Command::new("objcopy")
        .args(names)
        .args([library, renamed])
        .status();
    assert!(status.expect("objcopy runs").success(), "objcopy failed");
}

/// Without the head comment, which an included file can't have.
fn write_calls(target: &Path) {
    let source = "../proved/src/lib.rs";
    println!("cargo::rerun-if-changed={source}");
    let text = fs::read_to_string(source).expect("proved is there");
    let (_head, calls) = text
        .split_once("\n\n")
        .expect("a head comment, and the calls");
    fs::write(target, calls.replace("jinqewan_", "before_")).expect("written");
}
