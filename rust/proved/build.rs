use std::env;
use std::path::PathBuf;

fn main() {
    let crate_folder = env::var_os("CARGO_MANIFEST_DIR").expect("cargo sets it");
    // another folder with a libexports.a, for comparing
    println!("cargo::rerun-if-env-changed=PROVED");
    let library_folder = match env::var_os("PROVED") {
        Some(folder) => PathBuf::from(folder),
        None => PathBuf::from(crate_folder).join("../../crates/exports/out"),
    };
    println!(
        "cargo::rustc-link-search=native={}",
        library_folder.display()
    );
    println!("cargo::rustc-link-lib=static=exports");
    println!(
        "cargo::rerun-if-changed={}",
        library_folder.join("libexports.a").display()
    );
}
