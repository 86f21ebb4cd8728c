//! Links the desk's static library, which `interface/library` makes.

use std::path::Path;

fn main() {
    let root = std::env::var("CARGO_MANIFEST_DIR").expect("cargo names the folder");
    let folder = format!("{root}/../../target/staticlib");
    let archive = format!("{folder}/libinterface.a");
    assert!(
        Path::new(&archive).exists(),
        "no {archive}: `interface/library` makes it"
    );
    println!("cargo:rustc-link-search=native={folder}");
    println!("cargo:rustc-link-lib=static=interface");
    println!("cargo:rerun-if-changed={archive}");
}
