//! Links the program `capacities` with the static library that `rt lib` makes in crates/cases_capacities. The program `compare` has the desk's
//! library from the crate `hours_desk`.

fn main() {
    let root = std::env::var("CARGO_MANIFEST_DIR").expect("cargo names the folder");
    let archive = format!("{root}/../crates/cases_capacities/out/libcases_capacities.a");
    println!("cargo:rustc-link-arg-bin=capacities={archive}");
    println!("cargo:rerun-if-changed={archive}");
}
