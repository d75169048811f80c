//! Links the unit's static library, which `tools/staticlib` writes.

use std::env;

fn main() {
    let root = env::var("CARGO_MANIFEST_DIR").expect("cargo sets it");
    let folder = env::var("UNIT_FOLDER").unwrap_or(format!("{root}/../target/staticlib"));
    let name = env::var("UNIT_NAME").unwrap_or("unit".into());
    println!("cargo:rustc-link-search=native={folder}");
    println!("cargo:rustc-link-lib=static={name}");
    println!("cargo:rerun-if-changed={folder}/lib{name}.a");
    println!("cargo:rerun-if-env-changed=UNIT_FOLDER");
    println!("cargo:rerun-if-env-changed=UNIT_NAME");
}
