//! Links libtashmirok.a, from the folder that TASHMIROK_FOLDER names or else from where archive.py puts it.

use std::env::var;

fn main() {
    let here = var("CARGO_MANIFEST_DIR").expect("cargo names the package's folder");
    let usual = format!("{here}/../../../target/firmware");
    let folder = var("TASHMIROK_FOLDER").unwrap_or(usual);
    println!("cargo:rerun-if-env-changed=TASHMIROK_FOLDER");
    println!("cargo:rerun-if-changed={folder}/libtashmirok.a");
    println!("cargo:rustc-link-search=native={folder}");
    println!("cargo:rustc-link-lib=static=tashmirok");
}
