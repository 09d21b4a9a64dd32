//! Links the archive that `rt lib` writes in crates/noravilump.

use std::env;
use std::path::Path;

fn main() {
    let here = env::var("CARGO_MANIFEST_DIR").expect("cargo says where the crate is");
    let archives = Path::new(&here).join("../../crates/noravilump/out");
    println!("cargo:rustc-link-search=native={}", archives.display());
    println!("cargo:rustc-link-lib=static=noravilump");
    println!("cargo:rerun-if-changed={}", archives.display());
}
