//! Links the archive that `rt lib` leaves in crates/purse/out.
use std::env;
use std::path::Path;

fn main() {
    let here = env::var("CARGO_MANIFEST_DIR").expect("cargo sets CARGO_MANIFEST_DIR");
    let folder = Path::new(&here).join("../../crates/purse/out");
    let archive = folder.join("libpurse.a");
    println!("cargo::rerun-if-changed={}", archive.display());
    if !archive.exists() {
        println!("cargo::error=no crates/purse/out/libpurse.a: run `rt lib` in crates/purse");
        return;
    }
    println!("cargo::rustc-link-search=native={}", folder.display());
    println!("cargo::rustc-link-lib=static=purse");
}
