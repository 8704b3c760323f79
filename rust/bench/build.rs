//! Links the archive that `rt lib` leaves in crates/measure/out.
use std::env;
use std::path::Path;

fn main() {
    let here = env::var("CARGO_MANIFEST_DIR").expect("cargo sets CARGO_MANIFEST_DIR");
    let folder = Path::new(&here).join("../../crates/measure/out");
    let archive = folder.join("libmeasure.a");
    println!("cargo::rerun-if-changed={}", archive.display());
    if !archive.exists() {
        println!("cargo::error=no crates/measure/out/libmeasure.a: run `rt lib` in crates/measure");
        return;
    }
    println!("cargo::rustc-link-search=native={}", folder.display());
    println!("cargo::rustc-link-lib=static=measure");
}
