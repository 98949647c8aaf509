//! Links the static library that `rt lib --cpu x86-64` writes in crates/turretmedlar.
use std::env;
use std::path::Path;

fn main() {
    let target = env::var("TARGET").expect("cargo sets TARGET");
    if !target.starts_with("x86_64") || !target.contains("linux") {
        panic!("the library is built for x86-64 Linux, not for {target}");
    }
    let folder = Path::new(&env::var("CARGO_MANIFEST_DIR").expect("cargo sets CARGO_MANIFEST_DIR")).join("../../crates/turretmedlar/out");
    let library = folder.join("libturretmedlar.a");
    println!("cargo:rerun-if-changed={}", library.display());
    if !library.exists() {
        panic!("there is no {}: run `rt lib --cpu x86-64` in crates/turretmedlar", library.display());
    }
    println!("cargo:rustc-link-search=native={}", folder.display());
    println!("cargo:rustc-link-lib=static=turretmedlar");
}
