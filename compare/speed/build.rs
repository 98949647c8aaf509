//! Links another build of the library beside the present one, where `TM_BEFORE` names the folder of its archive, `libbefore.a`. There all that it defines has
//! `before_` before its name.
use std::env;

fn main() {
    println!("cargo:rustc-check-cfg=cfg(before)");
    println!("cargo:rerun-if-env-changed=TM_BEFORE");
    if let Ok(folder) = env::var("TM_BEFORE") {
        println!("cargo:rerun-if-changed={folder}/libbefore.a");
        println!("cargo:rustc-cfg=before");
        println!("cargo:rustc-link-search=native={folder}");
        println!("cargo:rustc-link-lib=static=before");
    }
}
