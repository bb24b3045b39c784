//! Finds libgamhilon.a: in the folder that GAMHILON_LIB_DIR names, or in embed/out, where
//! embed/build.py builds it.
use std::path::PathBuf;

fn main() {
    println!("cargo:rerun-if-env-changed=GAMHILON_LIB_DIR");
    let here = std::env::var("CARGO_MANIFEST_DIR").expect("cargo sets CARGO_MANIFEST_DIR");
    let folder = std::env::var("GAMHILON_LIB_DIR")
        .map_or_else(|_| PathBuf::from(here).join("../out"), PathBuf::from);
    let archive = folder.join("libgamhilon.a");
    println!("cargo:rerun-if-changed={}", archive.display());
    if !archive.is_file() {
        eprintln!(
            "{} is not there: build it by embed/build.py, or name its folder as GAMHILON_LIB_DIR",
            archive.display()
        );
        std::process::exit(1);
    }
    println!("cargo:rustc-link-search=native={}", folder.display());
    println!("cargo:rustc-link-lib=static=gamhilon");
}
