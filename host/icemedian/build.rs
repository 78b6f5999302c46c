//! Finds libicemedian_c.a: in `ICEMEDIAN_LIB_DIR`, else where `host/build_library` puts it.

use std::env;
use std::path::PathBuf;

fn main() {
    let here = PathBuf::from(env::var("CARGO_MANIFEST_DIR").expect("set by cargo"));
    let made = here.join("../../target/staticlib");
    let folder = env::var_os("ICEMEDIAN_LIB_DIR").map_or(made, PathBuf::from);
    let archive = folder.join("libicemedian_c.a");
    println!("cargo::rerun-if-env-changed=ICEMEDIAN_LIB_DIR");
    println!("cargo::rerun-if-changed={}", archive.display());
    if !archive.is_file() {
        println!(
            "cargo::error={} is missing: run `host/build_library`, or set ICEMEDIAN_LIB_DIR to the archive's folder",
            archive.display()
        );
        return;
    }
    println!("cargo::rustc-link-search=native={}", folder.display());
    println!("cargo::rustc-link-lib=static=icemedian_c");
    println!("cargo::rustc-env=ICEMEDIAN_ARCHIVE={}", archive.display());
}
