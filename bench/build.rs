//! Tells the linker where libexport.a is: in the folder that BINR_LIB_DIR names, or by default in
//! ../target/staticlib relative to this package.

use std::env;
use std::path::{Path, PathBuf};

fn main() {
    println!("cargo:rerun-if-changed=build.rs");
    println!("cargo:rerun-if-env-changed=BINR_LIB_DIR");
    if env::var_os("CARGO_FEATURE_LIBRARY").is_none() {
        return;
    }
    let folder = match env::var_os("BINR_LIB_DIR") {
        Some(named) => PathBuf::from(named),
        None => {
            let package = env::var_os("CARGO_MANIFEST_DIR").expect("cargo sets this");
            Path::new(&package).join("../target/staticlib")
        }
    };
    println!("cargo:rustc-link-search=native={}", folder.display());
    let archive = folder.join("libexport.a");
    if !archive.is_file() {
        println!(
            "cargo:warning={} is missing: build it, or set BINR_LIB_DIR",
            archive.display()
        );
    }
    // A rebuilt library must be linked again.
    println!("cargo:rerun-if-changed={}", archive.display());
    // Not bundled into this package's own library: link-time optimisation would then take the
    // archive's objects for its own.
    println!("cargo:rustc-link-lib=static:-bundle=export");
}
