//! Links the archives of the other implementation when the feature `archive`
//! asks for them. `libbeckethand.a` is what the kiosk's C program links.
//! `libprobe.a` is for measuring and comparing alone: its one function compares
//! two texts without case (request 5/13). Both lie in the folder named by
//! `BECKETHAND_LIB_DIR`, or else in `../../target/staticlib`, seen from this
//! package.

use std::env;
use std::path::PathBuf;

fn main() {
    println!("cargo:rerun-if-changed=build.rs");
    println!("cargo:rerun-if-env-changed=BECKETHAND_LIB_DIR");
    if env::var_os("CARGO_FEATURE_ARCHIVE").is_none() {
        return;
    }
    // They define the `beckethand_` functions and `probe_same_text`, and nothing
    // else that a linker sees, no panic handler either; of others they need
    // `memset` alone.
    for name in ["libbeckethand.a", "libprobe.a"] {
        let archive = folder().join(name);
        println!("cargo:rerun-if-changed={}", archive.display());
        assert!(
            archive.is_file(),
            "{} is missing: build it, or name its folder in BECKETHAND_LIB_DIR",
            archive.display()
        );
        println!("cargo:rustc-link-arg={}", archive.display());
    }
}

fn folder() -> PathBuf {
    match env::var_os("BECKETHAND_LIB_DIR") {
        Some(folder) => PathBuf::from(folder),
        None => {
            let package = env::var_os("CARGO_MANIFEST_DIR").expect("cargo sets CARGO_MANIFEST_DIR");
            PathBuf::from(package).join("../../target/staticlib")
        }
    }
}
