//! Tells the linker where the proved library's archives are.

use std::env;
use std::path::Path;

fn main() {
    println!("cargo:rerun-if-changed=build.rs");
    // Without the feature nothing is linked, and no archive need exist.
    if env::var_os("CARGO_FEATURE_PROVED").is_some() {
        let package = env::var("CARGO_MANIFEST_DIR").expect("cargo sets it");
        let archives = Path::new(&package).join("../target/staticlib");
        println!("cargo:rustc-link-search=native={}", archives.display());
        // A new archive has to be linked anew; cargo doesn't see it otherwise.
        for archive in
            ["exports", "desk_exports", "listing_exports", "image_exports", "log_exports"]
        {
            let archive = archives.join(format!("lib{archive}.a"));
            println!("cargo:rerun-if-changed={}", archive.display());
        }
    }
}
