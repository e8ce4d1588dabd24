//! The stored traces, listings and logs are those that the second program writes,
//! byte for byte: `cargo run --bin write_samples -- ../examples ../crates
//! programs` writes them.

use std::collections::BTreeSet;
use std::fs;
use std::path::{Path, PathBuf};

use second::samples::{crates, examples, programs, File};

fn package() -> PathBuf {
    PathBuf::from(env!("CARGO_MANIFEST_DIR"))
}

fn stored(folder: &str, files: Vec<File>) {
    let folder = package().join(folder);
    for (name, bytes) in files {
        let path = folder.join(name);
        let found = fs::read(&path).unwrap_or_else(|error| panic!("{}: {error}", path.display()));
        assert!(found == bytes, "{} differs", path.display());
    }
}

fn inside(folder: &Path) -> Vec<PathBuf> {
    let entries = fs::read_dir(folder).expect("the folder is there");
    entries.map(|entry| entry.expect("it can be read").path()).collect()
}

#[test]
fn the_examples_are_stored() {
    stored("../examples", examples());
}

#[test]
fn the_crates_inputs_and_outputs_are_stored() {
    stored("../crates", crates());
}

#[test]
fn the_programs_inputs_and_outputs_are_stored_and_nothing_else() {
    stored("programs", programs());
    let folder = package().join("programs");
    let written: BTreeSet<PathBuf> =
        programs().into_iter().map(|(name, _)| folder.join(name)).collect();
    let found: BTreeSet<PathBuf> = inside(&folder).iter().flat_map(|one| inside(one)).collect();
    assert_eq!(found, written);
}
