//! Listings that a store hands out: names are put into a bucket in any order,
//! the ordinary client lists it (bucket.py), and the proved program says of the
//! listing what the names that were put say.

use std::collections::BTreeMap;
use std::io::{self, Write};
use std::path::Path;
use std::process::{Command, Output, Stdio};
use std::sync::Once;

use second::listing::LONGEST_LISTING;
use second::names::{write, Name};
use second::random::Random;

/// What bucket.py ends with where boto3 or moto is missing.
const MISSING: i32 = 77;
/// The most keys that a store lists in one page.
const PAGE: usize = 1_000;

/// The keys that are put, in byte order, each with its name unless it has none.
type Keys = BTreeMap<String, Option<Name>>;

fn put(keys: &mut Keys, name: Name) {
    let key = write(name).expect("it is no object 0");
    keys.insert(String::from_utf8(key).expect("names are text"), Some(name));
}

/// 1,250 names with numbers of any magnitude.
fn many(random: &mut Random) -> Keys {
    let (manifests, objects) = (350, 900);
    let mut keys = Keys::new();
    while keys.len() < manifests {
        put(&mut keys, Name::Manifest(random.magnitude()));
    }
    while keys.len() < manifests + objects {
        put(&mut keys, Name::Object(random.magnitude().max(1)));
    }
    keys
}

/// Manifests 0 to 20 and objects 1 to 40, and a key that is no name.
fn few_and(stray: &str) -> Keys {
    let mut keys = Keys::new();
    (0..=20).for_each(|number| put(&mut keys, Name::Manifest(number)));
    (1..=40).for_each(|number| put(&mut keys, Name::Object(number)));
    keys.insert(stray.to_string(), None);
    keys
}

/// What the program has to print, by the keys that were put.
fn expected(keys: &Keys) -> String {
    let names: Vec<Name> = keys.values().map_while(|name| *name).collect();
    let numbers = names.iter().filter_map(|name| match name {
        Name::Manifest(number) => Some(*number),
        Name::Object(_) => None,
    });
    let manifests: Vec<u64> = numbers.collect();
    let objects = names.len() - manifests.len();
    let manifest = match manifests.iter().max() {
        None => "no manifest".to_string(),
        Some(number) => format!("manifest {number}"),
    };
    let end = match keys.len() - names.len() {
        0 => "whole".to_string(),
        _ => format!("bad {}", names.len()),
    };
    format!("{manifest}\nobjects {objects}\n{end}\n")
}

/// Runs the command to its end. It must read all of the input before it prints.
fn run(command: &mut Command, input: &[u8]) -> io::Result<Output> {
    command.stdin(Stdio::piped()).stdout(Stdio::piped()).stderr(Stdio::piped());
    let mut child = command.spawn()?;
    let written = child.stdin.take().expect("it is piped").write_all(input);
    // It has ended before any error is told, so that none is left behind. One
    // that ended early tells why by itself.
    let done = child.wait_with_output()?;
    match written {
        Err(error) if error.kind() != io::ErrorKind::BrokenPipe => Err(error),
        _ => Ok(done),
    }
}

/// Tells that nothing was compared, past the test harness, which would keep the
/// words of a test that passes.
fn skipped(missing: &str) -> Option<Vec<u8>> {
    let line = format!("skipped: no {missing} on this machine, so no real bucket was listed\n");
    io::stderr().write_all(line.as_bytes()).expect("standard error takes it");
    None
}

/// The listing of a bucket into which the keys were put in random order; `None`
/// where this machine has no store.
fn listed(random: &mut Random, keys: &Keys) -> Option<Vec<u8>> {
    let mut lines: Vec<String> = keys.keys().map(|key| format!("{key}\n")).collect();
    for place in 1..lines.len() {
        lines.swap(place, random.index(place + 1));
    }
    let script = Path::new(env!("CARGO_MANIFEST_DIR")).join("tests/bucket.py");
    let done = match run(Command::new("python3").arg(script), lines.concat().as_bytes()) {
        Err(error) if error.kind() == io::ErrorKind::NotFound => return skipped("python3"),
        done => done.unwrap_or_else(|error| panic!("bucket.py: {error}")),
    };
    if done.status.code() == Some(MISSING) {
        return skipped("boto3 or moto");
    }
    let told = String::from_utf8_lossy(&done.stderr);
    assert!(done.status.success(), "bucket.py: {}: {told}", done.status);
    let pages = format!("{} pages", keys.len().div_ceil(PAGE));
    assert!(told.lines().any(|line| line == pages), "{pages}: {told}");
    Some(done.stdout)
}

/// What the proved program prints for a listing. The script builds it: two
/// tests must not build it at once.
fn printed(listing: &[u8]) -> String {
    static BUILT: Once = Once::new();
    let root = Path::new(env!("CARGO_MANIFEST_DIR")).join("..");
    BUILT.call_once(|| {
        let done = Command::new(root.join("list_bucket")).stdin(Stdio::null()).output();
        assert!(done.expect("the script is there").status.success(), "list_bucket is not built");
    });
    let program = root.join("target/bin/list_bucket");
    let done = run(&mut Command::new(&program), listing)
        .unwrap_or_else(|error| panic!("{}: {error}", program.display()));
    assert!(done.status.success(), "{done:?}");
    String::from_utf8(done.stdout).expect("it is text")
}

#[track_caller]
fn read_as_put(random: &mut Random, keys: &Keys) {
    let length: usize = keys.keys().map(|key| key.len() + 1).sum();
    assert!(length <= LONGEST_LISTING, "{length} bytes");
    if let Some(listing) = listed(random, keys) {
        println!("{} keys put, {} bytes listed: {}", keys.len(), listing.len(), expected(keys));
        assert_eq!(printed(&listing), expected(keys));
    }
}

#[test]
fn a_bucket_of_several_pages_is_read_whole() {
    let mut random = Random::new(20_240_695);
    let keys = many(&mut random);
    assert!(keys.len() > PAGE);
    assert!(expected(&keys).ends_with("\nobjects 900\nwhole\n"));
    read_as_put(&mut random, &keys);
}

#[test]
fn a_stray_key_behind_an_object_is_bad() {
    let keys = few_and("wal/00000000000000000003.sst.tmp");
    assert_eq!(expected(&keys), "manifest 20\nobjects 3\nbad 24\n");
    read_as_put(&mut Random::new(20_240_697), &keys);
}

#[test]
fn a_stray_key_that_is_listed_first_is_bad() {
    let keys = few_and("backup/00000000000000000003.sst");
    assert_eq!(expected(&keys), "no manifest\nobjects 0\nbad 0\n");
    read_as_put(&mut Random::new(20_240_699), &keys);
}
