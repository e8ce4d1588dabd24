//! The examples are compiled as their first lines say, and print what is
//! stored.

use std::fs;
use std::path::{Path, PathBuf};
use std::process::Command;

use second::compare::ledgers::LEDGER;
use second::compare::listing::LISTING;
use second::limits::{LONGEST_IMAGE, LONGEST_STEP, LONGEST_VERDICT, NAMES, PLACES};

const C: &str = "cc -O2 -Wall -Wextra -Werror -Iinclude examples/depot_week.c \
                 -Ltarget/staticlib -lexports";
const SALE: &str = "cc -O2 -Wall -Wextra -Werror -Iinclude examples/sale.c -Ltarget/staticlib \
                    -lexports -ldesk_exports";
const BUCKET: &str = "cc -O2 -Wall -Wextra -Werror -Iinclude examples/bucket.c -Ltarget/staticlib \
                      -lexports -llisting_exports";
const IMAGE: &str = "cc -O2 -Wall -Wextra -Werror -Iinclude examples/image.c -Ltarget/staticlib \
                     -lexports -limage_exports";
const LOG: &str = "cc -O2 -Wall -Wextra -Werror -Iinclude examples/log.c -Ltarget/staticlib \
                   -lexports -limage_exports -llog_exports";
const RUST: &str = "rustc --edition 2021 -O examples/depot_week.rs -L target/staticlib \
                    -l static=exports";

fn root() -> PathBuf {
    Path::new(env!("CARGO_MANIFEST_DIR")).join("..")
}

/// The program that the command compiles.
fn compiled(command: &str, name: &str) -> PathBuf {
    let program = Path::new(env!("CARGO_TARGET_TMPDIR")).join(name);
    let mut words = command.split(' ');
    let mut compiler = Command::new(words.next().expect("the compiler is the first word"));
    compiler.args(words).arg("-o").arg(&program).current_dir(root());
    let status = compiler.status().unwrap_or_else(|error| panic!("{command}: {error}"));
    assert!(status.success(), "{command}: {status}");
    program
}

/// What the program prints, which must succeed.
fn printed_by(command: &mut Command) -> String {
    let done = command.output().expect("it was compiled");
    assert!(done.status.success(), "{command:?}: {done:?}");
    String::from_utf8(done.stdout).expect("it is text")
}

/// What the program prints for a trace.
fn printed(program: &Path, trace: &Path) -> String {
    printed_by(Command::new(program).arg(trace))
}

/// The number that the header gives a name.
fn in_header(header: &str, name: &str) -> usize {
    let header = fs::read_to_string(root().join("include").join(header)).expect("it is there");
    let named = format!("    {name} = ");
    let line = header.lines().find(|line| line.starts_with(&named)).expect("it has the name");
    line[named.len()..].trim_end_matches(',').parse().expect("it is a number")
}

#[test]
fn the_header_s_sizes_are_those_of_the_documents() {
    let header = "cuudhaqil.h";
    assert_eq!(in_header(header, "CUUDHAQIL_NAMES"), NAMES);
    assert_eq!(in_header(header, "CUUDHAQIL_PLACES"), PLACES);
    assert_eq!(in_header(header, "CUUDHAQIL_LEDGER"), LEDGER);
    assert_eq!(in_header(header, "CUUDHAQIL_LONGEST_STEP"), LONGEST_STEP);
    assert_eq!(in_header(header, "CUUDHAQIL_LONGEST_VERDICT"), LONGEST_VERDICT);
    assert_eq!(in_header("cuudhaqil_listing.h", "CUUDHAQIL_LISTING"), LISTING);
    assert_eq!(in_header("cuudhaqil_image.h", "CUUDHAQIL_LONGEST_IMAGE"), LONGEST_IMAGE);
}

#[test]
fn both_examples_print_the_stored_week() {
    let (c, rust) = (compiled(C, "depot_week_c"), compiled(RUST, "depot_week_rust"));
    let stored = fs::read_to_string(root().join("examples/depot_week.out")).expect("it is stored");
    let trace = root().join("examples/depot_week.trace");
    assert_eq!(printed(&c, &trace), stored);
    assert_eq!(printed(&rust, &trace), stored);

    // The trace cut anywhere ends whole or torn, and an empty one is a trace.
    let bytes = fs::read(&trace).expect("it is stored");
    let cut = Path::new(env!("CARGO_TARGET_TMPDIR")).join("cut.trace");
    for length in [0, 1, 29, 30, bytes.len() - 1] {
        fs::write(&cut, &bytes[..length]).expect("the folder is cargo's");
        let words = printed(&c, &cut);
        let end = if [0, 29].contains(&length) { "whole: " } else { "torn: " };
        assert!(words.lines().last().is_some_and(|line| line.starts_with(end)), "{words}");
        assert_eq!(words, printed(&rust, &cut));
    }
}

/// The example prints what is stored, and the page of formats shows it.
fn prints_what_the_format_page_shows(command: &str, name: &str) {
    let stored = root().join("examples").join(name).with_extension("out");
    let stored = fs::read_to_string(stored).expect("it is stored");
    assert_eq!(printed_by(&mut Command::new(compiled(command, name))), stored);
    let page = fs::read_to_string(root().join("docs/FORMAT.md")).expect("it is there");
    let shown: String = stored.lines().map(|line| format!("    {line}\n")).collect();
    assert!(page.contains(&shown), "docs/FORMAT.md shows another {name}");
}

#[test]
fn the_sale_prints_what_is_stored_and_the_format_page_shows() {
    prints_what_the_format_page_shows(SALE, "sale");
}

#[test]
fn the_image_prints_what_is_stored_and_the_format_page_shows() {
    prints_what_the_format_page_shows(IMAGE, "image");
}

#[test]
fn the_log_prints_what_is_stored_and_the_format_page_shows() {
    prints_what_the_format_page_shows(LOG, "log");
}

#[test]
fn the_bucket_prints_what_is_stored() {
    let stored = fs::read_to_string(root().join("examples/bucket.out")).expect("it is stored");
    assert_eq!(printed_by(&mut Command::new(compiled(BUCKET, "bucket"))), stored);
}
