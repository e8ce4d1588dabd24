use super::*;

const M1: &str = "manifest/00000000000000000001.manifest";
const M2: &str = "manifest/00000000000000000002.manifest";
const M10: &str = "manifest/00000000000000000010.manifest";
const O1: &str = "wal/00000000000000000001.sst";
const O2: &str = "wal/00000000000000000002.sst";
const O10: &str = "wal/00000000000000000010.sst";

/// The lines, each with its end.
fn ended(lines: &[&str]) -> String {
    lines.iter().map(|line| format!("{line}\n")).collect()
}

fn listing(manifest: Option<u64>, objects: u64, bad: Option<u64>) -> Listing {
    Listing { manifest, objects, bad }
}

/// These lines are whole, and say so.
#[track_caller]
fn whole(lines: &[&str], manifest: Option<u64>, objects: u64) {
    assert_eq!(read(ended(lines).as_bytes()), listing(manifest, objects, None));
}

/// Behind two manifests and an object, this line is the first bad one, and no
/// line behind it counts.
#[track_caller]
fn bad(line: &str) {
    let text = ended(&[M1, M2, O1, line, O2, O10]);
    assert_eq!(read(text.as_bytes()), listing(Some(2), 1, Some(3)), "{line}");
}

#[test]
fn an_empty_listing_is_whole_and_has_nothing() {
    whole(&[], None, 0);
}

#[test]
fn the_highest_manifest_and_the_number_of_objects_are_answered() {
    whole(&[M1], Some(1), 0);
    whole(&[O1], None, 1);
    whole(&[M1, M2, M10], Some(10), 0);
    whole(&[O1, O2, O10], None, 3);
    whole(&[M1, M2, M10, O1, O2, O10], Some(10), 3);
    whole(&[M2, O10], Some(2), 1);
}

#[test]
fn numbers_from_the_lowest_to_the_highest_are_answered() {
    let (lowest, highest) =
        ("manifest/00000000000000000000.manifest", "manifest/18446744073709551615.manifest");
    whole(&[lowest], Some(0), 0);
    whole(&[lowest, highest, "wal/18446744073709551615.sst"], Some(u64::MAX), 1);
}

/// The end of the last line opens no further one.
#[test]
fn a_line_needs_its_end() {
    assert_eq!(read(b"\n"), listing(None, 0, Some(0)));
    for (text, expected) in [
        (O1.to_string(), listing(None, 0, Some(0))),
        (M1.to_string(), listing(None, 0, Some(0))),
        (format!("{M1}\n{O1}"), listing(Some(1), 0, Some(1))),
        (format!("{M1}\n{O1}\n"), listing(Some(1), 1, None)),
        (format!("{M1}\n{O1}\n\n"), listing(Some(1), 1, Some(2))),
        (format!("{M1}\n{O1}\nw"), listing(Some(1), 1, Some(2))),
    ] {
        assert_eq!(read(text.as_bytes()), expected, "{text}");
    }
}

#[test]
fn a_line_that_is_no_name_is_bad() {
    for line in [
        "",
        " ",
        "wal/",
        "00000000000000000002.sst",
        "00000000000000000003.manifest",
        "wal/00000000000000000002.manifest",
        "manifest/00000000000000000003.sst",
        "WAL/00000000000000000002.sst",
        "wal/wal/00000000000000000002.sst",
        "wal/00000000000000000002.sst.tmp",
        "wal/00000000000000000002.sst ",
        "wal/00000000000000000002.sst\r",
        "wal/0000000000000000002.sst",
        "wal/18446744073709551616.sst",
        "wal/99999999999999999999.sst",
    ] {
        bad(line);
    }
}

/// Also where it stands in byte order.
#[test]
fn object_zero_is_no_name() {
    let zero = "wal/00000000000000000000.sst";
    bad(zero);
    let text = ended(&[M1, zero, O1]);
    assert_eq!(read(text.as_bytes()), listing(Some(1), 0, Some(1)));
}

#[test]
fn a_line_not_above_its_predecessor_is_bad() {
    // An equal one, a lower one, and a manifest behind an object.
    bad(O1);
    bad(M2);
    bad(M10);
    let cases: [(&[&str], Listing); 4] = [
        (&[M2, M2, O1], listing(Some(2), 0, Some(1))),
        (&[M10, M2, O1], listing(Some(10), 0, Some(1))),
        (&[O10, O2], listing(None, 1, Some(1))),
        (&[M1, O1, O10, O2], listing(Some(1), 2, Some(3))),
    ];
    for (lines, expected) in cases {
        assert_eq!(read(ended(lines).as_bytes()), expected, "{lines:?}");
    }
}

/// The first line may be any name.
#[test]
fn the_first_line_has_no_predecessor() {
    for line in [M1, M10, O1, O10, "manifest/00000000000000000000.manifest"] {
        assert_eq!(read(format!("{line}\n").as_bytes()).bad, None, "{line}");
    }
}

#[test]
fn the_first_of_several_bad_lines_is_answered() {
    let text = ended(&[M1, "a", O1, "b", O1]);
    assert_eq!(read(text.as_bytes()), listing(Some(1), 0, Some(1)));
    assert_eq!(read(&[0xFF; 100]), listing(None, 0, Some(0)));
    assert_eq!(read(&[END; 100]), listing(None, 0, Some(0)));
}

#[test]
fn the_program_prints_a_line_for_each_answer() {
    assert_eq!(list_bucket(b""), "no manifest\nobjects 0\nwhole\n");
    let text = ended(&[M1, M10, O1, O2, O10]);
    assert_eq!(list_bucket(text.as_bytes()), "manifest 10\nobjects 3\nwhole\n");
    let text = ended(&[M1, O2, O2]);
    assert_eq!(list_bucket(text.as_bytes()), "manifest 1\nobjects 1\nbad 2\n");
    assert_eq!(list_bucket(b"?"), "no manifest\nobjects 0\nbad 0\n");
}

#[test]
fn the_program_takes_at_most_65_536_bytes() {
    assert_eq!(list_bucket(&[END; 65_536]), "no manifest\nobjects 0\nbad 0\n");
    assert_eq!(list_bucket(&[END; 65_537]), "too long\n");
    let lines: String = (1..=2_259).map(|number| format!("wal/{number:020}.sst\n")).collect();
    assert_eq!(lines.len(), 65_511);
    assert_eq!(list_bucket(lines.as_bytes()), "no manifest\nobjects 2259\nwhole\n");
    // Whole lines too, once they are too long.
    let more = lines + "wal/00000000000000002260.sst\n";
    assert_eq!(list_bucket(more.as_bytes()), "too long\n");
}
