//! Store names: document 01, "Records and names", the paragraph that begins
//! "A manifest's name is 20 zero-padded decimal digits", with the folders of
//! document 02, request 5.

/// What stands before the digits and behind them.
type Ends = (&'static str, &'static str);

const MANIFEST: Ends = ("manifest/", ".manifest");
const OBJECT: Ends = ("wal/", ".sst");
const DIGITS: usize = 20;

#[derive(Debug, Clone, Copy, PartialEq, Eq)]
pub enum Name {
    Manifest(u64),
    Object(u64),
}

/// Reads all the bytes as one name; `None` is the answer 2.
pub fn read(bytes: &[u8]) -> Option<Name> {
    let text = std::str::from_utf8(bytes).ok()?;
    if let Some(digits) = between(MANIFEST, text) {
        number(digits).map(Name::Manifest)
    } else {
        let value = number(between(OBJECT, text)?)?;
        (value != 0).then_some(Name::Object(value))
    }
}

/// Writes a name; `None` is the answer 2, for object 0.
pub fn write(name: Name) -> Option<Vec<u8>> {
    match name {
        Name::Manifest(value) => Some(around(MANIFEST, value)),
        Name::Object(0) => None,
        Name::Object(value) => Some(around(OBJECT, value)),
    }
}

fn between((folder, suffix): Ends, text: &str) -> Option<&str> {
    text.strip_prefix(folder)?.strip_suffix(suffix)
}

fn around((folder, suffix): Ends, value: u64) -> Vec<u8> {
    format!("{folder}{value:020}{suffix}").into_bytes()
}

/// The shape is checked first because `parse` also takes a plus sign and any
/// number of digits; `parse` then refuses a value above 2^64-1.
fn number(digits: &str) -> Option<u64> {
    let shape = digits.len() == DIGITS && digits.bytes().all(|byte| byte.is_ascii_digit());
    shape.then(|| digits.parse().ok()).flatten()
}

#[cfg(test)]
mod tests {
    use super::*;

    fn both_ways(name: Name, text: &str) {
        assert_eq!(read(text.as_bytes()), Some(name));
        assert_eq!(write(name), Some(text.as_bytes().to_vec()));
    }

    #[test]
    fn names_are_read_and_written() {
        both_ways(Name::Manifest(0), "manifest/00000000000000000000.manifest");
        both_ways(Name::Manifest(7), "manifest/00000000000000000007.manifest");
        both_ways(Name::Object(1), "wal/00000000000000000001.sst");
        both_ways(Name::Manifest(u64::MAX), "manifest/18446744073709551615.manifest");
        both_ways(Name::Object(u64::MAX), "wal/18446744073709551615.sst");
    }

    /// "the writer writes the folder (38 and 28 bytes in all)"
    #[test]
    fn names_have_38_and_28_bytes() {
        for value in [1, 20, u64::MAX] {
            assert_eq!(write(Name::Manifest(value)).map(|name| name.len()), Some(38));
            assert_eq!(write(Name::Object(value)).map(|name| name.len()), Some(28));
        }
    }

    #[test]
    fn object_zero_is_refused_both_ways() {
        assert_eq!(read(b"wal/00000000000000000000.sst"), None);
        assert_eq!(write(Name::Object(0)), None);
    }

    #[test]
    fn values_above_the_largest_are_refused() {
        for digits in ["18446744073709551616", "99999999999999999999"] {
            assert_eq!(read(format!("manifest/{digits}.manifest").as_bytes()), None);
            assert_eq!(read(format!("wal/{digits}.sst").as_bytes()), None);
        }
    }

    /// "a bare name gives 2", and so does any folder but that of the kind.
    #[test]
    fn other_folders_are_refused() {
        for folder in [
            "",
            "/",
            "wal",
            "Wal/",
            "WAL/",
            "wal//",
            "/wal/",
            "./wal/",
            " wal/",
            "val/",
            "wal\\",
            "wal/wal/",
            "wal/manifest/",
            "manifest",
            "manifests/",
            "Manifest/",
            "MANIFEST/",
            "manifest//",
            "anifest/",
            "manifest/manifest/",
            "manifest/wal/",
        ] {
            for suffix in [".manifest", ".sst"] {
                let text = format!("{folder}00000000000000000001{suffix}");
                assert_eq!(read(text.as_bytes()), None, "{text}");
            }
        }
    }

    #[test]
    fn crossed_folders_are_refused() {
        assert_eq!(read(b"wal/00000000000000000001.manifest"), None);
        assert_eq!(read(b"manifest/00000000000000000001.sst"), None);
    }

    #[test]
    fn other_lengths_and_bytes_are_refused() {
        for text in [
            "",
            "wal/",
            "manifest/",
            "wal/.sst",
            "manifest/.manifest",
            "wal/00000000000000000001",
            "wal/0000000000000000001.sst",
            "wal/000000000000000000001.sst",
            "wal/+0000000000000000001.sst",
            "wal/-0000000000000000001.sst",
            "wal/ 0000000000000000001.sst",
            "manifest/0000000000000000000/.manifest",
            "manifest/0000000000000000000:.manifest",
            "manifest/0000000000000000000a.manifest",
            "wal/00000000000000000001.SST",
            "manifest/00000000000000000001.manifes",
            "manifest/00000000000000000001.manifest\n",
            "manifest/00000000000000000001.sst.manifest",
            "wal/00000000000000000001.sst/",
        ] {
            assert_eq!(read(text.as_bytes()), None, "{text}");
        }
        assert_eq!(read(b"wal/\xff0000000000000000001.sst"), None);
        assert_eq!(read(b"\xffwal/00000000000000000001.sst"), None);
    }
}
