//! The versions of the crate, of the library and of the header for C agree.

use hromulice::{version, Version, VERSION};

/// What the header defines a name as.
fn defined(name: &str) -> String {
    let header = concat!(env!("CARGO_MANIFEST_DIR"), "/../../include/hromulice.h");
    let header = std::fs::read_to_string(header).unwrap();
    let found: Vec<&str> = header.lines().filter_map(|line| line.strip_prefix(&format!("#define {name} "))).collect();
    assert_eq!(found.len(), 1, "{name}");
    found[0].to_owned()
}

#[test]
fn agree() {
    assert_eq!(VERSION.to_string(), env!("CARGO_PKG_VERSION"));
    assert_eq!(version(), VERSION);
    assert_eq!(defined("HROMULICE_VERSION_TEXT"), format!("\"{VERSION}\""));
    let numbers = ["MAJOR", "MINOR", "PATCH"].map(|part| defined(&format!("HROMULICE_VERSION_{part}")));
    assert_eq!(numbers.join("."), VERSION.to_string());
}

/// The numbers are ordered as the versions are, and each stands for its version.
#[test]
fn numbers() {
    let mut before = None;
    for major in [0, 1, 2, u16::MAX] {
        for minor in [0, 1, 127, 128, u8::MAX] {
            for patch in [0, 1, 127, 128, u8::MAX] {
                let version = Version { major, minor, patch };
                assert_eq!(Version::from_number(version.number()), version);
                assert!(before.is_none_or(|before: Version| before < version && before.number() < version.number()));
                before = Some(version);
            }
        }
    }
    assert_eq!(before.unwrap().number(), u32::MAX);
    assert_eq!(VERSION.number(), u32::from(VERSION.major) * 65536 + u32::from(VERSION.minor) * 256 + u32::from(VERSION.patch));
}
