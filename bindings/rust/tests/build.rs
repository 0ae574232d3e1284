//! What the build says where the library can't be linked.

#[allow(dead_code)]
#[path = "../build.rs"]
mod build;

use build::{machine, unlike_target, untried, without_library};
use std::path::Path;

/// An archive of members, each under a name.
fn archive(members: &[(&str, &[u8])]) -> Vec<u8> {
    let mut bytes = b"!<arch>\n".to_vec();
    for (name, member) in members {
        bytes.extend_from_slice(format!("{:<16}{:<32}{:<10}`\n", name, 0, member.len()).as_bytes());
        bytes.extend_from_slice(member);
        bytes.resize(bytes.len() + member.len() % 2, b'\n');
    }
    bytes
}

fn object(machine: u16) -> Vec<u8> {
    let mut bytes = b"\x7fELF".to_vec();
    bytes.resize(18, 0);
    bytes.extend_from_slice(&machine.to_le_bytes());
    bytes.resize(64, 0);
    bytes
}

#[test]
fn the_machine_of_an_archive() {
    for (number, name) in [(62, Some("x86_64")), (183, Some("aarch64")), (40, None)] {
        assert_eq!(machine(&archive(&[("a.o", &object(number))])), name);
        assert_eq!(machine(&archive(&[("/", b"odd"), ("//", b"even"), ("a.o", &object(number))])), name);
    }
    let whole = archive(&[("/", b"odd"), ("a.o", &object(62))]);
    for cut in 0..whole.len() {
        assert_eq!(machine(&whole[..cut]), None);
    }
    assert_eq!(machine(b"!<arch>\n"), None);
    // The library that this test is linked with.
    let here = std::env::var("YUBI_LIB_DIR").unwrap_or_else(|_| "../../target/staticlib".to_string());
    let bytes = std::fs::read(Path::new(&here).join("libtablet.a")).unwrap();
    assert_eq!(machine(&bytes), Some(std::env::consts::ARCH));
}

#[test]
fn another_machine_is_told_with_the_target_and_the_folder() {
    assert_eq!(unlike_target("x86_64-unknown-linux-gnu", "x86_64", Some("x86_64")), None);
    assert_eq!(unlike_target("x86_64-unknown-linux-gnu", "x86_64", None), None);
    let words = unlike_target("aarch64-unknown-linux-gnu", "aarch64", Some("x86_64")).unwrap();
    for part in ["for aarch64-unknown-linux-gnu", "--target x86_64-unknown-linux-gnu", "YUBI_LIB_DIR", "tools/arm.sh"] {
        assert!(words.contains(part), "{}", words);
    }
}

#[test]
fn a_missing_library_is_told_with_its_folder() {
    let words = without_library(Path::new("/srv/tablet"));
    for part in ["no libtablet.a in /srv/tablet,", "bash tools/library.sh", "YUBI_LIB_DIR"] {
        assert!(words.contains(part), "{}", words);
    }
    assert!(without_library(Path::new("tablet")).contains("wants an absolute path"));
}

#[test]
fn another_system_is_told() {
    assert_eq!(untried("x86_64-unknown-linux-gnu", "linux"), None);
    assert!(untried("aarch64-linux-android", "android").unwrap().contains("aarch64-linux-android"));
}
