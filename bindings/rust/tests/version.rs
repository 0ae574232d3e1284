//! The version stands in the repository's file VERSION; what must repeat it does, and the changes are all listed.

use std::fs;
use std::path::PathBuf;

fn text(path: &str) -> String {
    let path = PathBuf::from(env!("CARGO_MANIFEST_DIR")).join("../..").join(path);
    fs::read_to_string(&path).unwrap_or_else(|error| panic!("{}: {}", path.display(), error))
}

/// The first line that begins with `head`, without it.
fn line(text: &str, head: &str) -> String {
    text.lines().find_map(|line| line.strip_prefix(head)).unwrap_or_else(|| panic!("no line {}", head)).to_string()
}

#[test]
fn one_version() {
    let version = text("VERSION").trim_end().to_string();
    assert_eq!(version.split('.').filter(|part| part.parse::<u32>().is_ok()).count(), 3);
    for name in ["rust", "plain", "judge", "bench", "yardsticks"] {
        let manifest = text(&format!("bindings/{}/Cargo.toml", name));
        assert_eq!(line(&manifest, "version = "), format!("\"{}\"", version), "bindings/{}/Cargo.toml", name);
    }
    assert_eq!(line(&text("CITATION.cff"), "version: "), version);
    assert!(line(&text("CHANGELOG.md"), "## ").starts_with(&version));
}

/// Every note of docs/changes has its line in CHANGELOG.md, and every note that it links to is there.
#[test]
fn the_changes_are_all_listed() {
    let changes = text("CHANGELOG.md");
    let folder = PathBuf::from(env!("CARGO_MANIFEST_DIR")).join("../../docs/changes");
    let mut notes: Vec<String> =
        fs::read_dir(folder).unwrap().map(|note| note.unwrap().file_name().into_string().unwrap()).collect();
    let mut linked: Vec<String> =
        changes.split("(docs/changes/").skip(1).map(|rest| rest.split(')').next().unwrap().to_string()).collect();
    notes.sort();
    linked.sort();
    assert_eq!(linked, notes);
}
