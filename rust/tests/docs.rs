//! The crate's own documentation, held to its sources.

use std::fs;
use std::path::Path;

/// The sources of the library: their names and texts.
fn sources() -> Vec<(String, String)> {
    let folder = Path::new(env!("CARGO_MANIFEST_DIR")).join("src");
    let mut sources = Vec::new();
    for entry in fs::read_dir(folder).expect("src") {
        let path = entry.expect("an entry").path();
        if path.extension().is_some_and(|ending| ending == "rs") {
            let text = fs::read_to_string(&path).expect("a source");
            sources.push((path.display().to_string(), text));
        }
    }
    assert!(sources.len() > 10);
    sources
}

/// What may get more fields or variants is marked so.
#[test]
fn what_may_grow_is_marked() {
    let all: String = sources().into_iter().map(|source| source.1).collect();
    for item in [
        "enum Error",
        "enum Refusal",
        "enum Kind",
        "enum Filter",
        "enum Rewrite",
        "enum Sort",
        "struct Sigma",
        "struct Options",
        "struct Format<'a>",
        "struct Reading",
    ] {
        let marked = format!("#[non_exhaustive]\npub {item} {{");
        assert!(all.contains(&marked), "{item}");
    }
}

/// A user of the crate has never seen the documents that the library was written from.
#[test]
fn no_document_is_spoken_of_that_users_lack() {
    for (name, text) in sources() {
        let lower = text.to_lowercase();
        assert!(!lower.contains("document 01"), "{name}");
        assert!(!lower.contains("demand"), "{name}");
    }
}

/// The documentation of every public function that may fail says how.
#[test]
fn errors_are_documented() {
    let mut count = 0;
    for (name, text) in sources() {
        let own = text.split("#[cfg(test)]").next().unwrap();
        for (at, _) in own.match_indices("pub fn ") {
            let (before, rest) = own.split_at(at);
            let signature = rest.split(" {\n").next().unwrap();
            if !signature.contains("-> Result<") {
                continue;
            }
            let lines = before.lines().rev().skip(1);
            let docs: Vec<&str> = lines
                .take_while(|line| line.trim().starts_with("///") || line.trim().starts_with("#["))
                .collect();
            let documented = docs.iter().any(|line| line.trim() == "/// # Errors");
            assert!(documented, "{name}: {signature}");
            count += 1;
        }
    }
    assert!(count >= 20, "{count}");
}

/// The manifest names the licence of the sources from which the code was carried, and the changes have the version.
#[test]
fn licence_and_changes() {
    let manifest = include_str!("../Cargo.toml");
    assert!(manifest.contains("license = \"MIT OR Apache-2.0\""));
    let notice = include_str!("../../NOTICE");
    assert!(notice.contains("Apache License, Version 2.0") && notice.contains("MIT license"));
    let version = format!("\n## {}\n", env!("CARGO_PKG_VERSION"));
    assert!(include_str!("../CHANGELOG.md").contains(&version));
}
