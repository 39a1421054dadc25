//! Holds docs/REVIEW.md to the tree: every file of definitions is listed with its lines, and every
//! theorem that it names is there.
use std::collections::BTreeSet;
use std::fs;
use std::path::{Path, PathBuf};

fn root() -> PathBuf {
    Path::new(env!("CARGO_MANIFEST_DIR")).join("..")
}

fn review() -> String {
    fs::read_to_string(root().join("docs/REVIEW.md")).unwrap()
}

/// The rows of the table under a heading, cut into cells.
fn rows(text: &str, heading: &str) -> Vec<Vec<String>> {
    let section = text
        .split("\n## ")
        .find(|s| s.starts_with(heading))
        .unwrap();
    section
        .lines()
        .filter(|l| {
            l.starts_with("| ") && !l.starts_with("| File |") && !l.starts_with("| Theorem |")
        })
        .map(|l| {
            l.trim_matches('|')
                .split('|')
                .map(|c| c.trim().to_string())
                .collect()
        })
        .collect()
}

/// Every file of definitions but the lists of modules and the inner ones.
fn definitions() -> BTreeSet<String> {
    let mut found = BTreeSet::new();
    for krate in fs::read_dir(root().join("crates")).unwrap() {
        let krate = krate.unwrap();
        let Ok(files) = fs::read_dir(krate.path().join("specs")) else {
            continue;
        };
        for file in files {
            let name = file.unwrap().file_name().into_string().unwrap();
            let stem = name
                .strip_suffix(".antt")
                .expect("a folder or another file in specs/");
            if stem != "Lib" && stem != "Inner" {
                let krate = krate.file_name().into_string().unwrap();
                found.insert(format!("{krate}/specs/{stem}"));
            }
        }
    }
    found
}

#[test]
fn every_definition_is_listed_with_its_lines() {
    let mut listed = BTreeSet::new();
    for row in rows(&review(), "1. ") {
        let path = root().join("crates").join(format!("{}.antt", row[0]));
        let text = fs::read_to_string(&path).unwrap_or_else(|_| panic!("no file {}", row[0]));
        assert_eq!(
            row[1],
            text.lines().count().to_string(),
            "lines of {}",
            row[0]
        );
        assert!(
            listed.insert(row[0].clone()),
            "{} stands there twice",
            row[0]
        );
    }
    assert_eq!(listed, definitions());
}

#[test]
fn every_theorem_is_there() {
    let mut count = 0;
    for row in rows(&review(), "2. ") {
        let mut words = row[0].split_whitespace();
        let (krate, file) = (words.next().unwrap(), words.next().unwrap());
        let path = root().join(format!("crates/{krate}/proofs/{file}.antt"));
        let text = fs::read_to_string(&path).unwrap_or_else(|_| panic!("no {krate} {file}"));
        for name in row[0].split('`').skip(1).step_by(2) {
            let stated = format!("pub {name} :");
            assert!(
                text.lines().any(|l| l.trim_start().starts_with(&stated)),
                "{krate} {file} has no theorem {name}"
            );
            count += 1;
        }
    }
    assert!(count > 40, "only {count} theorems were read");
}

/// Definitions and promises cite the inner definitions of their own crate alone, so that nothing
/// that another crate says rests on them. (Proofs may cite any.)
#[test]
fn inner_definitions_stay_inside() {
    let mut seen = 0;
    let mut folders = vec![root().join("crates")];
    while let Some(folder) = folders.pop() {
        for entry in fs::read_dir(&folder).unwrap() {
            let path = entry.unwrap().path();
            if path.is_dir() {
                // out/ holds what a check keeps
                if path.file_name().is_some_and(|name| name != "out") {
                    folders.push(path);
                }
                continue;
            }
            if path.components().any(|c| c.as_os_str() == "proofs") {
                continue;
            }
            let inside = path.strip_prefix(root().join("crates")).unwrap();
            let krate = inside.iter().next().unwrap().to_str().unwrap();
            let own = format!("Rattle.{krate}.specs.Inner.");
            let Ok(text) = fs::read_to_string(&path) else {
                continue;
            };
            for line in text.lines().filter(|l| l.contains("specs.Inner")) {
                assert!(line.contains(&own), "{}: {line}", path.display());
                seen += 1;
            }
        }
    }
    assert!(seen > 0);
}
