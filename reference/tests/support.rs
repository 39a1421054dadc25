//! Holds docs/SUPPORT.md to the cases: each row of its table of handsets names a case, in which the
//! change draws what the row says, and no case of a handset is left out.

use std::collections::{BTreeMap, BTreeSet};
use std::fs;
use std::path::Path;

fn read(path: &str) -> String {
    let root = Path::new(env!("CARGO_MANIFEST_DIR")).join("..");
    fs::read_to_string(root.join(path)).unwrap_or_else(|error| panic!("{path}: {error}"))
}

/// The rows of the table under a heading of the page, cut into cells, without the first.
fn rows(page: &str, heading: &str) -> Vec<Vec<String>> {
    let mut parts = page.split("\n## ");
    let part = parts.find(|part| part.starts_with(heading)).unwrap();
    let rows = part.lines().filter(|line| line.starts_with("| "));
    let cells = |row: &str| -> Vec<String> {
        let cells = row.trim_matches('|').split('|');
        cells.map(|cell| cell.trim().to_string()).collect()
    };
    rows.skip(1).map(cells).collect()
}

/// For each case of a handset the refusal, the reason, whether it is a repeat, and the fault, that
/// its first change draws.
fn drawn(output: &str) -> BTreeMap<String, Vec<String>> {
    let mut found = BTreeMap::new();
    for part in output.split("\n\n") {
        let Some(rest) = part.strip_prefix("# 2026-04, handset ") else {
            continue;
        };
        let (name, _) = rest.split_once(": ").unwrap();
        let mut steps = part.lines().filter(|line| line.starts_with("step 06"));
        let (_, result) = steps.next().unwrap().split_once(" = ").unwrap();
        let words = result.split(' ').take(4).map(str::to_string).collect();
        let twice = found.insert(format!("handset {name}"), words);
        assert_eq!(twice, None, "{name} stands there twice");
    }
    found
}

#[test]
fn every_handset_draws_what_the_page_says() {
    let page = read("docs/SUPPORT.md");
    let drawn = drawn(&read("crates/vectors/stdout"));
    let mut named = BTreeSet::new();
    for row in rows(&page, "What each fault of a handset draws") {
        let [said, case] = &row[1..] else {
            panic!("{row:?}");
        };
        let words = drawn.get(case).unwrap_or_else(|| panic!("no case {case}"));
        match said.strip_prefix("no 709: refused with ") {
            Some(rest) => assert_eq!(words[..], [&rest[..1], "0", "0", "0"], "{case}"),
            None => assert_eq!(words[..], ["0", "709", "0", &said[..1]], "{case}"),
        }
        assert!(named.insert(case.clone()), "{case} has two rows");
    }
    let all: BTreeSet<String> = drawn.into_keys().collect();
    assert_eq!(named, all);
    assert_eq!(all.len(), 19);
}

/// A fault's number and its name are those of the header, wherever the page has both.
#[test]
fn names_are_those_of_the_header() {
    let page = read("docs/SUPPORT.md");
    let header = read("host/include/mschap.h");
    let mut defined = BTreeMap::new();
    for line in header.lines() {
        if let Some(rest) = line.strip_prefix("#define MSCHAP_FAULT_") {
            let mut words = rest.split_whitespace();
            defined.insert(words.next().unwrap(), words.next().unwrap());
        }
    }
    let mut seen = BTreeSet::new();
    let tables = rows(&page, "What to look for").into_iter();
    let cells = tables.map(|row| row[0].clone());
    let drawn = rows(&page, "What each fault of a handset draws").into_iter();
    for cell in cells.chain(drawn.map(|row| row[1].clone())) {
        let Some((number, name)) = cell.split_once(" `") else {
            continue;
        };
        let name = name.trim_end_matches('`');
        assert_eq!(defined.get(name), Some(&number), "{cell}");
        seen.insert(number.to_string());
    }
    assert_eq!(seen.len(), 10, "{seen:?}");
}
