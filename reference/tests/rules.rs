//! What a row of `docs/RULES.md` names is there: each definition, function, law, edit, test and
//! file, and no two rows have the same words. The page says how its cells are to be read.

use std::collections::{BTreeMap, BTreeSet};
use std::fs;
use std::path::{Path, PathBuf};

fn root() -> PathBuf {
    Path::new(env!("CARGO_MANIFEST_DIR")).join("..")
}

fn read(path: &Path) -> String {
    fs::read_to_string(path).unwrap_or_else(|error| panic!("{}: {error}", path.display()))
}

/// The text of each file below a folder.
fn texts(folder: &Path) -> Vec<String> {
    let entries = fs::read_dir(folder).into_iter().flatten();
    let paths = entries.map(|entry| entry.unwrap().path());
    paths
        .flat_map(|path| match path.is_dir() {
            true => texts(&path),
            false => vec![read(&path)],
        })
        .collect()
}

/// A word, a name in backticks, or a mark of punctuation.
#[derive(Clone, Debug, PartialEq)]
enum Token {
    Word(String),
    Name(String),
    Mark(char),
}

use Token::{Mark, Name, Word};

fn tokens(cell: &str) -> Vec<Token> {
    let mut out = Vec::new();
    for (place, part) in cell.split('`').enumerate() {
        if place % 2 == 1 {
            out.push(Name(part.to_string()));
            continue;
        }
        let mut word = String::new();
        for c in part.chars().chain([' ']) {
            if c.is_whitespace() || ";,:()".contains(c) {
                if !word.is_empty() {
                    out.push(Word(std::mem::take(&mut word)));
                }
                if !c.is_whitespace() {
                    out.push(Mark(c));
                }
            } else {
                word.push(c);
            }
        }
    }
    out
}

/// The items of a cell, which semicolons part, each with what stands in its parentheses.
fn items(cell: &str) -> Vec<(Vec<Token>, Vec<Token>)> {
    let mut out = Vec::new();
    for item in tokens(cell).split(|token| *token == Mark(';')) {
        let (mut outside, mut inside, mut depth) = (Vec::new(), Vec::new(), 0);
        for token in item {
            match token {
                Mark('(') => depth += 1,
                Mark(')') => depth -= 1,
                _ if depth > 0 => inside.push(token.clone()),
                _ => outside.push(token.clone()),
            }
        }
        if !outside.is_empty() {
            out.push((outside, inside));
        }
    }
    out
}

/// The words of a row, without what stands in parentheses, unless all do.
fn without_remarks(words: &str) -> String {
    let outside = items(words).into_iter().flat_map(|(outside, _)| outside);
    let outside: String = outside.map(|token| format!("{token:?}")).collect();
    if outside.is_empty() {
        return words.to_string();
    }
    outside
}

/// A function or a type of `src/`.
struct Item {
    krate: String,
    /// The type whose method it is.
    of: Option<String>,
    name: String,
    is_public_fn: bool,
    ensures: bool,
    requires: bool,
}

/// The word at the front, up to what cannot be part of an identifier.
fn identifier(text: &str) -> String {
    text.chars()
        .take_while(|c| c.is_alphanumeric() || *c == '_')
        .collect()
}

/// The type that an `impl` is of, by what stands behind that word: parameters, and a trait's name
/// up to `for`, stand before it.
fn type_of(rest: &str) -> String {
    let rest = match rest.strip_prefix('<') {
        Some(parameters) => parameters.split_once("> ").map_or("", |(_, rest)| rest),
        None => rest.trim_start(),
    };
    identifier(rest.split_once(" for ").map_or(rest, |(_, rest)| rest))
}

fn items_of(krate: &str) -> Vec<Item> {
    let mut out = Vec::new();
    for text in texts(&root().join("crates").join(krate).join("src")) {
        let mut of = None;
        let lines: Vec<&str> = text.lines().collect();
        for (place, line) in lines.iter().enumerate() {
            if let Some(rest) = line.strip_prefix("impl") {
                of = Some(type_of(rest));
            } else if *line == "}" {
                of = None;
            }
            let mut rest = line.trim_start();
            for word in ["pub(crate) ", "pub ", "extern \"C\" "] {
                rest = rest.strip_prefix(word).unwrap_or(rest);
            }
            let kinds = ["fn ", "struct ", "enum ", "trait "];
            let Some(name) = kinds.iter().find_map(|kind| rest.strip_prefix(kind)) else {
                continue;
            };
            // The clauses stand between the signature and the line on which the body begins.
            let head = || {
                let head = lines[place..].iter().map(|line| line.trim());
                head.take_while(|line| *line != "{" && *line != "}")
            };
            out.push(Item {
                krate: krate.to_string(),
                of: of.clone(),
                name: identifier(name),
                is_public_fn: line.trim_start().starts_with("pub ") && rest.starts_with("fn "),
                ensures: head().any(|line| line.starts_with("ensures ")),
                requires: head().any(|line| line.starts_with("requires ")),
            });
        }
    }
    out
}

/// Whether a file of specs or proofs declares the name, by a signature or as a record.
fn declares(text: &str, name: &str) -> bool {
    text.lines().any(|line| {
        let mut words = line.split_whitespace().peekable();
        while words
            .next_if(|word| ["abbrev", "unfoldable", "pub", "record", "data"].contains(word))
            .is_some()
        {}
        words.next() == Some(name) && line.contains(" : ")
    })
}

/// The ids that the headings of the cases name: `R-HASH-9, -10`, `R-NAME-1 to -4`.
fn headings(text: &str) -> BTreeSet<String> {
    let mut out = BTreeSet::new();
    for line in text.lines().filter(|line| line.starts_with('#')) {
        let (mut series, mut last, mut range) = (String::new(), 0, false);
        for word in line.split_whitespace() {
            let word = word.trim_end_matches([',', ':']);
            if word == "to" {
                range = true;
                continue;
            }
            let Some((front, number)) = word.rsplit_once('-') else {
                range = false;
                continue;
            };
            let Ok(number) = number.parse::<u32>() else {
                continue;
            };
            if !front.is_empty() {
                series = front.to_string();
            }
            let first = if range { last + 1 } else { number };
            out.extend((first..=number).map(|n| format!("{series}-{n}")));
            (last, range) = (number, false);
        }
    }
    out
}

/// The tree, as far as rows name it.
struct Tree {
    crates: BTreeSet<String>,
    items: Vec<Item>,
    headings: BTreeSet<String>,
    host_tests: Vec<String>,
}

impl Tree {
    fn new() -> Tree {
        let text = read(&root().join("crates.txt"));
        let lines = || text.lines().filter(|line| !line.starts_with('#'));
        // a static library's line has that word behind its name
        let below = || {
            lines()
                .filter_map(|line| line.split_once(':'))
                .map(|(name, needs)| (name.trim_end_matches(" staticlib"), needs))
        };
        let crates: BTreeSet<String> = below().map(|(name, _)| name.to_string()).collect();
        // the library: what C's archive and the theorems rest on. Other crates serve the programs.
        let mut library: BTreeSet<&str> = BTreeSet::from(["mschap", "series"]);
        let lines_above: Vec<(&str, &str)> = below().collect();
        for (name, needs) in lines_above.iter().rev() {
            if library.contains(name) {
                library.extend(needs.split_whitespace());
            }
        }
        let mut items: Vec<Item> = crates.iter().flat_map(|name| items_of(name)).collect();
        for item in &mut items {
            item.is_public_fn &= library.contains(item.krate.as_str());
        }
        Tree {
            items,
            crates,
            headings: ["vectors", "vectors_one"]
                .map(|name| read(&root().join(format!("crates/{name}/data/cases.txt"))))
                .iter()
                .flat_map(|text| headings(text))
                .collect(),
            host_tests: texts(&root().join("host/rust/tests")),
        }
    }

    /// The functions and types that a path names: `crate::item`, `Type::method`,
    /// `crate::Type::method`, `item`, with `*` for any ending.
    fn found(&self, front: &str, name: &str) -> Vec<&Item> {
        let fits = |item: &&Item| match name.strip_suffix('*') {
            Some(start) => item.name.starts_with(start),
            None => item.name == name,
        };
        let under = |item: &&Item| {
            front.is_empty()
                || (self.crates.contains(front) && item.krate == front)
                || item.of.as_deref() == Some(front)
                || front.split_once("::").is_some_and(|(krate, of)| {
                    item.krate == krate && item.of.as_deref() == Some(of)
                })
        };
        self.items.iter().filter(under).filter(fits).collect()
    }
}

/// What is wrong with one row.
struct Row<'a> {
    tree: &'a Tree,
    id: &'a str,
    functions: Vec<&'a Item>,
    wrong: Vec<String>,
}

impl<'a> Row<'a> {
    fn say(&mut self, words: String) {
        self.wrong.push(format!("{}: {words}", self.id));
    }

    fn file(&mut self, path: &str) {
        if !root().join(path).exists() {
            self.say(format!("there is no {path}"));
        }
    }

    /// What is said of the functions that the row names.
    fn promise(&mut self, lack: &str, holds: impl Fn(&Item) -> bool) {
        if self.functions.is_empty() {
            self.say("a promise, and no function".to_string());
        }
        let lacking = self.functions.iter().filter(|item| !holds(item));
        let names: Vec<String> = lacking.map(|item| item.name.clone()).collect();
        for name in names {
            self.say(format!("`{name}` has {lack}"));
        }
    }

    /// Functions and types; a name without a path goes on with the path before it.
    fn function_cell(&mut self, cell: &str) {
        for (item, _) in items(cell) {
            let mut front = "";
            let mut kind = "";
            for token in &item {
                match token {
                    Word(word) if ["program", "every"].contains(&word.as_str()) => kind = word,
                    Name(name) if kind == "program" => {
                        self.file(&format!("crates/{name}/src/main.rt"));
                    }
                    Name(name) if kind == "every" && name == "pub fn" => {
                        let all = self.tree.items.iter().filter(|item| item.is_public_fn);
                        self.functions.extend(all);
                    }
                    Name(path) => {
                        let (path, name) = path.rsplit_once("::").unwrap_or(("", path));
                        if !path.is_empty() {
                            front = path;
                        }
                        let found = self.tree.found(front, name);
                        if found.is_empty() {
                            self.say(format!("no function or type `{front}::{name}`"));
                        }
                        self.functions.extend(found);
                    }
                    Mark(',') => {}
                    other => self.say(format!("not a function or type: {other:?}")),
                }
            }
        }
    }

    /// Definitions (`folder` is `specs`) or theorems (`proofs`); beside theorems, promises.
    fn place_cell(&mut self, cell: &str, folder: &str) {
        for (item, _) in items(cell) {
            let (mut krate, mut file, mut front, mut own) = ("", String::new(), "", "");
            for token in &item {
                match token {
                    Mark(',') => {}
                    Word(word) if self.tree.crates.contains(word) => {
                        (krate, front) = (word, "");
                        let mut letters = word.chars();
                        let first = letters.next().unwrap().to_uppercase();
                        file = first.chain(letters).collect();
                    }
                    Word(word) if word == "specs" && !krate.is_empty() => {
                        self.file(&format!("crates/{krate}/specs"));
                    }
                    Word(word) if word.contains('/') => {
                        self.file(&match krate {
                            "" => word.clone(),
                            _ => format!("crates/{krate}/{word}"),
                        });
                    }
                    Word(word) if !krate.is_empty() && word.starts_with(char::is_uppercase) => {
                        file = word.clone();
                        self.file(&format!("crates/{krate}/{folder}/{file}.antt"));
                    }
                    Word(word) if ["its", "their", "no"].contains(&word.as_str()) => own = word,
                    Name(name) if !own.is_empty() && name == "ensures" => {
                        self.promise("no ensures", |item| item.ensures);
                    }
                    Name(name) if own == "no" && name == "requires" => {
                        self.promise("a requires", |item| !item.requires);
                    }
                    // the promise of another function
                    Name(path) if path.contains("::") || !front.is_empty() => {
                        let (path, name) = path.rsplit_once("::").unwrap_or((front, path));
                        front = path;
                        if !self.tree.found(front, name).iter().any(|item| item.ensures) {
                            self.say(format!("no function `{front}::{name}` with an ensures"));
                        }
                    }
                    Name(name) if !krate.is_empty() => {
                        let path = format!("crates/{krate}/{folder}/{file}.antt");
                        let text = fs::read_to_string(root().join(&path)).unwrap_or_default();
                        if !declares(&text, name) {
                            self.say(format!("{path} declares no `{name}`"));
                        }
                    }
                    other => self.say(format!("not a crate, file or name: {other:?}")),
                }
            }
        }
    }

    fn test_cell(&mut self, cell: &str) {
        for (item, inside) in items(cell) {
            let words: Vec<&str> = item
                .iter()
                .filter_map(|token| match token {
                    Word(word) => Some(word.as_str()),
                    _ => None,
                })
                .collect();
            let names: Vec<&String> = item
                .iter()
                .filter_map(|token| match token {
                    Name(name) => Some(name),
                    _ => None,
                })
                .collect();
            match words.as_slice() {
                ["vectors"] => {
                    if !self.tree.headings.contains(self.id) {
                        self.say("no heading of the cases names it".to_string());
                    }
                }
                ["edit" | "edits"] => {
                    let named: Vec<&String> = inside
                        .iter()
                        .filter_map(|token| match token {
                            Word(word) => Some(word),
                            _ => None,
                        })
                        .collect();
                    for name in names {
                        let has = |krate: &String| {
                            let path = format!("crates/{krate}/must-fail/{name}.edit");
                            root().join(path).exists()
                        };
                        let mut wrong = Vec::new();
                        wrong.extend(named.iter().filter(|krate| !has(krate)).cloned());
                        let somewhere = self.tree.crates.iter().any(has);
                        for krate in wrong {
                            self.say(format!("{krate} has no edit `{name}`"));
                        }
                        if named.is_empty() && !somewhere {
                            self.say(format!("no crate has an edit `{name}`"));
                        }
                    }
                }
                ["twelve"] => self.file("crates/series/proofs/Twelve.antt"),
                ["differential", "tests"] => {
                    for token in inside {
                        let Name(name) = token else { continue };
                        let text = format!("fn {name}(");
                        if !self.tree.host_tests.iter().any(|file| file.contains(&text)) {
                            self.say(format!("no test `{name}` in host/rust/tests"));
                        }
                    }
                }
                ["demo"] => self.file("crates/demo/src/main.rt"),
                [krate, file] if self.tree.crates.contains(*krate) => {
                    self.file(&format!("crates/{krate}/proofs/{file}.antt"));
                }
                paths if !paths.is_empty() && paths.iter().all(|path| path.contains('/')) => {
                    paths.iter().for_each(|path| self.file(path));
                }
                other => self.say(format!("not a test: {other:?}")),
            }
        }
    }
}

#[test]
fn rows_name_what_is_there() {
    let tree = Tree::new();
    let page = read(&root().join("docs/RULES.md"));
    let mut wrong = Vec::new();
    let mut rows = 0;
    let mut said: BTreeMap<String, String> = BTreeMap::new();
    for line in page.lines() {
        let cells: Vec<&str> = line.split('|').map(str::trim).collect();
        let ["", id, words, definition, function, theorem, test, ""] = cells[..] else {
            let is_row = line.starts_with("| R-") || line.starts_with("| CR");
            assert!(!is_row, "not six cells: {line}");
            continue;
        };
        if id == "Rule" || id.starts_with("---") {
            continue;
        }
        rows += 1;
        let mut row = Row {
            tree: &tree,
            id,
            functions: Vec::new(),
            wrong: Vec::new(),
        };
        row.function_cell(function);
        row.place_cell(definition, "specs");
        row.place_cell(theorem, "proofs");
        row.test_cell(test);
        if let Some(other) = said.insert(without_remarks(words), id.to_string()) {
            row.say(format!("the words of {other}"));
        }
        wrong.append(&mut row.wrong);
    }
    assert!(rows > 200, "{rows} rows");
    assert!(
        wrong.is_empty(),
        "{} of {rows} rows' names:\n{}",
        wrong.len(),
        wrong.join("\n")
    );
}
