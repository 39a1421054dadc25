//! Runs numbered cases, and tells the case that fails.

use crate::random::{of_case, Random, SEED};
use std::collections::BTreeMap;
use std::io::{stderr, IsTerminal, Write};

/// How often each thing was met, so that a test that meets nothing cannot pass for one that holds.
#[derive(Default)]
pub struct Seen(BTreeMap<String, u64>);

impl Seen {
    pub fn note(&mut self, what: impl Into<String>) {
        *self.0.entry(what.into()).or_default() += 1;
    }

    /// How often this was met.
    pub fn count(&self, what: &str) -> u64 {
        self.0.get(what).copied().unwrap_or_default()
    }

    /// This was met so often at least.
    pub fn at_least(&self, count: u64, what: &str) {
        let met = self.count(what);
        assert!(met >= count, "met {met} times: {what}");
    }

    /// Each of these was met.
    pub fn expect(&self, all: &[&str]) {
        for what in all {
            assert!(self.0.contains_key(*what), "never met: {what}");
        }
    }
}

/// Tells its case when the case panics.
struct Case(&'static str, u64);

impl Drop for Case {
    fn drop(&mut self) {
        if std::thread::panicking() {
            let Case(what, number) = self;
            // Not by a macro: the case is to be seen even where the output is captured.
            let _ = writeln!(stderr(), "{what}: seed {SEED:#x}, case {number}");
        }
    }
}

/// Runs cases 0 to `count`, and gives what they met.
pub fn run(what: &'static str, count: u64, mut case: impl FnMut(&mut Random, &mut Seen)) -> Seen {
    let terminal = stderr().is_terminal();
    let start = std::time::Instant::now();
    let mut seen = Seen::default();
    for number in 0..count {
        let _case = Case(what, number);
        if terminal && number % 10_000 == 0 {
            let _ = write!(stderr(), "\r{what}: {number} of {count} ");
        }
        case(&mut of_case(number), &mut seen);
    }
    if terminal {
        let _ = writeln!(stderr(), "\r{what}: {count} of {count} ");
    }
    println!("{what}: {count} cases in {:?}", start.elapsed());
    for (what, count) in &seen.0 {
        println!("    {what}: {count}");
    }
    seen
}
