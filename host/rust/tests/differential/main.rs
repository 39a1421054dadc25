//! Differential tests: the archive, through this package, against the independent second
//! implementation `reference`. Every case is drawn from a fixed seed and its own number.

mod both;
mod faults;
mod files;
mod functions;
#[path = "../layout/mod.rs"]
mod layout;
mod lists;
mod lm;
mod lockout;
mod packets;
mod random;
mod readers;
mod repeats;
mod run;
mod schedules;
mod series;
mod steps;
mod texts;
