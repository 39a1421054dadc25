//! Runs the scripts in the files named, in their order and with one state over all of them, or
//! the script on standard input where none is named. With the one word `acctsum`, prints what that
//! program prints for standard input; with `samples` and a number, the input of `acctsum` that is
//! drawn from it.

use std::ffi::OsString;
use std::io::{self, Read, Write};
use std::process::ExitCode;

use reference::random::Random;
use reference::script::Session;
use reference::smbpasswd::{self, samples};

fn texts(names: &[OsString]) -> io::Result<Vec<String>> {
    if names.is_empty() {
        let mut text = String::new();
        io::stdin().read_to_string(&mut text)?;
        return Ok(vec![text]);
    }
    names.iter().map(std::fs::read_to_string).collect()
}

fn scripts(names: &[OsString]) -> io::Result<()> {
    let mut session = Session::new();
    let mut output = io::stdout().lock();
    for text in texts(names)? {
        output.write_all(session.run(&text).as_bytes())?;
    }
    output.flush()
}

fn acctsum() -> io::Result<()> {
    let mut input = Vec::new();
    io::stdin().read_to_end(&mut input)?;
    let text = smbpasswd::acctsum(&input);
    io::stdout().write_all(text.as_bytes())
}

fn sample(seed: &str) -> io::Result<()> {
    let seed = seed.parse().map_err(io::Error::other)?;
    let input = samples::input(&mut Random::new(seed));
    let mut output = io::stdout().lock();
    output.write_all(&input)?;
    output.flush()
}

fn run() -> io::Result<()> {
    let words: Vec<OsString> = std::env::args_os().skip(1).collect();
    let texts: Vec<&str> = words
        .iter()
        .map(|word| word.to_str().unwrap_or(""))
        .collect();
    match texts[..] {
        ["acctsum"] => acctsum(),
        ["samples", seed] => sample(seed),
        _ => scripts(&words),
    }
}

fn main() -> ExitCode {
    match run() {
        Ok(()) => ExitCode::SUCCESS,
        Err(error) => {
            eprintln!("reference: {error}");
            ExitCode::from(2)
        }
    }
}
