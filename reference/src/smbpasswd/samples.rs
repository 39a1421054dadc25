//! Account files, good and damaged ones, with names, times and inputs of `acctsum` to go with them,
//! for the tests of this program and of others.

use super::Hash;
use crate::random::Random;
use std::ops::Range;

/// A hash, or none.
pub fn hash_or_none(random: &mut Random) -> Hash {
    random
        .chance(70)
        .then(|| [0; 16].map(|_: u8| random.octet()))
}

/// Octets that a reader might take for more than they are.
const MARKS: &[u8] = b"\0\r #[]XDN:x\xff";

/// An octet that a field may have: any but colon and LF.
fn field_octet(random: &mut Random) -> u8 {
    match rest_octet(random) {
        b':' => b';',
        other => other,
    }
}

/// An octet that the rest of a line may have: any but LF.
fn rest_octet(random: &mut Random) -> u8 {
    let octet = match random.chance(30) {
        true => random.pick(MARKS),
        false => random.octet(),
    };
    match octet {
        b'\n' => b'\t',
        other => other,
    }
}

fn field_octets(random: &mut Random, size: usize) -> Vec<u8> {
    (0..size).map(|_| field_octet(random)).collect()
}

fn rest_octets(random: &mut Random, size: usize) -> Vec<u8> {
    (0..size).map(|_| rest_octet(random)).collect()
}

fn joined(parts: &[&[u8]]) -> Vec<u8> {
    parts.concat()
}

/// Hexadecimal digits in upper, lower or mixed case.
fn in_some_case(random: &mut Random, digits: String) -> Vec<u8> {
    let mut digits = digits.into_bytes();
    match random.below(3) {
        0 => digits.make_ascii_lowercase(),
        1 => digits.make_ascii_uppercase(),
        _ => {
            for octet in digits.iter_mut().filter(|_| random.chance(50)) {
                octet.make_ascii_uppercase();
            }
        }
    }
    digits
}

/// A name, often one of few letters, so that one is the front of another or differs in case.
fn name(random: &mut Random) -> Vec<u8> {
    let size = match random.below(10) {
        0 => random.between(250, 256),
        1 => random.between(1, 256),
        2..=5 => random.between(1, 3),
        _ => random.between(1, 12),
    };
    let mut name = match random.chance(60) {
        true => (0..size).map(|_| random.pick(b"abAB1.-$")).collect(),
        false => field_octets(random, size),
    };
    // A # in front would make the line one that is skipped.
    if name[0] == b'#' {
        name[0] = b'_';
    }
    name
}

fn uid(random: &mut Random) -> Vec<u8> {
    let size = random.between(1, 10);
    (0..size).map(|_| random.pick(b"0123456789")).collect()
}

/// A hash's field.
fn hash(random: &mut Random) -> Vec<u8> {
    match random.below(10) {
        0 => vec![b'X'; 32],
        1 => joined(&[b"X", &field_octets(random, 31)]),
        2 => joined(&[b"NO PASSWORD", &[b'X'; 21]]),
        3 => joined(&[b"NO PASSWORD", &field_octets(random, 21)]),
        _ => {
            let digits = format!("{:016x}{:016x}", random.number(), random.number());
            in_some_case(random, digits)
        }
    }
}

/// The flags' field: U and spaces or any octets, then often D, X or both at any places.
fn flags(random: &mut Random) -> Vec<u8> {
    let mut flags = match random.chance(70) {
        true => b"U          ".to_vec(),
        false => field_octets(random, 11),
    };
    for flag in *b"DX" {
        if random.chance(25) {
            flags[random.below(11)] = flag;
        }
    }
    joined(&[b"[", &flags, b"]"])
}

/// A time: often one of few or next to it, so that ages meet.
pub fn time(random: &mut Random) -> u32 {
    const TIMES: [u32; 6] = [0, 1000, 0x3ACA_8DD1, 0x6AFA_674D, 0x8000_0000, 0xFFFF_FFFF];
    match random.below(10) {
        0 => random.number() as u32,
        _ => {
            let time = random.pick(&TIMES);
            beside(random, time)
        }
    }
}

/// The number, or the one before or after it.
fn beside(random: &mut Random, number: u32) -> u32 {
    number.wrapping_add(random.pick(&[0, 0, 0, 1, u32::MAX]))
}

/// A present time and a maximum age: often the time since one of the lines' times, or a second
/// more or less.
pub fn times(random: &mut Random) -> (u32, u32) {
    let now = time(random);
    let age = match random.below(10) {
        0 => random.number() as u32,
        1 => random.pick(&[0, 1, u32::MAX]),
        _ => {
            let since = now.saturating_sub(time(random));
            beside(random, since)
        }
    };
    (now, age)
}

fn lct(random: &mut Random) -> Vec<u8> {
    let digits = format!("{:08x}", time(random));
    joined(&[b"LCT-", &in_some_case(random, digits)])
}

/// A good line with this name, without its LF.
fn line(random: &mut Random, name: &[u8]) -> Vec<u8> {
    let mut line = Vec::new();
    let fields = [
        name.to_vec(),
        uid(random),
        hash(random),
        hash(random),
        flags(random),
        lct(random),
    ];
    for field in fields {
        line.extend(field);
        line.push(b':');
    }
    if random.chance(30) {
        let size = random.between(1, 40);
        line.extend(rest_octets(random, size));
    }
    line
}

/// A line that is skipped: a # alone, before any octets, or before a good line.
fn comment(random: &mut Random) -> Vec<u8> {
    let size = random.below(100);
    let rest = match random.below(3) {
        0 => Vec::new(),
        1 => rest_octets(random, size),
        _ => line(random, b"bob"),
    };
    joined(&[b"#", &rest])
}

/// A name that is not among these yet.
fn new_name(random: &mut Random, names: &[Vec<u8>]) -> Vec<u8> {
    loop {
        let name = name(random);
        if !names.contains(&name) {
            return name;
        }
    }
}

/// A file with no line of another form. Some have a name on two lines or more.
pub fn random_file(random: &mut Random) -> Vec<u8> {
    let count = match random.below(20) {
        0 => random.between(40, 300),
        1..=3 => random.between(9, 39),
        4..=17 => random.between(1, 8),
        _ => 0,
    };
    let doubled = random.pick(&[0, 0, 0, 20]);
    let mut names: Vec<Vec<u8>> = Vec::new();
    let mut file = Vec::new();
    for _ in 0..count {
        if random.chance(10) {
            file.extend(comment(random));
        } else if !names.is_empty() && random.chance(doubled) {
            let name = &names[random.below(names.len())];
            file.extend(line(random, name));
        } else {
            let name = new_name(random, &names);
            file.extend(line(random, &name));
            names.push(name);
        }
        file.push(b'\n');
    }
    if random.chance(20) {
        file.pop();
    }
    file
}

/// The file with one to three damages, some of which leave every line of the right form.
pub fn damaged(file: &[u8], random: &mut Random) -> Vec<u8> {
    let mut file = file.to_vec();
    for _ in 0..random.between(1, 3) {
        match random.below(15) {
            0 => field_by_one(&mut file, random),
            1 => separator(&mut file, random),
            2 => insert(&mut file, random, b":\n"),
            3 => insert(&mut file, random, b"\r\0"),
            4 => hash_sign(&mut file, random),
            5 => line_again(&mut file, random),
            6 => no_digit(&mut file, random),
            7 => brackets(&mut file, random),
            8 => spoil_lct(&mut file, random),
            9 => hash_beginning(&mut file, random),
            10 => {
                let size = random.below(file.len() + 1);
                file.truncate(size);
            }
            11 => empty_line(&mut file, random),
            12 => carriage_return(&mut file, random),
            13 => limit(&mut file, random),
            _ => other_octet(&mut file, random),
        }
    }
    file
}

/// Where some line stands, without its LF; at the end where there is none.
fn some_line(file: &[u8], random: &mut Random) -> Range<usize> {
    let lines = super::lines(file);
    if lines.is_empty() {
        return file.len()..file.len();
    }
    let (start, line) = lines[random.below(lines.len())];
    start..start + line.len()
}

/// Where a field of some line stands: the first has number 0. Empty where there is none.
fn field(file: &[u8], random: &mut Random, number: usize) -> Range<usize> {
    let Range { mut start, end } = some_line(file, random);
    let mut fields = file[start..end].split(|&octet| octet == b':');
    for field in fields.by_ref().take(number) {
        start += field.len() + 1;
    }
    match fields.next() {
        Some(field) => start..start + field.len(),
        None => end..end,
    }
}

/// A place in a range that has one.
fn place_in(range: &Range<usize>, random: &mut Random) -> Option<usize> {
    (!range.is_empty()).then(|| range.start + random.below(range.len()))
}

/// A field shorter or longer by one octet.
fn field_by_one(file: &mut Vec<u8>, random: &mut Random) {
    let number = random.below(6);
    let field = field(file, random, number);
    match place_in(&field, random) {
        Some(at) if random.chance(50) => {
            file.remove(at);
        }
        // Again the octet that stands there.
        Some(at) => file.insert(at, file[at]),
        None => file.insert(field.start, random.pick(b"0AX [")),
    }
}

/// A name or uid with no octet, with the most that it may have or with one more.
fn limit(file: &mut Vec<u8>, random: &mut Random) {
    let (number, most, octet) = random.pick(&[(0, 256, b'n'), (1, 10, b'7')]);
    let field = field(file, random, number);
    let size = random.pick(&[0, most, most + 1]);
    file.splice(field, vec![octet; size]);
}

/// A colon or LF removed, doubled or moved by one place.
fn separator(file: &mut Vec<u8>, random: &mut Random) {
    let is_separator = |&at: &usize| matches!(file[at], b':' | b'\n');
    let places: Vec<usize> = (0..file.len()).filter(is_separator).collect();
    if places.is_empty() {
        return;
    }
    let at = random.pick(&places);
    let last = file.len() - 1;
    match random.below(4) {
        0 => {
            file.remove(at);
        }
        1 => file.insert(at, file[at]),
        2 => file.swap(at, at.saturating_sub(1)),
        _ => file.swap(at, last.min(at + 1)),
    }
}

/// One of these octets anywhere.
fn insert(file: &mut Vec<u8>, random: &mut Random, octets: &[u8]) {
    let at = random.below(file.len() + 1);
    file.insert(at, random.pick(octets));
}

/// A # at the start of a line, before its first octet or instead of it, or inside.
fn hash_sign(file: &mut Vec<u8>, random: &mut Random) {
    let line = some_line(file, random);
    match (random.below(3), place_in(&line, random)) {
        (0, Some(at)) => file[at] = b'#',
        (1, Some(_)) => file[line.start] = b'#',
        _ => file.insert(line.start, b'#'),
    }
}

/// A line once more, at its own place or at the end.
fn line_again(file: &mut Vec<u8>, random: &mut Random) {
    let line = some_line(file, random);
    let copy = file[line.clone()].to_vec();
    if random.chance(50) {
        file.splice(line.start..line.start, joined(&[&copy, b"\n"]));
    } else {
        if !file.is_empty() && !file.ends_with(b"\n") {
            file.push(b'\n');
        }
        file.extend(copy);
    }
}

/// No digit where one was.
fn no_digit(file: &mut [u8], random: &mut Random) {
    let number = random.pick(&[1, 2, 3, 5]);
    let field = field(file, random, number);
    if let Some(at) = place_in(&field, random) {
        file[at] = random.pick(b"gG@`/:xX -+");
    }
}

/// The brackets exchanged, or one of them another octet.
fn brackets(file: &mut [u8], random: &mut Random) {
    let field = field(file, random, 4);
    if field.is_empty() {
        return;
    }
    match random.below(3) {
        0 => file[field.start] = random.pick(b"](D "),
        1 => file[field.end - 1] = random.pick(b"[)X "),
        _ => file.swap(field.start, field.end - 1),
    }
}

/// Another octet in `LCT-`.
fn spoil_lct(file: &mut [u8], random: &mut Random) {
    let field = field(file, random, 5);
    let before = field.start..field.end.min(field.start + 4);
    if let Some(at) = place_in(&before, random) {
        file[at] = random.pick(b"lct_ 0");
    }
}

/// A hash that begins otherwise, or that is all stars, which is Samba's unusable hash.
fn hash_beginning(file: &mut [u8], random: &mut Random) {
    const BEGINNINGS: [&[u8]; 6] = [
        b"x",
        b"X",
        b"NO PASSWORd",
        b"no password",
        b"NOPASSWORD",
        &[b'*'; 32],
    ];
    let number = random.pick(&[2, 3]);
    let field = field(file, random, number);
    let beginning = random.pick(&BEGINNINGS);
    for (at, octet) in field.zip(beginning) {
        file[at] = *octet;
    }
}

/// A line with nothing in it, before some line or at the end.
fn empty_line(file: &mut Vec<u8>, random: &mut Random) {
    let line = some_line(file, random);
    let at = random.pick(&[line.start, line.start, file.len()]);
    file.insert(at, b'\n');
}

/// A CR at the end of some line.
fn carriage_return(file: &mut Vec<u8>, random: &mut Random) {
    let line = some_line(file, random);
    file.insert(line.end, b'\r');
}

fn other_octet(file: &mut [u8], random: &mut Random) {
    if let Some(at) = place_in(&(0..file.len()), random) {
        file[at] = random.octet();
    }
}

/// A name to seek: mostly one of the file's.
pub fn sought(file: &[u8], random: &mut Random) -> Vec<u8> {
    let mut name = file[field(file, random, 0)].to_vec();
    match random.below(20) {
        0 => name.truncate(random.below(name.len() + 1)),
        1 => name.push(field_octet(random)),
        2 => name.make_ascii_uppercase(),
        3 => name.make_ascii_lowercase(),
        4 => name.clear(),
        5 => name.resize(random.between(256, 600), b'a'),
        6 => name.extend(b":1001"),
        7 => name.insert(0, b'#'),
        8 => name = self::name(random),
        9 => name = file[some_line(file, random)].to_vec(),
        _ => {}
    }
    name
}

/// A first line of `acctsum`'s input, mostly a good one.
fn first_line(random: &mut Random) -> Vec<u8> {
    const BAD: [&str; 16] = [
        "",
        "\n",
        "5\n",
        "5 \n",
        " 5\n",
        "5  5\n",
        " 5 5\n",
        "5 5 \n",
        "5 5 5\n",
        "5 5\r\n",
        "5\t5\n",
        "+5 5\n",
        "5 -5\n",
        "0x5 5\n",
        "4294967296 1\n",
        "1 99999999999999999999\n",
    ];
    if random.chance(15) {
        return random.pick(&BAD).as_bytes().to_vec();
    }
    let (now, age) = times(random);
    let zeros = "0".repeat(random.pick(&[0, 0, 0, 1, 30]));
    format!("{zeros}{now} {zeros}{age}\n").into_bytes()
}

/// An input of `acctsum`: a first line and a file, good or damaged. Some are just 64 KiB or an
/// octet more.
pub fn input(random: &mut Random) -> Vec<u8> {
    let mut input = first_line(random);
    let file = random_file(random);
    input.extend(match random.chance(60) {
        true => damaged(&file, random),
        false => file,
    });
    if random.chance(5) {
        input.resize(random.pick(&[65_535, 65_536, 65_537]), b'#');
    }
    input
}
