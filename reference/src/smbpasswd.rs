//! The account file in Samba's smbpasswd(5) layout, as change request 2026-02 describes it: what
//! it says of a name, the write of a changed line, and what the program `acctsum` prints.
//! Sentences in quotes are the request's.

use crate::authenticator::{Account, Entry};

pub mod samples;

/// Octets of a hash's field.
const HASH_FIELD: usize = 32;
/// Octets of the flags' field, with its brackets.
const FLAGS_FIELD: usize = 13;
/// What stands before the digits of the last change time.
const LCT: &[u8] = b"LCT-";
/// Octets that `acctsum` reads: "64 KiB in all".
const INPUT_MOST: usize = 65_536;

/// A hash, or none.
pub type Hash = Option<[u8; 16]>;

/// What the file says of an account, at a present time and with a maximum age.
#[derive(Clone, Copy, Debug, PartialEq, Eq)]
pub struct Record {
    /// The NT hash, or none.
    pub nt: Hash,
    /// The LAN Manager hash, or none.
    pub lm: Hash,
    /// "D means disabled".
    pub disabled: bool,
    /// Older than the maximum age.
    pub expired: bool,
}

impl Record {
    /// The record as the box takes it: "the hours and dial-in marks are clear", by request 2026-09
    /// the count is "0 in a record newly made or read from the account file", and by request
    /// 2026-10 the schedules agree with the hashes: "the account file's reader included".
    pub fn account(&self) -> Account {
        let entry = Entry {
            nt: self.nt,
            lm: self.lm,
            disabled: self.disabled,
            hours: false,
            no_dialin: false,
            expired: self.expired,
            failures: 0,
        };
        entry.keyed()
    }
}

/// The answer to a name.
#[derive(Clone, Copy, Debug, PartialEq, Eq)]
pub enum Found {
    /// The name stands on one line.
    Account {
        /// The offset of the line's start.
        offset: usize,
        /// What the line says.
        record: Record,
    },
    /// "A name on no line is answered none".
    Nobody,
    /// Refusal 14: "first line of another form, even past the name sought".
    BadLine {
        /// "with its start's offset".
        offset: usize,
    },
    /// Refusal 15: "the name sought stands on two lines".
    Twice {
        /// The offset of the first of them; the request names none.
        offset: usize,
    },
}

/// The answer to a write.
#[derive(Clone, Copy, Debug, PartialEq, Eq)]
pub enum Written {
    /// Written into the line that starts at this offset.
    At(usize),
    /// "A name on no line is answered none, and nothing is written."
    Nobody,
    /// Refusal 14, as for a name sought; nothing is written.
    BadLine {
        /// The offset of the line's start.
        offset: usize,
    },
    /// Refusal 15, as for a name sought; nothing is written.
    Twice {
        /// The offset of the first of the two lines.
        offset: usize,
    },
}

/// What `acctsum` counts.
#[derive(Clone, Copy, Debug, Default, PartialEq, Eq)]
pub struct Counts {
    /// Lines, without those that are skipped.
    pub lines: usize,
    /// Lines of another form.
    pub bad: usize,
    /// Accounts that are disabled.
    pub disabled: usize,
    /// Accounts that are expired.
    pub expired: usize,
    /// Accounts without an NT hash.
    pub no_nt: usize,
}

/// A line of the right form.
struct Line<'a> {
    name: &'a [u8],
    lm: Hash,
    nt: Hash,
    /// The 11 flags, without their brackets.
    flags: &'a [u8],
    lct: u32,
    /// Where in the line the LM hash's field starts.
    hashes_at: usize,
}

impl Line<'_> {
    fn record(&self, now: u32, max_age: u32) -> Record {
        Record {
            nt: self.nt,
            lm: self.lm,
            disabled: self.flags.contains(&b'D'),
            expired: self.is_expired(now, max_age),
        }
    }

    /// "Given the present time and a maximum age, an account is expired when the age is more than
    /// that, unless the flag X is there, LCT is zero or LCT lies in the future."
    fn is_expired(&self, now: u32, max_age: u32) -> bool {
        if self.flags.contains(&b'X') || self.lct == 0 || self.lct > now {
            return false;
        }
        let age = now - self.lct;
        age > max_age
    }
}

/// "Read one line at a time": each line without its LF, with the offset of its start. "A line ends
/// at LF or the file's end"; so what is behind the last LF is a line unless it is empty.
fn lines(file: &[u8]) -> Vec<(usize, &[u8])> {
    let mut lines = Vec::new();
    let mut start = 0;
    while start < file.len() {
        let rest = &file[start..];
        let lf = rest.iter().position(|&octet| octet == b'\n');
        let length = lf.unwrap_or(rest.len());
        lines.push((start, &rest[..length]));
        start += length + 1;
    }
    lines
}

/// The lines that count, each as it reads, or none where it is of another form: "a line beginning
/// with # is skipped, uncounted".
fn counted(file: &[u8]) -> Vec<(usize, Option<Line<'_>>)> {
    let lines = lines(file).into_iter();
    let lines = lines.filter(|(_, line)| !line.starts_with(b"#"));
    lines
        .map(|(offset, line)| (offset, read_line(line)))
        .collect()
}

/// "six fields of any octets but colon and LF, each closed by a colon: name (1 to 256 octets), uid
/// (1 to 10 digits), LM and NT hash [..], 11 flags in brackets, `LCT-` and 8 such digits; the rest
/// of the line is ignored". None where the line is of another form.
fn read_line(line: &[u8]) -> Option<Line<'_>> {
    let cut: Vec<&[u8]> = line.splitn(7, |&octet| octet == b':').collect();
    let [name, uid, lm, nt, flags, lct, _ignored] = cut[..] else {
        return None;
    };
    if !(1..=256).contains(&name.len()) || !is_uid(uid) {
        return None;
    }
    Some(Line {
        name,
        lm: read_hash(lm)?,
        nt: read_hash(nt)?,
        flags: read_flags(flags)?,
        lct: read_lct(lct)?,
        hashes_at: name.len() + 1 + uid.len() + 1,
    })
}

/// "uid (1 to 10 digits)". Its value is not used, and need not be one of 32 bits.
fn is_uid(field: &[u8]) -> bool {
    (1..=10).contains(&field.len()) && field.iter().all(u8::is_ascii_digit)
}

/// "LM and NT hash (32 octets, hexadecimal of either case, or none if they begin with X or NO
/// PASSWORD)". None where the field is of another form; it may say that there is no hash.
fn read_hash(field: &[u8]) -> Option<Hash> {
    if field.len() != HASH_FIELD {
        return None;
    }
    if field.starts_with(b"X") || field.starts_with(b"NO PASSWORD") {
        return Some(None);
    }
    let mut hash = [0; 16];
    for (octet, digits) in hash.iter_mut().zip(field.chunks(2)) {
        *octet = digit(digits[0])? * 16 + digit(digits[1])?;
    }
    Some(Some(hash))
}

/// "11 flags in brackets": the flags, which may be any octets, the brackets among them.
fn read_flags(field: &[u8]) -> Option<&[u8]> {
    if field.len() != FLAGS_FIELD {
        return None;
    }
    field.strip_prefix(b"[")?.strip_suffix(b"]")
}

/// "`LCT-` and 8 such digits", hexadecimal of either case, the most significant first.
fn read_lct(field: &[u8]) -> Option<u32> {
    let digits = field.strip_prefix(LCT)?;
    if digits.len() != 8 {
        return None;
    }
    let mut time = 0;
    for &octet in digits {
        time = time * 16 + u32::from(digit(octet)?);
    }
    Some(time)
}

/// The value of a hexadecimal digit of either case.
fn digit(octet: u8) -> Option<u8> {
    match octet {
        b'0'..=b'9' => Some(octet - b'0'),
        b'A'..=b'F' => Some(octet - b'A' + 10),
        b'a'..=b'f' => Some(octet - b'a' + 10),
        _ => None,
    }
}

/// Where a name stands.
enum Place<'a> {
    On(usize, Line<'a>),
    Nowhere,
    BadLine(usize),
    Twice(usize),
}

/// "Refusals: 14, first line of another form, even past the name sought, with its start's offset;
/// then 15, the name sought stands on two lines. A name on no line is answered none".
fn place<'a>(file: &'a [u8], name: &[u8]) -> Place<'a> {
    let mut standing = Vec::new();
    for (offset, line) in counted(file) {
        match line {
            None => return Place::BadLine(offset),
            Some(line) if line.name == name => standing.push((offset, line)),
            Some(_) => {}
        }
    }
    if standing.len() > 1 {
        return Place::Twice(standing[0].0);
    }
    match standing.pop() {
        Some((offset, line)) => Place::On(offset, line),
        None => Place::Nowhere,
    }
}

/// What the file says of a name, at a present time and with a maximum age.
pub fn find(file: &[u8], name: &[u8], now: u32, max_age: u32) -> Found {
    match place(file, name) {
        Place::On(offset, line) => Found::Account {
            offset,
            record: line.record(now, max_age),
        },
        Place::Nowhere => Found::Nobody,
        Place::BadLine(offset) => Found::BadLine { offset },
        Place::Twice(offset) => Found::Twice { offset },
    }
}

/// "Write a changed line back, digits in upper case, no hash as 32 X and LCT as the present time,
/// leaving every other octet of the file."
pub fn write_back(
    file: &mut [u8],
    name: &[u8],
    nt: Option<&[u8; 16]>,
    lm: Option<&[u8; 16]>,
    now: u32,
) -> Written {
    let (offset, hashes_at) = match place(file, name) {
        Place::On(offset, line) => (offset, line.hashes_at),
        Place::Nowhere => return Written::Nobody,
        Place::BadLine(offset) => return Written::BadLine { offset },
        Place::Twice(offset) => return Written::Twice { offset },
    };
    let lm_at = offset + hashes_at;
    let nt_at = lm_at + HASH_FIELD + 1;
    let flags_at = nt_at + HASH_FIELD + 1;
    let lct_at = flags_at + FLAGS_FIELD + 1;
    put(file, lm_at, &hash_field(lm));
    put(file, nt_at, &hash_field(nt));
    put(file, lct_at + LCT.len(), &format!("{now:08X}"));
    Written::At(offset)
}

/// A hash as it is written: "digits in upper case, no hash as 32 X".
fn hash_field(hash: Option<&[u8; 16]>) -> String {
    match hash {
        Some(octets) => octets.iter().map(|octet| format!("{octet:02X}")).collect(),
        None => "X".repeat(HASH_FIELD),
    }
}

fn put(file: &mut [u8], at: usize, text: &str) {
    file[at..at + text.len()].copy_from_slice(text.as_bytes());
}

/// What `acctsum` counts in its input, or none where it prints `refused 14`: "Another first line, a
/// number past 32 bits or a longer input".
pub fn summary(input: &[u8]) -> Option<Counts> {
    if input.len() > INPUT_MOST {
        return None;
    }
    let (_, first) = *lines(input).first()?;
    let (now, max_age) = read_times(first)?;
    // The first line may end at the input's end, and then the file is empty.
    let file = input.get(first.len() + 1..).unwrap_or(&[]);
    Some(count(file, now, max_age))
}

/// "a line of another form counts in the first two only".
fn count(file: &[u8], now: u32, max_age: u32) -> Counts {
    let mut counts = Counts::default();
    for (_, line) in counted(file) {
        counts.lines += 1;
        let Some(line) = line else {
            counts.bad += 1;
            continue;
        };
        let record = line.record(now, max_age);
        counts.disabled += usize::from(record.disabled);
        counts.expired += usize::from(record.expired);
        counts.no_nt += usize::from(record.nt.is_none());
    }
    counts
}

/// "a line of present time and maximum age (decimal, a space between)".
fn read_times(line: &[u8]) -> Option<(u32, u32)> {
    let words: Vec<&[u8]> = line.split(|&octet| octet == b' ').collect();
    let [now, max_age] = words[..] else {
        return None;
    };
    Some((read_decimal(now)?, read_decimal(max_age)?))
}

/// One digit or more, of any number, with a value of 32 bits.
fn read_decimal(word: &[u8]) -> Option<u32> {
    if word.is_empty() {
        return None;
    }
    let mut value = 0u32;
    for octet in word {
        if !octet.is_ascii_digit() {
            return None;
        }
        let digit = u32::from(octet - b'0');
        value = value.checked_mul(10)?.checked_add(digit)?;
    }
    Some(value)
}

/// What the program `acctsum` prints for its input.
pub fn acctsum(input: &[u8]) -> String {
    let Some(counts) = summary(input) else {
        return "refused 14\n".to_string();
    };
    format!(
        "lines {}\nbad {}\ndisabled {}\nexpired {}\nno-nt {}\n",
        counts.lines, counts.bad, counts.disabled, counts.expired, counts.no_nt
    )
}
