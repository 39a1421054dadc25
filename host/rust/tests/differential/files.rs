//! Account files in the layout of smbpasswd(5), good and damaged ones of up to 64 KiB: what is
//! found of a name, what a write leaves of the file, and what is counted, by the wrapper and by the
//! C interface. The counts are compared with what `acctsum` prints too. Files, names and times are
//! drawn by the independent program's own generator.

use crate::both::{account_bytes, our_account};
use crate::layout;
use crate::random::Random;
use crate::run::{run, Seen};
use mschap::{sys, FileFault, Refusal, Times};
use reference::authenticator::Entry;
use reference::smbpasswd::samples;
use reference::smbpasswd::{self, Found, Written};

/// The longest file: with its first line it is no more than `acctsum` reads.
const MOST: usize = 65_536 - "4294967295 4294967295\n".len();

/// What is in the place of an offset before a call.
const NO_OFFSET: usize = usize::MAX;

/// A line without its LF.
fn line_at(file: &[u8], offset: usize) -> &[u8] {
    let rest = &file[offset..];
    let end = rest.iter().position(|octet| *octet == b'\n');
    &rest[..end.unwrap_or(rest.len())]
}

/// One name, looked up in both.
fn find(random: &mut Random, file: &[u8], name: &[u8], times: Times, seen: &mut Seen) {
    let Times { now, max_age } = times;
    let drawn: [u8; layout::RECORD_SIZE] = random.array();
    let (mut record, mut offset) = (drawn, NO_OFFSET);
    let number = sys::find_account(file, name, now, max_age, &mut record, &mut offset);
    let ours = mschap::find_account(file, name, times);
    match smbpasswd::find(file, name, now, max_age) {
        Found::Account {
            offset: at,
            record: theirs,
        } => {
            let account = theirs.account();
            assert_eq!((number, offset), (sys::OK, at), "found");
            // a hash that there is not is bytes 0: nothing of the file is handed out beside it
            let expected = layout::record(Some(layout::account(&account)));
            assert_eq!(record, expected, "the record");
            let account = our_account(&account);
            assert_eq!(account.failures, 0, "no count in a file");
            assert_eq!(sys::record_failures(&record), 0);
            let expected = mschap::Found {
                account,
                offset: at,
            };
            assert_eq!(ours, Ok(Some(expected)));
            assert!(line_at(file, at).starts_with(name));
            seen.note("found");
            for (is_so, what) in [
                (account.disabled, "found: disabled"),
                (account.expired, "found: expired"),
                (account.nt_hash.is_none(), "found: no NT hash"),
                (account.lm_hash.is_some(), "found: an LM hash"),
                (name.len() > 250, "found: a long name"),
            ] {
                if is_so {
                    seen.note(what);
                }
            }
        }
        Found::Nobody => {
            assert_eq!((number, offset), (sys::OK, 0), "none");
            assert_eq!(record, layout::record(None));
            assert_eq!(ours, Ok(None));
            seen.note("none");
        }
        Found::BadLine { offset: at } => {
            assert_eq!((number, offset, record), (14, at, drawn), "a bad line");
            assert_eq!(ours, Err(FileFault::BadLine { offset: at }));
            seen.note(if at == 0 {
                "14: the first line"
            } else {
                "14: a later line"
            });
        }
        Found::Twice { offset: at } => {
            assert_eq!((number, offset, record), (15, at, drawn), "a doubled name");
            assert_eq!(ours, Err(FileFault::DoubledName { offset: at }));
            seen.note("15");
        }
    }
}

/// One write in both, of a record with any flags, any count and any schedules: of it nothing is
/// written but its hashes.
fn write(random: &mut Random, file: &mut Vec<u8>, name: &[u8], now: u32, seen: &mut Seen) {
    let entry = Entry {
        nt: random.chance(70).then(|| random.array()),
        lm: random.chance(30).then(|| random.array()),
        disabled: random.chance(50),
        hours: random.chance(50),
        no_dialin: random.chance(50),
        expired: random.chance(50),
        failures: random.octet(),
    };
    let account = entry.keyed();
    let before = file.clone();
    let mut theirs = file.clone();
    let (nt, lm) = (account.nt.as_ref(), account.lm.as_ref());
    let written = smbpasswd::write_back(&mut theirs, name, nt, lm, now);

    let mut wrapped = file.clone();
    let answer = mschap::write_account(&mut wrapped, name, &our_account(&account), now);
    assert_eq!(wrapped, theirs, "the file by the wrapper");
    let mut record = layout::record(Some(account_bytes(&account, random)));
    if random.chance(30) {
        let drawn: [u8; 2 * layout::KEYS_SIZE] = random.array();
        record[layout::NT_KEYS_AT..].copy_from_slice(&drawn);
    }
    let mut offset = NO_OFFSET;
    let number = sys::write_account(file, name, &record, now, &mut offset);
    assert_eq!(*file, theirs, "the file");
    match written {
        Written::At(at) => {
            assert_eq!((number, offset), (sys::OK, at), "written");
            assert_eq!(answer, Ok(Some(at)));
            // nothing outside of its line
            let end = at + line_at(&before, at).len();
            assert_eq!(file[..at], before[..at]);
            assert_eq!(file[end..], before[end..]);
            seen.note("written");
            // the same again leaves the same
            let number = sys::write_account(file, name, &record, now, &mut offset);
            assert_eq!((number, offset), (sys::OK, at));
            assert_eq!(*file, theirs, "written again");
        }
        refused => {
            let (expected, at, fault) = match refused {
                Written::BadLine { offset } => (14, offset, Some(FileFault::BadLine { offset })),
                Written::Twice { offset } => (15, offset, Some(FileFault::DoubledName { offset })),
                _ => (103, NO_OFFSET, None),
            };
            assert_eq!((number, offset), (expected, at), "not written");
            assert_eq!(answer, fault.map_or(Ok(None), Err));
            assert_eq!(*file, before, "a refusal writes nothing");
            seen.note(format!("write refused {number}"));
        }
    }
    if random.chance(10) {
        record[2] = 0;
        offset = NO_OFFSET;
        let number = sys::write_account(file, name, &record, now, &mut offset);
        assert_eq!((number, offset), (Refusal::NoRecord.number(), NO_OFFSET));
        assert_eq!(*file, theirs, "nobody's record writes nothing");
        seen.note("write refused 102");
    }
}

/// The counts, and the text that they make.
fn count(file: &[u8], times: Times, seen: &mut Seen) {
    let Times { now, max_age } = times;
    let input = [format!("{now} {max_age}\n").as_bytes(), file].concat();
    let theirs = smbpasswd::summary(&input).expect("no longer than it may be");
    let ours = mschap::count_accounts(file, times);
    let mschap::Counts {
        lines,
        bad,
        disabled,
        expired,
        no_nt,
    } = ours;
    let counts = [lines, bad, disabled, expired, no_nt];
    let their_counts = [
        theirs.lines,
        theirs.bad,
        theirs.disabled,
        theirs.expired,
        theirs.no_nt,
    ];
    assert_eq!(counts, their_counts.map(|count| count as u64), "the counts");
    let mut raw = [u64::MAX; 5];
    let number = sys::count_accounts(file, now, max_age, &mut raw);
    assert_eq!((number, raw), (sys::OK, counts));
    let text = format!(
        "lines {lines}\nbad {bad}\ndisabled {disabled}\nexpired {expired}\nno-nt {no_nt}\n"
    );
    assert_eq!(smbpasswd::acctsum(&input), text, "what acctsum prints");
    for (count, what) in counts.into_iter().zip([
        "counted: a line",
        "counted: a bad line",
        "counted: a disabled account",
        "counted: an expired account",
        "counted: an account without NT hash",
    ]) {
        if count > 0 {
            seen.note(what);
        }
    }
}

/// The file in both, by names that are mostly its own.
fn file(random: &mut Random, mut file: Vec<u8>, seen: &mut Seen) {
    file.truncate(MOST);
    seen.note(match file.len() {
        0 => "file: empty",
        1..=1_000 => "file: up to 1,000 octets",
        1_001..=10_000 => "file: up to 10,000 octets",
        10_001..=50_000 => "file: up to 50,000 octets",
        _ => "file: up to 64 KiB",
    });
    for _ in 0..3 {
        let name = samples::sought(&file, random);
        let (now, max_age) = samples::times(random);
        find(random, &file, &name, Times { now, max_age }, seen);
    }
    let (now, max_age) = samples::times(random);
    let times = Times { now, max_age };
    count(&file, times, seen);
    let name = samples::sought(&file, random);
    write(random, &mut file, &name, now, seen);
    find(random, &file, &name, times, seen);
    count(&file, times, seen);
}

#[test]
fn account_files_agree() {
    let seen = run("account files", 120_000, |random, seen| {
        let good = samples::random_file(random);
        let drawn = match random.chance(50) {
            true => samples::damaged(&good, random),
            false => good,
        };
        file(random, drawn, seen);
    });
    for (count, what) in [
        (100_000, "found"),
        (20_000, "found: disabled"),
        (8_000, "found: expired"),
        (10_000, "found: no NT hash"),
        (10_000, "found: an LM hash"),
        (2_000, "found: a long name"),
        (20_000, "none"),
        (10_000, "14: the first line"),
        (20_000, "14: a later line"),
        (5_000, "15"),
        (20_000, "written"),
        (5_000, "write refused 14"),
        (1_000, "write refused 15"),
        (5_000, "write refused 103"),
        (5_000, "write refused 102"),
        (50_000, "counted: a line"),
        (20_000, "counted: a bad line"),
        (20_000, "counted: a disabled account"),
        (20_000, "counted: an expired account"),
        (20_000, "counted: an account without NT hash"),
        (5_000, "file: empty"),
        (20_000, "file: up to 1,000 octets"),
        (10_000, "file: up to 10,000 octets"),
        (1_000, "file: up to 50,000 octets"),
    ] {
        seen.at_least(count, what);
    }
}

/// Files of as many lines as 64 KiB have, or up to the one in which they end.
#[test]
fn long_account_files_agree() {
    let seen = run("long account files", 1_000, |random, seen| {
        let mut long = Vec::new();
        while long.len() < MOST {
            long.extend(samples::random_file(random));
            if !long.is_empty() && !long.ends_with(b"\n") {
                long.push(b'\n');
            }
        }
        long.truncate(MOST);
        let last = long.iter().rposition(|octet| *octet == b'\n');
        if random.chance(80) {
            long.truncate(last.map_or(0, |last| last + 1));
        }
        if random.chance(30) {
            long = samples::damaged(&long, random);
        }
        file(random, long, seen);
    });
    seen.at_least(900, "file: up to 64 KiB");
    for what in ["found", "none", "14: a later line", "15", "written"] {
        seen.at_least(100, what);
    }
}
