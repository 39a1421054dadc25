//! The account file of request 2026-02, by examples: each rule with its values, the files that
//! Samba wrote (`tests/smbpasswd`), and a password that is changed in a file. Of `acctsum` only its
//! counts are the archive's; `tests/acctsum.sh` has the program.

use mschap::{count_accounts, find_account, write_account};
use mschap::{sys, Account, Conversation, Counts, FileFault, Found, Issued, LmHash, NtHash};
use mschap::{Password, Peer, Reason, Refusal, Terms, Times, Update, CHANGE_PACKET, REPLY_SIZE};
use std::collections::HashMap;

/// The good line of the list of rules. Its password is MyPw, its time 1000.
const L1: &str = "bob:1001:75BA30198E6D1975AAD3B435B51404EE:\
    FC156AF7EDCD6C0EDDE3337D427F4EAC:[U          ]:LCT-000003E8:";
const LM: LmHash = LmHash([
    0x75, 0xBA, 0x30, 0x19, 0x8E, 0x6D, 0x19, 0x75, 0xAA, 0xD3, 0xB4, 0x35, 0xB5, 0x14, 0x04, 0xEE,
]);
const NT: NtHash = NtHash([
    0xFC, 0x15, 0x6A, 0xF7, 0xED, 0xCD, 0x6C, 0x0E, 0xDD, 0xE3, 0x33, 0x7D, 0x42, 0x7F, 0x4E, 0xAC,
]);
/// The NT hash of clientPass.
const CLIENT_PASS: NtHash = NtHash([
    0x44, 0xEB, 0xBA, 0x8D, 0x53, 0x12, 0xB8, 0xD6, 0x11, 0x47, 0x44, 0x11, 0xF5, 0x69, 0x89, 0xAE,
]);
/// What L1 says to one who does not ask about its age. The file has no count of failures: it is 0.
const BOB: Account = Account {
    nt_hash: Some(NT),
    lm_hash: Some(LM),
    disabled: false,
    hours_denied: false,
    dialin_denied: false,
    expired: false,
    failures: 0,
};
const NO_NT: Account = Account {
    nt_hash: None,
    ..BOB
};
const NO_LM: Account = Account {
    lm_hash: None,
    ..BOB
};
const DISABLED: Account = Account {
    disabled: true,
    ..BOB
};

const NAME: usize = 0;
const UID: usize = 1;
const LM_FIELD: usize = 2;
const NT_FIELD: usize = 3;
const FLAGS: usize = 4;
const LCT: usize = 5;

/// L1 with another text for one of its fields.
fn with(field: usize, text: &str) -> String {
    let mut fields: Vec<&str> = L1.split(':').collect();
    assert_eq!(fields.len(), 7);
    fields[field] = text;
    fields.join(":")
}

fn times(now: u32, max_age: u32) -> Times {
    Times { now, max_age }
}

/// The name is looked up at time 0, when no password has expired.
fn seek(
    file: impl AsRef<[u8]>,
    name: impl AsRef<[u8]>,
) -> Result<Option<(Account, usize)>, FileFault> {
    let found = find_account(file.as_ref(), name.as_ref(), times(0, 0));
    found.map(|found| found.map(|Found { account, offset }| (account, offset)))
}

/// The name has this account, on the first line.
fn reads(file: impl AsRef<[u8]>, name: &str, account: Account) {
    let file = file.as_ref();
    let text = file.escape_ascii();
    assert_eq!(seek(file, name), Ok(Some((account, 0))), "{text}");
}

/// A line of another form is at the offset, whatever name is sought, and nothing is written.
fn bad(file: impl AsRef<[u8]>, offset: usize) {
    let file = file.as_ref();
    for name in ["bob", "nobody", ""] {
        let text = file.escape_ascii();
        let fault = FileFault::BadLine { offset };
        assert_eq!(seek(file, name), Err(fault), "{text}");
        let mut after = file.to_vec();
        let written = write_account(&mut after, name.as_bytes(), &BOB, 5);
        assert_eq!(written, Err(fault), "{text}");
        assert_eq!(after, file, "{text}");
    }
    assert!(counts(file, 5, 5)[1] > 0);
}

fn counts(file: impl AsRef<[u8]>, now: u32, max_age: u32) -> [u64; 5] {
    let Counts {
        lines,
        bad,
        disabled,
        expired,
        no_nt,
    } = count_accounts(file.as_ref(), times(now, max_age));
    [lines, bad, disabled, expired, no_nt]
}

/// Whether an account with these flags and this last change has expired.
fn expired(flags: &str, lct: &str, now: u32, max_age: u32) -> bool {
    let file = with(FLAGS, flags).replace("LCT-000003E8", lct);
    let found = find_account(file.as_bytes(), b"bob", times(now, max_age));
    let account = found.expect("a good file").expect("bob").account;
    let counted = u64::from(account.expired);
    assert_eq!(counts(&file, now, max_age)[3], counted);
    account.expired
}

#[test]
fn cr02_1_the_sixth_field_is_closed_by_a_colon() {
    assert_eq!(L1.len(), 102);
    reads(L1, "bob", BOB);
    let open = &L1[..L1.len() - 1];
    bad(open, 0);
    bad(format!("{open}\n"), 0);
    bad(format!("{open}\n:\n"), 0);
}

#[test]
fn cr02_2_a_name_is_1_to_256_octets() {
    bad(with(NAME, ""), 0);
    for size in [1, 255, 256] {
        let name = "n".repeat(size);
        reads(with(NAME, &name), &name, BOB);
    }
    for size in [257, 300] {
        bad(with(NAME, &"n".repeat(size)), 0);
    }
    for name in [" ", "\0", "a b", "\r", "j\u{f6}rg", "b#", "]", "DOM\\bob"] {
        reads(with(NAME, name), name, BOB);
    }
}

#[test]
fn cr02_3_a_uid_is_1_to_10_digits() {
    for uid in ["9999999999", "4294967296", "0", "0000000000"] {
        reads(with(UID, uid), "bob", BOB);
    }
    for uid in ["", "12345678901", "1a", "-1", " 1", "00000000000"] {
        bad(with(UID, uid), 0);
    }
}

#[test]
fn cr02_4_a_hash_is_32_digits_of_either_case() {
    reads(
        with(NT_FIELD, "fc156af7edcd6c0edde3337d427f4eac"),
        "bob",
        BOB,
    );
    reads(
        with(LM_FIELD, "75bA30198e6D1975Aad3b435b51404eE"),
        "bob",
        BOB,
    );
    for field in [LM_FIELD, NT_FIELD] {
        for text in [
            "FC156AF7EDCD6C0EDDE3337D427F4EA",
            "FC156AF7EDCD6C0EDDE3337D427F4EAC0",
            "FC156AF7EDCD6C0EDDE3337D427F4EAG",
            "GC156AF7EDCD6C0EDDE3337D427F4EAC",
            "FC156AF7EDCD6C0E DE3337D427F4EAC",
            "",
        ] {
            bad(with(field, text), 0);
        }
    }
}

#[test]
fn cr02_5_no_hash_begins_with_x_or_no_password() {
    let any = format!("X{}", "?".repeat(31));
    let all = "X".repeat(32);
    let words = format!("NO PASSWORD{}", "X".repeat(21));
    let more = format!("NO PASSWORD{}", "\0".repeat(21));
    for text in [&any, &all, &words, &more] {
        reads(with(NT_FIELD, text), "bob", NO_NT);
        reads(with(LM_FIELD, text), "bob", NO_LM);
    }
    let small = "x".repeat(32);
    let stars = "*".repeat(32);
    let less = "X".repeat(31);
    for text in [&small, &stars, &less, "NO PASSWORD", "X"] {
        bad(with(NT_FIELD, text), 0);
        bad(with(LM_FIELD, text), 0);
    }
}

#[test]
fn cr02_6_flags_are_11_in_brackets() {
    reads(with(FLAGS, "[??????????D]"), "bob", DISABLED);
    reads(with(FLAGS, "[]]]]]]]]]]]]"), "bob", BOB);
    for text in [
        "[U]",
        "[U           ]",
        "[U         ]",
        "[U          [",
        "]U          ]",
        "U          ",
        "",
    ] {
        bad(with(FLAGS, text), 0);
    }
}

#[test]
fn cr02_7_a_time_is_8_digits() {
    assert!(!expired("[U          ]", "LCT-000003e8", 1100, 100));
    assert!(expired("[U          ]", "LCT-000003e8", 1100, 99));
    assert!(!expired("[U          ]", "LCT-000003E8", 1100, 100));
    for text in [
        "LCT-00003E8",
        "LCT-0000003E8",
        "lct-000003E8",
        "LCT-000003G8",
        "000003E8",
        "",
    ] {
        bad(with(LCT, text), 0);
    }
}

#[test]
fn cr02_8_the_rest_of_the_line_is_ignored() {
    reads(format!("{L1}x:y\r"), "bob", BOB);
    reads(
        format!("{L1}\r\n{L1}").replace("\nbob", "\nann"),
        "bob",
        BOB,
    );
    let mut file = L1.as_bytes().to_vec();
    file.extend(b"\0\xff:::::::");
    reads(file, "bob", BOB);
}

#[test]
fn cr02_9_a_line_that_begins_with_a_hash_sign_is_skipped() {
    let file = format!("#x\n{L1}");
    assert_eq!(counts(&file, 5, 5), [1, 0, 0, 0, 0]);
    assert_eq!(seek(&file, "bob"), Ok(Some((BOB, 3))));
    assert_eq!(seek(format!("#{L1}\n"), "#bob"), Ok(None));
    assert_eq!(counts(format!("#{L1}\n#"), 5, 5), [0; 5]);
    bad(format!("{L1}\n #x"), 103);
}

#[test]
fn cr02_10_a_line_ends_at_lf_or_the_end() {
    for file in [L1.to_string(), format!("{L1}\n")] {
        assert_eq!(counts(&file, 5, 5), [1, 0, 0, 0, 0]);
        reads(&file, "bob", BOB);
    }
    assert_eq!(counts("\n", 5, 5), [1, 1, 0, 0, 0]);
    bad("\n", 0);
    bad(format!("{L1}\n\n"), 103);
    bad(format!("\n{L1}"), 0);
}

#[test]
fn cr02_11_d_among_the_flags_disables() {
    for place in 1..=11 {
        let mut flags = *b"[U          ]";
        flags[place] = b'D';
        let flags = std::str::from_utf8(&flags).expect("ASCII");
        reads(with(FLAGS, flags), "bob", DISABLED);
        assert_eq!(counts(with(FLAGS, flags), 5, 5), [1, 0, 1, 0, 0]);
    }
    reads(with(FLAGS, "[dUd        ]"), "bob", BOB);
    let none = L1.replace("FC156AF7EDCD6C0EDDE3337D427F4EAC", &"X".repeat(32));
    reads(none, "bob", NO_NT);
}

#[test]
fn cr02_12_hours_and_dial_in_are_clear() {
    for flags in [
        "[UL         ]",
        "[NU         ]",
        "[W          ]",
        "[HTMSILN    ]",
    ] {
        reads(with(FLAGS, flags), "bob", BOB);
    }
}

#[test]
fn cr02_13_expired_when_the_age_is_more() {
    assert!(!expired("[U          ]", "LCT-000003E8", 1100, 100));
    assert!(expired("[U          ]", "LCT-000003E8", 1100, 99));
}

#[test]
fn cr02_14_three_that_do_not_expire() {
    assert!(!expired("[U          ]", "LCT-000007D0", 1000, 0));
    assert!(!expired("[U          ]", "LCT-00000000", u32::MAX, 0));
    assert!(!expired("[U          ]", "LCT-000003E8", 1000, 0));
    assert!(expired("[U          ]", "LCT-00000001", 2, 0));
    for place in 1..=11 {
        let mut flags = *b"[U          ]";
        flags[place] = b'X';
        let flags = std::str::from_utf8(&flags).expect("ASCII");
        assert!(!expired(flags, "LCT-00000001", u32::MAX, 0));
    }
    assert!(expired("[xxxxxxxxxxx]", "LCT-00000001", u32::MAX, 0));
}

#[test]
fn cr02_15_times_have_32_bits() {
    let flags = "[U          ]";
    assert!(expired(flags, "LCT-00000001", u32::MAX, 0xFFFF_FFFD));
    assert!(!expired(flags, "LCT-00000001", u32::MAX, 0xFFFF_FFFE));
    assert!(expired(flags, "LCT-7FFFFFFF", 0x8000_0001, 1));
    assert!(!expired(flags, "LCT-FFFFFFFF", 0xFFFF_FFFE, 0));
}

#[test]
fn cr02_16_a_changed_line_is_written_in_place() {
    let changed = Account {
        nt_hash: Some(CLIENT_PASS),
        lm_hash: None,
        ..BOB
    };
    let mut file = L1.to_lowercase().replace("[u", "[U").replace("lct", "LCT");
    reads(&file, "bob", BOB);
    let mut written = file.clone().into_bytes();
    let answer = write_account(&mut written, b"bob", &changed, u32::MAX);
    assert_eq!(answer, Ok(Some(0)));
    let expected = "bob:1001:XXXXXXXXXXXXXXXXXXXXXXXXXXXXXXXX:\
        44EBBA8D5312B8D611474411F56989AE:[U          ]:LCT-FFFFFFFF:";
    assert_eq!(written.escape_ascii().to_string(), expected);

    // every other octet, the flags, comments and what follows the sixth field too
    file = format!("#c\nann{}\r\n{file}more: text\r\nzoe{}", &L1[3..], &L1[3..]);
    file = file.replace("[U ", "[D?");
    let mut written = file.clone().into_bytes();
    let none = Account::default();
    let answer = write_account(&mut written, b"bob", &none, 0x0000_000a);
    let line = "bob:1001:XXXXXXXXXXXXXXXXXXXXXXXXXXXXXXXX:XXXXXXXXXXXXXXXXXXXXXXXXXXXXXXXX:\
        [D?         ]:LCT-0000000A:more: text\r\n";
    let at = 3 + L1.len() + 2;
    assert_eq!(answer, Ok(Some(at)));
    assert_eq!(written[..at], file.as_bytes()[..at]);
    assert_eq!(written[at..at + line.len()], *line.as_bytes());
    assert_eq!(
        written[at + line.len()..],
        file.as_bytes()[at + line.len()..]
    );
    // a change at time 0 never expires
    write_account(&mut written, b"bob", &none, 0).expect("a good file");
    let found = find_account(&written, b"bob", times(u32::MAX, 0)).expect("a good file");
    assert!(found.is_some_and(|found| !found.account.expired));
}

#[test]
fn cr02_17_a_bad_line_refuses_the_file() {
    bad(format!("{L1}\njunk\n"), 103);
    bad(format!("junk\n{L1}\njunk"), 0);
    bad(format!("{L1}\n{L1}\njunk"), 206);
}

#[test]
fn cr02_18_a_doubled_name() {
    let twice = format!("#\n{L1}\n{L1}");
    let fault = FileFault::DoubledName { offset: 2 };
    assert_eq!(seek(&twice, "bob"), Err(fault));
    let mut after = twice.clone().into_bytes();
    assert_eq!(write_account(&mut after, b"bob", &BOB, 5), Err(fault));
    assert_eq!(after, twice.as_bytes());
    assert_eq!(seek(format!("{twice}\n{L1}"), "bob"), Err(fault));
    for name in ["bo", "bobb", "BOB", "", "#"] {
        assert_eq!(seek(&twice, name), Ok(None), "{name}");
    }
    let ann = format!("ann{}", &L1[3..]);
    let file = format!("{ann}\n{L1}\n{ann}\n");
    assert_eq!(seek(&file, "bob"), Ok(Some((BOB, 103))));
    assert_eq!(
        seek(&file, "ann"),
        Err(FileFault::DoubledName { offset: 0 })
    );
    assert_eq!(counts(&file, 5, 5), [3, 0, 0, 0, 0]);
}

#[test]
fn cr02_19_a_name_on_no_line() {
    let long = "n".repeat(300);
    for file in ["", "#", L1] {
        for name in ["nobody", "", "bob:", "bob:1001", "#bob", "bob\n", &long] {
            assert_eq!(seek(file, name), Ok(None), "{name}");
            let mut after = file.as_bytes().to_vec();
            let written = write_account(&mut after, name.as_bytes(), &BOB, 5);
            assert_eq!((written, &after[..]), (Ok(None), file.as_bytes()));
        }
    }
}

#[test]
fn cr02_21_22_and_24_counts() {
    assert_eq!(counts("", 5, 5), [0; 5]);
    assert_eq!(counts("junk\n", 5, 5), [1, 1, 0, 0, 0]);
    let all = "bob:1001:75BA30198E6D1975AAD3B435B51404EE:XXXXXXXXXXXXXXXXXXXXXXXXXXXXXXXX:\
        [U    D     ]:LCT-000003E8:\n";
    assert_eq!(counts(all, 1100, 99), [1, 0, 1, 1, 1]);
    assert_eq!(counts(all.repeat(3), 1100, 99), [3, 0, 3, 3, 3]);
    assert_eq!(counts(all, 1100, 100), [1, 0, 1, 0, 1]);
    // over the 64 KiB that acctsum reads
    let long = format!("{}junk", all.repeat(10_000));
    assert_eq!(counts(&long, 1100, 99), [10_001, 1, 10_000, 10_000, 10_000]);
}

/// A file that Samba wrote, or what its pdbedit says of it.
fn samba(name: &str) -> Vec<u8> {
    let folder = concat!(env!("CARGO_MANIFEST_DIR"), "/../../tests/smbpasswd");
    std::fs::read(format!("{folder}/{name}")).expect("a file of Samba's")
}

/// When Samba wrote its files.
const WRITTEN: u32 = 0x6AFA_674D;

fn nt_hash(text: &str) -> Option<NtHash> {
    let password = Password::from_utf8(text).expect("a password");
    password.nt_hash().ok()
}

#[test]
fn samba_files_by_their_passwords() {
    for (file, name, password, disabled) in [
        ("bench.smbpasswd", "ada", "clientPass", false),
        ("bench.smbpasswd", "bob", "MyPw", false),
        ("bench.smbpasswd", "dora", "secret", true),
        ("old.smbpasswd", "ada", "MyPw", false),
        ("old.smbpasswd", "fred", "FourteenChars1", false),
        ("old.smbpasswd", "gina", "FifteenCharsLng", false),
        ("byhand.smbpasswd", "bob", "MyPw", false),
    ] {
        let found = find_account(&samba(file), name.as_bytes(), times(WRITTEN, 1 << 31));
        let account = found.expect("a good file").expect("an account").account;
        assert_eq!(account.nt_hash, nt_hash(password), "{file}, {name}");
        assert_eq!((account.disabled, account.expired), (disabled, false));
    }
}

#[test]
fn samba_files_by_their_lines() {
    let all = ["bench.smbpasswd", "old.smbpasswd", "byhand.smbpasswd"];
    for (file, lines) in all.into_iter().zip([5, 10, 4]) {
        let file = samba(file);
        assert_eq!(counts(&file, WRITTEN, 0)[..2], [lines, 0]);
        let mut offset = 0;
        for line in file.split_inclusive(|octet| *octet == b'\n') {
            let fields: Vec<&[u8]> = line.split(|octet| *octet == b':').collect();
            if line.starts_with(b"#") {
                offset += line.len();
                continue;
            }
            let found = find_account(&file, fields[0], times(WRITTEN + 1, 0));
            let found = found.expect("a good file").expect("an account");
            assert_eq!(found.offset, offset);
            // the digits again, by what is found
            for (hash, field) in [
                (found.account.lm_hash.map(|hash| hash.0), fields[2]),
                (found.account.nt_hash.map(|hash| hash.0), fields[3]),
            ] {
                let digits = |hash: [u8; 16]| hash.map(|octet| format!("{octet:02X}")).concat();
                match hash {
                    Some(hash) => assert_eq!(digits(hash).as_bytes(), field.to_ascii_uppercase()),
                    None => assert!(field.starts_with(b"X") || field.starts_with(b"NO PASSWORD")),
                }
            }
            let flags = fields[4];
            assert_eq!(found.account.disabled, flags.contains(&b'D'));
            let never = flags.contains(&b'X') || fields[5] == b"LCT-00000000";
            assert_eq!(found.account.expired, !never);
            // another hash in its place, then the same one again: the line as Samba wrote it
            let mut after = file.clone();
            let (name, same) = (fields[0], found.account);
            for account in [&BOB, &same] {
                let answer = write_account(&mut after, name, account, WRITTEN);
                assert_eq!(answer, Ok(Some(offset)));
            }
            if fields[5] == b"LCT-6AFA674D" && !line.windows(2).any(|two| two == b"NO") {
                assert_eq!(after, file);
            }
            offset += line.len();
        }
    }
    assert_eq!(
        counts(samba("bench.smbpasswd"), WRITTEN, 0),
        [5, 0, 1, 0, 0]
    );
    let later = WRITTEN + 1;
    assert_eq!(counts(samba("bench.smbpasswd"), later, 0), [5, 0, 1, 5, 0]);
    assert_eq!(counts(samba("old.smbpasswd"), later, 0), [10, 0, 0, 9, 0]);
    assert_eq!(counts(samba("byhand.smbpasswd"), later, 0), [4, 0, 0, 2, 2]);
}

/// What our write makes of bob's line is what Samba's smbpasswd made of it.
#[test]
fn a_change_as_samba_writes_it() {
    let mut ours = samba("byhand.smbpasswd");
    let theirs = samba("byhand.after-change-of-bob");
    let found = find_account(&theirs, b"bob", times(0, 0)).expect("a good file");
    let changed = found.expect("bob").account;
    let answer = write_account(&mut ours, b"bob", &changed, WRITTEN + 1);
    let ada = "# a comment\n".len();
    assert_eq!(answer, Ok(Some(ada + L1.len() + 1)));
    // another program had removed ada's LM hash
    ours[ada + "ada:1001:".len()..][..32].fill(b'X');
    assert_eq!(ours, theirs);
}

/// A peer with this password, and for a change another one, over the account that the file has.
/// What the reply to its Response says, and the account after a change.
fn call(
    file: &[u8],
    now: u32,
    [password, new]: [&str; 2],
    issued: &mut Issued,
) -> (Reason, Option<Account>) {
    let found = find_account(file, b"bob", times(now, 100)).expect("a good file");
    let account = found.map(|found| found.account);
    let (mut reply, mut packet) = ([0; REPLY_SIZE], [0; CHANGE_PACKET]);
    let challenge = [issued.used() as u8, 2, 3, 4, 5, 6, 7, 8];
    let terms = Terms {
        retries: Some(0),
        ..Terms::new(1)
    };
    let opening = Conversation::open(7, terms, &challenge, issued, &mut reply);
    let (mut talk, size) = opening.expect("a conversation");
    let mut peer = Peer::read_challenge(&reply[..size]).expect("a Challenge");
    let [password, new] = [password, new].map(|text| Password::from_utf8(text).expect("text"));
    let size = peer.write_response(&password, b"DOM\\bob", &mut packet);
    let size = size.expect("a Response");
    assert_eq!(mschap::account_of(&packet[..size]), b"bob");
    let answer = talk.step(&packet[..size], account.as_ref(), &mut reply);
    let answer = answer.expect("an answer");
    if answer.reason != Reason::PasswordExpired {
        return (answer.reason, None);
    }
    peer.read_reply(&reply[..answer.size]).expect("a Failure");
    let size = peer.write_change(&password, &new, &[9; 512], &mut packet);
    let size = size.expect("a change");
    let changed = talk.step(&packet[..size], None, &mut reply);
    let changed = changed.expect("an answer");
    assert_eq!(changed.reason, Reason::Success);
    match changed.update {
        Update::Changed(account) => (answer.reason, Some(account)),
        other => panic!("{other:?} after an accepted change"),
    }
}

#[test]
fn a_password_is_changed_in_the_file() {
    let mut issued = Issued::new(10);
    let before = format!("# c\nann{}\n{L1}\n", &L1[3..]);
    let mut file = before.clone().into_bytes();
    let mut at_1101 = |file: &[u8], texts| call(file, 1101, texts, &mut issued);
    assert_eq!(
        at_1101(&file, ["mypw", ""]).0,
        Reason::AuthenticationFailure
    );
    let (reason, changed) = at_1101(&file, ["MyPw", "clientPass"]);
    assert_eq!(reason, Reason::PasswordExpired);
    let changed = changed.expect("a changed account");
    let offset = "# c\n".len() + L1.len() + 1;
    let answer = write_account(&mut file, b"bob", &changed, 1101);
    assert_eq!(answer, Ok(Some(offset)));
    let line = "bob:1001:XXXXXXXXXXXXXXXXXXXXXXXXXXXXXXXX:44EBBA8D5312B8D611474411F56989AE:\
        [U          ]:LCT-0000044D:\n";
    assert_eq!(
        file,
        [&before.as_bytes()[..offset], line.as_bytes()].concat()
    );
    assert_eq!(at_1101(&file, ["clientPass", ""]), (Reason::Success, None));
    assert_eq!(
        at_1101(&file, ["MyPw", ""]).0,
        Reason::AuthenticationFailure
    );
    // disabled meanwhile: the flags are those of the file
    let file = String::from_utf8(file)
        .expect("ASCII")
        .replace("[U ", "[UD");
    let answer = at_1101(file.as_bytes(), ["clientPass", ""]);
    assert_eq!(answer, (Reason::AccountDisabled, None));
}

/// What a caller keeps beside the file.
#[derive(Default)]
struct Failures(HashMap<Vec<u8>, u8>);

/// A Response by a password in a conversation of its own, as `mschap.h` says it under LOCKOUT: the
/// account is looked up, its count set and, after the step, kept. Without counts it is neither.
fn guess(
    file: &[u8],
    counts: Option<&mut Failures>,
    (name, password): (&str, &str),
    number: u16,
) -> Reason {
    let (mut reply, mut packet) = ([0; REPLY_SIZE], [0; CHANGE_PACKET]);
    let [high, low] = number.to_be_bytes();
    let challenge = [1, 2, 3, 4, 5, 6, high, low];
    let mut issued = Issued::new(3);
    let opening = Conversation::open(7, Terms::new(5), &challenge, &mut issued, &mut reply);
    let (mut talk, size) = opening.expect("a conversation");
    let mut peer = Peer::read_challenge(&reply[..size]).expect("a Challenge");
    let password = Password::from_utf8(password).expect("a password");
    let size = peer.write_response(&password, name.as_bytes(), &mut packet);
    let packet = &packet[..size.expect("a Response")];

    let name = mschap::account_of(packet);
    let found = find_account(file, name, times(1000, 100)).expect("a good file");
    let mut account = found.map(|found| found.account);
    let kept = counts.as_ref().and_then(|counts| counts.0.get(name));
    if let (Some(account), Some(kept)) = (&mut account, kept) {
        account.failures = *kept;
    }
    let answer = talk.step(packet, account.as_ref(), &mut reply);
    let answer = answer.expect("an answer");
    match (answer.update, counts) {
        (Update::Counted(account), Some(counts)) => {
            counts.0.insert(name.to_vec(), account.failures);
        }
        (Update::Counted(_), None) | (Update::Nothing, _) => {}
        (Update::Changed(_), _) => panic!("no change is awaited"),
    }
    answer.reason
}

/// A caller who looks the account up anew for each Response, and does no more, has no lockout; one
/// who keeps the counts by name has, whatever domain the name comes with.
#[test]
fn the_count_is_kept_beside_the_file() {
    let file = format!("ann{}\n{L1}\n", &L1[3..]);
    let file = file.as_bytes();
    let failed = Reason::AuthenticationFailure;
    for number in 0..300 {
        assert_eq!(guess(file, None, ("bob", "wrong"), number), failed);
    }
    assert_eq!(guess(file, None, ("bob", "MyPw"), 300), Reason::Success);

    let mut counts = Failures::default();
    let mut call = |name: &str, password: &str, number| {
        let reason = guess(file, Some(&mut counts), (name, password), number);
        (reason, counts.0.get(&b"bob"[..]).copied())
    };
    for (number, name) in ["bob", "DOM\\bob", "\\bob", "other\\bob"]
        .into_iter()
        .enumerate()
    {
        let number = number as u16;
        assert_eq!(
            call(name, "wrong", number),
            (failed, Some(number as u8 + 1))
        );
    }
    // one below the limit the owner gets in, and the count is 0 again
    assert_eq!(call("bob", "MyPw", 4), (Reason::Success, Some(0)));
    for number in 0..5 {
        assert_eq!(call("bob", "wrong", 10 + number).0, failed);
    }
    for number in 0..300 {
        assert_eq!(call("DOM\\bob", "MyPw", 20 + number), (failed, Some(5)));
    }
    // another account is not locked, and a name on no line has no count
    assert_eq!(call("ann", "MyPw", 400).0, Reason::Success);
    assert_eq!(call("nobody", "MyPw", 401).0, failed);
    let mut names: Vec<&[u8]> = counts.0.keys().map(Vec::as_slice).collect();
    names.sort();
    assert_eq!(names, [&b"ann"[..], b"bob"]);
    // its keeper unlocks it
    counts.0.insert(b"bob".to_vec(), 0);
    let reason = guess(file, Some(&mut counts), ("bob", "MyPw"), 402);
    assert_eq!(reason, Reason::Success);
}

/// Why the account of a judged Response is not for the file: its hashes are written, which stand
/// there already, and the time, so that its password does not expire; and its count is not.
#[test]
fn a_counted_account_in_the_file() {
    let mut file = L1.as_bytes().to_vec();
    let at_1101 = times(1101, 100);
    let found = |file: &[u8]| {
        let found = find_account(file, b"bob", at_1101).expect("a good file");
        found.expect("bob").account
    };
    let before = found(&file);
    assert!(before.expired);
    let counted = Account {
        failures: 3,
        ..before
    };
    let answer = write_account(&mut file, b"bob", &counted, 1101);
    assert_eq!(answer, Ok(Some(0)));
    assert_eq!(file, L1.replace("000003E8", "0000044D").as_bytes());
    assert_eq!(
        found(&file),
        BOB,
        "no longer expired, and the count is not there"
    );
}

/// The record that a lookup writes is passed to a step as it is.
#[test]
fn a_record_of_a_file_is_a_record() {
    let (mut record, mut offset) = ([0xA5; sys::RECORD_SIZE], 9);
    for (name, account) in [("bob", Some(BOB)), ("ann", None)] {
        let (file, name) = (L1.as_bytes(), name.as_bytes());
        let number = sys::find_account(file, name, 5, 5, &mut record, &mut offset);
        assert_eq!((number, offset), (sys::OK, 0));
        assert_eq!(Account::from_bytes(&record), Ok(account));
    }
}

#[test]
fn faults_in_words_and_numbers() {
    let (bad, doubled) = (
        FileFault::BadLine { offset: 103 },
        FileFault::DoubledName { offset: 0 },
    );
    assert_eq!(bad.to_string(), "the line at offset 103 is of another form");
    assert_eq!(
        doubled.to_string(),
        "the name is on two lines, first at offset 0"
    );
    let other = FileFault::Other(Refusal::BadArgument);
    assert_eq!(other.to_string(), Refusal::BadArgument.to_string());
    let numbers = [bad, doubled, other].map(|fault| Refusal::from(fault).number());
    assert_eq!(numbers, [14, 15, 100]);
    assert_eq!(Refusal::NoAccount.number(), 103);
}
