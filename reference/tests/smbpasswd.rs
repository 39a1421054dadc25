//! The account file of change request 2026-02: each row of the list of rules with its values, the
//! files that Samba wrote (`../tests/smbpasswd`), and what holds of any file.

use std::collections::BTreeMap;
use std::fs;
use std::path::Path;

use reference::authenticator::Account;
use reference::hashes;
use reference::random::Random;
use reference::smbpasswd::samples;
use reference::smbpasswd::{acctsum, find, summary, write_back, Counts, Found, Record, Written};

/// The good line of the list of rules. Its password is MyPw, its time 1000.
const L1: &str = "bob:1001:75BA30198E6D1975AAD3B435B51404EE:\
    FC156AF7EDCD6C0EDDE3337D427F4EAC:[U          ]:LCT-000003E8:";
const LM: [u8; 16] = [
    0x75, 0xBA, 0x30, 0x19, 0x8E, 0x6D, 0x19, 0x75, 0xAA, 0xD3, 0xB4, 0x35, 0xB5, 0x14, 0x04, 0xEE,
];
const NT: [u8; 16] = [
    0xFC, 0x15, 0x6A, 0xF7, 0xED, 0xCD, 0x6C, 0x0E, 0xDD, 0xE3, 0x33, 0x7D, 0x42, 0x7F, 0x4E, 0xAC,
];
/// The NT hash of clientPass.
const CLIENT_PASS: [u8; 16] = [
    0x44, 0xEB, 0xBA, 0x8D, 0x53, 0x12, 0xB8, 0xD6, 0x11, 0x47, 0x44, 0x11, 0xF5, 0x69, 0x89, 0xAE,
];
/// What L1 says to one who does not ask about its age.
const BOB: Record = Record {
    nt: Some(NT),
    lm: Some(LM),
    disabled: false,
    expired: false,
};
const XS: &str = "XXXXXXXXXXXXXXXXXXXXXXXXXXXXXXXX";

const NAME: usize = 0;
const UID: usize = 1;
const LM_FIELD: usize = 2;
const NT_FIELD: usize = 3;
const FLAGS: usize = 4;
const LCT: usize = 5;

/// L1 with other texts for some of its fields.
fn with(others: &[(usize, &str)]) -> String {
    let mut fields: Vec<&str> = L1.split(':').collect();
    assert_eq!(fields.len(), 7);
    for &(number, text) in others {
        fields[number] = text;
    }
    fields.join(":")
}

/// Finds a name at time 0, when no account is expired.
fn seek(file: impl AsRef<[u8]>, name: impl AsRef<[u8]>) -> Found {
    find(file.as_ref(), name.as_ref(), 0, 0)
}

fn at(offset: usize, record: Record) -> Found {
    Found::Account { offset, record }
}

/// The name has this record, on the first line.
fn reads(file: impl AsRef<[u8]>, name: &str, record: Record) {
    let file = file.as_ref();
    assert_eq!(seek(file, name), at(0, record), "{}", file.escape_ascii());
}

/// A line of another form is at the offset, whatever name is sought, and nothing is written.
fn bad(file: impl AsRef<[u8]>, offset: usize) {
    let file = file.as_ref();
    for name in ["bob", "nobody", ""] {
        let text = file.escape_ascii();
        assert_eq!(seek(file, name), Found::BadLine { offset }, "{text}");
        let mut after = file.to_vec();
        let written = write_back(&mut after, name.as_bytes(), Some(&NT), None, 5);
        assert_eq!(written, Written::BadLine { offset }, "{text}");
        assert_eq!(after, file, "{text}");
    }
    let input = [b"5 5\n", file].concat();
    assert!(summary(&input).unwrap().bad > 0);
}

/// Whether an account with these flags and LCT is expired.
fn expired(flags: &str, lct: &str, now: u32, max_age: u32) -> bool {
    let file = with(&[(FLAGS, flags), (LCT, lct)]);
    match find(file.as_bytes(), b"bob", now, max_age) {
        Found::Account { record, .. } => record.expired,
        other => panic!("{file}: {other:?}"),
    }
}

/// The five numbers that acctsum prints.
fn counts(input: impl AsRef<[u8]>) -> [usize; 5] {
    let Counts {
        lines,
        bad,
        disabled,
        expired,
        no_nt,
    } = summary(input.as_ref()).expect("not refused");
    [lines, bad, disabled, expired, no_nt]
}

fn refused(input: impl AsRef<[u8]>) {
    let input = input.as_ref();
    assert_eq!(summary(input), None, "{}", input.escape_ascii());
    assert_eq!(acctsum(input), "refused 14\n");
}

#[test]
fn cr02_1() {
    reads(L1, "bob", BOB);
    bad(&L1[..L1.len() - 1], 0);
    bad(format!("{}\n", &L1[..L1.len() - 1]), 0);
    bad(format!("{}\n{L1}", &L1[..L1.len() - 1]), 0);
}

#[test]
fn cr02_2() {
    bad(with(&[(NAME, "")]), 0);
    bad(":1:", 0);
    for size in [1, 255, 256] {
        let name = "n".repeat(size);
        reads(with(&[(NAME, &name)]), &name, BOB);
    }
    for size in [257, 300] {
        bad(with(&[(NAME, &"n".repeat(size))]), 0);
    }
    for name in [" ", "\0", "a b", "\r", "j\u{f6}rg", "b#", "]", "DOM\\bob"] {
        reads(with(&[(NAME, name)]), name, BOB);
    }
}

#[test]
fn cr02_3() {
    for uid in ["9999999999", "4294967296", "0", "0000000000", "7"] {
        reads(with(&[(UID, uid)]), "bob", BOB);
    }
    for uid in ["", "12345678901", "00000000000", "1a", "-1", "+1", " 1"] {
        bad(with(&[(UID, uid)]), 0);
    }
}

#[test]
fn cr02_4() {
    let lower = "fc156af7edcd6c0edde3337d427f4eac";
    reads(with(&[(NT_FIELD, lower)]), "bob", BOB);
    let mixed = "fC156aF7EdCd6C0eDDe3337d427F4eAc";
    reads(with(&[(NT_FIELD, mixed)]), "bob", BOB);
    let lm = "75ba30198e6d1975aad3b435b51404ee";
    reads(with(&[(LM_FIELD, lm)]), "bob", BOB);
    for field in [LM_FIELD, NT_FIELD] {
        bad(with(&[(field, &lower[1..])]), 0);
        bad(with(&[(field, &format!("{lower}0"))]), 0);
        bad(with(&[(field, "")]), 0);
        for octet in ["g", "G", "@", "`", "/", ";", " ", "\0"] {
            bad(with(&[(field, &lower.replacen('1', octet, 1))]), 0);
        }
    }
}

#[test]
fn cr02_5() {
    let none = |field| match field {
        LM_FIELD => Record { lm: None, ..BOB },
        _ => Record { nt: None, ..BOB },
    };
    for field in [LM_FIELD, NT_FIELD] {
        let q31 = format!("X{}", "?".repeat(31));
        let x21 = format!("NO PASSWORD{}", "X".repeat(21));
        let q21 = format!("NO PASSWORD{}", "\0".repeat(21));
        for text in [XS, &q31, &x21, &q21] {
            reads(with(&[(field, text)]), "bob", none(field));
        }
        let stars = "*".repeat(32);
        let small = format!("no password{}", "X".repeat(21));
        let other = format!("NO PASSWORd{}", "X".repeat(21));
        let inside = format!("0{}", "X".repeat(31));
        let x32 = "x".repeat(32);
        for text in [&x32, "NO PASSWORD", "X", &stars, &small, &other, &inside] {
            bad(with(&[(field, text)]), 0);
        }
        bad(with(&[(field, &"X".repeat(31))]), 0);
        bad(with(&[(field, &"X".repeat(33))]), 0);
    }
}

#[test]
fn cr02_6() {
    let disabled = Record {
        disabled: true,
        ..BOB
    };
    reads(with(&[(FLAGS, "[??????????D]")]), "bob", disabled);
    reads(with(&[(FLAGS, "[           ]")]), "bob", BOB);
    reads(with(&[(FLAGS, "[]]]]]]]]]]]]")]), "bob", BOB);
    reads(with(&[(FLAGS, "[[[[[[[[[[[[]")]), "bob", BOB);
    let others = [
        "[U]",
        "",
        "[U         ]",
        "[U           ]",
        "U          ]]",
        "[[U          ",
        "]U          [",
        "(U          )",
    ];
    for flags in others {
        bad(with(&[(FLAGS, flags)]), 0);
    }
}

#[test]
fn cr02_7() {
    for lct in ["LCT-000003e8", "LCT-000003E8"] {
        assert!(!expired("[U          ]", lct, 1000, 0));
        assert!(expired("[U          ]", lct, 1001, 0));
    }
    for lct in ["LCT-DEADBEEF", "LCT-deadBeeF"] {
        assert!(!expired("[U          ]", lct, 3_735_928_559, 0));
        assert!(expired("[U          ]", lct, 3_735_928_560, 0));
    }
    let others = [
        "LCT-00003E8",
        "LCT-0000003E8",
        "LCT-",
        "",
        "000003E8",
        "lct-000003E8",
        "LCT_000003E8",
        "LCT-0000003G",
        "LCT-XXXXXXXX",
        "LCT-    03E8",
    ];
    for lct in others {
        bad(with(&[(LCT, lct)]), 0);
    }
}

#[test]
fn cr02_8() {
    for rest in ["x:y\r", ":", "\r", "\0", " #", ":::::::", L1] {
        reads(format!("{L1}{rest}"), "bob", BOB);
        reads(format!("{L1}{rest}\n"), "bob", BOB);
    }
}

#[test]
fn cr02_9() {
    assert_eq!(counts(format!("5 5\n#x\n{L1}")), [1, 0, 0, 0, 0]);
    assert_eq!(seek(format!("#x\n{L1}"), "bob"), at(3, BOB));
    assert_eq!(seek(format!("#{L1}\n{L1}\n#{L1}"), "bob"), at(104, BOB));
    assert_eq!(seek(format!("#{L1}"), "bob"), Found::Nobody);
    assert_eq!(seek(format!("#{L1}"), "#bob"), Found::Nobody);
    assert_eq!(counts("5 5\n#\n#\n#"), [0; 5]);
    bad(" #x", 0);
    bad(format!("#x\n #x\n{L1}"), 3);
    assert_eq!(counts("5 5\n #x"), [1, 1, 0, 0, 0]);
}

#[test]
fn cr02_10() {
    assert_eq!(counts(format!("5 5\n{L1}\n")), [1, 0, 0, 0, 0]);
    assert_eq!(counts(format!("5 5\n{L1}")), [1, 0, 0, 0, 0]);
    assert_eq!(counts("5 5\n\n"), [1, 1, 0, 0, 0]);
    assert_eq!(counts(format!("5 5\n{L1}\n\n")), [2, 1, 0, 0, 0]);
    assert_eq!(counts(format!("5 5\n{L1}\n\n{L1}\n")), [3, 1, 0, 0, 0]);
    bad("\n", 0);
    bad(format!("{L1}\n\n"), 103);
    // A CR ends no line: it is in the rest of one, or in the name of the next.
    assert_eq!(counts(format!("5 5\n{L1}\r{L1}")), [1, 0, 0, 0, 0]);
    assert_eq!(seek(format!("{L1}\n\r{L1}"), "\rbob"), at(103, BOB));
    bad(format!("{L1}\r\n\r\n"), 104);
}

#[test]
fn cr02_11() {
    let disabled = |flags: &str| match seek(with(&[(FLAGS, flags)]), "bob") {
        Found::Account { record, .. } => record.disabled,
        other => panic!("{flags}: {other:?}"),
    };
    assert!(disabled("[U        D ]"));
    for place in 1..12 {
        let mut flags = "[           ]".to_string();
        flags.replace_range(place..place + 1, "D");
        assert!(disabled(&flags), "{flags}");
        assert!(!disabled(&flags.to_lowercase()), "{flags}");
    }
    assert!(!disabled("[UXLNWIS\0\r# ]"));
    let nothing = with(&[(LM_FIELD, XS), (NT_FIELD, XS), (NAME, "D")]);
    let record = Record {
        nt: None,
        lm: None,
        ..BOB
    };
    reads(nothing, "D", record);
}

#[test]
fn cr02_12() {
    let file = with(&[(FLAGS, "[UL         ]")]);
    reads(&file, "bob", BOB);
    for flags in ["[UL         ]", "[NU         ]", "[HLNTUMWSI! ]"] {
        let file = with(&[(FLAGS, flags)]);
        let Found::Account { record, .. } = seek(file, "bob") else {
            panic!("{flags}");
        };
        let clear = Account {
            nt: Some(NT),
            lm: Some(LM),
            ..Account::default()
        };
        assert_eq!(record.account(), clear.keyed(), "{flags}");
        assert!(!record.account().hours && !record.account().no_dialin);
    }
}

#[test]
fn cr02_13() {
    assert!(!expired("[U          ]", "LCT-000003E8", 1100, 100));
    assert!(expired("[U          ]", "LCT-000003E8", 1100, 99));
}

#[test]
fn cr02_14() {
    assert!(!expired("[U          ]", "LCT-000007D0", 1000, 0));
    assert!(!expired("[U          ]", "LCT-00000000", 4_294_967_295, 0));
    assert!(!expired("[UX         ]", "LCT-00000001", 4_294_967_295, 0));
    assert!(!expired("[U          ]", "LCT-000003E8", 1000, 0));
    assert!(expired("[U          ]", "LCT-000003E8", 1001, 0));
    for place in 1..12 {
        let mut flags = "[UUUUUUUUUUU]".to_string();
        flags.replace_range(place..place + 1, "X");
        assert!(!expired(&flags, "LCT-00000001", 4_294_967_295, 0));
        flags.replace_range(place..place + 1, "x");
        assert!(expired(&flags, "LCT-00000001", 4_294_967_295, 0));
    }
    // An X elsewhere is no flag.
    let file = with(&[(NAME, "X"), (NT_FIELD, XS), (LM_FIELD, XS)]) + "X[X]";
    let record = Record {
        nt: None,
        lm: None,
        disabled: false,
        expired: true,
    };
    assert_eq!(find(file.as_bytes(), b"X", 1001, 0), at(0, record));
}

#[test]
fn cr02_15() {
    let flags = "[U          ]";
    assert!(expired(flags, "LCT-00000001", 0xFFFF_FFFF, 0xFFFF_FFFD));
    assert!(!expired(flags, "LCT-00000001", 0xFFFF_FFFF, 0xFFFF_FFFE));
    assert!(!expired(flags, "LCT-FFFFFFFF", 0xFFFF_FFFE, 0));
    assert!(!expired(flags, "LCT-80000000", 0x7FFF_FFFF, 0));
    assert!(expired(flags, "LCT-7FFFFFFF", 0x8000_0000, 0));
    assert!(!expired(flags, "LCT-FFFFFFFF", 0, 0));
}

#[test]
fn cr02_16() {
    let lower = "bob:1001:75ba30198e6d1975aad3b435b51404ee:\
        fc156af7edcd6c0edde3337d427f4eac:[U          ]:LCT-000003e8:";
    let expected =
        format!("bob:1001:{XS}:44EBBA8D5312B8D611474411F56989AE:[U          ]:LCT-FFFFFFFF:");
    let mut file = lower.as_bytes().to_vec();
    let written = write_back(&mut file, b"bob", Some(&CLIENT_PASS), None, 4_294_967_295);
    assert_eq!(written, Written::At(0));
    assert_eq!(file, expected.as_bytes());

    // In the midst of a file: the other lines, the flags, the uid and the rest of the line stay.
    let no = "NO PASSWORD?????????????????????";
    let front = format!("#x\nada:1:{no}:{XS}:[DUX        ]:LCT-00000000:\r\n");
    let behind = "rest:of: the line\r\nbob2:7";
    let line = format!("bob:0000000007:{no}:{XS}:[D\0;LCT  X  ]:LCT-000003e8:");
    let expected = "bob:0000000007:75BA30198E6D1975AAD3B435B51404EE:\
        FC156AF7EDCD6C0EDDE3337D427F4EAC:[D\0;LCT  X  ]:LCT-0000000A:";
    let mut file = format!("{front}{line}{behind}{}", &L1[8..]).into_bytes();
    let expected = format!("{front}{expected}{behind}{}", &L1[8..]);
    let written = write_back(&mut file, b"bob", Some(&NT), Some(&LM), 10);
    assert_eq!(written, Written::At(front.len()));
    assert_eq!(file, expected.as_bytes());

    // No hash at all, and a time that never expires (O-02k).
    let mut after = L1.as_bytes().to_vec();
    assert_eq!(
        write_back(&mut after, b"bob", None, None, 0),
        Written::At(0)
    );
    let expected = format!("bob:1001:{XS}:{XS}:[U          ]:LCT-00000000:");
    assert_eq!(after, expected.as_bytes());
    // What stands there already is written anyway (O-02f).
    assert_eq!(
        write_back(&mut after, b"bob", None, None, 0),
        Written::At(0)
    );
    assert_eq!(after, expected.as_bytes());
}

#[test]
fn cr02_17() {
    assert_eq!(L1.len(), 102);
    bad(format!("{L1}\njunk\n"), 103);
    bad(format!("{L1}\njunk"), 103);
    bad(format!("{L1}\n#\njunk\nmore junk\n"), 105);
    bad(format!("junk\n{L1}\n"), 0);
    // Names that can stand on no line draw 14 too (O-02h).
    let file = format!("{L1}\njunk\n");
    for name in ["b:b", "#bob", &"n".repeat(257)] {
        assert_eq!(seek(&file, name), Found::BadLine { offset: 103 });
    }
}

#[test]
fn cr02_18() {
    let twice = format!("{L1}\n{L1}");
    assert_eq!(seek(&twice, "bob"), Found::Twice { offset: 0 });
    let mut after = twice.clone().into_bytes();
    let written = write_back(&mut after, b"bob", None, None, 5);
    assert_eq!(written, Written::Twice { offset: 0 });
    assert_eq!(after, twice.as_bytes());
    bad(format!("{twice}\njunk"), 206);
    assert_eq!(seek(&twice, "bo"), Found::Nobody);

    let ann = with(&[(NAME, "ann"), (UID, "7")]);
    let file = format!("#\n{ann}\n{L1}\n{ann}\n{ann}\n");
    assert_eq!(seek(&file, "bob"), at(102, BOB));
    assert_eq!(seek(&file, "ann"), Found::Twice { offset: 2 });

    // Exact octets of the whole name (O-02e).
    let names = ["bob", "bo", "bobb", "Bob", "BOB", "bob ", " bob", "bob\r"];
    let lines = names.map(|name| with(&[(NAME, name)]));
    let file = lines.join("\n");
    let mut offset = 0;
    for (name, line) in names.iter().zip(&lines) {
        assert_eq!(seek(&file, name), at(offset, BOB));
        offset += line.len() + 1;
    }
    for name in ["b", "bOb", "bob\0", "ob"] {
        assert_eq!(seek(&file, name), Found::Nobody);
    }
}

#[test]
fn cr02_19() {
    let long = "n".repeat(257);
    for name in ["bob", "", "#", ":", &long] {
        assert_eq!(seek("", name), Found::Nobody);
        assert_eq!(
            write_back(&mut [], name.as_bytes(), None, None, 5),
            Written::Nobody
        );
    }
    // On no line: too short, too long, with a colon (O-02c), with a # in front (O-02h).
    let file = format!("#bob:1\n{}\n{L1}\n", with(&[(NAME, &long[1..])]));
    for name in ["", &long, "bob:", "bob:1001", "#bob", "bob\n", "nobody", L1] {
        assert_eq!(seek(&file, name), Found::Nobody);
        let mut after = file.clone().into_bytes();
        let written = write_back(&mut after, name.as_bytes(), None, None, 5);
        assert_eq!(written, Written::Nobody);
        assert_eq!(after, file.as_bytes());
    }
}

#[test]
fn cr02_20() {
    // The last octet of 65,536 is the colon that closes the last line's sixth field.
    let mut input = b"5 5\n".to_vec();
    input.resize(65_536 - 103, b'#');
    input.push(b'\n');
    input.extend(L1.as_bytes());
    assert_eq!(input.len(), 65_536);
    assert_eq!(counts(&input), [1, 0, 0, 0, 0]);
    assert_eq!(counts(&input[..65_535]), [1, 1, 0, 0, 0]);
    for more in ["\n", "x", "\0"] {
        refused([&input, more.as_bytes()].concat());
    }
    refused(vec![b'5'; 65_537]);
    // 636 times 103 octets and the first line are 65,512 octets.
    let full = format!("5 5\n{}", format!("{L1}\n").repeat(636));
    assert_eq!(counts(&full), [636, 0, 0, 0, 0]);
    refused(format!("{full}{L1}\n"));
}

#[test]
fn cr02_21() {
    let nothing = "lines 0\nbad 0\ndisabled 0\nexpired 0\nno-nt 0\n";
    assert_eq!(acctsum(b"5 5\n"), nothing);
    assert_eq!(acctsum(b"5 5"), nothing);
    assert_eq!(acctsum(b"0 0\n#\n"), nothing);
    let input = format!("1100 99\n{}\njunk\n", with(&[(FLAGS, "[D          ]")]));
    let expected = "lines 2\nbad 1\ndisabled 1\nexpired 1\nno-nt 0\n";
    assert_eq!(acctsum(input.as_bytes()), expected);
}

#[test]
fn cr02_22() {
    assert_eq!(counts("5 5\njunk\n"), [1, 1, 0, 0, 0]);
    // Though it has D, an old LCT and no NT hash.
    let other = with(&[(NT_FIELD, XS), (FLAGS, "[D          ]"), (UID, "")]);
    assert_eq!(counts(format!("1100 99\n{other}")), [1, 1, 0, 0, 0]);
}

#[test]
fn cr02_23() {
    for good in [
        "4294967295 1\n",
        "1 4294967295\n",
        "0 0\n",
        // O-02b, O-02i
        "4294967295 4294967295",
        "00000000000000000005 000\n",
    ] {
        assert_eq!(counts(good), [0; 5], "{good}");
    }
    for other in [
        "4294967296 1\n",
        "1 4294967296\n",
        "5  5\n",
        "5 5\r\n",
        "",
        "\n",
        "5\n",
        "5 \n",
        " 5\n",
        " 5 5\n",
        "5 5 \n",
        "5 5 5\n",
        "5\t5\n",
        "+5 5\n",
        "5 -5\n",
        "0x5 5\n",
        "5 A\n",
        "5,5\n",
        "5 5\0\n",
        "#\n5 5\n",
        "\n5 5\n",
        "18446744073709551616 1\n",
        "18446744073709551621 18446744073709551621\n",
        "5 99999999999999999999999999999999999999999999\n",
        L1,
    ] {
        refused(other);
        refused(format!("{other}\n{L1}\n"));
    }
}

#[test]
fn cr02_24() {
    let all = with(&[(FLAGS, "[U    D     ]"), (NT_FIELD, XS)]);
    assert_eq!(counts(format!("1100 99\n{all}")), [1, 0, 1, 1, 1]);
    assert_eq!(counts(format!("1100 100\n{all}")), [1, 0, 1, 0, 1]);
    assert_eq!(counts(format!("1100 99\n{all}\n{all}\n")), [2, 0, 2, 2, 2]);
    let input = format!("1100 99\n{all}\njunk\n#\n{L1}\n\n{all}\n");
    assert_eq!(counts(input), [5, 2, 2, 3, 2]);
}

/// What the places of L1 admit, one letter for each.
const PLACES: &str = "nnn:dddd:h-------------------------------:h-------------------------------:\
    [fffffffffff]:LCT-hhhhhhhh:";

/// Whether L1 is still a line of the right form with this octet at a place.
fn admits(place: usize, octet: u8) -> bool {
    match PLACES.as_bytes()[place] {
        b'n' | b'f' => octet != b':' && octet != b'\n',
        b'd' => octet.is_ascii_digit(),
        // The first octet of a hash may be X.
        b'h' if place < 80 => octet.is_ascii_hexdigit() || octet == b'X',
        b'h' => octet.is_ascii_hexdigit(),
        b'-' if place < 80 => octet.is_ascii_hexdigit(),
        itself => octet == itself,
    }
}

fn bad_lines(file: &[u8]) -> usize {
    counts([b"5 5\n", file].concat())[1]
}

/// Each octet at each place of a good line, instead of the one there and before it, and each place
/// left out.
#[test]
fn every_octet_at_every_place() {
    assert_eq!(PLACES.len(), L1.len());
    for place in 0..L1.len() {
        let in_name_or_uid = place < 3 || (4..8).contains(&place);
        let mut without = L1.as_bytes().to_vec();
        without.remove(place);
        assert_eq!(bad_lines(&without) == 0, in_name_or_uid, "{place}");
        for octet in 0..=255 {
            let skipped = place == 0 && octet == b'#';
            let mut changed = L1.as_bytes().to_vec();
            changed[place] = octet;
            let good = skipped || admits(place, octet);
            assert_eq!(bad_lines(&changed) == 0, good, "{place} {octet}");

            let mut longer = L1.as_bytes().to_vec();
            longer.insert(place, octet);
            let good = match place {
                // At the end of a field, before its colon, too.
                0..=3 => octet != b':' && octet != b'\n',
                4..=8 => octet.is_ascii_digit(),
                // A colon before the last one leaves that to the rest of the line.
                101 => octet == b':',
                _ => false,
            };
            assert_eq!(bad_lines(&longer) == 0, good, "{place} {octet}");
        }
    }
}

fn samba(name: &str) -> String {
    let folder = Path::new(env!("CARGO_MANIFEST_DIR")).join("../tests/smbpasswd");
    fs::read_to_string(folder.join(name)).unwrap_or_else(|error| panic!("{name}: {error}"))
}

/// The lines of a file in the smbpasswd layout, by name: offset and fields.
fn accounts(file: &str) -> BTreeMap<&str, (usize, Vec<&str>)> {
    let mut accounts = BTreeMap::new();
    let mut offset = 0;
    for line in file.split_inclusive('\n') {
        if !line.starts_with('#') {
            let fields: Vec<&str> = line.split(':').collect();
            accounts.insert(fields[NAME], (offset, fields));
        }
        offset += line.len();
    }
    accounts
}

/// A hash's field as `pdbedit` writes it.
fn hash(field: &str) -> Option<[u8; 16]> {
    if field == XS || field == "NO PASSWORDXXXXXXXXXXXXXXXXXXXXX" {
        return None;
    }
    let number = u128::from_str_radix(field, 16).unwrap();
    Some(number.to_be_bytes())
}

/// The value that `pdbedit -L -v` gives under a label.
fn value<'a>(part: &'a str, label: &str) -> &'a str {
    let mut lines = part.lines();
    let line = lines.find(|line| line.starts_with(label)).unwrap();
    line[label.len()..].trim()
}

/// The seconds since 1970 of a date of `pdbedit -L -v`: `Mon, 16 Nov 2026 02:15:41 UTC`, or 0.
fn seconds(date: &str) -> u32 {
    const DAYS: [&str; 7] = ["Thu", "Fri", "Sat", "Sun", "Mon", "Tue", "Wed"];
    const MONTHS: [(&str, u32); 12] = [
        ("Jan", 31),
        ("Feb", 28),
        ("Mar", 31),
        ("Apr", 30),
        ("May", 31),
        ("Jun", 30),
        ("Jul", 31),
        ("Aug", 31),
        ("Sep", 30),
        ("Oct", 31),
        ("Nov", 30),
        ("Dec", 31),
    ];
    if date == "0" {
        return 0;
    }
    let words = date.split([',', ' ', ':']).filter(|word| !word.is_empty());
    let words: Vec<&str> = words.collect();
    let [weekday, day, month, year, hour, minute, second, "UTC"] = words[..] else {
        panic!("{date}");
    };
    let [day, year, hour, minute, second] =
        [day, year, hour, minute, second].map(|word| word.parse::<u32>().unwrap());
    let leap = |year: u32| {
        let by = |number| year.is_multiple_of(number);
        u32::from(by(4) && (!by(100) || by(400)))
    };
    let mut days: u32 = (1970..year).map(|year| 365 + leap(year)).sum();
    let number = MONTHS.iter().position(|(name, _)| *name == month).unwrap();
    days += MONTHS[..number].iter().map(|(_, days)| days).sum::<u32>();
    days += if number > 1 { leap(year) } else { 0 };
    days += day - 1;
    assert_eq!(DAYS[days as usize % 7], weekday, "{date}");
    ((days * 24 + hour) * 60 + minute) * 60 + second
}

#[test]
fn dates() {
    assert_eq!(seconds("Thu, 01 Jan 1970 00:00:00 UTC"), 0);
    assert_eq!(seconds("Tue, 29 Feb 2000 23:59:59 UTC"), 951_868_799);
    assert_eq!(seconds("Tue, 19 Jan 2038 03:14:07 UTC"), 0x7FFF_FFFF);
    assert_eq!(seconds("Sun, 07 Feb 2106 06:28:15 UTC"), 0xFFFF_FFFF);
}

/// Compares each account of a file with what `pdbedit -L -w` and `pdbedit -L -v` say of it, but for
/// an LM hash where `-w` has none: the names of these are handed back.
fn same_as_pdbedit(file_name: &str) -> Vec<String> {
    let [file, lw, lv] =
        ["smbpasswd", "pdbedit-Lw", "pdbedit-Lv"].map(|kind| samba(&format!("{file_name}.{kind}")));
    let (ours, listed) = (accounts(&file), accounts(&lw));
    let parts: Vec<&str> = lv.split("---------------\n").skip(1).collect();
    assert_eq!((ours.len(), listed.len()), (parts.len(), parts.len()));
    let mut dropped = Vec::new();
    for part in parts {
        let name = value(part, "Unix username:");
        let flags = value(part, "Account Flags:");
        let set = seconds(value(part, "Password last set:"));
        let (offset, fields) = &ours[name];
        let (_, listed) = &listed[name];
        assert_eq!([fields[FLAGS], listed[FLAGS]], [flags, flags]);
        let expected = Record {
            nt: hash(listed[NT_FIELD]),
            lm: hash(fields[LM_FIELD]),
            disabled: flags.contains('D'),
            expired: false,
        };
        let found = |now, age| find(file.as_bytes(), name.as_bytes(), now, age);
        assert_eq!(found(set, 0), at(*offset, expected), "{name}");
        if expected.lm != hash(listed[LM_FIELD]) {
            assert_eq!(listed[LM_FIELD], XS, "{name}");
            dropped.push(name.to_string());
        }
        // The time, by when the account expires; where it never does, as it stands there.
        let expires = Record {
            expired: set > 0 && !flags.contains('X'),
            ..expected
        };
        assert_eq!(found(set + 1, 0), at(*offset, expires), "{name}");
        assert_eq!(found(set + 100, 99), at(*offset, expires), "{name}");
        assert_eq!(found(set + 100, 100), at(*offset, expected), "{name}");
        assert_eq!(fields[LCT].to_uppercase(), format!("LCT-{set:08X}"));
    }
    dropped
}

/// Each account reads as `pdbedit` says, with one difference. Samba with `lanman auth = no` drops
/// an LM hash where it reads one, and so has none for three accounts of `byhand`; by the request
/// the hash that stands in the file is the account's.
#[test]
fn samba_says_the_same() {
    assert!(same_as_pdbedit("bench").is_empty());
    assert!(same_as_pdbedit("old").is_empty());
    assert_eq!(same_as_pdbedit("byhand"), ["ada", "bob", "carl"]);
    let file = samba("byhand.smbpasswd");
    for (name, expected) in [("ada", NT), ("bob", LM), ("carl", LM)] {
        let Found::Account { record, .. } = seek(&file, name) else {
            panic!("{name}");
        };
        assert_eq!(record.lm, Some(expected));
    }
}

/// The accounts have the passwords that the folder's page names.
#[test]
fn samba_hashed_the_passwords() {
    let passwords = [
        ("bench", "ada", "clientPass"),
        ("bench", "bob", "MyPw"),
        ("bench", "dora", "secret"),
        ("old", "ada", "MyPw"),
        ("old", "fred", "FourteenChars1"),
        ("old", "gina", "FifteenCharsLng"),
    ];
    for (file, name, password) in passwords {
        let unicode: Vec<u8> = password.encode_utf16().flat_map(u16::to_le_bytes).collect();
        let record = Record {
            nt: Some(hashes::nt_hash(&unicode).unwrap()),
            lm: None,
            disabled: name == "dora",
            expired: false,
        };
        let file = samba(&format!("{file}.smbpasswd"));
        assert_eq!(seek(&file, name), at(accounts(&file)[name].0, record));
    }
}

/// After an import into Samba's own database the lines are the same, in another order.
#[test]
fn samba_imported_the_same() {
    for name in ["bench", "old"] {
        let file = samba(&format!("{name}.smbpasswd"));
        let imported = samba(&format!("{name}.tdbsam-Lw"));
        let places = accounts(&imported);
        for (name, (offset, fields)) in accounts(&file) {
            let (place, imported_fields) = &places[name];
            assert_eq!(*imported_fields, fields);
            let Found::Account { record, .. } = seek(&file, name) else {
                panic!("{name}");
            };
            assert_eq!(seek(&file, name), at(offset, record));
            assert_eq!(seek(&imported, name), at(*place, record));
        }
    }
}

/// Samba's own change of bob's password writes what ours writes. Ada's line differs in its LM
/// field, for another reason.
#[test]
fn samba_writes_the_same() {
    let mut file = samba("byhand.smbpasswd").into_bytes();
    let after = samba("byhand.after-change-of-bob");
    let new: [u8; 16] = hash("702FEBCE470F2A576B8BE9956509DA42").unwrap();
    let written = write_back(&mut file, b"bob", Some(&new), None, 0x6AFA_674E);
    assert_eq!(written, Written::At(115));
    let file = String::from_utf8(file).unwrap();
    let ada = file.lines().nth(1).unwrap();
    let without_lm = ada.replacen("FC156AF7EDCD6C0EDDE3337D427F4EAC", XS, 1);
    assert_eq!(file.replace(ada, &without_lm), after);
    assert_ne!(ada, without_lm);
    let record = Record {
        nt: Some(new),
        lm: None,
        ..BOB
    };
    assert_eq!(seek(&after, "bob"), at(115, record));
}

/// What acctsum prints of Samba's files; 1794795341 is the time of most of their lines.
#[test]
fn samba_counted() {
    let count = |times: &str, name| counts(format!("{times}\n{}", samba(name)));
    assert_eq!(count("1794795341 0", "bench.smbpasswd"), [5, 0, 1, 0, 0]);
    assert_eq!(count("1794795342 0", "bench.smbpasswd"), [5, 0, 1, 5, 0]);
    assert_eq!(count("1794795342 1", "bench.smbpasswd"), [5, 0, 1, 0, 0]);
    // hugo has the flag X
    assert_eq!(count("1794795342 0", "old.smbpasswd"), [10, 0, 0, 9, 0]);
    // ada's time is zero, carl has X; carl and dora have no NT hash
    assert_eq!(count("1794795342 0", "byhand.smbpasswd"), [4, 0, 0, 2, 2]);
    let after = "byhand.after-change-of-bob";
    assert_eq!(count("1794795342 0", after), [4, 0, 0, 1, 2]);
}

/// The kinds of answer that random cases drew, and how often.
#[derive(Default)]
struct Seen(BTreeMap<&'static str, usize>);

impl Seen {
    fn note(&mut self, kind: &'static str) {
        *self.0.entry(kind).or_default() += 1;
    }

    fn expect(&self, kinds: &[&str], least: usize) {
        for kind in kinds {
            let count = self.0.get(kind).copied().unwrap_or(0);
            assert!(count >= least, "{kind}: {count} of {:?}", self.0);
        }
    }
}

/// A line that was drawn, and what it is to say.
struct Drawn {
    name: String,
    text: String,
    record: Record,
    lct: u32,
    never: bool,
}

fn drawn(random: &mut Random, number: usize) -> Drawn {
    let field = |hash: Option<[u8; 16]>, lower: bool| match hash {
        Some(octets) if lower => format!("{:032x}", u128::from_be_bytes(octets)),
        Some(octets) => format!("{:032X}", u128::from_be_bytes(octets)),
        None if lower => "NO PASSWORD as we have none of it"
            .chars()
            .take(32)
            .collect(),
        None => XS.to_string(),
    };
    let (nt, lm) = (samples::hash_or_none(random), samples::hash_or_none(random));
    let (disabled, never) = (random.chance(30), random.chance(30));
    let lct = samples::time(random);
    let flags = [
        if disabled { 'D' } else { 'U' },
        if never { 'X' } else { 'L' },
    ];
    let name = format!("n{number}");
    let text = format!(
        "{name}:{}:{}:{}:[{:>11}]:LCT-{lct:08X}:",
        random.number() as u32,
        field(lm, random.chance(50)),
        field(nt, random.chance(50)),
        String::from_iter(flags)
    );
    let record = Record {
        nt,
        lm,
        disabled,
        expired: false,
    };
    Drawn {
        name,
        text,
        record,
        lct,
        never,
    }
}

/// Files made of what they are to say, which the reader and the counts then say.
#[test]
fn what_is_put_in_is_read() {
    let mut seen = Seen::default();
    for seed in 0..2000 {
        let mut random = Random::new(seed);
        let count = random.below(12);
        let lines: Vec<Drawn> = (0..count).map(|n| drawn(&mut random, n)).collect();
        let texts: Vec<&str> = lines.iter().map(|line| line.text.as_str()).collect();
        let file = texts.join("\n");
        let (now, max_age) = samples::times(&mut random);
        let mut expected = [count, 0, 0, 0, 0];
        let mut offset = 0;
        for line in &lines {
            let age = i64::from(now) - i64::from(line.lct);
            let counts_age = !line.never && line.lct != 0 && age >= 0;
            let record = Record {
                expired: counts_age && age > i64::from(max_age),
                ..line.record
            };
            if counts_age {
                match age - i64::from(max_age) {
                    0 => seen.note("just the maximum age"),
                    1 => seen.note("a second more"),
                    _ => seen.note("another age"),
                }
            }
            let found = find(file.as_bytes(), line.name.as_bytes(), now, max_age);
            assert_eq!(found, at(offset, record), "{seed}");
            offset += line.text.len() + 1;
            expected[2] += usize::from(record.disabled);
            expected[3] += usize::from(record.expired);
            expected[4] += usize::from(record.nt.is_none());
        }
        assert_eq!(counts(format!("{now} {max_age}\n{file}")), expected);
    }
    seen.expect(
        &["just the maximum age", "a second more", "another age"],
        100,
    );
}

/// The parts of a file that a write to the line at this offset leaves: all before the LM hash, what
/// is between the NT hash and the digits of LCT, and all behind these.
fn left(file: &[u8], offset: usize) -> [&[u8]; 3] {
    let colon = |octet: &u8| *octet == b':';
    let fields: Vec<&[u8]> = file[offset..].split(colon).take(2).collect();
    let hashes = offset + fields[0].len() + 1 + fields[1].len() + 1;
    let digits = hashes + 33 + 33 + 14 + 4;
    [
        &file[..hashes],
        &file[hashes + 65..digits],
        &file[digits + 8..],
    ]
}

fn written(file: &mut [u8], name: &[u8], record: &Record, now: u32) -> Written {
    write_back(file, name, record.nt.as_ref(), record.lm.as_ref(), now)
}

/// After the write the name reads back, all else is as it was, and writing again changes nothing.
fn written_line(random: &mut Random, file: &[u8], name: &[u8], offset: usize, before: Record) {
    let now = samples::time(random);
    let record = Record {
        nt: samples::hash_or_none(random),
        lm: samples::hash_or_none(random),
        disabled: before.disabled,
        expired: false,
    };
    let mut after = file.to_vec();
    assert_eq!(written(&mut after, name, &record, now), Written::At(offset));
    assert_eq!(find(&after, name, now, 0), at(offset, record));
    assert_eq!(after.len(), file.len());
    assert_eq!(left(&after, offset), left(file, offset));
    for _ in 0..10 {
        let other = samples::sought(file, random);
        let (time, age) = samples::times(random);
        if other != name {
            assert_eq!(
                find(&after, &other, time, age),
                find(file, &other, time, age)
            );
        }
    }
    let mut again = after.clone();
    assert_eq!(written(&mut again, name, &record, now), Written::At(offset));
    assert_eq!(again, after);
}

/// A refusal and none leave the file as it is, and the write says what the reader says.
fn nothing_written(file: &[u8], name: &[u8], expected: Written) {
    let mut after = file.to_vec();
    assert_eq!(written(&mut after, name, &BOB, 5), expected);
    assert_eq!(after, file);
}

#[test]
fn random_files() {
    let mut seen = Seen::default();
    for seed in 0..6000 {
        let random = &mut Random::new(seed);
        let good = samples::random_file(random);
        let is_good = random.chance(50);
        let file = match is_good {
            true => good,
            false => samples::damaged(&good, random),
        };
        let name = samples::sought(&file, random);
        let (now, age) = samples::times(random);
        let found = find(&file, &name, now, age);
        match found {
            Found::Account { offset, record } => {
                seen.note("account");
                written_line(random, &file, &name, offset, record);
            }
            Found::Nobody => {
                seen.note("nobody");
                nothing_written(&file, &name, Written::Nobody);
            }
            Found::BadLine { offset } => {
                seen.note("bad line");
                assert!(!is_good, "{seed}");
                nothing_written(&file, &name, Written::BadLine { offset });
                // Up to there the file is good, and from there it is not.
                assert_eq!(bad_lines(&file[..offset]), 0);
                assert!(offset == 0 || file[offset - 1] == b'\n');
                let line = file[offset..].split(|&octet| octet == b'\n').next();
                bad(line.filter(|line| !line.is_empty()).unwrap_or(b"\n"), 0);
            }
            Found::Twice { offset } => {
                seen.note("twice");
                nothing_written(&file, &name, Written::Twice { offset });
                let front = [&name, b":".as_slice()].concat();
                assert!(file[offset..].starts_with(&front));
                // Before the second of the lines the name stands on one.
                let second = file[offset..].iter().position(|&octet| octet == b'\n');
                let first = &file[..offset + second.unwrap()];
                assert!(matches!(seek(first, &name), Found::Account { .. }));
            }
        }
        if !is_good && !matches!(found, Found::BadLine { .. }) {
            seen.note("good though damaged");
        }
        let input = [format!("{now} {age}\n").as_bytes(), &file].concat();
        if let Some(counts) = summary(&input) {
            assert_eq!(counts.bad > 0, matches!(found, Found::BadLine { .. }));
        }
    }
    seen.expect(&["account", "nobody", "bad line"], 500);
    seen.expect(&["twice", "good though damaged"], 100);
}

/// The inputs that the program `reference samples` prints draw refusals and every count.
#[test]
fn random_inputs() {
    let mut seen = Seen::default();
    for seed in 0..2000 {
        let input = samples::input(&mut Random::new(seed));
        match input.len() {
            65_536 => seen.note("just 64 KiB"),
            65_537 => seen.note("an octet more"),
            _ => {}
        }
        let Some(counts) = summary(&input) else {
            seen.note("refused");
            continue;
        };
        let kinds = [
            ("lines", counts.lines),
            ("bad", counts.bad),
            ("disabled", counts.disabled),
            ("expired", counts.expired),
            ("no-nt", counts.no_nt),
        ];
        for (kind, _) in kinds.iter().filter(|(_, count)| *count > 0) {
            seen.note(kind);
        }
        let printed = kinds.map(|(kind, count)| format!("{kind} {count}\n"));
        assert_eq!(acctsum(&input), printed.concat());
    }
    seen.expect(&["just 64 KiB", "an octet more"], 10);
    seen.expect(
        &["refused", "lines", "bad", "disabled", "expired", "no-nt"],
        200,
    );
}
