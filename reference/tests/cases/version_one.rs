//! Request 2026-07, the version 1 change packet: the script of the second program, `vectors_one`,
//! made and checked as the first one is.

use super::*;
use reference::random::Random;

/// The NT and the LM hash of `clientPass`, as the list of rules has them.
const C: &str = "44EBBA8D5312B8D611474411F56989AE";
const LC: &str = "76A152936096D7830E2390227404AFD2";
/// Hashes under the challenge: of `MyPw` NT and LM, then of `clientPass`. The list of rules has
/// these four; OpenSSL computes the same, and those that end in 23, under the challenge after a
/// retry.
const H_CH: &str = "9E0521F3F7EAEE3955F61E38BE9A8EF3";
const L_CH: &str = "7CB248FF779C2D88C5F1F5F735F475DB";
const C_CH: &str = "C4D8D48F2106115D3B2DC8D29A7CC3DE";
const LC_CH: &str = "802F4AE88B461FA1FB08D2106AC9B554";
const H_CH23: &str = "26DF7BCE14A2C564BCEAE05B3B9E4F87";
const C_CH23: &str = "59E3664427B1BD393CAF1F1B93EDF8FA";
const L_CH23: &str = "9F7376697FF323A488E33390DAC9E1FA";
const LC_CH23: &str = "34C6AEFFE9EBEFED8BA32E8E9C8258D4";
const Z16: &str = "00000000000000000000000000000000";
const Z16_FROM_CH: &str = "B08281F9795B94BDB08281F9795B94BD";
const CLIENT_PASS: &[u8] = b"c\0l\0i\0e\0n\0t\0P\0a\0s\0s\0";

/// The fields of a version 1 change, as digits.
#[derive(Clone, Copy)]
struct One {
    lm_old: &'static str,
    lm_new: &'static str,
    nt_old: &'static str,
    nt_new: &'static str,
    length: &'static str,
    flags: &'static str,
}

/// CR07-13: `MyPw` to `clientPass` as our peer writes it.
const OURS: One = One {
    lm_old: Z16,
    lm_new: Z16,
    nt_old: H_CH,
    nt_new: C_CH,
    length: "FFFF",
    flags: "0001",
};

/// The same with all fields filled.
const BOTH: One = One {
    lm_old: L_CH,
    lm_new: LC_CH,
    length: "000A",
    ..OURS
};

/// CR07-8: by LM alone.
const BY_LM: One = One {
    nt_old: Z16,
    nt_new: Z16,
    flags: "0000",
    ..BOTH
};

/// The same with another field.
macro_rules! with_another {
    ($($field:ident)*) => {
        impl One {
            $(fn $field(self, $field: &'static str) -> One {
                One { $field, ..self }
            })*
        }
    };
}

with_another!(lm_old lm_new nt_old nt_new length flags);

impl One {
    fn packet(&self, id: u8) -> Vec<u8> {
        let One {
            lm_old,
            lm_new,
            nt_old,
            nt_new,
            length,
            flags,
        } = self;
        bytes(&format!(
            "05{id:02X}0048{lm_old}{lm_new}{nt_old}{nt_new}{length}{flags}"
        ))
    }
}

impl Sheet {
    /// A change that is accepted, and the hashes of the record that it hands out.
    fn accepts(&mut self, packet: &[u8], nt: &str, lm: &str) {
        let answer = self.success(packet);
        assert_eq!(answer.record, format!("{nt}/{lm}/0000/0"));
    }

    /// The turn behind a Failure with this message.
    fn turns(&mut self, id: u8, message: &str, next: &str) {
        let length = 4 + message.len();
        let packet = format!("04{id:02X}{length:04X}{}", text(message));
        self.is(&format!("turn {id} {CHX} {packet}"), next);
    }
}

#[test]
fn cases_of_version_1() {
    let mut sheet = Sheet::new();
    fields(&mut sheet);
    versions_told(&mut sheet);
    awaited_codes(&mut sheet);
    accepted(&mut sheet);
    first_fault(&mut sheet);
    wrong_fields(&mut sheet);
    lengths_and_flags(&mut sheet);
    orders(&mut sheet);
    repeated_changes(&mut sheet);
    kept_records(&mut sheet);
    turns_and_writers(&mut sheet);
    exchanges_of_version_1(&mut sheet);
    handed_schedules(&mut sheet);
    drawn(&mut sheet);

    let again = reference::script::run(&sheet.text);
    assert_eq!(again.lines().count(), sheet.text.lines().count());
    assert!(again.len() < 400_000, "{}", again.len());
    let stored = concat!(
        env!("CARGO_MANIFEST_DIR"),
        "/../crates/vectors_one/data/cases.txt"
    );
    if std::env::var("WRITE_CASES").is_ok() {
        std::fs::write(stored, &sheet.text).unwrap();
    }
    assert!(
        std::fs::read_to_string(stored).unwrap() == sheet.text,
        "crates/vectors_one/data/cases.txt is not what this test makes"
    );
}

fn fields(s: &mut Sheet) {
    s.title("CR07-3: a hash under the challenge, both halves keyed by its first 7 octets");
    s.is(&format!("nthash {}", hex(P)), H);
    s.is(&format!("nthash {}", hex(CLIENT_PASS)), C);
    s.is(&format!("lmhash {}", text("MyPw")), L);
    s.is(&format!("lmhash {}", text("clientPass")), LC);
    for (hash, challenge, field) in [
        (H, CHX, H_CH),
        (C, CHX, C_CH),
        (L, CHX, L_CH),
        (LC, CHX, LC_CH),
        (H, CH23, H_CH23),
        (C, CH23, C_CH23),
        (L, CH23, L_CH23),
        (LC, CH23, LC_CH23),
        (H, "0000000000000000", "A54C2C572E8393A88C8E4405552CF067"),
        (C, "FFFFFFFFFFFFFFFF", "81CE95C37D33B7BBBE4BF89BF3209643"),
        (H, "0123456789ABCDEF", "00F1F4B4B35F2D8DEFA55D36A6D8BE82"),
        (Z16, CHX, "26D69EF1152B617726D69EF1152B6177"),
        (Z16_FROM_CH, CHX, Z16),
    ] {
        s.is(&format!("underchallenge {hash} {challenge}"), field);
        s.is(&format!("fromchallenge {field} {challenge}"), hash);
    }
    s.note("the challenge's last octet has no effect");
    for last in ["00", "40", "FF"] {
        s.is(&format!("underchallenge {H} 102DB5DF085D30{last}"), H_CH);
        s.is(&format!("fromchallenge {H_CH} 102DB5DF085D30{last}"), H);
    }
    s.note("not the keys of A.17");
    assert_ne!(s.ask(&format!("oldnew {H} {CHX}{CHX}")), H_CH);

    s.title("CR07-14: decryption undoes encryption, for weak keys and any others");
    let mut random = Random::new(7);
    let mut keys = ["00", "FF", "AA", "01", "80", "7F"]
        .map(|octet| format!("{octet}*7"))
        .to_vec();
    keys.extend(["0000000FFFFFFF", "FFFFFFF0000000", "102DB5DF085D30"].map(String::from));
    keys.extend((0..12).map(|_| hex(&random.octets(7))));
    for key in keys {
        let block = hex(&random.octets(8));
        let cipher = s.ask(&format!("des {key} {block}"));
        s.is(&format!("undes {key} {cipher}"), &block);
        let other = s.ask(&format!("undes {key} {block}"));
        s.is(&format!("des {key} {other}"), &block);
    }
    s.note("whole fields");
    for _ in 0..12 {
        let (hash, challenge) = (hex(&random.octets(16)), hex(&random.octets(8)));
        let field = s.ask(&format!("underchallenge {hash} {challenge}"));
        s.is(&format!("fromchallenge {field} {challenge}"), &hash);
        let other = s.ask(&format!("fromchallenge {hash} {challenge}"));
        s.is(&format!("underchallenge {other} {challenge}"), &hash);
    }
}

fn versions_told(s: &mut Sheet) {
    s.title("CR07-1: a box opened for version 1 writes V=1, with a wrong try too");
    s.account(H, L, "0000");
    s.change_version("1");
    s.open(7, CHX, "2", "-");
    let answer = s.failure(&resp(7, Z24, BAD, 1, b"u"), "691", 1);
    assert_eq!(answer.reply()[4..], *b"E=691 R=1 V=1");
    s.note("again, and with no retry left");
    s.repeats(
        &resp(7, Z24, BAD, 1, b"u"),
        B,
        &format!("04070011{}", text("E=691 R=1 V=1")),
        "691",
    );
    s.failure(&resp(8, Z24, BAD, 1, b"u"), "691", 1);
    let answer = s.failure(&resp(9, Z24, BAD, 1, b"u"), "691", 0);
    assert_eq!(answer.reply()[4..], *b"E=691 R=0 V=1");
    s.note("no record");
    s.is("account -", "");
    s.open(7, CHX, "0", "-");
    let answer = s.failure(&resp(7, Z24, NR, 1, b"u"), "691", 0);
    assert_eq!(answer.reply()[4..], *b"E=691 R=0 V=1");
    s.note("each other reason");
    for (marks, reason) in [
        ("1111", "647"),
        ("0111", "646"),
        ("0011", "649"),
        ("0001", "648"),
    ] {
        s.account(H, L, marks);
        s.open7();
        let answer = s.failure(&resp(7, Z24, NR, 1, b"u"), reason, 0);
        let message = format!("E={reason} R=0 V=1");
        assert_eq!(answer.reply()[4..], *message.as_bytes());
    }
    s.title("CR07-11: 709 says V=1 and R=0, and ends; no record");
    let answer = s.bad_change(&OURS.nt_old(Z16).packet(8), Fault::OldUnderChallenge);
    assert_eq!(answer.reply()[4..], *b"E=709 R=0 V=1");
    assert_eq!(answer.record, "-");
    s.refused(&OURS.packet(9), B, "1");
    s.note("Success has no message");
    s.account(H, L, "0000");
    s.open7();
    s.success(&resp(7, Z24, NR, 1, b"u"));

    s.title("a box opened for version 2, or silent about it, writes V=2 as before");
    for version in ["2", "-"] {
        s.change_version(version);
        s.account(H, L, "0001");
        s.open7();
        let answer = s.failure(&resp(7, Z24, BAD, 1, b"u"), "691", 1);
        assert_eq!(answer.reply()[4..], *b"E=691 R=1 V=2");
        let answer = s.failure(&resp(8, Z24, NR23, 1, b"u"), "648", 0);
        assert_eq!(answer.reply()[4..], *b"E=648 R=0 V=2");
    }
    s.note("the change is that of the opening, whatever is chosen afterwards");
    s.change_version("1");
    s.success(&change(
        9,
        &[0x27, 0x2D, 0xB5, 0xDF, 0x08, 0x5D, 0x30, 0x41],
        P,
        Q,
    ));
    s.expire(H, L);
    s.change_version("2");
    s.accepts(&OURS.packet(8), C, "-");
    s.note("a refused opening gives the same conversation for both");
    for version in ["1", "2", "-"] {
        s.change_version(version);
        s.places();
        s.is(
            &format!("open 7 {CHX} 8 - {B}"),
            &format!("13 0 {} {NOTHING} {}", "AA".repeat(20), unspent()),
        );
        s.refused(&OURS.packet(8), B, "1");
    }
}

fn awaited_codes(s: &mut Sheet) {
    s.title("CR07-2: code 5 after 648, and no other");
    s.change_version("1");
    s.expire(H, L);
    s.refused(&change(8, &CH, P, Q), B, "4");
    for code in [0, 1, 2, 3, 4, 6, 7, 255] {
        s.refused(&with(&OURS.packet(8), &[(0, &[code])]), B, "4");
    }
    s.accepts(&OURS.packet(8), C, "-");
    s.note("not before it");
    s.open7();
    s.refused(&OURS.packet(7), B, "4");
    s.refused(&change(7, &CH, P, Q), B, "4");
    s.note("a box opened for version 2 refuses code 5, and awaits code 6");
    for version in ["2", "-"] {
        s.change_version(version);
        s.expire(H, L);
        s.refused(&OURS.packet(8), B, "4");
        let answer = s.success(&change(8, &CH, P, Q));
        assert_eq!(answer.record, format!("{HQ}/-/0000/0"));
    }
}

fn accepted(s: &mut Sheet) {
    s.title("CR07-4, -6, -10: the packet of CR07-13, with R0x kept: accepted, expired cleared");
    s.change_version("1");
    s.expire(H, "-");
    s.accepts(&OURS.packet(8), C, "-");
    s.note("with an LM hash kept too, which is not asked for and does not stay");
    s.expire(H, L);
    s.accepts(&OURS.packet(8), C, "-");
    s.note("after a retry, under the challenge in force");
    s.account(H, "-", "0001");
    s.open7();
    s.failure(&resp(7, Z24, BAD, 1, b"u"), "691", 1);
    s.failure(&resp(8, Z24, NR23, 1, b"u"), "648", 0);
    let one = OURS
        .nt_old(H_CH23)
        .nt_new(C_CH23)
        .lm_new(LC_CH23)
        .length("000E");
    s.accepts(&one.packet(9), C, LC);
    s.note("the count is 0 afterwards");
    s.counted(H, "-", "0001", 254);
    s.open7();
    s.failure(&resp(7, Z24, NR, 1, b"u"), "648", 0);
    s.accepts(&OURS.packet(8), C, "-");

    s.title("CR07-7: the new LM hash where the length is at most 14, else none");
    for (length, lm) in [
        ("000E", LC),
        ("000F", "-"),
        ("0000", LC),
        ("000D", LC),
        ("0010", "-"),
        ("0100", "-"),
        ("010A", "-"),
        ("8000", "-"),
        ("FF0E", "-"),
        ("FFFF", "-"),
    ] {
        s.expire(H, "-");
        s.accepts(&BOTH.length(length).packet(8), C, lm);
    }
    s.note("whether the record had one or not, LM allowed or not, whatever the old LM field says");
    for (kept, choice) in [("-", "no"), ("-", "yes"), (L, "-"), (L, "yes")] {
        for lm_old in [L_CH, Z16] {
            s.expire_with(H, kept, choice);
            s.accepts(&BOTH.lm_old(lm_old).packet(8), C, LC);
        }
    }
    s.note("a field of zeros is decrypted as any other");
    s.expire(H, "-");
    let zeros = OURS.length("0000").nt_new(Z16);
    s.accepts(&zeros.packet(8), Z16_FROM_CH, Z16_FROM_CH);

    s.title("CR07-5: the length goes most significant octet first");
    for (length, lm) in [("000E", LC), ("0E00", "-"), ("0A00", "-"), ("0001", LC)] {
        s.expire(H, L);
        s.accepts(&BOTH.length(length).packet(8), C, lm);
    }
    s.expire_with(H, L, "yes");
    s.bad_change(&BY_LM.length("0E00").packet(8), Fault::OverFourteen);
    s.expire_with(H, L, "yes");
    s.accepts(&BY_LM.length("000E").packet(8), "-", LC);

    s.title("CR07-8: bit 0 clear: the new LM hash, and no NT hash");
    s.expire("-", L);
    s.accepts(&BY_LM.packet(8), "-", LC);
    s.note("the NT hash is not kept, whatever the NT fields say");
    s.expire_with(H, L, "yes");
    s.accepts(&BY_LM.packet(8), "-", LC);
    s.expire_with(H, L, "yes");
    s.accepts(&BOTH.flags("0000").packet(8), "-", LC);
    s.note("each length at most 14");
    for length in ["0000", "0001", "000D", "000E"] {
        s.expire("-", L);
        s.accepts(&BY_LM.length(length).packet(8), "-", LC);
    }
    s.note("after a retry");
    s.account("-", L, "0001");
    s.open7_lm();
    s.failure(&resp(7, Z24, NR, 0, b"u"), "691", 1);
    s.failure(&resp(8, LR23, Z24, 0, b"u"), "648", 0);
    let one = BY_LM.lm_old(L_CH23).lm_new(LC_CH23);
    s.accepts(&one.packet(9), "-", LC);
}

/// What is wrong with a change, as the rule names it, from what holds of it.
fn first_of(bit_0: bool, allowed: bool, over: bool, absent: bool, wrong: bool) -> Option<Fault> {
    let list = [
        (!bit_0 && !allowed, Fault::LmNotAllowed),
        (!bit_0 && over, Fault::OverFourteen),
        (absent, Fault::HashAbsent),
        (wrong, Fault::OldUnderChallenge),
    ];
    list.iter()
        .find(|(holds, _)| *holds)
        .map(|(_, fault)| *fault)
}

fn first_fault(s: &mut Sheet) {
    s.title("CR07-9: bit 0 set, length 65535, no NT hash: hash absent");
    s.change_version("1");
    s.expire("-", L);
    s.bad_change(&OURS.packet(8), Fault::HashAbsent);
    s.note("bit 0 clear, LM not allowed, length 20, no LM hash: LM not allowed");
    s.expire(H, "-");
    let one = BY_LM.length("0014").lm_old(Z16);
    s.bad_change(&one.packet(8), Fault::LmNotAllowed);

    s.title("CR07-9: bit 0 clear, each of the four with those behind it");
    let mut drawn = [0; 11];
    for allowed in [false, true] {
        for (length, over) in [("000E", false), ("000F", true)] {
            for (lm, absent) in [(L, false), ("-", true)] {
                for (lm_old, wrong) in [(L_CH, false), (H_CH, true)] {
                    s.expire_with(H, lm, if allowed { "yes" } else { "no" });
                    let one = BY_LM.length(length).lm_old(lm_old);
                    match first_of(false, allowed, over, absent, wrong) {
                        None => s.accepts(&one.packet(8), "-", LC),
                        Some(fault) => {
                            drawn[fault as usize] += 1;
                            s.bad_change(&one.packet(8), fault);
                        }
                    }
                }
            }
        }
    }
    assert_eq!(drawn[7..], [8, 4, 2, 1]);
    s.note("silent about LM: not allowed");
    s.expire_with(H, L, "-");
    s.bad_change(&BY_LM.packet(8), Fault::LmNotAllowed);

    s.title("CR07-9: bit 0 set, LM not allowed and over 14 are no faults");
    for allowed in [false, true] {
        for (length, lm) in [("000E", LC), ("000F", "-")] {
            for (nt_old, wrong) in [(H_CH, false), (L_CH, true)] {
                let one = BOTH.length(length).nt_old(nt_old);
                s.expire_with(H, L, if allowed { "yes" } else { "no" });
                match wrong {
                    true => drop(s.bad_change(&one.packet(8), Fault::OldUnderChallenge)),
                    false => s.accepts(&one.packet(8), C, lm),
                }
                if allowed {
                    s.expire("-", L);
                    s.bad_change(&one.packet(8), Fault::HashAbsent);
                }
            }
        }
    }
}

fn wrong_fields(s: &mut Sheet) {
    s.change_version("1");
    s.title("CR07-4: the fields in another order");
    for one in [
        OURS.nt_old(C_CH).nt_new(H_CH),
        BOTH.lm_old(H_CH).lm_new(C_CH).nt_old(L_CH).nt_new(LC_CH),
        BOTH.lm_new(H_CH).nt_old(L_CH),
    ] {
        s.expire(H, L);
        s.bad_change(&one.packet(8), Fault::OldUnderChallenge);
    }
    for one in [
        BY_LM.lm_old(LC_CH).lm_new(L_CH),
        BOTH.lm_old(H_CH)
            .lm_new(C_CH)
            .nt_old(L_CH)
            .nt_new(LC_CH)
            .flags("0000"),
    ] {
        s.expire("-", L);
        s.bad_change(&one.packet(8), Fault::OldUnderChallenge);
    }
    s.note("flags before the length, so that the flags are 000A");
    s.expire(H, L);
    s.refused(&BOTH.length("0001").flags("000A").packet(8), B, "7");

    s.title("CR07-3, -6: the old hash as other handsets might make it");
    let a17 = s.ask(&format!("oldnew {H} {CHX}{CHX}"));
    let shifted = s.ask(&format!("underchallenge {H} 2DB5DF085D304100"));
    let decrypted = s.ask(&format!("fromchallenge {H} {CHX}"));
    let mixed = format!("{}{}", &H_CH[..16], &shifted[16..]);
    let response = &NR[..32];
    for field in [H, &a17, &shifted, &decrypted, &mixed, H_CH23, response] {
        s.expire(H, L);
        let packet = with(&OURS.packet(8), &[(36, &bytes(field))]);
        s.bad_change(&packet, Fault::OldUnderChallenge);
    }
    s.note("under the first challenge after a retry");
    s.account(H, "-", "0001");
    s.open7();
    s.failure(&resp(7, Z24, BAD, 1, b"u"), "691", 1);
    s.failure(&resp(8, Z24, NR23, 1, b"u"), "648", 0);
    s.bad_change(&OURS.packet(9), Fault::OldUnderChallenge);

    s.title("CR07-6, -8: one bit of the old hash changed");
    for place in [36, 43, 44, 51] {
        let octet = OURS.packet(8)[place] ^ (1 << (place % 8));
        s.expire(H, L);
        let packet = with(&OURS.packet(8), &[(place, &[octet])]);
        s.bad_change(&packet, Fault::OldUnderChallenge);
    }
    for place in [4, 11, 12, 19] {
        let octet = BY_LM.packet(8)[place] ^ 0x80;
        s.expire("-", L);
        let packet = with(&BY_LM.packet(8), &[(place, &[octet])]);
        s.bad_change(&packet, Fault::OldUnderChallenge);
    }
    s.note("the fields that are not used may hold anything");
    for (one, nt, lm, places) in [
        (OURS, C, "-", [4, 19, 20, 35]),
        (BY_LM, "-", LC, [36, 51, 52, 67]),
    ] {
        for place in places {
            match nt {
                "-" => s.expire("-", L),
                _ => s.expire(H, L),
            }
            s.accepts(&with(&one.packet(8), &[(place, &[0x5A])]), nt, lm);
        }
    }
}

fn lengths_and_flags(s: &mut Sheet) {
    s.change_version("1");
    s.title("CR07-16: Length 71: 6, and any other than 72");
    s.expire(H, L);
    let mut long = OURS.packet(8);
    long.resize(80, 0);
    for length in [4u16, 5, 55, 71, 73, 76, 80] {
        s.refused(&with(&long, &[(2, &length.to_be_bytes())]), B, "6");
    }
    s.note("over what was passed: 3; cut short with the Length of what is left: 6");
    s.refused(&OURS.packet(8)[..71], B, "3");
    s.refused(&with(&OURS.packet(8)[..71], &[(3, &[71])]), B, "6");
    s.note("octets behind Length are padding");
    s.accepts(&long, C, "-");
    for padding in [1, 2, 9] {
        s.expire(H, L);
        let packet = [OURS.packet(8), vec![0xFF; padding]].concat();
        s.accepts(&packet, C, "-");
    }

    s.title("CR07-16: flags 0002, 0003 and 0101: 7, and any of bits 1 to 15");
    s.expire(H, L);
    for flags in ["0002", "0003", "0101"] {
        s.refused(&OURS.flags(flags).packet(8), B, "7");
    }
    for bit in 1..16 {
        for low in [0u16, 1] {
            let flags = (1u16 << bit) | low;
            s.refused(
                &with(&OURS.packet(8), &[(70, &flags.to_be_bytes())]),
                B,
                "7",
            );
        }
    }
    s.refused(&OURS.flags("FFFF").packet(8), B, "7");
    s.refused(&OURS.flags("FFFE").packet(8), B, "7");
    s.note("least significant octet first would be 0100");
    s.refused(&OURS.flags("0100").packet(8), B, "7");
    s.accepts(&OURS.packet(8), C, "-");
}

fn orders(s: &mut Sheet) {
    s.title("2 to 7 with a version 1 change, each before those behind it");
    s.change_version("1");
    s.expire(H, L);
    let five = with(&OURS.packet(9), &[(3, &[71]), (70, &[0xFF, 0xFF])]);
    let wrong = with(&five, &[(0, &[6])]);
    s.refused(&wrong[..3], "AA*16", "2");
    s.refused(&with(&wrong, &[(2, &[9])]), B, "3");
    s.refused(&wrong, B, "4");
    s.refused(&five, B, "5");
    s.refused(&with(&five, &[(1, &[8])]), B, "6");
    s.refused(&with(&five, &[(1, &[8]), (3, &[72])]), B, "7");
    s.note("identifiers: only the awaited one");
    for id in [0, 6, 7, 9, 255] {
        s.refused(&OURS.packet(id), B, "5");
    }
    s.note("a buffer of 17 octets is enough, one of 16 not");
    s.refused(&OURS.packet(8), "AA*16", "2");
    s.refused(&OURS.packet(8), "-", "2");
    let answer = s.step(&OURS.nt_old(Z16).packet(8), "AA*17");
    assert_eq!((answer.written, answer.fault.as_str()), (17, "10"));
    s.note("ended: 1 before 4, behind 2 and 3");
    s.refused(&OURS.packet(9), "AA*16", "2");
    s.refused(&OURS.packet(9)[..71], B, "3");
    s.refused(&OURS.packet(9), B, "1");
    s.refused(&change(8, &CH, P, Q), B, "1");

    s.title("an opening's refusals are the same for either version");
    for version in ["1", "2", "-"] {
        s.change_version(version);
        let refused = |refusal: u8, room: usize| {
            let buffer = hex(&vec![0xAA; room]);
            format!("{refusal} 0 {buffer} {NOTHING} {}", unspent())
        };
        s.places();
        s.limit(0);
        s.is(&format!("open 7 {CHX} 8 - AA*16"), &refused(18, 16));
        s.limit(255);
        s.is(&format!("open 7 {CHX} 8 - AA*16"), &refused(13, 16));
        s.is(&format!("open 7 {CHX} 7 - AA*16"), &refused(2, 16));
    }
    s.note("the same challenge is spent whatever the change");
    s.change_version("1");
    s.open7();
    s.change_version("2");
    s.begins(&format!("open 7 {CHX} 0 - {B}"), "16 0 ");
}

fn repeated_changes(s: &mut Sheet) {
    s.change_version("1");
    s.title("2026-01 with code 5: an accepted change again draws Success, with no record");
    s.expire(H, L);
    s.accepts(&OURS.packet(8), C, "-");
    for _ in 0..2 {
        s.repeats(&OURS.packet(8), B, "03080004", "0");
    }
    s.note("whatever else is in the packet; code and identifier decide");
    s.repeats(&bytes("05080004"), B, "03080004", "0");
    s.repeats(
        &OURS.nt_old(Z16).flags("FFFF").packet(8),
        "AA*17",
        "03080004",
        "0",
    );
    s.refused(&change(8, &CH, P, Q), B, "1");
    s.refused(&OURS.packet(7), B, "1");
    s.refused(&OURS.packet(8), "AA*16", "2");
    s.refused(&bytes("05080003"), B, "3");
    s.title("2026-01 with code 5: a change that drew 709 again draws 709, and no fault");
    s.expire(H, L);
    let wrong = OURS.nt_old(Z16);
    s.bad_change(&wrong.packet(8), Fault::OldUnderChallenge);
    let e709 = format!("04080011{}", text("E=709 R=0 V=1"));
    s.repeats(&wrong.packet(8), B, &e709, "709");
    s.note("the right one now too: it is not judged");
    s.repeats(&OURS.packet(8), B, &e709, "709");
    s.title("2026-01: the Response again while the change is awaited: 648 with V=1");
    s.expire(H, L);
    let e648 = format!("04070011{}", text("E=648 R=0 V=1"));
    s.repeats(&resp(7, Z24, NR, 1, b"u"), B, &e648, "648");
    s.note("code 5 under the identifier of the Response is no repeat");
    s.refused(&OURS.packet(7), B, "5");
    s.accepts(&OURS.packet(8), C, "-");
    s.title("identifier 255, then 0");
    s.account(H, L, "0001");
    s.open(255, CHX, "-", "-");
    s.failure(&resp(255, Z24, NR, 1, b"u"), "648", 0);
    s.refused(&OURS.packet(255), B, "5");
    s.accepts(&OURS.packet(0), C, "-");
    s.repeats(&OURS.packet(0), B, "03000004", "0");
}

fn kept_records(s: &mut Sheet) {
    s.change_version("1");
    s.title("the kept record decides, whatever record is passed with the change");
    for (nt, lm, marks) in [(C, "-", "0000"), ("-", "-", "1111"), ("-", L, "0001")] {
        s.expire(H, L);
        s.account(nt, lm, marks);
        s.accepts(&OURS.packet(8), C, "-");
    }
    s.expire(H, L);
    s.is("account -", "");
    s.accepts(&OURS.packet(8), C, "-");
    s.note("no NT hash in it: absent, though the record passed has one");
    s.expire("-", L);
    s.account(H, L, "0001");
    s.bad_change(&OURS.packet(8), Fault::HashAbsent);
    s.note("no LM hash in it");
    s.expire_with(H, "-", "yes");
    s.account(H, L, "0001");
    s.bad_change(&BY_LM.packet(8), Fault::HashAbsent);
    s.note("another hash in it");
    s.expire(H, L);
    s.account(C, "-", "0001");
    s.bad_change(
        &OURS.nt_old(C_CH).nt_new(H_CH).packet(8),
        Fault::OldUnderChallenge,
    );
    s.note("the octets of the hash, not the round keys that came with it");
    s.keyed([C, L, "0001"], 0, H, "-");
    s.open7();
    s.failure(&resp(7, Z24, NR, 1, b"u"), "648", 0);
    s.bad_change(&OURS.packet(8), Fault::OldUnderChallenge);
    s.open7();
    s.failure(&resp(7, Z24, NR, 1, b"u"), "648", 0);
    s.accepts(&OURS.nt_old(C_CH).nt_new(H_CH).packet(8), H, "-");
}

fn turns_and_writers(s: &mut Sheet) {
    s.title("CR07-12: 648 with V below 2, or missing, calls for a version 1 change");
    let next = format!("8 {CHX}");
    for message in [
        "E=648 R=0",
        "E=648 R=0 V=1",
        "E=648 R=0 V=0",
        "E=648",
        "E=648 R=1 V=1",
        "V=1 E=648",
        "E=648 V=0000000001",
        "E=648 V=x",
        "E=648 V=12345678901",
    ] {
        let v = if message.contains("V=0") && !message.contains("01") {
            0
        } else {
            1
        };
        let r = u8::from(message.contains("R=1"));
        let fields = format!("648 {r} - {v} change1");
        s.is(&format!("failure {}", text(message)), &fields);
        s.turns(7, message, &next);
    }
    s.note("the last response's challenge, whatever C says");
    s.turns(7, "E=648 R=0 C=0123456789ABCDEF V=1", &next);
    s.turns(7, "E=648 C=0123456789ABCDEF", &next);
    s.note("identifier 255, then 0");
    s.turns(255, "E=648 V=1", &format!("0 {CHX}"));
    s.note("V of 2 and more has the same next turn, for the other change; 709 has none");
    s.turns(7, "E=648 R=0 V=2", &next);
    s.turns(7, "E=648 R=0 V=3", &next);
    s.turns(7, "E=709 R=0 V=1", &format!("7 {CHX}"));
    s.turns(7, "E=691 R=0 V=1", &format!("7 {CHX}"));
    s.turns(7, "E=691 R=1 V=1", &format!("8 {CH23}"));

    s.title("CR07-13: MyPw to clientPass, CH, identifier 9");
    let (old, new) = (hex(P), hex(CLIENT_PASS));
    let whole = format!("05090048{}{H_CH}{C_CH}FFFF0001", "00".repeat(32));
    s.is(
        &format!("writechange1 9 {CHX} {old} {new} AA*72"),
        &format!("0 72 {whole}"),
    );
    assert_eq!(hex(&OURS.packet(9)), whole);
    s.note("octets behind the packet stay");
    s.is(
        &format!("writechange1 9 {CHX} {old} {new} AA*75"),
        &format!("0 72 {whole}{AA3}"),
    );
    s.note("another challenge and identifier; the challenge's last octet is not used");
    s.is(
        &format!("writechange1 0 {CH23} {old} {new} AA*72"),
        &format!("0 72 05000048{}{H_CH23}{C_CH23}FFFF0001", "00".repeat(32)),
    );
    s.is(
        &format!("writechange1 9 102DB5DF085D30FF {old} {new} AA*72"),
        &format!("0 72 {whole}"),
    );
    s.note("the same password twice, empty ones and the longest");
    s.is(
        &format!("writechange1 9 {CHX} {old} {old} AA*72"),
        &format!("0 72 05090048{}{H_CH}{H_CH}FFFF0001", "00".repeat(32)),
    );
    for (old, new) in [("-", "-"), ("61*512", "-"), ("-", "61*512")] {
        s.begins(
            &format!("writechange1 9 {CHX} {old} {new} AA*72"),
            "0 72 05090048",
        );
    }

    s.title("CR07-17: 8 for either password, then 9 under 72 octets of room; nothing is written");
    for (old, new, room, refusal) in [
        ("61*3", "-", 72, 8),
        ("-", "61*3", 72, 8),
        ("61*514", "-", 72, 8),
        ("-", "61*514", 72, 8),
        ("61*513", "61*513", 72, 8),
        ("61", "-", 71, 8),
        ("-", "61", 0, 8),
        ("-", "-", 71, 9),
        ("61*512", "61*512", 71, 9),
        ("-", "-", 0, 9),
        ("-", "-", 17, 9),
    ] {
        let buffer = hex(&vec![0xAA; room]);
        s.is(
            &format!("writechange1 9 {CHX} {old} {new} AA*{room}"),
            &format!("{refusal} 0 {buffer}"),
        );
    }
}

fn exchanges_of_version_1(s: &mut Sheet) {
    let retry = "failure 691 1 - 1 retry";
    let renew = "failure 648 0 - 1 change1";
    s.change_version("1");
    s.title("CR07-15: box and peer, a version 1 change, and the new password in a later call");
    s.account(H, L, "0001");
    let mut peer = Peer::meet(s, 7, "-");
    peer.respond(s, P, renew);
    assert_eq!(peer.turn, format!("8 {CHX}"));
    let answer = peer.change_1(s, P, CLIENT_PASS, "success");
    assert_eq!(hex(&peer.sent), hex(&OURS.packet(8)));
    assert_eq!(answer.record, format!("{C}/-/0000/0"));
    s.is("relend", "");
    peer.again(s, "success");
    let mut peer = Peer::meet(s, 7, "-");
    peer.respond(s, CLIENT_PASS, "success");
    s.is("relend", "");
    let mut peer = Peer::meet(s, 7, "0");
    peer.respond(s, P, "failure 691 0 - 1 end");
    s.note("a box opened for version 2 takes the record as well");
    s.change_version("2");
    s.account(C, "-", "0000");
    let mut peer = Peer::meet(s, 7, "-");
    peer.respond(s, CLIENT_PASS, "success");

    s.title("CR07-15: with tries before it");
    s.change_version("1");
    for k in [0u8, 1, 2, 7] {
        s.account(H, L, "0001");
        let mut peer = Peer::meet(s, 250, "7");
        let judged = s.judged;
        for _ in 0..k {
            peer.respond(s, BADPW, retry);
        }
        s.refused(&bytes("010203"), B, "3");
        peer.respond(s, P, renew);
        peer.again(s, renew);
        let new = vec![0x41 + k; 2 * usize::from(k)];
        let answer = peer.change_1(s, P, &new, "success");
        assert_eq!(s.judged - judged, usize::from(k) + 2);
        let hash = hex(&hashes::nt_hash(&new).unwrap());
        assert_eq!(answer.record, format!("{hash}/-/0000/0"));
        s.is("relend", "");
        let mut peer = Peer::meet(s, 9, "0");
        peer.respond(s, &new, "success");
    }
    s.note("a change with the wrong old password: 709, and nothing is passed on");
    s.account(H, L, "0001");
    let mut peer = Peer::meet(s, 7, "-");
    peer.respond(s, P, renew);
    let answer = peer.change_1(s, BADPW, Q, "failure 709 0 - 1 end");
    assert_eq!((answer.fault.as_str(), answer.record.as_str()), ("10", "-"));

    s.title("CR07-7, -8: what the new hashes let in later");
    s.expire(H, "-");
    s.accepts(&BOTH.packet(8), C, LC);
    s.is("relend", "");
    s.note("by NT, and by LM where it is allowed");
    let by_nt = s.ask(&format!("response {C} {CHX}"));
    let by_lm = s.ask(&format!("response {LC} {CHX}"));
    s.open7();
    s.success(&resp(7, Z24, &by_nt, 1, b"u"));
    s.open7_lm();
    s.success(&resp(7, &by_lm, Z24, 0, b"u"));
    s.open7();
    s.failure(&resp(7, &by_lm, Z24, 0, b"u"), "691", 1);
    s.note("by LM alone after a change by LM");
    s.expire_with(H, L, "yes");
    s.accepts(&BY_LM.packet(8), "-", LC);
    s.is("relend", "");
    s.open7_lm();
    s.success(&resp(7, &by_lm, Z24, 1, b"u"));
    s.open7_lm();
    s.failure(&resp(7, Z24, &by_nt, 1, b"u"), "691", 1);
    s.open7();
    s.failure(&resp(7, &by_lm, &by_nt, 1, b"u"), "691", 1);
}

fn handed_schedules(s: &mut Sheet) {
    s.change_version("1");
    s.title("2026-10 with code 5: the record handed out has the round keys of its new hashes");
    let (nt, lm) = (keys_of(C), keys_of(LC));
    s.expire(H, L);
    s.accepts(&OURS.packet(8), C, "-");
    s.schedules(&nt, "-");
    s.expire(H, "-");
    s.accepts(&BOTH.packet(8), C, LC);
    s.schedules(&nt, &lm);
    s.expire("-", L);
    s.accepts(&BY_LM.packet(8), "-", LC);
    s.schedules("-", &lm);
    s.note("whatever round keys came with the record that was kept");
    s.keyed([C, L, "0001"], 0, H, H);
    s.open7();
    s.failure(&resp(7, Z24, NR, 1, b"u"), "648", 0);
    s.accepts(&OURS.nt_old(C_CH).nt_new(C_CH).packet(8), C, "-");
    s.schedules(&nt, "-");
    s.note("none after a repeat, and none after 709");
    s.repeats(&OURS.packet(8), B, "03080004", "0");
    s.no_schedules();
    s.expire(H, L);
    s.bad_change(&OURS.nt_old(Z16).packet(8), Fault::OldUnderChallenge);
    s.no_schedules();
}

/// A conversation drawn from a seed, up to its change and a step behind it. What each draws is told
/// here by the rules, from what was drawn.
fn drawn(s: &mut Sheet) {
    const CONVERSATIONS: u64 = 120;
    let mut seen = Seen::default();
    for seed in 0..CONVERSATIONS {
        draw_one(s, seed, &mut seen);
    }
    // Each refusal and each fault was drawn, and each kind of acceptance.
    for (number, count) in seen.refusals.iter().enumerate() {
        assert!(number == 1 || *count > 4, "{number}: {:?}", seen.refusals);
    }
    for (number, count) in seen.faults.iter().enumerate() {
        assert!(
            !(7..=10).contains(&number) || *count > 2,
            "{:?}",
            seen.faults
        );
    }
    assert!(seen
        .by_nt
        .iter()
        .chain([&seen.by_lm])
        .all(|count| *count > 5));
}

#[derive(Default)]
struct Seen {
    refusals: [usize; 8],
    faults: [usize; 11],
    /// Accepted with bit 0 set, without and with an LM hash.
    by_nt: [usize; 2],
    by_lm: usize,
}

/// A hash as a word of a script.
fn word(hash: Option<[u8; 16]>) -> String {
    hash.map_or("-".to_string(), |hash| hex(&hash))
}

fn draw_one(s: &mut Sheet, seed: u64, seen: &mut Seen) {
    let mut random = Random::new(seed);
    let version = match random.below(12) {
        0 => "2",
        1 => "-",
        _ => "1",
    };
    s.title(&format!("drawn, {seed}: opened for change {version}"));
    s.change_version(version);
    let (nt, lm): ([u8; 16], [u8; 16]) = (random.array(), random.array());
    let nt = random.chance(75).then_some(nt);
    let lm = (nt.is_none() || random.chance(70)).then_some(lm);
    // With no NT hash only LM leads on to the change.
    let choice = match nt {
        None => "yes",
        Some(_) => random.pick(&["yes", "yes", "no", "-"]),
    };
    let r = random.below(3) as u8;
    let id = [random.octet(), 254, 255][random.below(3)];
    let challenge: [u8; 8] = random.array();
    s.counted(&word(nt), &word(lm), "0001", random.octet() / 2);
    s.is(&format!("places {}", r + 1), "");
    let opened = format!("open {id} {} {r} {choice} AA*17", hex(&challenge));
    s.begins(&opened, "0 13 ");
    let tries = match random.chance(25) {
        true => random.below(usize::from(r) + 1),
        false => 0,
    };
    for k in 0..=tries {
        let now = *s.session.conversation();
        assert_eq!(now.id, id.wrapping_add(k as u8));
        let flag = nt.is_some() || random.chance(50);
        let hash = if nt.is_some() { nt } else { lm };
        let mut response = hashes::challenge_response(&hash.unwrap(), &now.challenge);
        if k < tries {
            response[random.below(24)] ^= 1 << random.below(8);
        }
        let packet = packet::response(now.id, &response, &response, u8::from(flag), b"u");
        let answer = s.step(&packet, "AA*17");
        assert_eq!(answer.reason, if k < tries { "691" } else { "648" });
    }
    let now = *s.session.conversation();
    let allowed = choice == "yes";

    for turn in 0..3 {
        // The fields: most of them right.
        let bit_0 = random.chance(if turn == 0 { 60 } else { 75 });
        let wrong = random.chance(20);
        let (new_nt, new_lm): ([u8; 16], [u8; 16]) = (random.array(), random.array());
        let old = if bit_0 { nt } else { lm };
        let mut field = hashes::under_challenge(&old.unwrap_or(random.array()), &now.challenge);
        if wrong {
            match random.below(3) {
                0 => field[random.below(16)] ^= 1 << random.below(8),
                1 => field.rotate_left(8),
                _ => field = random.array(),
            }
        }
        let other: [u8; 16] = random.array();
        let any = random.below(65_536) as u16;
        let short = random.below(16) as u16;
        let length = random.pick(&[short, short, short, 14, 15, 0x0E00, 65_535, 65_534, any]);
        let flags = match random.chance(88) {
            true => u16::from(bit_0),
            false => (1 << random.between(1, 15)) | u16::from(bit_0),
        };
        let (lm_old, nt_old) = if bit_0 {
            (other, field)
        } else {
            (field, other)
        };
        let mut data = Vec::new();
        data.extend(lm_old);
        data.extend(hashes::under_challenge(&new_lm, &now.challenge));
        data.extend(nt_old);
        data.extend(hashes::under_challenge(&new_nt, &now.challenge));
        data.extend(length.to_be_bytes());
        data.extend(flags.to_be_bytes());
        // The frame.
        let code = match random.chance(92) {
            true => 5,
            false => [6, 6, 2, random.octet()][random.below(4)],
        };
        let near = [
            now.id.wrapping_sub(1),
            now.id.wrapping_add(1),
            random.octet(),
        ];
        let id = match random.chance(90) {
            true => now.id,
            false => near[random.below(3)],
        };
        let last = now.last.unwrap();
        let (code, id) = match random.chance(4) {
            true => (last.code, last.id),
            false => (code, id),
        };
        let padding = random.pick(&[0, 0, 0, 1, 5]);
        let mut packet = vec![code, id, 0, 72];
        packet.extend(data);
        packet.extend(random.octets(padding));
        if random.chance(14) {
            let length = random.pick(&[71u16, 70, 73, 4, 3, 1118]);
            packet[2..4].copy_from_slice(&length.to_be_bytes());
        }
        let said = usize::from(packet[2]) * 256 + usize::from(packet[3]);
        let room = random.pick(&[17, 17, 17, 17, 18, 18, 19, 20, 20, 16]);

        let awaited = if version == "1" { 5 } else { 6 };
        let repeat = (code, id) == (last.code, last.id);
        let refusals = [
            (room < 17, 2),
            (said < 4 || said > packet.len(), 3),
            (repeat, 0),
            (code != awaited, 4),
            (id != now.id, 5),
            (said != if awaited == 5 { 72 } else { 1118 }, 6),
            (flags > 1, 7),
        ];
        let refusal = refusals
            .iter()
            .find(|(holds, _)| *holds)
            .map(|(_, number)| *number);
        let answer = s.step(&packet, &format!("AA*{room}"));
        if let Some(refusal) = refusal {
            assert_eq!(answer.refusal, refusal.to_string(), "{seed}");
            assert_eq!(
                answer.repeated,
                if refusal == 0 { "1" } else { "0" },
                "{seed}"
            );
            assert_eq!(*s.session.conversation(), now, "{seed}");
            seen.refusals[refusal] += 1;
            continue;
        }
        let fault = first_of(bit_0, allowed, length > 14, old.is_none(), wrong);
        assert_eq!(answer.fault, Fault::number(fault).to_string(), "{seed}");
        let record = match fault {
            Some(_) => "-".to_string(),
            None => {
                let new_lm = (length <= 14).then_some(new_lm);
                match bit_0 {
                    true => seen.by_nt[usize::from(new_lm.is_some())] += 1,
                    false => seen.by_lm += 1,
                }
                let new_nt = bit_0.then_some(new_nt);
                format!("{}/{}/0000/0", word(new_nt), word(new_lm))
            }
        };
        assert_eq!(answer.record, record, "{seed}");
        seen.faults[usize::from(Fault::number(fault))] += 1;
        if random.chance(30) {
            let reply = hex(answer.reply());
            s.repeats(&packet, "AA*17", &reply, &answer.reason);
        }
        break;
    }
}
