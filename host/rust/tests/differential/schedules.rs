//! Records with the schedules of another hash, and with any bytes in their place (request 2026-10).
//! The wrapper makes records with their own schedules alone, so these are passed by their bytes,
//! and kept as they are handed out, through runs of conversations. Answers, next conversations and
//! records must agree in each byte; and what a try or a change draws must be what the request says,
//! by the schedules that the record carries or by its hash.

use crate::layout::{self, KEYS_SIZE, LM_KEYS_AT, NT_KEYS_AT, RECORD_SIZE};
use crate::packets;
use crate::random::Random;
use crate::run::{run, Seen};
use crate::series;
use mschap::sys;
use reference::authenticator::{self as their, Account, Answer, Change, Conversation, Entry};
use reference::authenticator::{Fault, Phase};
use reference::packet::{self, Change1Fields};
use reference::peer::{self, Turn};
use reference::schedules::Schedules;
use reference::{hashes, smbpasswd};

/// A password by NT and one by LM.
#[derive(Clone)]
struct Passwords {
    nt: Vec<u8>,
    lm: Vec<u8>,
}

/// A password that no other one here is like.
fn password(random: &mut Random) -> Vec<u8> {
    let size = 2 * match random.below(20) {
        0 => random.between(9, 256),
        _ => random.between(5, 9),
    };
    random.octets(size)
}

impl Passwords {
    fn drawn(random: &mut Random) -> Passwords {
        let nt = password(random);
        let size = random.between(8, 14);
        // octets that LM does not change
        let lm = random.octets(size).into_iter().map(|octet| octet | 0x80);
        Passwords {
            nt,
            lm: lm.collect(),
        }
    }

    fn nt_hash(&self) -> [u8; 16] {
        hashes::nt_hash(&self.nt).expect("a password")
    }

    fn lm_hash(&self) -> [u8; 16] {
        hashes::lm_hash(&self.lm).expect("a password")
    }
}

/// The record of an entry as the archive makes it: with the schedules of its own hashes.
fn made(entry: &Entry) -> [u8; RECORD_SIZE] {
    let flags = [
        (true, sys::FOUND),
        (entry.nt.is_some(), sys::HAS_NT_HASH),
        (entry.lm.is_some(), sys::HAS_LM_HASH),
        (entry.disabled, sys::DISABLED),
        (entry.hours, sys::HOURS_DENIED),
        (entry.no_dialin, sys::DIALIN_DENIED),
        (entry.expired, sys::EXPIRED),
    ];
    let set = flags.iter().filter(|(is_set, _)| *is_set);
    let flags = set.map(|(_, flag)| flag).sum();
    let nt: &[u8] = entry.nt.as_ref().map_or(&[], |hash| hash);
    let lm: &[u8] = entry.lm.as_ref().map_or(&[], |hash| hash);
    let mut record = [0xA5; RECORD_SIZE];
    assert_eq!(sys::make_record(flags, nt, lm, &mut record), sys::OK);
    let number = sys::set_failures(&mut record, entry.failures.into());
    assert_eq!(number, sys::OK);
    let expected = layout::record(Some(layout::account(&entry.keyed())));
    assert_eq!(record, expected, "its own schedules");
    record
}

/// A record in both: its bytes, and what they stand for.
#[derive(Clone, Copy)]
struct Held {
    bytes: [u8; RECORD_SIZE],
    account: Account,
}

impl Held {
    fn of(bytes: [u8; RECORD_SIZE]) -> Held {
        let account = layout::to_record(&bytes).flatten().expect("an account");
        Held { bytes, account }
    }

    /// A record whose schedules, beside each hash, are its own or not.
    fn drawn(random: &mut Random, limit: u8, own: &Passwords, other: &Passwords) -> Held {
        let kind = random.below(20);
        let entry = Entry {
            nt: (kind < 17).then(|| own.nt_hash()),
            lm: (kind >= 8).then(|| own.lm_hash()),
            disabled: random.chance(4),
            hours: random.chance(4),
            no_dialin: random.chance(4),
            expired: random.chance(45),
            failures: match random.chance(30) {
                true => packets::failures(random, limit),
                false => 0,
            },
        };
        let others = made(&Entry {
            nt: Some(other.nt_hash()),
            lm: Some(other.lm_hash()),
            ..Entry::default()
        });
        let mut bytes = made(&entry);
        let own = bytes;
        for at in [NT_KEYS_AT, LM_KEYS_AT] {
            let to = at..at + KEYS_SIZE;
            let beside = NT_KEYS_AT + LM_KEYS_AT - at;
            match random.below(12) {
                0 | 1 => {}
                2..=6 => bytes[to.clone()].copy_from_slice(&others[to]),
                7 => bytes[to].copy_from_slice(&own[beside..][..KEYS_SIZE]),
                8 | 9 => bytes[to].copy_from_slice(&random.array::<KEYS_SIZE>()),
                10 => bytes[to].fill(random.pick(&[0, 0x3F, 0xC0, 0xFF])),
                // one number, or the bits that are not read
                _ if random.chance(50) => bytes[at + random.below(KEYS_SIZE)] = random.octet(),
                _ => {
                    for byte in &mut bytes[to] {
                        *byte |= random.octet() & 0xC0;
                    }
                }
            }
        }
        Held::of(bytes)
    }
}

/// A conversation in both.
struct Talk {
    bytes: [u8; sys::CONVERSATION_SIZE],
    theirs: Conversation,
}

impl Talk {
    /// One step in both, with a record or none. All bytes that are handed out must be theirs: after
    /// a Response the record that was passed, but for its count.
    fn step(&mut self, random: &mut Random, packet: &[u8], held: Option<&Held>) -> Answer {
        let awaits_change = matches!(self.theirs.phase, Phase::Change(_));
        let passed = held.map_or(layout::record(None), |held| held.bytes);
        let garbage: [u8; layout::ANSWER_SIZE] = random.array();
        let (mut answer, mut after) = (garbage, self.bytes);
        let mut reply = packets::buffer(random);
        let mut their_reply = reply.clone();
        let number = sys::step(&mut after, packet, &passed, &mut reply, &mut answer);
        let found = held.map(|held| &held.account);
        let theirs = their::step(&self.theirs, packet, found, &mut their_reply);
        assert_eq!(number, theirs.refusal.into(), "the answer");
        assert_eq!(reply, their_reply, "the reply buffer");
        let next = layout::to_conversation(&after);
        assert_eq!(next, Some(theirs.conversation), "the next conversation");
        if number == sys::OK {
            let told = layout::Told {
                repeated: theirs.repeated,
                reason: theirs.reason,
                fault: Fault::number(theirs.fault),
                updated: theirs.record,
            };
            assert_eq!(layout::to_answer(&answer), Some(told), "what is told");
            let drawn: [u8; RECORD_SIZE] = random.array();
            let mut record = drawn;
            let number = sys::answer_record(&answer, &mut record);
            let expected = match (theirs.record, awaits_change) {
                (None, _) => (102, drawn),
                (Some(account), true) => {
                    let own = layout::record(Some(layout::account(&account.keyed())));
                    (sys::OK, own)
                }
                (Some(account), false) => {
                    let mut counted = passed;
                    counted[layout::FAILURES_AT] = account.failures;
                    (sys::OK, counted)
                }
            };
            assert_eq!((number, record), expected, "the record");
        } else {
            assert_eq!((after, answer), (self.bytes, garbage), "a refusal");
        }
        self.bytes = after;
        self.theirs = theirs.conversation;
        theirs
    }
}

/// What the record that a step handed out is in bytes, which `step` has compared.
fn kept(held: &mut Held, answer: &Answer) {
    if let Some(account) = answer.record {
        *held = Held::of(layout::record(Some(layout::account(&account))));
    }
}

/// Whose password or schedules a response is made from.
#[derive(Clone, Copy, PartialEq)]
enum From {
    Carried,
    Hash,
    Other,
    Nobody,
}

/// What a valid Response draws at an account that is not locked; 0 is Success.
fn reason_of(account: &Account) -> u16 {
    let marks = [
        (account.disabled, 647),
        (account.hours, 646),
        (account.no_dialin, 649),
        (account.expired, 648),
    ];
    let first = marks.into_iter().find(|(mark, _)| *mark);
    first.map_or(0, |(_, reason)| reason)
}

/// A Response by NT or by LM, and what it must draw by the request: a record is judged by the
/// schedules that it carries, where the hash beside them is there.
fn respond(
    random: &mut Random,
    talk: &mut Talk,
    held: &mut Held,
    other: &Passwords,
    seen: &mut Seen,
) {
    let Account { nt, lm, .. } = held.account;
    let flag = random.below(2) as u8;
    let by_nt = flag == 1 && nt.is_some();
    let from = random.pick(&[
        From::Carried,
        From::Carried,
        From::Carried,
        From::Hash,
        From::Other,
        From::Nobody,
    ]);
    let challenge = talk.theirs.challenge;
    let made = |carried: Schedules, hash: Option<[u8; 16]>, others: [u8; 16]| match from {
        From::Carried => Some(carried.response(&challenge)),
        From::Hash => hash.map(|hash| hashes::challenge_response(&hash, &challenge)),
        From::Other => Some(hashes::challenge_response(&others, &challenge)),
        From::Nobody => None,
    };
    let nt_response = made(held.account.nt_keys, nt, other.nt_hash());
    let lm_response = made(held.account.lm_keys, lm, other.lm_hash());
    let nt_response = nt_response.unwrap_or_else(|| random.array());
    let lm_response = lm_response.unwrap_or_else(|| random.array());
    let id = talk.theirs.id;
    let packet = packet::response(id, &lm_response, &nt_response, flag, b"DOM\\User");

    let passed = random.chance(96).then_some(*held);
    let before = talk.theirs;
    let answer = talk.step(random, &packet, passed.as_ref());
    if answer.refusal != 0 {
        assert_eq!(answer.refusal, 2, "a small buffer");
        seen.note("refused");
        return;
    }
    let Some(passed) = passed else {
        assert_eq!((answer.reason, answer.record), (691, None));
        seen.note("nobody");
        return;
    };
    let account = passed.account;
    let (carried, own, response) = match by_nt {
        true => (account.nt_keys, account.keyed().nt_keys, nt_response),
        false => (account.lm_keys, account.keyed().lm_keys, lm_response),
    };
    let is_judged = by_nt || (lm.is_some() && before.lm);
    let is_valid = is_judged && response == carried.response(&challenge);
    let is_locked = account.failures >= before.limit;
    let expected = match is_valid && !is_locked {
        true => reason_of(&account),
        false => 691,
    };
    assert_eq!(answer.reason, expected, "by the schedules it carries");
    let failures = match (is_valid, is_locked) {
        (true, false) => 0,
        (true, true) => account.failures,
        (false, _) => account.failures.saturating_add(1),
    };
    let counted = Account {
        failures,
        ..account
    };
    assert_eq!(answer.record, Some(counted), "its count alone");

    let kind = if by_nt { "NT" } else { "LM" };
    let is_own = own.response(&challenge) == carried.response(&challenge);
    match (from, is_valid) {
        (From::Carried, true) if !is_own => seen.note(format!("{kind}: in by another's")),
        (From::Hash, false) if is_judged => seen.note(format!("{kind}: not in by its own hash")),
        (From::Other, true) => seen.note(format!("{kind}: another's password")),
        (_, true) => seen.note(format!("{kind}: in by its own")),
        (_, false) => seen.note(format!("{kind}: not in")),
    }
    if is_own && own != carried {
        seen.note(format!("{kind}: bits that are not read"));
    }
    if is_valid && is_locked {
        seen.note(format!("{kind}: locked"));
    }
    if is_valid && !is_own {
        seen.note(format!("by another's: {}", answer.reason));
    }
    if !is_judged && (nt.is_none() && flag == 1 || lm.is_none() && flag == 0) {
        seen.note("schedules beside no hash");
    }
    if random.chance(90) {
        kept(held, &answer);
    }
}

/// A change: accepted from the password whose hash the kept record has, whatever schedules it had;
/// what it makes has its own.
fn change(
    random: &mut Random,
    talk: &mut Talk,
    held: &mut Held,
    own: &mut Passwords,
    other: &Passwords,
    seen: &mut Seen,
) {
    let Phase::Change(entry) = talk.theirs.phase else {
        unreachable!("a change is awaited");
    };
    let new = password(random);
    let turn = Turn {
        id: talk.theirs.id,
        challenge: talk.theirs.challenge,
    };
    let by_hash = random.chance(70);
    let old = if by_hash { &own.nt } else { &other.nt };
    let mut packet = vec![0; packet::CHANGE_LENGTH];
    let filler = random.octets(512);
    let written = peer::write_change(&turn, old, &new, &filler, &mut packet);
    assert_eq!(written.refusal, 0);
    // the response under the schedules that the record was lent with
    let by_lent = random.chance(15);
    if by_lent {
        let response = held.account.nt_keys.response(&turn.challenge);
        packet[1092..1116].copy_from_slice(&response);
    }
    let passed = random.chance(60).then_some(*held);
    let answer = talk.step(random, &packet, passed.as_ref());
    if answer.refusal != 0 {
        assert_eq!(answer.refusal, 2, "a small buffer");
        return;
    }
    let expected = match (entry.nt, by_hash, by_lent) {
        (None, _, _) => Some(Fault::NoNtHash),
        (Some(_), true, false) => None,
        (Some(_), true, true) => Some(Fault::Response),
        // a block that is opened by another hash has a length that is drawn
        (Some(_), false, _) => answer.fault,
    };
    assert_eq!(answer.fault, expected);
    let Some(account) = answer.record else {
        assert_eq!(answer.reason, 709);
        let number = Fault::number(answer.fault);
        let word = if by_hash { "its own" } else { "another's" };
        seen.note(format!("709, fault {number}, from {word} password"));
        return;
    };
    let changed = Entry {
        nt: hashes::nt_hash(&new).ok(),
        lm: None,
        expired: false,
        failures: 0,
        ..entry
    };
    assert_eq!(account, changed.keyed(), "its own schedules");
    assert_eq!(
        account.lm_keys,
        Schedules::default(),
        "zeros beside no hash"
    );
    let is_own = held.account.nt_keys == Schedules::of(&own.nt_hash());
    let word = if is_own { "its own" } else { "others" };
    seen.note(format!("changed, with {word}"));
    own.nt = new;
    kept(held, &answer);
}

/// A version 1 change: of the NT hash, the LM hash or both, from the passwords whose hashes the
/// kept record has, whatever schedules it had; what it makes has its own beside each hash.
fn change_1(
    random: &mut Random,
    talk: &mut Talk,
    held: &mut Held,
    own: &mut Passwords,
    other: &Passwords,
    seen: &mut Seen,
) {
    let Phase::Change(entry) = talk.theirs.phase else {
        unreachable!("a change is awaited");
    };
    let Conversation {
        id, challenge, lm, ..
    } = talk.theirs;
    let new = Passwords::drawn(random);
    let by_hash = random.chance(80);
    let old = if by_hash { &*own } else { other };
    let (by_nt, short) = (random.chance(60), random.chance(70));
    let under = |hash| hashes::under_challenge(&hash, &challenge);
    let fields = Change1Fields {
        lm_old: under(old.lm_hash()),
        lm_new: under(new.lm_hash()),
        nt_old: under(old.nt_hash()),
        nt_new: under(new.nt_hash()),
        length: if short { new.lm.len() as u16 } else { 65_535 },
        flags: by_nt.into(),
    };
    let packet = packet::change_1(id, &fields);
    let passed = random.chance(60).then_some(*held);
    let answer = talk.step(random, &packet, passed.as_ref());
    if answer.refusal != 0 {
        assert_eq!(answer.refusal, 2, "a small buffer");
        return;
    }
    let there = if by_nt { entry.nt } else { entry.lm };
    let expected = match (by_nt, lm, short, there, by_hash) {
        (false, false, ..) => Some(Fault::LmNotAllowed),
        (false, true, false, ..) => Some(Fault::OverFourteen),
        (_, _, _, None, _) => Some(Fault::HashAbsent),
        (_, _, _, Some(_), false) => Some(Fault::OldUnderChallenge),
        (_, _, _, Some(_), true) => None,
    };
    assert_eq!(answer.fault, expected);
    let Some(account) = answer.record else {
        assert_eq!(answer.reason, 709);
        seen.note(format!("709, fault {}", Fault::number(answer.fault)));
        return;
    };
    let changed = Entry {
        nt: by_nt.then(|| new.nt_hash()),
        lm: short.then(|| new.lm_hash()),
        expired: false,
        failures: 0,
        ..entry
    };
    assert_eq!(account, changed.keyed(), "its own schedules");
    let made = [account.nt_keys, account.lm_keys].map(|keys| keys != Schedules::default());
    assert_eq!(made, [by_nt, short], "zeros beside no hash");
    seen.note(format!("version 1: NT {by_nt}, LM {short}"));
    *own = new;
    kept(held, &answer);
}

/// Conversations with one account, one after the other, each to its end or until somebody hangs up.
fn calls(random: &mut Random, seen: &mut Seen) {
    let limit = packets::limit(random);
    let mut own = Passwords::drawn(random);
    let other = Passwords::drawn(random);
    let mut held = Held::drawn(random, limit, &own, &other);
    for number in 0..random.between(1, 4) {
        let lm = random.pick(&[None, Some(true), Some(true), Some(false)]);
        let (boxes, _) = series::open_with(random, lm, limit);
        let mut talk = Talk {
            bytes: *boxes.ours.as_bytes(),
            theirs: boxes.theirs,
        };
        if number > 0 && held.account != held.account.keyed() {
            seen.note("the next conversation, with another's");
        }
        while talk.theirs.phase != Phase::Ended && !random.chance(6) {
            let before = talk.theirs.last;
            match talk.theirs.phase {
                Phase::Change(_) => {
                    let change = match talk.theirs.change {
                        Change::One => change_1,
                        Change::Two => change,
                    };
                    change(random, &mut talk, &mut held, &mut own, &other, seen);
                }
                _ => respond(random, &mut talk, &mut held, &other, seen),
            }
            // what was answered last, again: the same reply, and no record
            if let (Some(last), true) = (talk.theirs.last, random.chance(10)) {
                let packet = [last.code, last.id, 0, 4];
                let again = talk.step(random, &packet, Some(&held));
                assert!(again.refusal == 2 || again.repeated && again.record.is_none());
                seen.note("repeated");
            }
            if before.is_some() {
                seen.note("after a retry or 648");
            }
        }
    }
}

#[test]
fn schedules_agree() {
    let seen = run("schedules", 20_000, calls);
    for kind in ["NT", "LM"] {
        for what in [
            "in by another's",
            "in by its own",
            "not in by its own hash",
            "another's password",
            "not in",
            "bits that are not read",
            "locked",
        ] {
            seen.at_least(100, &format!("{kind}: {what}"));
        }
    }
    for reason in [0, 646, 647, 648, 649, 691] {
        seen.at_least(50, &format!("by another's: {reason}"));
    }
    for (what, count) in [
        ("nobody", 500),
        ("refused", 500),
        ("repeated", 500),
        ("schedules beside no hash", 500),
        ("the next conversation, with another's", 5_000),
        ("after a retry or 648", 5_000),
        ("changed, with its own", 100),
        ("changed, with others", 500),
        ("version 1: NT true, LM true", 100),
        ("version 1: NT true, LM false", 50),
        ("version 1: NT false, LM true", 50),
        ("709, fault 7", 20),
        ("709, fault 8", 20),
        ("709, fault 9", 20),
        ("709, fault 10", 20),
        ("709, fault 1, from its own password", 50),
        ("709, fault 3, from another's password", 100),
        ("709, fault 6, from its own password", 100),
    ] {
        seen.at_least(count, what);
    }
}

/// The schedules of each hash as the archive makes them, and the response under them: `made` has
/// compared the former.
fn own(random: &mut Random, _: &mut Seen) {
    let hash = match random.below(4) {
        0 => {
            let mut hash = [0; 16];
            hash[random.below(16)] = 1 << random.below(8);
            hash
        }
        _ => random.array(),
    };
    let entry = Entry {
        nt: random.chance(80).then_some(hash),
        lm: random.chance(80).then(|| random.array()),
        failures: random.octet(),
        ..Entry::default()
    };
    let record = Held::of(made(&entry));
    if entry.nt.is_some() {
        let challenge = random.array();
        let mut response = [0; 24];
        let number = sys::challenge_response(&hash, &challenge, &mut response);
        assert_eq!(number, sys::OK);
        assert_eq!(record.account.nt_keys.response(&challenge), response);
    }
}

#[test]
fn schedules_of_hashes_agree() {
    run("schedules of hashes", 20_000, own);
}

/// A record with another's schedules, written to the account file and read again, has its own: of a
/// record nothing is written but its hashes.
fn file(random: &mut Random, seen: &mut Seen) {
    let (own, other) = (Passwords::drawn(random), Passwords::drawn(random));
    let held = Held::drawn(random, 10, &own, &other);
    let mut file = format!(
        "bob:1:{}:{}:[U          ]:LCT-00000001:\n",
        "0".repeat(32),
        "F".repeat(32)
    )
    .into_bytes();
    let mut offset = usize::MAX;
    let number = sys::write_account(&mut file, b"bob", &held.bytes, 5, &mut offset);
    assert_eq!((number, offset), (sys::OK, 0));
    let mut record: [u8; RECORD_SIZE] = random.array();
    let number = sys::find_account(&file, b"bob", 5, 5, &mut record, &mut offset);
    assert_eq!((number, offset), (sys::OK, 0));
    let read = Entry {
        nt: held.account.nt,
        lm: held.account.lm,
        ..Entry::default()
    };
    assert_eq!(Held::of(record).account, read.keyed());
    let smbpasswd::Found::Account { record, .. } = smbpasswd::find(&file, b"bob", 5, 5) else {
        panic!("no bob");
    };
    assert_eq!(record.account(), read.keyed());
    let carried = (held.account.nt_keys, held.account.lm_keys);
    if carried != (read.keyed().nt_keys, read.keyed().lm_keys) {
        seen.note("read again with its own");
    }
}

#[test]
fn schedules_are_not_in_a_file() {
    let seen = run("schedules and files", 5_000, file);
    seen.at_least(2_000, "read again with its own");
}

/// The response of each hash of a record, by the schedules that the record carries: the archive's is
/// the independent program's, and a hash that is not there draws a number and leaves the buffer.
fn response(random: &mut Random, seen: &mut Seen) {
    let (own, other) = (Passwords::drawn(random), Passwords::drawn(random));
    let held = Held::drawn(random, 10, &own, &other);
    let account = &held.account;
    let challenge = random.array();
    for (flag, hash, keys) in [
        (sys::HAS_NT_HASH, account.nt, &account.nt_keys),
        (sys::HAS_LM_HASH, account.lm, &account.lm_keys),
    ] {
        let mut response = [0xA5; 24];
        let number = sys::record_response(&held.bytes, flag, &challenge, &mut response);
        let Some(hash) = hash else {
            assert_eq!((number, response), (sys::NO_RECORD, [0xA5; 24]));
            seen.note("no such hash");
            continue;
        };
        assert_eq!((number, response), (sys::OK, keys.response(&challenge)));
        let by_hash = hashes::challenge_response(&hash, &challenge);
        seen.note(match response == by_hash {
            true => "as by the hash",
            false => "another than by the hash",
        });
    }
}

#[test]
fn record_responses_agree() {
    let seen = run("record responses", 5_000, response);
    seen.at_least(1_000, "no such hash");
    seen.at_least(1_000, "as by the hash");
    seen.at_least(3_000, "another than by the hash");
}
