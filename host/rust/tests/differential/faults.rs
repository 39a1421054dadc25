//! Changes with drawn sets of what may be wrong with one. What is told must agree, and must be the
//! first of the set; of a repeat nothing is told.

use crate::both::{our_conversation, Boxes};
use crate::packets;
use crate::random::Random;
use crate::run::{run, Seen};
use reference::authenticator::{Change, Conversation, Entry, Phase};
use reference::packet::Change1Fields;
use reference::{hashes, packet, peer};

/// Where the block's last four octets, the old hash under the new one, the NT response and the low
/// octet of the flags are in a change (RFC 2433, section 10).
const LENGTH_AT: usize = 516;
const VERIFIER_AT: usize = 520;
const RESPONSE_AT: usize = 1092;
const FLAGS_AT: usize = 1117;

/// A length for the block in the place of its own, often one next to a limit.
fn length(random: &mut Random, own: usize) -> u32 {
    let any = random.number() as u32;
    let odd = random.between(0, 255) as u32 * 2 + 1;
    let near = random.pick(&[513, 514, 515, 0x8000_0000]);
    let over = 513 + any % (u32::MAX - 512);
    match random.below(6) {
        0 => odd,
        1 => near,
        2 => over,
        _ => own as u32,
    }
}

/// Flips a bit in one of so many octets.
fn flip(random: &mut Random, octets: &mut [u8]) {
    let at = random.below(octets.len());
    octets[at] ^= 1 << random.below(8);
}

/// Writes another length over the one in the block. The stream of RC4 lies over the octets, so a
/// bit of what is sent is that bit of the length.
fn set_length(packet: &mut [u8], own: usize, length: u32) {
    let mask = length ^ own as u32;
    for (octet, changed) in packet[LENGTH_AT..].iter_mut().zip(mask.to_le_bytes()) {
        *octet ^= changed;
    }
}

/// Spoils one thing in a change to a password of so many octets, as a rule.
pub fn spoil(random: &mut Random, packet: &mut [u8], own: usize) {
    match random.below(4) {
        0 => packet[FLAGS_AT] &= !1,
        1 => set_length(packet, own, length(random, own)),
        2 => flip(random, &mut packet[VERIFIER_AT..VERIFIER_AT + 16]),
        _ => flip(random, &mut packet[RESPONSE_AT..RESPONSE_AT + 24]),
    }
}

/// The password's length in a version 1 change: over 14, or not, often next to that.
pub fn told_length(random: &mut Random, over: bool) -> u16 {
    let (any, short) = (15 + random.below(65_521) as u16, random.below(15) as u16);
    match over {
        true => random.pick(&[15, 16, 0x0E00, 65_535, any]),
        false => random.pick(&[0, 13, 14, short]),
    }
}

/// Spoils one thing in a version 1 change, as a rule: bit 0, the length, an old hash, or a new one,
/// which is no fault.
pub fn spoil_1(random: &mut Random, packet: &mut [u8]) {
    match random.below(4) {
        0 => packet[71] &= !1,
        1 => {
            let over = random.chance(30);
            let length = told_length(random, over);
            packet[68..70].copy_from_slice(&length.to_be_bytes());
        }
        2 => flip(random, &mut packet[36..52]),
        _ => flip(random, &mut packet[4..20]),
    }
}

/// A version 1 change with a drawn set of what may be wrong, of which the first two count only with
/// bit 0 clear. Accepted, it gives the new hashes with their own schedules.
fn faulty_1(random: &mut Random, seen: &mut Seen) {
    let [bit_0, allowed, over, absent, wrong] =
        [50, 75, 40, 20, 35].map(|percent| random.chance(percent));
    let [old, other, new_nt, new_lm]: [[u8; 16]; 4] = [0; 4].map(|_| random.array());
    let challenge: [u8; 8] = random.array();
    let counts = (!absent).then_some(old);
    let rest = random.chance(50).then_some(other);
    let (nt, lm) = match bit_0 {
        true => (counts, rest),
        false => (rest, counts),
    };
    let limit = packets::limit(random);
    // no box keeps another count than 0, nor marks that bar a logon; this one may
    let kept = Entry {
        nt,
        lm,
        ..packets::account(random, limit).entry()
    };
    let mut field = hashes::under_challenge(&old, &challenge);
    if wrong {
        flip(random, &mut field);
    }
    let (lm_old, nt_old) = match bit_0 {
        true => (other, field),
        false => (field, other),
    };
    let fields = Change1Fields {
        lm_old,
        lm_new: hashes::under_challenge(&new_lm, &challenge),
        nt_old,
        nt_new: hashes::under_challenge(&new_nt, &challenge),
        length: told_length(random, over),
        flags: u16::from(bit_0),
    };
    let id = random.octet();
    let mut packet = packet::change_1(id, &fields);
    let padding = random.below(4);
    packet.extend(random.octets(padding));

    let holds = [!bit_0 && !allowed, !bit_0 && over, absent, wrong];
    let first = holds.iter().position(|holds| *holds);
    let fault = first.map_or(0, |place| place as u8 + 7);
    let handed = Entry {
        nt: bit_0.then_some(new_nt),
        lm: (!over).then_some(new_lm),
        expired: false,
        failures: 0,
        ..kept
    };
    let conversation = Conversation {
        id,
        challenge,
        retries: random.below(8) as u8,
        lm: allowed,
        limit,
        change: Change::One,
        phase: Phase::Change(kept),
        last: None,
    };
    let mut boxes = Boxes {
        ours: our_conversation(&conversation, random),
        theirs: conversation,
    };
    // the record that is lent has no effect
    let lent = packets::account(random, limit);
    let lent = random.chance(50).then_some(&lent);
    let reason = if fault == 0 { 0 } else { 709 };
    for repeated in [false, true] {
        let mut reply = [0; packet::FAILURE_LENGTH];
        let mut their_reply = reply;
        let outcome = boxes.step(&packet, lent, &mut reply, &mut their_reply);
        assert_eq!((outcome.refusal, outcome.reason), (0, reason), "{holds:?}");
        assert_eq!(outcome.repeated, repeated);
        let told = if repeated { 0 } else { fault };
        assert_eq!(outcome.fault, told, "{holds:?}");
        let is_accepted = fault == 0 && !repeated;
        let expected = is_accepted.then(|| handed.keyed());
        assert_eq!(outcome.handed, expected, "the record of a change");
        if fault != 0 {
            assert_eq!(&reply[4..], b"E=709 R=0 V=1", "the same for each");
        }
    }
    seen.note(format!("fault {fault}, bit {}", u8::from(bit_0)));
    if fault == 0 {
        let [nt, lm] = [handed.nt, handed.lm].map(|hash| hash.is_some());
        seen.note(format!("accepted: NT {nt}, LM {lm}, allowed {allowed}"));
    }
    if holds.iter().filter(|holds| **holds).count() > 1 {
        seen.note(format!("fault {fault} of several"));
    }
}

#[test]
fn faults_of_version_1_agree() {
    let seen = run("faults of version 1", 60_000, faulty_1);
    for (bit, faults) in [(0, &[0, 7, 8, 9, 10][..]), (1, &[0, 9, 10])] {
        for fault in faults {
            seen.at_least(1_000, &format!("fault {fault}, bit {bit}"));
        }
    }
    for fault in 7..=9 {
        seen.at_least(1_000, &format!("fault {fault} of several"));
    }
    for (nt, lm, allowed) in [
        (true, true, true),
        (true, true, false),
        (true, false, true),
        (true, false, false),
        (false, true, true),
    ] {
        let what = format!("accepted: NT {nt}, LM {lm}, allowed {allowed}");
        seen.at_least(1_000, &what);
    }
    for never in ["fault 7, bit 1", "fault 8, bit 1"] {
        assert_eq!(seen.count(never), 0, "{never}");
    }
}

fn faulty(random: &mut Random, seen: &mut Seen) {
    let (old, new) = (packets::password(random), packets::password(random));
    let turn = peer::Turn {
        id: random.octet(),
        challenge: random.array(),
    };
    let filler = random.octets(512);
    let mut packet = vec![0; packet::CHANGE_LENGTH];
    let written = peer::write_change(&turn, &old, &new, &filler, &mut packet);
    assert_eq!(written.refusal, 0);

    let limit = packets::limit(random);
    // Its count has no part in a change. No box keeps a record with another count than 0; this one
    // may have any.
    let mut kept = Entry {
        nt: hashes::nt_hash(&old).ok(),
        ..packets::account(random, limit).entry()
    };
    let length = length(random, new.len());
    set_length(&mut packet, new.len(), length);
    let wrong = [
        random.chance(15),
        random.chance(15),
        length > 512,
        length % 2 == 1,
        random.chance(25),
        random.chance(25),
    ];
    if wrong[0] {
        kept.nt = None;
    }
    if wrong[1] {
        packet[FLAGS_AT] &= !1;
    }
    if wrong[4] {
        flip(random, &mut packet[VERIFIER_AT..VERIFIER_AT + 16]);
    }
    if wrong[5] {
        flip(random, &mut packet[RESPONSE_AT..RESPONSE_AT + 24]);
    }
    let first = wrong.iter().position(|holds| *holds);
    let fault = first.map_or(0, |place| place as u8 + 1);

    let conversation = Conversation {
        id: turn.id,
        challenge: turn.challenge,
        retries: random.below(8) as u8,
        lm: random.chance(50),
        limit,
        change: Change::Two,
        phase: Phase::Change(kept),
        last: None,
    };
    let mut boxes = Boxes {
        ours: our_conversation(&conversation, random),
        theirs: conversation,
    };
    let reason = if fault == 0 { 0 } else { 709 };
    for repeated in [false, true] {
        let mut reply = [0; packet::FAILURE_LENGTH];
        let mut their_reply = reply;
        let outcome = boxes.step(&packet, None, &mut reply, &mut their_reply);
        assert_eq!((outcome.refusal, outcome.reason), (0, reason), "{wrong:?}");
        assert_eq!(outcome.repeated, repeated);
        let told = if repeated { 0 } else { fault };
        assert_eq!(outcome.fault, told, "{wrong:?}");
        let failures = outcome.handed.map(|account| account.failures);
        let is_accepted = fault == 0 && !repeated;
        assert_eq!(failures, is_accepted.then_some(0), "the count of a change");
        if fault != 0 {
            assert_eq!(&reply[4..], b"E=709 R=0 V=2", "the same for each");
        }
    }
    seen.note(format!("fault {fault}"));
    seen.note(format!(
        "count {}, accepted {}",
        packets::level(kept.failures, limit),
        fault == 0
    ));
    if wrong.iter().filter(|holds| **holds).count() > 1 {
        seen.note(format!("fault {fault} of several"));
    }
}

#[test]
fn faults_agree() {
    let seen = run("faults", 60_000, faulty);
    for fault in 0..=6 {
        seen.at_least(1_000, &format!("fault {fault}"));
    }
    for fault in 1..=5 {
        seen.at_least(500, &format!("fault {fault} of several"));
    }
    for level in packets::LEVELS {
        for accepted in [false, true] {
            seen.at_least(300, &format!("count {level}, accepted {accepted}"));
        }
    }
}
