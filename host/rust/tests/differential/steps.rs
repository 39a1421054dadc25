//! Single steps of drawn conversations with right, wrong, damaged and random packets.

use crate::both::{account_bytes, our_conversation, their_conversation, Boxes, Outcome};
use crate::faults;
use crate::layout;
use crate::packets;
use crate::random::Random;
use crate::run::{run, Seen};
use mschap::sys;
use reference::authenticator::{Account, Change, Conversation, Entry, Last, Phase, Reply};
use reference::packet::Change1Fields;
use reference::{hashes, packet, peer};

/// A Response that is valid for the account as often as not.
fn response(random: &mut Random, conversation: &Conversation, account: &Account) -> Vec<u8> {
    let mut right = |hash: &Option<[u8; 16]>| match hash {
        Some(hash) if random.chance(35) => {
            hashes::challenge_response(hash, &conversation.challenge)
        }
        _ => random.array(),
    };
    let (lm, nt) = (right(&account.lm), right(&account.nt));
    let flag = random.below(2) as u8;
    let name = packets::name(random);
    packet::response(conversation.id, &lm, &nt, flag, &name)
}

/// A version 1 change of the kept record, each old hash of which is right as a rule.
fn change_1(random: &mut Random, conversation: &Conversation, kept: &Entry) -> Vec<u8> {
    let mut right = |hash: &Option<[u8; 16]>| match hash {
        Some(hash) if random.chance(80) => hashes::under_challenge(hash, &conversation.challenge),
        _ => random.array(),
    };
    let (lm_old, nt_old) = (right(&kept.lm), right(&kept.nt));
    let over = random.chance(40);
    let fields = Change1Fields {
        lm_old,
        lm_new: random.array(),
        nt_old,
        nt_new: random.array(),
        length: faults::told_length(random, over),
        flags: random.below(2) as u16,
    };
    packet::change_1(conversation.id, &fields)
}

/// A version 2 change from the old password.
fn change(random: &mut Random, conversation: &Conversation, old: &[u8]) -> Vec<u8> {
    let turn = peer::Turn {
        id: conversation.id,
        challenge: conversation.challenge,
    };
    let new = packets::password(random);
    let filler = random.octets(512);
    let mut out = vec![0; packet::CHANGE_LENGTH];
    let written = peer::write_change(&turn, old, &new, &filler, &mut out);
    assert_eq!(written.refusal, 0);
    out
}

/// A last answer, or none: to the packet, or to the one before it, or to any. No conversation that
/// was opened awaits what it answered last; these may.
fn last(random: &mut Random, id: u8, change: Change, packet: &[u8]) -> Option<Last> {
    let (code, id) = match (random.below(8), packet) {
        (0, [code, id, ..]) => (*code, *id),
        (1 | 2, _) => (random.pick(&[2, change.code()]), id.wrapping_sub(1)),
        (3, _) => (random.octet(), random.octet()),
        _ => return None,
    };
    let reply = match random.below(8) {
        0 | 1 => Reply::success(id),
        _ => {
            let reason = random.pick(&[646, 647, 648, 649, 691, 709]);
            Reply::failure(id, reason, random.chance(50), change)
        }
    };
    Some(Last { code, id, reply })
}

fn step(random: &mut Random, seen: &mut Seen) {
    let limit = packets::limit(random);
    let account = packets::account(random, limit);
    let mut conversation = Conversation {
        id: random.octet(),
        challenge: random.array(),
        retries: random.below(8) as u8,
        lm: random.chance(60),
        limit,
        change: packets::change(random),
        phase: Phase::Response,
        last: None,
    };
    let mut packet = if random.chance(30) {
        packets::noise(random)
    } else if random.chance(70) {
        response(random, &conversation, &account)
    } else if conversation.change == Change::One && random.chance(90) {
        let kept = account.entry();
        conversation.phase = Phase::Change(kept);
        change_1(random, &conversation, &kept)
    } else {
        let old = packets::password(random);
        let mut kept = account.entry();
        if kept.nt.is_some() && random.chance(90) {
            kept.nt = hashes::nt_hash(&old).ok();
        }
        conversation.phase = Phase::Change(kept);
        change(random, &conversation, &old)
    };
    match random.below(25) {
        0 | 1 => conversation.phase = Phase::Ended,
        2 => conversation.phase = Phase::Change(account.entry()),
        3 => conversation.phase = Phase::Response,
        _ => {}
    }
    conversation.last = last(random, conversation.id, conversation.change, &packet);
    if random.chance(75) {
        packets::damage(random, &mut packet);
    }
    let record = random.chance(90).then_some(&account);

    let mut boxes = Boxes {
        ours: our_conversation(&conversation, random),
        theirs: conversation,
    };
    let before = boxes.ours;
    let passed = packets::buffer(random);
    let (mut our_reply, mut their_reply) = (passed.clone(), passed.clone());
    let outcome = boxes.step(&packet, record, &mut our_reply, &mut their_reply);
    if outcome.repeated {
        let ended = conversation.phase == Phase::Ended;
        seen.note(format!("repeated, ended {ended}"));
    }
    let awaits_change = matches!(conversation.phase, Phase::Change(_));
    seen.note(match (outcome.refusal, outcome.reason) {
        (0, reason) if outcome.repeated => format!("repeated {reason}"),
        (0, 0) if awaits_change => format!("judged: changed {:?}", conversation.change),
        (0, reason) => format!("judged {reason}"),
        (refusal, _) => format!("refused {refusal}"),
    });
    handed(&conversation, record, &outcome, seen);

    if outcome.fault != 0 {
        seen.note(format!("fault {}", outcome.fault));
    }

    // The same by buffers, with drawn bytes wherever they have no effect.
    if random.chance(20) {
        let mut bytes = *before.as_bytes();
        let drawn = account_bytes(&account, random);
        let mut raw = layout::record(Some(drawn));
        raw[layout::TAG] = record.is_some().into();
        let garbage: [u8; layout::ANSWER_SIZE] = random.array();
        let mut answer = garbage;
        let mut reply = passed;
        let number = sys::step(&mut bytes, &packet, &raw, &mut reply, &mut answer);
        assert_eq!(number, u32::from(outcome.refusal));
        // Bytes of no effect may be kept as they were passed, so values are compared here.
        let next = mschap::Conversation::from_bytes(&bytes).expect("a conversation");
        assert_eq!(their_conversation(&next), boxes.theirs);
        assert_eq!(reply, our_reply);
        if number == sys::OK {
            let expected = layout::Told {
                repeated: outcome.repeated,
                reason: outcome.reason,
                fault: outcome.fault,
                updated: outcome.handed,
            };
            assert_eq!(layout::to_answer(&answer), Some(expected));
            assert_eq!(sys::answer_reason(&answer), outcome.reason.into());
            assert_eq!(sys::answer_repeated(&answer), outcome.repeated.into());
            assert_eq!(sys::answer_fault(&answer), outcome.fault.into());
            given(random, &answer, outcome.handed, awaits_change, raw);
            if outcome.repeated {
                assert_eq!(&bytes, before.as_bytes(), "a repeat changes nothing");
            }
        } else {
            assert_eq!(&bytes, before.as_bytes(), "a refusal changes nothing");
            assert_eq!(answer, garbage, "a refusal hands out nothing");
        }
    }
}

/// The record that an answer has: after a Response the one that was passed, with the bytes beside a
/// flag that is not set too, but for its count; after a change the new one.
fn given(
    random: &mut Random,
    answer: &[u8],
    handed: Option<Account>,
    changed: bool,
    mut passed: [u8; layout::RECORD_SIZE],
) {
    let garbage: [u8; layout::RECORD_SIZE] = random.array();
    let mut record = garbage;
    let number = sys::answer_record(answer, &mut record);
    let Some(account) = handed else {
        assert_eq!((number, record), (102, garbage), "no record");
        return;
    };
    if changed {
        passed = layout::record(Some(layout::account(&account)));
    }
    passed[layout::FAILURES_AT] = account.failures;
    assert_eq!((number, record), (sys::OK, passed), "the record");
    assert_eq!(sys::record_failures(&record), account.failures.into());
    let failures = random.octet();
    assert_eq!(sys::set_failures(&mut record, failures.into()), sys::OK);
    passed[layout::FAILURES_AT] = failures;
    assert_eq!(record, passed, "another count, and nothing else");
}

/// What is handed out, by the rule and not by either implementation: after a judged Response the
/// record that was passed, with another count alone.
fn handed(
    conversation: &Conversation,
    record: Option<&Account>,
    outcome: &Outcome,
    seen: &mut Seen,
) {
    let Conversation { limit, phase, .. } = *conversation;
    if !outcome.is_judged() {
        assert_eq!(outcome.handed, None, "no record unless it is judged");
        return;
    }
    if let Phase::Change(_) = phase {
        let failures = outcome.handed.map(|account| account.failures);
        assert_eq!(failures, (outcome.reason == 0).then_some(0));
        return;
    }
    let Some(passed) = record else {
        assert_eq!((outcome.reason, outcome.handed), (691, None));
        return;
    };
    let handed = outcome.handed.expect("a record for each judged Response");
    let counted = Account {
        failures: handed.failures,
        ..*passed
    };
    assert_eq!(handed, counted, "its count alone");
    let locked = passed.failures >= limit;
    let moved = match (handed.failures, passed.failures) {
        (0, before) if !locked && (before > 0 || outcome.reason != 691) => "set to 0",
        (255, 255) => "at 255",
        (after, before) if after == before => "left",
        (after, before) => {
            assert_eq!(Some(after), before.checked_add(1), "one more");
            "one more"
        }
    };
    match (moved, locked) {
        ("set to 0", _) => assert_ne!(outcome.reason, 691),
        ("left", _) => assert!(locked, "a right one at a locked account"),
        _ => assert_eq!(outcome.reason, 691),
    }
    assert!(!locked || outcome.reason == 691, "a locked account");
    let level = packets::level(passed.failures, limit);
    seen.note(format!("count {level}, locked {locked}: {moved}"));
}

#[test]
fn steps_agree() {
    let seen = run("steps", 500_000, step);
    for refusal in 1..=7 {
        seen.expect(&[&format!("refused {refusal}")]);
    }
    for reason in [0, 646, 647, 648, 649, 691, 709] {
        seen.expect(&[&format!("judged {reason}")]);
        seen.at_least(1_000, &format!("repeated {reason}"));
    }
    for change in [Change::One, Change::Two] {
        seen.at_least(1_000, &format!("judged: changed {change:?}"));
    }
    for fault in 1..=6 {
        seen.expect(&[&format!("fault {fault}")]);
    }
    for fault in 7..=10 {
        seen.at_least(1_000, &format!("fault {fault}"));
    }
    for ended in [false, true] {
        seen.at_least(1_000, &format!("repeated, ended {ended}"));
    }
    for (level, locked, all) in [
        ("0", false, &["set to 0", "one more"][..]),
        ("below the limit", false, &["set to 0", "one more"]),
        ("one below the limit", false, &["set to 0", "one more"]),
        ("the limit", true, &["left", "one more"]),
        ("over the limit", true, &["left", "one more"]),
        ("254", false, &["set to 0", "one more"]),
        ("254", true, &["left", "one more"]),
        ("255", true, &["at 255"]),
    ] {
        for moved in all {
            seen.at_least(100, &format!("count {level}, locked {locked}: {moved}"));
        }
    }
}
