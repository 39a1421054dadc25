//! What an opening says of LM (request 2026-06): a response by LM is judged where the opening asks
//! for it, and nowhere else, at the first try and after retries. What is expected stands in a table
//! here, by document 01's rule of a valid Response, and both implementations must answer so. Where
//! the account is locked (request 2026-09), none is; and a Response by LM counts as any other, also
//! where LM is off.

use crate::both::Boxes;
use crate::packets;
use crate::random::Random;
use crate::run::{run, Seen};
use crate::series;
use reference::authenticator::{Account, Conversation, Entry};
use reference::{hashes, packet};

const CHOICES: [(&str, Option<bool>); 3] = [
    ("silent", None),
    ("allowed", Some(true)),
    ("disallowed", Some(false)),
];

/// Which of the two responses lets the user in.
#[derive(Clone, Copy, Debug, PartialEq)]
enum By {
    Nt,
    /// Where LM is asked for.
    Lm,
    Neither,
}

/// Which hashes the record has, NT and LM; the Response's flag; what lets the user in.
const ROWS: [(&str, [bool; 2], u8, By); 6] = [
    ("NT only", [true, false], 0, By::Neither),
    ("NT only", [true, false], 1, By::Nt),
    ("LM only", [false, true], 0, By::Lm),
    ("LM only", [false, true], 1, By::Lm),
    ("both", [true, true], 0, By::Lm),
    ("both", [true, true], 1, By::Nt),
];

/// The reason and the reply buffer of a judged packet, and the record that it hands out.
fn reply(
    boxes: &mut Boxes,
    packet: &[u8],
    record: Option<&Account>,
) -> (u16, Vec<u8>, Option<Account>) {
    let (mut ours, mut theirs) = ([0xa5; 20], [0xa5; 20]);
    let outcome = boxes.step(packet, record, &mut ours, &mut theirs);
    assert_eq!((outcome.refusal, outcome.repeated), (0, false));
    (outcome.reason, ours.to_vec(), outcome.handed)
}

/// A Response whose two responses are each right or not.
fn response(
    random: &mut Random,
    conversation: &Conversation,
    [nt, lm]: [&[u8; 16]; 2],
    [nt_right, lm_right]: [bool; 2],
    flag: u8,
) -> Vec<u8> {
    let mut made = |hash: &[u8; 16], right| match right {
        true => hashes::challenge_response(hash, &conversation.challenge),
        false => random.array(),
    };
    let (nt, lm) = (made(nt, nt_right), made(lm, lm_right));
    let size = random.pick(&[1, 4, 9, 256]);
    packet::response(conversation.id, &lm, &nt, flag, &random.octets(size))
}

fn conversation(random: &mut Random, seen: &mut Seen) {
    let (said, lm_allowed) = random.pick(&CHOICES);
    let (which, [has_nt, has_lm], flag, by) = random.pick(&ROWS);
    let limit = packets::limit(random);
    let (mut boxes, _) = series::open_with(random, lm_allowed, limit);
    let hashes: [[u8; 16]; 2] = [random.array(), random.array()];
    let [nt, lm] = &hashes;
    let entry = Entry {
        nt: has_nt.then_some(*nt),
        lm: has_lm.then_some(*lm),
        expired: random.chance(20),
        failures: packets::failures(random, limit),
        ..Entry::default()
    };
    let mut account = entry.keyed();
    // invalid tries, as long as a retry is left: what the opening said is still in force after
    // them, and each of them counts, though it be by LM where LM is off
    for _ in 0..random.below(usize::from(boxes.theirs.retries) + 1) {
        let packet = response(random, &boxes.theirs, [nt, lm], [false; 2], flag);
        let (reason, _, handed) = reply(&mut boxes, &packet, Some(&account));
        let failures = account.failures.saturating_add(1);
        let counted = Account {
            failures,
            ..account
        };
        assert_eq!((reason, handed), (691, Some(counted)));
        account = counted;
        seen.note("after a retry");
    }
    let right = [random.chance(70), random.chance(70)];
    let packet = response(random, &boxes.theirs, [nt, lm], right, flag);
    let valid = match by {
        By::Nt => right[0],
        By::Lm => right[1] && lm_allowed == Some(true),
        By::Neither => false,
    };
    let locked = account.failures >= limit;
    let in_by = valid && !locked;
    let expected = match (in_by, account.expired) {
        (true, true) => 648,
        (true, false) => 0,
        (false, _) => 691,
    };
    // where it is not valid, the answer is that of an unknown account, octet for octet
    let mut unknown = boxes.copy();
    let (of_nobody, their_octets, none) = reply(&mut unknown, &packet, None);
    let (answer, octets, handed) = reply(&mut boxes, &packet, Some(&account));
    assert_eq!(answer, expected, "{said}, flag {flag}, {which}, {right:?}");
    if !in_by {
        assert_eq!((answer, octets), (of_nobody, their_octets));
        assert_eq!((boxes.ours, none), (unknown.ours, None));
    }
    let failures = match (valid, locked) {
        (true, false) => 0,
        (true, true) => account.failures,
        (false, _) => account.failures.saturating_add(1),
    };
    let counted = Account {
        failures,
        ..account
    };
    assert_eq!(handed, Some(counted));
    let word = match (valid, locked) {
        (_, true) => "locked",
        (true, _) => "in",
        (false, _) => "not in",
    };
    seen.note(format!("{said}, flag {flag}, {which}: {word}"));
}

#[test]
fn lm_choices_agree() {
    let seen = run("LM choices", 60_000, conversation);
    for (said, lm_allowed) in CHOICES {
        for (which, _, flag, by) in ROWS {
            let met = |word| format!("{said}, flag {flag}, {which}: {word}");
            seen.at_least(300, &met("not in"));
            seen.at_least(300, &met("locked"));
            if by == By::Nt || (by == By::Lm && lm_allowed == Some(true)) {
                seen.at_least(300, &met("in"));
            }
        }
    }
    seen.at_least(10_000, "after a retry");
}
