//! Change request 2026-07: each row of the list of rules with its values, and what holds of any
//! version 1 change.

use reference::authenticator::{
    open, step, Account, Answer, Change, Conversation, Entry, Fault, Phase, Terms, REFUSED,
};
use reference::hashes::{challenge_response, from_challenge, lm_hash, nt_hash, under_challenge};
use reference::issued::Issued;
use reference::message::Call;
use reference::packet::{self, Change1Fields};
use reference::peer::{self, Turn, Verdict};
use reference::random::Random;
use reference::schedules::Schedules;
use reference::{des, grown};

const CH: [u8; 8] = [0x10, 0x2D, 0xB5, 0xDF, 0x08, 0x5D, 0x30, 0x41];
/// The NT and the LM hash of `MyPw`, then those of `clientPass`.
const NT: [u8; 16] = [
    0xFC, 0x15, 0x6A, 0xF7, 0xED, 0xCD, 0x6C, 0x0E, 0xDD, 0xE3, 0x33, 0x7D, 0x42, 0x7F, 0x4E, 0xAC,
];
const LM: [u8; 16] = [
    0x75, 0xBA, 0x30, 0x19, 0x8E, 0x6D, 0x19, 0x75, 0xAA, 0xD3, 0xB4, 0x35, 0xB5, 0x14, 0x04, 0xEE,
];
const NEW_NT: [u8; 16] = [
    0x44, 0xEB, 0xBA, 0x8D, 0x53, 0x12, 0xB8, 0xD6, 0x11, 0x47, 0x44, 0x11, 0xF5, 0x69, 0x89, 0xAE,
];
const NEW_LM: [u8; 16] = [
    0x76, 0xA1, 0x52, 0x93, 0x60, 0x96, 0xD7, 0x83, 0x0E, 0x23, 0x90, 0x22, 0x74, 0x04, 0xAF, 0xD2,
];
/// The same under CH.
const NT_CH: [u8; 16] = [
    0x9E, 0x05, 0x21, 0xF3, 0xF7, 0xEA, 0xEE, 0x39, 0x55, 0xF6, 0x1E, 0x38, 0xBE, 0x9A, 0x8E, 0xF3,
];
const LM_CH: [u8; 16] = [
    0x7C, 0xB2, 0x48, 0xFF, 0x77, 0x9C, 0x2D, 0x88, 0xC5, 0xF1, 0xF5, 0xF7, 0x35, 0xF4, 0x75, 0xDB,
];
const NEW_NT_CH: [u8; 16] = [
    0xC4, 0xD8, 0xD4, 0x8F, 0x21, 0x06, 0x11, 0x5D, 0x3B, 0x2D, 0xC8, 0xD2, 0x9A, 0x7C, 0xC3, 0xDE,
];
const NEW_LM_CH: [u8; 16] = [
    0x80, 0x2F, 0x4A, 0xE8, 0x8B, 0x46, 0x1F, 0xA1, 0xFB, 0x08, 0xD2, 0x10, 0x6A, 0xC9, 0xB5, 0x54,
];

/// What our peer writes for `MyPw` to `clientPass`, and the same with all fields filled.
const OURS: Change1Fields = Change1Fields {
    lm_old: [0; 16],
    lm_new: [0; 16],
    nt_old: NT_CH,
    nt_new: NEW_NT_CH,
    length: 65_535,
    flags: 1,
};
const BOTH: Change1Fields = Change1Fields {
    lm_old: LM_CH,
    lm_new: NEW_LM_CH,
    length: 10,
    ..OURS
};

fn characters(text: &str) -> Vec<u8> {
    text.bytes().flat_map(|octet| [octet, 0]).collect()
}

/// A record with these hashes and no mark.
fn record(nt: Option<[u8; 16]>, lm: Option<[u8; 16]>) -> Entry {
    Entry {
        nt,
        lm,
        ..Entry::default()
    }
}

/// The same, expired.
fn expired(nt: Option<[u8; 16]>, lm: Option<[u8; 16]>) -> Entry {
    Entry {
        expired: true,
        ..record(nt, lm)
    }
}

/// An opening with identifier 7 and CH.
fn opened(lm: bool, change: Option<Change>) -> Conversation {
    let mut issued = Issued {
        list: &mut [0; 64],
        used: 0,
        counts: &mut [0; 256],
    };
    let terms = Terms {
        retries: None,
        lm: Some(lm),
        change,
    };
    let opening = open(7, &CH, &terms, 255, &mut issued, &mut [0; 17]);
    assert_eq!((opening.refusal, opening.written), (0, 13));
    opening.conversation
}

/// A box opened for version 1 that awaits a change under identifier 8.
fn awaiting(lm: bool, kept: Entry) -> Conversation {
    Conversation {
        id: 8,
        phase: Phase::Change(kept),
        ..opened(lm, Some(Change::One))
    }
}

fn draw(now: &Conversation, fields: &Change1Fields) -> Answer {
    step(now, &packet::change_1(8, fields), None, &mut [0; 17])
}

/// The record that an accepted change hands out.
fn accepted(now: &Conversation, fields: &Change1Fields) -> Account {
    let answer = draw(now, fields);
    assert_eq!((answer.refusal, answer.reason, answer.fault), (0, 0, None));
    assert_eq!(answer.conversation.phase, Phase::Ended);
    answer.record.unwrap()
}

fn try_of(now: &Conversation, hash: &[u8; 16]) -> Vec<u8> {
    let response = challenge_response(hash, &now.challenge);
    packet::response(now.id, &[0; 24], &response, 1, b"u")
}

#[test]
fn cr07_1() {
    let wrong = try_of(&opened(false, None), &NEW_NT);
    for (change, message) in [
        (Some(Change::One), b"E=691 R=1 V=1"),
        (Some(Change::Two), b"E=691 R=1 V=2"),
        (None, b"E=691 R=1 V=2"),
    ] {
        let mut reply = [0; 17];
        let now = opened(false, change);
        let answer = step(
            &now,
            &wrong,
            Some(&record(Some(NT), None).keyed()),
            &mut reply,
        );
        assert_eq!((answer.reason, &reply[4..]), (691, &message[..]));
        // The same again, and with no record the same reply.
        let mut again = [0; 17];
        assert!(step(&answer.conversation, &wrong, None, &mut again).repeated);
        assert_eq!(again, reply);
        step(&now, &wrong, None, &mut again);
        assert_eq!(again, reply);
    }
    let now = opened(false, Some(Change::One));
    for (place, reason) in [(0, 647), (1, 646), (2, 649), (3, 648)] {
        let mut marked = record(Some(NT), None);
        let marks = [
            &mut marked.disabled,
            &mut marked.hours,
            &mut marked.no_dialin,
            &mut marked.expired,
        ];
        *marks.into_iter().nth(place).unwrap() = true;
        let mut reply = [0; 17];
        let answer = step(&now, &try_of(&now, &NT), Some(&marked.keyed()), &mut reply);
        assert_eq!(answer.reason, reason);
        assert_eq!(reply[4..], *format!("E={reason} R=0 V=1").as_bytes());
    }
}

#[test]
fn cr07_2() {
    let now = awaiting(false, expired(Some(NT), None));
    let mut six = packet::change_1(8, &OURS);
    six[0] = 6;
    assert_eq!(step(&now, &six, None, &mut [0; 17]).refusal, 4);
    let two = Conversation {
        change: Change::Two,
        ..now
    };
    assert_eq!(draw(&two, &OURS).refusal, 4);
    assert_eq!(draw(&now, &OURS).refusal, 0);
    let first = opened(false, Some(Change::One));
    assert_eq!(draw(&first, &OURS).refusal, 4);
}

#[test]
fn cr07_3() {
    assert_eq!(nt_hash(&characters("MyPw")), Ok(NT));
    assert_eq!(nt_hash(&characters("clientPass")), Ok(NEW_NT));
    assert_eq!(lm_hash(b"MyPw"), Ok(LM));
    assert_eq!(lm_hash(b"clientPass"), Ok(NEW_LM));
    for (hash, field) in [
        (NT, NT_CH),
        (LM, LM_CH),
        (NEW_NT, NEW_NT_CH),
        (NEW_LM, NEW_LM_CH),
    ] {
        assert_eq!(under_challenge(&hash, &CH), field);
        assert_eq!(from_challenge(&field, &CH), hash);
    }
}

#[test]
fn cr07_4_and_13() {
    let turn = Turn {
        id: 9,
        challenge: CH,
    };
    let mut out = [0xAA; 75];
    let (old, new) = (characters("MyPw"), characters("clientPass"));
    let written = peer::write_change_1(&turn, &old, &new, &mut out);
    assert_eq!((written.refusal, written.written), (0, 72));
    let zeros = [0; 32];
    let parts: [&[u8]; 6] = [
        &[0x05, 0x09, 0x00, 0x48],
        &zeros,
        &NT_CH,
        &NEW_NT_CH,
        &[0xFF, 0xFF, 0x00, 0x01],
        &[0xAA; 3],
    ];
    assert_eq!(out[..], parts.concat());
    assert_eq!(out[..72], packet::change_1(9, &OURS));
    let parts: [&[u8]; 6] = [
        &[0x05, 0x08, 0x00, 0x48],
        &LM_CH,
        &NEW_LM_CH,
        &NT_CH,
        &NEW_NT_CH,
        &[0x00, 0x0A, 0x00, 0x01],
    ];
    let filled = parts.concat();
    let read = packet::read_change_1(&packet::frame(&filled).unwrap());
    assert_eq!(read, Ok(BOTH));
    assert_eq!(packet::change_1(8, &BOTH), filled);
}

#[test]
fn cr07_5_and_7() {
    for lm in [false, true] {
        for kept in [expired(Some(NT), None), expired(Some(NT), Some(LM))] {
            for (length, new_lm) in [
                (14, Some(NEW_LM)),
                (15, None),
                (0, Some(NEW_LM)),
                (0x0E00, None),
                (65_535, None),
            ] {
                let fields = Change1Fields { length, ..BOTH };
                let handed = accepted(&awaiting(lm, kept), &fields);
                assert_eq!(handed, record(Some(NEW_NT), new_lm).keyed(), "{length}");
            }
        }
    }
    let octets = packet::change_1(8, &Change1Fields { length: 14, ..BOTH });
    assert_eq!(octets[68..], [0x00, 0x0E, 0x00, 0x01]);
}

#[test]
fn cr07_6() {
    let handed = accepted(&awaiting(false, expired(Some(NT), None)), &OURS);
    assert_eq!(handed, record(Some(NEW_NT), None).keyed());
    assert_eq!(handed.nt_keys, Schedules::of(&NEW_NT));
}

#[test]
fn cr07_8() {
    for kept in [expired(None, Some(LM)), expired(Some(NT), Some(LM))] {
        let fields = Change1Fields { flags: 0, ..BOTH };
        let handed = accepted(&awaiting(true, kept), &fields);
        assert_eq!(handed, record(None, Some(NEW_LM)).keyed());
    }
}

#[test]
fn cr07_9() {
    let answer = draw(&awaiting(false, expired(None, Some(LM))), &OURS);
    assert_eq!(answer.fault, Some(Fault::HashAbsent));
    let fields = Change1Fields {
        flags: 0,
        length: 20,
        ..BOTH
    };
    let answer = draw(&awaiting(false, expired(Some(NT), None)), &fields);
    assert_eq!(answer.fault, Some(Fault::LmNotAllowed));
    let numbers = [
        Fault::LmNotAllowed,
        Fault::OverFourteen,
        Fault::HashAbsent,
        Fault::OldUnderChallenge,
    ]
    .map(|fault| Fault::number(Some(fault)));
    assert_eq!(numbers, [7, 8, 9, 10]);
}

/// A kept record as no conversation makes it, put in by hand.
#[test]
fn cr07_10() {
    for marks in 0..8 {
        let kept = Entry {
            disabled: marks & 1 == 1,
            hours: marks & 2 == 2,
            no_dialin: marks & 4 == 4,
            failures: 9,
            ..expired(Some(NT), Some(LM))
        };
        let handed = accepted(&awaiting(false, kept), &OURS);
        let expected = Entry {
            nt: Some(NEW_NT),
            lm: None,
            expired: false,
            failures: 0,
            ..kept
        };
        assert_eq!(handed, expected.keyed());
        let never = Entry {
            expired: false,
            ..kept
        };
        assert_eq!(accepted(&awaiting(false, never), &OURS), expected.keyed());
    }
}

#[test]
fn cr07_11() {
    let fields = Change1Fields {
        nt_old: NEW_NT_CH,
        ..OURS
    };
    let now = awaiting(false, expired(Some(NT), None));
    let mut reply = [0; 17];
    let answer = step(&now, &packet::change_1(8, &fields), None, &mut reply);
    assert_eq!((answer.reason, answer.record), (709, None));
    assert_eq!(&reply, b"\x04\x08\x00\x11E=709 R=0 V=1");
    assert_eq!(answer.conversation.phase, Phase::Ended);
    assert_eq!(answer.conversation.change, Change::One);
}

#[test]
fn cr07_12() {
    let last = Turn {
        id: 255,
        challenge: CH,
    };
    for message in [
        "E=648 R=0",
        "E=648 R=0 V=1",
        "E=648 R=0 V=0",
        "E=648 R=0 C=0123456789ABCDEF",
        "E=648 R=1 C=0123456789ABCDEF V=1",
    ] {
        let length = 4 + message.len() as u8;
        let reply = [&[4, 255, 0, length], message.as_bytes()].concat();
        let reading = peer::read_reply(255, &reply);
        let Ok(Verdict::Failure(fields)) = reading else {
            panic!("{message}: {reading:?}");
        };
        assert_eq!(fields.call(), Call::Change1);
        let next = Turn {
            id: 0,
            challenge: CH,
        };
        assert_eq!(peer::next_turn(&last, &reading), next, "{message}");
    }
}

#[test]
fn cr07_14() {
    let mut random = Random::new(14);
    for _ in 0..20_000 {
        let key: [u8; 7] = random.array();
        let block: [u8; 8] = random.array();
        assert_eq!(des::decrypt(&key, &des::encrypt(&key, &block)), block);
        assert_eq!(des::encrypt(&key, &des::decrypt(&key, &block)), block);
        let (hash, challenge): ([u8; 16], [u8; 8]) = (random.array(), random.array());
        let field = under_challenge(&hash, &challenge);
        assert_eq!(from_challenge(&field, &challenge), hash);
        // Both halves go by the same key, which has not the challenge's last octet.
        let mut other = challenge;
        other[7] ^= random.octet();
        let halves = [&hash[8..], &hash[..8]].concat().try_into().unwrap();
        let swapped = [&field[8..], &field[..8]].concat();
        assert_eq!(under_challenge(&halves, &other)[..], swapped);
    }
}

/// "For such a box demand 3 reads "version 1 change"": one run for either change.
#[test]
fn cr07_15() {
    for seed in 0..2_000 {
        let mut random = Random::new(seed);
        let change = random.pick(&[Change::One, Change::Two]);
        let (r, id) = (random.below(8), random.octet());
        let k = random.below(r + 1);
        let challenge: [u8; 8] = random.array();
        let size = 2 * random.below(20);
        let (old, new) = (random.octets(size), random.octets(size + 2));
        let terms = Terms {
            retries: Some(r as u8),
            lm: random.pick(&[None, Some(false), Some(true)]),
            change: Some(change),
        };
        let boxed = |id: u8, challenge: &[u8; 8], reply: &mut [u8; 17]| {
            let mut issued = Issued {
                list: &mut [0; 64],
                used: 0,
                counts: &mut [0; 256],
            };
            open(id, challenge, &terms, 255, &mut issued, reply).conversation
        };
        let mut reply = [0; 17];
        let mut now = boxed(id, &challenge, &mut reply);
        let mut record = expired(nt_hash(&old).ok(), None).keyed();
        let mut turn = peer::read_challenge(&reply).unwrap();
        let mut out = [0; 1118];
        for place in 0..=k {
            let password = if place < k { &new } else { &old };
            let size = peer::write_response(&turn, password, b"u", &mut out).written;
            let answer = step(&now, &out[..size], Some(&record), &mut reply);
            assert_eq!(answer.reason, if place < k { 691 } else { 648 });
            record = answer.record.unwrap();
            now = answer.conversation;
            turn = peer::next_turn(&turn, &peer::read_reply(turn.id, &reply));
        }
        let size = match change {
            Change::One => peer::write_change_1(&turn, &old, &new, &mut out).written,
            Change::Two => {
                let filler = random.octets(512);
                peer::write_change(&turn, &old, &new, &filler, &mut out).written
            }
        };
        let answer = step(&now, &out[..size], None, &mut reply);
        assert_eq!(peer::read_reply(turn.id, &reply), Ok(Verdict::Success));
        let renewed = Entry {
            nt: nt_hash(&new).ok(),
            ..Entry::default()
        };
        assert_eq!(answer.record, Some(renewed.keyed()), "{seed}");
        let now = boxed(id, &grown(&challenge), &mut reply);
        let turn = peer::read_challenge(&reply).unwrap();
        let size = peer::write_response(&turn, &new, b"u", &mut out).written;
        let answer = step(&now, &out[..size], answer.record.as_ref(), &mut reply);
        assert_eq!((answer.refusal, answer.reason), (0, 0));
    }
}

#[test]
fn cr07_16() {
    let now = awaiting(false, expired(Some(NT), None));
    let refusal = |packet: &[u8]| step(&now, packet, None, &mut [0; 17]).refusal;
    let mut packet = packet::change_1(8, &OURS);
    packet.resize(1118, 0xFF);
    for length in 4..=1118u16 {
        packet[2..4].copy_from_slice(&length.to_be_bytes());
        assert_eq!(refusal(&packet), if length == 72 { 0 } else { 6 });
    }
    for flags in 0..=65_535u16 {
        let fields = Change1Fields { flags, ..OURS };
        let expected = if flags < 2 { 0 } else { 7 };
        assert_eq!(refusal(&packet::change_1(8, &fields)), expected);
    }
    packet[2..4].copy_from_slice(&71u16.to_be_bytes());
    packet[70] = 0xFF;
    assert_eq!(refusal(&packet), 6);
    packet[1] = 9;
    assert_eq!(refusal(&packet), 5);
    packet[0] = 6;
    assert_eq!(refusal(&packet), 4);
}

#[test]
fn cr07_17() {
    let turn = Turn {
        id: 9,
        challenge: CH,
    };
    for old in [0, 1, 2, 511, 512, 513, 514] {
        for new in [0, 1, 2, 511, 512, 513, 514] {
            for room in [0, 71, 72, 73] {
                let mut out = vec![0xAA; room];
                let written = peer::write_change_1(&turn, &vec![1; old], &vec![2; new], &mut out);
                let bad = |size: usize| size % 2 == 1 || size > 512;
                let refusal = match (bad(old) || bad(new), room < 72) {
                    (true, _) => 8,
                    (false, true) => 9,
                    (false, false) => 0,
                };
                let size = if refusal == 0 { 72 } else { 0 };
                assert_eq!((written.refusal, written.written), (refusal, size));
                assert_eq!(out[size..], vec![0xAA; room - size]);
            }
        }
    }
}

/// The change that is chosen has an effect on V and on what is awaited, and on nothing else.
#[test]
fn openings() {
    let mut random = Random::new(0);
    for _ in 0..2_000 {
        let (id, challenge) = (random.octet(), random.array());
        let room = random.pick(&[16, 17, 20]);
        let limit = random.pick(&[0, 3, 255]);
        let results = [None, Some(Change::Two), Some(Change::One)].map(|change| {
            let mut issued = Issued {
                list: &mut [0; 24],
                used: 0,
                counts: &mut [0; 256],
            };
            let mut reply = vec![0; room];
            let terms = Terms {
                change,
                ..Terms::default()
            };
            let opening = open(id, &challenge, &terms, limit, &mut issued, &mut reply);
            (opening, issued.list.to_vec(), issued.used, reply)
        });
        assert_eq!(results[0], results[1]);
        let (mut two, one) = (results[1].clone(), results[2].clone());
        match one.0.refusal {
            0 => two.0.conversation.change = Change::One,
            _ => assert_eq!(one.0.conversation, REFUSED),
        }
        assert_eq!(one, two);
    }
}

/// Any change with any set of the four faults, and any marks, count and retries: the first of those
/// that count is told, and without one the hashes are handed out with their own schedules.
#[test]
fn any_set_of_faults() {
    let mut told = [0; 11];
    for seed in 0..40_000u64 {
        let mut random = Random::new(seed);
        let [bit_0, not_allowed, over, absent, wrong] = [0, 1, 2, 3, 4].map(|k| seed >> k & 1 == 1);
        let (old, other, new_nt, new_lm): ([u8; 16], [u8; 16], [u8; 16], [u8; 16]) = (
            random.array(),
            random.array(),
            random.array(),
            random.array(),
        );
        let challenge: [u8; 8] = random.array();
        let counts = (!absent).then_some(old);
        let rest = random.chance(50).then_some(other);
        let (nt, lm) = if bit_0 {
            (counts, rest)
        } else {
            (rest, counts)
        };
        let kept = Entry {
            nt,
            lm,
            disabled: random.chance(50),
            hours: random.chance(50),
            no_dialin: random.chance(50),
            expired: random.chance(50),
            failures: random.octet(),
        };
        let mut field = under_challenge(&old, &challenge);
        if wrong {
            field[random.below(16)] ^= 1 << random.below(8);
        }
        let (lm_old, nt_old) = if bit_0 {
            (other, field)
        } else {
            (field, other)
        };
        let any = 15 + random.below(65_521) as u16;
        let length = match over {
            true => random.pick(&[15, 16, 0x0E00, 65_535, any]),
            false => random.below(15) as u16,
        };
        let fields = Change1Fields {
            lm_old,
            lm_new: under_challenge(&new_lm, &challenge),
            nt_old,
            nt_new: under_challenge(&new_nt, &challenge),
            length,
            flags: u16::from(bit_0),
        };
        let now = Conversation {
            challenge,
            retries: random.octet(),
            limit: random.octet(),
            ..awaiting(!not_allowed, kept)
        };
        // Neither the record lent nor padding has an effect.
        let lent = random.chance(50).then(|| Account {
            nt: Some(old),
            lm: Some(old),
            ..Account::default()
        });
        let padding = random.below(4);
        let packet = [packet::change_1(8, &fields), random.octets(padding)].concat();
        let answer = step(&now, &packet, lent.as_ref(), &mut [0; 17]);
        let holds = [!bit_0 && not_allowed, !bit_0 && over, absent, wrong];
        let first = holds.iter().position(|holds| *holds);
        let number = first.map_or(0, |place| place + 7);
        assert_eq!(usize::from(Fault::number(answer.fault)), number, "{seed}");
        told[number] += 1;
        let handed = Entry {
            nt: bit_0.then_some(new_nt),
            lm: (!over).then_some(new_lm),
            expired: false,
            failures: 0,
            ..kept
        };
        let handed = (number == 0).then(|| handed.keyed());
        assert_eq!(answer.record, handed, "{seed}");
        assert_eq!(answer.reason, if number == 0 { 0 } else { 709 });
        let ended = Conversation {
            phase: Phase::Ended,
            last: answer.conversation.last,
            ..now
        };
        assert_eq!(answer.conversation, ended);
        let again = step(&answer.conversation, &packet, lent.as_ref(), &mut [0; 17]);
        assert!(again.repeated && again.record.is_none() && again.fault.is_none());
    }
    assert!(told[7..]
        .iter()
        .chain([&told[0]])
        .all(|count| *count > 1_000));
}
