//! Whole series from opening to end: our peer against their box, their peer against our box.

use crate::both::{plain, their_conversation, Boxes, Opening, Passed, Peers, CHANGES};
use crate::faults;
use crate::packets;
use crate::random::Random;
use crate::repeats::{self, Answered};
use crate::run::{run, Seen};
use mschap::{sys, Conversation, Issued, LmHash, Password, Terms};
use reference::authenticator::{self as their, Account, Change, Entry};
use reference::message::Call;
use reference::peer::Verdict;
use reference::{hashes, packet};

/// The Response of both peers.
pub fn response(peers: &mut Peers, password: &[u8], name: &[u8], random: &mut Random) -> Vec<u8> {
    let least = 54 + name.len();
    if random.chance(20) {
        // with too little room nothing is sent
        let mut small = vec![0; random.below(least)];
        assert_eq!(peers.write_response(password, name, &mut small), Err(9));
    }
    let size = least + random.below(20);
    let mut out = random.octets(size);
    let written = peers.write_response(password, name, &mut out);
    out.truncate(written.expect("a Response"));
    out
}

/// The change of both peers, of the version that was called for.
pub fn change(
    peers: &mut Peers,
    version: Change,
    old: &[u8],
    new: &[u8],
    random: &mut Random,
) -> Vec<u8> {
    if version == Change::One {
        if random.chance(20) {
            // with too little room nothing is sent
            let mut small = vec![0; random.below(sys::CHANGE_1_PACKET)];
            assert_eq!(peers.write_change_1(old, new, &mut small), Err(9));
        }
        let size = sys::CHANGE_1_PACKET + random.below(9);
        let mut out = random.octets(size);
        let written = peers.write_change_1(old, new, &mut out);
        assert_eq!(written, Ok(sys::CHANGE_1_PACKET));
        out.truncate(sys::CHANGE_1_PACKET);
        return out;
    }
    let filler: [u8; sys::FILLER_SIZE] = random.array();
    let mut out = vec![0; sys::CHANGE_PACKET];
    let written = peers.write_change(old, new, &filler, &mut out);
    assert_eq!(written, Ok(sys::CHANGE_PACKET));
    out
}

/// Each peer reads what the other implementation's box wrote. Gives what it calls for; none after
/// Success.
pub fn read(peers: &mut Peers, our_reply: &[u8], their_reply: &[u8]) -> Option<Call> {
    match peers.read_reply(their_reply, our_reply) {
        Ok(Verdict::Failure(fields)) => Some(fields.call()),
        verdict => {
            assert_eq!(verdict, Ok(Verdict::Success));
            None
        }
    }
}

/// Packets that reach the peers beside the reply that they wait for: one from before, or noise, or
/// that reply with damage. Each is read before it and, where it is refused, behind it.
fn strays(random: &mut Random, reply: &[u8], earlier: &[Vec<u8>]) -> Vec<Vec<u8>> {
    let mut strays = Vec::new();
    for _ in 0..random.pick(&[0, 0, 1, 2]) {
        let mut stray = match (random.below(3), earlier) {
            (0, [.., last]) => last.clone(),
            (1, _) => packets::noise(random),
            _ => reply.to_vec(),
        };
        if random.chance(50) {
            packets::damage(random, &mut stray);
        }
        strays.push(stray);
    }
    strays
}

/// Both peers read the reply, with strays around it.
fn read_among(
    peers: &mut Peers,
    replies: [&[u8]; 2],
    strays: &[Vec<u8>],
    seen: &mut Seen,
) -> Option<Call> {
    let [ours, theirs] = replies;
    for stray in strays {
        seen.note(match peers.read_reply(stray, stray) {
            Ok(_) => "stray read".to_string(),
            Err(number) => format!("stray refused {number}"),
        });
    }
    let call = read(peers, ours, theirs);
    for stray in strays {
        let before = peers.clone();
        match peers.read_reply(stray, stray) {
            // it would give another turn: the series goes on as if it had not come
            Ok(_) => *peers = before,
            Err(_) => seen.note("stray refused behind the reply"),
        }
    }
    call
}

/// Opens in both, with any choice about LM, or none, and any limit.
fn open(random: &mut Random) -> (Boxes, Peers) {
    let lm = random.chance(80).then(|| random.chance(70));
    let limit = packets::limit(random);
    open_with(random, lm, limit)
}

/// Opens in both, with any choice about the change, or none, the same bytes in both buffers, and a
/// list with room for the one opening.
pub fn open_with(random: &mut Random, lm: Option<bool>, limit: u8) -> (Boxes, Peers) {
    let id = random.octet();
    let challenge = random.array();
    let retries = random.chance(80).then(|| random.below(8) as u8);
    let size = random.between(17, 40);
    let mut our_reply = random.octets(size);
    let mut their_reply = our_reply.clone();
    let places = usize::from(retries.unwrap_or(their::DEFAULT_RETRIES)) + 1;
    let mut issued = Issued::new(places);
    let mut passed = Passed::empty(places);
    let terms = Terms {
        limit,
        retries,
        lm_allowed: lm,
        change: random.pick(&CHANGES),
    };
    let ours = Conversation::open(id, terms, &challenge, &mut issued, &mut our_reply);
    let opening = Opening {
        id,
        challenge,
        terms,
    };
    let theirs = passed.their_open(&opening, &mut their_reply);
    let (conversation, written) = plain(ours).expect("an opening");
    assert_eq!((0, written), (theirs.refusal, theirs.written));
    assert_eq!(issued.left(), 0);
    passed.agrees(&issued);
    assert_eq!(
        our_reply, their_reply,
        "the Challenge and what lies behind it"
    );
    assert_eq!(their_conversation(&conversation), theirs.conversation);
    let peers = Peers::read_challenge(&their_reply[..written], &our_reply[..written]);
    let mut peers = peers.expect("a Challenge");
    // A reply that comes before any packet was sent is to no packet of theirs, whatever it carries.
    for id in [0, id, random.octet()] {
        let early = match random.below(3) {
            0 => packet::success(id),
            1 => packet::failure(id, random.pick(&[691, 648]), 1, random.pick(&[1, 2])),
            _ => packets::noise(random),
        };
        let refused = peers.read_reply(&early, &early);
        assert!(matches!(refused, Err(3 | 5)), "a reply to nothing");
    }
    let boxes = Boxes {
        ours: conversation,
        theirs: theirs.conversation,
    };
    (boxes, peers)
}

/// The passwords behind a record.
struct User {
    password: Vec<u8>,
    lm_password: Vec<u8>,
    account: Account,
    found: bool,
}

/// A user of a conversation with this limit.
fn user(random: &mut Random, limit: u8) -> User {
    let password = packets::password(random);
    let size = random.below(15);
    let lm_password = random.octets(size);
    let kind = random.below(100);
    let nt = |password| Password::from_utf16_bytes(password)?.nt_hash();
    let nt = (kind < 85).then(|| nt(&password).expect("a password").0);
    let lm = (kind >= 50).then(|| LmHash::of(&lm_password).expect("a password").0);
    let entry = Entry {
        nt,
        lm,
        disabled: random.chance(5),
        hours: random.chance(5),
        no_dialin: random.chance(5),
        expired: random.chance(45),
        failures: match random.chance(50) {
            true => packets::failures(random, limit),
            false => 0,
        },
    };
    User {
        password,
        lm_password,
        account: entry.keyed(),
        found: random.chance(97),
    }
}

/// A Response by LM, which neither peer writes: by hand, from the hashes of both, and sent in place
/// of one that they wrote.
pub fn lm_response(
    peers: &mut Peers,
    password: &[u8],
    name: &[u8],
    flag: u8,
    random: &mut Random,
) -> Vec<u8> {
    let hash = hashes::lm_hash(password).expect("a password");
    let challenge = peers.turn().challenge;
    response(peers, b"", name, random);
    let lm = hashes::challenge_response(&hash, &challenge);
    let ours = LmHash::of(password).and_then(|h| mschap::challenge_response(&h.0, &challenge));
    assert_eq!(ours, Ok(lm));
    packet::response(peers.last(), &lm, &random.array(), flag, name)
}

/// A packet that the box is to refuse, as a rule; the boxes must agree even where it is judged, or
/// happens to be a repeat.
fn noise(random: &mut Random, next: &[u8]) -> Vec<u8> {
    let mut packet = next.to_vec();
    match random.below(6) {
        0 | 1 => return packets::noise(random),
        2 => packet[1] = packet[1].wrapping_add(random.between(1, 255) as u8),
        3 => packet[0] = random.pick(&[0, 1, 3, 4, 5, 6, 7]),
        4 => packet.truncate(random.below(next.len())),
        _ => {
            let length = random.below(55);
            packets::set_length(&mut packet, length);
        }
    }
    if random.chance(5) {
        packets::damage(random, &mut packet);
    }
    packet
}

fn series(random: &mut Random, seen: &mut Seen) {
    let (mut boxes, mut peers) = open(random);
    let limit = boxes.theirs.limit;
    let user = user(random, limit);
    // the record that was handed out last is passed with the next packet
    let mut record = user.found.then_some(user.account);
    let retries = boxes.theirs.retries;
    let name = {
        let size = random.pick(&[1, 4, 9, 20, 256]);
        random.octets(size)
    };
    let wrong = random.pick(&[0, 30, 60, 100]);
    let new = packets::password(random);
    let mut changing = false;
    let mut replies: Vec<Vec<u8>> = Vec::new();
    let mut judged: Vec<Answered> = Vec::new();
    let mut accepted = None;
    loop {
        let mut packet = if changing {
            // at times from another old password, which is refused by 709
            let other = random.chance(10).then(|| packets::password(random));
            let old = other.as_ref().unwrap_or(&user.password);
            let version = boxes.theirs.change;
            let mut packet = change(&mut peers, version, old, &new, random);
            if random.chance(20) {
                match version {
                    Change::One => faults::spoil_1(random, &mut packet),
                    Change::Two => faults::spoil(random, &mut packet, new.len()),
                }
            }
            packet
        } else if user.account.lm.is_some() && random.chance(50) {
            let mut password = user.lm_password.clone();
            if random.chance(wrong) {
                password = random.octets(9);
            }
            let flag = random.chance(30).into();
            lm_response(&mut peers, &password, &name, flag, random)
        } else {
            let mut password = user.password.clone();
            if random.chance(wrong) {
                password = random.octets(10);
            }
            response(&mut peers, &password, &name, random)
        };
        for _ in 0..random.pick(&[0, 0, 0, 1, 2]) {
            let noise = noise(random, &packet);
            let mut our_reply = packets::buffer(random);
            let mut their_reply = our_reply.clone();
            let outcome = boxes.step(&noise, record.as_ref(), &mut our_reply, &mut their_reply);
            seen.note(format!("noise answered {}", outcome.refusal));
            record = outcome.handed.or(record);
            if outcome.refusal == 0 && !outcome.repeated {
                judged.push(Answered {
                    packet: noise,
                    reply: our_reply[..outcome.written].to_vec(),
                    reason: outcome.reason,
                });
            }
        }
        repeats::some(random, &mut boxes, record.as_ref(), &judged, seen);
        if random.chance(20) {
            let more = random.between(1, 30);
            packet.extend(random.octets(more));
        }
        let size = random.between(17, 30);
        let mut our_reply = random.octets(size);
        let mut their_reply = our_reply.clone();
        let failures = record.map(|account| account.failures);
        let outcome = boxes.step(&packet, record.as_ref(), &mut our_reply, &mut their_reply);
        if outcome.refusal != 0 || outcome.repeated {
            // Noise was judged in its place: the peer has no reply to read.
            seen.note("overtaken by noise");
            break;
        }
        seen.note(format!("judged {}", outcome.reason));
        if changing {
            let accepted = outcome.reason == 0;
            seen.note(format!("{:?} accepted {accepted}", boxes.theirs.change));
        }
        if outcome.fault != 0 {
            seen.note(format!("fault {}", outcome.fault));
        }
        accepted = outcome.handed.filter(|_| changing);
        record = outcome.handed.or(record);
        if let (Some(failures), false) = (failures, changing) {
            seen.note(format!("count {}", packets::level(failures, limit)));
            assert!(
                failures < limit || outcome.reason == 691,
                "a locked account"
            );
        }
        judged.push(Answered {
            packet: packet.clone(),
            reply: our_reply[..outcome.written].to_vec(),
            reason: outcome.reason,
        });
        if random.chance(20) {
            // The reply is lost, and the peer sends its packet again: this one it reads.
            let size = random.between(17, 30);
            our_reply = random.octets(size);
            their_reply = our_reply.clone();
            let again = boxes.step(&packet, record.as_ref(), &mut our_reply, &mut their_reply);
            assert!(again.repeated && again.written == outcome.written);
            assert_eq!(again.handed, None);
            seen.note("missed, and sent again");
        }
        let (ours, theirs) = (
            &our_reply[..outcome.written],
            &their_reply[..outcome.written],
        );
        let strays = strays(random, ours, &replies);
        let call = read_among(&mut peers, [ours, theirs], &strays, seen);
        replies.push(ours.to_vec());
        match call {
            Some(Call::Retry) => {}
            Some(Call::Change1) => {
                assert_eq!(boxes.theirs.change, Change::One, "what V calls for");
                changing = true;
            }
            Some(Call::Change2) => {
                assert_eq!(boxes.theirs.change, Change::Two, "what V calls for");
                changing = true;
            }
            _ => break,
        }
    }
    repeats::some(random, &mut boxes, record.as_ref(), &judged, seen);
    let judged = judged.len();
    assert!(
        judged <= usize::from(retries) + 2,
        "packets judged: {judged}"
    );
    if let Some(account) = accepted {
        seen.note("password changed");
        // the peers' own change has set bit 0; one that was spoiled may have given an LM hash alone
        if account.nt == hashes::nt_hash(&new).ok() && random.chance(25) {
            later(random, &account, &new);
            seen.note("later conversation");
        }
    }
}

/// The record that was handed out lets the new password in at the first Response, whatever the
/// limit is: its count is 0.
fn later(random: &mut Random, account: &Account, password: &[u8]) {
    let (mut boxes, mut peers) = open(random);
    let packet = response(&mut peers, password, b"DOM\\User", random);
    let mut our_reply = random.octets(17);
    let mut their_reply = our_reply.clone();
    let outcome = boxes.step(&packet, Some(account), &mut our_reply, &mut their_reply);
    assert_eq!((outcome.refusal, outcome.reason), (0, 0));
    assert_eq!(outcome.handed.as_ref(), Some(account), "no failure");
    let written = outcome.written;
    let call = read(&mut peers, &our_reply[..written], &their_reply[..written]);
    assert_eq!(call, None);
}

#[test]
fn series_agree() {
    let seen = run("series", 200_000, series);
    for reason in [0, 646, 647, 648, 649, 691, 709] {
        seen.expect(&[&format!("judged {reason}")]);
    }
    for fault in 1..=10 {
        seen.at_least(100, &format!("fault {fault}"));
    }
    for version in [Change::One, Change::Two] {
        for accepted in [false, true] {
            seen.at_least(2_000, &format!("{version:?} accepted {accepted}"));
        }
    }
    seen.expect(&["password changed", "later conversation"]);
    for kind in repeats::KINDS {
        for time in repeats::TIMES {
            seen.at_least(1_000, &format!("{kind}, {time}"));
        }
    }
    seen.at_least(10_000, "missed, and sent again");
    seen.expect(&["stray read", "stray refused 3", "stray refused 5"]);
    seen.expect(&["stray refused 11", "stray refused behind the reply"]);
    for level in packets::LEVELS {
        seen.at_least(5_000, &format!("count {level}"));
    }
}

/// Openings over one list, with no limit, retries over 7, buffers that are too small, challenges
/// that were issued before and too few places. Now and then the list is stored and restored.
#[test]
fn openings_agree() {
    let seen = run("openings", 100_000, |random, seen| {
        let places = random.below(16);
        let mut issued = Issued::new(places);
        let mut passed = Passed::empty(places);
        let mut challenge = random.array();
        for _ in 0..random.between(1, 4) {
            opening(random, &challenge, &mut issued, &mut passed, seen);
            match random.below(4) {
                0 => {}
                1 => challenge = reference::grown(&challenge),
                _ => challenge = random.array(),
            }
            if random.chance(5) {
                issued.empty();
                passed = Passed::empty(places);
            }
            if random.chance(20) {
                issued = Issued::from_bytes(issued.as_bytes()).expect("a list");
                seen.note("restored");
            }
        }
    });
    for refusal in [0, 2, 13, 16, 17, 18] {
        seen.expect(&[&format!("opening {refusal}")]);
    }
    seen.expect(&["restored"]);
}

fn opening(
    random: &mut Random,
    challenge: &[u8; 8],
    issued: &mut Issued,
    passed: &mut Passed,
    seen: &mut Seen,
) {
    let id = random.octet();
    let retries = match random.below(20) {
        0..=4 => None,
        5 => Some(255),
        6 => Some(random.octet()),
        _ => Some(random.below(10) as u8),
    };
    let lm = random.pick(&[None, Some(false), Some(true)]);
    let mut ours = packets::buffer(random);
    let mut theirs = ours.clone();
    let limit = match random.below(10) {
        0 => 0,
        _ => packets::limit(random),
    };
    let terms = Terms {
        limit,
        retries,
        lm_allowed: lm,
        change: random.pick(&CHANGES),
    };
    let answer = Conversation::open(id, terms, challenge, issued, &mut ours);
    let opening = Opening {
        id,
        challenge: *challenge,
        terms,
    };
    let opening = passed.their_open(&opening, &mut theirs);
    assert_eq!(ours, theirs);
    passed.agrees(issued);
    match plain(answer) {
        Ok((conversation, written)) => {
            assert_eq!((0, written), (opening.refusal, opening.written));
            assert_eq!(their_conversation(&conversation), opening.conversation);
            assert_eq!(opening.conversation.limit, limit);
        }
        Err(refusal) => assert_eq!(refusal, opening.refusal),
    }
    assert_eq!(opening.refusal == 18, limit == 0, "checked first");
    seen.note(format!("opening {}", opening.refusal));
}
