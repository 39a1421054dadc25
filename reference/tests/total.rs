//! Every input draws an answer or a numbered refusal; a refusal changes nothing. The inputs come
//! from a fixed generator, so each run is the same.

use reference::authenticator::{
    self, Account, Change, Conversation, Entry, Fault, Last, Phase, Reply, Terms,
};
use reference::issued::Issued;
use reference::peer::{self, Turn, Verdict};
use reference::rc4::rc4;
use reference::schedules::Schedules;
use reference::script::Session;
use reference::{hashes, message, packet};

struct Random(u64);

impl Random {
    fn next(&mut self) -> u64 {
        self.0 = self
            .0
            .wrapping_mul(6364136223846793005)
            .wrapping_add(1442695040888963407);
        self.0 >> 33
    }

    fn below(&mut self, limit: usize) -> usize {
        self.next() as usize % limit
    }

    fn octets(&mut self, size: usize) -> Vec<u8> {
        (0..size).map(|_| self.next() as u8).collect()
    }

    fn array<const N: usize>(&mut self) -> [u8; N] {
        self.octets(N).try_into().unwrap()
    }

    fn numbers<const N: usize>(&mut self) -> [u64; N] {
        [(); N].map(|()| u64::from_be_bytes(self.array()))
    }
}

/// A packet near to a right one.
fn packet_near(random: &mut Random, id: u8) -> Vec<u8> {
    let size = [
        0, 1, 3, 4, 5, 13, 17, 54, 55, 56, 71, 72, 73, 310, 311, 1117, 1118, 1119,
    ][random.below(18)];
    let mut packet = random.octets(size);
    if size >= 4 && random.below(8) > 0 {
        packet[0] = match (random.below(4), size) {
            (0, _) => random.below(8) as u8,
            (_, 1117..) => 6,
            (_, 71..=73) => 5,
            (_, 54..) => 2,
            _ => 1,
        };
        packet[1] = if random.below(8) > 0 { id } else { packet[1] };
        let length = if random.below(8) > 0 {
            size
        } else {
            random.below(size + 3)
        };
        packet[2..4].copy_from_slice(&(length as u16).to_be_bytes());
    }
    if (72..=73).contains(&size) && random.below(8) > 0 {
        packet[70] = 0;
        packet[71] = random.below(3) as u8;
    } else if size > 54 && random.below(8) > 0 {
        packet[4] = 49;
        packet[53] = random.below(3) as u8;
    }
    if size >= 1118 && random.below(8) > 0 {
        packet[1116] = 0;
        packet[1117] = random.below(5) as u8;
    }
    packet
}

/// An octet, mostly one of few values, so that counts are often at a limit.
fn near_octet(random: &mut Random) -> u8 {
    let any = random.next() as u8;
    [0, 1, 2, 3, 4, 254, 255, any][random.below(8)]
}

/// A last answer, or none. Its identifier is mostly the one before the awaited one, and sometimes
/// the awaited one, as no conversation has it that an opening and steps made.
fn last_near(random: &mut Random, id: u8, change: Change) -> Option<Last> {
    if random.below(4) == 0 {
        return None;
    }
    let id = id.wrapping_sub([0, 1, 1, 1][random.below(4)]);
    let reply = match random.below(8) {
        0 => Reply::success(id),
        n => {
            let reason = [691, 646, 647, 648, 649, 709, 691][n - 1];
            Reply::failure(id, reason, n == 1, change)
        }
    };
    Some(Last {
        code: [2, 2, change.code(), 0][random.below(4)],
        id,
        reply,
    })
}

/// The first of what comes before 4, by the octets lent: "2 and 3 first, then the repeat, then 1".
/// A repeat is 0, and none of them where the answer is another.
fn before_the_code(conversation: &Conversation, packet: &[u8], room: usize) -> Option<u8> {
    if room < 17 {
        return Some(2);
    }
    let [code, id, high, low, ..] = *packet else {
        return Some(3);
    };
    let length = usize::from(high) * 256 + usize::from(low);
    if length < 4 || packet.len() < length {
        return Some(3);
    }
    let last = conversation.last.map(|last| (last.code, last.id));
    if last == Some((code, id)) {
        return Some(0);
    }
    (conversation.phase == Phase::Ended).then_some(1)
}

#[test]
fn steps() {
    let mut random = Random(1);
    let mut drawn = [0; 8];
    let (mut judged, mut between, mut ended) = (0, 0, 0);
    let mut judged_in = [0; 7];
    for _ in 0..150_000 {
        let account = Account {
            nt: (random.below(4) > 0).then(|| random.array()),
            lm: (random.below(4) > 0).then(|| random.array()),
            disabled: random.below(2) > 0,
            hours: random.below(2) > 0,
            no_dialin: random.below(2) > 0,
            expired: random.below(2) > 0,
            failures: near_octet(&mut random),
            nt_keys: Schedules(random.numbers()),
            lm_keys: Schedules(random.numbers()),
        };
        let phase = match random.below(8) {
            0 | 1 => Phase::Ended,
            2..=4 => Phase::Change(account.entry()),
            _ => Phase::Response,
        };
        let before = Conversation {
            id: random.next() as u8,
            challenge: random.array(),
            retries: random.below(9) as u8,
            lm: random.below(2) > 0,
            limit: near_octet(&mut random),
            change: [Change::One, Change::Two][random.below(2)],
            phase,
            last: None,
        };
        let before = Conversation {
            last: last_near(&mut random, before.id, before.change),
            ..before
        };
        let mut packet = packet_near(&mut random, before.id);
        if let (Some(last), true, true) = (before.last, packet.len() > 1, random.below(4) == 0) {
            packet[..2].copy_from_slice(&[last.code, last.id]);
        }
        let room = [0, 16, 17, 17, 20, 20, 20, 20][random.below(8)];
        let lent = random.octets(room);
        let mut buffer = lent.clone();
        let record = (random.below(2) > 0).then_some(account);
        let answer = authenticator::step(&before, &packet, record.as_ref(), &mut buffer);
        drawn[usize::from(answer.refusal)] += 1;
        match before_the_code(&before, &packet, room) {
            Some(refusal) => assert_eq!((answer.refusal, answer.repeated), (refusal, refusal == 0)),
            None => assert!(!answer.repeated && !(1..4).contains(&answer.refusal)),
        }
        // A fault beside a 709 that was judged, and beside nothing else.
        let faulty = answer.reason == 709 && !answer.repeated;
        assert_eq!(answer.fault.is_some(), faulty);
        if answer.refusal > 0 {
            assert_eq!((answer.reason, answer.written, answer.record), (0, 0, None));
            assert_eq!(answer.conversation, before);
            assert_eq!(buffer, lent);
        } else if answer.repeated {
            match phase {
                Phase::Ended => ended += 1,
                _ => between += 1,
            }
            let last = before.last.unwrap();
            let reply = last.reply.octets();
            assert_eq!(buffer, [reply, &lent[reply.len()..]].concat());
            assert_eq!((answer.written, answer.record), (reply.len(), None));
            assert_eq!(answer.conversation, before);
            // Neither the record nor what else is in the packet has an effect.
            let mut again = lent.clone();
            let four = [last.code, last.id, 0, 4];
            assert_eq!(
                authenticator::step(&before, &four, None, &mut again),
                answer
            );
            assert_eq!(again, buffer);
        } else {
            judged += 1;
            // None of these Responses is valid: each adds 1 to the count of the record lent, to at
            // most 255, whatever the limit is. A change hands out none, as none is accepted.
            let added = record.map(|account| Account {
                failures: account.failures.saturating_add(1),
                ..account
            });
            let is_response = phase == Phase::Response;
            assert_eq!(answer.record, added.filter(|_| is_response));
            assert_eq!(answer.reason, if is_response { 691 } else { 709 });
            assert!(answer.written == 4 || answer.written == 17);
            assert_eq!(buffer[answer.written..], lent[answer.written..]);
            assert_eq!(buffer[1], before.id);
            // What was answered is kept, and the packet then draws the same again.
            let last = answer.conversation.last.unwrap();
            assert_eq!([last.code, last.id], packet[..2]);
            let mut again = lent.clone();
            let repeat = authenticator::step(&answer.conversation, &packet, None, &mut again);
            assert!(repeat.repeated);
            assert_eq!((repeat.reason, &again), (answer.reason, &buffer));
            // The peer reads what the box wrote.
            let version = u64::from(before.change.version());
            judged_in[usize::from(packet[0])] += 1;
            match peer::read_reply(before.id, &buffer) {
                Ok(Verdict::Success) => assert_eq!(answer.reason, 0),
                Ok(Verdict::Failure(fields)) => {
                    assert_eq!(
                        (fields.e, fields.c, fields.v),
                        (u64::from(answer.reason), None, version)
                    );
                }
                Err(refusal) => panic!("{refusal}"),
            }
        }
        packet::domain(&packet, b"HOME");
        packet::account(&packet);
        let _ = peer::read_challenge(&packet);
    }
    for (kind, count) in [("judged", judged), ("between", between), ("ended", ended)] {
        assert!(count > 1_000, "{kind}: {count}");
    }
    for (code, least) in [(2, 1_000), (5, 100), (6, 100)] {
        assert!(judged_in[code] > least, "{judged_in:?}");
    }
    for (refusal, count) in drawn.iter().enumerate() {
        assert!(*count > 100, "{refusal}: {drawn:?}");
    }
}

/// A change of which exactly those of the six hold that a set names, drawn at random for the rest,
/// and the record kept for it. Bit k of the set is the one with number k + 1.
fn change_with_faults(random: &mut Random, challenge: &[u8; 8], set: u8) -> (Entry, Vec<u8>) {
    let holds = |k: u8| set >> k & 1 == 1;
    let old_hash: [u8; 16] = random.array();
    let most_over = [4, (1 << 31) - 300][random.below(2)];
    let length = match (holds(2), holds(3)) {
        (false, false) => 2 * random.below(257),
        (false, true) => 1 + 2 * random.below(256),
        (true, false) => 514 + 2 * random.below(most_over),
        (true, true) => 513 + 2 * random.below(most_over),
    };
    let mut block = random.array();
    block[512..].copy_from_slice(&(length as u32).to_le_bytes());
    // Where the length is no password's, the other fields are those of some other password.
    let of = if holds(2) || holds(3) { 8 } else { length };
    let new_hash = hashes::nt_hash(&block[512 - of..512]).unwrap();
    rc4(&old_hash, &mut block).unwrap();
    let mut fields = packet::ChangeFields {
        nt_block: block,
        nt_old_under_new: hashes::old_under_new(&old_hash, &new_hash),
        lm_block: random.array(),
        lm_old_under_new: random.array(),
        lm_response: random.array(),
        nt_response: hashes::challenge_response(&new_hash, challenge),
        flags: [1, 3, 0, 2][2 * usize::from(holds(1)) + random.below(2)],
    };
    if holds(4) {
        fields.nt_old_under_new[random.below(16)] ^= 1 << random.below(8);
    }
    if holds(5) {
        fields.nt_response[random.below(24)] ^= 1 << random.below(8);
    }
    let kept = Entry {
        nt: (!holds(0)).then_some(old_hash),
        lm: (random.below(2) > 0).then(|| random.array()),
        failures: near_octet(random),
        ..Entry::default()
    };
    (kept, packet::change(random.next() as u8, &fields))
}

/// "the first that holds": each set of the six, 64 in all, tells its least number.
#[test]
fn every_set_of_faults_tells_its_first() {
    let mut random = Random(7);
    let mut told = [0; 7];
    for round in 0..64 * 100 {
        let set = (round % 64) as u8;
        let challenge = random.array();
        let (kept, packet) = change_with_faults(&mut random, &challenge, set);
        let conversation = Conversation {
            id: packet[1],
            challenge,
            retries: 2,
            lm: true,
            limit: near_octet(&mut random),
            change: Change::Two,
            phase: Phase::Change(kept),
            last: None,
        };
        let mut reply = [0; 17];
        let answer = authenticator::step(&conversation, &packet, None, &mut reply);
        let number = if set == 0 {
            0
        } else {
            set.trailing_zeros() + 1
        };
        assert_eq!(u32::from(Fault::number(answer.fault)), number, "{set:06b}");
        assert_eq!((answer.reason == 709, answer.refusal), (set != 0, 0));
        // An accepted change hands out count 0, whatever the limit is and the kept record has.
        let count = answer.record.map(|record| record.failures);
        assert_eq!(count, (set == 0).then_some(0));
        told[number as usize] += 1;
        // The reply has the same octets whatever the fault is.
        if set != 0 {
            assert_eq!(reply[..4], [4, packet[1], 0, 17]);
            assert_eq!(&reply[4..], b"E=709 R=0 V=2");
        }
    }
    assert_eq!(told, [100, 3200, 1600, 800, 400, 200, 100]);
}

/// A challenge of few values, so that lists often hold one.
fn near_challenge(random: &mut Random) -> [u8; 8] {
    let first = [1, 24, 47, 70, 93, 233, 0, 255][random.below(8)];
    let last = [0, 1, 255][random.below(3)];
    [first, 2, 3, 4, 5, 6, 7 + random.below(2) as u8, last]
}

/// How many of the used places end in each octet, by one pass; none where they are not there.
fn tally(list: &[u8], used: usize) -> Option<Vec<u16>> {
    let mut counts = vec![0; 256];
    for place in 0..used {
        counts[usize::from(*list.get(8 * place + 7)?)] += 1;
    }
    Some(counts)
}

#[test]
fn openings() {
    let mut random = Random(5);
    let mut drawn = [0; 25];
    for _ in 0..60_000 {
        let places = random.below(16);
        let mut list: Vec<u8> = (0..places)
            .flat_map(|_| near_challenge(&mut random))
            .collect();
        if random.below(8) == 0 {
            list.resize(random.below(8 * places + 8), 0xEE);
        }
        let mut used = random.below(places + 1) * random.below(2);
        if random.below(16) == 0 {
            used = [places + 1, places + 2, 4097, usize::MAX][random.below(4)];
        }
        let mut counts = tally(&list, used.min(list.len() / 8)).unwrap();
        match random.below(24) {
            0 => counts.resize([0, 1, 8, 255, 257, 300][random.below(6)], 0),
            1 => counts[random.below(256)] ^= 1 << random.below(16),
            _ => {}
        }
        let room = [0, 16, 17, 17, 17, 17, 20, 20][random.below(8)];
        let challenge = near_challenge(&mut random);
        let retries = (random.below(4) > 0).then(|| random.below(9) as u8);
        let limit = near_octet(&mut random);
        let r = usize::from(retries.unwrap_or(2));

        let reply = random.octets(room);
        let (mut later_list, mut later_counts) = (list.clone(), counts.clone());
        let mut later_reply = reply.clone();
        let mut issued = Issued {
            list: &mut later_list,
            used,
            counts: &mut later_counts,
        };
        let id = random.next() as u8;
        let opening = authenticator::open(
            id,
            &challenge,
            &Terms {
                retries,
                ..Terms::default()
            },
            limit,
            &mut issued,
            &mut later_reply,
        );
        let later_used = issued.used;

        let added: Vec<[u8; 8]> = (0..=r)
            .map(|k| {
                let mut entry = challenge;
                entry[0] = ((usize::from(entry[0]) + 23 * k) % 256) as u8;
                entry
            })
            .collect();
        let whole = list.len().is_multiple_of(8);
        let expected = if limit == 0 {
            18
        } else if r > 7 {
            13
        } else if room < 17 {
            2
        } else if !whole || used > list.len() / 8 || tally(&list, used).as_ref() != Some(&counts) {
            24
        } else if (0..used).any(|place| added.iter().any(|a| *a == list[8 * place..8 * place + 8]))
        {
            16
        } else if 8 * (used + r + 1) > list.len() {
            17
        } else {
            0
        };
        assert_eq!(opening.refusal, expected);
        drawn[usize::from(expected)] += 1;
        if expected > 0 {
            assert_eq!(
                (opening.written, opening.conversation),
                (0, authenticator::REFUSED)
            );
            assert_eq!((later_list, later_used, later_counts), (list, used, counts));
            assert_eq!(later_reply, reply);
        } else {
            assert_eq!((opening.written, opening.conversation.limit), (13, limit));
            assert_eq!(later_reply[13..], reply[13..]);
            assert_eq!(
                peer::read_challenge(&later_reply),
                Ok(Turn { id, challenge })
            );
            assert_eq!(later_used, used + r + 1);
            assert_eq!(later_list[..8 * used], list[..8 * used]);
            assert_eq!(later_list[8 * used..8 * later_used], added.concat());
            assert_eq!(later_list[8 * later_used..], list[8 * later_used..]);
            assert_eq!(tally(&later_list, later_used), Some(later_counts));
        }
    }
    for refusal in [0, 2, 13, 16, 17, 18, 24] {
        assert!(drawn[refusal] > 1_000, "{refusal}: {drawn:?}");
    }
}

#[test]
fn peer_to_box_and_back() {
    let mut random = Random(2);
    for _ in 0..2_000 {
        let size = 2 * random.below(257);
        let old = random.octets(size);
        let size = 2 * random.below(257);
        let new = random.octets(size);
        let id = random.next() as u8;
        let challenge: [u8; 8] = random.array();
        let limit = near_octet(&mut random).max(1);
        let record = Account {
            nt: hashes::nt_hash(&old).ok(),
            expired: true,
            failures: random.below(limit.into()) as u8,
            ..Account::default()
        };
        let record = record.keyed();
        let mut reply = [0u8; 17];
        let mut issued = Issued {
            list: &mut [0; 8],
            used: 0,
            counts: &mut [0; 256],
        };
        let opened = authenticator::open(
            id,
            &challenge,
            &Terms {
                retries: Some(0),
                ..Terms::default()
            },
            limit,
            &mut issued,
            &mut reply,
        );
        let turn = peer::read_challenge(&reply).unwrap();
        assert_eq!(turn, Turn { id, challenge });
        let mut out = vec![0u8; 1118];
        let size = 1 + random.below(256);
        let name = random.octets(size);
        let written = peer::write_response(&turn, &old, &name, &mut out);
        let first = authenticator::step(&opened.conversation, &out, Some(&record), &mut reply);
        assert_eq!((written.written, first.reason), (54 + name.len(), 648));
        // The count of the record handed out is 0, and that record is kept.
        let reset = Account {
            failures: 0,
            ..record
        };
        assert_eq!(first.record, Some(reset));
        assert_eq!(first.conversation.phase, Phase::Change(reset.entry()));
        // The peer missed the reply, and sends the same packet again.
        let mut missed = [0u8; 17];
        let again = authenticator::step(&first.conversation, &out, None, &mut missed);
        assert_eq!((again.repeated, missed), (true, reply));
        assert_eq!(again.conversation, first.conversation);
        let next = peer::next_turn(&turn, &peer::read_reply(turn.id, &reply));
        peer::write_change(&next, &old, &new, &random.octets(512), &mut out);
        let second = authenticator::step(&first.conversation, &out, None, &mut reply);
        assert_eq!(
            (second.reason, second.conversation.phase),
            (0, Phase::Ended)
        );
        let renewed = Account {
            nt: hashes::nt_hash(&new).ok(),
            ..Account::default()
        };
        assert_eq!(second.record, Some(renewed.keyed()));
        assert_eq!(peer::read_reply(next.id, &reply), Ok(Verdict::Success));
        let again = authenticator::step(&second.conversation, &out, None, &mut reply);
        assert_eq!((again.repeated, again.record), (true, None));
        assert_eq!(again.conversation, second.conversation);
        assert_eq!(peer::read_reply(next.id, &reply), Ok(Verdict::Success));
    }
}

/// The message reader against one that cuts whole words.
#[test]
fn messages() {
    fn digits(word: &[u8], letter: u8, most: usize) -> Option<u64> {
        let rest = word.strip_prefix(&[letter, b'='])?;
        let fits = (1..=most).contains(&rest.len()) && rest.iter().all(u8::is_ascii_digit);
        if fits {
            std::str::from_utf8(rest).ok()?.parse().ok()
        } else {
            None
        }
    }
    fn cut(text: &[u8]) -> Option<message::Fields> {
        if text.len() > 256 {
            return None;
        }
        let words: Vec<&[u8]> = text.split(|octet| *octet == b' ').collect();
        let c = words.iter().find_map(|word| {
            let rest = word.strip_prefix(b"C=")?;
            let fits = rest.len() == 16 && rest.iter().all(u8::is_ascii_hexdigit);
            if fits {
                u64::from_str_radix(std::str::from_utf8(rest).ok()?, 16).ok()
            } else {
                None
            }
        });
        Some(message::Fields {
            e: words.iter().find_map(|word| digits(word, b'E', 10))?,
            r: words
                .iter()
                .find_map(|word| digits(word, b'R', 1).filter(|r| *r < 2))
                .unwrap_or(0) as u8,
            c: c.map(u64::to_be_bytes),
            v: words
                .iter()
                .find_map(|word| digits(word, b'V', 10))
                .unwrap_or(1),
        })
    }
    let mut random = Random(3);
    let pieces: [&[u8]; 24] = [
        b"E=691",
        b"E=648",
        b"R=1",
        b"R=0",
        b"R=",
        b"V=",
        b"V=2",
        b"C=0123456789abCDEF",
        b"C=01234567",
        b"89",
        b" ",
        b" ",
        b" ",
        b"  ",
        b"=",
        b"E",
        b"0",
        b"x",
        b"\t",
        b"99999999",
        b"\xFF",
        b"e=1",
        b"E=",
        b"E=0000000001",
    ];
    let mut read = 0;
    for _ in 0..60_000 {
        let mut text = Vec::new();
        for _ in 0..random.below(14) {
            text.extend_from_slice(pieces[random.below(24)]);
            if random.below(2) > 0 {
                text.push(b' ');
            }
        }
        let result = message::read(&text);
        assert_eq!(result.ok(), cut(&text), "{text:?}");
        read += usize::from(result.is_ok());
    }
    assert!(read > 10_000, "{read}");
}

#[test]
fn script_lines() {
    let mut random = Random(4);
    let words = [
        "md4",
        "rc4",
        "des",
        "unseal",
        "account",
        "limit",
        "list",
        "places",
        "open",
        "step",
        "reply",
        "turn",
        "name",
        "failure",
        "writechange",
        "writechange1",
        "changeversion",
        "underchallenge",
        "fromchallenge",
        "relend",
        "-",
        "7",
        "00",
        "00*8",
        "00*16",
        "AA*20",
        "256",
        "0000",
        "yes",
        "",
        "é",
        ":",
        "*",
        "0*",
        "00*99999999999",
    ];
    let mut session = Session::new();
    for _ in 0..60_000 {
        let count = 1 + random.below(7);
        let line = (0..count)
            .map(|_| words[random.below(words.len())])
            .collect::<Vec<_>>()
            .join(" ");
        assert!(session.line(&line).starts_with(&line));
    }
}
