//! Openings over lists of issued challenges, by buffers: lists of every fill, lists that are none,
//! and one list that forty boxes fill. Answer, conversation, reply, places and how many are used
//! must agree, and the answer must be the one that the case was made for.

use crate::both::{terms_number, their_conversation, Opening, Passed, CHANGES};
use crate::layout;
use crate::packets;
use crate::random::Random;
use crate::run::{run, Seen};
use mschap::{sys, Challenge, Conversation, Terms};
use reference::issued::entries_of;
use std::collections::HashSet;

const WIDTH: usize = sys::CHALLENGE_SIZE;

/// One opening in both, each over its own list with the same bytes.
fn open(
    random: &mut Random,
    passed: &Opening,
    size: usize,
    ours: &mut Passed,
    theirs: &mut Passed,
) -> u32 {
    let before = ours.clone();
    let drawn: [u8; sys::CONVERSATION_SIZE] = random.array();
    let mut conversation = drawn;
    let reply = random.octets(size);
    let (mut our_reply, mut their_reply) = (reply.clone(), reply.clone());

    let number = ours.our_open(passed, &mut conversation, &mut our_reply);
    let opening = theirs.their_open(passed, &mut their_reply);
    assert_eq!(number, u32::from(opening.refusal), "the answer");
    assert_eq!(our_reply, their_reply, "the reply buffer");
    agree(ours, theirs);
    if number == sys::OK {
        let expected = layout::conversation(&opening.conversation);
        assert_eq!(conversation, expected, "the conversation");
        let next = Conversation::from_bytes(&conversation).expect("a conversation");
        assert_eq!(their_conversation(&next), opening.conversation);
    } else {
        assert_eq!(conversation, drawn, "a refusal writes no conversation");
        assert_eq!(our_reply, reply, "a refusal writes no reply");
        agree(ours, &before);
    }
    number
}

/// The two lists are the same. Of long ones only the first place that differs is told.
fn agree(one: &Passed, other: &Passed) {
    assert_eq!(one.used, other.used, "the places used");
    let mut pairs = one.places.chunks(WIDTH).zip(other.places.chunks(WIDTH));
    assert_eq!(pairs.position(|(a, b)| a != b), None, "a place of the list");
    assert_eq!(one.places.len(), other.places.len());
}

/// A challenge of a small set: few last bytes, and first bytes some steps of 23 from each other.
fn near(random: &mut Random) -> Challenge {
    let first = (random.below(12) * 23 + random.below(2)) as u8;
    let last = random.pick(&[0, 8, 8, 255]);
    [first, 2, 3, 4, 5, 6, random.pick(&[7, 7, 7, 8]), last]
}

fn drawn(random: &mut Random) -> Opening {
    let challenge = match random.below(5) {
        0 => random.array(),
        _ => near(random),
    };
    let retries = match random.below(40) {
        0 => Some(8),
        1 => Some(random.octet()),
        2..=5 => None,
        _ => Some(random.below(8) as u8),
    };
    Opening {
        id: random.octet(),
        challenge,
        terms: Terms {
            limit: match random.below(40) {
                0 => 0,
                _ => packets::limit(random),
            },
            retries,
            lm_allowed: random.pick(&[Some(false), Some(true), None]),
            change: random.pick(&CHANGES),
        },
    }
}

/// What an opening spends; as with 7 retries where it asks for more.
fn spent_by(opening: &Opening) -> Vec<Challenge> {
    let retries = opening.terms.retries.unwrap_or(2).min(7);
    entries_of(&opening.challenge, retries)
}

/// A list of so many places, none of whose entries the opening spends. What is in the unused places
/// is drawn too.
fn list(random: &mut Random, places: usize, spent: &[Challenge], seen: &mut Seen) -> Passed {
    let used = match random.below(7) {
        0 => 0,
        1 => places / 2,
        2 => places.saturating_sub(spent.len()),
        3 => (places + 1).saturating_sub(spent.len()).min(places),
        4 => places.saturating_sub(1),
        5 => places,
        _ => random.between(0, places),
    };
    let left = places - used;
    for (is_so, what) in [
        (used == 0, "list: empty"),
        (places > 1 && used == places / 2, "list: half full"),
        (left == spent.len(), "list: r + 1 places left"),
        (left + 1 == spent.len(), "list: r places left"),
        (left == 1, "list: one place left"),
        (left == 0, "list: full"),
    ] {
        if is_so {
            seen.note(what);
        }
    }
    let few = random.chance(60);
    let mut entries = Vec::with_capacity(places * WIDTH);
    while entries.len() < places * WIDTH {
        let entry = if few { near(random) } else { random.array() };
        if !spent.contains(&entry) {
            entries.extend(entry);
        }
    }
    Passed {
        used: used as u16,
        places: entries,
    }
}

fn put(passed: &mut Passed, place: usize, entry: &Challenge) {
    passed.places[place * WIDTH..][..WIDTH].copy_from_slice(entry);
}

/// Puts a challenge that the opening spends into the list, at a drawn place or at none.
fn plant(random: &mut Random, passed: &mut Passed, spent: &[Challenge]) -> &'static str {
    let places = passed.places.len() / WIDTH;
    let used = usize::from(passed.used);
    match random.below(9) {
        0 if used > 0 => {
            put(passed, 0, &spent[0]);
            "spent: first"
        }
        1 if used > 0 => {
            put(passed, used - 1, &spent[0]);
            "spent: last"
        }
        2 if used > 2 => {
            put(passed, random.between(1, used - 2), &spent[0]);
            "spent: in the middle"
        }
        3 if used > 0 && spent.len() > 1 => {
            let successor = random.between(1, spent.len() - 1);
            put(passed, random.below(used), &spent[successor]);
            "spent: a successor"
        }
        4 if used > 0 && spent.len() > 1 => {
            put(passed, random.below(used), &spent[spent.len() - 1]);
            "spent: the last successor"
        }
        5 if used < places => {
            put(passed, random.between(used, places - 1), &spent[0]);
            put(passed, used, &random.pick(spent));
            "not spent: in an unused place"
        }
        // the challenge before this one, and the one behind the last successor
        6 if used > 0 => {
            let (mut other, step) = match random.below(2) {
                0 => (spent[0], 256 - 23),
                _ => (spent[spent.len() - 1], 23),
            };
            other[0] = other[0].wrapping_add(step as u8);
            put(passed, random.below(used), &other);
            "not spent: beside them"
        }
        // the same in seven bytes
        7 if used > 0 => {
            let mut other = random.pick(spent);
            other[random.between(1, 7)] ^= 1 << random.below(8);
            put(passed, random.below(used), &other);
            "not spent: seven octets the same"
        }
        _ => "not spent",
    }
}

/// Makes the list one that is to be refused with 24, or leaves it as it is.
fn spoil(random: &mut Random, passed: &mut Passed) -> &'static str {
    let places = passed.places.len() / WIDTH;
    match random.below(40) {
        0..=2 => {
            let more = random.between(1, 7);
            passed.places.extend(random.octets(more));
            "bytes over"
        }
        3..=5 if places > passed.used.into() => {
            let size = passed.places.len() - random.between(1, 7);
            passed.places.truncate(size);
            "bytes missing"
        }
        6..=7 => {
            passed.used = places as u16 + 1;
            "used: one over"
        }
        8..=10 => {
            let over = places as u16 + 1;
            let any = random.pick(&[over + 1, 2 * over, 4096, 4097, u16::MAX]);
            passed.used = any.max(over);
            "used: any"
        }
        _ => "a list",
    }
}

/// Bytes that are no list: of another kind or version, or too short to have one. They are refused
/// with 100, whatever else is wrong, and nothing changes.
fn no_list(random: &mut Random, opening: &Opening, passed: &Passed, size: usize, seen: &mut Seen) {
    let mut list = passed.bytes();
    seen.note(match random.below(3) {
        0 => {
            list[0] = list[0].wrapping_add(random.between(1, 255) as u8);
            "no list: another kind"
        }
        1 => {
            list[1] = list[1].wrapping_add(random.between(1, 255) as u8);
            "no list: another version"
        }
        _ => {
            list.truncate(random.below(layout::LIST_HEAD));
            "no list: too short"
        }
    });
    let drawn: [u8; sys::CONVERSATION_SIZE] = random.array();
    let reply = random.octets(size);
    let (mut after, mut conversation, mut written) = (list.clone(), drawn, reply.clone());
    let number = sys::open(
        opening.id.into(),
        terms_number(&opening.terms),
        &opening.challenge,
        &mut after,
        &mut conversation,
        &mut written,
    );
    assert_eq!(number, sys::BAD_ARGUMENT);
    assert_eq!((after, conversation, written), (list, drawn, reply));
}

fn opening(random: &mut Random, seen: &mut Seen, places: usize) {
    let opening = drawn(random);
    let spent = spent_by(&opening);
    let mut passed = list(random, places, &spent, seen);
    let planted = plant(random, &mut passed, &spent);
    let few = places - usize::from(passed.used) < spent.len();
    let spoiled = spoil(random, &mut passed);
    let size = match random.below(20) {
        0 => 16,
        1 => random.below(17),
        2..=4 => random.between(17, 40),
        _ => 17,
    };
    if random.chance(10) {
        no_list(random, &opening, &passed, size, seen);
    }
    let sound = spoiled == "a list" && places <= sys::LIST_PLACES;
    let told = if sound {
        passed.used.into()
    } else {
        sys::INVALID
    };
    assert_eq!(sys::list_used(&passed.bytes()), told, "{spoiled}");
    let mut theirs = passed.clone();
    let number = open(random, &opening, size, &mut passed, &mut theirs);

    let Terms { limit, retries, .. } = opening.terms;
    let answer = if limit == 0 {
        18
    } else if retries.is_some_and(|retries| retries > 7) {
        13
    } else if size < 17 {
        2
    } else if !sound {
        24
    } else if planted.starts_with("spent") {
        16
    } else if few {
        17
    } else {
        sys::OK
    };
    assert_eq!(number, answer, "{planted}; {spoiled}; {opening:?}");
    seen.note(format!("answer {number}"));
    seen.note(format!("{spoiled}: {number}"));
    if spoiled == "a list" && retries != Some(8) {
        let few = if few { ", too few places" } else { "" };
        seen.note(format!("{planted}{few}: {number}"));
    }
    if number == sys::OK {
        seen.note(format!("accepted, retries {retries:?}"));
    }
    if retries == Some(8) || size == 16 {
        let what = if retries == Some(8) {
            "8 retries"
        } else {
            "a reply of 16"
        };
        seen.note(format!("{what}: {number}"));
    }
    if places >= sys::LIST_PLACES {
        seen.note(format!("{places} places: {number}"));
    }
}

/// What must have been met, whatever the number of places.
fn expect(seen: &Seen) {
    for number in [0, 18, 13, 2, 24, 16, 17] {
        seen.expect(&[&format!("answer {number}")]);
    }
    for spoiled in ["bytes over", "bytes missing", "used: one over", "used: any"] {
        seen.expect(&[&format!("{spoiled}: 24")]);
    }
    for planted in [
        "spent: first",
        "spent: last",
        "spent: in the middle",
        "spent: a successor",
        "spent: the last successor",
    ] {
        seen.expect(&[&format!("{planted}: 16")]);
        seen.expect(&[&format!("{planted}, too few places: 16")]);
    }
    for planted in [
        "not spent",
        "not spent: in an unused place",
        "not spent: beside them",
        "not spent: seven octets the same",
    ] {
        seen.expect(&[&format!("{planted}: 0")]);
        seen.expect(&[&format!("{planted}, too few places: 17")]);
    }
    seen.expect(&[
        "list: empty",
        "list: half full",
        "list: r + 1 places left",
        "list: r places left",
        "list: one place left",
        "list: full",
        "8 retries: 13",
        "a reply of 16: 2",
        "no list: another kind",
        "no list: another version",
        "no list: too short",
    ]);
}

#[test]
fn lists_agree() {
    let seen = run("lists", 150_000, |random, seen| {
        let places = random.below_any(&[4, 12, 12, 40]);
        opening(random, seen, places);
    });
    expect(&seen);
    for retries in (0..8).map(Some).chain([None]) {
        seen.expect(&[&format!("accepted, retries {retries:?}")]);
    }
    for spoiled in ["bytes over", "used: one over"] {
        for number in [18, 13, 2] {
            seen.expect(&[&format!("{spoiled}: {number}")]);
        }
    }
    // the limit is looked at before all else
    for what in ["8 retries: 18", "a reply of 16: 18", "spent: first: 18"] {
        seen.expect(&[what]);
    }
}

/// The longest lists, and lists with one place more than they may have.
#[test]
fn long_lists_agree() {
    let seen = run("long lists", 1_000, |random, seen| {
        let places = random.pick(&[4095, 4096, 4096, 4096, 4096, 4096, 4096, 4097]);
        opening(random, seen, places);
    });
    expect(&seen);
    for number in [0, 13, 2, 24, 16, 17] {
        seen.expect(&[&format!("4096 places: {number}")]);
    }
    seen.expect(&["4097 places: 24"]);
}

/// Forty boxes open over one list until it is full, and go on. Some challenges are drawn again, so
/// that openings are refused on the way. At the end all entries differ.
fn boxes(random: &mut Random, seen: &mut Seen, places: usize) {
    let mut ours = Passed::empty(places);
    ours.places = random.octets(places * WIDTH);
    let mut theirs = ours.clone();
    let retries: [u8; 40] = random.array::<40>().map(|octet| octet % 8);
    let draw = |random: &mut Random, retries| Opening {
        id: random.octet(),
        challenge: {
            let octet = random.below(places / 512 + 1) as u8;
            [random.octet(), 2, 3, 4, 5, 6, octet, random.below(16) as u8]
        },
        terms: Terms {
            limit: packets::limit(random),
            retries: Some(retries),
            lm_allowed: Some(true),
            change: random.pick(&CHANGES),
        },
    };
    let mut number = sys::OK;
    while usize::from(ours.used) < places {
        // Where this box finds too few places left, one with no retries may not.
        let retries = if number == 17 {
            0
        } else {
            random.pick(&retries)
        };
        let opening = draw(random, retries);
        let before = ours.used;
        number = open(random, &opening, 17, &mut ours, &mut theirs);
        seen.note(format!("answer {number}"));
        if number == sys::OK {
            assert_eq!(ours.used, before + u16::from(retries) + 1);
            let first = &ours.places[usize::from(before) * WIDTH..][..WIDTH];
            assert_eq!(first, opening.challenge);
        }
    }
    let all: HashSet<&[u8]> = ours.places.chunks(WIDTH).collect();
    assert_eq!(all.len(), places, "an entry is there twice");
    let all: HashSet<Vec<u8>> = all.into_iter().map(<[u8]>::to_vec).collect();

    for _ in 0..10 {
        let retries = random.pick(&retries);
        let opening = draw(random, retries);
        let spent = spent_by(&opening);
        let again = spent.iter().any(|entry| all.contains(&entry[..]));
        let number = open(random, &opening, 17, &mut ours, &mut theirs);
        assert_eq!(number, if again { 16 } else { 17 });
        seen.note(format!("full: {number}"));
    }
}

#[test]
fn forty_boxes_agree() {
    let few = run("forty boxes", 40, |random, seen| {
        let places = random.pick(&[1, 8, 40, 100, 257, 300]);
        boxes(random, seen, places);
    });
    let many = run("forty boxes, 4,096 places", 1, |random, seen| {
        boxes(random, seen, sys::LIST_PLACES);
    });
    few.expect(&["answer 0", "answer 16", "answer 17", "full: 16", "full: 17"]);
    many.expect(&["answer 0", "answer 16", "full: 16"]);
}
