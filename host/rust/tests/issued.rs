//! The list of issued challenges, by examples.

mod layout;

use mschap::{Conversation, Issued, Refusal, Terms, LIST_PLACES, REPLY_SIZE};

/// The challenge of the examples with this first byte.
fn challenge(first: u8) -> [u8; 8] {
    [first, 2, 3, 4, 5, 6, 7, 8]
}

fn open(issued: &mut Issued, first: u8, retries: u8) -> Result<(), Refusal> {
    let terms = Terms {
        retries: Some(retries),
        ..Terms::new(1)
    };
    let mut reply = [0; REPLY_SIZE];
    let opening = Conversation::open(1, terms, &challenge(first), issued, &mut reply);
    opening.map(|(conversation, _)| {
        let opened = layout::to_conversation(conversation.as_bytes());
        assert_eq!(opened.expect("a conversation").challenge, challenge(first));
    })
}

/// The list holds the challenges with these first bytes.
fn holds(issued: &Issued, firsts: &[u8]) {
    let all: Vec<u8> = firsts.iter().flat_map(|first| challenge(*first)).collect();
    let (used, places) = layout::to_list(issued.as_bytes()).expect("a list");
    assert_eq!(places[..used * 8], all);
    assert_eq!(issued.used(), firsts.len());
    assert_eq!(issued.left(), issued.places() - firsts.len());
}

#[test]
fn a_challenge_and_its_successors_are_spent() {
    let mut issued = Issued::new(8);
    assert_eq!(open(&mut issued, 0x01, 2), Ok(()));
    holds(&issued, &[0x01, 0x18, 0x2F]);
    assert_eq!(open(&mut issued, 0x18, 0), Err(Refusal::Spent));
    // its successor 01 is there, which matters only where there is a retry
    assert_eq!(open(&mut issued, 0xEA, 1), Err(Refusal::Spent));
    assert_eq!(open(&mut issued, 0xEA, 0), Ok(()));
    // no carry: after E9 comes 00
    assert_eq!(open(&mut issued, 0xE9, 1), Ok(()));
    holds(&issued, &[0x01, 0x18, 0x2F, 0xEA, 0xE9, 0x00]);
}

#[test]
fn a_full_list_stays_full_until_it_is_emptied() {
    let mut issued = Issued::new(2);
    assert_eq!(open(&mut issued, 0x01, 0), Ok(()));
    assert_eq!(open(&mut issued, 0x01, 1), Err(Refusal::Spent));
    assert_eq!(open(&mut issued, 0x50, 1), Err(Refusal::ListFull));
    holds(&issued, &[0x01]);
    assert_eq!(open(&mut issued, 0x50, 0), Ok(()));
    assert_eq!(open(&mut issued, 0x60, 0), Err(Refusal::ListFull));
    assert_eq!(open(&mut issued, 0x50, 7), Err(Refusal::Spent));
    holds(&issued, &[0x01, 0x50]);
    issued.empty();
    holds(&issued, &[]);
    assert_eq!(open(&mut issued, 0x50, 1), Ok(()));
    holds(&issued, &[0x50, 0x67]);
}

#[test]
fn a_list_with_room_for_one_opening() {
    for first in 0..=255 {
        let mut issued = Issued::new(8);
        assert_eq!(open(&mut issued, first, 7), Ok(()));
        assert_eq!(issued.left(), 0);
    }
    assert_eq!(open(&mut Issued::new(0), 1, 0), Err(Refusal::ListFull));
}

/// An opening with no limit is refused before all else, and spends nothing.
#[test]
fn no_limit() {
    let mut issued = Issued::new(2);
    for retries in [0, 1, 2, 7, 8, 255] {
        for room in [0, REPLY_SIZE] {
            let terms = Terms {
                retries: Some(retries),
                ..Terms::new(0)
            };
            let mut reply = vec![0xA5; room];
            let opening = Conversation::open(1, terms, &challenge(1), &mut issued, &mut reply);
            assert_eq!(opening, Err(Refusal::NoLimit), "{retries} retries, {room}");
            assert_eq!(reply, vec![0xA5; room]);
            holds(&issued, &[]);
        }
    }
    assert_eq!(open(&mut issued, 1, 1), Ok(()));
    holds(&issued, &[1, 24]);
    assert_eq!(Refusal::NoLimit.number(), 18);
}

#[test]
fn at_most_4096_places() {
    for places in [LIST_PLACES, LIST_PLACES + 1, usize::MAX] {
        let mut issued = Issued::new(places);
        assert_eq!(issued.places(), 4096);
        assert_eq!(open(&mut issued, 1, 7), Ok(()));
        assert_eq!(issued.left(), 4088);
    }
}

/// All challenges of one list end alike, so that each count that an opening makes is past a byte's
/// range.
#[test]
fn four_thousand_places_that_end_alike() {
    let mut issued = Issued::new(LIST_PLACES);
    let mut reply = [0; REPLY_SIZE];
    let terms = Terms {
        retries: Some(7),
        ..Terms::new(255)
    };
    for number in 0..512u16 {
        let [high, low] = number.to_be_bytes();
        let challenge = [0, high, low, 0, 0, 0, 0, 8];
        let opening = Conversation::open(1, terms, &challenge, &mut issued, &mut reply);
        assert!(opening.is_ok(), "{number}");
    }
    assert_eq!((issued.used(), issued.left()), (4096, 0));
    assert_eq!(open(&mut issued, 1, 0), Err(Refusal::ListFull));
    let last = [161, 1, 255, 0, 0, 0, 0, 8];
    let opening = Conversation::open(1, terms, &last, &mut issued, &mut reply);
    assert_eq!(opening, Err(Refusal::Spent));
}

#[test]
fn a_stored_list_is_restored() {
    let mut issued = Issued::new(6);
    assert_eq!(open(&mut issued, 0x01, 2), Ok(()));
    assert_eq!(open(&mut issued, 0xEA, 0), Ok(()));
    let stored = issued.as_bytes().to_vec();
    drop(issued);

    let mut issued = Issued::from_bytes(&stored).expect("a list");
    assert_eq!(issued.places(), 6);
    holds(&issued, &[0x01, 0x18, 0x2F, 0xEA]);
    for spent in [0x01, 0x18, 0x2F, 0xEA] {
        assert_eq!(open(&mut issued, spent, 0), Err(Refusal::Spent));
    }
    assert_eq!(open(&mut issued, 0x50, 1), Ok(()));
    holds(&issued, &[0x01, 0x18, 0x2F, 0xEA, 0x50, 0x67]);
}

/// What CHANGELOG.md says of a list from before values had a kind: an opening with no retry for
/// each used place, of which nothing is sent.
#[test]
fn a_list_of_before_is_carried_over() {
    let firsts = [0x01, 0x18, 0x2F, 0xEA, 0x67];
    let mut issued = Issued::new(8);
    for first in firsts {
        assert_eq!(open(&mut issued, first, 0), Ok(()));
    }
    holds(&issued, &firsts);
}

#[test]
fn what_is_no_stored_list() {
    let places = vec![0; (LIST_PLACES + 1) * 8];
    for (used, size) in [
        // not whole
        (0, 1),
        (0, 7),
        (1, 9),
        (0, LIST_PLACES * 8 - 1),
        // more used than there are
        (1, 0),
        (3, 16),
        (4097, LIST_PLACES * 8),
        (65_535, 8),
        // too many places
        (0, LIST_PLACES * 8 + 8),
    ] {
        let list = layout::list(used, &places[..size]);
        let answer = Issued::from_bytes(&list).map(|issued| issued.used());
        assert_eq!(
            answer,
            Err(Refusal::BadArgument),
            "{used} used, {size} bytes"
        );
    }
    let full = layout::list(4096, &places[8..]);
    let mut issued = Issued::from_bytes(&full).expect("a list");
    assert_eq!(issued.left(), 0);
    assert_eq!(open(&mut issued, 1, 0), Err(Refusal::ListFull));
    // the bare challenges, which were stored before values had a kind
    for bare in [&places[..0], &places[..8], &places[..2400]] {
        assert!(Issued::from_bytes(bare).is_err(), "{} bytes", bare.len());
    }
}
