//! The two implementations side by side: values of one as values of the other, and the same call
//! to both.

use crate::layout;
use crate::random::Random;
use mschap::{sys, Awaited, Call, Challenge, ChangeVersion, Conversation, Issued, LmHash, NtHash};
use mschap::{Password, Peer, Reading, Refusal, Terms, Update};
use reference::authenticator::{self as their, Change, Fault, Phase};
use reference::issued;
use reference::message;
use reference::packet;
use reference::peer::{self, Verdict};

/// What is in a number that is only written.
const FILL: u32 = 0xa5a5_a5a5;

pub fn number<T>(result: &Result<T, Refusal>) -> u32 {
    result
        .as_ref()
        .map_or_else(|refusal| refusal.number(), |_| 0)
}

/// A result of ours with the number alone, to be compared with one of theirs.
pub fn plain<T>(result: Result<T, Refusal>) -> Result<T, u8> {
    result.map_err(|refusal| u8::try_from(refusal.number()).expect("a number"))
}

/// An account of theirs as one of ours, which has no schedules: those of theirs are its own, as
/// they are in every record that the wrapper makes. Others are passed by bytes alone
/// (schedules.rs).
pub fn our_account(account: &their::Account) -> mschap::Account {
    mschap::Account {
        nt_hash: account.nt.map(NtHash),
        lm_hash: account.lm.map(LmHash),
        disabled: account.disabled,
        hours_denied: account.hours,
        dialin_denied: account.no_dialin,
        expired: account.expired,
        failures: account.failures,
    }
}

pub fn their_entry(account: &mschap::Account) -> their::Entry {
    their::Entry {
        nt: account.nt_hash.map(|hash| hash.0),
        lm: account.lm_hash.map(|hash| hash.0),
        disabled: account.disabled,
        hours: account.hours_denied,
        no_dialin: account.dialin_denied,
        expired: account.expired,
        failures: account.failures,
    }
}

pub fn their_account(account: &mschap::Account) -> their::Account {
    their_entry(account).keyed()
}

/// A conversation of ours as one of theirs, by its layout. What is told of it must be the same.
pub fn their_conversation(ours: &Conversation) -> their::Conversation {
    let theirs = layout::to_conversation(ours.as_bytes()).expect("a conversation");
    let awaited = match theirs.phase {
        Phase::Response => Awaited::Response,
        Phase::Change(_) => match theirs.change {
            Change::One => Awaited::ChangeVersion1,
            Change::Two => Awaited::Change,
        },
        Phase::Ended => Awaited::Nothing,
    };
    assert_eq!(
        (ours.awaited(), ours.identifier(), ours.retries()),
        (awaited, theirs.id, theirs.retries),
        "what is told of a conversation"
    );
    theirs
}

/// A conversation of theirs as one of ours; bytes of no effect are drawn: the kept record where no
/// change is awaited, the rest of a last answer where there is none.
pub fn our_conversation(theirs: &their::Conversation, random: &mut Random) -> Conversation {
    let mut bytes = layout::conversation(theirs);
    let kept = match &theirs.phase {
        Phase::Change(kept) => entry_bytes(kept, random),
        _ => {
            let mut drawn = random.array::<{ layout::ENTRY_SIZE }>();
            for flag in layout::ENTRY_FLAGS {
                drawn[flag] &= 1;
            }
            drawn
        }
    };
    bytes[layout::KEPT_AT..layout::LAST_AT].copy_from_slice(&kept);
    if theirs.last.is_none() {
        let [code, id, high, low] = random.array();
        let drawn = match random.below(3) as u8 {
            0 => [0, code, id, 0, 0, 0],
            failure => [0, code, id, failure, high, low],
        };
        bytes[layout::LAST_AT..].copy_from_slice(&drawn);
    }
    Conversation::from_bytes(&bytes).expect("a conversation")
}

/// An entry of theirs in our bytes; a hash that is not there has drawn bytes.
pub fn entry_bytes(entry: &their::Entry, random: &mut Random) -> [u8; layout::ENTRY_SIZE] {
    let mut bytes = layout::entry(entry);
    if entry.nt.is_none() {
        bytes[1..17].copy_from_slice(&random.array::<16>());
    }
    if entry.lm.is_none() {
        bytes[18..34].copy_from_slice(&random.array::<16>());
    }
    bytes
}

/// An account of theirs in our bytes, with its schedules.
pub fn account_bytes(account: &their::Account, random: &mut Random) -> [u8; layout::ACCOUNT_SIZE] {
    let mut bytes = layout::account(account);
    let entry = entry_bytes(&account.entry(), random);
    bytes[..layout::ENTRY_SIZE].copy_from_slice(&entry);
    bytes
}

/// A list of issued challenges in both implementations: ours in one buffer, of which theirs is
/// passed the places, how many are used, and counts that are made here.
#[derive(Clone, Debug, PartialEq, Eq)]
pub struct Passed {
    /// How many of the places are used.
    pub used: u16,
    /// The places.
    pub places: Vec<u8>,
}

/// What an opening is passed beside its list and its buffers.
#[derive(Clone, Copy, Debug)]
pub struct Opening {
    pub id: u8,
    pub challenge: Challenge,
    pub terms: Terms,
}

/// What an opening may say of the change.
pub const CHANGES: [Option<ChangeVersion>; 3] =
    [None, Some(ChangeVersion::One), Some(ChangeVersion::Two)];

/// The terms in the number of the C interface.
pub fn terms_number(terms: &Terms) -> u32 {
    let retries = terms.retries.map_or(0, |count| sys::retries(count.into()));
    let lm = [0, sys::LM_ALLOWED, sys::LM_REFUSED];
    let lm = lm[terms
        .lm_allowed
        .map_or(0, |allowed| 2 - usize::from(allowed))];
    let change = match terms.change {
        None => 0,
        Some(ChangeVersion::One) => sys::CHANGE_1,
        Some(ChangeVersion::Two) => sys::CHANGE_2,
    };
    sys::TERMS | sys::limit(terms.limit.into()) | retries | lm | change
}

impl Passed {
    /// So many places of bytes 0, none of them used.
    pub fn empty(places: usize) -> Passed {
        Passed {
            used: 0,
            places: vec![0; places * sys::CHALLENGE_SIZE],
        }
    }

    /// The list as ours is passed it.
    pub fn bytes(&self) -> Vec<u8> {
        layout::list(self.used, &self.places)
    }

    /// The list after an opening of ours.
    fn read(&mut self, bytes: &[u8]) {
        let (used, places) = layout::to_list(bytes).expect("a list");
        self.used = used as u16;
        self.places = places.to_vec();
    }

    /// An opening of ours over this list.
    pub fn our_open(
        &mut self,
        opening: &Opening,
        conversation: &mut [u8],
        reply: &mut [u8],
    ) -> u32 {
        let mut list = self.bytes();
        let number = sys::open(
            opening.id.into(),
            terms_number(&opening.terms),
            &opening.challenge,
            &mut list,
            conversation,
            reply,
        );
        self.read(&list);
        number
    }

    /// An opening of theirs over this list. The counts that they take are true, or there is no way
    /// to count.
    pub fn their_open(&mut self, opening: &Opening, reply: &mut [u8]) -> their::Opening {
        let mut counts = [0; 256];
        for place in self
            .places
            .chunks(sys::CHALLENGE_SIZE)
            .take(self.used.into())
        {
            if let [.., last] = place {
                counts[usize::from(*last)] += 1;
            }
        }
        let mut passed = issued::Issued {
            list: &mut self.places,
            used: self.used.into(),
            counts: &mut counts,
        };
        let Opening {
            id,
            challenge,
            terms,
        } = opening;
        let Terms {
            limit,
            retries,
            lm_allowed,
            change,
        } = *terms;
        let terms = their::Terms {
            retries,
            lm: lm_allowed,
            change: change.map(|version| match version {
                ChangeVersion::One => Change::One,
                ChangeVersion::Two => Change::Two,
            }),
        };
        let opened = their::open(*id, challenge, &terms, limit, &mut passed, reply);
        self.used = passed.used as u16;
        opened
    }

    /// A list of ours holds the same.
    pub fn agrees(&self, ours: &Issued) {
        let places = self.places.len() / sys::CHALLENGE_SIZE;
        let used = usize::from(self.used);
        assert_eq!((ours.places(), ours.used()), (places, used));
        assert_eq!(ours.left(), places - used);
        let (_, held) = layout::to_list(ours.as_bytes()).expect("a list");
        let used = used * sys::CHALLENGE_SIZE;
        assert_eq!(held[..used], self.places[..used], "the issued challenges");
    }
}

/// A conversation in both implementations.
pub struct Boxes {
    pub ours: Conversation,
    pub theirs: their::Conversation,
}

/// What a step gave, the same in both.
pub struct Outcome {
    pub refusal: u8,
    pub reason: u16,
    pub repeated: bool,
    /// The number of what is wrong with a change; 0 is none.
    pub fault: u8,
    pub written: usize,
    /// The record that is handed out, after a judged Response or an accepted change.
    pub handed: Option<their::Account>,
}

impl Outcome {
    /// Whether the packet was judged.
    pub fn is_judged(&self) -> bool {
        self.refusal == 0 && !self.repeated
    }
}

impl Boxes {
    /// The same conversation once more.
    pub fn copy(&self) -> Boxes {
        Boxes {
            ours: self.ours,
            theirs: self.theirs,
        }
    }

    /// One step in both, each with its own buffer of the same bytes. Answer, next conversation,
    /// handed-out record and the whole buffers must agree.
    pub fn step(
        &mut self,
        packet: &[u8],
        record: Option<&their::Account>,
        our_reply: &mut [u8],
        their_reply: &mut [u8],
    ) -> Outcome {
        let before = self.ours;
        let awaited = before.awaited();
        let passed = our_reply.to_vec();
        let ours = self
            .ours
            .step(packet, record.map(our_account).as_ref(), our_reply);
        let theirs = their::step(&self.theirs, packet, record, their_reply);
        self.theirs = theirs.conversation;
        assert_eq!(number(&ours), u32::from(theirs.refusal), "the answer");
        assert_eq!(our_reply, their_reply, "the reply buffer");
        assert_eq!(
            their_conversation(&self.ours),
            self.theirs,
            "the next conversation"
        );
        match ours {
            Ok(judged) => {
                assert_eq!(judged.size, theirs.written, "the reply's size");
                let reason = judged.reason.number();
                assert_eq!(reason, u32::from(theirs.reason), "the reason");
                assert_eq!(judged.repeated, theirs.repeated, "whether it is a repeat");
                let fault = u32::from(Fault::number(theirs.fault));
                assert_eq!(judged.fault.number(), fault, "the fault");
                assert!(fault == 0 || reason == 709, "a fault beside {reason}");
                let handed = judged.update.account().map(their_entry);
                let entry = theirs.record.map(|record| record.entry());
                assert_eq!(handed, entry, "the record");
                // by what the conversation awaited: not by the packet, nor by the record
                let kind = match judged.update {
                    Update::Nothing => None,
                    Update::Counted(_) => Some(true),
                    Update::Changed(_) => Some(false),
                };
                let counts = awaited == Awaited::Response;
                assert_eq!(kind, handed.map(|_| counts), "the kind of record");
            }
            Err(_) => {
                assert_eq!(self.ours, before, "a refusal changes nothing");
                assert_eq!(our_reply, passed, "a refusal writes nothing");
            }
        }
        Outcome {
            refusal: theirs.refusal,
            reason: theirs.reason,
            repeated: theirs.repeated,
            fault: Fault::number(theirs.fault),
            written: theirs.written,
            handed: theirs.record,
        }
    }
}

/// A peer in both implementations. Theirs has no state: what document 01 says of it is put together
/// here, by the last packet and the next one.
#[derive(Clone)]
pub struct Peers {
    ours: Peer,
    sent: Option<peer::Turn>,
    turn: peer::Turn,
}

fn drawn_turn(random: &mut Random) -> peer::Turn {
    peer::Turn {
        id: random.octet(),
        challenge: random.array(),
    }
}

impl Peers {
    /// The peers after a Challenge; each reads its own copy. Nothing is sent yet.
    pub fn read_challenge(ours: &[u8], theirs: &[u8]) -> Result<Peers, u8> {
        let read = peer::read_challenge(theirs);
        let ours = plain(Peer::read_challenge(ours));
        assert_eq!(ours.err(), read.err(), "the Challenge's answer");
        let peers = Peers {
            ours: ours?,
            sent: None,
            turn: read?,
        };
        peers.agree();
        Ok(peers)
    }

    /// Peers that sent something and may have read something since.
    pub fn drawn(random: &mut Random) -> Peers {
        let (sent, turn) = (drawn_turn(random), drawn_turn(random));
        let bytes = layout::peer(Some(&sent), &turn);
        Peers {
            ours: Peer::from_bytes(&bytes).expect("a peer"),
            sent: Some(sent),
            turn,
        }
    }

    /// The identifier of the last packet, which there is.
    pub fn last(&self) -> u8 {
        self.sent.expect("a packet was sent").id
    }

    /// Identifier and challenge of the next packet.
    pub fn turn(&self) -> peer::Turn {
        self.turn
    }

    fn agree(&self) {
        let theirs = layout::peer(self.sent.as_ref(), &self.turn);
        assert_eq!(*self.ours.as_bytes(), theirs, "the peers");
    }

    /// A packet was written into two buffers that held the same bytes, `passed`; a refusal left
    /// buffer and peer as they were. `before` is our peer before it.
    fn wrote(
        &mut self,
        before: Peer,
        answer: Result<usize, u8>,
        written: peer::Written,
        out: [&[u8]; 3],
    ) -> Result<usize, u8> {
        let [ours, theirs, passed] = out;
        assert_eq!(ours, theirs, "the packet and what lies behind it");
        let expected = match written.refusal {
            0 => Ok(written.written),
            refusal => Err(refusal),
        };
        assert_eq!(answer, expected, "the writer's answer");
        match answer {
            Ok(_) => self.sent = Some(self.turn),
            Err(_) => assert_eq!(
                (self.ours, ours),
                (before, passed),
                "a refusal changes nothing"
            ),
        }
        self.agree();
        answer
    }

    /// The Response of both, into a buffer that holds the packet afterwards.
    pub fn write_response(
        &mut self,
        password: &[u8],
        name: &[u8],
        out: &mut [u8],
    ) -> Result<usize, u8> {
        let (before, passed, mut theirs) = (self.ours, out.to_vec(), out.to_vec());
        let ours = Password::from_utf16_bytes(password);
        let answer = plain(ours.and_then(|ours| self.ours.write_response(&ours, name, out)));
        let written = peer::write_response(&self.turn, password, name, &mut theirs);
        self.wrote(before, answer, written, [out, &theirs, &passed])
    }

    /// The version 2 change of both, into a buffer that holds the packet afterwards.
    pub fn write_change(
        &mut self,
        old: &[u8],
        new: &[u8],
        filler: &[u8; sys::FILLER_SIZE],
        out: &mut [u8],
    ) -> Result<usize, u8> {
        let (before, passed, mut theirs) = (self.ours, out.to_vec(), out.to_vec());
        let ours = Password::from_utf16_bytes(old)
            .and_then(|old| Ok((old, Password::from_utf16_bytes(new)?)));
        let answer =
            plain(ours.and_then(|(old, new)| self.ours.write_change(&old, &new, filler, out)));
        let written = peer::write_change(&self.turn, old, new, filler, &mut theirs);
        self.wrote(before, answer, written, [out, &theirs, &passed])
    }

    /// The version 1 change of both, into a buffer that holds the packet afterwards.
    pub fn write_change_1(&mut self, old: &[u8], new: &[u8], out: &mut [u8]) -> Result<usize, u8> {
        let (before, passed, mut theirs) = (self.ours, out.to_vec(), out.to_vec());
        let ours = Password::from_utf16_bytes(old)
            .and_then(|old| Ok((old, Password::from_utf16_bytes(new)?)));
        let answer = plain(ours.and_then(|(old, new)| self.ours.write_change_1(&old, &new, out)));
        let written = peer::write_change_1(&self.turn, old, new, &mut theirs);
        self.wrote(before, answer, written, [out, &theirs, &passed])
    }

    /// Both read a reply, each its own copy, and ours reads it twice, which must give the same. A
    /// refused packet leaves the peer, and the numbers that were passed, as they were.
    pub fn read_reply(&mut self, ours: &[u8], theirs: &[u8]) -> Result<Verdict, u8> {
        let before = self.ours;
        let reading = match self.sent {
            Some(sent) => peer::read_reply(sent.id, theirs),
            // no packet has the identifier of the last one: 5, behind the frame's 3
            None => Err(packet::frame(theirs).err().unwrap_or(5)),
        };
        if let (Some(sent), Ok(_)) = (self.sent, &reading) {
            self.turn = peer::next_turn(&sent, &reading);
        }
        let expected = reading.as_ref().map(our_reading).map_err(|number| *number);
        for _ in 0..2 {
            let answer = plain(self.ours.read_reply(ours));
            assert_eq!(answer, expected, "the reading of {ours:?}");
            self.agree();
        }
        let mut bytes = *before.as_bytes();
        let (mut call, mut reason) = (FILL, FILL.into());
        let number = sys::read_reply(&mut bytes, ours, &mut call, &mut reason);
        assert_eq!(number, u32::from(reading.err().unwrap_or(0)));
        assert_eq!(&bytes, self.ours.as_bytes(), "the peer by its bytes");
        if reading.is_err() {
            let same = (before, FILL, FILL.into());
            let after = (self.ours, call, reason);
            assert_eq!(after, same, "a refusal changes nothing");
        }
        reading
    }
}

/// A verdict of theirs as a reading of ours.
pub fn our_reading(verdict: &Verdict) -> Reading {
    match verdict {
        Verdict::Success => Reading {
            call: Call::Nothing,
            reason: 0,
        },
        Verdict::Failure(fields) => Reading {
            call: match fields.call() {
                message::Call::Retry => Call::Response,
                message::Call::Change2 => Call::Change,
                message::Call::Change1 => Call::ChangeVersion1,
                message::Call::End => Call::End,
            },
            reason: fields.e,
        },
    }
}
