//! Values that were stored and are passed again, sound and spoiled: of another version, with the
//! kind of another value, cut short by each length, longer, and with each byte in turn changed to
//! each other value. Every call answers what the value's layout and the independent implementation
//! predict, or refuses the value with 100; then it leaves all that it was passed as it was.

mod layout;

use layout::{Told, ANSWER_SIZE, KINDS, LIST_HEAD, RECORD_SIZE};
use mschap::sys;
use mschap::{Refusal, Terms, Update};
use reference::authenticator::{self as their, Account, Conversation, Entry};
use reference::authenticator::{Change, Fault, Last, Phase, Reply};
use reference::message::Call;
use reference::peer::{self, Turn, Verdict};
use reference::{hashes, issued, packet, smbpasswd};

const FILL: u8 = 0xA5;
const CHALLENGE: [u8; 8] = [1, 2, 3, 4, 5, 6, 7, 8];
const NEXT: [u8; 8] = [24, 2, 3, 4, 5, 6, 7, 8];
const PASSWORD: &[u8] = b"P\0\xe4\0w\0";
const LIMIT: u8 = 5;
const TERMS: u32 = sys::TERMS | sys::limit(LIMIT as u32) | sys::LM_ALLOWED | sys::retries(1);

/// How often calls were answered and refused.
#[derive(Default)]
struct Seen {
    answered: usize,
    refused: usize,
    repeated: usize,
}

impl Seen {
    fn note(&mut self, valid: bool) {
        match valid {
            true => self.answered += 1,
            false => self.refused += 1,
        }
    }
}

/// What each byte of a value is changed by: to each other value. Of schedules, which may be any
/// bytes and are most of a record and of an answer, each bit and all of them.
fn changes(size: usize, place: usize) -> Vec<u8> {
    let keys = match size {
        RECORD_SIZE | ANSWER_SIZE => size - 2 * layout::KEYS_SIZE,
        _ => size,
    };
    match place < keys {
        true => (1..=255).collect(),
        false => vec![1, 2, 4, 8, 16, 32, 64, 128, 255],
    }
}

/// Calls `check` with the value and with all that is made of it; gives how many there were.
fn spoiled(value: &[u8], mut check: impl FnMut(&[u8])) -> usize {
    let mut count = 0;
    let mut each = |bytes: &[u8]| {
        check(bytes);
        count += 1;
    };
    each(value);
    for size in 0..value.len() {
        each(&value[..size]);
        each(&value[value.len() - size..]);
    }
    for more in 1..=9 {
        for byte in [0, FILL] {
            let mut bytes = value.to_vec();
            bytes.resize(value.len() + more, byte);
            each(&bytes);
        }
    }
    for place in 0..value.len() {
        for change in changes(value.len(), place) {
            let mut bytes = value.to_vec();
            bytes[place] ^= change;
            each(&bytes);
        }
    }
    // of another kind, with this one's size and with that one's
    let own = value.len();
    for kind in KINDS {
        for size in [
            own, 21, 41, 42, 43, 44, 45, 46, 52, 58, 59, 60, 61, 62, 516, 810, 814,
        ] {
            for version in [0, 1, 2, 3, 4, 5, 6, 255] {
                let mut bytes = value.to_vec();
                bytes.resize(size, 0);
                bytes[..2].copy_from_slice(&[kind, version]);
                each(&bytes);
            }
        }
    }
    // what was stored before values had a kind
    for bare in [2, 4] {
        each(&value[bare..]);
    }
    count
}

fn entry() -> Entry {
    Entry {
        nt: hashes::nt_hash(PASSWORD).ok(),
        lm: Some([9; 16]),
        disabled: false,
        hours: false,
        no_dialin: false,
        expired: true,
        failures: LIMIT - 2,
    }
}

fn account() -> Account {
    entry().keyed()
}

/// The same account, locked.
fn locked() -> Account {
    Account {
        failures: LIMIT,
        ..account()
    }
}

fn conversation(phase: Phase) -> Conversation {
    Conversation {
        id: 7,
        challenge: CHALLENGE,
        retries: 2,
        lm: true,
        limit: LIMIT,
        change: Change::Two,
        phase,
        last: None,
    }
}

/// A conversation that has answered the packet with a code and the identifier 7.
fn answered(id: u8, phase: Phase, code: u8, reply: Reply) -> Conversation {
    let last = Some(Last { code, id: 7, reply });
    Conversation {
        id,
        last,
        ..conversation(phase)
    }
}

/// Conversations in each phase, with no answer, and with the answer of each kind to one of the
/// packets below or to neither.
fn conversations_kept() -> Vec<Conversation> {
    let mut all = [Phase::Response, Phase::Change(entry()), Phase::Ended]
        .map(conversation)
        .to_vec();
    all.extend([
        answered(
            8,
            Phase::Response,
            2,
            Reply::failure(7, 691, true, Change::Two),
        ),
        answered(
            8,
            Phase::Change(entry()),
            2,
            Reply::failure(7, 648, false, Change::Two),
        ),
        answered(7, Phase::Ended, 2, Reply::success(7)),
        answered(
            7,
            Phase::Ended,
            6,
            Reply::failure(7, 709, false, Change::Two),
        ),
        answered(
            7,
            Phase::Response,
            9,
            Reply::failure(7, 691, true, Change::Two),
        ),
    ]);
    // and such as were opened for version 1 changes
    all.extend([
        Conversation {
            change: Change::One,
            ..conversation(Phase::Change(entry()))
        },
        Conversation {
            change: Change::One,
            lm: false,
            ..answered(
                8,
                Phase::Response,
                2,
                Reply::failure(7, 691, true, Change::One),
            )
        },
        Conversation {
            change: Change::One,
            ..answered(
                7,
                Phase::Ended,
                5,
                Reply::failure(7, 709, false, Change::One),
            )
        },
    ]);
    all
}

/// A Response and a change of either version for the conversations above.
fn packets() -> [Vec<u8>; 3] {
    let turn = Turn {
        id: 7,
        challenge: CHALLENGE,
    };
    let mut response = vec![0; 62];
    let written = peer::write_response(&turn, PASSWORD, b"DOM\\User", &mut response);
    assert_eq!(written.refusal, 0);
    let mut change = vec![0; packet::CHANGE_LENGTH];
    let written = peer::write_change(&turn, PASSWORD, b"n\0", &[3; 512], &mut change);
    assert_eq!(written.refusal, 0);
    let mut change_1 = vec![0; packet::CHANGE_1_LENGTH];
    let written = peer::write_change_1(&turn, PASSWORD, b"n\0", &mut change_1);
    assert_eq!(written.refusal, 0);
    [response, change, change_1]
}

/// A step with these bytes for conversation and record, against what they stand for.
fn step(bytes: &[u8], record: &[u8], packet: &[u8], seen: &mut Seen) {
    let (mut after, mut reply, mut answer) = (bytes.to_vec(), [FILL; 17], [FILL; ANSWER_SIZE]);
    let number = sys::step(&mut after, packet, record, &mut reply, &mut answer);
    let valid = layout::to_conversation(bytes).zip(layout::to_record(record));
    seen.note(valid.is_some());
    let Some((conversation, found)) = valid else {
        assert_eq!(number, sys::BAD_ARGUMENT, "{bytes:?} {record:?}");
        let same = (bytes.to_vec(), [FILL; 17], [FILL; ANSWER_SIZE]);
        assert_eq!((after, reply, answer), same);
        return;
    };
    let mut their_reply = [FILL; 17];
    let mut theirs = their::step(&conversation, packet, found.as_ref(), &mut their_reply);
    assert_eq!(number, theirs.refusal.into(), "{bytes:?} {record:?}");
    if theirs.repeated {
        // as the bytes say it: theirs has no reason but of three digits
        let (reason, octets) = layout::last_reply(bytes).expect("an answer");
        if (100..=999).contains(&reason) {
            assert_eq!(&their_reply[..octets.len()], octets);
        }
        their_reply[..octets.len()].copy_from_slice(&octets);
        theirs.reason = reason;
        assert_eq!(after, bytes, "a repeat changes nothing");
        seen.repeated += 1;
    }
    assert_eq!(reply, their_reply, "{bytes:?}");
    if number == sys::OK {
        let next = layout::to_conversation(&after);
        assert_eq!(next, Some(theirs.conversation));
        let expected = Told {
            repeated: theirs.repeated,
            reason: theirs.reason,
            fault: Fault::number(theirs.fault),
            updated: theirs.record,
        };
        assert_eq!(layout::to_answer(&answer), Some(expected));
    } else {
        assert_eq!((after, answer), (bytes.to_vec(), [FILL; ANSWER_SIZE]));
    }
}

#[test]
fn conversations() {
    let records =
        [account(), locked()].map(|account| layout::record(Some(layout::account(&account))));
    let mut turns = 0;
    let mut seen = Seen::default();
    for value in conversations_kept() {
        spoiled(&layout::conversation(&value), |bytes| {
            let told = [
                sys::conversation_awaits(bytes),
                sys::conversation_identifier(bytes),
                sys::conversation_retries(bytes),
            ];
            let expected = layout::to_conversation(bytes).map(|value| {
                let awaited = match value.phase {
                    Phase::Ended => 0,
                    Phase::Response => 2,
                    Phase::Change(_) => match value.change {
                        Change::One => 5,
                        Change::Two => 6,
                    },
                };
                [awaited, value.id.into(), value.retries.into()]
            });
            assert_eq!(told, expected.unwrap_or([sys::INVALID; 3]), "{bytes:?}");
            let stored = mschap::Conversation::from_bytes(bytes);
            assert_eq!(stored.is_ok(), expected.is_some());
            turns += 1;
            for packet in packets() {
                step(bytes, &records[turns % 2], &packet, &mut seen);
            }
        });
    }
    assert!(seen.answered > 100_000 && seen.refused > 30_000 && seen.repeated > 30_000);
}

/// The bytes of the last answer, each in each value, are those of a value or are refused: a flag is
/// 0 or 1, a reply is one of three, and Success has no reason.
#[test]
fn last_answers() {
    let mut seen = Seen::default();
    for reply in [
        Reply::success(7),
        Reply::failure(7, 691, false, Change::Two),
        Reply::failure(7, 691, true, Change::Two),
    ] {
        let bytes = layout::conversation(&answered(7, Phase::Ended, 2, reply));
        let last = &bytes[layout::LAST_AT..];
        let failed = u8::from(last[3] != 0);
        assert_eq!((last[..3].to_vec(), last[4]), (vec![1, 2, 7], 2 * failed));
        for place in 0..6 {
            for byte in 0..=255 {
                let mut bytes = bytes;
                bytes[layout::LAST_AT + place] = byte;
                let valid = match place {
                    0 => byte < 2,
                    3 if failed == 0 => byte < 3,
                    3 => byte == 1 || byte == 2,
                    4 | 5 => failed == 1 || byte == 0,
                    _ => true,
                };
                let stored = mschap::Conversation::from_bytes(&bytes);
                assert_eq!(stored.is_ok(), valid, "{place} {byte}");
                seen.note(valid);
            }
        }
    }
    assert_eq!((seen.answered, seen.refused), (2575, 2033));
}

/// Both ends by the wrapper, up to the reply to a Response by the right password: the conversation,
/// the Response and the reply.
fn responded(account: &mschap::Account) -> (mschap::Conversation, Vec<u8>, Vec<u8>) {
    let (mut reply, mut packet) = ([FILL; 17], [FILL; 62]);
    let mut issued = mschap::Issued::new(3);
    let terms = Terms::new(LIMIT);
    let opening = mschap::Conversation::open(7, terms, &CHALLENGE, &mut issued, &mut reply);
    let (mut conversation, size) = opening.expect("a conversation");
    let mut peer = mschap::Peer::read_challenge(&reply[..size]).expect("a Challenge");
    let password = mschap::Password::from_utf16(&[0x50, 0xe4, 0x77]).expect("a password");
    let size = peer
        .write_response(&password, b"DOM\\User", &mut packet)
        .expect("a Response");
    let answer = conversation
        .step(&packet[..size], Some(account), &mut reply)
        .expect("an answer");
    assert!(!answer.repeated);
    let reply = reply[..answer.size].to_vec();
    (conversation, packet[..size].to_vec(), reply)
}

/// A program that was started again gives a peer that missed the reply the same one, whatever else
/// is in the packet and whatever record it finds, and stores and decides nothing.
#[test]
fn a_stored_conversation_repeats() {
    let nt_hash = hashes::nt_hash(PASSWORD).map(mschap::NtHash).ok();
    let fresh = mschap::Account {
        nt_hash,
        ..mschap::Account::default()
    };
    let disabled = mschap::Account {
        disabled: true,
        ..fresh
    };
    let expired = mschap::Account {
        expired: true,
        ..fresh
    };
    for (account, expected) in [
        (&fresh, &b"\x03\x07\x00\x04"[..]),
        (&disabled, b"\x04\x07\x00\x11E=647 R=0 V=2"),
        (&expired, b"\x04\x07\x00\x11E=648 R=0 V=2"),
        (
            &mschap::Account::default(),
            b"\x04\x07\x00\x11E=691 R=1 V=2",
        ),
    ] {
        let (conversation, response, reply) = responded(account);
        assert_eq!(reply, expected);
        let stored = *conversation.as_bytes();
        let mut again = mschap::Conversation::from_bytes(&stored).expect("a conversation");
        for (packet, found) in [
            (&response[..], Some(account)),
            (&response, None),
            (&[2, 7, 0, 4], Some(&fresh)),
            (&[2, 7, 0, 5, 9, 9], Some(&expired)),
        ] {
            let mut buffer = [FILL; 20];
            let answer = again.step(packet, found, &mut buffer).expect("a repeat");
            assert_eq!((answer.repeated, answer.update), (true, Update::Nothing));
            assert_eq!(&buffer[..answer.size], expected);
            assert!(buffer[answer.size..].iter().all(|byte| *byte == FILL));
            assert_eq!(*again.as_bytes(), stored);
        }
        // the code and the identifier are both the last one's
        for packet in [[6, 7, 0, 4], [2, 6, 0, 4]] {
            assert!(again.step(&packet, None, &mut [0; 17]).is_err());
        }
        assert_eq!(*again.as_bytes(), stored);
    }
}

/// A conversation that was stored while it awaited a version 1 change goes on with it: the packet
/// is accepted by the kept record, and the account gets the new NT hash and its round keys. The
/// version of its change and the code that it awaits belong together.
#[test]
fn a_stored_version_1_change_goes_on() {
    let [_, change, change_1] = packets();
    let kept = Conversation {
        change: Change::One,
        ..conversation(Phase::Change(entry()))
    };
    let stored = layout::conversation(&kept);
    let mut again = mschap::Conversation::from_bytes(&stored).expect("a conversation");
    assert_eq!(again.awaited(), mschap::Awaited::ChangeVersion1);
    let refused = again.step(&change, None, &mut [0; 17]);
    assert_eq!(refused, Err(Refusal::Code));
    let mut reply = [FILL; 17];
    let answer = again.step(&change_1, None, &mut reply).expect("an answer");
    assert_eq!(reply[..4], [3, 7, 0, 4]);
    let Update::Changed(account) = answer.update else {
        panic!("{answer:?}");
    };
    let new = hashes::nt_hash(b"n\0").expect("a password");
    let hashes = (account.nt_hash.map(|hash| hash.0), account.lm_hash);
    assert_eq!((hashes, account.expired), ((Some(new), None), false));
    for (at, byte) in [
        (layout::CHANGE_AT, 2),
        (layout::CHANGE_AT, 0),
        (layout::CHANGE_AT, 3),
        (layout::TAG, 6),
    ] {
        let mut crossed = stored;
        crossed[at] = byte;
        refuses(b'C', &crossed);
    }
}

/// An accepted change gives its record once: a repeat of it gives none.
#[test]
fn a_repeated_change_gives_no_record() {
    let [_, change, _] = packets();
    let mut bytes = layout::conversation(&conversation(Phase::Change(entry())));
    let nobody = layout::record(None);
    let mut reply = [FILL; 17];
    let mut answer = [FILL; ANSWER_SIZE];
    let step = |bytes: &mut [u8], reply: &mut [u8], answer: &mut [u8]| {
        sys::step(bytes, &change, &nobody, reply, answer)
    };
    assert_eq!(step(&mut bytes, &mut reply, &mut answer), sys::OK);
    assert_eq!(reply[..4], [3, 7, 0, 4]);
    let mut record = [FILL; RECORD_SIZE];
    assert_eq!(sys::answer_record(&answer, &mut record), sys::OK);
    assert_eq!(sys::record_failures(&record), 0);
    let after = bytes;
    for _ in 0..3 {
        let mut reply = [FILL; 17];
        assert_eq!(step(&mut bytes, &mut reply, &mut answer), sys::OK);
        assert_eq!((&reply[..4], reply[4]), (&[3, 7, 0, 4][..], FILL));
        assert_eq!(answer, layout::plain_answer(true, 0));
        let mut record = [FILL; RECORD_SIZE];
        assert_eq!(sys::answer_record(&answer, &mut record), 102);
        assert_eq!((bytes, record), (after, [FILL; RECORD_SIZE]));
    }
}

/// A value of a kind and a version, with bytes 0 behind its front.
fn stored(kind: u8, version: u8, size: usize, front: &[u8]) -> Vec<u8> {
    let mut bytes = [&[kind, version], front].concat();
    bytes.resize(size, 0);
    bytes
}

/// Records, conversations and answers as each version stored them that had another layout, in their
/// own size and in each later one: they are refused, and by nothing but their version.
#[test]
fn what_earlier_versions_stored() {
    // a found account with an NT hash
    let record = [1, 1, 9, 9, 9];
    // it awaits a Response with identifier 7, LM is allowed and 2 retries are left
    let conversation = [2, 1, 7, 2, 1, 2, 3, 4, 5, 6, 7, 8];
    // the same with the limit 5, and with the version of its change
    let limited = [2, 1, 5, 7, 2, 1, 2, 3, 4, 5, 6, 7, 8];
    let versioned = [2, 1, 5, 2, 7, 2, 1, 2, 3, 4, 5, 6, 7, 8];
    // a Failure with the reason 691, in front of which 0.3.0 put that it is no repeat
    let first = [2, 0xb3];
    let answer = [0, 2, 0xb3];
    for (kind, version, sizes, front) in [
        // 0.2.0 to 0.6.0
        (b'R', 1, &[41, 42, 810][..], &record[..]),
        (b'C', 1, &[52, 58, 60, 61], &conversation),
        (b'C', 2, &[58, 60, 61], &conversation),
        (b'A', 1, &[43, 44, 45, 46, 814], &first),
        (b'A', 2, &[44, 45, 46, 814], &answer),
        (b'A', 3, &[45, 46, 814], &answer),
        // 0.7.0, before a record had schedules
        (b'R', 2, &[42, 810], &record),
        (b'A', 4, &[46, 814], &answer),
        // 0.7.0 and 0.8.0, before a conversation had the version of its change
        (b'C', 3, &[60, 61], &limited),
    ] {
        for size in sizes {
            refuses(kind, &stored(kind, version, *size, front));
        }
    }
    // and as this version they are what they are taken for
    let bytes = stored(b'R', 3, 810, &record);
    assert_eq!(sys::record_failures(&bytes), 0);
    let bytes = stored(b'C', 4, 61, &versioned);
    assert_eq!(sys::conversation_awaits(&bytes), 2);
    assert_eq!(sys::conversation_identifier(&bytes), 7);
    let bytes = stored(b'A', 5, 814, &answer);
    assert_eq!(sys::answer_reason(&bytes), 691);
}

/// A value is refused by each function that takes one of its kind, and stays as it is.
fn refuses(kind: u8, bytes: &[u8]) {
    let [response, ..] = packets();
    let (nobody, mut reply, mut answer) = (layout::record(None), [FILL; 17], [FILL; ANSWER_SIZE]);
    let talk = layout::conversation(&conversation(Phase::Response));
    let mut record = [FILL; RECORD_SIZE];
    let (mut flags, mut nt, mut lm) = (9, [FILL; 16], [FILL; 16]);
    match kind {
        b'R' => {
            let refused = Err(Refusal::BadArgument);
            assert_eq!(mschap::Account::from_bytes(bytes), refused);
            let number = sys::read_record(bytes, &mut flags, &mut nt, &mut lm);
            assert_eq!(number, sys::BAD_ARGUMENT);
            assert_eq!(sys::record_failures(bytes), sys::INVALID);
            let mut same = bytes.to_vec();
            assert_eq!(sys::set_failures(&mut same, 0), sys::BAD_ARGUMENT);
            let mut talk = talk;
            let number = sys::step(&mut talk, &response, bytes, &mut reply, &mut answer);
            assert_eq!((number, &same[..]), (sys::BAD_ARGUMENT, bytes));
            let number = sys::write_account(&mut [], b"bob", bytes, 5, &mut 0);
            assert_eq!(number, sys::BAD_ARGUMENT);
        }
        b'C' => {
            let refused = Err(Refusal::BadArgument);
            assert_eq!(mschap::Conversation::from_bytes(bytes), refused);
            let told = [
                sys::conversation_awaits,
                sys::conversation_identifier,
                sys::conversation_retries,
            ];
            assert_eq!(told.map(|tell| tell(bytes)), [sys::INVALID; 3]);
            let mut same = bytes.to_vec();
            let number = sys::step(&mut same, &response, &nobody, &mut reply, &mut answer);
            assert_eq!((number, &same[..]), (sys::BAD_ARGUMENT, bytes));
        }
        _ => {
            let told = [sys::answer_reason, sys::answer_repeated, sys::answer_fault];
            assert_eq!(told.map(|tell| tell(bytes)), [sys::INVALID; 3]);
            let number = sys::answer_record(bytes, &mut record);
            assert_eq!(number, sys::BAD_ARGUMENT);
        }
    }
    assert_eq!(
        (reply, answer, record),
        ([FILL; 17], [FILL; ANSWER_SIZE], [FILL; RECORD_SIZE])
    );
    assert_eq!((flags, nt, lm), (9, [FILL; 16], [FILL; 16]));
}

/// A record as 0.7.0 stored it, and the same with the schedules behind it that it would have: each
/// function that takes a record refuses it, and by nothing but its version.
#[test]
fn records_of_version_2() {
    for found in [
        Some(account()),
        Some(locked()),
        Some(Account::default()),
        None,
    ] {
        let mut bytes = layout::record(found.as_ref().map(layout::account));
        assert_eq!((bytes[1], sys::record_failures(&bytes) < 256), (3, true));
        let short = [&[b'R', 2], &bytes[2..layout::NT_KEYS_AT]].concat();
        assert_eq!(short.len(), 42);
        refuses(b'R', &short);
        bytes[1] = 2;
        refuses(b'R', &bytes);
        // and as this version in the old size
        bytes[1] = 3;
        refuses(b'R', &bytes[..42]);
    }
}

/// The sizes are written down here a second time.
#[test]
fn sizes() {
    assert_eq!((sys::RECORD_SIZE, sys::RECORD_LAYOUT), (RECORD_SIZE, 3));
    assert_eq!((sys::ANSWER_SIZE, sys::ANSWER_LAYOUT), (ANSWER_SIZE, 5));
    let size = layout::CONVERSATION_SIZE;
    assert_eq!(
        (sys::CONVERSATION_SIZE, sys::CONVERSATION_LAYOUT),
        (size, 4)
    );
    assert_eq!(layout::KEPT_AT + layout::ENTRY_SIZE, layout::LAST_AT);
    assert_eq!(layout::LAST_AT + 6, size);
    let keys_at = layout::ACCOUNT_AT + layout::ENTRY_SIZE;
    assert_eq!(keys_at, layout::NT_KEYS_AT);
    assert_eq!(keys_at + layout::KEYS_SIZE, layout::LM_KEYS_AT);
    assert_eq!(keys_at + 2 * layout::KEYS_SIZE, RECORD_SIZE);
}

/// The other kinds are as 0.2.0 stored them.
#[test]
fn what_has_the_same_layout_since_0_2_0() {
    assert!(mschap::Peer::from_bytes(&stored(b'P', 1, 21, &[1, 7])).is_ok());
    let password = mschap::Password::from_bytes(&stored(b'W', 1, 516, &[0, 2, b'a', 0]));
    let text = password.and_then(|password| password.to_text());
    assert_eq!(text.as_deref(), Ok("a"));
    let list = mschap::Issued::from_bytes(&stored(b'L', 1, 28, &[0, 2]));
    assert_eq!(list.map(|list| list.used()), Ok(2));
}

#[test]
fn records() {
    let mut seen = Seen::default();
    let awaiting = [Phase::Response, Phase::Change(entry())].map(conversation);
    for found in [
        Some(layout::account(&account())),
        Some(layout::account(&locked())),
        None,
    ] {
        spoiled(&layout::record(found), |bytes| {
            failures(bytes);
            let mut read = (FILL.into(), [FILL; 16], [FILL; 16]);
            let number = sys::read_record(bytes, &mut read.0, &mut read.1, &mut read.2);
            match layout::record_parts(bytes) {
                Some(parts) => assert_eq!((number, read), (sys::OK, parts)),
                None => {
                    assert_eq!(number, sys::BAD_ARGUMENT, "{bytes:?}");
                    assert_eq!(read, (FILL.into(), [FILL; 16], [FILL; 16]));
                }
            }
            let account = mschap::Account::from_bytes(bytes).map(|found| found.is_some());
            let expected = layout::to_record(bytes).map(|found| found.is_some());
            assert_eq!(account.ok(), expected);
            for (conversation, packet) in awaiting.iter().zip(packets()) {
                step(
                    &layout::conversation(conversation),
                    bytes,
                    &packet,
                    &mut seen,
                );
            }
            write(bytes, &mut seen);
        });
    }
    assert!(seen.answered > 10_000 && seen.refused > 5_000);
}

/// These bytes for the record whose count is told and set: no other byte of it changes.
fn failures(bytes: &[u8]) {
    let count = layout::to_record(bytes).map(|_| bytes[layout::FAILURES_AT]);
    let told = count.map_or(sys::INVALID, u32::from);
    assert_eq!(sys::record_failures(bytes), told, "{bytes:?}");
    for failures in [0, 1, 77, 255, 256, 0x101, sys::INVALID] {
        let (mut after, mut expected) = (bytes.to_vec(), bytes.to_vec());
        let number = sys::set_failures(&mut after, failures);
        match (count, u8::try_from(failures)) {
            (Some(_), Ok(failures)) => {
                expected[layout::FAILURES_AT] = failures;
                assert_eq!(number, sys::OK, "{bytes:?}");
            }
            _ => assert_eq!(number, sys::BAD_ARGUMENT, "{bytes:?}"),
        }
        assert_eq!(after, expected);
    }
}

/// These bytes for the record that is written into an account file.
fn write(record: &[u8], seen: &mut Seen) {
    let file = b"ann:1:XXXXXXXXXXXXXXXXXXXXXXXXXXXXXXXX:NO PASSWORDXXXXXXXXXXXXXXXXXXXXX:\
        [U          ]:LCT-00000000:\nbob:2:00000000000000000000000000000000:\
        ffffffffffffffffffffffffffffffff:[DX         ]:LCT-0000000a:etc\n";
    let (mut ours, mut theirs, mut offset) = (*file, *file, FILL.into());
    let number = sys::write_account(&mut ours, b"bob", record, 0x89AB_CDEF, &mut offset);
    let value = layout::to_record(record);
    seen.note(value.is_some());
    match value {
        Some(Some(account)) => {
            let (nt, lm) = (account.nt.as_ref(), account.lm.as_ref());
            let written = smbpasswd::write_back(&mut theirs, b"bob", nt, lm, 0x89AB_CDEF);
            assert_eq!(written, smbpasswd::Written::At(offset));
            assert_eq!(number, sys::OK, "{record:?}");
        }
        other => {
            let expected = other.map_or(sys::BAD_ARGUMENT, |_| 102);
            assert_eq!((number, offset), (expected, FILL.into()), "{record:?}");
        }
    }
    assert_eq!(ours, theirs, "{record:?}");
}

#[test]
fn answers() {
    let mut seen = Seen::default();
    let mut faults = [0; 256];
    let told = |repeated, reason, fault, updated| {
        layout::answer(&Told {
            repeated,
            reason,
            fault,
            updated,
        })
    };
    for answer in [
        told(false, 0, 0, Some(account())),
        told(false, 691, 0, Some(locked())),
        told(false, 691, 0, None),
        told(true, 0, 0, None),
        told(false, 709, 5, None),
    ] {
        spoiled(&answer, |bytes| {
            let value = layout::to_answer(bytes);
            seen.note(value.is_some());
            let reason = value.map_or(sys::INVALID, |told| told.reason.into());
            assert_eq!(sys::answer_reason(bytes), reason, "{bytes:?}");
            let repeated = value.map_or(sys::INVALID, |told| told.repeated.into());
            assert_eq!(sys::answer_repeated(bytes), repeated, "{bytes:?}");
            let fault = value.map_or(sys::INVALID, |told| told.fault.into());
            assert_eq!(sys::answer_fault(bytes), fault, "{bytes:?}");
            if let (Some(number), true) = (bytes.get(5), fault != sys::INVALID) {
                faults[usize::from(*number)] += 1;
            }
            let mut record = [FILL; RECORD_SIZE];
            let number = sys::answer_record(bytes, &mut record);
            match value.map(|told| told.updated) {
                Some(Some(updated)) => {
                    assert_eq!(number, sys::OK);
                    assert_eq!(layout::to_record(&record), Some(Some(updated)));
                    // as it is stored, with what stands beside a flag that is not set
                    assert_eq!(record[2..], bytes[6..]);
                }
                other => {
                    let expected = other.map_or(sys::BAD_ARGUMENT, |_| 102);
                    assert_eq!(
                        (number, record),
                        (expected, [FILL; RECORD_SIZE]),
                        "{bytes:?}"
                    );
                }
            }
        });
    }
    assert!(seen.answered > 10_000 && seen.refused > 4_000);
    // each fault was told, and no other number taken for one
    assert!(faults[..11].iter().all(|times| *times > 0), "{faults:?}");
    assert_eq!(faults[11..], [0; 245]);
}

fn call_number(verdict: &Verdict) -> (u32, u64) {
    match verdict {
        Verdict::Success => (0, 0),
        Verdict::Failure(fields) => {
            let call = match fields.call() {
                Call::Retry => 1,
                Call::Change2 => 2,
                Call::Change1 => 3,
                Call::End => 4,
            };
            (call, fields.e)
        }
    }
}

/// What a writer left, against a writer of theirs.
fn wrote(
    before: &[u8],
    after: &[u8],
    number: u32,
    out: [&[u8]; 2],
    theirs: Option<(Turn, peer::Written)>,
) {
    let [ours, their_out] = out;
    match theirs {
        None => {
            assert_eq!(number, sys::BAD_ARGUMENT, "{before:?}");
            assert_eq!(after, before);
            assert!(ours.iter().all(|byte| *byte == FILL));
        }
        Some((turn, written)) => {
            assert_eq!((number, written.refusal), (sys::OK, 0));
            assert_eq!(ours, their_out);
            assert_eq!(after, layout::peer(Some(&turn), &turn));
        }
    }
}

#[test]
fn peers() {
    let last = Turn {
        id: 7,
        challenge: CHALLENGE,
    };
    let next = Turn {
        id: 8,
        challenge: NEXT,
    };
    let (old, new) = (layout::password(PASSWORD), layout::password(b"n\0"));
    let replies = [
        packet::success(7),
        packet::failure(7, 691, 1, 2),
        packet::failure(7, 648, 0, 2),
        packet::failure(7, 648, 0, 1),
    ];
    let mut seen = Seen::default();
    for sent in [Some(&last), None] {
        spoiled(&layout::peer(sent, &next), |bytes| {
            let value = layout::to_peer(bytes);
            seen.note(value.is_some());
            let stored = mschap::Peer::from_bytes(bytes);
            assert_eq!(stored.is_ok(), value.is_some(), "{bytes:?}");
            for reply in &replies {
                let (mut after, mut call, mut reason) = (bytes.to_vec(), 99, 99);
                let number = sys::read_reply(&mut after, reply, &mut call, &mut reason);
                let reading = value.map(|(sent, _)| match sent {
                    Some(sent) => (sent, peer::read_reply(sent.id, reply)),
                    None => (last, Err(5)),
                });
                match reading {
                    Some((sent, Ok(verdict))) => {
                        assert_eq!(number, sys::OK, "{bytes:?}");
                        assert_eq!((call, reason), call_number(&verdict));
                        let turn = peer::next_turn(&sent, &Ok(verdict));
                        assert_eq!(after, layout::peer(Some(&sent), &turn));
                    }
                    other => {
                        let refusal = |(_, reading): (Turn, Result<Verdict, u8>)| reading.err();
                        let refusal = other.and_then(refusal).map_or(100, u32::from);
                        assert_eq!((number, call, reason), (refusal, 99, 99), "{bytes:?}");
                        assert_eq!(after, bytes);
                    }
                }
            }
            let mut after = bytes.to_vec();
            let (mut ours, mut theirs) = ([FILL; 70], [FILL; 70]);
            let number = sys::write_response(&mut after, &old, b"User", &mut ours);
            let written = value.map(|(_, turn)| {
                let written = peer::write_response(&turn, PASSWORD, b"User", &mut theirs);
                (turn, written)
            });
            wrote(bytes, &after, number, [&ours, &theirs], written);

            let mut after = bytes.to_vec();
            let (mut ours, mut theirs) = ([FILL; 1120], [FILL; 1120]);
            let number = sys::write_change(&mut after, &old, &new, &[3; 512], &mut ours);
            let written = value.map(|(_, turn)| {
                let filler = [3; 512];
                let written = peer::write_change(&turn, PASSWORD, b"n\0", &filler, &mut theirs);
                (turn, written)
            });
            wrote(bytes, &after, number, [&ours, &theirs], written);

            let mut after = bytes.to_vec();
            let (mut ours, mut theirs) = ([FILL; 74], [FILL; 74]);
            let number = sys::write_change_1(&mut after, &old, &new, &mut ours);
            let written = value.map(|(_, turn)| {
                let written = peer::write_change_1(&turn, PASSWORD, b"n\0", &mut theirs);
                (turn, written)
            });
            wrote(bytes, &after, number, [&ours, &theirs], written);
        });
    }
    assert!(seen.answered > 5_000 && seen.refused > 1_000);
}

#[test]
fn passwords() {
    let turn = Turn {
        id: 7,
        challenge: CHALLENGE,
    };
    let peer = layout::peer(None, &turn);
    let other = layout::password(b"n\0");
    let filler = [3; 512];
    let mut seen = Seen::default();
    let longest = [PASSWORD; 86].concat()[..512].to_vec();
    for characters in [PASSWORD, b"", &longest] {
        let mut turns = 0;
        spoiled(&layout::password(characters), |bytes| {
            let value = layout::to_password(bytes);
            seen.note(value.is_some());

            let mut hash = [FILL; 16];
            let number = sys::nt_hash(bytes, &mut hash);
            match value {
                Some(characters) => {
                    let theirs = hashes::nt_hash(characters).expect("a hash");
                    assert_eq!((number, hash), (sys::OK, theirs), "{bytes:?}");
                }
                None => {
                    assert_eq!(number, sys::BAD_ARGUMENT, "{bytes:?}");
                    assert_eq!(hash, [FILL; 16]);
                }
            }

            let (mut text, mut length) = ([FILL; sys::TEXT_MAX], usize::MAX);
            let number = sys::read_password(bytes, &mut text, &mut length);
            let expected = value.and_then(|characters| {
                let units = characters
                    .chunks(2)
                    .map(|c| u16::from_le_bytes([c[0], c[1]]));
                String::from_utf16(&units.collect::<Vec<_>>()).ok()
            });
            match expected {
                Some(expected) => {
                    assert_eq!((number, length), (sys::OK, expected.len()));
                    assert_eq!(&text[..length], expected.as_bytes());
                    assert!(text[length..].iter().all(|byte| *byte == FILL));
                }
                None => {
                    let refusal = if value.is_some() { 101 } else { 100 };
                    assert_eq!((number, length), (refusal, usize::MAX), "{bytes:?}");
                    assert_eq!(text, [FILL; sys::TEXT_MAX]);
                }
            }

            // The writers take longer, so of the many values that they accept each fiftieth is
            // compared; all that they refuse are.
            turns += 1;
            if value.is_some() && turns % 50 != 0 {
                return;
            }
            let mut after = peer;
            let (mut ours, mut theirs) = ([FILL; 70], [FILL; 70]);
            let number = sys::write_response(&mut after, bytes, b"User", &mut ours);
            if let Some(characters) = value {
                let written = peer::write_response(&turn, characters, b"User", &mut theirs);
                assert_eq!((number, written.refusal), (sys::OK, 0));
            } else {
                assert_eq!(number, sys::BAD_ARGUMENT, "{bytes:?}");
                assert_eq!(after, peer);
            }
            assert_eq!(ours, theirs);
            for new in [false, true] {
                let mut after = peer;
                let (mut ours, mut theirs) = ([FILL; 1120], [FILL; 1120]);
                let passed = if new {
                    [&other[..], bytes]
                } else {
                    [bytes, &other]
                };
                let number =
                    sys::write_change(&mut after, passed[0], passed[1], &filler, &mut ours);
                if let Some(characters) = value {
                    let n: &[u8] = b"n\0";
                    let [old, new] = if new {
                        [n, characters]
                    } else {
                        [characters, n]
                    };
                    let written = peer::write_change(&turn, old, new, &filler, &mut theirs);
                    assert_eq!((number, written.refusal), (sys::OK, 0));
                } else {
                    assert_eq!(number, sys::BAD_ARGUMENT, "{bytes:?}");
                    assert_eq!(after, peer);
                }
                assert_eq!(ours, theirs);

                let mut after = peer;
                let (mut ours, mut theirs) = ([FILL; 74], [FILL; 74]);
                let number = sys::write_change_1(&mut after, passed[0], passed[1], &mut ours);
                if let Some(characters) = value {
                    let n: &[u8] = b"n\0";
                    let [old, new] = if new {
                        [n, characters]
                    } else {
                        [characters, n]
                    };
                    let written = peer::write_change_1(&turn, old, new, &mut theirs);
                    assert_eq!((number, written.refusal), (sys::OK, 0));
                } else {
                    assert_eq!(number, sys::BAD_ARGUMENT, "{bytes:?}");
                    assert_eq!(after, peer);
                }
                assert_eq!(ours, theirs);
            }
        });
    }
    assert!(seen.answered > 100_000 && seen.refused > 100_000);
}

#[test]
fn lists() {
    let mut seen = Seen::default();
    let places: Vec<u8> = (0..5 * 8).map(|place| place * 5).collect();
    let empty = layout::list(0, &[0; 40]);
    let spent = layout::list(2, &[&places[..8], &CHALLENGE, &places[16..]].concat());
    for list in [layout::list(2, &places), empty, spent] {
        spoiled(&list, |bytes| {
            let (mut after, mut conversation, mut reply) = (
                bytes.to_vec(),
                [FILL; layout::CONVERSATION_SIZE],
                [FILL; 17],
            );
            let number = sys::open(
                7,
                TERMS,
                &CHALLENGE,
                &mut after,
                &mut conversation,
                &mut reply,
            );
            let value = layout::to_list(bytes);
            let sound = value.filter(|(used, places)| {
                let count = places.len() / 8;
                places.len() % 8 == 0 && count <= 4096 && *used <= count
            });
            seen.note(sound.is_some());
            let used = sound.map_or(sys::INVALID, |(used, _)| used as u32);
            assert_eq!(sys::list_used(bytes), used, "{bytes:?}");
            assert_eq!(mschap::Issued::from_bytes(bytes).is_ok(), sound.is_some());

            let Some((used, places)) = value else {
                let same = (
                    bytes.to_vec(),
                    [FILL; layout::CONVERSATION_SIZE],
                    [FILL; 17],
                );
                assert_eq!(number, sys::BAD_ARGUMENT, "{bytes:?}");
                assert_eq!((after, conversation, reply), same);
                return;
            };
            let mut places = places.to_vec();
            let mut counts = [0; 256];
            for place in places.chunks(8).take(used) {
                counts[usize::from(place[place.len() - 1])] += 1;
            }
            let mut passed = issued::Issued {
                list: &mut places,
                used,
                counts: &mut counts,
            };
            let mut their_reply = [FILL; 17];
            let terms = their::Terms {
                retries: Some(1),
                lm: Some(true),
                change: None,
            };
            let opening = their::open(7, &CHALLENGE, &terms, LIMIT, &mut passed, &mut their_reply);
            let used = passed.used;
            assert_eq!(number, opening.refusal.into(), "{bytes:?}");
            assert_eq!(reply, their_reply);
            if number == sys::OK {
                assert_eq!(conversation, layout::conversation(&opening.conversation));
                assert_eq!(after, layout::list(used as u16, &places));
            } else {
                assert_eq!(
                    (&after[..], conversation),
                    (bytes, [FILL; layout::CONVERSATION_SIZE])
                );
                assert_eq!(after[LIST_HEAD..], places);
            }
        });
    }
    assert!(seen.answered > 20_000 && seen.refused > 2_000);
}

/// Each kind was spoiled in each place to each value, but for schedules.
#[test]
fn all_that_is_spoiled() {
    for size in [21, layout::CONVERSATION_SIZE, 516, RECORD_SIZE, ANSWER_SIZE] {
        let mut places = vec![0; size];
        let count = spoiled(&vec![0; size], |bytes| {
            if bytes.len() == size {
                let changed = bytes.iter().position(|byte| *byte != 0);
                if let Some(place) = changed {
                    places[place] += 1;
                }
            }
        });
        let all = |place| changes(size, place).len();
        for (place, times) in places.iter().enumerate() {
            assert!(*times >= all(place), "{place}: {times}");
        }
        assert!(count > 2 * size + (0..size).map(all).sum::<usize>());
    }
}
