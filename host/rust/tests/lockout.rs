//! Lockout (request 2026-09) by examples: each rule with its values, over the archive alone. Whole
//! runs of conversations are in differential/lockout.rs, and the counts beside an account file in
//! account_file.rs.

use mschap::{sys, Account, Answer, Awaited, Conversation, Issued, LmHash, NtHash, Password, Peer};
use mschap::{Reason, Refusal, Terms, Update, CHANGE_PACKET, REPLY_SIZE};

const CH: [u8; 8] = [0x10, 0x2D, 0xB5, 0xDF, 0x08, 0x5D, 0x30, 0x41];
/// The NT and the LM hash of MyPw.
const NT: NtHash = NtHash([
    0xFC, 0x15, 0x6A, 0xF7, 0xED, 0xCD, 0x6C, 0x0E, 0xDD, 0xE3, 0x33, 0x7D, 0x42, 0x7F, 0x4E, 0xAC,
]);
const LM: LmHash = LmHash([
    0x75, 0xBA, 0x30, 0x19, 0x8E, 0x6D, 0x19, 0x75, 0xAA, 0xD3, 0xB4, 0x35, 0xB5, 0x14, 0x04, 0xEE,
]);
/// Limits with their neighbours.
const LIMITS: [u8; 9] = [1, 2, 3, 4, 127, 128, 129, 254, 255];
const FAILED: Reason = Reason::AuthenticationFailure;

/// The account of the list of rules, with a count.
fn counted(failures: u8) -> Account {
    Account {
        nt_hash: Some(NT),
        failures,
        ..Account::default()
    }
}

/// "adds 1, to at most 255".
fn one_more(count: u8) -> u8 {
    match count {
        255 => 255,
        _ => count + 1,
    }
}

/// A conversation with identifier 7 and the challenge CH, and the peer that is to answer it.
#[derive(Clone, Copy)]
struct Talk {
    conversation: Conversation,
    peer: Peer,
}

fn open(terms: Terms) -> Talk {
    let mut reply = [0; REPLY_SIZE];
    let opening = Conversation::open(7, terms, &CH, &mut Issued::new(8), &mut reply);
    let (conversation, size) = opening.expect("a conversation");
    let peer = Peer::read_challenge(&reply[..size]).expect("a Challenge");
    Talk { conversation, peer }
}

fn opened(retries: u8, limit: u8) -> Talk {
    open(Terms {
        retries: Some(retries),
        ..Terms::new(limit)
    })
}

fn password(text: &str) -> Password {
    Password::from_utf8(text).expect("a password")
}

/// What a packet drew, and the whole reply buffer.
type Drawn = (Answer, [u8; REPLY_SIZE]);

impl Talk {
    /// The peer's Response by a password.
    fn response(&mut self, text: &str) -> Vec<u8> {
        let mut packet = [0; 62];
        let size = self
            .peer
            .write_response(&password(text), b"DOM\\User", &mut packet);
        packet[..size.expect("a Response")].to_vec()
    }

    /// The peer's change.
    fn change(&mut self, old: &str, new: &str) -> Vec<u8> {
        let mut packet = [0; CHANGE_PACKET];
        let (old, new) = (password(old), password(new));
        let size = self.peer.write_change(&old, &new, &[0; 512], &mut packet);
        packet[..size.expect("a change")].to_vec()
    }

    fn send(&mut self, packet: &[u8], found: Option<&Account>) -> Result<Drawn, Refusal> {
        let mut reply = [0xAA; REPLY_SIZE];
        let answer = self.conversation.step(packet, found, &mut reply)?;
        Ok((answer, reply))
    }

    /// A Response that is judged, and what the peer reads of it.
    fn respond(&mut self, text: &str, found: Option<&Account>) -> Drawn {
        let packet = self.response(text);
        let (answer, reply) = self.send(&packet, found).expect("an answer");
        let reading = self
            .peer
            .read_reply(&reply[..answer.size])
            .expect("a reply");
        assert_eq!(reading.reason, answer.reason.number().into());
        assert!(!answer.repeated);
        (answer, reply)
    }
}

/// The reason and the account that a Response by a password draws in a new conversation.
fn draws(limit: u8, text: &str, account: &Account) -> (Reason, Update) {
    let (answer, _) = opened(2, limit).respond(text, Some(account));
    (answer.reason, answer.update)
}

/// "0 in a record newly made or read from the account file".
#[test]
fn cr09_1() {
    assert_eq!(Account::default().failures, 0);
    let mut record = [0xA5; sys::RECORD_SIZE];
    for flags in 0..0x80 {
        let has = |flag: u32, hash: &'static [u8; 16]| match flags & flag {
            0 => &[][..],
            _ => hash,
        };
        let (nt, lm) = (has(sys::HAS_NT_HASH, &NT.0), has(sys::HAS_LM_HASH, &LM.0));
        assert_eq!(sys::make_record(flags, nt, lm, &mut record), sys::OK);
        assert_eq!(sys::record_failures(&record), 0);
    }
    let line = b"bob:1:XXXXXXXXXXXXXXXXXXXXXXXXXXXXXXXX:FC156AF7EDCD6C0EDDE3337D427F4EAC:\
        [U          ]:LCT-00000000:";
    for name in [&b"bob"[..], b"ann"] {
        record.fill(0xA5);
        assert_eq!(
            sys::find_account(line, name, 5, 5, &mut record, &mut 0),
            sys::OK
        );
        assert_eq!(sys::record_failures(&record), 0);
    }
}

/// "Each judged invalid Response adds 1, to at most 255", whatever the limit is.
#[test]
fn cr09_2() {
    for limit in LIMITS {
        for before in 0..=255 {
            let drawn = draws(limit, "bad", &counted(before));
            let expected = Update::Counted(counted(one_more(before)));
            assert_eq!(drawn, (FAILED, expected), "{before} of {limit}");
        }
    }
}

/// "a valid one sets it to 0", also where 647, 646, 649 or 648 follows.
#[test]
fn cr09_3() {
    for marks in 0..16 {
        let account = Account {
            disabled: marks & 8 > 0,
            hours_denied: marks & 4 > 0,
            dialin_denied: marks & 2 > 0,
            expired: marks & 1 > 0,
            ..counted(0)
        };
        let reason = match marks {
            8.. => Reason::AccountDisabled,
            4.. => Reason::RestrictedLogonHours,
            2.. => Reason::NoDialinPermission,
            1 => Reason::PasswordExpired,
            _ => Reason::Success,
        };
        for failures in 0..3 {
            let passed = Account {
                failures,
                ..account
            };
            assert_eq!(
                draws(3, "MyPw", &passed),
                (reason, Update::Counted(account))
            );
        }
        // locked: before any mark is looked at, and the count stays
        for failures in [3, 4, 254, 255] {
            let passed = Account {
                failures,
                ..account
            };
            assert_eq!(draws(3, "MyPw", &passed), (FAILED, Update::Counted(passed)));
        }
    }
}

/// "at or over a limit of 1 to 255 every Response is judged invalid", by the retry rule; "and a
/// valid one adds nothing".
#[test]
fn cr09_4_and_5() {
    for limit in LIMITS {
        for before in 0..=255 {
            let account = counted(before);
            let expected = match before < limit {
                true => (Reason::Success, Update::Counted(counted(0))),
                false => (FAILED, Update::Counted(account)),
            };
            assert_eq!(draws(limit, "MyPw", &account), expected);
        }
    }
    // 3 tries with 2 retries, whatever is sent
    let mut talk = opened(2, 3);
    let mut account = counted(3);
    for (text, r, failures) in [("MyPw", 1, 3), ("bad", 1, 4), ("MyPw", 0, 4)] {
        let (answer, reply) = talk.respond(text, Some(&account));
        assert_eq!(&reply[4..], format!("E=691 R={r} V=2").as_bytes());
        assert_eq!(answer.update, Update::Counted(counted(failures)));
        account = counted(failures);
    }
    assert_eq!(talk.conversation.awaited(), Awaited::Nothing);
}

/// "The box hands out the record after every judged Response where there is one": only its count is
/// changed.
#[test]
fn cr09_6() {
    for flags in 0..0x40 {
        let account = Account {
            nt_hash: (flags & 1 > 0).then_some(NT),
            lm_hash: (flags & 2 > 0).then_some(LM),
            disabled: flags & 4 > 0,
            hours_denied: flags & 8 > 0,
            dialin_denied: flags & 16 > 0,
            expired: flags & 32 > 0,
            failures: 1,
        };
        let expected = Account {
            failures: 2,
            ..account
        };
        let (reason, update) = draws(3, "bad", &account);
        assert_eq!((reason, update), (FAILED, Update::Counted(expected)));
        assert_eq!(update.account(), Some(&expected));
    }
    for text in ["MyPw", "bad"] {
        let (answer, _) = opened(2, 3).respond(text, None);
        assert_eq!((answer.reason, answer.update), (FAILED, Update::Nothing));
        assert_eq!(answer.update.account(), None);
    }
}

/// "An accepted change sets the count to 0", that of a kept record with any count too, which no
/// conversation comes to keep; and a record with the count 0 lets the new password in whatever the
/// limit is (CR09-13). A change that is not accepted gives no record.
#[test]
fn cr09_7_and_13() {
    const KEPT_FAILURES: usize = 54;
    let expired = Account {
        expired: true,
        ..counted(2)
    };
    let mut talk = opened(0, 3);
    let (answer, _) = talk.respond("MyPw", Some(&expired));
    let kept = Account {
        failures: 0,
        ..expired
    };
    assert_eq!(answer.reason, Reason::PasswordExpired);
    assert_eq!(answer.update, Update::Counted(kept));
    assert_eq!(talk.conversation.as_bytes()[KEPT_FAILURES], 0);
    for failures in [0, 1, 2, 3, 5, 254, 255] {
        let mut bytes = *talk.conversation.as_bytes();
        bytes[KEPT_FAILURES] = failures;
        let conversation = Conversation::from_bytes(&bytes).expect("a conversation");
        let with_count = Talk {
            conversation,
            ..talk
        };
        let packet = { talk }.change("wrong", "clientPass");
        let (answer, _) = { with_count }.send(&packet, None).expect("an answer");
        assert_eq!(answer.reason, Reason::ChangingPassword);
        assert_eq!(answer.update, Update::Nothing);

        let packet = { talk }.change("MyPw", "clientPass");
        let (answer, _) = { with_count }.send(&packet, None).expect("an answer");
        let nt_hash = password("clientPass").nt_hash().ok();
        let renewed = Account {
            nt_hash,
            ..Account::default()
        };
        assert_eq!(answer.update, Update::Changed(renewed));
        for limit in 1..=255 {
            let drawn = draws(limit, "clientPass", &renewed);
            assert_eq!(drawn, (Reason::Success, Update::Counted(renewed)));
        }
    }
}

/// No record, an invalid Response and a locked account: the same reply and the same conversation,
/// byte for byte.
#[test]
fn cr09_8() {
    for retries in 0..=2 {
        for text in ["MyPw", "bad"] {
            let mut unknown = opened(retries, 3);
            let (_, reply) = unknown.respond(text, None);
            for account in [counted(3), counted(4), counted(254), counted(255)] {
                let mut talk = opened(retries, 3);
                assert_eq!(talk.respond(text, Some(&account)).1, reply);
                assert_eq!(talk.conversation, unknown.conversation);
            }
        }
        let mut unknown = opened(retries, 3);
        let (_, reply) = unknown.respond("bad", None);
        for count in 0..=255 {
            let mut talk = opened(retries, 3);
            assert_eq!(talk.respond("bad", Some(&counted(count))).1, reply);
            assert_eq!(talk.conversation, unknown.conversation);
        }
    }
}

/// The record that was handed out last goes in with the next packet: with n failures and k wrong
/// tries the right password gets in exactly where n + k is below the limit.
#[test]
fn cr09_9_and_10() {
    for limit in 1..=6 {
        for n in 0..=7 {
            for k in 0..=7 {
                let mut talk = opened(7, limit);
                let mut account = counted(n);
                for _ in 0..k {
                    let (answer, _) = talk.respond("bad", Some(&account));
                    account = *answer.update.account().expect("a record");
                    assert_eq!(answer.reason, FAILED);
                }
                assert_eq!(account, counted(n + k));
                let (answer, _) = talk.respond("MyPw", Some(&account));
                let expected = match n + k < limit {
                    true => (Reason::Success, Update::Counted(counted(0))),
                    false => (FAILED, Update::Counted(counted(n + k))),
                };
                assert_eq!((answer.reason, answer.update), expected, "{n} {k} {limit}");
            }
        }
    }
}

/// "18, limit 0, checked first at opening"; every other limit will do.
#[test]
fn cr09_11() {
    let mut reply = [0xAA; REPLY_SIZE];
    let mut open = |terms, room: usize, places| {
        let mut issued = Issued::new(places);
        let opening = Conversation::open(7, terms, &CH, &mut issued, &mut reply[..room]);
        opening.map(|(_, size)| size)
    };
    let no_limit = Terms::new(0);
    for (retries, room, places) in [(Some(8), 0, 0), (Some(8), 17, 8), (Some(7), 16, 8)] {
        let terms = Terms {
            retries,
            ..no_limit
        };
        assert_eq!(open(terms, room, places), Err(Refusal::NoLimit));
    }
    assert_eq!(open(no_limit, 17, 8), Err(Refusal::NoLimit));
    for limit in 1..=255 {
        assert_eq!(open(Terms::new(limit), 17, 8), Ok(13));
        let terms = Terms {
            retries: Some(8),
            ..Terms::new(limit)
        };
        assert_eq!(open(terms, 17, 8), Err(Refusal::RetriesRange));
    }
}

/// A repeat and a refused packet change no count: no record is handed out.
#[test]
fn cr09_12() {
    let mut talk = opened(2, 3);
    let packet = talk.response("bad");
    let (answer, reply) = talk.send(&packet, Some(&counted(0))).expect("an answer");
    assert_eq!(answer.update, Update::Counted(counted(1)));
    for account in [Some(counted(0)), Some(counted(1)), Some(counted(255)), None] {
        let (again, octets) = talk.send(&packet, account.as_ref()).expect("a repeat");
        assert_eq!((again.repeated, again.update), (true, Update::Nothing));
        assert_eq!(octets, reply);
        for (packet, refusal) in [
            (&[2, 8, 0][..], Refusal::Frame),
            (&[6, 8, 0, 4], Refusal::Code),
            (&[2, 9, 0, 4], Refusal::Identifier),
            (&[2, 8, 0, 4], Refusal::Size),
        ] {
            let drawn = talk.send(packet, account.as_ref());
            assert_eq!(drawn.map(|(answer, _)| answer.update), Err(refusal));
        }
    }
}

/// Responses by LM count as others do, also where LM is off and none of them is valid.
#[test]
fn responses_by_lm_count() {
    let both = |failures| Account {
        lm_hash: Some(LM),
        ..counted(failures)
    };
    let right = mschap::challenge_response(&LM.0, &CH).expect("a response");
    let packet = |response: [u8; 24], flag| {
        let mut packet = vec![2, 7, 0, 58, 49];
        packet.extend(response);
        packet.extend([0; 24]);
        packet.push(flag);
        packet.extend(b"User");
        packet
    };
    for (lm_allowed, response, before, reason, after) in [
        (Some(true), right, 2, Reason::Success, 0),
        (Some(true), right, 3, FAILED, 3),
        (Some(true), [0; 24], 2, FAILED, 3),
        (Some(true), [0; 24], 3, FAILED, 4),
        (Some(false), right, 2, FAILED, 3),
        (Some(false), right, 3, FAILED, 4),
        (None, right, 0, FAILED, 1),
        (None, [0; 24], 255, FAILED, 255),
    ] {
        let mut talk = open(Terms {
            lm_allowed,
            ..Terms::new(3)
        });
        let (answer, _) = talk
            .send(&packet(response, 0), Some(&both(before)))
            .expect("an answer");
        let expected = Update::Counted(both(after));
        assert_eq!((answer.reason, answer.update), (reason, expected));
    }
    // no way back to LM where the NT response is wrong: that is one more
    let mut talk = open(Terms {
        lm_allowed: Some(true),
        ..Terms::new(3)
    });
    let drawn = talk.send(&packet(right, 1), Some(&both(0)));
    let (answer, _) = drawn.expect("an answer");
    assert_eq!(answer.update, Update::Counted(both(1)));
}

/// The limit is the conversation's, to its end: another conversation may have another one over the
/// same record, and a stored one keeps its own.
#[test]
fn the_limit_is_the_conversations() {
    assert_eq!(draws(5, "MyPw", &counted(4)).0, Reason::Success);
    assert_eq!(draws(4, "MyPw", &counted(4)).0, FAILED);
    let mut talk = opened(7, 2);
    let mut account = counted(0);
    for (text, reason) in [("bad", FAILED), ("bad", FAILED), ("MyPw", FAILED)] {
        let (answer, _) = talk.respond(text, Some(&account));
        account = *answer.update.account().expect("a record");
        let stored = *talk.conversation.as_bytes();
        talk.conversation = Conversation::from_bytes(&stored).expect("a conversation");
        assert_eq!(answer.reason, reason);
    }
    assert_eq!(account, counted(2));
    // its keeper unlocks it, while the conversation goes on
    account.failures = 0;
    let (answer, _) = talk.respond("MyPw", Some(&account));
    assert_eq!(answer.reason, Reason::Success);
}

/// What `mschap.h` warns of: two steps that are passed the same copy count one failure. One after
/// the other, with the record that was handed out last, they count two.
#[test]
fn two_steps_with_one_copy() {
    let account = counted(0);
    let both = [draws(3, "one", &account), draws(3, "two", &account)];
    assert_eq!(both, [(FAILED, Update::Counted(counted(1))); 2]);
    let mut account = counted(0);
    for guess in 1..=3 {
        let (_, update) = draws(3, "guess", &account);
        account = *update.account().expect("a record");
        assert_eq!(account, counted(guess));
    }
    assert_eq!(draws(3, "MyPw", &account).0, FAILED);
}

/// A stored account has its count, and each count that there is.
#[test]
fn a_stored_account_has_its_count() {
    for failures in 0..=255 {
        let bytes = counted(failures).to_bytes().expect("a record");
        assert_eq!(sys::record_failures(&bytes), failures.into());
        assert_eq!(Account::from_bytes(&bytes), Ok(Some(counted(failures))));
    }
}
