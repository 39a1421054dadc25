//! Change request 2026-09: each row of the list of rules with its values, and what holds of any run
//! of conversations with one account: the count of invalid Responses in a row, and the limit at
//! which every Response is judged invalid.

use reference::authenticator::{
    open, step, Account, Answer, Conversation, Opening, Phase, Terms, REFUSED,
};
use reference::issued::Issued;
use reference::peer::{self, Turn, Verdict};
use reference::random::Random;
use reference::smbpasswd::{find, samples, Found};
use reference::{grown, hashes, packet};

const CH: [u8; 8] = [0x10, 0x2D, 0xB5, 0xDF, 0x08, 0x5D, 0x30, 0x41];
/// The NT and the LM hash of `MyPw`, and the NT hash of `clientPass`.
const NT: [u8; 16] = [
    0xFC, 0x15, 0x6A, 0xF7, 0xED, 0xCD, 0x6C, 0x0E, 0xDD, 0xE3, 0x33, 0x7D, 0x42, 0x7F, 0x4E, 0xAC,
];
const LM: [u8; 16] = [
    0x75, 0xBA, 0x30, 0x19, 0x8E, 0x6D, 0x19, 0x75, 0xAA, 0xD3, 0xB4, 0x35, 0xB5, 0x14, 0x04, 0xEE,
];
const CLIENT_PASS: [u8; 16] = [
    0x44, 0xEB, 0xBA, 0x8D, 0x53, 0x12, 0xB8, 0xD6, 0x11, 0x47, 0x44, 0x11, 0xF5, 0x69, 0x89, 0xAE,
];
/// The record R0 of the list of rules, and the same expired.
fn r0() -> Account {
    let record = Account {
        nt: Some(NT),
        ..Account::default()
    };
    record.keyed()
}

fn r0x() -> Account {
    Account {
        expired: true,
        ..r0()
    }
}

/// The last has no hash at all.
fn records() -> [Account; 4] {
    [
        (Some(NT), None),
        (Some(NT), Some(LM)),
        (None, Some(LM)),
        (None, None),
    ]
    .map(|(nt, lm)| {
        let record = Account {
            nt,
            lm,
            ..Account::default()
        };
        record.keyed()
    })
}

/// Limits with their neighbours.
const LIMITS: [u8; 9] = [1, 2, 3, 4, 127, 128, 129, 254, 255];

fn count(failures: u8, record: Account) -> Account {
    Account { failures, ..record }
}

/// "adds 1, to at most 255".
fn one_more(count: u8) -> u8 {
    match count {
        255 => 255,
        _ => count + 1,
    }
}

/// A record with the marks of a number's four bits, disabled being the highest.
fn marked(marks: u8, record: Account) -> Account {
    Account {
        disabled: marks & 8 > 0,
        hours: marks & 4 > 0,
        no_dialin: marks & 2 > 0,
        expired: marks & 1 > 0,
        ..record
    }
}

/// What a valid Response draws that is not judged invalid for the count: 0 for Success.
fn reason_by_marks(record: &Account) -> u16 {
    let marks = [
        (record.disabled, 647),
        (record.hours, 646),
        (record.no_dialin, 649),
        (record.expired, 648),
    ];
    let first = marks.iter().find(|(mark, _)| *mark);
    first.map_or(0, |(_, reason)| *reason)
}

/// A password in ASCII as 16-bit characters.
fn characters(password: &str) -> Vec<u8> {
    password.encode_utf16().flat_map(u16::to_le_bytes).collect()
}

/// An opening with a list of eight empty places and a buffer of 17 octets.
fn opening(id: u8, challenge: &[u8; 8], r: u8, lm: bool, limit: u8) -> Opening {
    let mut issued = Issued {
        list: &mut [0; 64],
        used: 0,
        counts: &mut [0; 256],
    };
    let terms = Terms {
        retries: Some(r),
        lm: Some(lm),
        change: None,
    };
    open(id, challenge, &terms, limit, &mut issued, &mut [0xAA; 17])
}

/// A box opened with identifier 7 and CH.
fn boxed_with(lm: bool, r: u8, limit: u8) -> Conversation {
    let opening = opening(7, &CH, r, lm, limit);
    assert_eq!(opening.refusal, 0);
    opening.conversation
}

fn boxed(r: u8, limit: u8) -> Conversation {
    boxed_with(false, r, limit)
}

/// What a conversation awaits, as our peer has it.
fn turn(conversation: &Conversation) -> Turn {
    Turn {
        id: conversation.id,
        challenge: conversation.challenge,
    }
}

/// Our peer's Response to what is awaited, with name `u`.
fn response(conversation: &Conversation, password: &[u8]) -> Vec<u8> {
    let mut out = vec![0; 55];
    let written = peer::write_response(&turn(conversation), password, b"u", &mut out);
    assert_eq!((written.refusal, written.written), (0, 55));
    out
}

fn right(conversation: &Conversation) -> Vec<u8> {
    response(conversation, &characters("MyPw"))
}

fn wrong(conversation: &Conversation) -> Vec<u8> {
    response(conversation, &characters("bad"))
}

/// A Response by LM: the response of a hash, no NT response, and a flag.
fn by_lm(conversation: &Conversation, hash: &[u8; 16], flag: u8) -> Vec<u8> {
    let lm = hashes::challenge_response(hash, &conversation.challenge);
    packet::response(conversation.id, &lm, &[0; 24], flag, b"u")
}

/// Our peer's change, filler zero.
fn change(conversation: &Conversation, old: &[u8], new: &[u8]) -> Vec<u8> {
    let mut out = vec![0; 1118];
    let written = peer::write_change(&turn(conversation), old, new, &[0; 512], &mut out);
    assert_eq!(written.refusal, 0);
    out
}

/// A step, with the reply buffer afterwards.
fn draw(
    conversation: &Conversation,
    packet: &[u8],
    record: Option<&Account>,
) -> (Answer, [u8; 17]) {
    let mut reply = [0xAA; 17];
    let answer = step(conversation, packet, record, &mut reply);
    (answer, reply)
}

/// The reason that a judged packet draws, and the record handed out.
fn judged(conversation: &Conversation, packet: &[u8], record: &Account) -> (u16, Option<Account>) {
    let (answer, _) = draw(conversation, packet, Some(record));
    assert!(is_judged(&answer));
    (answer.reason, answer.record)
}

fn is_judged(answer: &Answer) -> bool {
    answer.refusal == 0 && !answer.repeated
}

#[test]
fn the_hashes_are_those_of_the_list() {
    assert_eq!(hashes::nt_hash(&characters("MyPw")), Ok(NT));
    assert_eq!(hashes::lm_hash(b"MyPw"), Ok(LM));
    assert_eq!(hashes::nt_hash(&characters("clientPass")), Ok(CLIENT_PASS));
}

/// "0 in a record newly made or read from the account file".
#[test]
fn cr09_1() {
    assert_eq!(Account::default().failures, 0);
    let mut random = Random::new(9);
    let mut found = 0;
    for _ in 0..2_000 {
        let file = samples::random_file(&mut random);
        let name = samples::sought(&file, &mut random);
        if let Found::Account { record, .. } = find(&file, &name, 0, 0) {
            assert_eq!(record.account().failures, 0);
            found += 1;
        }
    }
    assert!(found > 200, "{found}");
}

/// "Each judged invalid Response adds 1, to at most 255", whatever the limit is.
#[test]
fn cr09_2() {
    for limit in LIMITS {
        let conversation = boxed(2, limit);
        let packet = wrong(&conversation);
        for before in 0..=255 {
            let drawn = judged(&conversation, &packet, &count(before, r0()));
            assert_eq!(drawn, (691, Some(count(one_more(before), r0()))));
        }
    }
}

/// "a valid one sets it to 0", also when 647, 646, 649 or 648 follows.
#[test]
fn cr09_3() {
    let conversation = boxed(2, 3);
    let packet = right(&conversation);
    let disabled = marked(8, r0());
    assert_eq!(
        judged(&conversation, &packet, &count(2, disabled)),
        (647, Some(disabled))
    );
    let mut drawn = Vec::new();
    for marks in 0..16 {
        let record = marked(marks, r0());
        for before in 0..3 {
            let (reason, handed) = judged(&conversation, &packet, &count(before, record));
            assert_eq!((reason, handed), (reason_by_marks(&record), Some(record)));
            drawn.push(reason);
        }
    }
    for reason in [0, 646, 647, 648, 649] {
        assert!(drawn.contains(&reason), "{reason}");
    }
}

/// "at or over a limit of 1 to 255 every Response is judged invalid": 691 by the retry rule, before
/// any mark is looked at.
#[test]
fn cr09_4() {
    let conversation = boxed(2, 3);
    let packet = right(&conversation);
    assert_eq!(judged(&conversation, &packet, &count(3, r0())).0, 691);
    assert_eq!(judged(&conversation, &packet, &count(2, r0())).0, 0);
    for limit in LIMITS {
        let conversation = boxed(2, limit);
        let packet = right(&conversation);
        for before in 0..=255 {
            let (reason, _) = judged(&conversation, &packet, &count(before, r0()));
            assert_eq!(reason, if before < limit { 0 } else { 691 });
        }
    }
    for marks in 0..16 {
        for r in 0..3 {
            let conversation = boxed(r, 3);
            let record = count(3, marked(marks, r0()));
            let (answer, _) = draw(&conversation, &right(&conversation), Some(&record));
            assert_eq!(answer.reason, 691);
            let retry = Conversation {
                id: 8,
                challenge: grown(&CH),
                retries: r.saturating_sub(1),
                last: answer.conversation.last,
                ..conversation
            };
            let end = Conversation {
                phase: Phase::Ended,
                last: answer.conversation.last,
                ..conversation
            };
            assert_eq!(answer.conversation, if r > 0 { retry } else { end });
        }
    }
}

/// "and a valid one adds nothing": no 0, no 1 more.
#[test]
fn cr09_5() {
    let conversation = boxed(2, 3);
    let locked = count(3, r0());
    assert_eq!(
        judged(&conversation, &right(&conversation), &locked).1,
        Some(count(3, r0()))
    );
    assert_eq!(
        judged(&conversation, &wrong(&conversation), &locked).1,
        Some(count(4, r0()))
    );
    for limit in LIMITS {
        let conversation = boxed(2, limit);
        let packet = right(&conversation);
        for before in limit..=255 {
            let (_, handed) = judged(&conversation, &packet, &count(before, r0()));
            assert_eq!(handed, Some(count(before, r0())));
        }
    }
}

/// "The box hands out the record after every judged Response where there is one", with only its
/// count changed.
#[test]
fn cr09_6() {
    let conversation = boxed(2, 3);
    let packet = wrong(&conversation);
    assert_eq!(
        judged(&conversation, &packet, &r0()).1,
        Some(count(1, r0()))
    );
    for packet in [&packet, &right(&conversation)] {
        let (answer, _) = draw(&conversation, packet, None);
        assert_eq!((answer.reason, answer.record), (691, None));
    }
    for record in records() {
        for marks in 0..16 {
            let record = marked(marks, record);
            let (reason, handed) = judged(&conversation, &packet, &count(1, record));
            assert_eq!((reason, handed), (691, Some(count(2, record))));
        }
    }
}

/// "An accepted change sets the count to 0", and no count bars a change.
#[test]
fn cr09_7() {
    let (old, new) = (characters("MyPw"), characters("clientPass"));
    let handed = Account {
        nt: Some(CLIENT_PASS),
        ..r0()
    };
    let handed = handed.keyed();
    for (kept_count, limit) in [(5, 255), (5, 3), (255, 1), (0, 3)] {
        let conversation = Conversation {
            phase: Phase::Change(count(kept_count, r0x()).entry()),
            ..boxed(2, limit)
        };
        let packet = change(&conversation, &old, &new);
        for lent in [None, Some(count(255, r0()))] {
            let (answer, _) = draw(&conversation, &packet, lent.as_ref());
            assert_eq!((answer.reason, answer.record), (0, Some(handed)));
        }
        // One that draws 709 hands out none.
        let packet = change(&conversation, &characters("bad"), &new);
        let (answer, _) = draw(&conversation, &packet, Some(&r0()));
        assert_eq!((answer.reason, answer.record), (709, None));
    }
}

/// The record kept at 648 is the one handed out. Where another conversation locks the account
/// before the change comes, the change is accepted all the same.
#[test]
fn a_change_that_is_awaited_is_not_barred() {
    let conversation = boxed(2, 3);
    let (answer, _) = draw(&conversation, &right(&conversation), Some(&count(2, r0x())));
    assert_eq!((answer.reason, answer.record), (648, Some(r0x())));
    assert_eq!(answer.conversation.phase, Phase::Change(r0x().entry()));
    let mut other = boxed(2, 3);
    let mut record = r0x();
    for n in 1..=3 {
        let (answer, _) = draw(&other, &wrong(&other), Some(&record));
        assert_eq!(answer.record, Some(count(n, r0x())));
        (other, record) = (answer.conversation, answer.record.unwrap());
    }
    let awaited = answer.conversation;
    let packet = change(&awaited, &characters("MyPw"), &characters("clientPass"));
    let (answer, _) = draw(&awaited, &packet, Some(&record));
    assert_eq!((answer.reason, answer.record.unwrap().failures), (0, 0));
}

/// "The sentence in 01 about equal replies stands for reply and conversation".
#[test]
fn cr09_8() {
    for r in 0..8 {
        for limit in [1, 3, 255] {
            let conversation = boxed(r, limit);
            let (right, wrong) = (right(&conversation), wrong(&conversation));
            let (none, reply) = draw(&conversation, &right, None);
            let same = |packet: &[u8], record: Option<Account>| {
                let (answer, octets) = draw(&conversation, packet, record.as_ref());
                let (later, none) = (answer.conversation, none.conversation);
                assert_eq!((answer.reason, octets, later), (691, reply, none));
            };
            same(&wrong, None);
            for record in records() {
                for marks in 0..16 {
                    let record = marked(marks, record);
                    same(&wrong, Some(record));
                    same(&wrong, Some(count(limit, record)));
                    same(&right, Some(count(limit, record)));
                }
            }
        }
    }
}

/// k wrong tries and then the right one, the record last handed out passed in, in one conversation.
/// Gives the counts passed in and the last reason.
fn tries(n: u8, k: u8, limit: u8) -> (Vec<u8>, u16) {
    let mut conversation = boxed(k, limit);
    let mut record = count(n, r0());
    let mut passed = Vec::new();
    for _ in 0..k {
        passed.push(record.failures);
        let (answer, _) = draw(&conversation, &wrong(&conversation), Some(&record));
        assert_eq!(answer.reason, 691);
        (conversation, record) = (answer.conversation, answer.record.unwrap());
    }
    passed.push(record.failures);
    let (reason, _) = judged(&conversation, &right(&conversation), &record);
    (passed, reason)
}

/// "Demand 3 passes in the record last handed out": the counts n to n + k - 1, and then n + k.
#[test]
fn cr09_9() {
    assert_eq!(tries(0, 2, 3), (vec![0, 1, 2], 0));
    assert_eq!(tries(4, 7, 255).0, [4, 5, 6, 7, 8, 9, 10, 11]);
}

/// "gains the premise that the count before plus the invalid tries is below the limit".
#[test]
fn cr09_10() {
    assert_eq!(tries(0, 2, 2), (vec![0, 1, 2], 691));
    for limit in [1, 2, 3, 5, 8, 254, 255] {
        for n in (0..10).chain(246..=255) {
            for k in 0..8 {
                let below = u16::from(n) + u16::from(k) < u16::from(limit);
                let (_, reason) = tries(n, k, limit);
                assert_eq!(reason, if below { 0 } else { 691 }, "{n} {k} {limit}");
            }
        }
    }
}

/// "18, limit 0, checked first at opening": before 13, 2, 24, 16 and 17, and nothing changes.
#[test]
fn cr09_11() {
    assert_eq!(opening(7, &CH, 8, true, 0).refusal, 18);
    assert_eq!(opening(7, &CH, 8, true, 1).refusal, 13);
    assert_eq!(opening(7, &CH, 7, true, 0).refusal, 18);
    for limit in 1..=255 {
        assert_eq!(boxed(7, limit).limit, limit);
    }
    // What an opening with limit 1 draws, that has all else the same.
    for (r, room, octets, used, counted, other) in [
        (2, 17, 24, 0, 0, 0),
        (8, 17, 24, 0, 0, 13),
        (2, 16, 24, 0, 0, 2),
        (2, 17, 12, 0, 0, 24),
        (2, 17, 24, 4, 0, 24),
        (2, 17, 24, 1, 0, 24),
        (0, 17, 24, 1, 1, 16),
        (2, 17, 16, 0, 0, 17),
        (8, 0, 12, 9, 7, 13),
    ] {
        for (limit, refusal) in [(0, 18), (1, other)] {
            // CH in each place.
            let lent: Vec<u8> = CH.into_iter().cycle().take(octets).collect();
            let mut counts = [0; 256];
            counts[0x41] = counted;
            let (mut list, mut later) = (lent.clone(), counts);
            let mut issued = Issued {
                list: &mut list,
                used,
                counts: &mut later,
            };
            let mut reply = vec![0xAA; room];
            let terms = Terms {
                retries: Some(r),
                ..Terms::default()
            };
            let opening = open(7, &CH, &terms, limit, &mut issued, &mut reply);
            assert_eq!(opening.refusal, refusal);
            if refusal > 0 {
                assert_eq!((opening.written, opening.conversation), (0, REFUSED));
                assert_eq!((issued.used, later), (used, counts));
                assert_eq!((list, reply), (lent, vec![0xAA; room]));
            }
        }
    }
    assert_eq!((REFUSED.limit, REFUSED.phase), (0, Phase::Ended));
}

/// A repeat or a refused packet changes no count: one record for a wrong try and its repeat.
#[test]
fn cr09_12() {
    let opened = boxed(2, 3);
    let packet = wrong(&opened);
    let (answer, reply) = draw(&opened, &packet, Some(&r0()));
    assert_eq!(answer.record, Some(count(1, r0())));
    let conversation = answer.conversation;
    for lent in [None, Some(r0()), Some(count(1, r0())), Some(count(3, r0()))] {
        for packet in [&packet, &right(&opened), &vec![2, 7, 0, 4]] {
            let (again, octets) = draw(&conversation, packet, lent.as_ref());
            assert_eq!((again.repeated, again.record, octets), (true, None, reply));
            assert_eq!(again.conversation, conversation);
        }
        // Refusals 3 to 7.
        let bad_flag = packet::response(8, &[0; 24], &[0; 24], 2, b"u");
        for (packet, refusal) in [
            (&[2, 8, 0][..], 3),
            (&[6, 8, 0, 4], 4),
            (&[2, 9, 0, 4], 5),
            (&[2, 8, 0, 4], 6),
            (&bad_flag, 7),
        ] {
            let (answer, _) = draw(&conversation, packet, lent.as_ref());
            assert_eq!((answer.refusal, answer.record), (refusal, None));
            assert_eq!(answer.conversation, conversation);
        }
        let packet = right(&conversation);
        let answer = step(&conversation, &packet, lent.as_ref(), &mut [0; 16]);
        assert_eq!((answer.refusal, answer.record), (2, None));
    }
}

/// The record of an accepted change has count 0 and every limit is at least 1, so that it lets the
/// new password in.
#[test]
fn cr09_13() {
    let conversation = boxed(0, 255);
    let packet = right(&conversation);
    let (answer, _) = draw(&conversation, &packet, Some(&count(254, r0x())));
    assert_eq!(answer.reason, 648);
    let awaited = answer.conversation;
    let new = characters("clientPass");
    let packet = change(&awaited, &characters("MyPw"), &new);
    let (answer, _) = draw(&awaited, &packet, None);
    let record = answer.record.unwrap();
    for limit in 1..=255 {
        let conversation = boxed(0, limit);
        let (reason, handed) = judged(&conversation, &response(&conversation, &new), &record);
        assert_eq!((reason, handed), (0, Some(record)));
    }
}

/// Tries by LM count as others do; where LM is off each of them is invalid.
#[test]
fn tries_by_lm_count() {
    let [_, both, lm_only, _] = records();
    for (record, flag) in [(both, 0), (lm_only, 0), (lm_only, 1)] {
        for before in [0, 2, 3, 4, 255] {
            let lent = count(before, record);
            let (asked, off) = (boxed_with(true, 2, 3), boxed(2, 3));
            let packet = by_lm(&asked, &LM, flag);
            let expected = match before < 3 {
                true => (0, Some(record)),
                false => (691, Some(lent)),
            };
            assert_eq!(judged(&asked, &packet, &lent), expected);
            let invalid = (691, Some(count(one_more(before), record)));
            assert_eq!(judged(&off, &packet, &lent), invalid);
            let wrong = by_lm(&asked, &NT, flag);
            assert_eq!(judged(&asked, &wrong, &lent), invalid);
            assert_eq!(judged(&off, &wrong, &lent), invalid);
        }
    }
    // No way back to LM where the NT response is wrong.
    let asked = boxed_with(true, 2, 3);
    let drawn = judged(&asked, &by_lm(&asked, &LM, 1), &both);
    assert_eq!(drawn, (691, Some(count(1, both))));
}

/// The limit is that of the opening, and stays to the end of the conversation.
#[test]
fn the_limit_is_the_conversations() {
    for limit in LIMITS {
        let mut conversation = boxed(2, limit);
        for _ in 0..3 {
            let (answer, _) = draw(&conversation, &wrong(&conversation), Some(&r0()));
            conversation = answer.conversation;
            assert_eq!(conversation.limit, limit);
        }
        assert_eq!(conversation.phase, Phase::Ended);
        let conversation = boxed(2, limit);
        let (answer, _) = draw(&conversation, &right(&conversation), Some(&r0x()));
        let awaited = answer.conversation;
        let packet = change(&awaited, &characters("MyPw"), &characters("clientPass"));
        let (answer, _) = draw(&awaited, &packet, None);
        assert_eq!((awaited.limit, answer.conversation.limit), (limit, limit));
    }
}

/// What is sent to the box, whether it is a valid Response by document 01, and the password that it
/// would bring as a change.
struct Sent {
    packet: Vec<u8>,
    is_valid: bool,
    new: Vec<u8>,
}

/// One account, called again and again.
struct Run {
    limit: u8,
    record: Account,
    password: Vec<u8>,
    conversation: Conversation,
    /// The last packet.
    last: Vec<u8>,
    /// How many judged Responses in a row drew 691, since the count was 0.
    in_a_row: usize,
}

/// How often what is claimed was put to the test.
#[derive(Default)]
struct Seen {
    responses: usize,
    /// Valid Responses to which the box had to say 691.
    shut_out: usize,
    /// Openings with the account locked.
    called_back: usize,
    let_in: usize,
    changed: usize,
    repeated: usize,
    refused: usize,
}

/// At most 14 octets, so that there is an LM hash of it too, and enough that no two are the same.
fn password(random: &mut Random) -> Vec<u8> {
    let size = 2 * random.between(4, 7);
    random.octets(size)
}

fn lm_hash(password: &[u8]) -> [u8; 16] {
    hashes::lm_hash(password).unwrap()
}

impl Run {
    fn new(random: &mut Random) -> Run {
        let password = password(random);
        let marks = random.pick(&[0, 0, 0, 1, 1, 8, 4, 2, 15]);
        let nt = hashes::nt_hash(&password).unwrap();
        let record = Account {
            nt: random.chance(90).then_some(nt),
            lm: random.chance(60).then(|| lm_hash(&password)),
            ..marked(marks, Account::default())
        };
        Run {
            limit: random.pick(&[1, 2, 3, 3, 4, 5, 8, 12]),
            record: record.keyed(),
            password,
            conversation: REFUSED,
            last: Vec::new(),
            in_a_row: 0,
        }
    }

    /// Hangs up and calls back.
    fn call(&mut self, random: &mut Random) {
        let r = random.below(8) as u8;
        let lm = random.chance(50);
        let opening = opening(random.octet(), &random.array(), r, lm, self.limit);
        assert_eq!(opening.refusal, 0);
        self.conversation = opening.conversation;
    }

    /// Anything at all: what our peer writes from the right password or another, by LM, changes,
    /// repeats, packets that are refused, and octets.
    fn packet(&self, random: &mut Random) -> Sent {
        let now = &self.conversation;
        let has_nt = self.record.nt.is_some();
        let judges_lm = now.lm && self.record.lm.is_some();
        let right = response(now, &self.password);
        let new = password(random);
        let (packet, is_valid) = match random.below(20) {
            0..=3 => (right, has_nt),
            4..=8 => (response(now, &password(random)), false),
            9 => (by_lm(now, &lm_hash(&self.password), 0), judges_lm),
            10 => {
                let packet = by_lm(now, &lm_hash(&self.password), 1);
                (packet, !has_nt && judges_lm)
            }
            11 => (by_lm(now, &random.array(), random.pick(&[0, 1])), false),
            12..=14 => (change(now, &self.password, &new), false),
            15 => (change(now, &password(random), &new), false),
            16 => (self.last.clone(), false),
            17 => (random.octets(20), false),
            18 => (right[..random.below(55)].to_vec(), false),
            _ => {
                let mut packet = right;
                let place = random.pick(&[0, 1, 2, 3, 4, 53]);
                packet[place] ^= 1 << random.between(1, 7);
                (packet, false)
            }
        };
        Sent {
            packet,
            is_valid,
            new,
        }
    }

    fn is_locked(&self) -> bool {
        self.in_a_row >= usize::from(self.limit)
    }

    fn step(&mut self, random: &mut Random, seen: &mut Seen) {
        let sent = self.packet(random);
        let (before, lent) = (self.conversation, self.record);
        let (answer, _) = draw(&before, &sent.packet, Some(&lent));
        self.conversation = answer.conversation;
        self.record = answer.record.unwrap_or(lent);
        if !is_judged(&answer) {
            seen.repeated += usize::from(answer.repeated);
            seen.refused += usize::from(answer.refusal > 0);
            assert_eq!(answer.record, None);
            return;
        }
        if before.phase == Phase::Response {
            self.responded(&lent, sent.is_valid, &answer, seen);
        } else if answer.reason == 0 {
            seen.changed += 1;
            let nt = hashes::nt_hash(&sent.new).ok();
            assert_eq!((self.record.nt, self.record.failures), (nt, 0));
            self.password = sent.new;
            self.in_a_row = 0;
        }
        self.last = sent.packet;
    }

    /// After a judged Response.
    fn responded(&mut self, lent: &Account, is_valid: bool, answer: &Answer, seen: &mut Seen) {
        let is_locked = self.is_locked();
        seen.responses += 1;
        seen.shut_out += usize::from(is_locked && is_valid);
        seen.let_in += usize::from(answer.reason == 0);
        // The claim: after so many it is 691 again. And no sooner than that: a valid one draws what
        // it draws by document 01.
        let reason = match is_valid && !is_locked {
            true => reason_by_marks(lent),
            false => 691,
        };
        assert_eq!(answer.reason, reason);
        // The count: at the limit the wrong ones still add to it, the right ones leave it.
        let failures = match (is_valid, is_locked) {
            (true, false) => 0,
            (true, true) => lent.failures,
            (false, _) => one_more(lent.failures),
        };
        assert_eq!(answer.record, Some(count(failures, *lent)));
        self.in_a_row = match answer.reason {
            691 => self.in_a_row + 1,
            _ => 0,
        };
    }
}

/// Over runs of conversations with one account and one limit, the record last handed out passed in:
/// after as many judged Responses in a row that drew 691 as the limit says, every further one draws
/// 691, until the count is set to 0.
#[test]
fn guessing_stops_across_conversations() {
    let mut random = Random::new(9);
    let mut seen = Seen::default();
    for _ in 0..600 {
        let mut run = Run::new(&mut random);
        for _ in 0..80 {
            let over = run.conversation.phase == Phase::Ended && random.chance(70);
            if over || random.chance(10) {
                run.call(&mut random);
                seen.called_back += usize::from(run.is_locked());
            }
            // The keeper of the accounts sets the count to 0; a password grows old.
            if random.chance(2) {
                run.record.failures = 0;
                run.in_a_row = 0;
            }
            run.record.expired |= random.chance(2);
            run.step(&mut random, &mut seen);
        }
    }
    for (kind, times) in [
        ("Responses", seen.responses),
        ("shut out", seen.shut_out),
        ("called back", seen.called_back),
        ("let in", seen.let_in),
        ("changed", seen.changed),
        ("repeated", seen.repeated),
        ("refused", seen.refused),
    ] {
        assert!(times > 100, "{kind}: {times}");
    }
}

/// A rightful user with one box: wrong tries, then the right password, and where the record is
/// expired the change.
struct User {
    conversation: Conversation,
    record: Account,
    /// The last packet.
    last: Vec<u8>,
    /// How many packets were judged.
    judged: usize,
}

impl User {
    /// Packets that are refused, and repeats, with any record: nothing moves.
    fn noise(&self, random: &mut Random) {
        for _ in 0..random.below(3) {
            let other_id = self.conversation.id.wrapping_add(7);
            let packet = match random.pick(&[0, 1]) {
                0 => self.last.clone(),
                _ => vec![2, other_id, 0, 4],
            };
            let record = count(random.octet(), r0());
            let (answer, _) = draw(&self.conversation, &packet, Some(&record));
            assert!(!is_judged(&answer));
            assert_eq!(answer.record, None);
            assert_eq!(answer.conversation, self.conversation);
        }
    }

    /// Sends a packet with the record last handed out, and gives the reason as our peer reads it, 0
    /// for Success.
    fn send(&mut self, packet: Vec<u8>) -> u64 {
        let (answer, reply) = draw(&self.conversation, &packet, Some(&self.record));
        self.judged += usize::from(is_judged(&answer));
        self.conversation = answer.conversation;
        self.record = answer.record.unwrap_or(self.record);
        let read = peer::read_reply(packet[1], &reply);
        self.last = packet;
        match read {
            Ok(Verdict::Success) => 0,
            Ok(Verdict::Failure(fields)) => fields.e,
            Err(refusal) => panic!("{refusal}"),
        }
    }
}

/// With a count of n and k wrong tries the right password gets in where n + k is below the limit,
/// whatever is refused or repeated in between, and the box judges k + 1 packets, or k + 2 with the
/// record expired. Where n + k is not below it, the right password draws 691.
#[test]
fn a_rightful_user_gets_in_below_the_limit() {
    let mut random = Random::new(3);
    let (mut below, mut not_below, mut changed) = (0, 0, 0);
    for _ in 0..2_000 {
        let limit: u8 = random.pick(&[1, 2, 3, 5, 9, 128, 255, 255]);
        let r = random.below(8);
        let k = random.between(0, r);
        let n = match random.chance(50) {
            true => limit.saturating_sub(random.below(10) as u8),
            false => random.octet(),
        };
        let password = password(&mut random);
        let expired = random.chance(30);
        let opening = opening(random.octet(), &random.array(), r as u8, false, limit);
        let record = Account {
            nt: hashes::nt_hash(&password).ok(),
            expired,
            failures: n,
            ..Account::default()
        };
        let mut user = User {
            conversation: opening.conversation,
            record: record.keyed(),
            last: Vec::new(),
            judged: 0,
        };
        for _ in 0..k {
            user.noise(&mut random);
            let wrong = response(&user.conversation, &[&password[..], b"x\0"].concat());
            assert_eq!(user.send(wrong), 691);
        }
        user.noise(&mut random);
        let reason = user.send(response(&user.conversation, &password));
        if usize::from(n) + k >= usize::from(limit) {
            assert_eq!(reason, 691);
            not_below += 1;
            continue;
        }
        assert_eq!(reason, if expired { 648 } else { 0 });
        if expired {
            user.noise(&mut random);
            let packet = change(&user.conversation, &password, b"n\0e\0w\0");
            assert_eq!(user.send(packet), 0);
            changed += 1;
        }
        assert_eq!(user.judged, k + 1 + usize::from(expired));
        assert_eq!((user.record.failures, user.record.expired), (0, false));
        below += 1;
    }
    for (kind, times) in [
        ("below", below),
        ("not below", not_below),
        ("changed", changed),
    ] {
        assert!(times > 200, "{kind}: {times}");
    }
}
