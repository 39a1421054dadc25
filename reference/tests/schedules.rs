//! Change request 2026-10: each row of the list of rules with its values, and what holds of any run
//! of conversations with one account whose record carries any schedules.

use reference::authenticator::{step, Account, Answer, Change, Conversation, Entry, Fault, Phase};
use reference::hashes::{self, challenge_response};
use reference::packet;
use reference::peer::{self, Turn};
use reference::random::Random;
use reference::schedules::Schedules;
use reference::smbpasswd::{find, samples, Found};

const CH: [u8; 8] = [0x10, 0x2D, 0xB5, 0xDF, 0x08, 0x5D, 0x30, 0x41];
/// The NT and the LM hash of `MyPw`, and those of `clientPass`.
const NT: [u8; 16] = [
    0xFC, 0x15, 0x6A, 0xF7, 0xED, 0xCD, 0x6C, 0x0E, 0xDD, 0xE3, 0x33, 0x7D, 0x42, 0x7F, 0x4E, 0xAC,
];
const LM: [u8; 16] = [
    0x75, 0xBA, 0x30, 0x19, 0x8E, 0x6D, 0x19, 0x75, 0xAA, 0xD3, 0xB4, 0x35, 0xB5, 0x14, 0x04, 0xEE,
];
const CLIENT_PASS: [u8; 16] = [
    0x44, 0xEB, 0xBA, 0x8D, 0x53, 0x12, 0xB8, 0xD6, 0x11, 0x47, 0x44, 0x11, 0xF5, 0x69, 0x89, 0xAE,
];
const CLIENT_PASS_LM: [u8; 16] = [
    0x76, 0xA1, 0x52, 0x93, 0x60, 0x96, 0xD7, 0x83, 0x0E, 0x23, 0x90, 0x22, 0x74, 0x04, 0xAF, 0xD2,
];

fn characters(text: &str) -> Vec<u8> {
    text.bytes().flat_map(|octet| [octet, 0]).collect()
}

/// A box that awaits a Response.
fn boxed(lm: bool) -> Conversation {
    Conversation {
        id: 7,
        challenge: CH,
        retries: 2,
        lm,
        limit: 10,
        change: Change::Two,
        phase: Phase::Response,
        last: None,
    }
}

/// R0's hashes with clientPass's schedules.
fn crossed() -> Account {
    Account {
        nt: Some(NT),
        lm: Some(LM),
        nt_keys: Schedules::of(&CLIENT_PASS),
        lm_keys: Schedules::of(&CLIENT_PASS_LM),
        ..Account::default()
    }
}

/// A try by NT and one by LM, from hashes.
fn nt_try(now: &Conversation, hash: &[u8; 16]) -> Vec<u8> {
    let response = challenge_response(hash, &now.challenge);
    packet::response(now.id, &[0; 24], &response, 1, b"u")
}

fn lm_try(now: &Conversation, hash: &[u8; 16]) -> Vec<u8> {
    let response = challenge_response(hash, &now.challenge);
    packet::response(now.id, &response, &[0; 24], 0, b"u")
}

fn change(now: &Conversation, old: &[u8], new: &[u8]) -> Vec<u8> {
    let turn = Turn {
        id: now.id,
        challenge: now.challenge,
    };
    let mut out = vec![0; 1118];
    peer::write_change(&turn, old, new, &[0; 512], &mut out);
    out
}

fn draw(now: &Conversation, packet: &[u8], record: &Account) -> Answer {
    step(now, packet, Some(record), &mut [0; 17])
}

fn keys(record: &Account) -> (Schedules, Schedules) {
    (record.nt_keys, record.lm_keys)
}

#[test]
fn cr10_1() {
    let both = Account {
        nt: Some(NT),
        lm: Some(LM),
        ..Account::default()
    };
    let both = both.keyed();
    assert_eq!(both.nt_keys.0.len(), 3 * 16);
    assert_eq!(both.lm_keys.0.len(), 3 * 16);
    assert_eq!(keys(&both), (Schedules::of(&NT), Schedules::of(&LM)));
}

/// "the account file's reader included": both agree, and where there is no hash there are zeros.
#[test]
fn cr10_2() {
    let (mut both, mut none) = (0, 0);
    for seed in 0..2_000 {
        let mut random = Random::new(seed);
        let file = samples::random_file(&mut random);
        let name = samples::sought(&file, &mut random);
        let Found::Account { record, .. } = find(&file, &name, 0, 0) else {
            continue;
        };
        let account = record.account();
        assert_eq!(account, account.keyed());
        both += usize::from(account.nt.is_some() && account.lm.is_some());
        none += usize::from(account.nt.is_none() && account.nt_keys == Schedules::default());
    }
    assert!(both > 100 && none > 100, "{both} {none}");
    assert_eq!(Account::default().keyed(), Account::default());
}

#[test]
fn cr10_3() {
    let third = Schedules::of(&NT).0;
    let mut alone = [0; 16];
    alone[14..].copy_from_slice(&[0x4E, 0xAC]);
    let alone = Schedules::of(&alone).0;
    assert_eq!(alone[..32], [0; 32]);
    assert_eq!(alone[32..], third[32..]);
    // The key is 4E AC 00 00 00 00 00, so that it has the block of A.7's third part.
    let block = reference::des::encrypt(&[0x4E, 0xAC, 0, 0, 0, 0, 0], &CH);
    assert_eq!(Schedules(third).response(&CH)[16..], block);
}

#[test]
fn cr10_4_and_5() {
    for lm in [false, true] {
        let now = boxed(lm);
        let right = draw(&now, &nt_try(&now, &CLIENT_PASS), &crossed());
        assert_eq!((right.reason, right.record), (0, Some(crossed())));
        let counted = Account {
            failures: 1,
            ..crossed()
        };
        let wrong = draw(&now, &nt_try(&now, &NT), &crossed());
        assert_eq!((wrong.reason, wrong.record), (691, Some(counted)));
        let right = draw(&now, &lm_try(&now, &CLIENT_PASS_LM), &crossed());
        assert_eq!(right.reason, if lm { 0 } else { 691 });
        assert_eq!(
            right.record.map(|record| keys(&record)),
            Some(keys(&crossed()))
        );
        let wrong = draw(&now, &lm_try(&now, &LM), &crossed());
        assert_eq!((wrong.reason, wrong.record), (691, Some(counted)));
    }
}

#[test]
fn cr10_7_and_8() {
    let expired = Account {
        expired: true,
        ..crossed()
    };
    let now = boxed(false);
    assert_eq!(draw(&now, &nt_try(&now, &NT), &expired).reason, 691);
    let answer = draw(&now, &nt_try(&now, &CLIENT_PASS), &expired);
    assert_eq!((answer.reason, answer.record), (648, Some(expired)));
    let now = answer.conversation;
    assert_eq!(now.phase, Phase::Change(expired.entry()));
    let (mypw, client_pass) = (characters("MyPw"), characters("clientPass"));
    let answer = draw(&now, &change(&now, &mypw, &client_pass), &expired);
    let handed = Entry {
        nt: Some(CLIENT_PASS),
        ..Entry::default()
    };
    let handed = handed.with(Schedules::of(&CLIENT_PASS), Schedules::default());
    assert_eq!((answer.reason, answer.record), (0, Some(handed)));
    let answer = draw(&now, &change(&now, &client_pass, &mypw), &expired);
    assert_eq!((answer.reason, answer.fault), (709, Some(Fault::Over)));
}

/// O-10a: whatever stands beside an absent hash.
#[test]
fn beside_an_absent_hash() {
    let now = boxed(true);
    let record = Account {
        nt_keys: Schedules::of(&NT),
        lm_keys: Schedules::of(&LM),
        ..Account::default()
    };
    for packet in [nt_try(&now, &NT), lm_try(&now, &LM), lm_try(&now, &NT)] {
        let answer = draw(&now, &packet, &record);
        let counted = Account {
            failures: 1,
            ..record
        };
        assert_eq!((answer.reason, answer.record), (691, Some(counted)));
    }
}

fn numbers(random: &mut Random) -> Schedules {
    Schedules(std::array::from_fn(|_| u64::from_be_bytes(random.array())))
}

/// Schedules of any kind: a hash's own or another's, with bits that are not read, or any numbers.
fn drawn_keys(random: &mut Random, own: &Option<[u8; 16]>) -> Schedules {
    let keys = match random.below(4) {
        0 => Schedules::beside(own),
        1 => Schedules::of(&random.array()),
        2 => Schedules::default(),
        _ => numbers(random),
    };
    match random.chance(30) {
        true => {
            let other = numbers(random);
            let bits = |place: usize| other.0[place] & 0xC0C0_C0C0_C0C0_C0C0;
            Schedules(std::array::from_fn(|place| keys.0[place] | bits(place)))
        }
        false => keys,
    }
}

/// Any record: the response under the schedules that it carries is valid, no other one is, and all
/// but the count is handed out as it was lent; a record in which they agree stays one.
#[test]
fn any_schedules() {
    let (mut agreed, mut valid, mut by_hash) = (0, 0, 0);
    for seed in 0..20_000 {
        let mut random = Random::new(seed);
        let nt = random.chance(80).then(|| random.array());
        let lm = random.chance(80).then(|| random.array());
        let record = Account {
            nt,
            lm,
            failures: random.below(12) as u8,
            nt_keys: drawn_keys(&mut random, &nt),
            lm_keys: drawn_keys(&mut random, &lm),
            ..Account::default()
        };
        let now = boxed(random.chance(70));
        let flag = random.chance(50);
        let carried = match flag && nt.is_some() {
            true => record.nt_keys,
            false => record.lm_keys,
        };
        let hash = if flag && nt.is_some() { nt } else { lm };
        let own = Schedules::beside(&hash);
        let is_own = random.chance(30);
        let response = if is_own { own } else { carried }.response(&CH);
        let packet = packet::response(7, &response, &response, u8::from(flag), b"u");
        let answer = draw(&now, &packet, &record);
        let judged = hash.is_some() && (now.lm || flag && nt.is_some());
        let is_valid = judged && response == carried.response(&CH);
        let in_time = record.failures < now.limit;
        assert_eq!(answer.reason == 0, is_valid && in_time, "{seed}");
        let handed = answer.record.unwrap();
        let counted = Account {
            failures: handed.failures,
            ..record
        };
        assert_eq!(handed, counted, "{seed}");
        let agrees = |record: &Account| *record == record.keyed();
        assert_eq!(agrees(&handed), agrees(&record), "{seed}");
        agreed += usize::from(agrees(&record));
        valid += usize::from(is_valid && carried != own);
        by_hash += usize::from(judged && is_own && !is_valid);
    }
    for (what, count) in [("agreed", agreed), ("valid", valid), ("by hash", by_hash)] {
        assert!(count > 500, "{what}: {count}");
    }
}

/// Any record that is expired: the change goes by the octets of the hash, and what it makes agrees.
#[test]
fn any_schedules_and_a_change() {
    for seed in 0..2_000 {
        let mut random = Random::new(seed);
        let size = 2 * random.below(12);
        let (old, new) = (random.octets(size), random.octets(size + 2));
        let nt = hashes::nt_hash(&old).ok();
        let record = Account {
            nt,
            lm: random.chance(50).then(|| random.array()),
            expired: true,
            nt_keys: drawn_keys(&mut random, &nt),
            lm_keys: drawn_keys(&mut random, &None),
            ..Account::default()
        };
        let now = boxed(false);
        let response = record.nt_keys.response(&CH);
        let packet = packet::response(7, &[0; 24], &response, 1, b"u");
        let answer = draw(&now, &packet, &record);
        assert_eq!((answer.reason, answer.record), (648, Some(record)));
        let now = answer.conversation;
        let answer = draw(&now, &change(&now, &old, &new), &record);
        let handed = answer.record.unwrap();
        assert_eq!((answer.reason, handed.nt), (0, hashes::nt_hash(&new).ok()));
        assert_eq!(handed, handed.keyed());
        assert_eq!((handed.lm, handed.lm_keys), (None, Schedules::default()));
    }
}
