//! The layouts of the values that a caller keeps, written down a second time for the tests: each
//! begins with its kind and the version of that kind's layout. A decoder gives what the bytes stand
//! for; none if no value has them.
#![allow(dead_code)]

use mschap::sys;
use reference::authenticator::{Account, Change, Conversation, Entry, Last, Phase, Reply};
use reference::peer::Turn;
use reference::schedules::Schedules;

pub const RECORD: u8 = b'R';
pub const ANSWER: u8 = b'A';
pub const CONVERSATION: u8 = b'C';
pub const PEER: u8 = b'P';
pub const PASSWORD: u8 = b'W';
pub const LIST: u8 = b'L';
pub const KINDS: [u8; 6] = [RECORD, ANSWER, CONVERSATION, PEER, PASSWORD, LIST];
/// Bytes of kind and version.
pub const TAG: usize = 2;
/// Where the limit is in a conversation.
pub const LIMIT_AT: usize = 4;
/// Where the version of its change is in a conversation.
pub const CHANGE_AT: usize = 5;
/// Where the account that is kept begins in a conversation.
pub const KEPT_AT: usize = 16;
/// Where the last answer begins in a conversation.
pub const LAST_AT: usize = 55;
/// Bytes of a conversation.
pub const CONVERSATION_SIZE: usize = 61;
/// Bytes of an account without its schedules, as a conversation keeps it.
pub const ENTRY_SIZE: usize = 39;
/// Bytes of the schedules beside a hash: 48 numbers.
pub const KEYS_SIZE: usize = 384;
/// Bytes of an account within a record or an answer: the entry, and behind it the schedules beside
/// the NT hash and those beside the LM hash.
pub const ACCOUNT_SIZE: usize = ENTRY_SIZE + 2 * KEYS_SIZE;
/// Where the flags are in an entry: that there is an NT hash, an LM hash, and the four others.
pub const ENTRY_FLAGS: [usize; 6] = [0, 17, 34, 35, 36, 37];
/// Bytes of a record, and of an answer.
pub const RECORD_SIZE: usize = 810;
pub const ANSWER_SIZE: usize = 814;
/// Where the account is in a record.
pub const ACCOUNT_AT: usize = 3;
/// Where the count of failures is in a record.
pub const FAILURES_AT: usize = 41;
/// Where the schedules are in a record.
pub const NT_KEYS_AT: usize = 42;
pub const LM_KEYS_AT: usize = 426;
/// Bytes before the places of a list.
pub const LIST_HEAD: usize = 4;

/// The version of a kind's layout.
pub fn version(kind: u8) -> u8 {
    match kind {
        ANSWER => 5,
        CONVERSATION => 4,
        RECORD => 3,
        _ => 1,
    }
}

/// Kind and version, and behind them a body of so many bytes, which is filled in.
fn tagged<const N: usize>(kind: u8, fill: impl FnOnce(&mut [u8])) -> [u8; N] {
    let mut bytes = [0; N];
    bytes[0] = kind;
    bytes[1] = version(kind);
    fill(&mut bytes[TAG..]);
    bytes
}

/// What is behind kind and version.
fn body(kind: u8, size: usize, bytes: &[u8]) -> Option<&[u8]> {
    (bytes.len() == size && bytes[..TAG] == [kind, version(kind)]).then(|| &bytes[TAG..])
}

fn flag(byte: u8) -> Option<bool> {
    match byte {
        0 => Some(false),
        1 => Some(true),
        _ => None,
    }
}

fn part<const N: usize>(bytes: &[u8], from: usize) -> [u8; N] {
    bytes[from..][..N].try_into().expect("enough bytes")
}

/// An entry; a hash that there is not is bytes 0.
pub fn entry(entry: &Entry) -> [u8; ENTRY_SIZE] {
    let mut bytes = [0; ENTRY_SIZE];
    if let Some(hash) = entry.nt {
        bytes[0] = 1;
        bytes[1..17].copy_from_slice(&hash);
    }
    if let Some(hash) = entry.lm {
        bytes[17] = 1;
        bytes[18..34].copy_from_slice(&hash);
    }
    bytes[34] = entry.disabled.into();
    bytes[35] = entry.hours.into();
    bytes[36] = entry.no_dialin.into();
    bytes[37] = entry.expired.into();
    bytes[38] = entry.failures;
    bytes
}

pub fn to_entry(bytes: &[u8]) -> Option<Entry> {
    Some(Entry {
        nt: flag(bytes[0])?.then(|| part(bytes, 1)),
        lm: flag(bytes[17])?.then(|| part(bytes, 18)),
        disabled: flag(bytes[34])?,
        hours: flag(bytes[35])?,
        no_dialin: flag(bytes[36])?,
        expired: flag(bytes[37])?,
        failures: bytes[38],
    })
}

/// An account: any bytes are schedules.
pub fn account(account: &Account) -> [u8; ACCOUNT_SIZE] {
    let mut bytes = [0; ACCOUNT_SIZE];
    bytes[..ENTRY_SIZE].copy_from_slice(&entry(&account.entry()));
    let (nt, lm) = bytes[ENTRY_SIZE..].split_at_mut(KEYS_SIZE);
    nt.copy_from_slice(&keys(&account.nt_keys));
    lm.copy_from_slice(&keys(&account.lm_keys));
    bytes
}

/// Schedules: each number with its least significant byte first.
fn keys(schedules: &Schedules) -> [u8; KEYS_SIZE] {
    let mut bytes = [0; KEYS_SIZE];
    for (to, number) in bytes.chunks_exact_mut(8).zip(schedules.0) {
        to.copy_from_slice(&number.to_le_bytes());
    }
    bytes
}

fn to_keys(bytes: &[u8]) -> Schedules {
    let mut numbers = [0; 48];
    for (number, from) in numbers.iter_mut().zip(bytes.chunks_exact(8)) {
        *number = u64::from_le_bytes(part(from, 0));
    }
    Schedules(numbers)
}

pub fn to_account(bytes: &[u8]) -> Option<Account> {
    let keys = |from| to_keys(&bytes[from..from + KEYS_SIZE]);
    let entry = to_entry(&bytes[..ENTRY_SIZE])?;
    Some(entry.with(keys(ENTRY_SIZE), keys(ENTRY_SIZE + KEYS_SIZE)))
}

/// Whether there is an account, and its bytes.
fn lookup(found: Option<[u8; ACCOUNT_SIZE]>, to: &mut [u8]) {
    if let Some(bytes) = found {
        to[0] = 1;
        to[1..].copy_from_slice(&bytes);
    }
}

fn to_lookup(bytes: &[u8]) -> Option<Option<Account>> {
    let account = to_account(&bytes[1..])?;
    Some(flag(bytes[0])?.then_some(account))
}

/// The record of an account's bytes.
pub fn record(found: Option<[u8; ACCOUNT_SIZE]>) -> [u8; RECORD_SIZE] {
    tagged(RECORD, |to| lookup(found, to))
}

pub fn to_record(bytes: &[u8]) -> Option<Option<Account>> {
    to_lookup(body(RECORD, RECORD_SIZE, bytes)?)
}

/// The flags and the two hashes of a record, as they are stored; any byte is a count of failures.
pub fn record_parts(bytes: &[u8]) -> Option<(u32, [u8; 16], [u8; 16])> {
    to_record(bytes)?;
    let flags = [2, 3, 20, 37, 38, 39, 40]
        .into_iter()
        .enumerate()
        .map(|(bit, at)| u32::from(bytes[at]) << bit)
        .sum();
    Some((flags, part(bytes, 4), part(bytes, 21)))
}

/// What an answer tells.
#[derive(Clone, Copy, Debug, PartialEq, Eq)]
pub struct Told {
    pub repeated: bool,
    pub reason: u16,
    /// The number of what is wrong with a change; 0 is none.
    pub fault: u8,
    /// The record to be stored.
    pub updated: Option<Account>,
}

pub fn answer(told: &Told) -> [u8; ANSWER_SIZE] {
    tagged(ANSWER, |to| {
        to[0] = told.repeated.into();
        to[1..3].copy_from_slice(&told.reason.to_be_bytes());
        to[3] = told.fault;
        lookup(told.updated.as_ref().map(account), &mut to[4..]);
    })
}

/// An answer with neither fault nor record.
pub fn plain_answer(repeated: bool, reason: u16) -> [u8; ANSWER_SIZE] {
    answer(&Told {
        repeated,
        reason,
        fault: 0,
        updated: None,
    })
}

/// There are ten faults, and none: no answer has another number.
pub fn to_answer(bytes: &[u8]) -> Option<Told> {
    let body = body(ANSWER, ANSWER_SIZE, bytes)?;
    Some(Told {
        repeated: flag(body[0])?,
        reason: u16::from_be_bytes(part(body, 1)),
        fault: Some(body[3]).filter(|number| *number <= 10)?,
        updated: to_lookup(&body[4..])?,
    })
}

/// The last answer: that there is one, code and identifier, which reply, and its reason.
fn last(last: &Last) -> [u8; 6] {
    let (reply, reason) = match last.reply.failed() {
        None => (0, 0),
        Some((reason, 0)) => (1, reason),
        Some((reason, _)) => (2, reason),
    };
    let [high, low] = reason.to_be_bytes();
    [1, last.code, last.id, reply, high, low]
}

/// What bytes say of a last answer, though it be said that there is none: the identifier, the
/// reason and whether a retry is allowed, or neither with Success.
fn to_reply(bytes: &[u8]) -> Option<(u8, Option<(u16, bool)>)> {
    let failed = match (bytes[3], u16::from_be_bytes(part(bytes, 4))) {
        (0, 0) => None,
        (1, reason) => Some((reason, false)),
        (2, reason) => Some((reason, true)),
        _ => return None,
    };
    Some((bytes[2], failed))
}

/// The reason and the octets of the last answer in the bytes of a conversation. No box gives a
/// reason that has not three digits; of such a one the last three are written.
pub fn last_reply(bytes: &[u8]) -> Option<(u16, Vec<u8>)> {
    let (id, failed) = to_reply(&bytes[LAST_AT..])?;
    Some(match failed {
        None => (0, vec![3, id, 0, 4]),
        Some((reason, retry)) => {
            let version = bytes[CHANGE_AT];
            let retry = u8::from(retry);
            let text = format!("E={:03} R={retry} V={version}", reason % 1000);
            (reason, [&[4, id, 0, 17], text.as_bytes()].concat())
        }
    })
}

/// The last answer, or none. For a reason that has not three digits another one stands here, since
/// only such ones are theirs.
fn to_last(bytes: &[u8], change: Change) -> Option<Option<Last>> {
    let (id, failed) = to_reply(bytes)?;
    let reply = match failed {
        None => Reply::success(id),
        Some((reason @ 100..=999, retry)) => Reply::failure(id, reason, retry, change),
        Some((_, retry)) => Reply::failure(id, 691, retry, change),
    };
    let code = bytes[1];
    Some(flag(bytes[0])?.then_some(Last { code, id, reply }))
}

/// A conversation; nothing is kept unless a change is awaited.
pub fn conversation(conversation: &Conversation) -> [u8; CONVERSATION_SIZE] {
    tagged(CONVERSATION, |to| {
        to[0] = match &conversation.phase {
            Phase::Ended => 0,
            Phase::Response => 2,
            Phase::Change(kept) => {
                to[14..53].copy_from_slice(&entry(kept));
                match conversation.change {
                    Change::One => 5,
                    Change::Two => 6,
                }
            }
        };
        to[1] = conversation.lm.into();
        to[2] = conversation.limit;
        to[3] = match conversation.change {
            Change::One => 1,
            Change::Two => 2,
        };
        to[4] = conversation.id;
        to[5] = conversation.retries;
        to[6..14].copy_from_slice(&conversation.challenge);
        if let Some(answered) = &conversation.last {
            to[53..].copy_from_slice(&last(answered));
        }
    })
}

/// The change that is awaited is that of the version, and there are two versions.
pub fn to_conversation(bytes: &[u8]) -> Option<Conversation> {
    let body = body(CONVERSATION, CONVERSATION_SIZE, bytes)?;
    let kept = to_entry(&body[14..53])?;
    let change = match body[3] {
        1 => Change::One,
        2 => Change::Two,
        _ => return None,
    };
    Some(Conversation {
        id: body[4],
        challenge: part(body, 6),
        retries: body[5],
        lm: flag(body[1])?,
        limit: body[2],
        change,
        phase: match (body[0], change) {
            (0, _) => Phase::Ended,
            (2, _) => Phase::Response,
            (5, Change::One) | (6, Change::Two) => Phase::Change(kept),
            _ => return None,
        },
        last: to_last(&body[53..], change)?,
    })
}

fn turn(turn: &Turn, to: &mut [u8]) {
    to[0] = turn.id;
    to[1..].copy_from_slice(&turn.challenge);
}

fn to_turn(bytes: &[u8]) -> Turn {
    Turn {
        id: bytes[0],
        challenge: part(bytes, 1),
    }
}

/// A peer: its last packet, or none, and the next one.
pub fn peer(sent: Option<&Turn>, next: &Turn) -> [u8; sys::PEER_SIZE] {
    tagged(PEER, |to| {
        to[0] = sent.is_some().into();
        if let Some(sent) = sent {
            turn(sent, &mut to[1..10]);
        }
        turn(next, &mut to[10..]);
    })
}

pub fn to_peer(bytes: &[u8]) -> Option<(Option<Turn>, Turn)> {
    let body = body(PEER, sys::PEER_SIZE, bytes)?;
    let sent = flag(body[0])?.then(|| to_turn(&body[1..10]));
    Some((sent, to_turn(&body[10..])))
}

/// A password of at most 512 bytes, an even number.
pub fn password(characters: &[u8]) -> [u8; sys::PASSWORD_SIZE] {
    tagged(PASSWORD, |to| {
        to[..2].copy_from_slice(&(characters.len() as u16).to_be_bytes());
        to[2..][..characters.len()].copy_from_slice(characters);
    })
}

pub fn to_password(bytes: &[u8]) -> Option<&[u8]> {
    let body = body(PASSWORD, sys::PASSWORD_SIZE, bytes)?;
    let size = usize::from(u16::from_be_bytes(part(body, 0)));
    let characters = body.get(2..2 + size).filter(|_| size % 2 == 0)?;
    body[2 + size..]
        .iter()
        .all(|byte| *byte == 0)
        .then_some(characters)
}

/// A list: how many places are used, and all places.
pub fn list(used: u16, places: &[u8]) -> Vec<u8> {
    let mut bytes = vec![LIST, version(LIST)];
    bytes.extend(used.to_be_bytes());
    bytes.extend(places);
    bytes
}

/// How many places are used, and all places; of a bad list too.
pub fn to_list(bytes: &[u8]) -> Option<(usize, &[u8])> {
    match bytes {
        [LIST, 1, high, low, places @ ..] => {
            Some((u16::from_be_bytes([*high, *low]).into(), places))
        }
        _ => None,
    }
}
