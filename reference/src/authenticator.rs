//! The box: a conversation as an explicit state machine.

use crate::hashes::{self, Opened as OpenedBlock};
use crate::issued::{entries_of, Issued};
use crate::message;
use crate::packet::{self, Change1Fields, ChangeFields, Frame, ResponseFields};
use crate::schedules::Schedules;
use crate::{grown, next_identifier};

/// An account record.
#[derive(Clone, Copy, Debug, Default, PartialEq, Eq)]
pub struct Account {
    /// The NT hash, or none.
    pub nt: Option<[u8; 16]>,
    /// The LAN Manager hash, or none.
    pub lm: Option<[u8; 16]>,
    /// Disabled.
    pub disabled: bool,
    /// Barred by hours.
    pub hours: bool,
    /// No dial-in.
    pub no_dialin: bool,
    /// Expired.
    pub expired: bool,
    /// How many Responses in a row were invalid (request 2026-09): "0 in a record newly made".
    pub failures: u8,
    /// The schedules beside the NT hash (request 2026-10), by which its Responses are judged. They
    /// need not be the hash's own.
    pub nt_keys: Schedules,
    /// Those beside the LAN Manager hash.
    pub lm_keys: Schedules,
}

impl Account {
    /// The same with the schedules that agree with its hashes, as in every record that is made
    /// here: zeros beside a hash that is absent.
    pub fn keyed(self) -> Account {
        Account {
            nt_keys: Schedules::beside(&self.nt),
            lm_keys: Schedules::beside(&self.lm),
            ..self
        }
    }

    /// The same without its schedules.
    pub fn entry(&self) -> Entry {
        Entry {
            nt: self.nt,
            lm: self.lm,
            disabled: self.disabled,
            hours: self.hours,
            no_dialin: self.no_dialin,
            expired: self.expired,
            failures: self.failures,
        }
    }
}

/// An account record without its schedules: what is kept for a change, which goes by the octets of
/// the hashes alone.
#[derive(Clone, Copy, Debug, Default, PartialEq, Eq)]
pub struct Entry {
    /// The NT hash, or none.
    pub nt: Option<[u8; 16]>,
    /// The LAN Manager hash, or none.
    pub lm: Option<[u8; 16]>,
    /// Disabled.
    pub disabled: bool,
    /// Barred by hours.
    pub hours: bool,
    /// No dial-in.
    pub no_dialin: bool,
    /// Expired.
    pub expired: bool,
    /// How many Responses in a row were invalid.
    pub failures: u8,
}

impl Entry {
    /// The record with any schedules.
    pub fn with(&self, nt_keys: Schedules, lm_keys: Schedules) -> Account {
        Account {
            nt: self.nt,
            lm: self.lm,
            disabled: self.disabled,
            hours: self.hours,
            no_dialin: self.no_dialin,
            expired: self.expired,
            failures: self.failures,
            nt_keys,
            lm_keys,
        }
    }

    /// The record with the schedules that agree with its hashes.
    pub fn keyed(&self) -> Account {
        self.with(Schedules::beside(&self.nt), Schedules::beside(&self.lm))
    }
}

/// The change that a box awaits after 648 (request 2026-07).
#[derive(Clone, Copy, Debug, PartialEq, Eq)]
pub enum Change {
    /// Version 1: code 5, Length 72.
    One = 1,
    /// Version 2: code 6, Length 1118.
    Two = 2,
}

impl Change {
    /// The code that is awaited.
    pub fn code(self) -> u8 {
        match self {
            Change::One => packet::CHANGE_1,
            Change::Two => packet::CHANGE,
        }
    }

    /// V in each Failure: "A box opened for it writes V=1 in its messages".
    pub fn version(self) -> u8 {
        self as u8
    }
}

/// What a conversation awaits.
#[derive(Clone, Copy, Debug, PartialEq, Eq)]
pub enum Phase {
    /// A Response.
    Response,
    /// A change; the kept record goes with it.
    Change(Entry),
    /// Nothing more.
    Ended,
}

/// The octets of a reply.
#[derive(Clone, Copy, Debug, PartialEq, Eq)]
pub struct Reply {
    octets: [u8; packet::FAILURE_LENGTH],
    length: usize,
}

impl Reply {
    fn of(written: &[u8]) -> Reply {
        let mut octets = [0; packet::FAILURE_LENGTH];
        let length = packet::put(written, &mut octets);
        Reply { octets, length }
    }

    /// A Success.
    pub fn success(id: u8) -> Reply {
        Reply::of(&packet::success(id))
    }

    /// A Failure of a box that awaits one change or the other, with a reason, of three digits as
    /// all are, and whether a retry is allowed.
    pub fn failure(id: u8, reason: u16, retry: bool, change: Change) -> Reply {
        let version = change.version();
        Reply::of(&packet::failure(id, reason, u8::from(retry), version))
    }

    /// What is sent.
    pub fn octets(&self) -> &[u8] {
        &self.octets[..self.length]
    }

    /// The reason and R as a Failure's message says them; none in a Success.
    pub fn failed(&self) -> Option<(u16, u8)> {
        let fields = message::read(&self.octets()[4..]).ok()?;
        Some((u16::try_from(fields.e).ok()?, fields.r))
    }
}

/// What was answered last: the code and the identifier of the packet, and what it drew.
#[derive(Clone, Copy, Debug, PartialEq, Eq)]
pub struct Last {
    /// The packet's code.
    pub code: u8,
    /// The packet's identifier.
    pub id: u8,
    /// The reply.
    pub reply: Reply,
}

/// A conversation.
#[derive(Clone, Copy, Debug, PartialEq, Eq)]
pub struct Conversation {
    /// The awaited identifier.
    pub id: u8,
    /// The challenge in force.
    pub challenge: [u8; 8],
    /// Retries left.
    pub retries: u8,
    /// Whether LM is allowed.
    pub lm: bool,
    /// How many invalid Responses in a row lock an account: from 1 to 255, but in [`REFUSED`] 0.
    pub limit: u8,
    /// The change that it was opened for.
    pub change: Change,
    /// What is awaited.
    pub phase: Phase,
    /// The last answer, or none before the first.
    pub last: Option<Last>,
}

/// The conversation that a refused opening gives, whatever change it named.
pub const REFUSED: Conversation = Conversation {
    id: 0,
    challenge: [0; 8],
    retries: 0,
    lm: false,
    limit: 0,
    change: DEFAULT_CHANGE,
    phase: Phase::Ended,
    last: None,
};

/// Retries of an opening that names none.
pub const DEFAULT_RETRIES: u8 = 2;
/// Whether LM is allowed by an opening that is silent about it (request 2026-06).
pub const DEFAULT_LM: bool = false;
/// The change of an opening that is silent about it: the one that there was before request 2026-07.
pub const DEFAULT_CHANGE: Change = Change::Two;
/// The most retries an opening may name.
pub const MOST_RETRIES: u8 = 7;

/// What an opening may name; with `None` it is silent about it.
#[derive(Clone, Copy, Debug, Default, PartialEq, Eq)]
pub struct Terms {
    /// Retries.
    pub retries: Option<u8>,
    /// Whether LM is allowed.
    pub lm: Option<bool>,
    /// The change that is awaited after 648.
    pub change: Option<Change>,
}

/// What an opening gives.
#[derive(Clone, Copy, Debug, PartialEq, Eq)]
pub struct Opening {
    /// The refusal's number, or 0.
    pub refusal: u8,
    /// The octets written: 13, or 0 on refusal.
    pub written: usize,
    /// The conversation; on refusal [`REFUSED`].
    pub conversation: Conversation,
}

/// What is wrong with a change that draws 709. Of version 2 (request 2026-04): "the first that
/// holds of: no NT hash, bit 0 clear, over 512, odd, old hash wrong, response wrong"; of version 1
/// (request 2026-07): "the first of LM not allowed and over 14 (these for bit 0 clear only), hash
/// absent, old hash wrong". The numbers are the places in these sentences, one behind the other.
#[derive(Clone, Copy, Debug, PartialEq, Eq)]
pub enum Fault {
    /// The kept record has no NT hash.
    NoNtHash = 1,
    /// Bit 0 of the flags is clear.
    BitClear = 2,
    /// The length in the opened block is over 512.
    Over = 3,
    /// It is odd.
    Odd = 4,
    /// The old hash under the new one is another than the one sent.
    OldHash = 5,
    /// The new hash's response to the challenge in force is another than the one sent.
    Response = 6,
    /// Version 1, bit 0 clear: LM is not allowed.
    LmNotAllowed = 7,
    /// Version 1, bit 0 clear: the password length is over 14.
    OverFourteen = 8,
    /// Version 1: the kept record has not the hash that counts: the NT hash with bit 0 set, the LM
    /// hash with it clear.
    HashAbsent = 9,
    /// Version 1: that hash under the challenge in force is another than the one sent.
    OldUnderChallenge = 10,
}

impl Fault {
    /// The number of a fault; 0 where there is none.
    pub fn number(fault: Option<Fault>) -> u8 {
        fault.map_or(0, |fault| fault as u8)
    }
}

/// What a step gives.
#[derive(Clone, Copy, Debug, PartialEq, Eq)]
pub struct Answer {
    /// The refusal's number, or 0.
    pub refusal: u8,
    /// The reason in the Failure written; 0 for Success and for a refusal.
    pub reason: u16,
    /// Whether the reply is the last one again, the packet not being judged.
    pub repeated: bool,
    /// What is wrong with a change that was judged and draws 709; none with every other answer. The
    /// reply does not tell it.
    pub fault: Option<Fault>,
    /// The octets written: 4, 17, or 0 on refusal.
    pub written: usize,
    /// The next conversation; on refusal and for a repeat the one given.
    pub conversation: Conversation,
    /// The record handed out: after a judged Response the one lent, if any, with its new count and
    /// the schedules it was lent with; by an accepted change the new one, with its own schedules;
    /// none with every other answer.
    pub record: Option<Account>,
}

/// Opens a conversation, spends its challenge and writes it. The limit is always named. A refused
/// opening leaves all that it was lent as it was.
pub fn open(
    id: u8,
    challenge: &[u8; 8],
    terms: &Terms,
    limit: u8,
    issued: &mut Issued<'_>,
    buffer: &mut [u8],
) -> Opening {
    let retries = terms.retries.unwrap_or(DEFAULT_RETRIES);
    match refuse_or_spend(challenge, retries, limit, issued, buffer.len()) {
        Err(refusal) => Opening {
            refusal,
            written: 0,
            conversation: REFUSED,
        },
        Ok(()) => Opening {
            refusal: 0,
            written: packet::put(&packet::challenge(id, challenge), buffer),
            conversation: Conversation {
                id,
                challenge: *challenge,
                retries,
                lm: terms.lm.unwrap_or(DEFAULT_LM),
                limit,
                change: terms.change.unwrap_or(DEFAULT_CHANGE),
                phase: Phase::Response,
                last: None,
            },
        },
    }
}

/// The refusals of an opening in their order: "18, limit 0, checked first", 13 for retries over 7,
/// 2 for a buffer under 17 octets, then those of the list, to which the entries are added where
/// there is none.
fn refuse_or_spend(
    challenge: &[u8; 8],
    retries: u8,
    limit: u8,
    issued: &mut Issued<'_>,
    room: usize,
) -> Result<(), u8> {
    if limit == 0 {
        return Err(18);
    }
    if retries > MOST_RETRIES {
        return Err(13);
    }
    if room < packet::FAILURE_LENGTH {
        return Err(2);
    }
    issued.spend(&entries_of(challenge, retries))
}

/// What a judged packet leads to.
struct Judgement {
    /// 0 for Success.
    reason: u16,
    retry: bool,
    fault: Option<Fault>,
    conversation: Conversation,
    record: Option<Account>,
}

/// What becomes of a packet that is not refused.
enum Taken {
    /// It draws the last reply again.
    Repeat(Last),
    /// It is judged.
    Judged(Box<Judgement>),
}

/// One step: a packet, the record of the account it names or none, and the reply buffer.
pub fn step(
    conversation: &Conversation,
    packet: &[u8],
    record: Option<&Account>,
    buffer: &mut [u8],
) -> Answer {
    match take(conversation, packet, record, buffer.len()) {
        Err(refusal) => Answer {
            refusal,
            reason: 0,
            repeated: false,
            fault: None,
            written: 0,
            conversation: *conversation,
            record: None,
        },
        Ok(Taken::Repeat(last)) => Answer {
            refusal: 0,
            reason: last.reply.failed().map_or(0, |(reason, _)| reason),
            repeated: true,
            fault: None,
            written: packet::put(last.reply.octets(), buffer),
            conversation: *conversation,
            record: None,
        },
        Ok(Taken::Judged(judgement)) => {
            // The packet carried the awaited identifier; the reply carries it too.
            let id = conversation.id;
            let reply = match judgement.reason {
                0 => Reply::success(id),
                reason => Reply::failure(id, reason, judgement.retry, conversation.change),
            };
            let last = Some(Last {
                code: packet[0],
                id: packet[1],
                reply,
            });
            Answer {
                refusal: 0,
                reason: judgement.reason,
                repeated: false,
                fault: judgement.fault,
                written: packet::put(reply.octets(), buffer),
                conversation: Conversation {
                    last,
                    ..judgement.conversation
                },
                record: judgement.record,
            }
        }
    }
}

/// The refusals 2 and 3, then the repeat, then the rest.
fn take(
    conversation: &Conversation,
    packet: &[u8],
    record: Option<&Account>,
    room: usize,
) -> Result<Taken, u8> {
    if room < packet::FAILURE_LENGTH {
        return Err(2);
    }
    let frame = packet::frame(packet)?;
    if let Some(last) = conversation.last {
        if (last.code, last.id) == (frame.code, frame.id) {
            return Ok(Taken::Repeat(last));
        }
    }
    let judgement = judge(conversation, &frame, record)?;
    Ok(Taken::Judged(Box::new(judgement)))
}

/// The refusals 1 and 4 to 7 in their order, then the rules of the phase.
fn judge(
    conversation: &Conversation,
    frame: &Frame<'_>,
    record: Option<&Account>,
) -> Result<Judgement, u8> {
    let awaited = match conversation.phase {
        Phase::Response => packet::RESPONSE,
        Phase::Change(_) => conversation.change.code(),
        Phase::Ended => return Err(1),
    };
    if frame.code != awaited {
        return Err(4);
    }
    if frame.id != conversation.id {
        return Err(5);
    }
    match conversation.phase {
        Phase::Response => Ok(judge_response(
            conversation,
            &packet::read_response(frame)?,
            record,
        )),
        Phase::Change(kept) => {
            let new = match conversation.change {
                Change::One => checked_1(conversation, &packet::read_change_1(frame)?, &kept),
                Change::Two => checked(conversation, &packet::read_change(frame)?, &kept),
            };
            Ok(judge_change(conversation, new, &kept))
        }
        Phase::Ended => Err(1),
    }
}

fn ended(conversation: &Conversation) -> Conversation {
    Conversation {
        phase: Phase::Ended,
        ..*conversation
    }
}

fn judge_response(
    conversation: &Conversation,
    fields: &ResponseFields<'_>,
    record: Option<&Account>,
) -> Judgement {
    let reason = reason(conversation, fields, record);
    let handed = record.map(|account| counted(conversation, fields, account));
    let (retry, next) = match (reason, handed) {
        (691, _) if conversation.retries > 0 => {
            let next = Conversation {
                id: next_identifier(conversation.id),
                challenge: grown(&conversation.challenge),
                retries: conversation.retries - 1,
                ..*conversation
            };
            (true, next)
        }
        (648, Some(account)) => {
            // The record kept is the one handed out, so that its count is 0.
            let phase = Phase::Change(account.entry());
            (
                false,
                Conversation {
                    id: next_identifier(conversation.id),
                    phase,
                    ..*conversation
                },
            )
        }
        _ => (false, ended(conversation)),
    };
    Judgement {
        reason,
        retry,
        fault: None,
        conversation: next,
        record: handed,
    }
}

/// The first reason that applies, or 0.
fn reason(
    conversation: &Conversation,
    fields: &ResponseFields<'_>,
    record: Option<&Account>,
) -> u16 {
    match record {
        None => 691,
        Some(account) if locked(conversation, account) => 691,
        Some(account) if !valid(conversation, fields, account) => 691,
        Some(account) if account.disabled => 647,
        Some(account) if account.hours => 646,
        Some(account) if account.no_dialin => 649,
        Some(account) if account.expired => 648,
        Some(_) => 0,
    }
}

/// "at or over a limit of 1 to 255 every Response is judged invalid": the limit is that of the
/// conversation, the count that of the record lent. (A limit of 0, which no opening gives, locks
/// every record.)
fn locked(conversation: &Conversation, account: &Account) -> bool {
    account.failures >= conversation.limit
}

/// The record handed out after a judged Response: the one lent, with only its count changed. Its
/// hashes stay, so by request 2026-10 its schedules do, whatever they are.
fn counted(conversation: &Conversation, fields: &ResponseFields<'_>, account: &Account) -> Account {
    let is_valid = valid(conversation, fields, account);
    let failures = match (is_valid, locked(conversation, account)) {
        // "a valid one sets it to 0", whatever reason follows.
        (true, false) => 0,
        // "and a valid one adds nothing": nor does it set the count to 0.
        (true, true) => account.failures,
        // "Each judged invalid Response adds 1, to at most 255", at and over the limit too.
        (false, _) => account.failures.saturating_add(1),
    };
    Account {
        failures,
        ..*account
    }
}

/// Whether a Response is valid for a record, whatever its count. Whether a hash is there decides
/// which response counts; "A record lent with other schedules is judged by those it carries", so
/// the octets of the hash have no effect.
fn valid(conversation: &Conversation, fields: &ResponseFields<'_>, account: &Account) -> bool {
    let right = |keys: &Schedules| keys.response(&conversation.challenge);
    match (fields.flag, account.nt.is_some(), account.lm.is_some()) {
        (true, true, _) => fields.nt == right(&account.nt_keys),
        (_, _, true) => conversation.lm && fields.lm == right(&account.lm_keys),
        (_, _, false) => false,
    }
}

/// The hashes that an accepted change leaves in the record.
struct NewHashes {
    nt: Option<[u8; 16]>,
    lm: Option<[u8; 16]>,
}

fn judge_change(
    conversation: &Conversation,
    new: Result<NewHashes, Fault>,
    kept: &Entry,
) -> Judgement {
    let (reason, fault, record) = match new {
        Err(fault) => (709, Some(fault), None),
        Ok(NewHashes { nt, lm }) => {
            let record = Entry {
                nt,
                lm,
                expired: false,
                failures: 0,
                ..*kept
            };
            // The hashes are new ones, and so are the schedules: their own.
            (0, None, Some(record.keyed()))
        }
    };
    Judgement {
        reason,
        retry: false,
        fault,
        conversation: ended(conversation),
        record,
    }
}

/// The hashes of a version 2 change that is accepted, or what is wrong with it: each is asked in
/// the order of [`Fault`], so that the first is told. The old hash is that of the kept record, octet
/// by octet, and the new response that of the new hash: no schedules that were lent have an effect.
fn checked(
    conversation: &Conversation,
    fields: &ChangeFields,
    kept: &Entry,
) -> Result<NewHashes, Fault> {
    let old_hash = kept.nt.ok_or(Fault::NoNtHash)?;
    if fields.flags & 1 == 0 {
        return Err(Fault::BitClear);
    }
    let password = match hashes::open(&old_hash, &fields.nt_block) {
        OpenedBlock::Over => return Err(Fault::Over),
        OpenedBlock::Odd => return Err(Fault::Odd),
        OpenedBlock::Password(password) => password,
    };
    let Ok(new_hash) = hashes::nt_hash(&password) else {
        unreachable!("an even number of at most 512 octets is never refused");
    };
    if fields.nt_old_under_new != hashes::old_under_new(&old_hash, &new_hash) {
        return Err(Fault::OldHash);
    }
    if fields.nt_response != hashes::challenge_response(&new_hash, &conversation.challenge) {
        return Err(Fault::Response);
    }
    Ok(NewHashes {
        nt: Some(new_hash),
        lm: None,
    })
}

/// The same for version 1. "the new LM hash if the password length is at most 14": with bit 0 set
/// whether LM is allowed or not, and whether the record had an LM hash or not.
fn checked_1(
    conversation: &Conversation,
    fields: &Change1Fields,
    kept: &Entry,
) -> Result<NewHashes, Fault> {
    let key = &conversation.challenge;
    let bit_0 = fields.flags & 1 == 1;
    let short = usize::from(fields.length) <= hashes::LM_LIMIT;
    if !bit_0 && !conversation.lm {
        return Err(Fault::LmNotAllowed);
    }
    if !bit_0 && !short {
        return Err(Fault::OverFourteen);
    }
    let (old_hash, sent) = match bit_0 {
        true => (kept.nt, fields.nt_old),
        false => (kept.lm, fields.lm_old),
    };
    let old_hash = old_hash.ok_or(Fault::HashAbsent)?;
    if sent != hashes::under_challenge(&old_hash, key) {
        return Err(Fault::OldUnderChallenge);
    }
    Ok(NewHashes {
        nt: bit_0.then(|| hashes::from_challenge(&fields.nt_new, key)),
        lm: short.then(|| hashes::from_challenge(&fields.lm_new, key)),
    })
}
