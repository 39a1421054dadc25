//! What the authenticator knows of an account.

use crate::{sys, Challenge, LmHash, NtHash, Refusal, Response};

/// Which hash of a record.
#[derive(Clone, Copy, Debug, PartialEq, Eq, Hash)]
pub enum HashKind {
    /// The NT hash.
    Nt,
    /// The LM hash.
    Lm,
}

/// An account. What a lookup finds is an `Option<Account>`; what a step gives back of it is an
/// [`Update`](crate::Update).
///
/// It has hashes, and no round keys of DES: these are in its record alone, and are made of the
/// hashes each time that a record is, by [`to_bytes`](Account::to_bytes) and by each
/// [`step`](crate::Conversation::step), in about a microsecond whichever hashes there are. So
/// whatever round keys a stored record carries, an account that is made of it is judged by those of
/// its hashes. Who wants them kept from step to step passes the record's bytes to [`sys::step`].
#[derive(Clone, Copy, Debug, Default, PartialEq, Eq)]
pub struct Account {
    /// The NT hash, if there is one.
    pub nt_hash: Option<NtHash>,
    /// The LM hash, if there is one.
    pub lm_hash: Option<LmHash>,
    /// Nobody may log on.
    pub disabled: bool,
    /// The hours do not allow a logon.
    pub hours_denied: bool,
    /// There is no permission to dial in.
    pub dialin_denied: bool,
    /// The password has expired: it must be changed.
    pub expired: bool,
    /// How many Responses in a row were judged invalid. At the limit of a conversation
    /// ([`Terms::limit`](crate::Terms)) or over it the account is locked there. Set it to 0 to
    /// unlock the account. It is a secret, as the hashes are: at the limit wrong guesses alone move
    /// it, so that it tells whether a guess was right.
    pub failures: u8,
}

impl Account {
    /// The account's record, to be stored: it holds the hashes with their round keys, which are as
    /// secret, and the count of failures.
    pub fn to_bytes(&self) -> Result<[u8; sys::RECORD_SIZE], Refusal> {
        Account::record(Some(self))
    }

    /// The account of a stored record; none if it is the record of a name that is not known. Bytes
    /// that no record has are refused as [`Refusal::BadArgument`], and so are those that a version
    /// before 0.8.0 stored.
    pub fn from_bytes(record: &[u8]) -> Result<Option<Account>, Refusal> {
        let mut flags = 0;
        let (mut nt, mut lm) = ([0; sys::HASH_SIZE], [0; sys::HASH_SIZE]);
        Refusal::check(sys::read_record(record, &mut flags, &mut nt, &mut lm))?;
        let set = |flag: u32| flags & flag != 0;
        let account = Account {
            nt_hash: set(sys::HAS_NT_HASH).then_some(NtHash(nt)),
            lm_hash: set(sys::HAS_LM_HASH).then_some(LmHash(lm)),
            disabled: set(sys::DISABLED),
            hours_denied: set(sys::HOURS_DENIED),
            dialin_denied: set(sys::DIALIN_DENIED),
            expired: set(sys::EXPIRED),
            // never `INVALID`: the record has just been read
            failures: sys::record_failures(record) as u8,
        };
        Ok(set(sys::FOUND).then_some(account))
    }

    /// The record of what a lookup found.
    pub(crate) fn record(found: Option<&Account>) -> Result<[u8; sys::RECORD_SIZE], Refusal> {
        let mut record = [0; sys::RECORD_SIZE];
        let number = match found {
            None => sys::make_record(0, &[], &[], &mut record),
            Some(account) => {
                let nt: &[u8] = account.nt_hash.as_ref().map_or(&[], |hash| &hash.0);
                let lm: &[u8] = account.lm_hash.as_ref().map_or(&[], |hash| &hash.0);
                sys::make_record(account.flags(), nt, lm, &mut record)
            }
        };
        Refusal::check(number)?;
        Account::make_absent(found)?;
        // A record is made with the count 0. It is set whatever it is: the time is not to tell it.
        let failures = found.map_or(0, |account| account.failures);
        Refusal::check(sys::set_failures(&mut record, failures.into()))?;
        Ok(record)
    }

    /// To make the round keys of a hash takes as long as to judge by them. They are made also of a
    /// hash that is not there, and not used, so that the time tells little of whether there is an
    /// account, or which hashes it has.
    fn make_absent(found: Option<&Account>) -> Result<(), Refusal> {
        const NONE: &[u8] = &[];
        const SPARE: &[u8] = &[0; sys::HASH_SIZE];
        let of = |is_there: bool, flag: u32| match is_there {
            true => (0, NONE),
            false => (flag, SPARE),
        };
        let has_nt = found.is_some_and(|account| account.nt_hash.is_some());
        let has_lm = found.is_some_and(|account| account.lm_hash.is_some());
        let (nt_flag, nt) = of(has_nt, sys::HAS_NT_HASH);
        let (lm_flag, lm) = of(has_lm, sys::HAS_LM_HASH);
        let mut unused = [0; sys::RECORD_SIZE];
        Refusal::check(sys::make_record(nt_flag | lm_flag, nt, lm, &mut unused))
    }

    fn flags(&self) -> u32 {
        [
            (self.nt_hash.is_some(), sys::HAS_NT_HASH),
            (self.lm_hash.is_some(), sys::HAS_LM_HASH),
            (self.disabled, sys::DISABLED),
            (self.hours_denied, sys::HOURS_DENIED),
            (self.dialin_denied, sys::DIALIN_DENIED),
            (self.expired, sys::EXPIRED),
        ]
        .into_iter()
        .filter(|(set, _)| *set)
        .fold(sys::FOUND, |flags, (_, flag)| flags | flag)
    }
}

/// The response of a hash of a stored record ([`Account::to_bytes`]) to a challenge, for those who
/// judge elsewhere than in a step; none if the record has no such hash. Bytes that no record has
/// are refused as [`Refusal::BadArgument`].
///
/// It goes by the round keys that the record carries, so that it takes about half the time of
/// [`challenge_response`](crate::challenge_response). In a record that was made here they are those
/// of its hashes. But any bytes are valid there: store records where nobody else writes. Flags and
/// count have no part in it.
///
/// ```
/// use mschap::{challenge_response, record_response, Account, HashKind, NtHash, Refusal};
///
/// let hash = NtHash([7; 16]);
/// let record = Account { nt_hash: Some(hash), ..Account::default() }.to_bytes()?;
/// let response = challenge_response(&hash.0, &[1; 8])?;
/// assert_eq!(record_response(&record, HashKind::Nt, &[1; 8]), Ok(Some(response)));
/// assert_eq!(record_response(&record, HashKind::Lm, &[1; 8]), Ok(None));
///
/// // A record as 0.7.0 stored it.
/// let refused = record_response(&record[..42], HashKind::Nt, &[1; 8]);
/// assert_eq!(refused, Err(Refusal::BadArgument));
/// # Ok::<(), Refusal>(())
/// ```
pub fn record_response(
    record: &[u8],
    kind: HashKind,
    challenge: &Challenge,
) -> Result<Option<Response>, Refusal> {
    let hash = match kind {
        HashKind::Nt => sys::HAS_NT_HASH,
        HashKind::Lm => sys::HAS_LM_HASH,
    };
    let mut response = [0; sys::RESPONSE_SIZE];
    match sys::record_response(record, hash, challenge, &mut response) {
        sys::NO_RECORD => Ok(None),
        number => Refusal::check(number).map(|()| Some(response)),
    }
}
