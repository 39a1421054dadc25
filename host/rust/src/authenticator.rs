//! The authenticator: a conversation, from its Challenge to its end.

use crate::{sys, Account, Challenge, ChangeFault, Issued, Reason, Refusal};

/// What a conversation awaits.
#[derive(Clone, Copy, Debug, PartialEq, Eq)]
pub enum Awaited {
    /// A Response.
    Response,
    /// A version 2 change of the password.
    Change,
    /// A version 1 change of the password.
    ChangeVersion1,
    /// Nothing: it has ended.
    Nothing,
}

/// Which change of the password a conversation awaits after an expired one.
#[derive(Clone, Copy, Debug, PartialEq, Eq)]
pub enum ChangeVersion {
    /// Version 1, code 5, which whoever listens on the line can decrypt: RFC 2433 deprecates it.
    One,
    /// Version 2, code 6.
    Two,
}

/// The terms of a conversation. There is no `Default`, as there is no limit that fits all: choose
/// one, and [`Terms::new`] has the defaults of the rest: 2 retries, LM off, and version 2 changes.
///
/// The limit stops a guesser who hangs up and calls back, and gets fresh retries: an account whose
/// count [`failures`](Account::failures) has reached it is locked, so that every Response to it
/// draws 691, the right one too. That works only if the account is kept which each step gives back,
/// see [`Update`]. Anybody can lock an account by guessing: choose a limit that is not reached by
/// mistyping, on a closed bench 10, for instance.
///
/// A bench whose phones answer by LM alone asks for it:
///
/// ```
/// use mschap::Terms;
///
/// let terms = Terms { lm_allowed: Some(true), ..Terms::new(10) };
/// ```
///
/// Without it every LM response draws 691, the right one too. Up to 0.4.0 `None` allowed LM: an
/// upgrade without this choice locks those phones out. Ask for it there alone, since an account
/// that has both hashes can then be guessed at by its LM hash, much the weaker.
///
/// A bench whose handsets know only the older change of the password, code 5, asks for that one:
///
/// ```
/// use mschap::{ChangeVersion, Terms};
///
/// let terms = Terms { change: Some(ChangeVersion::One), ..Terms::new(10) };
/// ```
///
/// Its Failures then say V=1, and the other change is refused. The packet has the old and the new
/// hash under the challenge, which is sent in the clear: ask for it where nobody else listens.
#[derive(Clone, Copy, Debug, PartialEq, Eq)]
pub struct Terms {
    /// How many invalid Responses in a row lock an account, 1 to 255; with 0 the opening is refused
    /// as [`Refusal::NoLimit`].
    pub limit: u8,
    /// How often a wrong password may be tried again, 0 to 7; with `None` it is 2.
    pub retries: Option<u8>,
    /// A response by LM is judged; else, and with `None`, it is never valid.
    pub lm_allowed: Option<bool>,
    /// Which change of the password is awaited; with `None` it is version 2's.
    pub change: Option<ChangeVersion>,
}

impl Terms {
    /// Terms with this limit, and the defaults of the rest.
    pub const fn new(limit: u8) -> Terms {
        Terms {
            limit,
            retries: None,
            lm_allowed: None,
            change: None,
        }
    }

    /// The number of the C interface.
    fn number(self) -> u32 {
        let retries = self.retries.map_or(0, |count| sys::retries(count.into()));
        let lm = match self.lm_allowed {
            None => 0,
            Some(true) => sys::LM_ALLOWED,
            Some(false) => sys::LM_REFUSED,
        };
        let change = match self.change {
            None => 0,
            Some(ChangeVersion::One) => sys::CHANGE_1,
            Some(ChangeVersion::Two) => sys::CHANGE_2,
        };
        sys::TERMS | sys::limit(self.limit.into()) | retries | lm | change
    }
}

/// All that the authenticator keeps between two packets, its last reply among them. It may be
/// stored and continued later. It is continued once, since from two copies it would take two
/// answers to one challenge.
#[derive(Clone, Copy, Debug, PartialEq, Eq)]
pub struct Conversation([u8; sys::CONVERSATION_SIZE]);

/// The account that a step gives back, to be kept in the place of the one that was passed, before
/// the reply is sent.
///
/// The two kinds go to two places. Whoever keeps the accounts as values keeps either, by
/// [`account`](Update::account). An account file has no place for the count: a `Counted` one is
/// never for [`write_account`](crate::write_account), which would set the time of the last change,
/// so that an old password did not expire; its [`failures`](Account::failures) are kept beside the
/// file, by the name that was looked up, and set in the account that
/// [`find_account`](crate::find_account) finds for the next Response. Without that there is no
/// lockout.
///
/// For one account make one step at a time: two steps that are passed the same copy count one
/// failure. Keep it also where it is the same as before: a right guess at a locked account changes
/// nothing, and a reply that comes sooner would tell it.
#[derive(Clone, Copy, Debug, PartialEq, Eq)]
#[must_use]
pub enum Update {
    /// Nothing is to be kept: no account was found, the change was not accepted, or the packet is a
    /// repeat.
    Nothing,
    /// A Response was judged: the account that was passed, with its new count and no other change.
    Counted(Account),
    /// A change of the password was accepted: the account with its new hash, or both, and the
    /// count 0.
    Changed(Account),
}

impl Update {
    /// The account to be kept, of either kind.
    pub fn account(&self) -> Option<&Account> {
        match self {
            Update::Nothing => None,
            Update::Counted(account) | Update::Changed(account) => Some(account),
        }
    }
}

/// What a packet drew that was not refused.
#[derive(Clone, Copy, Debug, PartialEq, Eq)]
pub struct Answer {
    /// The reply is the last one again: the packet was not judged, and nothing is to be stored or
    /// decided.
    pub repeated: bool,
    /// The reason that the reply gives: Success, or the Failure's.
    pub reason: Reason,
    /// What is wrong with a change of the password that was judged and not accepted; else
    /// [`ChangeFault::NoFault`], with a repeat too. Log it, and never tell the peer: the reply is
    /// the same for all of them.
    pub fault: ChangeFault,
    /// The size of the reply, which is at the front of the buffer.
    pub size: usize,
    /// The account to be kept, after every judged Response and after an accepted change.
    pub update: Update,
}

impl Conversation {
    /// Opens a conversation, and writes its Challenge at the front of `reply`
    /// ([`REPLY_SIZE`](crate::REPLY_SIZE) bytes or more). The challenge has to be unpredictable:
    /// from a CSPRNG. The challenge and a successor for each retry are added to the list `issued`;
    /// if one of them is there already, the opening is refused as [`Refusal::Spent`]. Gives the
    /// conversation and the size of the packet. The terms hold to its end.
    pub fn open(
        identifier: u8,
        terms: Terms,
        challenge: &Challenge,
        issued: &mut Issued,
        reply: &mut [u8],
    ) -> Result<(Conversation, usize), Refusal> {
        let mut bytes = [0; sys::CONVERSATION_SIZE];
        let number = sys::open(
            identifier.into(),
            terms.number(),
            challenge,
            issued.list(),
            &mut bytes,
            reply,
        );
        Refusal::check(number)?;
        Ok((Conversation(bytes), sys::packet_length(reply)))
    }

    /// One step: a packet was received, and `found` is what the lookup of its name found, with the
    /// count that it had last (it is ignored while a change is awaited). Writes the Success or
    /// Failure to be sent at the front of `reply` ([`REPLY_SIZE`](crate::REPLY_SIZE) bytes or
    /// more): before it is sent, keep what [`Answer::update`] has. A packet that is refused gets no
    /// reply and changes nothing.
    ///
    /// A packet with the code and the identifier of the one that was answered last, whatever else
    /// is in it, is a repeat: it gets the same reply, after the end too, is not judged and changes
    /// nothing, and `found` is ignored.
    pub fn step(
        &mut self,
        packet: &[u8],
        found: Option<&Account>,
        reply: &mut [u8],
    ) -> Result<Answer, Refusal> {
        let record = Account::record(found)?;
        let awaited = self.awaited();
        let mut answer = [0; sys::ANSWER_SIZE];
        Refusal::check(sys::step(&mut self.0, packet, &record, reply, &mut answer))?;
        // Where there is no record to be stored, the one that was passed is read, and not used: so
        // that the time tells little of it.
        let mut updated = record;
        let is_given = sys::answer_record(&answer, &mut updated) == sys::OK;
        let updated = Account::from_bytes(&updated)?.filter(|_| is_given);
        let update = match (updated, awaited) {
            (None, _) => Update::Nothing,
            (Some(account), Awaited::Response) => Update::Counted(account),
            (Some(account), _) => Update::Changed(account),
        };
        let number = sys::answer_reason(&answer);
        Ok(Answer {
            repeated: sys::answer_repeated(&answer) == 1,
            reason: Reason::of(number.into()).ok_or(Refusal::Unexpected(number))?,
            fault: ChangeFault::of(sys::answer_fault(&answer)),
            size: sys::packet_length(reply),
            update,
        })
    }

    /// What is awaited.
    pub fn awaited(&self) -> Awaited {
        match sys::conversation_awaits(&self.0) {
            sys::AWAITS_RESPONSE => Awaited::Response,
            sys::AWAITS_CHANGE => Awaited::Change,
            sys::AWAITS_CHANGE_1 => Awaited::ChangeVersion1,
            _ => Awaited::Nothing,
        }
    }

    /// The awaited identifier; that of the last packet, if nothing is awaited.
    pub fn identifier(&self) -> u8 {
        sys::conversation_identifier(&self.0) as u8
    }

    /// The retries that are left.
    pub fn retries(&self) -> u8 {
        sys::conversation_retries(&self.0) as u8
    }

    /// The bytes, to be stored. They hold secrets while a change is awaited.
    pub fn as_bytes(&self) -> &[u8; sys::CONVERSATION_SIZE] {
        &self.0
    }

    /// The conversation of stored bytes. Bytes that no conversation has are refused as
    /// [`Refusal::BadArgument`].
    pub fn from_bytes(bytes: &[u8]) -> Result<Conversation, Refusal> {
        let valid = sys::conversation_awaits(bytes) != sys::INVALID;
        let bytes = bytes.try_into().ok().filter(|_| valid);
        bytes.map(Conversation).ok_or(Refusal::BadArgument)
    }
}

/// The domain in the name of a Response: what is before its first backslash, or `home` if it has
/// none; nothing for a packet that is refused as a Response.
pub fn domain_of<'a>(packet: &'a [u8], home: &'a [u8]) -> &'a [u8] {
    match sys::domain_offset(packet) {
        // Not in the packet. A packet that is refused has no account there either.
        0 if sys::account_offset(packet) == 0 => &[],
        0 => home,
        offset => run(packet, offset, sys::domain_length(packet)),
    }
}

/// The account in the name of a Response: what is behind its first backslash, or the whole name;
/// nothing for a packet that is refused as a Response.
pub fn account_of(packet: &[u8]) -> &[u8] {
    run(
        packet,
        sys::account_offset(packet),
        sys::account_length(packet),
    )
}

/// The bytes of a packet from an offset on. They are within the packet, so they are always there.
fn run(packet: &[u8], offset: usize, length: usize) -> &[u8] {
    let end = offset.saturating_add(length);
    packet.get(offset..end).unwrap_or_default()
}
