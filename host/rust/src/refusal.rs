//! Why a call is refused, why a Failure was sent, and what is wrong with a change of the password.

use crate::sys;
use std::fmt;

/// Why a call is refused. On every refusal every buffer is unchanged.
#[derive(Clone, Copy, Debug, PartialEq, Eq, Hash)]
pub enum Refusal {
    /// 1: the conversation has ended.
    Ended,
    /// 2: the reply buffer is under [`REPLY_SIZE`](crate::REPLY_SIZE) bytes.
    ReplyRoom,
    /// 3: a packet under 4 bytes, its Length under 4 or over its size.
    Frame,
    /// 4: another code than the awaited one.
    Code,
    /// 5: another identifier than the awaited one.
    Identifier,
    /// 6: wrong sizes within the packet.
    Size,
    /// 7: a flag or flags of the packet out of range.
    Flags,
    /// 8: a password, key or input of a length that is not accepted.
    Input,
    /// 9: the buffer is too small for what is to be written.
    Room,
    /// 10: a name that is empty or over 256 bytes.
    Name,
    /// 11: no Challenge, Success or Failure, or one that cannot be read.
    Reading,
    /// 12: a filler that is not 512 bytes. The types here leave no way to it.
    Filler,
    /// 13: over 7 retries.
    RetriesRange,
    /// 14: a line of an account file is of another form. [`FileFault`](crate::FileFault) tells
    /// where it starts.
    BadLine,
    /// 15: the name is on two lines of an account file, or more. [`FileFault`](crate::FileFault)
    /// tells where the first of them starts.
    DoubledName,
    /// 16: the challenge or one of its successors was issued before.
    Spent,
    /// 17: too few places left in the list of issued challenges.
    ListFull,
    /// 18: a limit of 0. An opening has to say how many invalid Responses in a row lock an account.
    NoLimit,
    /// 24: a bad list of issued challenges. An [`Issued`](crate::Issued) never is one.
    List,
    /// 100: bytes that no such value has, of another kind, layout version or size.
    BadArgument,
    /// 101: text that is not UTF-8, or characters that are not UTF-16.
    Malformed,
    /// 102: the answer has no record to be stored, or the record is that of no account, or has no
    /// hash of the kind that was asked for. The functions here answer `None` instead.
    NoRecord,
    /// 103: the name is on no line of the account file. The functions here answer `None` instead.
    NoAccount,
    /// Any other number. The types here leave no way to it.
    Unexpected(u32),
}

/// Each refusal that has a number of its own.
const NUMBERS: [(u32, Refusal); 23] = [
    (1, Refusal::Ended),
    (2, Refusal::ReplyRoom),
    (3, Refusal::Frame),
    (4, Refusal::Code),
    (5, Refusal::Identifier),
    (6, Refusal::Size),
    (7, Refusal::Flags),
    (8, Refusal::Input),
    (9, Refusal::Room),
    (10, Refusal::Name),
    (11, Refusal::Reading),
    (12, Refusal::Filler),
    (13, Refusal::RetriesRange),
    (sys::BAD_LINE, Refusal::BadLine),
    (sys::DOUBLED_NAME, Refusal::DoubledName),
    (16, Refusal::Spent),
    (17, Refusal::ListFull),
    (18, Refusal::NoLimit),
    (24, Refusal::List),
    (sys::BAD_ARGUMENT, Refusal::BadArgument),
    (101, Refusal::Malformed),
    (sys::NO_RECORD, Refusal::NoRecord),
    (sys::NO_ACCOUNT, Refusal::NoAccount),
];

impl Refusal {
    /// The number of this refusal in the C interface.
    pub fn number(self) -> u32 {
        if let Refusal::Unexpected(number) = self {
            return number;
        }
        let known = NUMBERS.iter().find(|(_, refusal)| *refusal == self);
        known.map_or(sys::INVALID, |(number, _)| *number)
    }

    /// The result that a returned number stands for.
    pub(crate) fn check(number: u32) -> Result<(), Refusal> {
        if number == sys::OK {
            return Ok(());
        }
        let known = NUMBERS.iter().find(|(other, _)| *other == number);
        Err(known.map_or(Refusal::Unexpected(number), |(_, refusal)| *refusal))
    }
}

impl fmt::Display for Refusal {
    fn fmt(&self, to: &mut fmt::Formatter<'_>) -> fmt::Result {
        write!(to, "refused {}: {:?}", self.number(), self)
    }
}

impl std::error::Error for Refusal {}

/// The reason that a reply of the authenticator gives (RFC 2433, section 6).
#[derive(Clone, Copy, Debug, PartialEq, Eq, Hash)]
pub enum Reason {
    /// It is Success.
    Success,
    /// 646: the hours do not allow a logon.
    RestrictedLogonHours,
    /// 647: the account is disabled.
    AccountDisabled,
    /// 648: the password has expired.
    PasswordExpired,
    /// 649: there is no permission to dial in.
    NoDialinPermission,
    /// 691: the Response is not valid, or the account is locked.
    AuthenticationFailure,
    /// 709: the change of the password is not accepted.
    ChangingPassword,
}

impl Reason {
    /// The number of this reason; 0 is Success.
    pub fn number(self) -> u32 {
        match self {
            Reason::Success => 0,
            Reason::RestrictedLogonHours => 646,
            Reason::AccountDisabled => 647,
            Reason::PasswordExpired => 648,
            Reason::NoDialinPermission => 649,
            Reason::AuthenticationFailure => 691,
            Reason::ChangingPassword => 709,
        }
    }

    /// The reason with this number; none for one that RFC 2433 does not have.
    pub fn of(number: u64) -> Option<Reason> {
        [
            Reason::Success,
            Reason::RestrictedLogonHours,
            Reason::AccountDisabled,
            Reason::PasswordExpired,
            Reason::NoDialinPermission,
            Reason::AuthenticationFailure,
            Reason::ChangingPassword,
        ]
        .into_iter()
        .find(|reason| u64::from(reason.number()) == number)
    }
}

/// What is wrong with a change of the password that drew [`Reason::ChangingPassword`]: the first
/// that holds, in this order, of a version 2 change 1 to 6 and of a version 1 change 7 to 10. It is
/// for the log and the support desk, and never for the peer.
#[derive(Clone, Copy, Debug, PartialEq, Eq, Hash)]
#[non_exhaustive]
pub enum ChangeFault {
    /// 0: nothing, or no change was judged.
    NoFault,
    /// 1: the account has no NT hash.
    NoNtHash,
    /// 2: bit 0 of the packet's flags is clear: the peer does not ask for its NT response.
    NoNtResponse,
    /// 3: the length in the opened block is over 512: mostly the old password is mistyped.
    LengthOver,
    /// 4: the length in the opened block is odd.
    LengthOdd,
    /// 5: the old hash under the new one is not the one sent, though the block opened.
    OldHashWrong,
    /// 6: the response to the challenge in force is not the new hash's.
    ResponseWrong,
    /// 7: bit 0 of a version 1 change's flags is clear, and LM is not allowed.
    LmNotAllowed,
    /// 8: bit 0 is clear, and the packet says that the new password has over 14 bytes.
    LengthOverLm,
    /// 9: the account has no NT hash, or no LM hash where bit 0 is clear.
    HashAbsent,
    /// 10: that hash under the challenge is not the one sent: mostly the old password is mistyped.
    HashWrong,
    /// Any other number, which an archive of a later version may have.
    Unknown(u32),
}

/// Each fault that has a number of its own, and its words.
const FAULTS: [(u32, ChangeFault, &str); 11] = [
    (0, ChangeFault::NoFault, "no fault"),
    (1, ChangeFault::NoNtHash, "the account has no NT hash"),
    (
        2,
        ChangeFault::NoNtResponse,
        "the packet does not ask for its NT response (flag bit 0 is clear)",
    ),
    (
        3,
        ChangeFault::LengthOver,
        "the length in the password block is over 512 (mostly a wrong old password)",
    ),
    (
        4,
        ChangeFault::LengthOdd,
        "the length in the password block is odd",
    ),
    (
        5,
        ChangeFault::OldHashWrong,
        "the password block opened, but the old hash under the new one is not the one sent",
    ),
    (
        6,
        ChangeFault::ResponseWrong,
        "the response to the challenge is not the new password's",
    ),
    (
        7,
        ChangeFault::LmNotAllowed,
        "the packet asks for LM alone (flag bit 0 is clear), and LM is not allowed",
    ),
    (
        8,
        ChangeFault::LengthOverLm,
        "the packet asks for LM alone, and the password's length is over 14",
    ),
    (
        9,
        ChangeFault::HashAbsent,
        "the account has not the hash that the packet asks for",
    ),
    (
        10,
        ChangeFault::HashWrong,
        "the old hash under the challenge is not the one sent (mostly a wrong old password)",
    ),
];

impl ChangeFault {
    /// The number of this fault; 0 is none.
    pub fn number(self) -> u32 {
        if let ChangeFault::Unknown(number) = self {
            return number;
        }
        let known = FAULTS.iter().find(|(_, fault, _)| *fault == self);
        known.map_or(sys::INVALID, |(number, ..)| *number)
    }

    /// The fault with this number.
    pub fn of(number: u32) -> ChangeFault {
        let known = FAULTS.iter().find(|(other, ..)| *other == number);
        known.map_or(ChangeFault::Unknown(number), |(_, fault, _)| *fault)
    }
}

/// What was found, in words for a log: those of `mschap_fault_text` in C.
impl fmt::Display for ChangeFault {
    fn fmt(&self, to: &mut fmt::Formatter<'_>) -> fmt::Result {
        let known = FAULTS.iter().find(|(_, fault, _)| fault == self);
        to.write_str(known.map_or("unknown fault", |(_, _, text)| text))
    }
}
