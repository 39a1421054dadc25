//! Accounts in a file in the layout of Samba's smbpasswd(5), which is passed whole.
//!
//! `mschap.h` says under ACCOUNT FILES what a line has, what of it is read and what is not, and how
//! a file is stored so that no change is lost.

use crate::{sys, Account, Refusal};
use std::fmt;

/// The present time, and how old a password may be, in seconds. Both are numbers, which could be
/// exchanged by mistake: so they go by their names.
#[derive(Clone, Copy, Debug, PartialEq, Eq)]
pub struct Times {
    /// The present time, as the file has it: in seconds since 1970.
    pub now: u32,
    /// A password whose last change was more than this before `now` has expired.
    pub max_age: u32,
}

/// An account, and where it is in its file.
#[derive(Clone, Copy, Debug, PartialEq, Eq)]
pub struct Found {
    /// What its line says of it, at the time that was passed. The file has no count of failures:
    /// [`failures`](Account::failures) is 0, and is to be set before a step takes the account, see
    /// [`Update`](crate::Update).
    pub account: Account,
    /// Where its line starts.
    pub offset: usize,
}

/// Why a file is refused. The offset is for whoever corrects it.
#[derive(Clone, Copy, Debug, PartialEq, Eq, Hash)]
pub enum FileFault {
    /// 14: a line is of another form, of any name: it could be the account's own.
    BadLine {
        /// Where the first such line starts.
        offset: usize,
    },
    /// 15: the name is on two lines, or more.
    DoubledName {
        /// Where the first of them starts.
        offset: usize,
    },
    /// Any other refusal. The types here leave no way to it.
    Other(Refusal),
}

impl FileFault {
    /// The result that a returned number and an offset stand for.
    fn check(number: u32, offset: usize) -> Result<(), FileFault> {
        Refusal::check(number).map_err(|refusal| match refusal {
            Refusal::BadLine => FileFault::BadLine { offset },
            Refusal::DoubledName => FileFault::DoubledName { offset },
            other => FileFault::Other(other),
        })
    }
}

impl fmt::Display for FileFault {
    fn fmt(&self, to: &mut fmt::Formatter<'_>) -> fmt::Result {
        match self {
            FileFault::BadLine { offset } => {
                write!(to, "the line at offset {offset} is of another form")
            }
            FileFault::DoubledName { offset } => {
                write!(to, "the name is on two lines, first at offset {offset}")
            }
            FileFault::Other(refusal) => refusal.fmt(to),
        }
    }
}

impl std::error::Error for FileFault {}

/// The refusal alone, without its offset.
impl From<FileFault> for Refusal {
    fn from(fault: FileFault) -> Refusal {
        match fault {
            FileFault::BadLine { .. } => Refusal::BadLine,
            FileFault::DoubledName { .. } => Refusal::DoubledName,
            FileFault::Other(refusal) => refusal,
        }
    }
}

/// What is in a file.
#[derive(Clone, Copy, Debug, Default, PartialEq, Eq)]
pub struct Counts {
    /// Lines, without those that begin with #.
    pub lines: u64,
    /// Lines of another form.
    pub bad: u64,
    /// Accounts that are disabled.
    pub disabled: u64,
    /// Accounts whose password has expired.
    pub expired: u64,
    /// Accounts without an NT hash.
    pub no_nt: u64,
}

/// Looks an account up by the exact bytes of its name, in one pass over the whole file; none if the
/// name is on no line. A file with a line of another form is refused, even if the name's line is a
/// good one.
///
/// ```
/// use mschap::{find_account, write_account, FileFault, Found, Times};
///
/// let mut file = b"# our accounts\n\
///     bob:1001:XXXXXXXXXXXXXXXXXXXXXXXXXXXXXXXX:FC156AF7EDCD6C0EDDE3337D427F4EAC:\
///     [U          ]:LCT-6AFA674D:\n".to_vec();
/// let times = Times { now: 0x6AFA_674D + 91 * 86_400, max_age: 90 * 86_400 };
/// let Some(Found { mut account, offset }) = find_account(&file, b"bob", times)? else {
///     panic!("no bob")
/// };
/// assert_eq!((offset, account.expired, account.lm_hash), (15, true, None));
/// assert_eq!(find_account(&file, b"Bob", times)?, None);
///
/// // A changed account goes back into its line; to store the file is the caller's.
/// account.nt_hash = None;
/// assert_eq!(write_account(&mut file, b"bob", &account, times.now)?, Some(15));
/// let found = find_account(&file, b"bob", times)?.map(|found| found.account);
/// assert_eq!(found.map(|account| (account.nt_hash, account.expired)), Some((None, false)));
///
/// file.extend(b"damaged\n");
/// let end = file.len() - b"damaged\n".len();
/// assert_eq!(find_account(&file, b"bob", times), Err(FileFault::BadLine { offset: end }));
/// # Ok::<(), FileFault>(())
/// ```
pub fn find_account(file: &[u8], name: &[u8], times: Times) -> Result<Option<Found>, FileFault> {
    let (mut record, mut offset) = ([0; sys::RECORD_SIZE], 0);
    let Times { now, max_age } = times;
    let number = sys::find_account(file, name, now, max_age, &mut record, &mut offset);
    FileFault::check(number, offset)?;
    let account = Account::from_bytes(&record).map_err(FileFault::Other)?;
    Ok(account.map(|account| Found { account, offset }))
}

/// Writes a changed account ([`Update::Changed`](crate::Update::Changed)) into its line, in place:
/// both hashes, and `now` as the last change. Never a counted one, whose password would then be as
/// new as its last Response. Every other byte stays, the line's flags too: of the account its
/// hashes alone are written. Gives where the line starts; none, and nothing is written, if it is on
/// no line. A file that is refused is unchanged.
///
/// Only the caller's bytes are written. Before, take a lock, read the file again, and look the name
/// up again: where the account is by now another than the one that its Response gave (its count is
/// 0, as that of one just found), write nothing. Store the file by a new one with the owner and
/// mode of the old, fsync and rename. At `now` 0 the password never expires.
pub fn write_account(
    file: &mut [u8],
    name: &[u8],
    account: &Account,
    now: u32,
) -> Result<Option<usize>, FileFault> {
    let record = account.to_bytes().map_err(FileFault::Other)?;
    let mut offset = 0;
    match sys::write_account(file, name, &record, now, &mut offset) {
        sys::NO_ACCOUNT => Ok(None),
        number => FileFault::check(number, offset).map(|()| Some(offset)),
    }
}

/// Counts lines and accounts. It never refuses: a line of another form counts in the first two
/// numbers alone, and a name on two lines counts twice.
pub fn count_accounts(file: &[u8], times: Times) -> Counts {
    let mut counts = [0; 5];
    let number = sys::count_accounts(file, times.now, times.max_age, &mut counts);
    debug_assert_eq!(number, sys::OK);
    let [lines, bad, disabled, expired, no_nt] = counts;
    Counts {
        lines,
        bad,
        disabled,
        expired,
        no_nt,
    }
}
