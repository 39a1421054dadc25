//! MS-CHAP version 1 (RFC 2433) in safe Rust, over the proved library `libmschap.a`.
//!
//! Values are types of their own and buffers of a fixed size are arrays, so that the archive never
//! meets a wrong one. Every refusal is a [`Refusal`]; nothing here panics.
//!
//! ```
//! use mschap::{Account, Call, Conversation, Issued, Password, Peer, Reason, Refusal, Terms};
//! use mschap::{Update, REPLY_SIZE, RESPONSE_PACKET};
//!
//! let password = Password::from_utf8("pässword")?;
//! let mut account = Account { nt_hash: Some(password.nt_hash()?), ..Account::default() };
//! let mut reply = [0; REPLY_SIZE];
//! let mut packet = [0; RESPONSE_PACKET];
//!
//! // The list of issued challenges, for all authenticators: 3 places for each opening with 2
//! // retries.
//! let mut issued = Issued::new(300);
//! // An example only: a real challenge is unpredictable: from a CSPRNG.
//! let challenge = [0; 8];
//! // After 10 invalid Responses in a row, over all conversations, the account is locked.
//! let terms = Terms::new(10);
//! let opening = Conversation::open(1, terms, &challenge, &mut issued, &mut reply);
//! let (mut conversation, size) = opening?;
//! let mut peer = Peer::read_challenge(&reply[..size])?;
//!
//! // The password is mistyped. The account that a step gives back has counted it: it is kept,
//! // before the reply is sent, and passed with the next Response, in whatever conversation.
//! let mistyped = Password::from_utf8("passwort")?;
//! let size = peer.write_response(&mistyped, b"DOM\\User", &mut packet)?;
//! let answer = conversation.step(&packet[..size], Some(&account), &mut reply)?;
//! assert_eq!(answer.reason, Reason::AuthenticationFailure);
//! match answer.update {
//!     Update::Counted(counted) => account = counted,
//!     Update::Changed(_) | Update::Nothing => unreachable!("no change is awaited"),
//! }
//! assert_eq!(account.failures, 1);
//! assert_eq!(peer.read_reply(&reply[..answer.size])?.call, Call::Response);
//!
//! let size = peer.write_response(&password, b"DOM\\User", &mut packet)?;
//! let answer = conversation.step(&packet[..size], Some(&account), &mut reply)?;
//! assert_eq!((answer.reason, answer.repeated), (Reason::Success, false));
//! assert_eq!(answer.update.account().map(|account| account.failures), Some(0));
//! assert_eq!(peer.read_reply(&reply[..answer.size])?.call, Call::Nothing);
//!
//! // A peer that missed the reply sends its packet again, and gets the same reply: so keep the
//! // conversation while the link is up, and pass every packet to it.
//! let answer = conversation.step(&packet[..size], None, &mut reply)?;
//! assert_eq!((answer.reason, answer.repeated), (Reason::Success, true));
//! assert_eq!(answer.update, Update::Nothing);
//!
//! // Another authenticator cannot issue the same challenge.
//! let opening = Conversation::open(1, terms, &challenge, &mut issued, &mut reply);
//! assert_eq!((opening, issued.used()), (Err(Refusal::Spent), 3));
//! # Ok::<(), Refusal>(())
//! ```
//!
//! Accounts in a file in the layout of Samba's smbpasswd(5) are looked up by [`find_account`], and
//! a changed one is written back by [`write_account`]. The file has no place for the count of
//! failures: [`Update`] says where it is kept.
//!
//! What is stored (a [`Conversation`], a [`Peer`], an [`Account`]'s record, an [`Issued`], a
//! [`Password`]) begins with its kind and the version of that kind's layout; `from_bytes` refuses
//! bytes of another kind or version. Conversations have a new layout since 0.9.0, with the version
//! of their change, and records since 0.8.0, with the round keys of their hashes, by which
//! [`record_response`] answers.

#![deny(missing_docs)]
#![deny(unsafe_code)]
#![deny(unsafe_op_in_unsafe_fn)]

mod account;
mod account_file;
mod authenticator;
mod cipher;
mod issued;
mod password;
mod peer;
mod refusal;
#[allow(unsafe_code)]
pub mod sys;

pub use account::{record_response, Account, HashKind};
pub use account_file::{count_accounts, find_account, write_account};
pub use account_file::{Counts, FileFault, Found, Times};
pub use authenticator::{account_of, domain_of, Answer, Awaited, ChangeVersion};
pub use authenticator::{Conversation, Terms, Update};
pub use cipher::{des_decrypt, des_encrypt, md4, rc4};
pub use issued::Issued;
pub use password::{challenge_response, LmHash, NtHash, Password};
pub use peer::{Call, Peer, Reading};
pub use refusal::{ChangeFault, Reason, Refusal};

/// The bytes of a challenge.
pub type Challenge = [u8; sys::CHALLENGE_SIZE];
/// The bytes of a response, without its packet.
pub type Response = [u8; sys::RESPONSE_SIZE];

/// The most places of a list of issued challenges.
pub const LIST_PLACES: usize = sys::LIST_PLACES;
/// The least room for a reply of the authenticator.
pub const REPLY_SIZE: usize = sys::REPLY_SIZE;
/// Room for the longest Response.
pub const RESPONSE_PACKET: usize = sys::RESPONSE_PACKET;
/// The size of every version 2 change of the password.
pub const CHANGE_PACKET: usize = sys::CHANGE_PACKET;
/// The size of every version 1 change of the password.
pub const CHANGE_1_PACKET: usize = sys::CHANGE_1_PACKET;
