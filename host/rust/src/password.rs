//! Passwords, their hashes and the challenge response (RFC 2433, appendix A).

use crate::{sys, Challenge, Refusal, Response};
use std::fmt;

/// A password of at most 256 characters of 16 bits. It is not wiped when it is dropped.
#[derive(Clone, PartialEq, Eq)]
pub struct Password([u8; sys::PASSWORD_SIZE]);

/// The NT hash of a password.
#[derive(Clone, Copy, Debug, PartialEq, Eq)]
pub struct NtHash(pub [u8; sys::HASH_SIZE]);

/// The LM hash of a password.
#[derive(Clone, Copy, Debug, PartialEq, Eq)]
pub struct LmHash(pub [u8; sys::HASH_SIZE]);

impl Password {
    /// A password of a text in UTF-8, as people type it. Bytes that are not UTF-8 are refused as
    /// [`Refusal::Malformed`], over 256 characters of 16 bits as [`Refusal::Input`]. Composed
    /// letters are taken as they are: normalise before (NFC is what Windows keyboards write).
    pub fn from_utf8(text: impl AsRef<[u8]>) -> Result<Password, Refusal> {
        Password::made(|bytes| sys::make_password(text.as_ref(), bytes))
    }

    /// A password of characters in 16 bits; any, unpaired surrogates too. Over 256 are refused as
    /// [`Refusal::Input`].
    pub fn from_utf16(characters: &[u16]) -> Result<Password, Refusal> {
        let bytes: Vec<u8> = characters.iter().flat_map(|c| c.to_le_bytes()).collect();
        Password::from_utf16_bytes(&bytes)
    }

    /// The same of their bytes, the least significant byte of each character first. An odd number
    /// of bytes is refused as [`Refusal::Input`] too.
    pub fn from_utf16_bytes(characters: &[u8]) -> Result<Password, Refusal> {
        Password::made(|bytes| sys::make_password_utf16(characters, bytes))
    }

    fn made(make: impl FnOnce(&mut [u8]) -> u32) -> Result<Password, Refusal> {
        let mut bytes = [0; sys::PASSWORD_SIZE];
        Refusal::check(make(&mut bytes))?;
        Ok(Password(bytes))
    }

    /// The text. An unpaired surrogate is refused as [`Refusal::Malformed`].
    pub fn to_text(&self) -> Result<String, Refusal> {
        let mut text = vec![0; sys::TEXT_MAX];
        let mut length = 0;
        Refusal::check(sys::read_password(&self.0, &mut text, &mut length))?;
        text.truncate(length);
        String::from_utf8(text).map_err(|_| Refusal::Malformed)
    }

    /// The NT hash.
    pub fn nt_hash(&self) -> Result<NtHash, Refusal> {
        let mut hash = [0; sys::HASH_SIZE];
        Refusal::check(sys::nt_hash(&self.0, &mut hash))?;
        Ok(NtHash(hash))
    }

    /// The bytes, to be stored: the password itself can be read from them.
    pub fn as_bytes(&self) -> &[u8; sys::PASSWORD_SIZE] {
        &self.0
    }

    /// The password of stored bytes. Bytes that no password has are refused as
    /// [`Refusal::BadArgument`].
    pub fn from_bytes(bytes: &[u8]) -> Result<Password, Refusal> {
        // A valid one has an NT hash, whatever its characters are.
        Refusal::check(sys::nt_hash(bytes, &mut [0; sys::HASH_SIZE]))?;
        bytes
            .try_into()
            .map(Password)
            .map_err(|_| Refusal::BadArgument)
    }
}

/// Without the password.
impl fmt::Debug for Password {
    fn fmt(&self, to: &mut fmt::Formatter<'_>) -> fmt::Result {
        to.debug_struct("Password").finish_non_exhaustive()
    }
}

impl LmHash {
    /// The LM hash of a password in the OEM code page of the account's owner, in upper case where
    /// it has letters beyond a to z. Over 14 bytes are refused as [`Refusal::Input`].
    pub fn of(password: &[u8]) -> Result<LmHash, Refusal> {
        let mut hash = [0; sys::HASH_SIZE];
        Refusal::check(sys::lm_hash(password, &mut hash))?;
        Ok(LmHash(hash))
    }
}

/// The response of a hash, NT or LM, to a challenge.
pub fn challenge_response(
    hash: &[u8; sys::HASH_SIZE],
    challenge: &Challenge,
) -> Result<Response, Refusal> {
    let mut response = [0; sys::RESPONSE_SIZE];
    Refusal::check(sys::challenge_response(hash, challenge, &mut response))?;
    Ok(response)
}
