//! MD4, RC4 and DES.

use crate::{sys, Refusal};

/// The MD4 digest (RFC 1320) of at most 4,096 bytes; more are refused as [`Refusal::Input`].
pub fn md4(input: &[u8]) -> Result<[u8; sys::DIGEST_SIZE], Refusal> {
    let mut digest = [0; sys::DIGEST_SIZE];
    Refusal::check(sys::md4(input, &mut digest))?;
    Ok(digest)
}

/// RC4 over bytes in place, from the start of the stream of a key of 1 to 256 bytes. Another key
/// is refused as [`Refusal::Input`].
pub fn rc4(key: &[u8], bytes: &mut [u8]) -> Result<(), Refusal> {
    Refusal::check(sys::rc4(key, bytes))
}

/// DES of a block under a key of 56 bits, without parity.
pub fn des_encrypt(
    key: &[u8; sys::KEY_SIZE],
    block: &[u8; sys::BLOCK_SIZE],
) -> Result<[u8; sys::BLOCK_SIZE], Refusal> {
    let mut out = *block;
    Refusal::check(sys::des_encrypt(key, &mut out))?;
    Ok(out)
}

/// The block that [`des_encrypt`] makes into this one.
pub fn des_decrypt(
    key: &[u8; sys::KEY_SIZE],
    block: &[u8; sys::BLOCK_SIZE],
) -> Result<[u8; sys::BLOCK_SIZE], Refusal> {
    let mut out = *block;
    Refusal::check(sys::des_decrypt(key, &mut out))?;
    Ok(out)
}
