//! A second, independent implementation of MS-CHAP version 1 (RFC 2433), written from the
//! standards (RFC 2433, RFC 1994, RFC 1320, FIPS 46-2), the project's scope document and its change
//! requests alone.
//! It exists to be compared, line for line, with another program; clarity goes before speed.
//!
//! Refusals are the numbers of the scope document; 0 stands for "not refused".

pub mod authenticator;
pub mod des;
pub mod hashes;
pub mod issued;
pub mod md4;
pub mod message;
pub mod packet;
pub mod peer;
pub mod random;
pub mod rc4;
pub mod schedules;
pub mod script;
pub mod smbpasswd;

/// The challenge's first octet grows by 23 modulo 256; the other seven stay.
pub fn grown(challenge: &[u8; 8]) -> [u8; 8] {
    let mut next = *challenge;
    next[0] = ((u16::from(next[0]) + 23) % 256) as u8;
    next
}

/// The identifier after this one, modulo 256.
pub fn next_identifier(id: u8) -> u8 {
    ((u16::from(id) + 1) % 256) as u8
}

#[cfg(test)]
mod tests {
    use super::*;

    #[test]
    fn octets_wrap() {
        assert_eq!(next_identifier(255), 0);
        assert_eq!(next_identifier(9), 10);
        assert_eq!(grown(&[0xE8, 2, 3, 4, 5, 6, 7, 8])[0], 0xFF);
        assert_eq!(
            grown(&[0xE9, 2, 3, 4, 5, 6, 7, 8]),
            [0, 2, 3, 4, 5, 6, 7, 8]
        );
        assert_eq!(
            grown(&[0x10, 255, 0, 0, 0, 0, 0, 0]),
            [0x27, 255, 0, 0, 0, 0, 0, 0]
        );
    }
}
