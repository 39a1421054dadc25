//! The password hashes, the challenge response, the two parts of a version 2 change and the fields
//! of a version 1 change (RFC 2433, appendix A).

use crate::des;
use crate::md4;
use crate::rc4;

/// The known text of A.3.
pub const STD_TEXT: [u8; 8] = *b"KGS!@#$%";

/// The most octets of an NT password.
pub const NT_LIMIT: usize = 512;

/// The most octets of a LAN Manager password.
pub const LM_LIMIT: usize = 14;

/// A.6: MD4 of the password's 16-bit characters, least significant octet first, with no
/// terminator. An odd count of octets or more than 512 is refusal 8.
pub fn nt_hash(password: &[u8]) -> Result<[u8; 16], u8> {
    if password.len() % 2 == 1 || password.len() > NT_LIMIT {
        return Err(8);
    }
    Ok(md4::digest(password))
}

/// A.2: a to z made A to Z, zero-padded to 14 octets, each half the key of the known text. More
/// than 14 octets is refusal 8.
pub fn lm_hash(password: &[u8]) -> Result<[u8; 16], u8> {
    if password.len() > LM_LIMIT {
        return Err(8);
    }
    let mut padded = [0u8; 14];
    for (place, octet) in password.iter().enumerate() {
        padded[place] = match octet {
            b'a'..=b'z' => octet - b'a' + b'A',
            other => *other,
        };
    }
    let mut out = [0u8; 16];
    out[..8].copy_from_slice(&des::encrypt(&part(&padded, 0), &STD_TEXT));
    out[8..].copy_from_slice(&des::encrypt(&part(&padded, 7), &STD_TEXT));
    Ok(out)
}

/// A.7: the challenge under the three keys of the hash zero-padded to 21 octets.
pub fn challenge_response(hash: &[u8; 16], challenge: &[u8; 8]) -> [u8; 24] {
    let mut padded = [0u8; 21];
    padded[..16].copy_from_slice(hash);
    des::encrypt_three(&padded, challenge)
}

/// A.11 and A.12: the filler's first octets, the password at the end of 512 octets, its length
/// (least significant octet first), all under one run of RC4. Refusal 8 for the password, then
/// 12 for a filler that has not 512 octets.
pub fn seal(old_hash: &[u8; 16], password: &[u8], filler: &[u8]) -> Result<[u8; 516], u8> {
    if password.len() % 2 == 1 || password.len() > NT_LIMIT {
        return Err(8);
    }
    if filler.len() != 512 {
        return Err(12);
    }
    let offset = 512 - password.len();
    let mut block = [0u8; 516];
    block[..offset].copy_from_slice(&filler[..offset]);
    block[offset..512].copy_from_slice(password);
    block[512..].copy_from_slice(&(password.len() as u32).to_le_bytes());
    rc4::rc4(old_hash, &mut block)?;
    Ok(block)
}

/// What lies in a sealed block.
#[derive(Clone, Debug, PartialEq, Eq)]
pub enum Opened {
    /// The length is above 512.
    Over,
    /// The length is at most 512, and odd.
    Odd,
    /// The password.
    Password(Vec<u8>),
}

/// Opens a sealed block.
pub fn open(old_hash: &[u8; 16], block: &[u8; 516]) -> Opened {
    let mut clear = *block;
    if rc4::rc4(old_hash, &mut clear).is_err() {
        unreachable!("a key of 16 octets is never refused");
    }
    let mut length: u64 = 0;
    for octet in clear[512..].iter().rev() {
        length = length * 256 + u64::from(*octet);
    }
    if length > NT_LIMIT as u64 {
        Opened::Over
    } else if length % 2 == 1 {
        Opened::Odd
    } else {
        Opened::Password(clear[512 - length as usize..512].to_vec())
    }
}

/// A.17: the old hash's first half under the new hash's first seven octets, its second half
/// under the next seven.
pub fn old_under_new(old_hash: &[u8; 16], new_hash: &[u8; 16]) -> [u8; 16] {
    let mut out = [0u8; 16];
    out[..8].copy_from_slice(&des::encrypt(&part(new_hash, 0), &part(old_hash, 0)));
    out[8..].copy_from_slice(&des::encrypt(&part(new_hash, 7), &part(old_hash, 8)));
    out
}

/// A.9, as A.8 and A.10 have it for the hashes of a version 1 change: both halves of the hash under
/// the challenge's first seven octets.
pub fn under_challenge(hash: &[u8; 16], challenge: &[u8; 8]) -> [u8; 16] {
    halves(hash, |half| des::encrypt(&part(challenge, 0), half))
}

/// The hash that [`under_challenge`] made a field of.
pub fn from_challenge(field: &[u8; 16], challenge: &[u8; 8]) -> [u8; 16] {
    halves(field, |half| des::decrypt(&part(challenge, 0), half))
}

/// What comes of the first eight octets, then what comes of the second eight.
fn halves(octets: &[u8; 16], each: impl Fn(&[u8; 8]) -> [u8; 8]) -> [u8; 16] {
    let mut out = [0u8; 16];
    out[..8].copy_from_slice(&each(&part(octets, 0)));
    out[8..].copy_from_slice(&each(&part(octets, 8)));
    out
}

/// `N` octets from a place on.
fn part<const N: usize>(octets: &[u8], from: usize) -> [u8; N] {
    let mut out = [0u8; N];
    out.copy_from_slice(&octets[from..from + N]);
    out
}

#[cfg(test)]
mod tests {
    use super::*;
    use crate::script::hex;

    const CH: [u8; 8] = [0x10, 0x2D, 0xB5, 0xDF, 0x08, 0x5D, 0x30, 0x41];
    const P: &[u8] = b"M\0y\0P\0w\0";
    const Q: &[u8] = b"M\0y\0N\0e\0w\0P\0w\0";

    fn filler() -> Vec<u8> {
        (0..512).map(|i| ((7 * i + 3) % 256) as u8).collect()
    }

    #[test]
    fn rfc_2433_b_2() {
        let hash = nt_hash(P).unwrap();
        assert_eq!(hex(&hash), "FC156AF7EDCD6C0EDDE3337D427F4EAC");
        let response = challenge_response(&hash, &CH);
        assert_eq!(
            hex(&response),
            "4E9D3C8F9CFD385D5BF4D3246791956CA4C351AB409A3D61"
        );
    }

    #[test]
    fn fixtures() {
        let h = nt_hash(P).unwrap();
        let hq = nt_hash(Q).unwrap();
        assert_eq!(hex(&hq), "65DE9ADE0BBDA2AF5BE35786A8AF09C0");
        assert_eq!(
            hex(&challenge_response(&hq, &CH)),
            "17A80923C6EEC24CB45683309E701DACDB9F7834A4521B1E"
        );
        assert_eq!(
            hex(&challenge_response(&h, &crate::grown(&CH))),
            "EF8A435F0EDFCA92DCE4BBF63684E55198E57BC92E85BB71"
        );
        let bad = nt_hash(b"b\0a\0d\0").unwrap();
        assert_eq!(
            hex(&challenge_response(&bad, &CH)),
            "9B51C58442B95BC20F408EFCF3F7DE2674F179BCDC4A8EB1"
        );
        let l = lm_hash(b"MyPw").unwrap();
        assert_eq!(hex(&l), "75BA30198E6D1975AAD3B435B51404EE");
        assert_eq!(
            hex(&challenge_response(&l, &CH)),
            "91881D0152AB0C33C524135EC24A95EE64E23CDC2D33347D"
        );
        assert_eq!(
            hex(&old_under_new(&h, &hq)),
            "71BD6CBA24586C0A1354F1B611CB4CAF"
        );
        assert_eq!(
            hex(&challenge_response(
                &h,
                &[0x01, 0x23, 0x45, 0x67, 0x89, 0xAB, 0xCD, 0xEF]
            )),
            "2406C122F5D6D934CA96020272A269FD843BFE321A566F26"
        );
    }

    #[test]
    fn nt_limits() {
        assert_eq!(
            hex(&nt_hash(&[]).unwrap()),
            "31D6CFE0D16AE931B73C59D7E0C089C0"
        );
        assert_eq!(
            hex(&nt_hash(&b"a\0".repeat(256)).unwrap()),
            "9118F6CE48955B5CA2BE01329E7F959E"
        );
        for size in [1, 3, 511, 513, 514] {
            assert_eq!(nt_hash(&vec![0x61; size]), Err(8), "{size}");
        }
    }

    #[test]
    fn lm_rows() {
        assert_eq!(
            hex(&lm_hash(b"").unwrap()),
            "AAD3B435B51404EEAAD3B435B51404EE"
        );
        assert_eq!(
            hex(&lm_hash(b"abcdefghijklmn").unwrap()),
            "E0C510199CC66ABD8C51EC214BEBDEA1"
        );
        assert_eq!(lm_hash(b"abcdefghijklmno"), Err(8));
        assert_eq!(
            hex(&lm_hash(b"{").unwrap()),
            "9B3F51919237C9E8AAD3B435B51404EE"
        );
        assert!(hex(&lm_hash(b"[").unwrap()).starts_with("50A7E324"));
        assert!(hex(&lm_hash(&[0xE9]).unwrap()).starts_with("167B787A"));
        assert_ne!(lm_hash(&[0x60]), lm_hash(&[0x40]));
        assert_eq!(lm_hash(b"mYpW"), lm_hash(b"MYPW"));
    }

    #[test]
    fn sealing() {
        let h = nt_hash(P).unwrap();
        let block = seal(&h, Q, &filler()).unwrap();
        assert!(hex(&block).starts_with("C3509FA25F3DFD43"));
        assert!(hex(&block).ends_with("AE36AB02"));
        let mut clear = block;
        rc4::rc4(&h, &mut clear).unwrap();
        assert!(hex(&clear).starts_with("030A1118"));
        assert!(hex(&clear).ends_with(
            "858C939A4D0079004E00650077005000770 00E000000"
                .replace(' ', "")
                .as_str()
        ));
        for size in [0, 2, 14, 510, 512] {
            let password: Vec<u8> = (0..size).map(|i| i as u8).collect();
            let block = seal(&h, &password, &filler()).unwrap();
            assert_eq!(open(&h, &block), Opened::Password(password));
        }
        assert_eq!(seal(&h, &[0; 3], &[]), Err(8));
        assert_eq!(seal(&h, &[0; 514], &filler()), Err(8));
        assert_eq!(seal(&h, &[0; 512], &[]), Err(12));
        assert_eq!(seal(&h, &[0; 512], &[0; 513]), Err(12));
    }

    #[test]
    fn opening_lengths() {
        let h = nt_hash(P).unwrap();
        let with = |length: u32| {
            let mut block = [0x20u8; 516];
            block[512..].copy_from_slice(&length.to_le_bytes());
            rc4::rc4(&h, &mut block).unwrap();
            open(&h, &block)
        };
        for length in [513, 514, 65_536, 65_550, u32::MAX, 1 << 31, 0x0E00_0000] {
            assert_eq!(with(length), Opened::Over, "{length}");
        }
        for length in [1, 7, 511] {
            assert_eq!(with(length), Opened::Odd, "{length}");
        }
        for length in [0, 2, 512] {
            assert_eq!(with(length), Opened::Password(vec![0x20; length as usize]));
        }
    }
}
