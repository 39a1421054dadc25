//! DES (FIPS 46-2) on arrays of bits, with the tables as the standard prints them: bit 1 is the
//! leftmost, most significant one.

const IP: [u8; 64] = [
    58, 50, 42, 34, 26, 18, 10, 2, //
    60, 52, 44, 36, 28, 20, 12, 4, //
    62, 54, 46, 38, 30, 22, 14, 6, //
    64, 56, 48, 40, 32, 24, 16, 8, //
    57, 49, 41, 33, 25, 17, 9, 1, //
    59, 51, 43, 35, 27, 19, 11, 3, //
    61, 53, 45, 37, 29, 21, 13, 5, //
    63, 55, 47, 39, 31, 23, 15, 7,
];

const IP_INVERSE: [u8; 64] = [
    40, 8, 48, 16, 56, 24, 64, 32, //
    39, 7, 47, 15, 55, 23, 63, 31, //
    38, 6, 46, 14, 54, 22, 62, 30, //
    37, 5, 45, 13, 53, 21, 61, 29, //
    36, 4, 44, 12, 52, 20, 60, 28, //
    35, 3, 43, 11, 51, 19, 59, 27, //
    34, 2, 42, 10, 50, 18, 58, 26, //
    33, 1, 41, 9, 49, 17, 57, 25,
];

const E: [u8; 48] = [
    32, 1, 2, 3, 4, 5, //
    4, 5, 6, 7, 8, 9, //
    8, 9, 10, 11, 12, 13, //
    12, 13, 14, 15, 16, 17, //
    16, 17, 18, 19, 20, 21, //
    20, 21, 22, 23, 24, 25, //
    24, 25, 26, 27, 28, 29, //
    28, 29, 30, 31, 32, 1,
];

const P: [u8; 32] = [
    16, 7, 20, 21, //
    29, 12, 28, 17, //
    1, 15, 23, 26, //
    5, 18, 31, 10, //
    2, 8, 24, 14, //
    32, 27, 3, 9, //
    19, 13, 30, 6, //
    22, 11, 4, 25,
];

const PC_1: [u8; 56] = [
    57, 49, 41, 33, 25, 17, 9, //
    1, 58, 50, 42, 34, 26, 18, //
    10, 2, 59, 51, 43, 35, 27, //
    19, 11, 3, 60, 52, 44, 36, //
    63, 55, 47, 39, 31, 23, 15, //
    7, 62, 54, 46, 38, 30, 22, //
    14, 6, 61, 53, 45, 37, 29, //
    21, 13, 5, 28, 20, 12, 4,
];

const PC_2: [u8; 48] = [
    14, 17, 11, 24, 1, 5, //
    3, 28, 15, 6, 21, 10, //
    23, 19, 12, 4, 26, 8, //
    16, 7, 27, 20, 13, 2, //
    41, 52, 31, 37, 47, 55, //
    30, 40, 51, 45, 33, 48, //
    44, 49, 39, 56, 34, 53, //
    46, 42, 50, 36, 29, 32,
];

const LEFT_SHIFTS: [usize; 16] = [1, 1, 2, 2, 2, 2, 2, 2, 1, 2, 2, 2, 2, 2, 2, 1];

const S: [[[u8; 16]; 4]; 8] = [
    [
        [14, 4, 13, 1, 2, 15, 11, 8, 3, 10, 6, 12, 5, 9, 0, 7],
        [0, 15, 7, 4, 14, 2, 13, 1, 10, 6, 12, 11, 9, 5, 3, 8],
        [4, 1, 14, 8, 13, 6, 2, 11, 15, 12, 9, 7, 3, 10, 5, 0],
        [15, 12, 8, 2, 4, 9, 1, 7, 5, 11, 3, 14, 10, 0, 6, 13],
    ],
    [
        [15, 1, 8, 14, 6, 11, 3, 4, 9, 7, 2, 13, 12, 0, 5, 10],
        [3, 13, 4, 7, 15, 2, 8, 14, 12, 0, 1, 10, 6, 9, 11, 5],
        [0, 14, 7, 11, 10, 4, 13, 1, 5, 8, 12, 6, 9, 3, 2, 15],
        [13, 8, 10, 1, 3, 15, 4, 2, 11, 6, 7, 12, 0, 5, 14, 9],
    ],
    [
        [10, 0, 9, 14, 6, 3, 15, 5, 1, 13, 12, 7, 11, 4, 2, 8],
        [13, 7, 0, 9, 3, 4, 6, 10, 2, 8, 5, 14, 12, 11, 15, 1],
        [13, 6, 4, 9, 8, 15, 3, 0, 11, 1, 2, 12, 5, 10, 14, 7],
        [1, 10, 13, 0, 6, 9, 8, 7, 4, 15, 14, 3, 11, 5, 2, 12],
    ],
    [
        [7, 13, 14, 3, 0, 6, 9, 10, 1, 2, 8, 5, 11, 12, 4, 15],
        [13, 8, 11, 5, 6, 15, 0, 3, 4, 7, 2, 12, 1, 10, 14, 9],
        [10, 6, 9, 0, 12, 11, 7, 13, 15, 1, 3, 14, 5, 2, 8, 4],
        [3, 15, 0, 6, 10, 1, 13, 8, 9, 4, 5, 11, 12, 7, 2, 14],
    ],
    [
        [2, 12, 4, 1, 7, 10, 11, 6, 8, 5, 3, 15, 13, 0, 14, 9],
        [14, 11, 2, 12, 4, 7, 13, 1, 5, 0, 15, 10, 3, 9, 8, 6],
        [4, 2, 1, 11, 10, 13, 7, 8, 15, 9, 12, 5, 6, 3, 0, 14],
        [11, 8, 12, 7, 1, 14, 2, 13, 6, 15, 0, 9, 10, 4, 5, 3],
    ],
    [
        [12, 1, 10, 15, 9, 2, 6, 8, 0, 13, 3, 4, 14, 7, 5, 11],
        [10, 15, 4, 2, 7, 12, 9, 5, 6, 1, 13, 14, 0, 11, 3, 8],
        [9, 14, 15, 5, 2, 8, 12, 3, 7, 0, 4, 10, 1, 13, 11, 6],
        [4, 3, 2, 12, 9, 5, 15, 10, 11, 14, 1, 7, 6, 0, 8, 13],
    ],
    [
        [4, 11, 2, 14, 15, 0, 8, 13, 3, 12, 9, 7, 5, 10, 6, 1],
        [13, 0, 11, 7, 4, 9, 1, 10, 14, 3, 5, 12, 2, 15, 8, 6],
        [1, 4, 11, 13, 12, 3, 7, 14, 10, 15, 6, 8, 0, 5, 9, 2],
        [6, 11, 13, 8, 1, 4, 10, 7, 9, 5, 0, 15, 14, 2, 3, 12],
    ],
    [
        [13, 2, 8, 4, 6, 15, 11, 1, 10, 9, 3, 14, 5, 0, 12, 7],
        [1, 15, 13, 8, 10, 3, 7, 4, 12, 5, 6, 11, 0, 14, 9, 2],
        [7, 11, 4, 1, 9, 12, 14, 2, 0, 6, 10, 13, 15, 3, 5, 8],
        [2, 1, 14, 7, 4, 10, 8, 13, 15, 12, 9, 0, 3, 5, 6, 11],
    ],
];

/// The bits of the octets, most significant first; `N` is eight times the count of octets.
fn bits<const N: usize>(octets: &[u8]) -> [u8; N] {
    let mut out = [0u8; N];
    for (place, bit) in out.iter_mut().enumerate() {
        *bit = (octets[place / 8] >> (7 - place % 8)) & 1;
    }
    out
}

fn octets(bits: &[u8; 64]) -> [u8; 8] {
    let mut out = [0u8; 8];
    for (place, bit) in bits.iter().enumerate() {
        out[place / 8] = out[place / 8] * 2 + bit;
    }
    out
}

/// Output bit n is the input bit that the table's entry n names.
fn select<const N: usize>(input: &[u8], table: &[u8; N]) -> [u8; N] {
    let mut out = [0u8; N];
    for (bit, from) in out.iter_mut().zip(table) {
        *bit = input[usize::from(*from) - 1];
    }
    out
}

/// The key schedule KS: sixteen selections of 48 bits.
fn schedule(key8: &[u8; 8]) -> [[u8; 48]; 16] {
    let mut cd: [u8; 56] = select(&bits::<64>(key8), &PC_1);
    let mut keys = [[0u8; 48]; 16];
    for (key, shifts) in keys.iter_mut().zip(LEFT_SHIFTS) {
        cd[..28].rotate_left(shifts);
        cd[28..].rotate_left(shifts);
        *key = select(&cd, &PC_2);
    }
    keys
}

/// The cipher function f(R, K).
fn cipher_function(r: &[u8; 32], k: &[u8; 48]) -> [u8; 32] {
    let mut b = select(r, &E);
    for (bit, key) in b.iter_mut().zip(k) {
        *bit ^= key;
    }
    let mut chosen = [0u8; 32];
    for (n, six) in b.chunks(6).enumerate() {
        let row = 2 * six[0] + six[5];
        let column = 8 * six[1] + 4 * six[2] + 2 * six[3] + six[4];
        let value = S[n][usize::from(row)][usize::from(column)];
        for place in 0..4 {
            chosen[4 * n + place] = (value >> (3 - place)) & 1;
        }
    }
    select(&chosen, &P)
}

/// The sixteen rounds between IP and its inverse, the round keys in the order given.
fn run<'a>(block: &[u8; 8], keys: impl Iterator<Item = &'a [u8; 48]>) -> [u8; 8] {
    let start: [u8; 64] = select(&bits::<64>(block), &IP);
    let mut l = [0u8; 32];
    let mut r = [0u8; 32];
    l.copy_from_slice(&start[..32]);
    r.copy_from_slice(&start[32..]);
    for key in keys {
        let mut next = cipher_function(&r, key);
        for (bit, left) in next.iter_mut().zip(l) {
            *bit ^= left;
        }
        l = r;
        r = next;
    }
    // The preoutput block is R16 L16.
    let mut preoutput = [0u8; 64];
    preoutput[..32].copy_from_slice(&r);
    preoutput[32..].copy_from_slice(&l);
    octets(&select(&preoutput, &IP_INVERSE))
}

/// Encryption under an eight-octet key, whose parity bits have no effect.
pub fn encrypt_with_parity(key8: &[u8; 8], block: &[u8; 8]) -> [u8; 8] {
    run(block, schedule(key8).iter())
}

/// Decryption under an eight-octet key.
pub fn decrypt_with_parity(key8: &[u8; 8], block: &[u8; 8]) -> [u8; 8] {
    run(block, schedule(key8).iter().rev())
}

/// The 56 bits of a raw key, most significant first, in the top seven bits of eight octets; the
/// parity bits are clear.
pub fn expand(key7: &[u8; 7]) -> [u8; 8] {
    let raw: [u8; 56] = bits(key7);
    let mut spread = [0u8; 64];
    for (place, bit) in raw.iter().enumerate() {
        spread[8 * (place / 7) + place % 7] = *bit;
    }
    octets(&spread)
}

/// The other way round: the parity bits dropped, the 56 others joined.
pub fn drop_parity(key8: &[u8; 8]) -> [u8; 7] {
    let spread: [u8; 64] = bits(key8);
    let mut out = [0u8; 7];
    for place in 0..56 {
        out[place / 8] = out[place / 8] * 2 + spread[8 * (place / 7) + place % 7];
    }
    out
}

/// RFC 2433's DesEncrypt: an eight-octet block under a seven-octet key.
pub fn encrypt(key7: &[u8; 7], block: &[u8; 8]) -> [u8; 8] {
    encrypt_with_parity(&expand(key7), block)
}

/// The inverse of [`encrypt`].
pub fn decrypt(key7: &[u8; 7], block: &[u8; 8]) -> [u8; 8] {
    decrypt_with_parity(&expand(key7), block)
}

/// The sixteen round keys of a seven-octet key, the first round's first.
pub fn round_keys(key7: &[u8; 7]) -> [[u8; 48]; 16] {
    schedule(&expand(key7))
}

/// Encryption under any sixteen round keys.
pub fn encrypt_with(keys: &[[u8; 48]; 16], block: &[u8; 8]) -> [u8; 8] {
    run(block, keys.iter())
}

/// One block under the three seven-octet keys that 21 octets hold, joined to 24 octets.
pub fn encrypt_three(key21: &[u8; 21], block: &[u8; 8]) -> [u8; 24] {
    let mut out = [0u8; 24];
    for n in 0..3 {
        let mut key = [0u8; 7];
        key.copy_from_slice(&key21[7 * n..7 * n + 7]);
        out[8 * n..8 * n + 8].copy_from_slice(&encrypt(&key, block));
    }
    out
}

#[cfg(test)]
mod tests {
    use super::*;

    #[test]
    fn fips_81_ecb() {
        let key = [0x01, 0x23, 0x45, 0x67, 0x89, 0xAB, 0xCD, 0xEF];
        assert_eq!(
            drop_parity(&key),
            [0x00, 0x45, 0x13, 0x38, 0x95, 0x73, 0x77]
        );
        let text = *b"Now is the time for all ";
        let cipher = [
            0x3F, 0xA4, 0x0E, 0x8A, 0x98, 0x4D, 0x48, 0x15, 0x6A, 0x27, 0x17, 0x87, 0xAB, 0x88,
            0x83, 0xF9, 0x89, 0x3D, 0x51, 0xEC, 0x4B, 0x56, 0x3B, 0x53,
        ];
        for n in 0..3 {
            let mut block = [0u8; 8];
            block.copy_from_slice(&text[8 * n..8 * n + 8]);
            let out = encrypt(&drop_parity(&key), &block);
            assert_eq!(out[..], cipher[8 * n..8 * n + 8]);
            assert_eq!(decrypt(&drop_parity(&key), &out), block);
        }
    }

    /// The variable-key and S-box test of NBS SP 500-20.
    #[test]
    fn sp_500_20_substitution_tables() {
        const LINES: [(u64, u64, u64); 19] = [
            (0x7CA110454A1A6E57, 0x01A1D6D039776742, 0x690F5B0D9A26939B),
            (0x0131D9619DC1376E, 0x5CD54CA83DEF57DA, 0x7A389D10354BD271),
            (0x07A1133E4A0B2686, 0x0248D43806F67172, 0x868EBB51CAB4599A),
            (0x3849674C2602319E, 0x51454B582DDF440A, 0x7178876E01F19B2A),
            (0x04B915BA43FEB5B6, 0x42FD443059577FA2, 0xAF37FB421F8C4095),
            (0x0113B970FD34F2CE, 0x059B5E0851CF143A, 0x86A560F10EC6D85B),
            (0x0170F175468FB5E6, 0x0756D8E0774761D2, 0x0CD3DA020021DC09),
            (0x43297FAD38E373FE, 0x762514B829BF486A, 0xEA676B2CB7DB2B7A),
            (0x07A7137045DA2A16, 0x3BDD119049372802, 0xDFD64A815CAF1A0F),
            (0x04689104C2FD3B2F, 0x26955F6835AF609A, 0x5C513C9C4886C088),
            (0x37D06BB516CB7546, 0x164D5E404F275232, 0x0A2AEEAE3FF4AB77),
            (0x1F08260D1AC2465E, 0x6B056E18759F5CCA, 0xEF1BF03E5DFA575A),
            (0x584023641ABA6176, 0x004BD6EF09176062, 0x88BF0DB6D70DEE56),
            (0x025816164629B007, 0x480D39006EE762F2, 0xA1F9915541020B56),
            (0x49793EBC79B3258F, 0x437540C8698F3CFA, 0x6FBF1CAFCFFD0556),
            (0x4FB05E1515AB73A7, 0x072D43A077075292, 0x2F22E49BAB7CA1AC),
            (0x49E95D6D4CA229BF, 0x02FE55778117F12A, 0x5A6B612CC26CCE4A),
            (0x018310DC409B26D6, 0x1D9D5C5018F728C2, 0x5F4C038ED12B2E41),
            (0x1C587F1C13924FEF, 0x305532286D6F295A, 0x63FAC0D034D9F793),
        ];
        for (key, plain, cipher) in LINES {
            let key7 = drop_parity(&key.to_be_bytes());
            assert_eq!(encrypt(&key7, &plain.to_be_bytes()), cipher.to_be_bytes());
            assert_eq!(decrypt(&key7, &cipher.to_be_bytes()), plain.to_be_bytes());
        }
    }

    #[test]
    fn keys() {
        assert_eq!(expand(&[0xFF; 7]), [0xFE; 8]);
        assert_eq!(expand(&[1, 0, 0, 0, 0, 0, 0]), [0, 0x80, 0, 0, 0, 0, 0, 0]);
        // RFC 2433, B.3, with the parity bits cleared.
        let first = [0xFC, 0x15, 0x6A, 0xF7, 0xED, 0xCD, 0x6C];
        assert_eq!(
            expand(&first),
            [0xFC, 0x0A, 0x5A, 0x5E, 0x7E, 0x6E, 0x34, 0xD8]
        );
        let printed = [0xFD, 0x0B, 0x5B, 0x5E, 0x7F, 0x6E, 0x34, 0xD9];
        assert_eq!(drop_parity(&printed), first);
        let second = [0x0E, 0xDD, 0xE3, 0x33, 0x7D, 0x42, 0x7F];
        let printed = [0x0E, 0x6E, 0x79, 0x67, 0x37, 0xEA, 0x08, 0xFE];
        assert_eq!(drop_parity(&printed), second);
        assert_eq!(drop_parity(&expand(&second)), second);
    }

    #[test]
    fn parity_has_no_effect() {
        assert!(PC_1.iter().all(|bit| bit % 8 != 0));
        let with = [0x13, 0x34, 0x57, 0x79, 0x9B, 0xBC, 0xDF, 0xF1];
        let without = [0x12, 0x34, 0x56, 0x78, 0x9A, 0xBC, 0xDE, 0xF0];
        let text = [0x01, 0x23, 0x45, 0x67, 0x89, 0xAB, 0xCD, 0xEF];
        let cipher = [0x85, 0xE8, 0x13, 0x54, 0x0F, 0x0A, 0xB4, 0x05];
        assert_eq!(encrypt_with_parity(&with, &text), cipher);
        assert_eq!(encrypt_with_parity(&without, &text), cipher);
        assert_eq!(encrypt(&drop_parity(&with), &text), cipher);
    }

    #[test]
    fn tables_are_permutations() {
        let mut seen = IP.to_vec();
        seen.sort_unstable();
        assert_eq!(seen, (1..=64).collect::<Vec<u8>>());
        let positions: Vec<u8> = (1..=64).collect();
        assert_eq!(
            select(&select(&positions, &IP), &IP_INVERSE).to_vec(),
            positions
        );
        for row in S.iter().flatten() {
            let mut seen = row.to_vec();
            seen.sort_unstable();
            assert_eq!(seen, (0..16).collect::<Vec<u8>>());
        }
    }
}
