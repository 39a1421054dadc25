//! MD4, as RFC 1320 describes it.

/// The most octets the public function takes.
pub const LIMIT: usize = 4096;

/// MD4 of up to 4,096 octets; more is refusal 8.
pub fn md4(input: &[u8]) -> Result<[u8; 16], u8> {
    if input.len() > LIMIT {
        return Err(8);
    }
    Ok(digest(input))
}

/// MD4 of any octets.
pub fn digest(input: &[u8]) -> [u8; 16] {
    // 3.1 and 3.2: one bit 1, bits 0 up to 448 modulo 512, then the count of bits as two words,
    // low-order word first.
    let mut text = input.to_vec();
    text.push(0x80);
    while text.len() % 64 != 56 {
        text.push(0);
    }
    let bits = (input.len() as u64).wrapping_mul(8);
    for place in 0..8 {
        text.push((bits >> (8 * place)) as u8);
    }

    // 3.3
    let mut state: [u32; 4] = [0x67452301, 0xEFCDAB89, 0x98BADCFE, 0x10325476];
    // 3.4
    for block in text.chunks(64) {
        let mut x = [0u32; 16];
        for (k, word) in x.iter_mut().enumerate() {
            for octet in (0..4).rev() {
                *word = *word * 256 + u32::from(block[4 * k + octet]);
            }
        }
        let after = rounds(&x, state);
        for (old, new) in state.iter_mut().zip(after) {
            *old = old.wrapping_add(new);
        }
    }

    // 3.5
    let mut output = [0u8; 16];
    for (place, octet) in output.iter_mut().enumerate() {
        *octet = (state[place / 4] >> (8 * (place % 4))) as u8;
    }
    output
}

fn f(x: u32, y: u32, z: u32) -> u32 {
    (x & y) | (!x & z)
}

fn g(x: u32, y: u32, z: u32) -> u32 {
    (x & y) | (x & z) | (y & z)
}

fn h(x: u32, y: u32, z: u32) -> u32 {
    x ^ y ^ z
}

/// One of the RFC's three rounds: its function, its constant, the order in which it takes the
/// words, and its four shifts.
struct Round {
    mix: fn(u32, u32, u32) -> u32,
    constant: u32,
    order: [usize; 16],
    shifts: [u32; 4],
}

const ROUNDS: [Round; 3] = [
    Round {
        mix: f,
        constant: 0,
        order: [0, 1, 2, 3, 4, 5, 6, 7, 8, 9, 10, 11, 12, 13, 14, 15],
        shifts: [3, 7, 11, 19],
    },
    Round {
        mix: g,
        constant: 0x5A827999,
        order: [0, 4, 8, 12, 1, 5, 9, 13, 2, 6, 10, 14, 3, 7, 11, 15],
        shifts: [3, 5, 9, 13],
    },
    Round {
        mix: h,
        constant: 0x6ED9EBA1,
        order: [0, 8, 4, 12, 2, 10, 6, 14, 1, 9, 5, 13, 3, 11, 7, 15],
        shifts: [3, 9, 11, 15],
    },
];

/// The 48 operations `[ABCD k s]`, `[DABC k s]`, `[CDAB k s]`, `[BCDA k s]`.
fn rounds(x: &[u32; 16], state: [u32; 4]) -> [u32; 4] {
    let mut r = state;
    for round in &ROUNDS {
        for (step, &k) in round.order.iter().enumerate() {
            // A, D, C, B take their turns as the register that is written.
            let a = (4 - step % 4) % 4;
            let (b, c, d) = ((a + 1) % 4, (a + 2) % 4, (a + 3) % 4);
            r[a] = r[a]
                .wrapping_add((round.mix)(r[b], r[c], r[d]))
                .wrapping_add(x[k])
                .wrapping_add(round.constant)
                .rotate_left(round.shifts[step % 4]);
        }
    }
    r
}

#[cfg(test)]
mod tests {
    use super::*;
    use crate::script::hex;

    #[test]
    fn rfc_1320_a_5() {
        let suite = [
            ("", "31D6CFE0D16AE931B73C59D7E0C089C0"),
            ("a", "BDE52CB31DE33E46245E05FBDBD6FB24"),
            ("abc", "A448017AAF21D8525FC10AE87AA6729D"),
            ("message digest", "D9130A8164549FE818874806E1C7014B"),
            (
                "abcdefghijklmnopqrstuvwxyz",
                "D79E1C308AA5BBCDEEA8ED63DF412DA9",
            ),
            (
                "ABCDEFGHIJKLMNOPQRSTUVWXYZabcdefghijklmnopqrstuvwxyz0123456789",
                "043F8582F241DB351CE627E153E7F0E4",
            ),
            (
                "12345678901234567890123456789012345678901234567890123456789012345678901234567890",
                "E33B4DDC9C38F2199C3E7B164FCC0536",
            ),
        ];
        for (text, expected) in suite {
            assert_eq!(hex(&digest(text.as_bytes())), expected, "{text}");
        }
    }

    #[test]
    fn limit_and_padding_edges() {
        assert_eq!(
            hex(&md4(&[0; 4096]).unwrap()),
            "49521032570264865CE2E7CFAB69F1AE"
        );
        assert_eq!(md4(&[0; 4097]), Err(8));
        assert!(hex(&md4(&[0; 55]).unwrap()).starts_with("2DF5A83F"));
        assert!(hex(&md4(&[0; 56]).unwrap()).starts_with("7B9B4593"));
    }
}
