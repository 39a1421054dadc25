//! The key schedules in a record (request 2026-10): "A stored hash's round keys never change. Keep
//! the three schedules beside each hash in the record."
//!
//! The three keys of a hash are those of RFC 2433 A.7: its octets 0 to 6, 7 to 13, and 14 and 15
//! with five octets 0 behind them. Each has sixteen round keys (FIPS 46-2), and each round key is
//! one number: its 48 bits are cut into eight groups of six, g1 for S1 to g8 for S8, and each group
//! has an octet of the number for itself, in which it has the low six bits. From the most
//! significant octet on these are g1 g3 g5 g7 g2 g4 g6 g8. Any number may stand in a record that is
//! lent: the two high bits of each octet are not read.

use crate::des;

/// Rounds of DES.
const ROUNDS: usize = 16;
/// Keys of a hash.
const KEYS: usize = 3;
/// Bits of a group, which is what one S-box takes.
const GROUP: usize = 6;
/// The group in each octet of a stored number, from the most significant octet on.
const GROUPS: [usize; 8] = [1, 3, 5, 7, 2, 4, 6, 8];

/// The numbers beside a hash.
pub const NUMBERS: usize = KEYS * ROUNDS;
/// The octets of these numbers.
pub const OCTETS: usize = 8 * NUMBERS;

/// The three schedules beside a hash: that of the first key, round 1 first, then those of the
/// second and the third.
#[derive(Clone, Copy, Debug, PartialEq, Eq)]
pub struct Schedules(pub [u64; NUMBERS]);

/// What we put beside a hash that is absent: zeros.
impl Default for Schedules {
    fn default() -> Schedules {
        Schedules([0; NUMBERS])
    }
}

impl Schedules {
    /// The schedules of a hash: those that agree with it.
    pub fn of(hash: &[u8; 16]) -> Schedules {
        let mut numbers = [0; NUMBERS];
        for (n, key) in keys(hash).iter().enumerate() {
            for (round, bits) in des::round_keys(key).iter().enumerate() {
                numbers[ROUNDS * n + round] = stored(bits);
            }
        }
        Schedules(numbers)
    }

    /// The same, or zeros where there is no hash.
    pub fn beside(hash: &Option<[u8; 16]>) -> Schedules {
        hash.as_ref().map(Schedules::of).unwrap_or_default()
    }

    /// A challenge under each of the three schedules, joined to 24 octets.
    pub fn response(&self, challenge: &[u8; 8]) -> [u8; 24] {
        let mut out = [0; 24];
        for (block, numbers) in out.chunks_mut(8).zip(self.0.chunks(ROUNDS)) {
            let mut keys = [[0; 48]; ROUNDS];
            for (key, number) in keys.iter_mut().zip(numbers) {
                *key = read(*number);
            }
            block.copy_from_slice(&des::encrypt_with(&keys, challenge));
        }
        out
    }

    /// The numbers as octets, the most significant of each first.
    pub fn octets(&self) -> [u8; OCTETS] {
        let mut out = [0; OCTETS];
        for (octets, number) in out.chunks_mut(8).zip(self.0) {
            octets.copy_from_slice(&number.to_be_bytes());
        }
        out
    }

    /// The numbers that octets are.
    pub fn of_octets(octets: &[u8; OCTETS]) -> Schedules {
        let mut numbers = [0; NUMBERS];
        for (number, octets) in numbers.iter_mut().zip(octets.chunks(8)) {
            *number = octets
                .iter()
                .fold(0, |number, octet| number * 256 + u64::from(*octet));
        }
        Schedules(numbers)
    }
}

/// The three keys of a hash.
fn keys(hash: &[u8; 16]) -> [[u8; 7]; KEYS] {
    let mut padded = [0; 7 * KEYS];
    padded[..16].copy_from_slice(hash);
    let mut out = [[0; 7]; KEYS];
    for (key, octets) in out.iter_mut().zip(padded.chunks(7)) {
        key.copy_from_slice(octets);
    }
    out
}

/// The number that a round key is stored as.
fn stored(bits: &[u8; 48]) -> u64 {
    let mut number = 0;
    for group in GROUPS {
        let six = &bits[GROUP * (group - 1)..GROUP * group];
        let octet = six.iter().fold(0, |value, bit| value * 2 + u64::from(*bit));
        number = number * 256 + octet;
    }
    number
}

/// The round key that a number is read as, whatever it is.
fn read(number: u64) -> [u8; 48] {
    let mut bits = [0; 48];
    for (octet, group) in number.to_be_bytes().iter().zip(GROUPS) {
        for place in 0..GROUP {
            bits[GROUP * (group - 1) + place] = octet >> (GROUP - 1 - place) & 1;
        }
    }
    bits
}

#[cfg(test)]
mod tests {
    use super::*;
    use crate::hashes;

    /// The NT hash of `MyPw`.
    const HASH: [u8; 16] = [
        0xFC, 0x15, 0x6A, 0xF7, 0xED, 0xCD, 0x6C, 0x0E, 0xDD, 0xE3, 0x33, 0x7D, 0x42, 0x7F, 0x4E,
        0xAC,
    ];
    const CH: [u8; 8] = [0x10, 0x2D, 0xB5, 0xDF, 0x08, 0x5D, 0x30, 0x41];

    /// CR10-3.
    #[test]
    fn the_three_keys_of_a_hash() {
        assert_eq!(
            keys(&HASH),
            [
                [0xFC, 0x15, 0x6A, 0xF7, 0xED, 0xCD, 0x6C],
                [0x0E, 0xDD, 0xE3, 0x33, 0x7D, 0x42, 0x7F],
                [0x4E, 0xAC, 0x00, 0x00, 0x00, 0x00, 0x00],
            ]
        );
    }

    /// The first and the last round key of 133457799BBCDFF1, as the example that is handed down
    /// with the standard has them.
    #[test]
    fn a_worked_schedule() {
        let key8 = 0x1334_5779_9BBC_DFF1u64.to_be_bytes();
        let keys = des::round_keys(&des::drop_parity(&key8));
        let groups = |number: u64| {
            let mut out = [0; 8];
            for (octet, group) in number.to_be_bytes().iter().zip(GROUPS) {
                out[group - 1] = *octet;
            }
            out
        };
        assert_eq!(
            groups(stored(&keys[0])),
            [0b000110, 0b110000, 0b001011, 0b101111, 0b111111, 0b000111, 0b000001, 0b110010]
        );
        assert_eq!(
            groups(stored(&keys[15])),
            [0b110010, 0b110011, 0b110110, 0b001011, 0b000011, 0b100001, 0b011111, 0b110101]
        );
    }

    /// Each bit of a round key has one place in the number, and the order is that of the octets.
    #[test]
    fn each_bit_has_its_place() {
        for bit in 0..48 {
            let mut bits = [0; 48];
            bits[bit] = 1;
            let octet = match bit / 6 {
                group @ (0 | 2 | 4 | 6) => group / 2,
                group => 4 + group / 2,
            };
            let number = 1 << (8 * (7 - octet) + 5 - bit % 6);
            assert_eq!((stored(&bits), read(number)), (number, bits));
        }
        assert_eq!(stored(&[1; 48]), 0x3F3F_3F3F_3F3F_3F3F);
        assert_eq!(read(0xC0C0_C0C0_C0C0_C0C0), [0; 48]);
    }

    /// CR10-1, O-10c: the schedules that agree with a hash give its response, whatever stands in
    /// the bits that are not read; a hash that is absent has zeros.
    #[test]
    fn the_response_is_that_of_the_hash() {
        let own = Schedules::of(&HASH);
        assert_eq!(own.response(&CH), hashes::challenge_response(&HASH, &CH));
        assert!(own
            .0
            .iter()
            .all(|number| number & 0xC0C0_C0C0_C0C0_C0C0 == 0));
        let other = Schedules(own.0.map(|number| number | 0xC0C0_C0C0_C0C0_C0C0));
        assert_ne!(other, own);
        assert_eq!(other.response(&CH), own.response(&CH));
        assert_eq!(Schedules::beside(&Some(HASH)), own);
        assert_eq!(Schedules::beside(&None).0, [0; 48]);
        assert_eq!(Schedules::of(&[0; 16]), Schedules::default());
    }

    /// Each of the three has its third of the response, and each round counts.
    #[test]
    fn each_number_counts() {
        let own = Schedules::of(&HASH);
        let right = own.response(&CH);
        for place in 0..NUMBERS {
            let mut other = own;
            other.0[place] ^= 1;
            let response = other.response(&CH);
            for third in 0..3 {
                let range = 8 * third..8 * third + 8;
                assert_eq!(response[range.clone()] != right[range], third == place / 16);
            }
        }
    }

    #[test]
    fn numbers_and_octets() {
        let mut numbers = [0; 48];
        for (place, number) in numbers.iter_mut().enumerate() {
            *number = 0xFEDC_BA98_7654_3210 ^ place as u64;
        }
        let octets = Schedules(numbers).octets();
        assert_eq!(
            octets[..8],
            [0xFE, 0xDC, 0xBA, 0x98, 0x76, 0x54, 0x32, 0x10]
        );
        assert_eq!(
            octets[376..],
            [0xFE, 0xDC, 0xBA, 0x98, 0x76, 0x54, 0x32, 0x3F]
        );
        assert_eq!(Schedules::of_octets(&octets), Schedules(numbers));
    }
}
