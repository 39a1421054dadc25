//! RC4.

/// The permutation and its two indices.
#[derive(Clone)]
pub struct Rc4 {
    s: [u8; 256],
    i: usize,
    j: usize,
}

impl Rc4 {
    /// The key schedule; a key of 0 or of more than 256 octets is refusal 8.
    pub fn new(key: &[u8]) -> Result<Rc4, u8> {
        if key.is_empty() || key.len() > 256 {
            return Err(8);
        }
        let mut s = [0u8; 256];
        for (place, octet) in s.iter_mut().enumerate() {
            *octet = place as u8;
        }
        let mut j = 0;
        for i in 0..256 {
            j = (j + usize::from(s[i]) + usize::from(key[i % key.len()])) % 256;
            s.swap(i, j);
        }
        Ok(Rc4 { s, i: 0, j: 0 })
    }

    /// The next octet of the keystream.
    pub fn next_octet(&mut self) -> u8 {
        self.i = (self.i + 1) % 256;
        self.j = (self.j + usize::from(self.s[self.i])) % 256;
        self.s.swap(self.i, self.j);
        let t = (usize::from(self.s[self.i]) + usize::from(self.s[self.j])) % 256;
        self.s[t]
    }
}

/// The data under the key, in place; on refusal 8 the data stay as they were.
pub fn rc4(key: &[u8], data: &mut [u8]) -> Result<(), u8> {
    let mut state = Rc4::new(key)?;
    for octet in data {
        *octet ^= state.next_octet();
    }
    Ok(())
}

/// Sixteen octets of the keystream from an offset on.
pub fn keystream(key: &[u8], offset: usize) -> Result<[u8; 16], u8> {
    let mut state = Rc4::new(key)?;
    for _ in 0..offset {
        state.next_octet();
    }
    let mut out = [0u8; 16];
    for octet in &mut out {
        *octet = state.next_octet();
    }
    Ok(out)
}

#[cfg(test)]
mod tests {
    use super::*;
    use crate::script::hex;

    #[test]
    fn rfc_6229_first_lines() {
        let ascending: Vec<u8> = (1..=32).collect();
        let lines = [
            (5, "B2396305F03DC027CCC3524A0A1118A8"),
            (7, "293F02D47F37C9B633F2AF5285FEB46B"),
            (8, "97AB8A1BF0AFB96132F2F67258DA15A8"),
            (10, "EDE3B04643E586CC907DC21851709902"),
            (16, "9AC7CC9A609D1EF7B2932899CDE41B97"),
            (24, "0595E57FE5F0BB3C706EDAC8A4B2DB11"),
            (32, "EAA6BD25880BF93D3F5D1E4CA2611D91"),
        ];
        for (size, expected) in lines {
            assert_eq!(
                hex(&keystream(&ascending[..size], 0).unwrap()),
                expected,
                "{size}"
            );
        }
        let second = keystream(&[0x83, 0x32, 0x22, 0x77, 0x2A], 0).unwrap();
        assert_eq!(hex(&second), "80AD97BDC973DF8A2E879E92A497EFDA");
        assert_eq!(
            hex(&keystream(&[1, 2, 3, 4, 5], 16).unwrap()),
            "6982944F18FC82D589C403A47A0D0919"
        );
        assert_eq!(
            hex(&keystream(&[1, 2, 3, 4, 5], 4096).unwrap()),
            "FF25B58995996707E51FBDF08B34D875"
        );
    }

    #[test]
    fn key_sizes() {
        let whole: Vec<u8> = (0..=255).collect();
        let mut data = [0u8; 8];
        rc4(&whole, &mut data).unwrap();
        assert_eq!(hex(&data), "5E2EB7B20D86864F");
        let mut data = [0x55u8; 3];
        assert_eq!(rc4(&[], &mut data), Err(8));
        assert_eq!(rc4(&[1; 257], &mut data), Err(8));
        assert_eq!(data, [0x55; 3]);
        assert_eq!(rc4(&[1; 1], &mut data), Ok(()));
    }
}
