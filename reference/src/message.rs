//! The reader of a Failure message, octet by octet.

/// The most octets of a message.
pub const LIMIT: usize = 256;

/// The fields read from a message.
#[derive(Clone, Copy, Debug, PartialEq, Eq)]
pub struct Fields {
    /// The error code, below 10^10.
    pub e: u64,
    /// 1 where a retry is allowed; 0 where missing.
    pub r: u8,
    /// The new challenge, where given.
    pub c: Option<[u8; 8]>,
    /// The change version; 1 where missing.
    pub v: u64,
}

/// What a failure calls for.
#[derive(Clone, Copy, Debug, PartialEq, Eq)]
pub enum Call {
    /// Another Response: 691 and R=1.
    Retry,
    /// A version 2 change: 648 and V of at least 2.
    Change2,
    /// A version 1 change: 648 and V below 2.
    Change1,
    /// Nothing more.
    End,
}

impl Fields {
    /// What these fields call for.
    pub fn call(&self) -> Call {
        match (self.e, self.r, self.v) {
            (691, 1, _) => Call::Retry,
            (648, _, 0..=1) => Call::Change1,
            (648, _, _) => Call::Change2,
            _ => Call::End,
        }
    }
}

/// The four kinds of field.
#[derive(Clone, Copy)]
enum Kind {
    E,
    R,
    C,
    V,
}

/// Where the reader stands.
#[derive(Clone, Copy)]
enum State {
    /// At the start of a word.
    Start,
    /// In a field, behind its letter.
    Letter(Kind),
    /// In a field, behind the equals sign: the digits read so far, as a number, and their count.
    Digits(Kind, u64, usize),
    /// In text to be skipped, up to the next space.
    Text,
}

/// The first well-formed field of each kind.
#[derive(Default)]
struct Found {
    e: Option<u64>,
    r: Option<u64>,
    c: Option<u64>,
    v: Option<u64>,
}

/// Reads a message: refusal 11 where it has more than 256 octets or no well-formed E.
pub fn read(message: &[u8]) -> Result<Fields, u8> {
    if message.len() > LIMIT {
        return Err(11);
    }
    let mut found = Found::default();
    let mut state = State::Start;
    for &octet in message {
        state = if octet == b' ' {
            end_of_word(state, &mut found);
            State::Start
        } else {
            inside_word(state, octet)
        };
    }
    end_of_word(state, &mut found);
    Ok(Fields {
        e: found.e.ok_or(11)?,
        r: found.r.unwrap_or(0) as u8,
        c: found.c.map(u64::to_be_bytes),
        v: found.v.unwrap_or(1),
    })
}

/// The state after one more octet of a word.
fn inside_word(state: State, octet: u8) -> State {
    match (state, octet) {
        (State::Start, b'E') => State::Letter(Kind::E),
        (State::Start, b'R') => State::Letter(Kind::R),
        (State::Start, b'C') => State::Letter(Kind::C),
        (State::Start, b'V') => State::Letter(Kind::V),
        (State::Letter(kind), b'=') => State::Digits(kind, 0, 0),
        (State::Digits(kind, value, count), _) => match digit(kind, octet) {
            Some(digit) if count < most(kind) => {
                State::Digits(kind, value * base(kind) + digit, count + 1)
            }
            _ => State::Text,
        },
        _ => State::Text,
    }
}

/// Takes note of a field that ends here, if it has its digits and is the first of its kind.
fn end_of_word(state: State, found: &mut Found) {
    if let State::Digits(kind, value, count) = state {
        if count >= least(kind) {
            let place = match kind {
                Kind::E => &mut found.e,
                Kind::R => &mut found.r,
                Kind::C => &mut found.c,
                Kind::V => &mut found.v,
            };
            place.get_or_insert(value);
        }
    }
}

/// The value of a digit of this kind of field.
fn digit(kind: Kind, octet: u8) -> Option<u64> {
    match (kind, octet) {
        (Kind::E | Kind::V | Kind::C, b'0'..=b'9') => Some(u64::from(octet - b'0')),
        (Kind::C, b'A'..=b'F') => Some(u64::from(octet - b'A') + 10),
        (Kind::C, b'a'..=b'f') => Some(u64::from(octet - b'a') + 10),
        (Kind::R, b'0'..=b'1') => Some(u64::from(octet - b'0')),
        _ => None,
    }
}

fn base(kind: Kind) -> u64 {
    match kind {
        Kind::C => 16,
        _ => 10,
    }
}

/// The most digits of this kind of field.
fn most(kind: Kind) -> usize {
    match kind {
        Kind::E | Kind::V => 10,
        Kind::R => 1,
        Kind::C => 16,
    }
}

/// The fewest digits of this kind of field.
fn least(kind: Kind) -> usize {
    match kind {
        Kind::E | Kind::V | Kind::R => 1,
        Kind::C => 16,
    }
}

#[cfg(test)]
mod tests {
    use super::*;

    fn erv(text: &[u8]) -> Option<(u64, u8, u64)> {
        read(text).ok().map(|f| (f.e, f.r, f.v))
    }

    fn call(text: &[u8]) -> Call {
        read(text).unwrap().call()
    }

    #[test]
    fn sizes() {
        let mut text = b"E=691".to_vec();
        text.resize(256, b' ');
        assert_eq!(erv(&text), Some((691, 0, 1)));
        text.push(b' ');
        assert_eq!(read(&text), Err(11));
        assert_eq!(read(b""), Err(11));
    }

    #[test]
    fn words() {
        assert_eq!(read(b"E=691\tR=1"), Err(11));
        assert_eq!(erv(b"  E=691   R=1 "), Some((691, 1, 1)));
        assert_eq!(erv(b"xE=691 E=648"), Some((648, 0, 1)));
        assert_eq!(erv(b"E=69x1E=5 E=648"), Some((648, 0, 1)));
        assert_eq!(erv(b"E=9999999999"), Some((9_999_999_999, 0, 1)));
        assert_eq!(erv(b"E=0000000691"), Some((691, 0, 1)));
        for text in [
            &b"E=00000000691"[..],
            b"E=",
            b"E=+1",
            b"E =5",
            b"E",
            b"e=5",
            b"E=6,",
            b"R=1 V=2",
            b"=5",
        ] {
            assert_eq!(read(text), Err(11));
        }
        assert_eq!(erv(b"E=691 R=12"), Some((691, 0, 1)));
        assert_eq!(erv(b"E=691 R=2 R=1"), Some((691, 1, 1)));
        assert_eq!(erv(b"E=691 E=648 R=0 R=1"), Some((691, 0, 1)));
        assert_eq!(erv(b"e=691 E=5"), Some((5, 0, 1)));
        assert_eq!(erv(b"E=648 R=0 V=3 extra"), Some((648, 0, 3)));
        assert_eq!(erv(b"E=691 R=1 V=2\n"), Some((691, 1, 1)));
        assert_eq!(erv(b"EE=1 E==2 E=3"), Some((3, 0, 1)));
    }

    #[test]
    fn challenges() {
        let c = |text: &[u8]| read(text).unwrap().c;
        let expected = Some([0x01, 0x23, 0x45, 0x67, 0x89, 0xAB, 0xCD, 0xEF]);
        assert_eq!(c(b"E=1 C=0123456789abcdeF"), expected);
        for text in [
            &b"E=1 C=0123456789abcde"[..],
            b"E=1 C=0123456789abcdef01",
            b"E=1 C=0123456789abcdef0",
        ] {
            assert_eq!(c(text), None);
        }
        assert_eq!(c(b"E=1 C=0123456789abcdeg"), None);
        assert_eq!(
            c(b"C=0011223344556677 C=8899AABBCCDDEEFF E=691"),
            Some([0, 0x11, 0x22, 0x33, 0x44, 0x55, 0x66, 0x77])
        );
        assert_eq!(c(b"E=1 C=FFFFFFFFFFFFFFFF"), Some([0xFF; 8]));
    }

    #[test]
    fn calls() {
        assert_eq!(call(b"E=691 R=1 V=2"), Call::Retry);
        assert_eq!(call(b"E=691"), Call::End);
        assert_eq!(call(b"E=646 R=1"), Call::End);
        assert_eq!(call(b"E=648 R=1 V=3"), Call::Change2);
        assert_eq!(call(b"E=648 V=2"), Call::Change2);
        assert_eq!(call(b"E=648 V=0"), Call::Change1);
        assert_eq!(call(b"E=648"), Call::Change1);
        assert_eq!(call(b"E=709 R=1 V=2"), Call::End);
        assert_eq!(call(b"E=5"), Call::End);
    }
}
