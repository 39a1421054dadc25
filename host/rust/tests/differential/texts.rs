//! Passwords in UTF-8 and back, against the standard library of Rust: `str::from_utf8`,
//! `encode_utf16` and `String::from_utf16`.

use crate::layout;
use crate::random::Random;
use crate::run::{run, Seen};
use mschap::{sys, Password, Refusal};

const FILL: u8 = 0xa5;
/// The most characters of 16 bits.
const MOST: usize = sys::NT_PASSWORD_MAX / 2;

/// What a text is to give: its characters, the least significant byte first, or a refusal.
fn expected(text: &[u8]) -> Result<Vec<u8>, Refusal> {
    let text = std::str::from_utf8(text).map_err(|_| Refusal::Malformed)?;
    let characters: Vec<u16> = text.encode_utf16().collect();
    match characters.len() {
        0..=MOST => Ok(bytes_of(&characters)),
        _ => Err(Refusal::Input),
    }
}

fn bytes_of(characters: &[u16]) -> Vec<u8> {
    characters.iter().flat_map(|c| c.to_le_bytes()).collect()
}

/// A text is made a password and, if it is one, read again.
fn text(text: &[u8], seen: &mut Seen) {
    let mut password = [FILL; sys::PASSWORD_SIZE];
    let number = sys::make_password(text, &mut password);
    match expected(text) {
        Ok(characters) => {
            assert_eq!(number, sys::OK, "{text:?}");
            assert_eq!(password, layout::password(&characters), "{text:?}");
            read(&password, Ok(text), seen);
            seen.note("text accepted");
        }
        Err(refusal) => {
            assert_eq!(number, refusal.number(), "{text:?}");
            assert_eq!(password, [FILL; sys::PASSWORD_SIZE], "{text:?}");
            seen.note(format!("text refused {number}"));
        }
    }
}

/// A password is read into too little room, into just enough and into more.
fn read(password: &[u8], expected: Result<&[u8], Refusal>, seen: &mut Seen) {
    let needed = expected.map_or(sys::TEXT_MAX, <[u8]>::len);
    for room in [needed.wrapping_sub(1), needed, needed + 1, sys::TEXT_MAX] {
        let Some(mut text) = (room <= sys::TEXT_MAX + 1).then(|| vec![FILL; room]) else {
            continue;
        };
        let mut length = usize::MAX;
        let number = sys::read_password(password, &mut text, &mut length);
        let answer = match expected {
            Ok(_) if room < needed => Err(Refusal::Room),
            other => other,
        };
        match answer {
            Ok(expected) => {
                assert_eq!((number, length), (sys::OK, needed));
                assert_eq!(&text[..needed], expected);
                assert!(text[needed..].iter().all(|byte| *byte == FILL));
            }
            Err(refusal) => {
                assert_eq!((number, length), (refusal.number(), usize::MAX));
                assert!(text.iter().all(|byte| *byte == FILL));
                seen.note(format!("reading refused {number}"));
            }
        }
    }
}

/// Characters in 16 bits are made a password as they are, and read if they are UTF-16.
fn characters(characters: &[u16], seen: &mut Seen) {
    let password = Password::from_utf16(characters).expect("characters");
    let bytes = bytes_of(characters);
    assert_eq!(*password.as_bytes(), layout::password(&bytes));
    assert_eq!(Password::from_utf16_bytes(&bytes), Ok(password.clone()));
    let text = String::from_utf16(characters);
    let expected = text.as_ref().map(|text| text.as_bytes());
    read(
        password.as_bytes(),
        expected.map_err(|_| Refusal::Malformed),
        seen,
    );
    assert_eq!(password.to_text(), text.map_err(|_| Refusal::Malformed));
    seen.note("characters accepted");
}

/// A character: of one, two, three and four bytes alike, and often at the ends of these.
fn character(random: &mut Random) -> char {
    const ENDS: [u32; 14] = [
        0, 0x7f, 0x80, 0x7ff, 0x800, 0xfff, 0x1000, 0xd7ff, 0xe000, 0xfffd, 0xffff, 0x10000,
        0xfffff, 0x10ffff,
    ];
    const RANGES: [(usize, usize); 5] = [
        (0, 0x7f),
        (0x80, 0x7ff),
        (0x800, 0xd7ff),
        (0xe000, 0xffff),
        (0x10000, 0x10ffff),
    ];
    let number = if random.chance(20) {
        random.pick(&ENDS)
    } else {
        let (from, to) = random.pick(&RANGES);
        random.between(from, to) as u32
    };
    char::from_u32(number).expect("a character")
}

fn any_text(random: &mut Random) -> String {
    let count = match random.below(20) {
        0 => random.between(120, 260),
        1 => random.between(250, 260),
        _ => random.below(20),
    };
    let ascii = random.chance(25);
    (0..count)
        .map(|_| match ascii {
            true => char::from(random.below(128) as u8),
            false => character(random),
        })
        .collect()
}

/// A sequence that is close to UTF-8 and is none: overlong forms, surrogates, beyond U+10FFFF, cut
/// short, without its first byte, bytes that UTF-8 never has.
const NEARLY: [&[u8]; 26] = [
    &[0x80],
    &[0xbf],
    &[0xc0, 0x80],
    &[0xc0, 0xaf],
    &[0xc1, 0xbf],
    &[0xc2],
    &[0xc2, 0x41],
    &[0xdf],
    &[0xe0, 0x80, 0x80],
    &[0xe0, 0x9f, 0xbf],
    &[0xe0, 0xa0],
    &[0xe1, 0x80],
    &[0xed, 0xa0, 0x80],
    &[0xed, 0xbf, 0xbf],
    &[0xed, 0xa0, 0x80, 0xed, 0xb0, 0x80],
    &[0xef, 0xbf],
    &[0xf0, 0x80, 0x80, 0x80],
    &[0xf0, 0x8f, 0xbf, 0xbf],
    &[0xf0, 0x90, 0x80],
    &[0xf1, 0x80, 0x80, 0xc0],
    &[0xf4, 0x8f, 0xbf],
    &[0xf4, 0x90, 0x80, 0x80],
    &[0xf5, 0x80, 0x80, 0x80],
    &[0xf8, 0x88, 0x80, 0x80, 0x80],
    &[0xfe],
    &[0xff],
];

fn damage(random: &mut Random, text: &mut Vec<u8>) {
    let size = text.len();
    match random.below(5) {
        0 if size > 0 => text[random.below(size)] = random.octet(),
        1 if size > 0 => text[random.below(size)] ^= 1 << random.below(8),
        2 if size > 0 => {
            text.remove(random.below(size));
        }
        3 => text.truncate(random.below(size + 1)),
        _ => {
            let at = random.below(size + 1);
            let nearly = random.pick(&NEARLY);
            text.splice(at..at, nearly.iter().copied());
        }
    }
}

/// Characters in 16 bits, with surrogates paired and not.
fn any_characters(random: &mut Random) -> Vec<u16> {
    let count = match random.below(20) {
        0 => random.between(200, MOST),
        _ => random.below(20),
    };
    let surrogates = random.pick(&[0, 10, 60]);
    let mut characters: Vec<u16> = Vec::new();
    while characters.len() < count {
        if random.chance(surrogates) {
            characters.push(random.between(0xd7ff, 0xe000) as u16);
        } else {
            let mut buffer = [0; 2];
            characters.extend(&*character(random).encode_utf16(&mut buffer));
        }
    }
    characters.truncate(count);
    characters
}

#[test]
fn texts_agree() {
    let seen = run("texts", 300_000, |random, seen| match random.below(6) {
        0 => text(any_text(random).as_bytes(), seen),
        1..=3 => {
            let mut bytes = any_text(random).into_bytes();
            for _ in 0..random.between(1, 2) {
                damage(random, &mut bytes);
            }
            text(&bytes, seen);
        }
        4 => {
            let size = random.below_any(&[5, 5, 20, 800]);
            text(&random.octets(size), seen);
        }
        _ => characters(&any_characters(random), seen),
    });
    seen.expect(&["text accepted", "text refused 101", "text refused 8"]);
    seen.expect(&[
        "reading refused 9",
        "reading refused 101",
        "characters accepted",
    ]);
}

/// Every character that there is, alone; every character in 16 bits, alone and in a pair with its
/// neighbours; and every sequence of one or two bytes, and of three from some first bytes on.
#[test]
fn each_character_agrees() {
    let mut seen = Seen::default();
    for number in 0..=0x11_0000 {
        if let Some(character) = char::from_u32(number) {
            text(character.encode_utf8(&mut [0; 4]).as_bytes(), &mut seen);
            seen.note("character");
        }
    }
    for number in 0..=0xffff {
        characters(&[number], &mut seen);
    }
    for high in 0xd7fe..=0xe001 {
        for low in [0xd7ff, 0xd800, 0xdbff, 0xdc00, 0xdfff, 0xe000] {
            characters(&[high, low], &mut seen);
            characters(&[low, high], &mut seen);
        }
    }
    for first in 0..=0xff {
        text(&[first], &mut seen);
        for second in 0..=0xff {
            text(&[first, second], &mut seen);
            if matches!(first, 0xc2 | 0xe0 | 0xe1 | 0xed..=0xf5) {
                for third in [0, 0x7f, 0x80, 0xbf, 0xc0, 0xff] {
                    text(&[first, second, third], &mut seen);
                    for fourth in [0x7f, 0x80, 0xbf, 0xc0] {
                        text(&[first, second, third, fourth], &mut seen);
                    }
                }
            }
        }
    }
    for nearly in NEARLY {
        text(nearly, &mut seen);
    }
    assert_eq!(seen.count("character"), 0x11_0000 - 0x800);
}

/// The lengths at the limits: 256 characters of 16 bits, of one to four bytes each.
#[test]
fn the_longest_agree() {
    let mut seen = Seen::default();
    for (character, most) in [('a', 256), ('é', 256), ('€', 256), ('🔑', 128)] {
        for count in [0, 1, most - 1, most, most + 1, 2 * most, 5000] {
            text(character.to_string().repeat(count).as_bytes(), &mut seen);
        }
        for count in [most - 1, most] {
            let mut tail = character.to_string().repeat(count);
            tail.push('🔑');
            text(tail.as_bytes(), &mut seen);
        }
        // too long and not UTF-8: it is not UTF-8
        let mut bytes = character.to_string().repeat(most + 1).into_bytes();
        bytes.push(0xff);
        text(&bytes, &mut seen);
    }
    for odd in [1, 3, 511, 513] {
        let answer = Password::from_utf16_bytes(&vec![0; odd]);
        assert_eq!(answer, Err(Refusal::Input));
    }
    assert_eq!(Password::from_utf16(&[0; MOST + 1]), Err(Refusal::Input));
    assert!(Password::from_utf16(&[0; MOST]).is_ok());
}
