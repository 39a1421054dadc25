//! Random packets, messages, names and accounts, and damage done to packets.

use crate::random::Random;
use reference::authenticator::{Account, Change, Entry};
use reference::packet;

/// The size of a name, often at its limits.
fn name_size(random: &mut Random) -> usize {
    match random.below(20) {
        0 => random.pick(&[0, 1, 2, 255, 256, 257, 300]),
        1 => random.between(0, 270),
        _ => random.between(1, 24),
    }
}

/// A name; a backslash in many.
pub fn name(random: &mut Random) -> Vec<u8> {
    let size = name_size(random);
    let mut name = random.octets(size);
    for _ in 0..random.below(3) {
        if size > 0 {
            let at = random.below(size);
            name[at] = b'\\';
        }
    }
    name
}

/// An NT password: mostly short, at times up to the limit.
pub fn password(random: &mut Random) -> Vec<u8> {
    let characters = match random.below(20) {
        0 => random.pick(&[0, 1, 127, 255, 256]),
        1 => random.between(0, 256),
        _ => random.between(0, 14),
    };
    random.octets(characters * 2)
}

/// A limit, often a small one or one of the highest.
pub fn limit(random: &mut Random) -> u8 {
    match random.below(4) {
        0 => random.between(1, 255) as u8,
        1 => random.pick(&[1, 2, 253, 254, 255]),
        _ => random.between(1, 8) as u8,
    }
}

/// A count of failures, often one next to the limit.
pub fn failures(random: &mut Random, limit: u8) -> u8 {
    match random.below(12) {
        0..=3 => 0,
        4 => 1,
        5 => limit.saturating_sub(2),
        6 | 7 => limit.saturating_sub(1),
        8 => limit,
        9 => limit.saturating_add(1),
        10 => random.pick(&[254, 255]),
        _ => random.octet(),
    }
}

/// The words for a count, by which a test tells that it met it.
pub fn level(failures: u8, limit: u8) -> &'static str {
    match failures {
        255 => "255",
        254 => "254",
        0 => "0",
        _ if failures > limit => "over the limit",
        _ if failures == limit => "the limit",
        _ if failures == limit - 1 => "one below the limit",
        _ => "below the limit",
    }
}

/// All of them.
pub const LEVELS: [&str; 7] = [
    "0",
    "below the limit",
    "one below the limit",
    "the limit",
    "over the limit",
    "254",
    "255",
];

/// An account, for a conversation with this limit.
pub fn account(random: &mut Random, limit: u8) -> Account {
    let entry = Entry {
        failures: failures(random, limit),
        nt: random.chance(85).then(|| random.array()),
        lm: random.chance(50).then(|| random.array()),
        disabled: random.chance(8),
        hours: random.chance(8),
        no_dialin: random.chance(8),
        expired: random.chance(30),
    };
    entry.keyed()
}

/// The change that a conversation awaits.
pub fn change(random: &mut Random) -> Change {
    random.pick(&[Change::One, Change::Two])
}

/// A reply buffer of drawn bytes: nearly always large enough.
pub fn buffer(random: &mut Random) -> Vec<u8> {
    let size = match random.below(25) {
        0 => random.below(17),
        1..=9 => random.between(17, 60),
        _ => 17,
    };
    random.octets(size)
}

/// A Challenge, at times with a name or another size of value.
pub fn challenge(random: &mut Random) -> Vec<u8> {
    let mut packet = packet::challenge(random.octet(), &random.array());
    if random.chance(30) {
        packet[4] = random.pick(&[0, 7, 8, 9, 16, 255]);
    }
    let more = name_size(random);
    packet.extend(random.octets(more));
    let length = packet.len() - if random.chance(50) { 0 } else { more };
    set_length(&mut packet, length);
    packet
}

/// A Failure with a drawn message around its identifier.
pub fn failure(random: &mut Random, id: u8) -> Vec<u8> {
    let mut packet = vec![packet::FAILURE, id, 0, 0];
    packet.extend(message(random));
    let length = packet.len();
    set_length(&mut packet, length);
    packet
}

/// A message: words that are fields, nearly fields, or neither.
pub fn message(random: &mut Random) -> Vec<u8> {
    let mut out = Vec::new();
    let words = if random.chance(3) { 60 } else { 7 };
    for _ in 0..random.below(words) {
        word(random, &mut out);
        match random.below(12) {
            0 => {}
            1 => out.extend(b"  "),
            2 => out.push(random.pick(b"\t\n\0=,")),
            _ => out.push(b' '),
        }
    }
    // around the limit of 256
    if random.chance(4) {
        let size = random.between(254, 258);
        out.resize(size, b' ');
    }
    out
}

fn word(random: &mut Random, out: &mut Vec<u8>) {
    const COMMON: [&str; 11] = [
        "E=691", "E=648", "E=709", "R=1", "R=0", "V=2", "V=3", "V=1", "V=0", "M=no", "E=0691",
    ];
    match random.below(12) {
        0..=6 => out.extend(random.pick(&COMMON).as_bytes()),
        7 => {
            out.extend(b"C=");
            let digits = random.pick(&[16, 16, 16, 16, 15, 17, 0, 32]);
            for _ in 0..digits {
                out.push(random.pick(b"0123456789abcdefABCDEF"));
            }
            if random.chance(5) {
                out.push(random.pick(b"gG:/@`"));
            }
        }
        8 | 9 => {
            out.push(random.pick(b"ERVC"));
            out.push(b'=');
            for _ in 0..random.pick(&[0, 1, 2, 3, 9, 10, 10, 11, 20]) {
                out.push(random.pick(b"0123456789"));
            }
        }
        10 => {
            for _ in 0..random.below(6) {
                out.push(random.pick(b"ERCVM=019af "));
            }
        }
        _ => {
            let size = random.below(6);
            out.extend(random.octets(size));
        }
    }
}

pub fn set_length(packet: &mut [u8], length: usize) {
    packet[2] = (length / 256) as u8;
    packet[3] = length as u8;
}

/// Does no damage, or some, or much.
pub fn damage(random: &mut Random, packet: &mut Vec<u8>) {
    let times = random.pick(&[0, 1, 1, 1, 2, 3]);
    for _ in 0..times {
        once(random, packet);
    }
}

fn once(random: &mut Random, packet: &mut Vec<u8>) {
    let size = packet.len();
    match random.below(11) {
        0 => packet.truncate(random.below(size + 1)),
        1 => {
            let more = random.between(1, 40);
            packet.extend(random.octets(more));
        }
        2 if size >= 4 => {
            let length = usize::from(packet[2]) * 256 + usize::from(packet[3]);
            set_length(packet, (length + 65536 + random.below(9) - 4) % 65536);
        }
        3 if size >= 4 => {
            let length = random.below_any(&[8, 64, 65536]);
            set_length(packet, length);
        }
        4 | 5 if size > 0 => packet[random.below(size)] ^= 1 << random.below(8),
        6 if size > 1 => packet[1] = packet[1].wrapping_add(1),
        7 if size > 0 => packet[0] = random.below(9) as u8,
        8 if size > 53 => packet[random.pick(&[4, 53, 53])] = random.below(4) as u8,
        9 if size > 1117 => packet[random.pick(&[1116, 1117])] = random.below(8) as u8,
        9 if size > 71 => packet[random.pick(&[68, 69, 70, 71, 71])] = random.below(4) as u8,
        10 if size > 0 => {
            for _ in 0..random.between(1, 8) {
                packet[random.below(size)] = random.octet();
            }
        }
        _ => {}
    }
}

/// Bytes that are no packet by design, though some have a frame.
pub fn noise(random: &mut Random) -> Vec<u8> {
    let size = match random.below(10) {
        0 => random.between(0, 1200),
        1 => 1118,
        2 => 72,
        _ => random.between(0, 80),
    };
    let mut packet = random.octets(size);
    if size >= 4 && random.chance(70) {
        packet[0] = random.between(1, 6) as u8;
        set_length(&mut packet, size);
    }
    packet
}
