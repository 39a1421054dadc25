//! Packets with the code and the identifier last answered, and packets that nearly have them. What
//! they draw must agree, and must be what the case was made for.

use crate::both::Boxes;
use crate::packets;
use crate::random::Random;
use crate::run::Seen;
use reference::authenticator::{Account, Phase};
use reference::packet;

/// A packet that was judged, and what it drew.
pub struct Answered {
    pub packet: Vec<u8>,
    pub reply: Vec<u8>,
    pub reason: u16,
}

/// The kinds that are drawn.
pub const KINDS: [&str; 10] = [
    "repeat: the same packet",
    "repeat: damaged",
    "repeat: other contents",
    "repeat: Length 4",
    "no repeat: a small buffer",
    "no repeat: a bad frame",
    "no repeat: both",
    "no repeat: an old packet",
    "no repeat: another code",
    "no repeat: another identifier",
];

/// When they are drawn.
pub const TIMES: [&str; 3] = ["a Response awaited", "a change awaited", "ended"];

fn time(boxes: &Boxes) -> &'static str {
    TIMES[match boxes.theirs.phase {
        Phase::Response => 0,
        Phase::Change(_) => 1,
        Phase::Ended => 2,
    }]
}

/// The refusal of a whole packet that is neither a repeat nor awaited.
fn refusal(boxes: &Boxes, packet: &[u8]) -> u8 {
    let awaited = match boxes.theirs.phase {
        Phase::Response => packet::RESPONSE,
        Phase::Change(_) => boxes.theirs.change.code(),
        Phase::Ended => return 1,
    };
    if packet[0] != awaited {
        return 4;
    }
    assert_ne!(packet[1], boxes.theirs.id, "the packet is awaited");
    5
}

/// A frame that is refused with 3.
fn break_frame(random: &mut Random, packet: &mut Vec<u8>) {
    match random.below(3) {
        0 => packet.truncate(random.below(4)),
        1 => packets::set_length(packet, random.below(4)),
        _ => {
            let length = packet.len() + random.between(1, 2_000);
            packets::set_length(packet, length);
        }
    }
}

/// A packet of a kind, the size of its reply buffer, and the refusal that it is to draw. None where
/// there is no such packet.
fn drawn(
    random: &mut Random,
    kind: usize,
    boxes: &Boxes,
    answered: &[Answered],
) -> Option<(Vec<u8>, usize, u8)> {
    let (last, before) = answered.split_last()?;
    let mut packet = last.packet.clone();
    let mut size = random.between(17, 40);
    let mut refused = 0;
    match kind {
        0 => {}
        1 => {
            for _ in 0..random.between(1, 8) {
                let at = random.between(4, packet.len() - 1);
                packet[at] ^= 1 << random.below(8);
            }
        }
        2 | 3 => {
            let more = random.below_any(&[8, 80, 400, 1200]);
            packet.truncate(2);
            packet.extend(random.octets(2 + more));
            let length = if kind == 2 {
                4 + random.below(more + 1)
            } else {
                4
            };
            packets::set_length(&mut packet, length);
        }
        4 => (size, refused) = (random.below(17), 2),
        5 | 6 => {
            break_frame(random, &mut packet);
            refused = 3;
            if kind == 6 {
                (size, refused) = (random.below(17), 2);
            }
        }
        7 => {
            let old = random.below(before.len().max(1));
            packet = before.get(old)?.packet.clone();
            refused = refusal(boxes, &packet);
        }
        8 => {
            let other = random.between(1, 255) as u8;
            packet[0] = random.pick(&[packet[0] ^ 4, packet[0].wrapping_add(other)]);
            refused = refusal(boxes, &packet);
        }
        _ => {
            // the next one may be the awaited one
            let any = random.between(2, 255) as u8;
            packet[1] = packet[1].wrapping_add(random.pick(&[2, 254, 255, any]));
            refused = refusal(boxes, &packet);
        }
    }
    Some((packet, size, refused))
}

/// Some such packets, with any record. None of them is judged, and nothing moves.
pub fn some(
    random: &mut Random,
    boxes: &mut Boxes,
    record: Option<&Account>,
    answered: &[Answered],
    seen: &mut Seen,
) {
    for _ in 0..random.pick(&[0, 1, 2, 4]) {
        let kind = random.below(KINDS.len());
        let Some((packet, size, refused)) = drawn(random, kind, boxes, answered) else {
            continue;
        };
        let another = packets::account(random, boxes.theirs.limit);
        let record = random.pick(&[None, record, Some(&another)]);
        let passed = random.octets(size);
        let (mut ours, mut theirs) = (passed.clone(), passed.clone());
        let before = boxes.ours;
        let outcome = boxes.step(&packet, record, &mut ours, &mut theirs);
        seen.note(format!("{}, {}", KINDS[kind], time(boxes)));
        assert_eq!(boxes.ours, before, "the conversation stays");
        assert_eq!(outcome.handed, None, "no record, and so no count");
        assert_eq!(outcome.fault, 0, "no fault, of a repeated 709 neither");
        assert_eq!(outcome.refusal, refused, "{}", KINDS[kind]);
        assert_eq!(outcome.repeated, refused == 0, "{}", KINDS[kind]);
        if outcome.repeated {
            let last = &answered[answered.len() - 1];
            let behind = &passed[last.reply.len()..];
            assert_eq!(ours, [&last.reply, behind].concat(), "the same reply");
            assert_eq!(outcome.reason, last.reason);
        }
    }
}
