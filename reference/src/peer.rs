//! The peer: it reads Challenge, Success and Failure and writes Response and change.

use crate::hashes;
use crate::message::{self, Call, Fields};
use crate::packet::{self, Change1Fields, ChangeFields};
use crate::{grown, next_identifier};

/// An identifier and a challenge: those of the peer's last packet and last Response, or those
/// that its next packet takes.
#[derive(Clone, Copy, Debug, PartialEq, Eq)]
pub struct Turn {
    /// The identifier.
    pub id: u8,
    /// The challenge.
    pub challenge: [u8; 8],
}

/// What a reply says.
#[derive(Clone, Copy, Debug, PartialEq, Eq)]
pub enum Verdict {
    /// Success, whatever its message.
    Success,
    /// A failure, with the fields read.
    Failure(Fields),
}

/// What a writer gives.
#[derive(Clone, Copy, Debug, PartialEq, Eq)]
pub struct Written {
    /// The refusal's number, or 0.
    pub refusal: u8,
    /// The octets written, 0 on refusal.
    pub written: usize,
}

/// Reads a Challenge: refusal 3, then 11.
pub fn read_challenge(packet: &[u8]) -> Result<Turn, u8> {
    let frame = packet::frame(packet)?;
    if frame.code != packet::CHALLENGE {
        return Err(11);
    }
    Ok(Turn {
        id: frame.id,
        challenge: packet::read_challenge(&frame)?,
    })
}

/// Reads a reply to the packet with the identifier `last`: refusal 3, then 5, then 11.
pub fn read_reply(last: u8, packet: &[u8]) -> Result<Verdict, u8> {
    let frame = packet::frame(packet)?;
    if frame.id != last {
        return Err(5);
    }
    match frame.code {
        packet::SUCCESS => Ok(Verdict::Success),
        packet::FAILURE => Ok(Verdict::Failure(message::read(frame.data)?)),
        _ => Err(11),
    }
}

/// The identifier and challenge of the next packet, from those of the last one and what was read
/// in reply to it; unchanged where nothing more is sent.
pub fn next_turn(last: &Turn, reading: &Result<Verdict, u8>) -> Turn {
    let Ok(Verdict::Failure(fields)) = reading else {
        return *last;
    };
    match fields.call() {
        Call::Retry => Turn {
            id: next_identifier(last.id),
            challenge: fields.c.unwrap_or_else(|| grown(&last.challenge)),
        },
        Call::Change1 | Call::Change2 => Turn {
            id: next_identifier(last.id),
            challenge: last.challenge,
        },
        Call::End => *last,
    }
}

/// Writes a Response made from a password: refusal 8, then 10, then 9.
pub fn write_response(turn: &Turn, password: &[u8], name: &[u8], buffer: &mut [u8]) -> Written {
    written(response_packet(turn, password, name), buffer)
}

/// Writes a version 2 change: refusal 8 for either password, then 12, then 9.
pub fn write_change(
    turn: &Turn,
    old: &[u8],
    new: &[u8],
    filler: &[u8],
    buffer: &mut [u8],
) -> Written {
    written(change_packet(turn, old, new, filler), buffer)
}

/// Writes a version 1 change: refusal 8 for either password, then 9.
pub fn write_change_1(turn: &Turn, old: &[u8], new: &[u8], buffer: &mut [u8]) -> Written {
    written(change_1_packet(turn, old, new), buffer)
}

fn response_packet(turn: &Turn, password: &[u8], name: &[u8]) -> Result<Vec<u8>, u8> {
    let hash = hashes::nt_hash(password)?;
    if name.is_empty() || name.len() > 256 {
        return Err(10);
    }
    let nt = hashes::challenge_response(&hash, &turn.challenge);
    Ok(packet::response(turn.id, &[0; 24], &nt, 1, name))
}

fn change_packet(turn: &Turn, old: &[u8], new: &[u8], filler: &[u8]) -> Result<Vec<u8>, u8> {
    let old_hash = hashes::nt_hash(old)?;
    let new_hash = hashes::nt_hash(new)?;
    let fields = ChangeFields {
        nt_block: hashes::seal(&old_hash, new, filler)?,
        nt_old_under_new: hashes::old_under_new(&old_hash, &new_hash),
        lm_block: [0; 516],
        lm_old_under_new: [0; 16],
        lm_response: [0; 24],
        nt_response: hashes::challenge_response(&new_hash, &turn.challenge),
        flags: 1,
    };
    Ok(packet::change(turn.id, &fields))
}

/// "with bit 0 set, LM fields zero and length 65535".
fn change_1_packet(turn: &Turn, old: &[u8], new: &[u8]) -> Result<Vec<u8>, u8> {
    let old_hash = hashes::nt_hash(old)?;
    let new_hash = hashes::nt_hash(new)?;
    let fields = Change1Fields {
        lm_old: [0; 16],
        lm_new: [0; 16],
        nt_old: hashes::under_challenge(&old_hash, &turn.challenge),
        nt_new: hashes::under_challenge(&new_hash, &turn.challenge),
        length: 65_535,
        flags: 1,
    };
    Ok(packet::change_1(turn.id, &fields))
}

/// Refusal 9 for a buffer smaller than the packet; else the packet at its front.
fn written(packet: Result<Vec<u8>, u8>, buffer: &mut [u8]) -> Written {
    match packet {
        Err(refusal) => Written {
            refusal,
            written: 0,
        },
        Ok(packet) if packet.len() > buffer.len() => Written {
            refusal: 9,
            written: 0,
        },
        Ok(packet) => Written {
            refusal: 0,
            written: packet::put(&packet, buffer),
        },
    }
}
