//! The readers: Challenge, reply, Failure message, and the parts of a name.

use crate::both::{our_reading, plain, Peers};
use crate::layout;
use crate::packets;
use crate::random::Random;
use crate::run::{run, Seen};
use mschap::{sys, Call, Peer};
use reference::packet;

fn challenge(random: &mut Random, seen: &mut Seen) {
    let mut packet = packets::challenge(random);
    packets::damage(random, &mut packet);
    seen.note(match Peers::read_challenge(&packet, &packet) {
        Ok(_) => "challenge read".to_string(),
        Err(number) => format!("challenge refused {number}"),
    });
}

fn reply_to(mut peers: Peers, packet: &[u8], seen: &mut Seen) {
    let verdict = peers.read_reply(packet, packet);
    seen.note(match verdict.as_ref().map(our_reading) {
        Ok(reading) if reading.call == Call::Nothing => "reply: Success".to_string(),
        Ok(reading) => format!("reply: Failure, {:?}", reading.call),
        Err(number) => format!("reply refused {number}"),
    });
}

fn reply(random: &mut Random, seen: &mut Seen) {
    let peers = Peers::drawn(random);
    let mut packet = match random.below(4) {
        0 => packet::success(peers.last()),
        1 => packet::failure(peers.last(), random.pick(&[691, 648, 709]), 1, 2),
        2 => packets::failure(random, peers.last()),
        _ => packets::noise(random),
    };
    packets::damage(random, &mut packet);
    reply_to(peers, &packet, seen);
}

/// The message alone: its packet is never damaged.
fn message(random: &mut Random, seen: &mut Seen) {
    let peers = Peers::drawn(random);
    let packet = packets::failure(random, peers.last());
    reply_to(peers, &packet, seen);
}

/// A reply to a peer that sent nothing. The bytes that stand for its last packet are drawn, and the
/// reply has their identifier: they have no effect, and stay.
fn early(random: &mut Random, seen: &mut Seen) {
    let mut bytes: [u8; sys::PEER_SIZE] = random.array();
    bytes[..3].copy_from_slice(&[layout::PEER, sys::PEER_LAYOUT, 0]);
    let mut packet = packets::failure(random, bytes[3]);
    packets::damage(random, &mut packet);
    let refusal = packet::frame(&packet).err().unwrap_or(5);
    let mut peer = Peer::from_bytes(&bytes).expect("a peer");
    assert_eq!(plain(peer.read_reply(&packet)), Err(refusal), "{packet:?}");
    assert_eq!(peer.as_bytes(), &bytes);
    seen.note(format!("early reply refused {refusal}"));
}

fn name(random: &mut Random, seen: &mut Seen) {
    let name = packets::name(random);
    let flag = random.below(2) as u8;
    let mut packet = packet::response(
        random.octet(),
        &random.array(),
        &random.array(),
        flag,
        &name,
    );
    packets::damage(random, &mut packet);
    let size = random.below_any(&[4, 300]);
    let home = random.octets(size);

    let domain = packet::domain(&packet, &home);
    assert_eq!(mschap::domain_of(&packet, &home), domain, "{packet:?}");
    let at = place(&packet, &home, domain);
    let ours = (sys::domain_offset(&packet), sys::domain_length(&packet));
    assert_eq!(ours, at, "the domain's place in {packet:?}");

    let length = packet::frame(&packet).map_or(0, |frame| frame.length());
    assert_eq!(sys::packet_length(&packet), length, "{packet:?}");

    let account = packet::account(&packet);
    assert_eq!(mschap::account_of(&packet), account, "{packet:?}");
    let there = place(&packet, &home, account);
    let ours = (sys::account_offset(&packet), sys::account_length(&packet));
    assert_eq!(ours, there, "the account's place in {packet:?}");

    seen.note(match (there, at) {
        ((0, _), _) => "name: no Response",
        (_, (0, _)) => "name: home domain",
        (_, (_, 0)) => "name: empty domain",
        ((_, 0), _) => "name: empty account",
        _ => "name: domain and account",
    });
}

/// Offset and length of what `reference` gave, by where it lies; 0 and 0 for the home domain.
fn place(packet: &[u8], home: &[u8], part: &[u8]) -> (usize, usize) {
    if std::ptr::eq(part, home) {
        return (0, 0);
    }
    let offset = part.as_ptr() as usize - packet.as_ptr() as usize;
    (offset, part.len())
}

#[test]
fn readers_agree() {
    let seen = run("readers", 2_000_000, |random, seen| {
        match random.below(20) {
            0 => early(random, seen),
            1..=5 => challenge(random, seen),
            6..=10 => reply(random, seen),
            11..=15 => message(random, seen),
            _ => name(random, seen),
        }
    });
    seen.expect(&[
        "challenge read",
        "challenge refused 3",
        "challenge refused 11",
        "reply: Success",
        "reply: Failure, Response",
        "reply: Failure, Change",
        "reply: Failure, ChangeVersion1",
        "reply: Failure, End",
        "reply refused 3",
        "reply refused 5",
        "reply refused 11",
        "early reply refused 3",
        "early reply refused 5",
        "name: no Response",
        "name: home domain",
        "name: empty domain",
        "name: empty account",
        "name: domain and account",
    ]);
}
