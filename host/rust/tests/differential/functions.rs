//! Ciphers, hashes and the peer's writers, with sizes on both sides of every limit.

use crate::both::{plain, Peers};
use crate::packets;
use crate::random::Random;
use crate::run::{run, Seen};
use mschap::{sys, LmHash, Password};
use reference::{des, hashes, md4, rc4};

fn ciphers(random: &mut Random) {
    let (key, block) = (random.array(), random.array());
    let sealed = mschap::des_encrypt(&key, &block);
    assert_eq!(sealed, Ok(des::encrypt(&key, &block)));
    let opened = mschap::des_decrypt(&key, &block);
    assert_eq!(opened, Ok(des::decrypt(&key, &block)));

    let size = random.below_any(&[70, 300, 4200]);
    let input = random.octets(size);
    assert_eq!(plain(mschap::md4(&input)), md4::md4(&input));

    let size = random.below_any(&[2, 20, 260]);
    let key = random.octets(size);
    let mut ours = input.clone();
    let mut theirs = input;
    let answer = plain(mschap::rc4(&key, &mut ours));
    assert_eq!(answer, rc4::rc4(&key, &mut theirs));
    assert_eq!(ours, theirs);
}

fn hashes_agree(random: &mut Random) {
    let size = random.below_any(&[30, 520]);
    let password = random.octets(size);
    let ours = Password::from_utf16_bytes(&password).and_then(|ours| ours.nt_hash());
    assert_eq!(plain(ours.map(|hash| hash.0)), hashes::nt_hash(&password));
    let size = random.below(18);
    let password = random.octets(size);
    let ours = LmHash::of(&password).map(|hash| hash.0);
    assert_eq!(plain(ours), hashes::lm_hash(&password));
    let (hash, challenge) = (random.array(), random.array());
    assert_eq!(
        mschap::challenge_response(&hash, &challenge),
        Ok(hashes::challenge_response(&hash, &challenge))
    );
}

/// At times an odd password, or one that is too long.
fn any_password(random: &mut Random) -> Vec<u8> {
    let mut password = packets::password(random);
    if random.chance(10) {
        password.push(0);
    } else if random.chance(5) {
        password.resize(514, 1);
    }
    password
}

fn response(random: &mut Random, seen: &mut Seen) {
    let password = any_password(random);
    let name = packets::name(random);
    let size = 54 + name.len() + 20 - random.below(24);
    let mut out = random.octets(size);
    let answer = Peers::drawn(random).write_response(&password, &name, &mut out);
    note(answer, "response", seen);
}

fn change(random: &mut Random, seen: &mut Seen) {
    let (old, new) = (any_password(random), any_password(random));
    let filler: [u8; sys::FILLER_SIZE] = random.array();
    let size = random.pick(&[0, 1117, 1118, 1118, 1118, 1119, 1300]);
    let mut out = random.octets(size);
    let answer = Peers::drawn(random).write_change(&old, &new, &filler, &mut out);
    note(answer, "change", seen);
}

fn change_1(random: &mut Random, seen: &mut Seen) {
    let (old, new) = (any_password(random), any_password(random));
    let size = random.pick(&[0, 71, 72, 72, 72, 73, 100]);
    let mut out = random.octets(size);
    let answer = Peers::drawn(random).write_change_1(&old, &new, &mut out);
    note(answer, "version 1 change", seen);
}

fn note(answer: Result<usize, u8>, what: &str, seen: &mut Seen) {
    seen.note(match answer {
        Ok(_) => format!("{what} written"),
        Err(refusal) => format!("{what} refused {refusal}"),
    });
}

#[test]
fn functions_agree() {
    let seen = run("functions", 50_000, |random, seen| match random.below(5) {
        0 => ciphers(random),
        1 => hashes_agree(random),
        2 => response(random, seen),
        3 => change_1(random, seen),
        _ => change(random, seen),
    });
    seen.expect(&[
        "response written",
        "response refused 8",
        "response refused 9",
        "response refused 10",
        "change written",
        "change refused 8",
        "change refused 9",
        "version 1 change written",
        "version 1 change refused 8",
        "version 1 change refused 9",
    ]);
}
