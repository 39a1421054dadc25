//! Lockout over whole runs of conversations with one account (request 2026-09): a guesser hangs up
//! at any time and calls back, the owner comes in between, and the record that was handed out last
//! is passed with the next packet. Both implementations must agree in each step, and what they
//! agree in must be what the request claims, by the number of replies and of wrong tries alone: the
//! count in the record is not looked at.

use crate::both::{our_account, their_account, Boxes, Outcome, Peers};
use crate::faults;
use crate::packets;
use crate::random::Random;
use crate::repeats::{self, Answered};
use crate::run::{run, Seen};
use crate::series;
use mschap::{sys, LmHash, Password};
use reference::authenticator::{Account, Change, Entry, Phase};
use reference::message::Call;

/// An account and the passwords behind it.
struct Owner {
    password: Vec<u8>,
    lm_password: Vec<u8>,
    /// The record that was handed out last.
    record: Account,
}

/// A password that no other one here is like.
fn password(random: &mut Random) -> Vec<u8> {
    let size = 2 * random.between(5, 9);
    random.octets(size)
}

/// An LM password of octets that LM does not change, so that no two are alike.
fn lm_password(random: &mut Random) -> Vec<u8> {
    let size = random.between(8, 14);
    let octets = random.octets(size);
    octets.into_iter().map(|octet| octet | 0x80).collect()
}

fn nt_hash(password: &[u8]) -> [u8; 16] {
    let password = Password::from_utf16_bytes(password).expect("a password");
    password.nt_hash().expect("a hash").0
}

/// What a valid Response draws where the account is not locked; 0 is Success.
fn reason_of(account: &Account) -> u16 {
    let marks = [
        (account.disabled, 647),
        (account.hours, 646),
        (account.no_dialin, 649),
        (account.expired, 648),
    ];
    let first = marks.into_iter().find(|(mark, _)| *mark);
    first.map_or(0, |(_, reason)| reason)
}

impl Owner {
    fn new(random: &mut Random) -> Owner {
        let (password, lm_password) = (password(random), lm_password(random));
        let kind = random.below(10);
        let mark = random.below(20);
        let entry = Entry {
            nt: (kind < 9).then(|| nt_hash(&password)),
            lm: (kind > 4).then(|| LmHash::of(&lm_password).expect("a password").0),
            disabled: mark == 0,
            hours: mark == 1,
            no_dialin: mark == 2,
            expired: random.chance(20),
            failures: 0,
        };
        Owner {
            password,
            lm_password,
            record: entry.keyed(),
        }
    }

    /// What was handed out is stored, and read again after a restart.
    fn stored(&mut self, handed: Option<Account>, random: &mut Random, seen: &mut Seen) {
        self.record = handed.unwrap_or(self.record);
        if random.chance(10) {
            let bytes = our_account(&self.record).to_bytes().expect("a record");
            let read = mschap::Account::from_bytes(&bytes).expect("a record");
            assert_eq!(read.as_ref().map(their_account), Some(self.record));
            self.record = their_account(&read.expect("an account"));
            seen.note("a restart");
        }
    }
}

/// What is known of the run without the record: the claims are about these.
#[derive(Clone, Copy, Default)]
struct Tally {
    /// The judged Responses in a row that drew 691 since the count was set to 0 last.
    drew_691: usize,
    /// The count at the start, or 0 from then on, and the tries since that were not right.
    not_right: usize,
}

/// A Response in a conversation, and whether it is right: it is of the account's password, in a
/// form that this conversation judges.
struct Try {
    packet: Vec<u8>,
    right: bool,
    what: &'static str,
}

fn one_try(random: &mut Random, boxes: &Boxes, peers: &mut Peers, owner: &Owner) -> Try {
    let Account { nt, lm, .. } = owner.record;
    let judges_lm = boxes.theirs.lm && lm.is_some();
    let size = random.pick(&[1, 4, 9, 30]);
    let name = random.octets(size);
    let right_one = random.chance(35);
    let (packet, right, what) = match random.below(10) {
        0..=5 => {
            let other = password(random);
            let password = if right_one { &owner.password } else { &other };
            let packet = series::response(peers, password, &name, random);
            (packet, right_one && nt.is_some(), "NT")
        }
        kind => {
            let other = lm_password(random);
            let password = if right_one {
                &owner.lm_password
            } else {
                &other
            };
            let flag = u8::from(kind > 7);
            let packet = series::lm_response(peers, password, &name, flag, random);
            let counts = judges_lm && (flag == 0 || nt.is_none());
            let what = if judges_lm {
                "LM"
            } else {
                "LM, off or no hash"
            };
            (packet, right_one && counts, what)
        }
    };
    Try {
        packet,
        right,
        what,
    }
}

/// Both boxes take a packet, each with a buffer of the same bytes.
fn take(
    random: &mut Random,
    boxes: &mut Boxes,
    packet: &[u8],
    record: Option<&Account>,
) -> (Outcome, Vec<u8>, Vec<u8>) {
    let size = random.between(17, 30);
    let mut ours = random.octets(size);
    let mut theirs = ours.clone();
    let outcome = boxes.step(packet, record, &mut ours, &mut theirs);
    ours.truncate(outcome.written);
    theirs.truncate(outcome.written);
    (outcome, ours, theirs)
}

/// A judged Response, against the claims.
fn claim(
    limit: u8,
    tally: &mut Tally,
    before: &Account,
    right: bool,
    outcome: &Outcome,
    seen: &mut Seen,
) {
    let limit = usize::from(limit);
    // after so many that drew 691, every further one does
    if tally.drew_691 >= limit {
        assert_eq!(outcome.reason, 691, "after {} of {limit}", tally.drew_691);
        seen.note(if right {
            "right, and stopped"
        } else {
            "wrong, and stopped"
        });
    }
    // and no sooner: below the limit the right password is answered as it should be
    if right && tally.not_right < limit {
        assert_eq!(
            outcome.reason,
            reason_of(before),
            "{} wrong",
            tally.not_right
        );
        seen.note(format!("right, and {}", outcome.reason));
        if tally.not_right + 1 == limit {
            seen.note("right, with the last try");
        }
    } else {
        assert_eq!(outcome.reason, 691, "{} of {limit} wrong", tally.not_right);
    }
    let handed = outcome.handed.expect("a record");
    let counted = Account {
        failures: handed.failures,
        ..*before
    };
    assert_eq!(handed, counted, "its count alone");
    if outcome.reason == 691 {
        tally.drew_691 += 1;
        tally.not_right += usize::from(!right);
    } else {
        *tally = Tally::default();
    }
    let failures = usize::from(handed.failures);
    assert_eq!(failures, tally.not_right.min(255), "the count");
}

/// One conversation, from the Challenge on.
struct Talk {
    boxes: Boxes,
    peers: Peers,
    judged: Vec<Answered>,
}

impl Talk {
    /// What is refused or a repeat counts for nothing, whatever record goes with it.
    fn nothing(&mut self, random: &mut Random, owner: &Owner, seen: &mut Seen) {
        let record = Some(&owner.record);
        repeats::some(random, &mut self.boxes, record, &self.judged, seen);
        if random.chance(10) {
            let awaited = self.boxes.theirs.id;
            let other = awaited.wrapping_add(random.between(3, 200) as u8);
            let (outcome, ..) = take(random, &mut self.boxes, &[2, other, 0, 4], record);
            assert!(!outcome.is_judged());
            assert_eq!(outcome.handed, None);
        }
    }

    /// A Response, right or not. Gives what it drew.
    fn respond(
        &mut self,
        random: &mut Random,
        owner: &mut Owner,
        tally: &mut Tally,
        seen: &mut Seen,
    ) -> Option<Call> {
        let Try {
            packet,
            right,
            what,
        } = one_try(random, &self.boxes, &mut self.peers, owner);
        if random.chance(5) {
            // the same packet where no account is found: no record is handed out
            let mut boxes = self.boxes.copy();
            let (outcome, ..) = take(random, &mut boxes, &packet, None);
            assert_eq!((outcome.reason, outcome.handed), (691, None));
            seen.note("nobody");
        }
        let before = owner.record;
        let (outcome, ours, theirs) = take(random, &mut self.boxes, &packet, Some(&before));
        assert!(outcome.is_judged());
        let word = if right { "right" } else { "wrong" };
        seen.note(format!("{what}, {word}"));
        let limit = self.boxes.theirs.limit;
        claim(limit, tally, &before, right, &outcome, seen);
        owner.stored(outcome.handed, random, seen);
        self.read(packet, &outcome, ours, &theirs)
    }

    /// A change, which is accepted or not. Gives what it drew.
    fn change(
        &mut self,
        random: &mut Random,
        owner: &mut Owner,
        tally: &mut Tally,
        seen: &mut Seen,
    ) -> Option<Call> {
        let new = password(random);
        let version = self.boxes.theirs.change;
        let mut packet = series::change(&mut self.peers, version, &owner.password, &new, random);
        if random.chance(30) {
            match version {
                // the old hash: what else may be spoiled need not be a fault
                Change::One => packet[36 + random.below(16)] ^= 1 << random.below(8),
                Change::Two => faults::spoil(random, &mut packet, new.len()),
            }
        }
        let passed = random.chance(50).then_some(&owner.record);
        let (outcome, ours, theirs) = take(random, &mut self.boxes, &packet, passed);
        assert!(outcome.is_judged());
        if let Some(changed) = outcome.handed {
            assert_eq!((changed.nt, changed.lm), (Some(nt_hash(&new)), None));
            assert_eq!((changed.failures, changed.expired), (0, false));
            owner.password = new;
            *tally = Tally::default();
            seen.note(format!("changed {version:?}"));
        } else {
            // no failure: the count stays
            assert_eq!(outcome.reason, 709);
            seen.note(format!("not changed {version:?}"));
        }
        owner.stored(outcome.handed, random, seen);
        self.read(packet, &outcome, ours, &theirs)
    }

    /// The peers read the reply. Gives what it calls for; none after Success.
    fn read(
        &mut self,
        packet: Vec<u8>,
        outcome: &Outcome,
        ours: Vec<u8>,
        theirs: &[u8],
    ) -> Option<Call> {
        let call = series::read(&mut self.peers, &ours, theirs);
        self.judged.push(Answered {
            packet,
            reply: ours,
            reason: outcome.reason,
        });
        call
    }
}

/// A conversation, until it ends or somebody hangs up.
fn call(random: &mut Random, limit: u8, owner: &mut Owner, tally: &mut Tally, seen: &mut Seen) {
    let lm = random.pick(&[None, Some(true), Some(true), Some(false)]);
    let (boxes, peers) = series::open_with(random, lm, limit);
    let mut talk = Talk {
        boxes,
        peers,
        judged: Vec::new(),
    };
    let impatience = random.pick(&[5, 20, 50]);
    if tally.drew_691 >= usize::from(limit) {
        seen.note("called back, and stopped");
    }
    while !random.chance(impatience) {
        talk.nothing(random, owner, seen);
        let call = match talk.boxes.theirs.phase {
            Phase::Change(kept) => {
                assert_eq!(kept.failures, 0, "the count of a kept record");
                talk.change(random, owner, tally, seen)
            }
            _ => talk.respond(random, owner, tally, seen),
        };
        if !matches!(call, Some(Call::Retry | Call::Change2 | Call::Change1)) {
            talk.nothing(random, owner, seen);
            return;
        }
    }
    seen.note("hung up");
}

/// A run of conversations with one account and one limit. Now and then its keeper unlocks it, or
/// its password grows old.
fn conversations(random: &mut Random, seen: &mut Seen) {
    let limit = random.pick(&[1, 1, 2, 2, 3, 3, 4, 5, 6, 8, 10, 12, 20, 254, 255]);
    let mut owner = Owner::new(random);
    let mut tally = Tally::default();
    if random.chance(30) {
        owner.record.failures = packets::failures(random, limit);
        tally.not_right = owner.record.failures.into();
    }
    for _ in 0..random.between(1, 14) {
        call(random, limit, &mut owner, &mut tally, seen);
        owner.record.expired |= random.chance(5);
        if random.chance(4) {
            let mut record = our_account(&owner.record).to_bytes().expect("a record");
            assert_eq!(sys::set_failures(&mut record, 0), sys::OK);
            let unlocked = mschap::Account::from_bytes(&record).expect("a record");
            owner.record = their_account(&unlocked.expect("an account"));
            tally = Tally::default();
            seen.note("unlocked");
        }
        seen.note("conversations");
    }
}

#[test]
fn guessers_are_stopped() {
    let seen = run("lockout", 40_000, conversations);
    for (count, what) in [
        (250_000, "conversations"),
        (100_000, "hung up"),
        (50_000, "called back, and stopped"),
        (20_000, "right, and stopped"),
        (50_000, "wrong, and stopped"),
        (20_000, "right, and 0"),
        (1_000, "right, and 646"),
        (1_000, "right, and 647"),
        (1_000, "right, and 649"),
        (5_000, "right, and 648"),
        (5_000, "right, with the last try"),
        (20_000, "NT, right"),
        (20_000, "NT, wrong"),
        (5_000, "LM, right"),
        (5_000, "LM, wrong"),
        (10_000, "LM, off or no hash, wrong"),
        (1_000, "changed One"),
        (1_000, "changed Two"),
        (500, "not changed One"),
        (500, "not changed Two"),
        (5_000, "a restart"),
        (5_000, "unlocked"),
        (5_000, "nobody"),
    ] {
        seen.at_least(count, what);
    }
}

/// A rightful user with a count of n and k mistyped passwords: below the limit the right one gets
/// in, with k + 1 packets judged, or k + 2 where it has expired; at it and over it the right one
/// draws 691 as the others do, octet for octet as an unknown account draws it.
fn rightful(random: &mut Random, seen: &mut Seen) {
    let limit = packets::limit(random);
    let lm = random.pick(&[None, Some(true), Some(false)]);
    let (mut boxes, mut peers) = series::open_with(random, lm, limit);
    let k = random.between(0, usize::from(boxes.theirs.retries));
    let n = match random.below(3) {
        0 => limit.saturating_sub(k as u8),
        1 => limit.saturating_sub(k as u8 + 1),
        _ => packets::failures(random, limit),
    };
    let mut owner = Owner::new(random);
    let entry = Entry {
        nt: Some(nt_hash(&owner.password)),
        expired: owner.record.expired,
        failures: n,
        ..Entry::default()
    };
    owner.record = entry.keyed();
    let mut unknown = boxes.copy();
    let mut judged: Vec<Answered> = Vec::new();
    for number in 0..=k {
        repeats::some(random, &mut boxes, Some(&owner.record), &judged, seen);
        let mistyped = password(random);
        let right = number == k;
        let password = if right { &owner.password } else { &mistyped };
        let packet = series::response(&mut peers, password, b"DOM\\User", random);
        let (outcome, ours, theirs) = take(random, &mut boxes, &packet, Some(&owner.record));
        let (of_nobody, same, _) = take(random, &mut unknown, &packet, None);
        assert!(outcome.is_judged());
        let is_below = usize::from(n) + k < usize::from(limit);
        let expected = match (right && is_below, owner.record.expired) {
            (true, true) => 648,
            (true, false) => 0,
            (false, _) => 691,
        };
        assert_eq!(outcome.reason, expected, "{n} and {k} of {limit}");
        if expected == 691 {
            assert_eq!((&ours, outcome.reason), (&same, of_nobody.reason));
            assert_eq!(boxes.ours, unknown.ours, "the same conversation");
        }
        owner.stored(outcome.handed, random, seen);
        series::read(&mut peers, &ours, &theirs);
        judged.push(Answered {
            packet,
            reply: ours,
            reason: outcome.reason,
        });
        if right {
            let sum = usize::from(n) + k;
            let by = sum.cmp(&usize::from(limit));
            seen.note(format!("n + k is {by:?} the limit"));
            if sum + 1 == usize::from(limit) {
                seen.note("n + k is one below the limit");
            }
        }
    }
    let mut packets = k + 1;
    if let Phase::Change(_) = boxes.theirs.phase {
        let new = password(random);
        let version = boxes.theirs.change;
        let packet = series::change(&mut peers, version, &owner.password, &new, random);
        let (outcome, ours, theirs) = take(random, &mut boxes, &packet, None);
        assert_eq!((outcome.refusal, outcome.reason), (0, 0));
        owner.stored(outcome.handed, random, seen);
        assert_eq!(series::read(&mut peers, &ours, &theirs), None);
        judged.push(Answered {
            packet,
            reply: ours,
            reason: 0,
        });
        packets += 1;
        seen.note(format!("k + 2 packets, version {version:?}"));
    }
    assert_eq!(judged.len(), packets);
    if judged[judged.len() - 1].reason == 0 {
        assert_eq!(owner.record.failures, 0);
    }
}

#[test]
fn rightful_users_get_in() {
    let seen = run("lockout, the owner", 60_000, rightful);
    for (count, what) in [
        (15_000, "n + k is Less the limit"),
        (10_000, "n + k is one below the limit"),
        (8_000, "n + k is Equal the limit"),
        (5_000, "n + k is Greater the limit"),
        (1_000, "k + 2 packets, version One"),
        (2_000, "k + 2 packets, version Two"),
    ] {
        seen.at_least(count, what);
    }
}
