//! The printed demonstration, `crates/demo/stdout`, by the independent program: each Response is
//! made from the password that the line behind it names, each retry answers the right challenge,
//! each repeat draws the last reply again, LM is judged only where the box was asked for it, each
//! Failure has the V of the change that its box was opened for, each change draws what it should,
//! beside each 709 stands what is wrong with it, and `docs/SLIPS.md` shows no octets that no
//! program has written.

use reference::authenticator::{
    open, step, Account, Answer, Change, Conversation, Entry, Fault, Phase, Terms,
};
use reference::hashes::{challenge_response, lm_hash, nt_hash, old_under_new, under_challenge};
use reference::issued::Issued;
use reference::peer::{write_change, write_change_1, Turn};
use std::fs;
use std::path::Path;

fn read(path: &str) -> String {
    let root = Path::new(env!("CARGO_MANIFEST_DIR")).join("..");
    fs::read_to_string(root.join(path)).unwrap_or_else(|error| panic!("{path}: {error}"))
}

fn octets(digits: &str) -> Vec<u8> {
    let pairs = digits.as_bytes().chunks(2);
    pairs
        .map(|pair| u8::from_str_radix(std::str::from_utf8(pair).unwrap(), 16).unwrap())
        .collect()
}

/// What stands behind the last colon of a line, as octets. A long packet ends in two dots.
fn last_octets(line: &str) -> Vec<u8> {
    octets(line.rsplit(": ").next().unwrap().trim_end_matches('.'))
}

fn eight(found: &[u8]) -> [u8; 8] {
    found.try_into().unwrap()
}

/// A password in ASCII as 16-bit characters.
fn characters(password: &str) -> Vec<u8> {
    password.encode_utf16().flat_map(u16::to_le_bytes).collect()
}

fn hash(password: &str) -> [u8; 16] {
    nt_hash(&characters(password)).unwrap()
}

/// The password that a sentence names, or none.
fn named(sentence: &str) -> Option<&str> {
    let passwords = [
        ("from the right password", "MyPw"),
        ("from a wrong password", "bad"),
        ("from the new password", "MyNewPw"),
    ];
    let found = passwords.iter().find(|(words, _)| sentence.contains(words));
    found.map(|(_, password)| *password)
}

/// The lines of the peer's packets that have the code and the identifier of the one before, in the
/// same conversation. One that is shown in place of another is none.
fn repeats(lines: &[&str]) -> Vec<usize> {
    let mut out = Vec::new();
    let mut last = Vec::new();
    for (place, line) in lines.iter().enumerate() {
        if line.starts_with("   <- Challenge ") || line.starts_with("   In place of that, ") {
            last.clear();
        } else if line.starts_with("   -> ") {
            let packet = last_octets(line);
            if last == packet[..2] {
                out.push(place);
            }
            last = packet[..2].to_vec();
        }
    }
    out
}

#[test]
fn every_response_is_from_the_password_that_is_named() {
    let text = read("crates/demo/stdout");
    let lines: Vec<&str> = text.lines().collect();
    let mut challenge = [0; 8];
    let mut slip = [0; 8];
    let mut first = None;
    let mut compared = 0;
    let repeats = repeats(&lines);
    let mut repeat = false;
    let mut answered_before = [0; 8];
    for (place, (line, behind)) in lines.iter().zip(&lines[1..]).enumerate() {
        if line.starts_with("Slip: ") {
            first = None;
        } else if line.starts_with("   <- Challenge ") {
            challenge = eight(&last_octets(line)[5..13]);
            first.get_or_insert(challenge);
        } else if line.starts_with("   <- Failure ") && behind.contains("R=1") {
            // A repeated Failure calls for the same retry as it did first.
            if !repeat {
                challenge[0] = challenge[0].wrapping_add(23);
            }
        } else if line.starts_with("      right, the next challenge: ") {
            assert_eq!(eight(&last_octets(line)), challenge);
        } else if line.starts_with("      slip,  the next challenge: ") {
            slip = eight(&last_octets(line));
            assert_ne!(slip, challenge);
        } else if line.starts_with("   -> Response ") {
            let packet = last_octets(line);
            repeat = repeats.contains(&place);
            let answered = match behind {
                _ if repeat => answered_before,
                words if words.contains("the slip's challenge") => slip,
                words if words.contains("the first box's challenge") => first.unwrap(),
                _ => challenge,
            };
            let password = named(behind).unwrap_or_else(|| panic!("no password: {behind}"));
            let by_lm = behind.contains("by LM alone");
            let expected = match by_lm {
                true => [0; 24],
                false => challenge_response(&hash(password), &answered),
            };
            assert_eq!(packet[29..53], expected, "{behind}");
            assert_eq!(packet[53], u8::from(!by_lm), "{behind}");
            let lm = match by_lm || behind.contains("the right LM response") {
                true => challenge_response(&lm_hash(b"MyPw").unwrap(), &challenge),
                false => [0; 24],
            };
            assert_eq!(packet[5..29], lm, "{behind}");
            answered_before = answered;
            compared += 1;
        }
    }
    assert_eq!(compared, 45);
}

#[test]
fn every_repeat_draws_the_last_reply() {
    let text = read("crates/demo/stdout");
    let lines: Vec<&str> = text.lines().collect();
    let repeats = repeats(&lines);
    for (place, line) in lines.iter().enumerate() {
        let said = line.contains("A repeat: the box does not judge it");
        assert_eq!(said, place >= 2 && repeats.contains(&(place - 2)), "{line}");
    }
    for place in &repeats {
        let replies = |line: &&&str| line.starts_with("   <- ");
        let before = lines[..*place].iter().rev().find(replies).unwrap();
        assert_eq!(lines[place + 3], *before);
    }
    assert_eq!(repeats.len(), 3);
}

/// The three Responses with the right LM response: beside a wrong NT response at a box that was
/// asked for LM; by LM alone at one that was told nothing of it, and at one that was asked for it.
/// The line behind a Challenge says of a box, by its own conversation, that it judges LM.
#[test]
fn lm_is_judged_where_the_box_was_asked_for_it() {
    let text = read("crates/demo/stdout");
    let lines: Vec<&str> = text.lines().collect();
    let account = Account {
        nt: Some(hash("MyPw")),
        lm: Some(lm_hash(b"MyPw").unwrap()),
        ..Account::default()
    };
    let account = account.keyed();
    let mut told = Vec::new();
    for (place, line) in lines.iter().enumerate() {
        let beside = line.contains("with the right LM response beside it");
        if !beside && !line.contains("by LM alone") {
            continue;
        }
        let challenges = |line: &&str| line.starts_with("   <- Challenge ");
        let opened = lines[..place].iter().rposition(challenges).unwrap();
        let asked = lines[opened + 2]
            .contains("This box was asked for LM")
            .then_some(true);
        let packet = last_octets(lines[place - 1]);
        let challenge = eight(&last_octets(lines[opened])[5..13]);
        let mut issued = Issued {
            list: &mut [0; 8],
            used: 0,
            counts: &mut [0; 256],
        };
        let mut reply = [0; 17];
        let opening = open(
            packet[1],
            &challenge,
            &Terms {
                retries: Some(0),
                lm: asked,
                change: None,
            },
            255,
            &mut issued,
            &mut reply,
        );
        let answer = step(&opening.conversation, &packet, Some(&account), &mut reply);
        assert_eq!(last_octets(lines[place + 1]), reply[..answer.written]);
        told.push((beside, asked, answer.reason));
    }
    let expected = [
        (true, Some(true), 691),
        (false, None, 691),
        (false, Some(true), 0),
    ];
    assert_eq!(told, expected);
    // and no other box was
    let asked = lines
        .iter()
        .filter(|line| line.contains("was asked for LM"));
    assert_eq!(asked.count(), 2);
}

/// The guesser who hangs up and calls back: each Response of that scene is judged by the independent
/// program with the record that it handed out last, in the conversation of the Challenge above it
/// and with the limit that is named. Reply and count are those that are shown; in place of the last
/// one come the first record, and the last one with its count cleared.
#[test]
fn the_count_goes_from_call_to_call() {
    let text = read("crates/demo/stdout");
    let title = "Slip: wrong passwords counted in each conversation alone.\n";
    let (_, scene) = text.split_once(title).unwrap();
    let lines: Vec<&str> = scene.lines().take_while(|line| !line.is_empty()).collect();
    let first = Account {
        nt: Some(hash("MyPw")),
        ..Account::default()
    };
    let first = first.keyed();
    let mut record = first;
    let mut conversation = None;
    let mut opened = None;
    let mut counts = Vec::new();
    for (place, line) in lines.iter().enumerate() {
        if line.starts_with("   <- Challenge ") {
            let packet = last_octets(line);
            let retries = u8::from(opened.is_none());
            let mut issued = Issued {
                list: &mut [0; 16],
                used: 0,
                counts: &mut [0; 256],
            };
            let opening = open(
                packet[1],
                &eight(&packet[5..13]),
                &Terms {
                    retries: Some(retries),
                    ..Terms::default()
                },
                3,
                &mut issued,
                &mut [0; 17],
            );
            assert_eq!(opening.refusal, 0);
            opened = Some(opening.conversation);
            conversation = opened;
        } else if line.starts_with("   In place of that, ") {
            conversation = opened;
            record = match line.contains("the slip") {
                true => first,
                false => Account {
                    failures: 0,
                    ..record
                },
            };
        } else if line.starts_with("   -> Response ") {
            let mut reply = [0; 17];
            let packet = last_octets(line);
            let before = conversation.unwrap();
            let answer = step(&before, &packet, Some(&record), &mut reply);
            assert_eq!(last_octets(lines[place + 2]), reply[..answer.written]);
            conversation = Some(answer.conversation);
            record = answer.record.unwrap();
            let told = lines[place + 3..]
                .iter()
                .take_while(|line| !line.starts_with("   -> "))
                .find_map(|line| line.strip_prefix(COUNTED));
            let limit = ". At 3 the account is locked.";
            let count = told.map(|rest| rest.strip_suffix(limit).unwrap().parse().unwrap());
            assert_eq!(count.unwrap_or(record.failures), record.failures, "{line}");
            counts.push((count, answer.reason));
        }
    }
    let expected = [
        (Some(1), 691),
        (Some(2), 691),
        (Some(3), 691),
        (Some(3), 691),
        (None, 0),
        (Some(0), 0),
    ];
    assert_eq!(counts, expected);
}

const COUNTED: &str = "      Invalid Responses in a row, by the record that is handed out: ";

/// The change for which the box above a line was opened, as the line behind its Challenge says.
fn opened_for(lines: &[&str], place: usize) -> Change {
    let challenges = |line: &&str| line.starts_with("   <- Challenge ");
    let opened = lines[..place].iter().rposition(challenges).unwrap();
    match lines[opened + 2].contains("This box was opened for version 1's change") {
        true => Change::One,
        false => Change::Two,
    }
}

/// The new password's length that the line behind a version 1 change names, and with it that the
/// handset sends LM hashes too.
fn named_length(sentence: &str) -> Option<Vec<u8>> {
    let digits = sentence
        .split_once("LM and NT hashes, and the length as ")?
        .1;
    Some(octets(digits.trim_end_matches('.')))
}

/// The change that a line shows the first octets of: the one that our peer writes, from the old
/// password that the line behind it names, with the LM hashes and the length or the slip's octets
/// where it has some.
fn shown_change(lines: &[&str], place: usize, challenge: [u8; 8]) -> Vec<u8> {
    let wrong_old = lines[place + 1].contains("under a wrong one's hash");
    let old = if wrong_old { "bad" } else { "MyPw" };
    let shown = last_octets(lines[place]);
    let turn = Turn {
        id: shown[1],
        challenge,
    };
    let (old, new) = (characters(old), characters("MyNewPw"));
    let mut packet;
    let written = match opened_for(lines, place) {
        Change::One => {
            packet = vec![0; 72];
            write_change_1(&turn, &old, &new, &mut packet)
        }
        Change::Two => {
            packet = vec![0; 1118];
            write_change(&turn, &old, &new, &[0x5A; 512], &mut packet)
        }
    };
    assert_eq!(written.refusal, 0);
    if let Some(length) = named_length(lines[place + 1]) {
        for (at, password) in [(4, "MyPw"), (20, "MyNewPw")] {
            let hash = lm_hash(password.as_bytes()).unwrap();
            packet[at..at + 16].copy_from_slice(&under_challenge(&hash, &challenge));
        }
        packet[68..70].copy_from_slice(&length);
    }
    if lines[place + 1].contains("but for the slip's octets") {
        let said = |line: &str, whose: &str| {
            let rest = line.trim_start().strip_prefix(whose).unwrap();
            let at: usize = rest.split(' ').nth(2).unwrap().parse().unwrap();
            (at, last_octets(line))
        };
        let (at, right) = said(lines[place - 2], "right, from");
        assert_eq!(packet[at..at + right.len()], right);
        let (slip_at, slip) = said(lines[place - 1], "slip,  from");
        assert_eq!((slip_at, slip.len()), (at, right.len()));
        packet[at..at + slip.len()].copy_from_slice(&slip);
    }
    assert_eq!(packet[..72], shown);
    packet
}

/// What the independent program answers to it, and sends, where the account's password is `MyPw`
/// and expired.
fn answered(packet: &[u8], challenge: [u8; 8], change: Change) -> (Answer, Vec<u8>) {
    let kept = Entry {
        nt: Some(hash("MyPw")),
        expired: true,
        ..Entry::default()
    };
    let conversation = Conversation {
        id: packet[1],
        challenge,
        retries: 2,
        lm: false,
        limit: 255,
        change,
        phase: Phase::Change(kept),
        last: None,
    };
    let mut reply = vec![0; 17];
    let answer = step(&conversation, packet, None, &mut reply);
    reply.truncate(answer.written);
    (answer, reply)
}

/// The words of a fault as C has them, by its number.
fn words(fault: Fault) -> String {
    let header = read("host/include/mschap.h");
    let mut macros = header.lines().filter_map(|line| {
        let mut words = line.strip_prefix("#define ")?.split_whitespace();
        let name = words.next()?;
        let number: u8 = words.next()?.parse().ok()?;
        (name.starts_with("MSCHAP_FAULT_") && number == fault as u8).then_some(name)
    });
    let case = format!("case {}:", macros.next().unwrap());
    let (_, rest) = header.split_once(&case).unwrap();
    rest.split('"').nth(1).unwrap().to_string()
}

/// The fault stands behind each 709, and nowhere else; of a repeat none is told.
#[test]
fn the_support_desk_reads_what_is_wrong_with_a_change() {
    let text = read("crates/demo/stdout");
    let lines: Vec<&str> = text.lines().collect();
    let repeats = repeats(&lines);
    let mut challenge = [0; 8];
    let mut told = Vec::new();
    for (place, line) in lines.iter().enumerate() {
        if line.starts_with("   <- Challenge ") {
            challenge = eight(&last_octets(line)[5..13]);
        } else if line.starts_with("   <- Failure ") && lines[place + 1].contains("R=1") {
            challenge[0] = challenge[0].wrapping_add(23);
        } else if line.starts_with("   -> Change Password ") {
            let packet = shown_change(&lines, place, challenge);
            let change = opened_for(&lines, place);
            let (answer, sent) = answered(&packet, challenge, change);
            let repeat = repeats.contains(&place);
            let reply = place + 2 + usize::from(repeat);
            assert_eq!(last_octets(lines[reply]), sent);
            let success = lines[reply].starts_with("   <- Success ");
            assert_eq!(success, answer.fault.is_none(), "{}", lines[reply]);
            let Some(fault) = answer.fault else { continue };
            let message = format!("      E=709 R=0 V={}", change.version());
            assert_eq!(lines[reply + 1], message);
            let expected = format!("      The support desk reads: {}.", words(fault));
            assert_eq!(lines[reply + 3] == expected, !repeat, "{expected}");
            if !repeat {
                told.push(fault as u8);
            }
        }
    }
    let said = lines
        .iter()
        .filter(|l| l.contains("The support desk reads"));
    assert_eq!(said.count(), told.len());
    // a wrong old password; the slips: response, second key, RC4 anew, characters, challenge; of
    // version 1: the next seven octets, new before old
    assert_eq!(told, [3, 6, 5, 3, 4, 6, 10, 10]);
}

/// The version 1 changes: our peer's, and what the slips make of it. The NT hashes under the
/// challenge are made here for each, and the record that the independent program hands out has the
/// hashes that are told or tried.
#[test]
fn a_version_1_change_is_as_it_is_said_to_be() {
    let text = read("crates/demo/stdout");
    let lines: Vec<&str> = text.lines().collect();
    let challenge = [0x10, 0x2D, 0xB5, 0xDF, 0x08, 0x5D, 0x30, 0x41];
    let (old, new) = (hash("MyPw"), hash("MyNewPw"));
    let field = |hash: &[u8; 16]| under_challenge(hash, &challenge);
    let right = [field(&old), field(&new)].concat();
    let mut keys = [0; 16];
    keys[..8].copy_from_slice(&challenge);
    let next_seven = [&old, &new].map(|hash| old_under_new(hash, &keys)).concat();
    let turned = [field(&new), field(&old)].concat();
    let mut seen = Vec::new();
    let mut titled = "";
    for (place, line) in lines.iter().enumerate() {
        if place > 0 && lines[place - 1].is_empty() {
            titled = line;
        }
        let begins = line.starts_with("   -> Change Password ");
        if !begins || opened_for(&lines, place) == Change::Two {
            continue;
        }
        let packet = shown_change(&lines, place, challenge);
        let fields = match titled {
            _ if titled.contains("next seven octets, as in A.17") => &next_seven,
            _ if titled.contains("the new hash before the old one") => &turned,
            _ => &right,
        };
        assert_eq!(packet[36..68], **fields, "{titled}");
        let (answer, _) = answered(&packet, challenge, Change::One);
        let record = answer.record.map(|record| (record.nt, record.lm));
        let told = lines[place + 4].strip_prefix("      The record that is handed out has ");
        let lm = match told {
            None | Some("no LM hash.") => None,
            Some(words) => Some(last_octets(words).try_into().unwrap()),
        };
        let expected = answer.fault.is_none().then_some((Some(new), lm));
        assert_eq!(record, expected, "{titled}");
        seen.push((packet[68..72].to_vec(), told.is_some(), lm.is_some()));
    }
    let none = vec![0xFF, 0xFF, 0, 1];
    let expected = [
        (none.clone(), false, false),
        (none.clone(), false, false),
        (vec![0, 7, 0, 1], true, true),
        (vec![7, 0, 0, 1], true, false),
        (none, false, false),
    ];
    assert_eq!(seen, expected);
}

/// V in each Failure is the version of the change that its box was opened for.
#[test]
fn every_failure_has_the_version_of_the_boxs_change() {
    let text = read("crates/demo/stdout");
    let lines: Vec<&str> = text.lines().collect();
    let mut compared = [0, 0];
    for (place, line) in lines.iter().enumerate() {
        if line.starts_with("   <- Failure ") {
            let version = opened_for(&lines, place).version();
            let packet = last_octets(line);
            assert_eq!(packet[15..], [b'=', b'0' + version], "{line}");
            assert_eq!(packet[4..], *lines[place + 1].trim_start().as_bytes());
            compared[usize::from(version) - 1] += 1;
        }
    }
    // a 648 in each of the four version 1 scenes, and two 709
    assert_eq!(compared[0], 6);
    assert!(compared[1] > 20);
}

/// Runs of at least eight hexadecimal digits in upper case, one of them at least no letter.
fn shown(page: &str) -> Vec<&str> {
    page.split(|c: char| !c.is_ascii_alphanumeric())
        .filter(|word| word.len() >= 8 && word.chars().any(|c| c.is_ascii_digit()))
        .filter(|word| {
            word.chars()
                .all(|c| c.is_ascii_digit() || ('A'..='F').contains(&c))
        })
        .collect()
}

#[test]
fn slips_show_octets_that_were_written() {
    let page = read("docs/SLIPS.md");
    let programs = ["demo", "vectors", "vectors_one"];
    let written = programs
        .map(|name| read(&format!("crates/{name}/stdout")))
        .concat();
    let octets = shown(&page);
    for found in &octets {
        assert!(written.contains(found), "docs/SLIPS.md shows {found}");
    }
    assert!(octets.len() > 20, "only {} were read", octets.len());
}

/// Messages too: each in the page's backticks was sent, or is the one that a slip would send, which
/// the demonstration names.
#[test]
fn slips_show_messages_that_are_named() {
    let page = read("docs/SLIPS.md");
    let demonstration = read("crates/demo/stdout");
    let messages: Vec<&str> = page
        .split('`')
        .skip(1)
        .step_by(2)
        .filter(|name| name.starts_with("E="))
        .collect();
    for message in &messages {
        assert!(
            demonstration.contains(message),
            "docs/SLIPS.md shows {message}"
        );
    }
    assert!(!messages.is_empty());
}
