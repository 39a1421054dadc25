//! The command interpreter. Each line of the input gives one line of the output.

use crate::authenticator::{self, Account, Change, Conversation, Entry, Fault, Last, Phase, Terms};
use crate::hashes;
use crate::issued::{self, Issued};
use crate::message::{self, Call, Fields};
use crate::peer::{self, Turn, Verdict, Written};
use crate::schedules::Schedules;
use crate::{des, md4, packet, rc4};

/// The most octets that `HH*N` may name, and the greatest offset into a keystream.
pub const MOST: u64 = 1_000_000;
/// The most octets of a list's buffer or counts that `list` may name.
const MOST_LISTED: usize = 1024;
/// The most places that `places` may name.
const MOST_EMPTY: u64 = 128;
/// The places at the start.
const FIRST_PLACES: usize = 8;
/// The limit at the start.
const FIRST_LIMIT: u8 = 255;

/// How a line that is no comment is read.
#[derive(Clone, Copy, Debug, PartialEq, Eq)]
enum Section {
    Cases,
    Md4,
    Rc4,
    Des,
    Keys,
}

/// The state that goes from line to line.
#[derive(Clone, Debug)]
pub struct Session {
    section: Section,
    conversation: Conversation,
    account: Option<Account>,
    handed_out: Option<Account>,
    limit: u8,
    change: Option<Change>,
    list: List,
}

/// The list of issued challenges that the next opening is lent.
#[derive(Clone, Debug)]
struct List {
    buffer: Vec<u8>,
    used: usize,
    counts: Vec<u16>,
}

impl List {
    /// Nothing used: places of octets 00, counts of 0.
    fn empty(places: usize) -> List {
        List {
            buffer: vec![0; places * issued::WIDTH],
            used: 0,
            counts: vec![0; issued::COUNTS],
        }
    }
}

impl Default for Session {
    fn default() -> Session {
        Session::new()
    }
}

/// Runs a whole input from a fresh state.
pub fn run(input: &str) -> String {
    Session::new().run(input)
}

/// A command's result; none where it has none to show.
type Outcome = Option<String>;

impl Session {
    /// The state at the start: commands, no account, the conversation of a refused opening, the
    /// greatest limit, silent about the change, and an empty list.
    pub fn new() -> Session {
        Session {
            section: Section::Cases,
            conversation: authenticator::REFUSED,
            account: None,
            handed_out: None,
            limit: FIRST_LIMIT,
            change: None,
            list: List::empty(FIRST_PLACES),
        }
    }

    /// The current conversation.
    pub fn conversation(&self) -> &Conversation {
        &self.conversation
    }

    /// The record lent with the next step.
    pub fn account(&self) -> Option<&Account> {
        self.account.as_ref()
    }

    /// The record that the last step handed out.
    pub fn handed_out(&self) -> Option<&Account> {
        self.handed_out.as_ref()
    }

    /// Runs the lines of a text; each line of the output ends in a line feed.
    pub fn run(&mut self, input: &str) -> String {
        let mut output = String::new();
        let text = input.strip_suffix('\n').unwrap_or(input);
        if input.is_empty() {
            return output;
        }
        for line in text.split('\n') {
            output.push_str(&self.line(line));
            output.push('\n');
        }
        output
    }

    /// Runs one line, given and returned without its line feed.
    pub fn line(&mut self, line: &str) -> String {
        if line.is_empty() || line.starts_with('#') {
            return line.to_string();
        }
        let marked = match line {
            ":cases" => Some(Section::Cases),
            ":md4" => Some(Section::Md4),
            ":rc4" => Some(Section::Rc4),
            ":des" => Some(Section::Des),
            ":keys" => Some(Section::Keys),
            _ => None,
        };
        if let Some(section) = marked {
            self.section = section;
            return line.to_string();
        }
        let words: Vec<&str> = line.split(' ').collect();
        let vector = match self.section {
            Section::Cases => {
                return match self.command(&words) {
                    Some(Some(result)) => format!("{line} = {result}"),
                    Some(None) => line.to_string(),
                    None => format!("{line} = error"),
                }
            }
            Section::Md4 => md4_vector(&words),
            Section::Rc4 => rc4_vector(&words),
            Section::Des => des_vector(&words),
            Section::Keys => keys_vector(&words),
        };
        vector.unwrap_or_else(|| format!("{line} = error"))
    }

    /// Runs a command; none for a malformed one, which changes nothing.
    fn command(&mut self, words: &[&str]) -> Option<Outcome> {
        let result = match *words {
            ["md4", input] => refused_or(md4::md4(&octets(input)?), |digest| hex(&digest)),
            ["rc4", key, data] => {
                let mut data = octets(data)?;
                match rc4::rc4(&octets(key)?, &mut data) {
                    Ok(()) => hex(&data),
                    Err(refusal) => format!("refused {refusal} {}", hex(&data)),
                }
            }
            ["des", key, block] => hex(&des::encrypt(&fixed(key)?, &fixed(block)?)),
            ["undes", key, block] => hex(&des::decrypt(&fixed(key)?, &fixed(block)?)),
            ["desthree", keys, block] => hex(&des::encrypt_three(&fixed(keys)?, &fixed(block)?)),
            ["expand", key] => hex(&des::expand(&fixed(key)?)),
            ["dropparity", key] => hex(&des::drop_parity(&fixed(key)?)),
            ["nthash", password] => {
                refused_or(hashes::nt_hash(&octets(password)?), |hash| hex(&hash))
            }
            ["lmhash", password] => {
                refused_or(hashes::lm_hash(&octets(password)?), |hash| hex(&hash))
            }
            ["response", hash, challenge] => hex(&hashes::challenge_response(
                &fixed(hash)?,
                &fixed(challenge)?,
            )),
            ["seal", hash, password, filler] => {
                let sealed = hashes::seal(&fixed(hash)?, &octets(password)?, &octets(filler)?);
                refused_or(sealed, |block| hex(&block))
            }
            ["unseal", hash, block] => match hashes::open(&fixed(hash)?, &fixed(block)?) {
                hashes::Opened::Over => "over".to_string(),
                hashes::Opened::Odd => "odd".to_string(),
                hashes::Opened::Password(password) => {
                    format!("{} {}", password.len(), hex(&password))
                }
            },
            ["oldnew", old, new] => hex(&hashes::old_under_new(&fixed(old)?, &fixed(new)?)),
            ["underchallenge", hash, challenge] => {
                hex(&hashes::under_challenge(&fixed(hash)?, &fixed(challenge)?))
            }
            ["fromchallenge", field, challenge] => {
                hex(&hashes::from_challenge(&fixed(field)?, &fixed(challenge)?))
            }
            ["name", packet, home] => {
                let (packet, home) = (octets(packet)?, octets(home)?);
                format!(
                    "{} {}",
                    hex(packet::domain(&packet, &home)),
                    hex(packet::account(&packet))
                )
            }
            ["failure", message] => refused_or(message::read(&octets(message)?), |fields| {
                show_fields(&fields)
            }),
            ["account", "-"] => {
                self.account = None;
                return Some(None);
            }
            ["account", nt, lm, marks] => {
                self.account = Some(account(nt, lm, marks, "0", &[])?);
                return Some(None);
            }
            ["account", nt, lm, marks, count, ref keys @ ..] => {
                self.account = Some(account(nt, lm, marks, count, keys)?);
                return Some(None);
            }
            ["limit", limit] => {
                self.limit = octet(limit)?;
                return Some(None);
            }
            ["changeversion", version] => {
                self.change = match version {
                    "-" => None,
                    "1" => Some(Change::One),
                    "2" => Some(Change::Two),
                    _ => return None,
                };
                return Some(None);
            }
            ["list", buffer, used, counts] => {
                self.list = list(buffer, used, counts)?;
                return Some(None);
            }
            ["places", places] => {
                let places = number(places).filter(|value| *value <= MOST_EMPTY)?;
                self.list = List::empty(places as usize);
                return Some(None);
            }
            ["open", id, challenge, retries, lm, buffer] => {
                self.open(id, challenge, retries, lm, buffer)?
            }
            ["step", packet, buffer] => self.step(packet, buffer)?,
            ["relend"] => {
                if self.handed_out.is_some() {
                    self.account = self.handed_out;
                }
                return Some(None);
            }
            ["schedules"] => self.handed_out.map_or("-".to_string(), |record| {
                let (nt, lm) = (show_keys(&record.nt_keys), show_keys(&record.lm_keys));
                format!("{nt} {lm}")
            }),
            ["challenge", packet] => refused_or(peer::read_challenge(&octets(packet)?), |turn| {
                show_turn(&turn)
            }),
            ["reply", last, packet] => refused_or(
                peer::read_reply(octet(last)?, &octets(packet)?),
                |verdict| match verdict {
                    Verdict::Success => "success".to_string(),
                    Verdict::Failure(fields) => format!("failure {}", show_fields(&fields)),
                },
            ),
            ["turn", id, challenge, packet] => {
                let last = turn(id, challenge)?;
                let reading = peer::read_reply(last.id, &octets(packet)?);
                show_turn(&peer::next_turn(&last, &reading))
            }
            ["writeresponse", id, challenge, password, name, buffer] => {
                let mut buffer = octets(buffer)?;
                let answer = peer::write_response(
                    &turn(id, challenge)?,
                    &octets(password)?,
                    &octets(name)?,
                    &mut buffer,
                );
                show_written(&answer, &buffer)
            }
            ["writechange", id, challenge, old, new, filler, buffer] => {
                let mut buffer = octets(buffer)?;
                let answer = peer::write_change(
                    &turn(id, challenge)?,
                    &octets(old)?,
                    &octets(new)?,
                    &octets(filler)?,
                    &mut buffer,
                );
                show_written(&answer, &buffer)
            }
            ["writechange1", id, challenge, old, new, buffer] => {
                let mut buffer = octets(buffer)?;
                let answer = peer::write_change_1(
                    &turn(id, challenge)?,
                    &octets(old)?,
                    &octets(new)?,
                    &mut buffer,
                );
                show_written(&answer, &buffer)
            }
            _ => return None,
        };
        Some(Some(result))
    }

    fn open(
        &mut self,
        id: &str,
        challenge: &str,
        retries: &str,
        lm: &str,
        buffer: &str,
    ) -> Option<String> {
        let id = octet(id)?;
        let challenge = fixed(challenge)?;
        let retries = match retries {
            "-" => None,
            number => Some(octet(number)?),
        };
        let lm = match lm {
            "-" => None,
            "yes" => Some(true),
            "no" => Some(false),
            _ => return None,
        };
        let terms = Terms {
            retries,
            lm,
            change: self.change,
        };
        let mut buffer = octets(buffer)?;
        let mut issued = Issued {
            list: &mut self.list.buffer,
            used: self.list.used,
            counts: &mut self.list.counts,
        };
        let opening =
            authenticator::open(id, &challenge, &terms, self.limit, &mut issued, &mut buffer);
        self.list.used = issued.used;
        self.conversation = opening.conversation;
        Some(format!(
            "{} {} {} {} {}",
            opening.refusal,
            opening.written,
            hex(&buffer),
            show_conversation(&self.conversation),
            show_list(&self.list)
        ))
    }

    fn step(&mut self, packet: &str, buffer: &str) -> Option<String> {
        let packet = octets(packet)?;
        let mut buffer = octets(buffer)?;
        let answer = authenticator::step(
            &self.conversation,
            &packet,
            self.account.as_ref(),
            &mut buffer,
        );
        self.conversation = answer.conversation;
        self.handed_out = answer.record;
        Some(format!(
            "{} {} {} {} {} {} {} {}",
            answer.refusal,
            answer.reason,
            u8::from(answer.repeated),
            Fault::number(answer.fault),
            answer.written,
            hex(&buffer),
            show_conversation(&self.conversation),
            answer
                .record
                .map_or("-".to_string(), |record| show_entry(&record.entry()))
        ))
    }
}

/// `INPUT DIGEST`, the digest computed.
fn md4_vector(words: &[&str]) -> Option<String> {
    let [input, digest] = *words else { return None };
    fixed::<16>(digest)?;
    Some(format!(
        "{input} {}",
        refused_or(md4::md4(&octets(input)?), |digest| hex(&digest))
    ))
}

/// `KEY OFFSET STREAM16`, the keystream computed.
fn rc4_vector(words: &[&str]) -> Option<String> {
    let [key, offset, stream] = *words else {
        return None;
    };
    fixed::<16>(stream)?;
    let from = number(offset).filter(|value| *value <= MOST)? as usize;
    let computed = rc4::keystream(&octets(key)?, from);
    Some(format!(
        "{key} {offset} {}",
        refused_or(computed, |stream| hex(&stream))
    ))
}

/// `KEY8 PLAIN CIPHER`: the ciphertext computed, and its decryption.
fn des_vector(words: &[&str]) -> Option<String> {
    let [key, plain, cipher] = *words else {
        return None;
    };
    fixed::<8>(cipher)?;
    let key7 = des::drop_parity(&fixed(key)?);
    let cipher = des::encrypt(&key7, &fixed(plain)?);
    Some(format!(
        "{key} {} {}",
        hex(&des::decrypt(&key7, &cipher)),
        hex(&cipher)
    ))
}

/// `KEYS CHALLENGE NUMBERS RESPONSE`: the numbers that KEYS names, and the response under them.
fn keys_vector(words: &[&str]) -> Option<String> {
    let [named, challenge, numbers, response] = *words else {
        return None;
    };
    keys(numbers)?;
    fixed::<24>(response)?;
    let keys = keys(named)?;
    let computed = keys.response(&fixed(challenge)?);
    Some(format!(
        "{named} {challenge} {} {}",
        show_keys(&keys),
        hex(&computed)
    ))
}

/// Octets as upper-case hexadecimal digits, `-` for none.
pub fn hex(octets: &[u8]) -> String {
    if octets.is_empty() {
        return "-".to_string();
    }
    octets.iter().map(|octet| format!("{octet:02X}")).collect()
}

fn refused_or<T>(result: Result<T, u8>, show: impl Fn(T) -> String) -> String {
    match result {
        Ok(value) => show(value),
        Err(refusal) => format!("refused {refusal}"),
    }
}

fn show_fields(fields: &Fields) -> String {
    let call = match fields.call() {
        Call::Retry => "retry",
        Call::Change2 => "change2",
        Call::Change1 => "change1",
        Call::End => "end",
    };
    let c = fields.c.map_or("-".to_string(), |c| hex(&c));
    format!("{} {} {} {} {}", fields.e, fields.r, c, fields.v, call)
}

fn show_turn(turn: &Turn) -> String {
    format!("{} {}", turn.id, hex(&turn.challenge))
}

fn show_written(answer: &Written, buffer: &[u8]) -> String {
    format!("{} {} {}", answer.refusal, answer.written, hex(buffer))
}

fn show_entry(entry: &Entry) -> String {
    let hash = |hash: &Option<[u8; 16]>| hash.map_or("-".to_string(), |hash| hex(&hash));
    let marks: String = [entry.disabled, entry.hours, entry.no_dialin, entry.expired]
        .iter()
        .map(|mark| if *mark { '1' } else { '0' })
        .collect();
    let (nt, lm, count) = (hash(&entry.nt), hash(&entry.lm), entry.failures);
    format!("{nt}/{lm}/{marks}/{count}")
}

/// The numbers as octets, `-` where all are 0.
fn show_keys(keys: &Schedules) -> String {
    match *keys == Schedules::default() {
        true => "-".to_string(),
        false => hex(&keys.octets()),
    }
}

fn show_conversation(conversation: &Conversation) -> String {
    let (phase, kept) = match &conversation.phase {
        Phase::Response => ("response", "-".to_string()),
        Phase::Change(kept) => ("change", show_entry(kept)),
        Phase::Ended => ("ended", "-".to_string()),
    };
    let version = match conversation.change {
        Change::One => "/1",
        Change::Two => "",
    };
    format!(
        "{} {} {} {} {}{version} {} {} {}",
        conversation.id,
        hex(&conversation.challenge),
        conversation.retries,
        if conversation.lm { "yes" } else { "no" },
        conversation.limit,
        phase,
        kept,
        conversation
            .last
            .as_ref()
            .map_or("-".to_string(), show_last)
    )
}

fn show_last(last: &Last) -> String {
    let reply = match last.reply.failed() {
        None => "success".to_string(),
        Some((reason, r)) => format!("{reason}/{r}"),
    };
    format!("{}:{}:{reply}", last.code, last.id)
}

fn show_list(list: &List) -> String {
    format!(
        "{} {} {}",
        list.used,
        hex(&list.buffer),
        show_counts(&list.counts)
    )
}

/// The counts that are not 0, of the octets only.
fn show_counts(counts: &[u16]) -> String {
    let shown: Vec<String> = (0..=255u8)
        .zip(counts)
        .filter(|(_, count)| **count != 0)
        .map(|(octet, count)| format!("{octet:02X}:{count}"))
        .collect();
    if shown.is_empty() {
        return "-".to_string();
    }
    shown.join(",")
}

/// A decimal number of 1 to 9 digits.
fn number(word: &str) -> Option<u64> {
    if word.is_empty() || word.len() > 9 || !word.bytes().all(|digit| digit.is_ascii_digit()) {
        return None;
    }
    word.parse().ok()
}

/// A decimal number from 0 to 255.
fn octet(word: &str) -> Option<u8> {
    u8::try_from(number(word)?).ok()
}

/// An octet string: hexadecimal pairs, `-`, or `HH*N`.
fn octets(word: &str) -> Option<Vec<u8>> {
    if word == "-" {
        return Some(Vec::new());
    }
    if let Some((octet, count)) = word.split_once('*') {
        let pair = pairs(octet).filter(|octets| octets.len() == 1)?;
        let count = number(count).filter(|value| *value <= MOST)?;
        return Some(vec![pair[0]; count as usize]);
    }
    pairs(word).filter(|octets| !octets.is_empty())
}

fn pairs(word: &str) -> Option<Vec<u8>> {
    if word.len() % 2 == 1 {
        return None;
    }
    word.as_bytes()
        .chunks(2)
        .map(|pair| Some(nibble(pair[0])? * 16 + nibble(pair[1])?))
        .collect()
}

fn nibble(digit: u8) -> Option<u8> {
    match digit {
        b'0'..=b'9' => Some(digit - b'0'),
        b'A'..=b'F' => Some(digit - b'A' + 10),
        _ => None,
    }
}

/// An octet string of one size.
fn fixed<const N: usize>(word: &str) -> Option<[u8; N]> {
    octets(word)?.try_into().ok()
}

fn turn(id: &str, challenge: &str) -> Option<Turn> {
    Some(Turn {
        id: octet(id)?,
        challenge: fixed(challenge)?,
    })
}

fn list(buffer: &str, used: &str, counts: &str) -> Option<List> {
    let listed = |word: &str| octets(word).filter(|octets| octets.len() <= MOST_LISTED);
    Some(List {
        buffer: listed(buffer)?,
        used: number(used)? as usize,
        counts: listed(counts)?
            .chunks_exact(2)
            .map(|pair| u16::from_be_bytes([pair[0], pair[1]]))
            .collect(),
    })
}

/// The schedules that a word names: `-` zeros, a hash its own, or the numbers themselves.
fn keys(word: &str) -> Option<Schedules> {
    let octets = octets(word)?;
    match octets.len() {
        0 => Some(Schedules::default()),
        16 => Some(Schedules::of(&octets.try_into().ok()?)),
        _ => Some(Schedules::of_octets(&octets.try_into().ok()?)),
    }
}

/// The record that the words name, with its own schedules where no word names others.
fn account(nt: &str, lm: &str, marks: &str, count: &str, named: &[&str]) -> Option<Account> {
    let hash = |word: &str| match word {
        "-" => Some(None),
        given => Some(Some(fixed::<16>(given)?)),
    };
    let mark = |digit: u8| match digit {
        b'0' => Some(false),
        b'1' => Some(true),
        _ => None,
    };
    let [disabled, hours, no_dialin, expired] = *marks.as_bytes() else {
        return None;
    };
    let entry = Entry {
        nt: hash(nt)?,
        lm: hash(lm)?,
        disabled: mark(disabled)?,
        hours: mark(hours)?,
        no_dialin: mark(no_dialin)?,
        expired: mark(expired)?,
        failures: octet(count)?,
    };
    let own = entry.keyed();
    match *named {
        [] => Some(own),
        [nt] => Some(entry.with(keys(nt)?, own.lm_keys)),
        [nt, lm] => Some(entry.with(keys(nt)?, keys(lm)?)),
        _ => None,
    }
}

#[cfg(test)]
mod tests {
    use super::*;

    #[test]
    fn lines_and_sections() {
        assert_eq!(run(""), "");
        assert_eq!(run("\n"), "\n");
        assert_eq!(run("# a  b\n\nrelend\n"), "# a  b\n\nrelend\n");
        assert_eq!(run("md4 -"), "md4 - = 31D6CFE0D16AE931B73C59D7E0C089C0\n");
        assert_eq!(
            run(":md4\n- 00*16\n61 -\n:cases\nexpand FF*7\n"),
            concat!(
                ":md4\n- 31D6CFE0D16AE931B73C59D7E0C089C0\n61 - = error\n",
                ":cases\nexpand FF*7 = FEFEFEFEFEFEFEFE\n"
            )
        );
        assert_eq!(
            run(":rc4\n0102030405 16 00*16\n- 0 00*16\n"),
            ":rc4\n0102030405 16 6982944F18FC82D589C403A47A0D0919\n- 0 refused 8\n"
        );
        assert_eq!(
            run(":des\n0123456789ABCDEF 4E6F772069732074 00*8\n# x\n"),
            ":des\n0123456789ABCDEF 4E6F772069732074 3FA40E8A984D4815\n# x\n"
        );
    }

    #[test]
    fn state_goes_from_text_to_text() {
        let mut session = Session::new();
        assert_eq!(
            session.run("step - -\n"),
            "step - - = 2 0 0 0 0 - 0 0000000000000000 0 no 0 ended - - -\n"
        );
        session.run("account 00*16 - 0001\nopen 3 00*8 5 no AA*17\n");
        assert_eq!(session.conversation().retries, 5);
        assert!(session.account().unwrap().expired);
        assert_eq!(
            session.run("open 3 00*7 1 no AA*17"),
            "open 3 00*7 1 no AA*17 = error\n"
        );
        assert_eq!(session.conversation().retries, 5);
        session.run("relend\naccount -\n");
        assert!(session.account().is_none());
    }

    #[test]
    fn the_limit_goes_to_openings_and_the_count_to_steps() {
        let mut session = Session::new();
        session.run("open 3 00*8 0 no AA*17\naccount 00*16 - 0000\n");
        assert_eq!(session.conversation().limit, 255);
        assert_eq!(session.account().unwrap().failures, 0);
        assert_eq!(session.line("limit 3"), "limit 3");
        session.run("limit 256\nlimit -\n");
        assert_eq!(session.conversation().limit, 255);
        session.run("open 3 01*8 0 no AA*17\naccount 00*16 - 0000 2\naccount - - 0000 256\n");
        assert_eq!(session.conversation().limit, 3);
        assert_eq!(session.account().unwrap().failures, 2);
        let out = session.line(&format!("step 0203003731{}0175 AA*17", "00".repeat(48)));
        assert!(out.ends_with("00000000/-/0000/3"), "{out}");
        session.run("relend\n");
        assert_eq!(session.account().unwrap().failures, 3);
        session.run("limit 0\nopen 3 02*8 8 no AA*16\n");
        assert_eq!(session.conversation(), &authenticator::REFUSED);
    }

    #[test]
    fn schedules_go_with_the_record() {
        const MYPW: &str = "FC156AF7EDCD6C0EDDE3337D427F4EAC";
        let own = Schedules::of(&fixed(MYPW).unwrap());
        let digits = hex(&own.octets());
        let mut session = Session::new();
        assert_eq!(session.line("schedules"), "schedules = -");
        for (words, nt, lm) in [
            ("", own, Schedules::default()),
            (" 00*16", Schedules::default(), Schedules::default()),
            (" -", Schedules::default(), Schedules::default()),
            (" FF*384", Schedules([u64::MAX; 48]), Schedules::default()),
            (&format!(" - {digits}"), Schedules::default(), own),
            (&format!(" {MYPW} {MYPW}"), own, own),
        ] {
            session.line(&format!("account {MYPW} - 0000 0{words}"));
            let account = session.account().unwrap();
            assert_eq!((account.nt_keys, account.lm_keys), (nt, lm), "{words}");
        }
        for malformed in ["00*15", "00*17", "00*383", "00*385", "0", "- - -", "- 00"] {
            let line = format!("account - - 0000 0 {malformed}");
            assert_eq!(session.line(&line), format!("{line} = error"));
        }
        session.run("open 3 00*8 0 no AA*17\n");
        session.line(&format!("step 0203003731{}0175 AA*17", "00".repeat(48)));
        let both = format!("schedules = {digits} {digits}");
        assert_eq!(session.line("schedules"), both);
        session.run("account -\nrelend\n");
        assert_eq!(session.account().unwrap().lm_keys, own);
        session.line(&format!("account {MYPW} - 0000 0 - 01*384"));
        session.run("open 3 01*8 0 no AA*17\n");
        session.line(&format!("step 0203003731{}0175 AA*17", "00".repeat(48)));
        let numbers = format!("schedules = - {}", "01".repeat(384));
        assert_eq!(session.line("schedules"), numbers);
        session.run("step - AA*17\n");
        assert_eq!(session.line("schedules"), "schedules = -");
        assert_eq!(
            session.run(&format!(
                ":keys\n{MYPW} 102DB5DF085D3041 - 00*24\n- 00*8 - 00*23\n"
            )),
            format!(
                ":keys\n{MYPW} 102DB5DF085D3041 {digits} \
                 4E9D3C8F9CFD385D5BF4D3246791956CA4C351AB409A3D61\n- 00*8 - 00*23 = error\n"
            )
        );
    }

    #[test]
    fn the_list_goes_from_opening_to_opening() {
        fn list_after(session: &mut Session, line: &str) -> String {
            let out = session.line(line);
            let words: Vec<&str> = out.split(' ').collect();
            words[words.len() - 3..].join(" ")
        }
        let mut session = Session::new();
        assert_eq!(
            list_after(&mut session, "open 3 00*8 8 no AA*17"),
            format!("0 {} -", "00".repeat(64))
        );
        assert_eq!(session.line("places 2"), "places 2");
        assert_eq!(
            list_after(&mut session, "open 3 01*8 0 no AA*17"),
            format!("1 {}{} 01:1", "01".repeat(8), "00".repeat(8))
        );
        for malformed in [
            "places 129",
            "list 00*8 0 00*1025",
            "open 3 02*8 256 no AA*17",
        ] {
            assert_eq!(session.line(malformed), format!("{malformed} = error"));
        }
        assert_eq!(
            list_after(&mut session, "open 3 FF*8 0 no AA*17"),
            format!("2 {}{} 01:1,FF:1", "01".repeat(8), "FF".repeat(8))
        );
        assert_eq!(
            session.line("list 0102 7 0102030405"),
            "list 0102 7 0102030405"
        );
        assert_eq!(
            list_after(&mut session, "open 3 FF*8 0 no AA*17"),
            "7 0102 00:258,01:772"
        );
        assert_eq!(session.line("list - 0 -"), "list - 0 -");
        assert_eq!(list_after(&mut session, "open 3 FF*8 0 no AA*17"), "0 - -");
    }
}
