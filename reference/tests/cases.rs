//! Makes the two files of cases, and checks the results of their lines against the values that the
//! rules print. Each text is compared with the stored file, which both programs run;
//! `WRITE_CASES=1 cargo test --release --offline --test cases` writes those files anew.

use reference::authenticator::{Account, Change, Entry, Fault, Phase};
use reference::hashes;
use reference::packet::{self, ChangeFields};
use reference::peer::{self, Turn};
use reference::rc4::rc4;
use reference::schedules::Schedules;
use reference::script::{hex, Session};

#[path = "cases/version_one.rs"]
mod version_one;

/// Fixed octets: the challenge, the password `MyPw` with its hash H and its response NR are those
/// of RFC 2433 B.2; the others were computed by OpenSSL and by Nettle. Q is the new password
/// `MyNewPw` with its hash HQ, L the LM hash of `MyPw`, ZR the response of a hash of octets 0, BAD
/// that of the password `bad`; a name that ends in 23 is a response to the challenge after a retry,
/// one that ends in 46 after two.
const CH: [u8; 8] = [0x10, 0x2D, 0xB5, 0xDF, 0x08, 0x5D, 0x30, 0x41];
const CHX: &str = "102DB5DF085D3041";
const CH23: &str = "272DB5DF085D3041";
const CH46: &str = "3E2DB5DF085D3041";
const P: &[u8] = b"M\0y\0P\0w\0";
const Q: &[u8] = b"M\0y\0N\0e\0w\0P\0w\0";
const BADPW: &[u8] = b"b\0a\0d\0";
const H: &str = "FC156AF7EDCD6C0EDDE3337D427F4EAC";
const HQ: &str = "65DE9ADE0BBDA2AF5BE35786A8AF09C0";
const L: &str = "75BA30198E6D1975AAD3B435B51404EE";
const NR: &str = "4E9D3C8F9CFD385D5BF4D3246791956CA4C351AB409A3D61";
const NR23: &str = "EF8A435F0EDFCA92DCE4BBF63684E55198E57BC92E85BB71";
const NR46: &str = "D732CF955FA79A062796B4B3DABE31C2E55ACCFF0AB2B506";
const NQ23: &str = "04CAA176F99FAF1483B33B81F89C21A1C28BECF860325FB7";
const NQ: &str = "17A80923C6EEC24CB45683309E701DACDB9F7834A4521B1E";
const LR: &str = "91881D0152AB0C33C524135EC24A95EE64E23CDC2D33347D";
const LR23: &str = "0478534B6045C1A6E022A529D9690F1CB30FC10572AD80AF";
const ZR: &str = "EAD2FD23AC7D409EEAD2FD23AC7D409EEAD2FD23AC7D409E";
const BAD: &str = "9B51C58442B95BC20F408EFCF3F7DE2674F179BCDC4A8EB1";
const Z24: &str = "000000000000000000000000000000000000000000000000";
const B: &str = "AA*20";
const E691R1: &str = "453D36393120523D3120563D32";
const E691R0: &str = "453D36393120523D3020563D32";
const E648: &str = "453D36343820523D3020563D32";
const E709: &str = "453D37303920523D3020563D32";
const AA3: &str = "AAAAAA";
const NOTHING: &str = "0 0000000000000000 0 no 0 ended - -";

fn bytes(digits: &str) -> Vec<u8> {
    let digits: Vec<char> = digits.chars().filter(|c| *c != ' ').collect();
    digits
        .chunks(2)
        .map(|pair| u8::from_str_radix(&pair.iter().collect::<String>(), 16).unwrap())
        .collect()
}

fn array<const N: usize>(digits: &str) -> [u8; N] {
    bytes(digits).try_into().unwrap()
}

fn filler() -> Vec<u8> {
    (0..512).map(|i| ((7 * i + 3) % 256) as u8).collect()
}

fn resp(id: u8, lm: &str, nt: &str, flag: u8, name: &[u8]) -> Vec<u8> {
    packet::response(id, &array(lm), &array(nt), flag, name)
}

/// A change as our peer writes it.
fn change(id: u8, challenge: &[u8; 8], old: &[u8], new: &[u8]) -> Vec<u8> {
    let mut out = vec![0; 1118];
    let turn = Turn {
        id,
        challenge: *challenge,
    };
    assert_eq!(
        peer::write_change(&turn, old, new, &filler(), &mut out).refusal,
        0
    );
    out
}

/// Octets 20, and behind them any length, sealed.
fn block_with_length(hash: &[u8; 16], length: u32) -> [u8; 516] {
    let mut block = [0x20u8; 516];
    block[512..].copy_from_slice(&length.to_le_bytes());
    rc4(hash, &mut block).unwrap();
    block
}

/// A change whose opened block has any length, the other fields being those of `new`.
fn change_with_length(length: u32, new: &[u8]) -> Vec<u8> {
    let h = hashes::nt_hash(P).unwrap();
    let mut packet = change(8, &CH, P, new);
    rc4(&h, &mut packet[4..520]).unwrap();
    packet[516..520].copy_from_slice(&length.to_le_bytes());
    rc4(&h, &mut packet[4..520]).unwrap();
    packet
}

fn with(packet: &[u8], edits: &[(usize, &[u8])]) -> Vec<u8> {
    let mut out = packet.to_vec();
    for (place, octets) in edits {
        out[*place..place + octets.len()].copy_from_slice(octets);
    }
    out
}

/// What `places 8` lends, after an opening that was not refused: used, list and counts.
fn spent(challenge: &str, r: u8) -> String {
    let challenge: [u8; 8] = array(challenge);
    let mut list = Vec::new();
    for k in 0..=r {
        list.push(challenge[0].wrapping_add(23 * k));
        list.extend_from_slice(&challenge[1..]);
    }
    list.resize(64, 0);
    format!("{0} {1} {2:02X}:{0}", r + 1, hex(&list), challenge[7])
}

/// The same after one that was refused.
fn unspent() -> String {
    format!("0 {} -", "00".repeat(64))
}

fn text(message: &str) -> String {
    hex(message.as_bytes())
}

/// A record but for its count, as it is printed.
fn uncounted(account: &Account) -> String {
    let hash = |hash: Option<[u8; 16]>| hash.map_or("-".to_string(), |hash| hex(&hash));
    let marks = [
        account.disabled,
        account.hours,
        account.no_dialin,
        account.expired,
    ];
    let digits: String = marks.map(|mark| if mark { "1" } else { "0" }).concat();
    format!("{}/{}/{digits}", hash(account.nt), hash(account.lm))
}

/// CR09-2, -3, -6: what a judged Response below the limit hands out which is lent this record: the
/// same, its count one more, but at most 255, where it is invalid; 0 where it is valid, whatever
/// reason follows.
fn after_response(lent: Option<Account>, reason: &str) -> String {
    let Some(lent) = lent else {
        return "-".to_string();
    };
    let count = match reason {
        "691" => (u16::from(lent.failures) + 1).min(255),
        _ => 0,
    };
    format!("{}/{count}", uncounted(&lent))
}

/// The parts of a step's result.
struct Stepped {
    refusal: String,
    reason: String,
    repeated: String,
    fault: String,
    written: usize,
    buffer: Vec<u8>,
    /// Without its last word, which is `last`.
    conversation: String,
    last: String,
    record: String,
}

impl Stepped {
    fn reply(&self) -> &[u8] {
        &self.buffer[..self.written]
    }

    /// The same reply and the same next conversation, octet for octet.
    fn answers_as(&self, other: &Stepped) {
        assert_eq!(
            (&self.buffer, &self.conversation, &self.last),
            (&other.buffer, &other.conversation, &other.last)
        );
    }
}

struct Sheet {
    text: String,
    session: Session,
    /// The limit of the openings, 255 at the start.
    limit: u8,
    /// The change of the openings, version 2 at the start.
    change: Change,
    /// The steps so far that drew a reply which is no repeat.
    judged: usize,
}

impl Sheet {
    fn new() -> Sheet {
        Sheet {
            text: String::new(),
            session: Session::new(),
            limit: 255,
            change: Change::Two,
            judged: 0,
        }
    }

    fn copied(&mut self, line: &str) {
        assert_eq!(self.session.line(line), line);
        self.text.push_str(line);
        self.text.push('\n');
    }

    fn title(&mut self, words: &str) {
        if !self.text.is_empty() {
            self.copied("");
        }
        self.copied(&format!("# {words}"));
    }

    fn note(&mut self, words: &str) {
        self.copied(&format!("# {words}"));
    }

    /// A vector line; what is computed must be what is written.
    fn vector(&mut self, line: &str) {
        self.copied(line);
    }

    /// A command with its result.
    fn ask(&mut self, command: &str) -> String {
        let out = self.session.line(command);
        self.text.push_str(command);
        self.text.push('\n');
        let rest = out.strip_prefix(command).unwrap();
        rest.strip_prefix(" = ").unwrap_or(rest).to_string()
    }

    fn is(&mut self, command: &str, expected: &str) {
        let result = self.ask(command);
        assert_eq!(result, expected, "{command}");
    }

    fn begins(&mut self, command: &str, expected: &str) {
        let result = self.ask(command);
        assert!(result.starts_with(expected), "{command}: {result}");
    }

    fn account(&mut self, nt: &str, lm: &str, marks: &str) {
        self.is(&format!("account {nt} {lm} {marks}"), "");
    }

    /// The same with a count.
    fn counted(&mut self, nt: &str, lm: &str, marks: &str, count: u8) {
        self.is(&format!("account {nt} {lm} {marks} {count}"), "");
    }

    fn limit(&mut self, limit: u8) {
        self.is(&format!("limit {limit}"), "");
        self.limit = limit;
    }

    /// The change that openings choose; silent about it where none is named.
    fn change_version(&mut self, version: &str) {
        self.is(&format!("changeversion {version}"), "");
        self.change = match version {
            "1" => Change::One,
            _ => Change::Two,
        };
    }

    /// The limit as it is printed in a conversation: with `/1` where version 1's change is awaited.
    fn printed_limit(&self) -> String {
        let version = match self.change {
            Change::One => "/1",
            Change::Two => "",
        };
        format!("{}{version}", self.limit)
    }

    /// A Failure's message.
    fn message(&self, reason: &str, r: u8) -> String {
        let v = match self.session.conversation().change {
            Change::One => 1,
            Change::Two => 2,
        };
        text(&format!("E={reason} R={r} V={v}"))
    }

    /// An empty list, long enough for any opening.
    fn places(&mut self) {
        self.is("places 8", "");
    }

    fn open(&mut self, id: u8, challenge: &str, r: &str, lm: &str) {
        self.places();
        let result = self.ask(&format!("open {id} {challenge} {r} {lm} {B}"));
        let retries = if r == "-" { "2" } else { r };
        let allowed = if lm == "yes" { "yes" } else { "no" };
        let buffer = format!("01{id:02X}000D08{challenge}{}", hex(&[0xAA; 7]));
        assert_eq!(
            result,
            format!(
                "0 13 {buffer} {id} {challenge} {retries} {allowed} {} response - - {}",
                self.printed_limit(),
                spent(challenge, retries.parse().unwrap())
            )
        );
    }

    fn open7(&mut self) {
        self.open(7, CHX, "-", "-");
    }

    /// The same with LM allowed: for every case in which a response by LM is judged.
    fn open7_lm(&mut self) {
        self.open(7, CHX, "-", "yes");
    }

    /// Opens and goes on to the awaited change; with no NT hash by LM, which is asked for.
    fn expire(&mut self, nt: &str, lm: &str) {
        self.expire_with(nt, lm, if nt == "-" { "yes" } else { "-" });
    }

    fn expire_with(&mut self, nt: &str, lm: &str, choice: &str) {
        self.account(nt, lm, "0001");
        self.open(7, CHX, "-", choice);
        let packet = if nt == "-" {
            resp(7, LR, Z24, 1, b"u")
        } else {
            resp(7, Z24, NR, 1, b"u")
        };
        let answer = self.step(&packet, B);
        let message = self.message("648", 0);
        assert_eq!(hex(answer.reply()), format!("04070011{message}"));
        assert_eq!(
            answer.conversation,
            format!(
                "8 {CHX} 2 {} {} change {nt}/{lm}/0001/0",
                if choice == "yes" { "yes" } else { "no" },
                self.printed_limit()
            )
        );
    }

    fn step(&mut self, packet: &[u8], buffer: &str) -> Stepped {
        let lent = self.session.account().copied();
        let result = self.ask(&format!("step {} {buffer}", hex(packet)));
        let words: Vec<&str> = result.split(' ').collect();
        assert_eq!(words.len(), 15, "{result}");
        // What is awaited is never what was answered last, so that no repeat is taken for a try.
        let awaited = match words[11] {
            "response" => format!("2:{}:", words[6]),
            "change" => {
                let code = self.session.conversation().change.code();
                format!("{code}:{}:", words[6])
            }
            _ => String::from("none"),
        };
        assert!(!words[13].starts_with(&awaited), "{result}");
        let judged = words[0] == "0" && words[2] == "0";
        self.judged += usize::from(judged);
        // CR09-6, -12: with a judged Response the record lent, the same but for its count; with an
        // accepted change one; with nothing else.
        // CR10-5, -7: the former with the schedules that were lent, the latter with its own.
        let record = words[14];
        let handed = self.session.handed_out().copied();
        match (judged, packet.first(), lent) {
            (true, Some(2), Some(lent)) => {
                let (but_count, _) = record.rsplit_once('/').unwrap();
                assert_eq!(but_count, uncounted(&lent), "{result}");
                let keys = handed.map(|record| (record.nt_keys, record.lm_keys));
                assert_eq!(keys, Some((lent.nt_keys, lent.lm_keys)), "{result}");
            }
            (true, Some(5 | 6), _) => {
                assert_eq!(record == "-", words[1] == "709", "{result}");
                assert_eq!(handed, handed.map(Account::keyed), "{result}");
            }
            _ => assert_eq!(record, "-", "{result}"),
        }
        // CR04-2, -5, -6: a fault beside each 709 that is no repeat, and beside nothing else.
        let faulty = words[..3] == ["0", "709", "0"];
        assert_eq!(words[3] != "0", faulty, "{result}");
        Stepped {
            refusal: words[0].to_string(),
            reason: words[1].to_string(),
            repeated: words[2].to_string(),
            fault: words[3].to_string(),
            written: words[4].parse().unwrap(),
            buffer: if words[5] == "-" {
                Vec::new()
            } else {
                bytes(words[5])
            },
            conversation: words[6..13].join(" "),
            last: words[13].to_string(),
            record: record.to_string(),
        }
    }

    /// A step that draws Success. A Response sets the count to 0.
    fn success(&mut self, packet: &[u8]) -> Stepped {
        let lent = self.session.account().copied();
        let answer = self.step(packet, B);
        if packet[0] == 2 {
            assert_eq!(answer.record, after_response(lent, "0"));
        }
        let expected = format!("03{:02X}0004{}", packet[1], hex(&[0xAA; 16]));
        assert_eq!(
            (answer.refusal.as_str(), answer.reason.as_str()),
            ("0", "0"),
            "{}",
            hex(packet)
        );
        assert_eq!(hex(&answer.buffer), expected);
        assert!(answer.conversation.ends_with(" ended -"));
        let last = format!("{}:{}:success", packet[0], packet[1]);
        assert_eq!(
            (answer.repeated.as_str(), answer.last.as_str()),
            ("0", &*last)
        );
        answer
    }

    /// A step that draws a Failure; a Response below the limit, or an invalid one.
    fn failure(&mut self, packet: &[u8], reason: &str, r: u8) -> Stepped {
        let lent = self.session.account().copied();
        let answer = self.failed(packet, reason, r);
        let expected = match packet[0] {
            2 => after_response(lent, reason),
            _ => "-".to_string(),
        };
        assert_eq!(answer.record, expected, "{}", hex(packet));
        answer
    }

    /// CR09-4, -5: a valid Response at or over the limit: 691, and the count stays as it is.
    fn locked(&mut self, packet: &[u8], r: u8) -> Stepped {
        let lent = self.session.account().copied().unwrap();
        let answer = self.failed(packet, "691", r);
        let expected = format!("{}/{}", uncounted(&lent), lent.failures);
        assert_eq!(answer.record, expected, "{}", hex(packet));
        answer
    }

    fn failed(&mut self, packet: &[u8], reason: &str, r: u8) -> Stepped {
        let answer = self.step(packet, B);
        let message = self.message(reason, r);
        assert_eq!(
            (answer.refusal.as_str(), answer.reason.as_str()),
            ("0", reason),
            "{}",
            hex(packet)
        );
        assert_eq!(
            hex(&answer.buffer),
            format!("04{:02X}0011{message}{AA3}", packet[1])
        );
        assert_eq!(answer.written, 17);
        let last = format!("{}:{}:{reason}/{r}", packet[0], packet[1]);
        assert_eq!(
            (answer.repeated.as_str(), answer.last.as_str()),
            ("0", &*last)
        );
        answer
    }

    /// A change that draws 709, and what is wrong with it. CR04-7: the reply has the same 17 octets
    /// whatever that is.
    fn bad_change(&mut self, packet: &[u8], fault: Fault) -> Stepped {
        let answer = self.failure(packet, "709", 0);
        assert_eq!(answer.fault, (fault as u8).to_string(), "{}", hex(packet));
        assert_eq!(
            hex(answer.reply()),
            format!("04{:02X}0011{}", packet[1], self.message("709", 0))
        );
        assert!(answer.conversation.ends_with(" ended -"));
        answer
    }

    /// A repeat: the octets of the last reply, and nothing else moves.
    fn repeats(&mut self, packet: &[u8], buffer: &str, reply: &str, reason: &str) {
        let before = *self.session.conversation();
        let count: usize = buffer.strip_prefix("AA*").unwrap().parse().unwrap();
        let answer = self.step(packet, buffer);
        assert_eq!(
            (
                answer.refusal.as_str(),
                answer.reason.as_str(),
                answer.repeated.as_str(),
                answer.record.as_str()
            ),
            ("0", reason, "1", "-"),
            "{}",
            hex(packet)
        );
        assert_eq!(hex(answer.reply()), reply);
        assert_eq!(
            answer.buffer[answer.written..],
            vec![0xAA; count - answer.written]
        );
        assert_eq!(before, *self.session.conversation());
    }

    /// A step that is refused, and changes nothing.
    fn refused(&mut self, packet: &[u8], buffer: &str, refusal: &str) {
        let before = *self.session.conversation();
        let count: usize = buffer.strip_prefix("AA*").unwrap_or("0").parse().unwrap();
        let answer = self.step(packet, buffer);
        assert_eq!(answer.refusal, refusal, "{}", hex(packet));
        assert_eq!(
            (
                answer.reason.as_str(),
                answer.repeated.as_str(),
                answer.written,
                answer.record.as_str()
            ),
            ("0", "0", 0, "-")
        );
        assert_eq!(answer.buffer, vec![0xAA; count]);
        assert_eq!(before, *self.session.conversation());
    }
}

#[test]
fn cases() {
    let mut sheet = Sheet::new();
    vectors(&mut sheet);
    frames(&mut sheet);
    names(&mut sheet);
    writers(&mut sheet);
    ciphers(&mut sheet);
    conversations(&mut sheet);
    responses(&mut sheet);
    changes(&mut sheet);
    readers(&mut sheet);
    turns(&mut sheet);
    refusals(&mut sheet);
    slips(&mut sheet);
    table_of_twelve(&mut sheet);
    exchanges(&mut sheet);
    damaged(&mut sheet);
    octet_strings(&mut sheet);
    repeats(&mut sheet);
    issued_challenges(&mut sheet);
    faults(&mut sheet);
    faulty_handsets(&mut sheet);
    guesses(&mut sheet);
    schedules(&mut sheet);

    // The whole file, run afresh, gives the lines that were checked.
    let again = reference::script::run(&sheet.text);
    assert_eq!(again.lines().count(), sheet.text.lines().count());
    // The program `vectors` reads no more than 1,048,576 octets, and rt lets a program write no
    // more than so many; the published vectors come out before these.
    assert!(sheet.text.len() < 1_000_000, "{}", sheet.text.len());
    assert!(again.len() < 1_000_000, "{}", again.len());
    let stored = concat!(
        env!("CARGO_MANIFEST_DIR"),
        "/../crates/vectors/data/cases.txt"
    );
    if std::env::var("WRITE_CASES").is_ok() {
        std::fs::write(stored, &sheet.text).unwrap();
    }
    assert!(
        std::fs::read_to_string(stored).unwrap() == sheet.text,
        "cases.txt is not what this test makes"
    );
}

/// Vectors beside the published ones (`tests/published.rs`): their values were computed by OpenSSL
/// 3.0.19 and by Nettle, which agree.
fn vectors(s: &mut Sheet) {
    s.copied("# Cases for both programs. Packets, blocks and responses stand as literal octets.");
    s.title("MD4: padding edges, and the most octets");
    s.copied(":md4");
    for (size, digest) in [
        (1, "47C61A0FA8738BA77308A8A600F88E4B"),
        (54, "56D2BCBC9DC84232CDA1C8D3147E2B54"),
        (55, "2DF5A83F688F18C0866C64173BE82A8F"),
        (56, "7B9B4593CD9322EA492CF0BCDD84F0AE"),
        (57, "5DCCB300D28E7CCC7519DB5DD15E416A"),
        (63, "594697FC0810937E0E899A65911293B5"),
        (64, "2F6F7B10C5CADCA6D5770F428C899BA7"),
        (65, "4FC27BBF517522311018663E59CED7A5"),
        (119, "8BF9D82D3CD1246AB64363D6DA010259"),
        (120, "888E0376839FC84239DBA15A308DF398"),
        (121, "CF179DA68E0CE51E24DAAA0DFA132384"),
        (127, "37820EDAF511C500017FBEBAD06D03ED"),
        (128, "F620FE08D59ED12FF6D1626C8205BAE9"),
        (129, "DF249D7383C9343E55DC58991BB7C860"),
        (511, "562EC7A7BE9450DB43A50612F08E3BA4"),
        (512, "956CD9194731BBD19695BBE0586DC239"),
        (513, "9130D726403BE48B5FBB8BC17C94A386"),
        (4095, "4A525369328FD701AA96A5D591220E77"),
        (4096, "49521032570264865CE2E7CFAB69F1AE"),
    ] {
        s.vector(&format!("00*{size} {digest}"));
    }
    s.title("RC4: keys of 1 and 256 octets");
    s.copied(":rc4");
    s.vector("00 0 DE188941A3375D3A8A061E67576E926D");
    s.vector("FF 0 6D252F2470531BB0394B93B4C46FDD9C");
    s.vector("01*256 0 06080E0E182029293933495766768783");
    s.title("DES: a key whose parity bits are clear");
    s.copied(":des");
    s.vector("123456789ABCDEF0 0123456789ABCDEF 85E813540F0AB405");
    s.note("each bit of the key by itself, the parity bits too");
    for (place, cipher) in [
        "95A8D72813DAA94D",
        "0EEC1487DD8C26D5",
        "7AD16FFB79C45926",
        "D3746294CA6A6CF3",
        "809F5F873C1FD761",
        "C02FAFFEC989D1FC",
        "4615AA1D33E72F10",
        "8CA64DE9C1B123A7",
        "2055123350C00858",
        "DF3B99D6577397C8",
        "31FE17369B5288C9",
        "DFDD3CC64DAE1642",
        "178C83CE2B399D94",
        "50F636324A9B7F80",
        "A8468EE3BC18F06D",
        "8CA64DE9C1B123A7",
        "A2DC9E92FD3CDE92",
        "CAC09F797D031287",
        "90BA680B22AEB525",
        "CE7A24F350E280B6",
        "882BFF0AA01A0B87",
        "25610288924511C2",
        "C71516C29C75D170",
        "8CA64DE9C1B123A7",
        "5199C29A52C9F059",
        "C22F0A294A71F29F",
        "EE371483714C02EA",
        "A81FBD448F9E522F",
        "4F644C92E192DFED",
        "1AFA9A66A6DF92AE",
        "B3C1CC715CB879D8",
        "8CA64DE9C1B123A7",
        "19D032E64AB0BD8B",
        "3CFAA7A7DC8720DC",
        "B7265F7F447AC6F3",
        "9DB73B3C0D163F54",
        "8181B65BABF4A975",
        "93C9B64042EAA240",
        "5570530829705592",
        "8CA64DE9C1B123A7",
        "8638809E878787A0",
        "41B9A79AF79AC208",
        "7A9BE42F2009A892",
        "29038D56BA6D2745",
        "5495C6ABF1E5DF51",
        "AE13DBD561488933",
        "024D1FFA8904E389",
        "8CA64DE9C1B123A7",
        "D1399712F99BF02E",
        "14C1D7C1CFFEC79E",
        "1DE5279DAE3BED6F",
        "E941A33F85501303",
        "DA99DBBC9A03F379",
        "B7FC92F91D8E92E9",
        "AE8E5CAA3CA04E85",
        "8CA64DE9C1B123A7",
        "9CC62DF43B6EED74",
        "D863DBB5C59A91A0",
        "A1AB2190545B91D7",
        "0875041E64C570F7",
        "5A594528BEBEF1CC",
        "FCDB3291DE21F0C0",
        "869EFD7F9F265A09",
        "8CA64DE9C1B123A7",
    ]
    .iter()
    .enumerate()
    {
        s.vector(&format!(
            "{:016X} {:016X} {cipher}",
            1u64 << (63 - place),
            0
        ));
    }
    s.note("weak keys");
    for (key, cipher) in [
        ("0101010101010101", "617B3A0CE8F07100"),
        ("FEFEFEFEFEFEFEFE", "6DCE0DC9006556A3"),
        ("1F1F1F1F0E0E0E0E", "DB958605F8C8C606"),
        ("E0E0E0E0F1F1F1F1", "EE600BC06FC9EF23"),
        ("FFFFFFFFFFFFFFFF", "6DCE0DC9006556A3"),
        ("0000000000000000", "617B3A0CE8F07100"),
    ] {
        s.vector(&format!("{key} 0123456789ABCDEF {cipher}"));
    }
    s.copied("");
    s.copied(":cases");
}

fn frames(s: &mut Sheet) {
    let good = resp(7, Z24, NR, 1, b"u");
    s.title("R-SRC-1: code 5 is unknown; a change is awaited");
    s.expire(H, L);
    let mut v1 = bytes("05080048");
    v1.resize(72, 0);
    s.refused(&v1, B, "4");
    s.title("R-SRC-2, R-FRAME-4, R-READ-3: the peer reads a Challenge, its name ignored");
    s.is("challenge 0107000D080102030405060708", "7 0102030405060708");
    s.is(
        "challenge 0107000F0801020304050607086162",
        "7 0102030405060708",
    );
    s.is(
        "challenge 0107000E08010203040506070841",
        "7 0102030405060708",
    );
    s.is(
        "challenge 01FF000D08FFFFFFFFFFFFFFFF0000",
        "255 FFFFFFFFFFFFFFFF",
    );
    s.title("R-SRC-3, R-FRAME-9: the Challenge carries the lent octets, and no name");
    s.open7();
    s.title("R-FRAME-1: Length, most significant octet first");
    let name = "75*256";
    s.begins(
        &format!("writeresponse 7 {CHX} {} {name} AA*310", hex(P)),
        "0 310 0207013631",
    );
    s.account(H, "-", "0000");
    s.open7();
    s.success(&resp(7, Z24, NR, 1, &[b'u'; 256]));
    s.open7();
    s.refused(&with(&good, &[(2, &[0x37, 0x00])]), B, "3");
    s.title("R-FRAME-2: octets after Length are padding");
    let mut padded = good.clone();
    padded.extend_from_slice(b"xyz");
    s.open7();
    s.success(&padded);
    s.is(
        &format!("name {} {}", hex(&padded), text("HOME")),
        &format!("{} 75", text("HOME")),
    );
    s.title("R-FRAME-3: a message ends at Length");
    s.is(
        &format!("reply 9 04090011{E691R1}393939"),
        "failure 691 1 - 2 retry",
    );
    s.title("R-FRAME-5: the responses in their places");
    s.open7_lm();
    s.success(&good);
    s.open7_lm();
    s.failure(&resp(7, NR, Z24, 1, b"u"), "691", 1);
    s.title("R-FRAME-6: a Success may have a message");
    s.is("reply 9 030900066869", "success");
    s.is(&format!("reply 9 03090130{}", "41".repeat(300)), "success");
    s.title("R-FRAME-7: a Failure without a message");
    s.is("reply 9 04090004", "refused 11");
    s.title("R-FRAME-10: Success to identifier 255");
    s.open(255, CHX, "-", "-");
    s.success(&resp(255, Z24, NR, 1, b"u"));
    s.title("R-FRAME-11: Response Lengths 54, 55, 56, 309, 310, 311");
    for (size, refused) in [
        (0, true),
        (1, false),
        (2, false),
        (255, false),
        (256, false),
        (257, true),
    ] {
        s.open7();
        let packet = resp(7, Z24, NR, 1, &vec![b'u'; size]);
        if refused {
            s.refused(&packet, B, "6");
        } else {
            s.success(&packet);
        }
    }
    s.note("Length 310 of 311 octets lent; Length 311 of 310");
    let long = resp(7, Z24, NR, 1, &[b'u'; 257]);
    s.open7();
    s.refused(&long[..310], B, "3");
    s.success(&with(&long, &[(2, &[1, 0x36])]));
}

fn names(s: &mut Sheet) {
    let home = text("HOME");
    let good = resp(7, Z24, NR, 1, b"u");
    let named = |name: &[u8]| hex(&resp(7, Z24, NR, 1, name));
    s.title("R-NAME-1 to -4: the name's parts");
    for (name, domain, account) in [
        (&b"A\\B\\C"[..], text("A"), text("B\\C")),
        (b"u", home.clone(), text("u")),
        (b"\\u", "-".into(), text("u")),
        (b"DOM\\", text("DOM"), "-".into()),
        (b"\\", "-".into(), "-".into()),
        (b"\\\\", "-".into(), text("\\")),
        (b"DOM\\user", text("DOM"), text("user")),
        (b"user/DOM", home.clone(), text("user/DOM")),
        (b"u\0\xFF", home.clone(), "7500FF".into()),
    ] {
        s.is(
            &format!("name {} {home}", named(name)),
            &format!("{domain} {account}"),
        );
    }
    let mut long = vec![b'd'; 255];
    long.push(b'\\');
    s.is(
        &format!("name {} {home}", named(&long)),
        &format!("{} -", "64".repeat(255)),
    );
    s.is(&format!("name {} -", named(b"u")), "- 75");
    s.is(
        &format!("name {} 48*300", named(b"u")),
        &format!("{} 75", "48".repeat(300)),
    );
    s.is(
        &format!("name {}5C78 {home}", named(b"u")),
        &format!("{home} 75"),
    );
    s.title("R-NAME-5: packets that fail 3");
    for packet in ["-", "02", "020700", "02070003", "02070000", "02070038"] {
        s.is(&format!("name {packet} {home}"), "- -");
    }
    s.is(&format!("name {} {home}", hex(&good[..54])), "- -");
    s.title("R-NAME-6: packets of another code");
    s.is(
        &format!("name {} {home}", hex(&change(8, &CH, P, Q))),
        "- -",
    );
    for code in [0, 1, 3, 4, 5, 6, 255] {
        s.is(
            &format!("name {} {home}", hex(&with(&good, &[(0, &[code])]))),
            "- -",
        );
    }
    s.title("R-NAME-7: Length or size wrong");
    s.is(
        &format!("name {} {home}", hex(&with(&good, &[(4, &[0x30])]))),
        "- -",
    );
    s.is(
        &format!("name {} {home}", hex(&with(&good, &[(4, &[0x32])]))),
        "- -",
    );
    s.is(
        &format!("name {} {home}", hex(&resp(7, Z24, NR, 1, b""))),
        "- -",
    );
    s.is(
        &format!("name {} {home}", hex(&with(&good, &[(2, &[0, 0x36])]))),
        "- -",
    );
    s.is(&format!("name {} {home}", named(&[b'u'; 257])), "- -");
    s.is(&format!("name 02070004 {home}"), "- -");
    s.is(
        &format!("name {} {home}", named(&[b'u'; 256])),
        &format!("{home} {}", "75".repeat(256)),
    );
    s.title("R-NAME-8: the flag");
    for flag in [2, 255] {
        s.is(
            &format!("name {} {home}", hex(&resp(7, Z24, NR, flag, b"u"))),
            "- -",
        );
    }
    s.is(
        &format!("name {} {home}", hex(&resp(7, Z24, NR, 0, b"u"))),
        &format!("{home} 75"),
    );
    s.title("R-NAME-9: any identifier, in any conversation");
    for id in [0, 99, 255] {
        s.is(
            &format!("name {} {home}", hex(&resp(id, Z24, NR, 1, b"u"))),
            &format!("{home} 75"),
        );
    }
}

fn writers(s: &mut Sheet) {
    let f = hex(&filler());
    s.title("R-WRITE-1, -2, R-SRC-5: a Response, in buffers of 55 and 60 octets");
    let packet = format!("0207003731{Z24}{NR}0175");
    s.is(
        &format!("writeresponse 7 {CHX} {} 75 AA*55", hex(P)),
        &format!("0 55 {packet}"),
    );
    s.is(
        &format!("writeresponse 7 {CHX} {} 75 AA*60", hex(P)),
        &format!("0 55 {packet}AAAAAAAAAA"),
    );
    s.begins(
        &format!("writeresponse 0 {CHX} - 75 AA*60"),
        "0 55 0200003731",
    );
    s.begins(
        &format!("writeresponse 255 {CHX} FF*512 {} AA*64", text("DOM\\user")),
        "0 62 02FF003E31",
    );
    s.title("R-FRAME-8, R-WRITE-3, -4: a change, in buffers of 1118 and 1121 octets");
    let chg = hex(&change(8, &CH, P, Q));
    assert_eq!(
        sha256(&change(8, &CH, P, Q)),
        "6b4ebe5cbf58ef68b4dbe74e6205be61ea4cecfff77c109f9cc7042d9b803398"
    );
    let command = format!("writechange 8 {CHX} {} {} {f}", hex(P), hex(Q));
    s.is(&format!("{command} AA*1118"), &format!("0 1118 {chg}"));
    s.is(
        &format!("{command} AA*1121"),
        &format!("0 1118 {chg}AAAAAA"),
    );
    assert!(chg.starts_with("0608045EC3509FA25F3DFD43"));
    assert_eq!(&chg[2 * 520..2 * 536], "71BD6CBA24586C0A1354F1B611CB4CAF");
    assert_eq!(&chg[2 * 536..2 * 1092], "00".repeat(556));
    assert_eq!(&chg[2 * 1092..2 * 1116], NQ);
    assert_eq!(&chg[2 * 1116..], "0001");
    s.note("passwords of 0 and 512 octets, old and new");
    for (old, new) in [
        ("-", "-"),
        ("-", "6100*1"),
        ("61*512", "-"),
        ("-", "62*512"),
        ("61*512", "62*512"),
    ] {
        let new = if new == "6100*1" { "6100" } else { new };
        s.begins(
            &format!("writechange 255 {CHX} {old} {new} 5A*512 AA*1118"),
            "0 1118 06FF045E",
        );
    }
    s.title("R-WRITE-5: the flags' order at the box");
    s.expire(H, L);
    let chg = change(8, &CH, P, Q);
    s.refused(&with(&chg, &[(1116, &[1, 0])]), B, "7");
    s.success(&chg);
}

fn ciphers(s: &mut Sheet) {
    let h: [u8; 16] = array(H);
    let f = hex(&filler());
    s.title("R-HASH-1, -2: MD4");
    s.is(
        &format!("md4 {}", text("abc")),
        "A448017AAF21D8525FC10AE87AA6729D",
    );
    s.is("md4 00*4096", "49521032570264865CE2E7CFAB69F1AE");
    s.is("md4 00*4097", "refused 8");
    s.begins("md4 00*55", "2DF5A83F");
    s.begins("md4 00*56", "7B9B4593");
    s.is("md4 -", "31D6CFE0D16AE931B73C59D7E0C089C0");
    s.ask("md4 FF*4096");
    s.title("R-HASH-3: RC4 and its keys");
    let whole: Vec<u8> = (0..=255).collect();
    s.is(&format!("rc4 {} 00*8", hex(&whole)), "5E2EB7B20D86864F");
    s.is("rc4 - 00*8", "refused 8 0000000000000000");
    s.is("rc4 01*257 0102030405", "refused 8 0102030405");
    s.is("rc4 - -", "refused 8 -");
    s.is("rc4 01 -", "-");
    s.is("rc4 0102030405 00*16", "B2396305F03DC027CCC3524A0A1118A8");
    s.is(
        "rc4 0102030405 B2396305F03DC027CCC3524A0A1118A8",
        "00000000000000000000000000000000",
    );
    s.ask("rc4 00 FF*300");
    s.ask("rc4 7F*256 00*16");
    s.title("R-HASH-4, -5: NT passwords of 8, 0, 512, 1, 3, 511, 513, 514 octets");
    s.is(&format!("nthash {}", hex(P)), H);
    s.is(&format!("nthash {}", hex(Q)), HQ);
    s.begins(&format!("nthash {}0000", hex(P)), "505EFFCC");
    s.begins("nthash 004D007900500077", "D7993732");
    s.is("nthash -", "31D6CFE0D16AE931B73C59D7E0C089C0");
    s.is(
        &format!("nthash {}", "6100".repeat(256)),
        "9118F6CE48955B5CA2BE01329E7F959E",
    );
    for size in [1, 3, 511, 513, 514, 4096] {
        s.is(&format!("nthash 61*{size}"), "refused 8");
    }
    s.ask("nthash 61*510");
    s.ask("nthash 61*512");
    s.title("R-HASH-6 to -8, R-SRC-4, -6: LM passwords of 0, 1, 4, 7, 8, 14, 15 octets");
    s.is(&format!("lmhash {}", text("MyPw")), L);
    s.is("lmhash -", "AAD3B435B51404EEAAD3B435B51404EE");
    s.ask(&format!("lmhash {}", text("abcdefg")));
    s.ask(&format!("lmhash {}", text("abcdefgh")));
    s.is(
        &format!("lmhash {}", text("abcdefghijklmn")),
        "E0C510199CC66ABD8C51EC214BEBDEA1",
    );
    s.is(
        &format!("lmhash {}", text("ABCDEFGHIJKLMN")),
        "E0C510199CC66ABD8C51EC214BEBDEA1",
    );
    s.is(&format!("lmhash {}", text("abcdefghijklmno")), "refused 8");
    s.is("lmhash 00*14", "AAD3B435B51404EEAAD3B435B51404EE");
    s.is("lmhash 00*15", "refused 8");
    s.note("octets 5B, 60, 61, 7A, 7B, E9, FF");
    s.begins("lmhash 5B", "50A7E324");
    s.ask("lmhash 40");
    s.ask("lmhash 60");
    s.ask("lmhash 61");
    s.ask("lmhash 7A");
    s.is("lmhash 7B", "9B3F51919237C9E8AAD3B435B51404EE");
    s.begins("lmhash E9", "167B787A");
    s.ask("lmhash C9");
    s.ask("lmhash FF*14");
    s.title("R-HASH-9, -10, RFC 2433 B.3: keys");
    s.is("expand FC156AF7EDCD6C", "FC0A5A5E7E6E34D8");
    s.is("dropparity FD0B5B5E7F6E34D9", "FC156AF7EDCD6C");
    s.is("expand 0EDDE3337D427F", "0E6E786636EA08FE");
    s.is("dropparity 0E6E796737EA08FE", "0EDDE3337D427F");
    s.is("dropparity 0123456789ABCDEF", "00451338957377");
    s.is("dropparity 0101010101010101", "00000000000000");
    s.is("expand 00000000000001", "0000000000000002");
    s.is("expand 80000000000000", "8000000000000000");
    s.is("des 00451338957377 4E6F772069732074", "3FA40E8A984D4815");
    s.is("undes 00451338957377 3FA40E8A984D4815", "4E6F772069732074");
    let first = s.ask("dropparity 133457799BBCDFF1");
    let second = s.ask("dropparity 123456789ABCDEF0");
    assert_eq!(first, second);
    s.is(&format!("des {first} 0123456789ABCDEF"), "85E813540F0AB405");
    s.title("R-HASH-11, RFC 2433 B.2: responses");
    s.is(&format!("response {H} {CHX}"), NR);
    s.is(&format!("response {H} {CH23}"), NR23);
    s.is(&format!("response {HQ} {CHX}"), NQ);
    s.is(&format!("response {L} {CHX}"), LR);
    s.is(&format!("desthree {H}0000000000 {CHX}"), NR);
    s.is(&format!("des {} {CHX}", &H[..14]), &NR[..16]);
    s.is("des 4EAC0000000000 102DB5DF085D3041", &NR[32..]);
    s.ask("response 00*16 00*8");
    s.ask("response FF*16 FF*8");
    s.title("R-HASH-12 to -14: sealed blocks of 14, 0, 2, 510, 512 octets");
    let q = s.ask(&format!("seal {H} {} {f}", hex(Q)));
    assert!(q.starts_with("C3509FA25F3DFD43") && q.ends_with("AE36AB02"));
    s.is(&format!("unseal {H} {q}"), &format!("14 {}", hex(Q)));
    let clear = s.ask(&format!("rc4 {H} {q}"));
    assert!(clear.starts_with("030A1118"));
    assert!(clear.ends_with(
        "858C939A4D0079004E006500770050007700 0E000000"
            .replace(' ', "")
            .as_str()
    ));
    for (password, expected) in [
        ("-", "0 -".to_string()),
        ("61*512", format!("512 {}", "61".repeat(512))),
    ] {
        let block = s.ask(&format!("seal {H} {password} {f}"));
        s.is(&format!("unseal {H} {block}"), &expected);
    }
    s.ask(&format!("seal {H} 6200 5A*512"));
    s.ask(&format!("seal {H} 61*510 5A*512"));
    s.ask(&format!("seal {} - 00*512", "00*16"));
    s.note("refused: 8 for 1, 513, 514 octets, then 12 for a filler of 0, 511, 513");
    for (password, filler, refusal) in [
        ("61", "5A*512", 8),
        ("61*513", "5A*512", 8),
        ("61*514", "5A*512", 8),
        ("61*514", "-", 8),
        ("-", "-", 12),
        ("61*512", "-", 12),
        ("61*14", "5A*511", 12),
        ("61*14", "5A*513", 12),
    ] {
        s.is(
            &format!("seal {H} {password} {filler}"),
            &format!("refused {refusal}"),
        );
    }
    s.title(
        "R-HASH-13: opened lengths 514, 513, 7, 511, 65550, 14 in the top octet, 4294967295, 2",
    );
    for (length, expected) in [
        (514u32, "over"),
        (513, "over"),
        (7, "odd"),
        (511, "odd"),
        (65_550, "over"),
        (14 << 24, "over"),
        (u32::MAX, "over"),
        (2, "2 2020"),
    ] {
        let block = block_with_length(&h, length);
        s.is(&format!("unseal {H} {}", hex(&block)), expected);
    }
    s.note("a block of zeros, and a block opened with another hash");
    s.ask(&format!("unseal {H} 00*516"));
    s.ask(&format!("unseal {HQ} {q}"));
    s.title("R-HASH-15: the old hash under the new");
    s.is(
        &format!("oldnew {H} {HQ}"),
        "71BD6CBA24586C0A1354F1B611CB4CAF",
    );
    let exchanged = s.ask(&format!("oldnew {HQ} {H}"));
    assert!(exchanged.starts_with("6C79C7FC"));
    s.ask(&format!("oldnew {H} {H}"));
}

fn conversations(s: &mut Sheet) {
    let good = resp(7, Z24, NR, 1, b"u");
    let bad = resp(7, Z24, BAD, 1, b"u");
    s.title("R-CONV-1: the same inputs twice");
    s.account(H, L, "0000");
    for _ in 0..2 {
        s.open7();
        s.failure(&bad, "691", 1);
    }
    s.title("R-CONV-2, -3: all that it holds; what no rule names stays");
    s.open(255, CHX, "2", "yes");
    let answer = s.success(&resp(255, Z24, NR, 1, b"u"));
    assert_eq!(answer.conversation, format!("255 {CHX} 2 yes 255 ended -"));
    s.title("R-CONV-4: the kept record is dropped at the end");
    s.expire(H, L);
    let answer = s.success(&change(8, &CH, P, Q));
    assert_eq!(answer.conversation, format!("8 {CHX} 2 no 255 ended -"));
    assert_eq!(answer.record, format!("{HQ}/-/0000/0"));
    s.title("R-OPEN-1: any identifier");
    for id in [0, 1, 128, 255] {
        s.open(id, CHX, "-", "-");
    }
    s.title("R-OPEN-2, R-REF-15: r from 0 to 7; 8, 9 and 255 refused");
    for r in 0..8 {
        s.open(7, CHX, &r.to_string(), "-");
    }
    for r in [8, 9, 128, 255] {
        s.places();
        s.is(
            &format!("open 7 {CHX} {r} yes AA*17"),
            &format!("13 0 {} {NOTHING} {}", "AA".repeat(17), unspent()),
        );
    }
    s.account(H, "-", "0000");
    s.open(7, CHX, "0", "-");
    let answer = s.failure(&bad, "691", 0);
    assert_eq!(answer.conversation, format!("7 {CHX} 0 no 255 ended -"));
    s.title("R-OPEN-3: a silent opening has 2 retries");
    s.open7();
    s.failure(&bad, "691", 1);
    s.failure(&resp(8, Z24, BAD, 1, b"u"), "691", 1);
    s.failure(&resp(9, Z24, BAD, 1, b"u"), "691", 0);
    s.title("r = 7: seven retries");
    s.open(250, CHX, "7", "-");
    for n in 0..8u8 {
        s.failure(
            &resp(250u8.wrapping_add(n), Z24, BAD, 1, b"u"),
            "691",
            u8::from(n < 7),
        );
    }
    s.repeats(
        &resp(1, Z24, BAD, 1, b"u"),
        B,
        &format!("04010011{E691R0}"),
        "691",
    );
    s.refused(&resp(2, Z24, BAD, 1, b"u"), B, "1");
    lm_choices(s);
    s.title("R-REC-1: a hash of zeros is not none");
    s.account("00000000000000000000000000000000", "-", "0000");
    s.open7();
    s.success(&resp(7, Z24, ZR, 1, b"u"));
    s.account("-", "-", "0000");
    s.open7_lm();
    s.failure(&resp(7, Z24, ZR, 1, b"u"), "691", 1);
    s.note("the same for LM");
    s.account("-", "00*16", "0000");
    s.open7_lm();
    s.success(&resp(7, ZR, Z24, 0, b"u"));
    s.account(H, "-", "0000");
    s.open7_lm();
    s.failure(&resp(7, ZR, Z24, 0, b"u"), "691", 1);
    s.title("R-REC-2: no record");
    s.is("account -", "");
    s.open7();
    s.failure(&good, "691", 1);
}

/// Request 2026-06, CR06-1, -2 and -4: a silent opening disallows LM, as one that says no does.
fn lm_choices(s: &mut Sheet) {
    let choices = ["-", "yes", "no"];
    s.title("CR06-1, -4: silent, yes and no: what each opens, r being 2");
    for choice in choices {
        s.open(7, CHX, "-", choice);
    }
    s.title(
        "R-OPEN-4, CR06-1: silent, yes, no, each with flag 0 and 1, by the hashes of the record",
    );
    // who draws Success where the Response has flag 0, and where it has 1; all else is 691
    let (nobody, asked, all) = ([false; 3], [false, true, false], [true; 3]);
    for (hashes, nt, lm, both, lm_alone) in [
        ("NT only", H, "-", (nobody, all), (nobody, nobody)),
        ("LM only", "-", L, (asked, asked), (asked, asked)),
        ("both", H, L, (asked, all), (asked, nobody)),
    ] {
        s.account(nt, lm, "0000");
        for (responses, nt_response, lets_in) in [
            ("both responses right", NR, both),
            ("LM right, no NT", Z24, lm_alone),
        ] {
            s.note(&format!("{hashes}; {responses}"));
            for (flag, lets_in) in [(0, lets_in.0), (1, lets_in.1)] {
                for (choice, success) in choices.into_iter().zip(lets_in) {
                    s.open(7, CHX, "-", choice);
                    let packet = resp(7, LR, nt_response, flag, b"u");
                    if success {
                        s.success(&packet);
                    } else {
                        s.failure(&packet, "691", 1);
                    }
                }
            }
        }
    }
    s.title("CR06-1: where LM is off the marks are not told, and the answer is that of no record");
    let by_lm = resp(7, LR, Z24, 0, b"u");
    s.is("account -", "");
    s.open7();
    let none = s.failure(&by_lm, "691", 1);
    s.account("-", L, "1111");
    s.open7();
    let off = s.failure(&by_lm, "691", 1);
    off.answers_as(&none);
    s.note("it stays off after a retry, and while a change is awaited");
    s.account(H, L, "0001");
    s.failure(&resp(8, LR23, Z24, 0, b"u"), "691", 1);
    let answer = s.failure(&resp(9, Z24, NR46, 1, b"u"), "648", 0);
    let last = format!("10 {CH46} 0 no 255 change {H}/{L}/0001/0");
    assert_eq!(answer.conversation, last);
    s.title("CR06-2: an account without an NT hash, where LM is asked for: in, and after a retry");
    s.account("-", L, "0000");
    s.open7_lm();
    s.failure(&resp(7, Z24, NR, 0, b"u"), "691", 1);
    s.success(&resp(8, LR23, Z24, 0, b"u"));
}

fn responses(s: &mut Sheet) {
    let good = resp(7, Z24, NR, 1, b"u");
    let bad = resp(7, Z24, BAD, 1, b"u");
    s.title("R-VALID-1: the whole NT response counts");
    s.account(H, L, "0000");
    s.open7();
    s.failure(&with(&good, &[(52, &[0x60])]), "691", 1);
    s.open7();
    s.failure(&with(&good, &[(29, &[0x4F])]), "691", 1);
    s.title("R-VALID-2: flag 1 and no NT hash");
    s.account("-", L, "0000");
    s.open7_lm();
    s.success(&resp(7, LR, Z24, 1, b"u"));
    s.open7_lm();
    s.failure(&resp(7, Z24, LR, 1, b"u"), "691", 1);
    s.open(7, CHX, "-", "no");
    s.failure(&resp(7, LR, Z24, 1, b"u"), "691", 1);
    s.title("R-VALID-3: flag 0 goes to LM");
    s.account(H, L, "0000");
    s.open7_lm();
    s.success(&resp(7, LR, BAD, 0, b"u"));
    s.open7_lm();
    s.failure(&resp(7, Z24, NR, 0, b"u"), "691", 1);
    s.open(7, CHX, "-", "no");
    s.failure(&resp(7, LR, NR, 0, b"u"), "691", 1);
    s.open7_lm();
    s.failure(&with(&resp(7, LR, NR, 0, b"u"), &[(28, &[0x7C])]), "691", 1);
    s.title("R-VALID-4: neither hash");
    s.account("-", "-", "0000");
    for flag in [0, 1] {
        s.open7_lm();
        s.failure(&resp(7, Z24, Z24, flag, b"u"), "691", 1);
    }
    s.title("R-VALID-5: no way back to LM");
    s.account(H, L, "0000");
    s.open7_lm();
    s.failure(&resp(7, LR, BAD, 1, b"u"), "691", 1);
    s.title("R-VALID-6: the grown challenge after a retry");
    s.open7();
    let answer = s.failure(&bad, "691", 1);
    assert_eq!(answer.conversation, format!("8 {CH23} 1 no 255 response -"));
    s.success(&resp(8, Z24, NR23, 1, b"u"));
    s.open7();
    s.failure(&bad, "691", 1);
    s.failure(&resp(8, Z24, NR, 1, b"u"), "691", 1);
    s.note("LM after a retry");
    s.open7_lm();
    s.failure(&bad, "691", 1);
    s.success(&resp(8, LR23, Z24, 0, b"u"));
    s.title("R-REASON-1: 691 before the marks");
    for marks in ["1000", "0100", "0010", "0001", "1111"] {
        s.account(H, L, marks);
        s.open7();
        s.failure(&bad, "691", 1);
    }
    s.title("R-REASON-2 to -4, R-NEXT-5: all marks, by NT, by LM with flag 0, by LM with flag 1");
    for (nt, lm, packet) in [
        (H, "-", good.clone()),
        (H, L, resp(7, LR, Z24, 0, b"u")),
        ("-", L, resp(7, LR, NR, 1, b"DOM\\u")),
    ] {
        for marks in 0..16u8 {
            let [disabled, hours, dialin, expired] = [
                marks & 8 != 0,
                marks & 4 != 0,
                marks & 2 != 0,
                marks & 1 != 0,
            ];
            let reason = match (disabled, hours, dialin, expired) {
                (true, _, _, _) => "647",
                (_, true, _, _) => "646",
                (_, _, true, _) => "649",
                (_, _, _, true) => "648",
                _ => "0",
            };
            s.account(nt, lm, &format!("{marks:04b}"));
            s.open7_lm();
            if reason == "0" {
                s.success(&packet);
            } else {
                let answer = s.failure(&packet, reason, 0);
                if reason == "648" {
                    assert_eq!(
                        answer.conversation,
                        format!("8 {CHX} 2 yes 255 change {nt}/{lm}/0001/0")
                    );
                } else {
                    assert_eq!(answer.conversation, format!("7 {CHX} 2 yes 255 ended -"));
                }
            }
        }
    }
    s.title("R-NEXT-1: r = 1");
    s.account(H, "-", "0000");
    s.open(7, CHX, "1", "no");
    let answer = s.failure(&bad, "691", 1);
    assert_eq!(answer.conversation, format!("8 {CH23} 0 no 255 response -"));
    s.failure(&resp(8, Z24, BAD, 1, b"u"), "691", 0);
    s.title("R-NEXT-2: identifier 255, then 0");
    s.open(255, CHX, "-", "-");
    let answer = s.failure(&resp(255, Z24, BAD, 1, b"u"), "691", 1);
    assert!(answer.conversation.starts_with("0 "));
    s.success(&resp(0, Z24, NR23, 1, b"u"));
    s.title("R-NEXT-3: challenge octets E8, E9, FF");
    for (before, after) in [("E8", "FF"), ("E9", "00"), ("FF", "16")] {
        s.open(7, &format!("{before}02030405060708"), "-", "-");
        let answer = s.failure(&bad, "691", 1);
        assert_eq!(
            answer.conversation,
            format!("8 {after}02030405060708 1 no 255 response -")
        );
    }
    s.title("R-NEXT-4: expired, identifier 255");
    s.account(H, L, "0001");
    s.open(255, CHX, "3", "no");
    let answer = s.failure(&resp(255, Z24, NR, 1, b"u"), "648", 0);
    assert_eq!(
        answer.conversation,
        format!("0 {CHX} 3 no 255 change {H}/{L}/0001/0")
    );
    s.title("R-REPLY-1, -2: the message, the answered identifier");
    s.open(9, CHX, "-", "-");
    let answer = s.failure(&resp(9, Z24, BAD, 1, b"u"), "691", 1);
    assert_eq!(hex(answer.reply()), format!("04090011{E691R1}"));
    s.title("R-REPLY-3: no record and an invalid response, the same answer");
    s.is("account -", "");
    s.open7();
    let none = s.failure(&bad, "691", 1);
    s.account(H, L, "1111");
    s.open7();
    let invalid = s.failure(&bad, "691", 1);
    invalid.answers_as(&none);
    s.note("with no retries left");
    s.is("account -", "");
    s.open(7, CHX, "0", "-");
    let none = s.failure(&bad, "691", 0);
    s.account(H, L, "1111");
    s.open(7, CHX, "0", "-");
    let invalid = s.failure(&bad, "691", 0);
    invalid.answers_as(&none);
    s.title("R-REPLY-4: the later octets of the buffer stay, in buffers of 17, 18 and 40 octets");
    s.account(H, L, "0000");
    for size in [17, 18, 40] {
        s.open7();
        let answer = s.step(&good, &format!("AA*{size}"));
        assert_eq!(
            hex(&answer.buffer),
            format!("03070004{}", "AA".repeat(size - 4))
        );
        s.open7();
        s.step(&bad, &format!("AA*{size}"));
    }
    s.places();
    s.is(
        &format!("open 7 {CHX} - - 0102030405060708090A0B0C0D0E0F1011"),
        &format!(
            "0 13 0107000D08{CHX}0E0F1011 7 {CHX} 2 no 255 response - - {}",
            spent(CHX, 2)
        ),
    );
}

fn changes(s: &mut Sheet) {
    let chg = change(8, &CH, P, Q);
    let renewed = format!("{HQ}/-/0000/0");
    s.title("R-CHANGE-1: the kept record has no NT hash");
    s.expire("-", L);
    s.bad_change(&chg, Fault::NoNtHash);
    s.title("R-CHANGE-2: flags 0, 2, 3");
    for (flags, accepted) in [([0, 0], false), ([0, 2], false), ([0, 3], true)] {
        s.expire(H, L);
        let packet = with(&chg, &[(1116, &flags)]);
        if accepted {
            assert_eq!(s.success(&packet).record, renewed);
        } else {
            s.bad_change(&packet, Fault::BitClear);
        }
    }
    s.title("R-CHANGE-3, R-PROG-1: block lengths 0 and 512 accepted, other fields right");
    let empty = change(8, &CH, P, b"");
    s.expire(H, L);
    assert_eq!(
        s.success(&empty).record,
        "31D6CFE0D16AE931B73C59D7E0C089C0/-/0000/0"
    );
    let longest = vec![0x61; 512];
    s.expire(H, L);
    assert_eq!(
        s.success(&change(8, &CH, P, &longest)).record,
        "71AD0EBE8DB92F0DECA36C233E1AC4CB/-/0000/0"
    );
    s.note("block lengths 513, 514, 7, 65550");
    for (length, fault) in [
        (513, Fault::Over),
        (514, Fault::Over),
        (7, Fault::Odd),
        (65_550, Fault::Over),
    ] {
        s.expire(H, L);
        s.bad_change(&change_with_length(length, Q), fault);
    }
    s.note("a shorter even length: another password, 709");
    s.expire(H, L);
    s.bad_change(&change_with_length(12, Q), Fault::OldHash);
    s.title("R-CHANGE-4: the old hash under the new");
    s.expire(H, L);
    let second = bytes("D14243A8B2D2B1BE");
    s.bad_change(&with(&chg, &[(528, &second)]), Fault::OldHash);
    s.title("R-CHANGE-5: the NT response of the old hash, and to the grown challenge");
    s.expire(H, L);
    s.bad_change(&with(&chg, &[(1092, &bytes(NR))]), Fault::Response);
    s.expire(H, L);
    s.bad_change(&with(&chg, &[(1092, &bytes(NQ23))]), Fault::Response);
    s.title("R-CHANGE-6: LM fields and bit 1 ignored, whether LM is allowed or not");
    let filled = with(&chg, &[(536, &[0xFF; 556]), (1116, &[0, 3])]);
    for choice in ["yes", "-"] {
        s.expire_with(H, L, choice);
        assert_eq!(s.success(&filled).record, renewed);
    }
    s.title("R-CHANGE-7, R-SER-8: the record handed out; the new password may be the old one");
    s.expire(H, "-");
    assert_eq!(
        s.success(&change(8, &CH, P, P)).record,
        format!("{H}/-/0000/0")
    );
    s.title("R-CHANGE-8 to -10: 709 ends; nothing more is answered but a repeat");
    s.expire(H, L);
    let wrong_old = change(8, &CH, BADPW, Q);
    let answer = s.bad_change(&wrong_old, Fault::Over);
    assert_eq!(answer.conversation, format!("8 {CHX} 2 no 255 ended -"));
    s.repeats(&chg, B, &format!("04080011{E709}"), "709");
    s.refused(&with(&chg, &[(1, &[9])]), B, "1");
    s.refused(&resp(8, Z24, NR, 1, b"u"), B, "1");
    s.refused(&resp(8, Z24, NR, 1, b"u"), "-", "2");
    s.title("R-CHANGE-11: the record lent to the change has no effect");
    s.expire(H, L);
    s.is("account -", "");
    assert_eq!(s.success(&chg).record, renewed);
    s.expire(H, L);
    s.account("11*16", "22*16", "1111");
    assert_eq!(s.success(&chg).record, renewed);
    s.title("a padded change");
    s.expire(H, L);
    let mut padded = chg.clone();
    padded.extend_from_slice(&[0xEE; 5]);
    assert_eq!(s.success(&padded).record, renewed);
    s.title("a LM Response (flag 0) of a record that has both hashes, expired, then the change");
    s.account(H, L, "0001");
    s.open(7, CHX, "0", "yes");
    let answer = s.failure(&resp(7, LR, Z24, 0, b"u"), "648", 0);
    assert_eq!(
        answer.conversation,
        format!("8 {CHX} 0 yes 255 change {H}/{L}/0001/0")
    );
    assert_eq!(s.success(&chg).record, renewed);
}

fn readers(s: &mut Sheet) {
    s.title("R-READ-1, -2: replies and their identifier");
    s.is("reply 9 030A0004", "refused 5");
    s.is("reply 9 03090004", "success");
    s.is("reply 255 03FF0004", "success");
    s.title("R-MSG-1: 256 octets read, 257 refused");
    s.is(
        &format!("failure {}{}", text("E=691"), "20".repeat(251)),
        "691 0 - 1 end",
    );
    s.is(
        &format!("failure {}{}", text("E=691"), "20".repeat(252)),
        "refused 11",
    );
    s.is(
        &format!("reply 9 04090104{}{}", text("E=691"), "20".repeat(251)),
        "failure 691 0 - 1 end",
    );
    s.is(
        &format!("reply 9 04090105{}{}", text("E=691"), "20".repeat(252)),
        "refused 11",
    );
    s.is(
        &format!("reply 9 04090104{}{}99", text("E=691"), "20".repeat(251)),
        "failure 691 0 - 1 end",
    );
    s.is(
        &format!("failure {}{}", "20".repeat(251), text("E=691")),
        "691 0 - 1 end",
    );
    s.is("failure -", "refused 11");
    s.is("failure 20*256", "refused 11");
    s.title("R-MSG-2 to -11, R-CALL-1 to -4: messages");
    for (message, expected) in [
        ("E=691 R=1 V=2", "691 1 - 2 retry"),
        ("E=691\tR=1", "refused 11"),
        ("E=691\nR=1", "refused 11"),
        ("E=691\0R=1", "refused 11"),
        ("E=691 R=1 V=2\n", "691 1 - 1 retry"),
        ("  E=691   R=1 ", "691 1 - 1 retry"),
        ("xE=691 E=648", "648 0 - 1 change1"),
        ("E=69x1E=5 E=648", "648 0 - 1 change1"),
        ("E=9999999999", "9999999999 0 - 1 end"),
        ("E=4294967296", "4294967296 0 - 1 end"),
        ("E=4294967987 R=1", "4294967987 1 - 1 end"),
        ("E=0000000691 R=1", "691 1 - 1 retry"),
        ("E=00000000691", "refused 11"),
        ("E=00000000691 E=1", "1 0 - 1 end"),
        ("E=", "refused 11"),
        ("E= 691", "refused 11"),
        ("E =691", "refused 11"),
        ("E", "refused 11"),
        ("E=+1", "refused 11"),
        ("E=-1", "refused 11"),
        ("E=691,", "refused 11"),
        ("E=691R=1", "refused 11"),
        ("E==691", "refused 11"),
        ("EE=691", "refused 11"),
        ("E=0", "0 0 - 1 end"),
        ("E=691 R=12", "691 0 - 1 end"),
        ("E=691 R=01", "691 0 - 1 end"),
        ("E=691 R=2", "691 0 - 1 end"),
        ("E=691 R=", "691 0 - 1 end"),
        ("E=691 R=2 R=1", "691 1 - 1 retry"),
        ("R=1 E=691", "691 1 - 1 retry"),
        ("E=691 E=648 R=0 R=1", "691 0 - 1 end"),
        ("E=1 C=0123456789abcdeF", "1 0 0123456789ABCDEF 1 end"),
        ("E=1 C=00aBcdef01234567", "1 0 00ABCDEF01234567 1 end"),
        ("E=1 C=0123456789ABCD", "1 0 - 1 end"),
        ("E=1 C=0123456789ABCDE", "1 0 - 1 end"),
        ("E=1 C=0123456789ABCDEF0", "1 0 - 1 end"),
        ("E=1 C=0123456789ABCDEF01", "1 0 - 1 end"),
        ("E=1 C=0123456789ABCDEG", "1 0 - 1 end"),
        (
            "E=1 C=0123456789ABCDEG C=FFFFFFFFFFFFFFFF",
            "1 0 FFFFFFFFFFFFFFFF 1 end",
        ),
        (
            "C=0011223344556677 C=8899AABBCCDDEEFF E=691",
            "691 0 0011223344556677 1 end",
        ),
        (
            "E=691 R=1 C=0000000000000000",
            "691 1 0000000000000000 1 retry",
        ),
        ("E=648 R=0 V=3 extra", "648 0 - 3 change2"),
        ("extra E=648 text V=2 R=0 more", "648 0 - 2 change2"),
        ("E=648", "648 0 - 1 change1"),
        ("E=5", "5 0 - 1 end"),
        ("e=691 E=5", "5 0 - 1 end"),
        ("E=5 r=1 v=2 c=0123456789ABCDEF", "5 0 - 1 end"),
        ("E=646 R=1", "646 1 - 1 end"),
        ("E=691", "691 0 - 1 end"),
        ("E=648 R=1 V=3", "648 1 - 3 change2"),
        ("E=648 V=9999999999", "648 0 - 9999999999 change2"),
        ("E=648 V=10000000000", "648 0 - 1 change1"),
        ("E=648 V=4294967296", "648 0 - 4294967296 change2"),
        ("E=648 V=2", "648 0 - 2 change2"),
        ("E=648 V=1", "648 0 - 1 change1"),
        ("E=648 V=0", "648 0 - 0 change1"),
        ("E=648 V=0000000002", "648 0 - 2 change2"),
        ("E=648 V=x V=2", "648 0 - 2 change2"),
        ("E=709 R=1 V=2", "709 1 - 2 end"),
        ("E=647 R=0 V=2", "647 0 - 2 end"),
        ("E=649 R=0 V=2", "649 0 - 2 end"),
        ("R=1 V=2", "refused 11"),
        (
            "M=Bad E=691 R=1 C=102DB5DF085D3041 V=2 M=text",
            "691 1 102DB5DF085D3041 2 retry",
        ),
    ] {
        s.is(&format!("failure {}", text(message)), expected);
    }
    s.note("octets above 7F, and the fullwidth of a word");
    s.is(
        &format!("failure FFFE20{}", text("E=691 R=1")),
        "691 1 - 1 retry",
    );
    s.is(
        &format!("failure {}A0{}", text("E=691"), text("R=1")),
        "refused 11",
    );
    s.title("replies that are failures");
    for (message, expected) in [
        (E691R1, "failure 691 1 - 2 retry"),
        (E691R0, "failure 691 0 - 2 end"),
        (E648, "failure 648 0 - 2 change2"),
        (E709, "failure 709 0 - 2 end"),
    ] {
        s.is(&format!("reply 8 04080011{message}"), expected);
    }
}

fn turns(s: &mut Sheet) {
    let failure = |id: u8, message: &str| {
        let length = 4 + message.len();
        format!("04{id:02X}{:04X}{}", length, text(message))
    };
    s.title("R-TURN-1: a retry takes C");
    let next = "8 0123456789ABCDEF";
    s.is(
        &format!(
            "turn 7 {CHX} {}",
            failure(7, "E=691 R=1 C=0123456789ABCDEF")
        ),
        next,
    );
    let nt = "2406C122F5D6D934CA96020272A269FD843BFE321A566F26";
    s.is(
        &format!("writeresponse {next} {} 75 AA*55", hex(P)),
        &format!("0 55 0208003731{Z24}{nt}0175"),
    );
    s.title("R-TURN-2: else the 23 rule, twice");
    let e691 = "E=691 R=1 V=2";
    s.is(
        &format!("turn 7 {CHX} {}", failure(7, e691)),
        &format!("8 {CH23}"),
    );
    s.is(
        &format!("turn 8 {CH23} {}", failure(8, e691)),
        "9 3E2DB5DF085D3041",
    );
    s.is(
        &format!("turn 8 0123456789ABCDEF {}", failure(8, e691)),
        "9 1823456789ABCDEF",
    );
    s.is(
        &format!("turn 8 E902030405060708 {}", failure(8, e691)),
        "9 0002030405060708",
    );
    s.title("R-TURN-3: however often the reply is read");
    for _ in 0..3 {
        s.is(
            &format!("turn 7 {CHX} {}", failure(7, e691)),
            &format!("8 {CH23}"),
        );
    }
    s.title("R-TURN-4: a change uses the last response's challenge");
    s.is(
        &format!(
            "turn 7 {CHX} {}",
            failure(7, "E=648 R=0 C=0123456789ABCDEF V=2")
        ),
        &format!("8 {CHX}"),
    );
    s.is(
        &format!("turn 7 {CHX} {}", failure(7, "E=648 R=0 V=2")),
        &format!("8 {CHX}"),
    );
    s.title("R-TURN-5: identifier 255, then 0");
    s.is(
        &format!("turn 255 {CHX} {}", failure(255, e691)),
        &format!("0 {CH23}"),
    );
    s.is(
        &format!("turn 255 {CHX} {}", failure(255, "E=648 R=0 V=2")),
        &format!("0 {CHX}"),
    );
    s.title("no next turn: success, end, refusals 3, 5, 11; CR07-12: one for a version 1 change");
    let same = format!("7 {CHX}");
    let next = format!("8 {CHX}");
    for (packet, turn) in [
        ("03070004".to_string(), &same),
        (failure(7, "E=691 R=0 V=2"), &same),
        (failure(7, "E=646 R=1 C=0123456789ABCDEF"), &same),
        (failure(7, "E=648 R=1 V=1 C=0123456789ABCDEF"), &next),
        (failure(7, "E=648"), &next),
        (failure(7, "R=1 V=2"), &same),
        (failure(8, e691), &same),
        ("0407".to_string(), &same),
        ("-".to_string(), &same),
        (format!("0107000D08{CHX}"), &same),
    ] {
        s.is(&format!("turn 7 {CHX} {packet}"), turn);
    }
}

fn refusals(s: &mut Sheet) {
    let good = resp(7, Z24, NR, 1, b"u");
    let chg = change(8, &CH, P, Q);
    s.title("R-REF-1: the conversation has ended, after 2, 3 and a repeat, before all else");
    s.account(H, L, "0000");
    s.open7();
    s.success(&good);
    s.repeats(&good, B, "03070004", "0");
    s.refused(&resp(8, Z24, NR, 1, b"u"), B, "1");
    s.refused(&chg, B, "1");
    s.refused(&bytes("01070004"), B, "1");
    s.refused(&bytes("02080004"), B, "1");
    s.refused(&resp(8, Z24, NR, 9, b"u"), B, "1");
    s.refused(&[], "AA*3", "2");
    s.refused(&[], B, "3");
    s.refused(&good, "-", "2");
    s.note("and after a refused opening");
    s.places();
    s.is(
        &format!("open 7 {CHX} 8 yes {B}"),
        &format!("13 0 {} {NOTHING} {}", "AA".repeat(20), unspent()),
    );
    s.refused(&resp(0, Z24, NR, 1, b"u"), B, "1");
    s.title("R-REF-2: reply buffers of 16 and 17 octets, also at the opening");
    s.places();
    s.is(
        &format!("open 7 {CHX} - - AA*16"),
        &format!("2 0 {} {NOTHING} {}", "AA".repeat(16), unspent()),
    );
    s.places();
    s.is(
        &format!("open 7 {CHX} - - -"),
        &format!("2 0 - {NOTHING} {}", unspent()),
    );
    s.places();
    s.begins(&format!("open 7 {CHX} - - AA*17"), "0 13 0107000D08");
    s.refused(&good, "AA*16", "2");
    s.refused(&good, "AA*4", "2");
    s.refused(&good, "-", "2");
    let answer = s.step(&good, "AA*17");
    assert_eq!(answer.refusal, "0");
    s.title("R-REF-3: the frame");
    s.open7();
    for packet in [
        "",
        "02",
        "0207",
        "020700",
        "0207003731",
        "02070003",
        "02070000",
        "0207FFFF",
    ] {
        s.refused(&bytes(packet), B, "3");
    }
    s.refused(&with(&good, &[(2, &[0, 3])]), B, "3");
    s.refused(&with(&good, &[(2, &[0, 0x38])]), B, "3");
    s.refused(&good[..54], B, "3");
    s.title("R-REF-4: the code");
    s.refused(&with(&chg, &[(1, &[7])]), B, "4");
    for code in [0, 1, 3, 4, 5, 6, 7, 255] {
        s.refused(&with(&good, &[(0, &[code])]), B, "4");
    }
    s.title("R-REF-5: the identifier");
    for id in [6, 8, 0, 255] {
        s.refused(&resp(id, Z24, NR, 1, b"u"), B, "5");
    }
    s.title("R-REF-6: Response Length or size");
    s.refused(&bytes("02070004"), B, "6");
    s.refused(&bytes("0207000531"), B, "6");
    s.refused(&resp(7, Z24, NR, 1, b""), B, "6");
    s.refused(&with(&good, &[(2, &[0, 0x36])]), B, "6");
    s.refused(&resp(7, Z24, NR, 1, &[b'u'; 257]), B, "6");
    s.refused(&with(&good, &[(4, &[48])]), B, "6");
    s.refused(&with(&good, &[(4, &[50])]), B, "6");
    s.refused(&with(&good, &[(4, &[0])]), B, "6");
    s.title("R-REF-7: the Response's flag");
    for flag in [2, 3, 128, 255] {
        s.refused(&resp(7, Z24, NR, flag, b"u"), B, "7");
    }
    s.note("after all these the conversation still takes the right Response");
    s.success(&good);
    s.title("a change awaited: refusals 2, 3, 4, 5, 6, 7");
    s.expire(H, L);
    s.refused(&chg[..1117], "AA*16", "2");
    s.refused(&chg[..1117], B, "3");
    s.refused(&resp(8, Z24, NR, 1, b"u"), B, "4");
    s.refused(&with(&chg, &[(1, &[7])]), B, "5");
    s.refused(&with(&chg, &[(1, &[9])]), B, "5");
    s.refused(&with(&chg[..1117], &[(2, &[4, 0x5D])]), B, "6");
    let mut longer = chg.clone();
    longer.push(0);
    s.refused(&with(&longer, &[(2, &[4, 0x5F])]), B, "6");
    s.refused(&bytes("06080004"), B, "6");
    for flags in [[0, 4], [0x80, 1], [1, 1], [0, 5], [0xFF, 0xFF]] {
        s.refused(&with(&chg, &[(1116, &flags)]), B, "7");
    }
    s.note("and the change is still accepted");
    s.success(&chg);
    s.title("R-REF-8: passwords of the writers");
    let aa = |size: usize| "AA".repeat(size);
    for password in ["61", "616263", "61*511", "61*513", "61*514"] {
        s.is(
            &format!("writeresponse 7 {CHX} {password} 75 AA*60"),
            &format!("8 0 {}", aa(60)),
        );
        s.is(
            &format!("writechange 8 {CHX} {password} 6100 5A*512 AA*20"),
            &format!("8 0 {}", aa(20)),
        );
        s.is(
            &format!("writechange 8 {CHX} 6100 {password} 5A*512 AA*20"),
            &format!("8 0 {}", aa(20)),
        );
    }
    s.title("R-REF-9: the output buffer");
    s.is(
        &format!("writeresponse 7 {CHX} {} 75 AA*54", hex(P)),
        &format!("9 0 {}", aa(54)),
    );
    s.is(
        &format!("writeresponse 7 {CHX} {} 75*256 AA*309", hex(P)),
        &format!("9 0 {}", aa(309)),
    );
    s.is(&format!("writeresponse 7 {CHX} {} 75 -", hex(P)), "9 0 -");
    s.is(
        &format!("writechange 8 {CHX} {} {} 5A*512 AA*1117", hex(P), hex(Q)),
        &format!("9 0 {}", aa(1117)),
    );
    s.is(
        &format!("writechange 8 {CHX} {} {} 5A*512 -", hex(P), hex(Q)),
        "9 0 -",
    );
    s.title("R-REF-10: the name to be written");
    s.is(
        &format!("writeresponse 7 {CHX} {} - AA*60", hex(P)),
        &format!("10 0 {}", aa(60)),
    );
    s.is(
        &format!("writeresponse 7 {CHX} {} 75*257 AA*400", hex(P)),
        &format!("10 0 {}", aa(400)),
    );
    s.begins(
        &format!("writeresponse 7 {CHX} {} 75*256 AA*310", hex(P)),
        "0 310 0207013631",
    );
    s.title("R-REF-11 to -13: the peer's readers");
    s.is("reply 9 0109000D080102030405060708", "refused 11");
    s.is("reply 9 02090004", "refused 11");
    s.is("reply 9 05090004", "refused 11");
    s.is("reply 9 06090004", "refused 11");
    s.is("reply 9 00090004", "refused 11");
    s.is(&format!("challenge 04090011{E691R1}"), "refused 11");
    s.is("challenge 0207000D080102030405060708", "refused 11");
    s.is("challenge 0107000C0801020304050607", "refused 11");
    s.is("challenge 0107000C080102030405060708", "refused 11");
    s.is("challenge 0107000D070102030405060708", "refused 11");
    s.is("challenge 0107000D090102030405060708", "refused 11");
    s.is("challenge 01070004", "refused 11");
    s.is("challenge 0107000408", "refused 11");
    s.is("challenge 0107000508", "refused 11");
    s.is(
        &format!("reply 9 0409000B{}", text("R=1 V=2")),
        "refused 11",
    );
    s.note("3 before all");
    for packet in [
        "-",
        "01",
        "010700",
        "01070003",
        "0107000E080102030405060708",
    ] {
        s.is(&format!("challenge {packet}"), "refused 3");
    }
    for packet in [
        "-", "03", "030900", "03090003", "03090005", "03080000", "01080005",
    ] {
        s.is(&format!("reply 9 {packet}"), "refused 3");
    }
    s.title("R-REF-14: the filler");
    for size in [0, 1, 511, 513] {
        let filler = if size == 0 {
            "-".to_string()
        } else {
            format!("5A*{size}")
        };
        s.is(
            &format!("writechange 8 {CHX} {} 61*512 {filler} AA*20", hex(P)),
            &format!("12 0 {}", aa(20)),
        );
    }
    s.title("R-ORD-1, -5, R-DEM-2: the box's order; a refusal changes nothing (the rest: CR01-9)");
    let mut packet = resp(8, Z24, NR, 9, b"u");
    packet[0] = 3;
    packet[3] = 0x36;
    s.account(H, L, "0000");
    s.open7();
    s.refused(&packet, "AA*16", "2");
    s.refused(&packet, "AA*17", "4");
    packet[0] = 2;
    s.refused(&packet, "AA*17", "5");
    packet[1] = 7;
    s.refused(&packet, "AA*17", "6");
    packet[3] = 0x37;
    s.refused(&packet, "AA*17", "7");
    packet[53] = 1;
    let answer = s.step(&packet, "AA*17");
    assert_eq!(answer.refusal, "0");
    s.title("R-ORD-2: the opening's order");
    s.places();
    s.is(
        &format!("open 7 {CHX} 8 - -"),
        &format!("13 0 - {NOTHING} {}", unspent()),
    );
    s.places();
    s.is(
        &format!("open 7 {CHX} 7 - -"),
        &format!("2 0 - {NOTHING} {}", unspent()),
    );
    s.title("R-ORD-3: the peer's reader");
    s.is("reply 9 01080004", "refused 5");
    s.is(&format!("reply 9 0408000B{}", text("R=1 V=2")), "refused 5");
    s.is("reply 9 0108FFFF", "refused 3");
    s.title("R-ORD-4: the peer's writers");
    s.is(&format!("writeresponse 7 {CHX} 616263 - -"), "8 0 -");
    s.is(&format!("writeresponse 7 {CHX} 6162 - -"), "10 0 -");
    s.is(&format!("writeresponse 7 {CHX} 6162 75 -"), "9 0 -");
    s.is(&format!("writechange 8 {CHX} 616263 6162 - -"), "8 0 -");
    s.is(&format!("writechange 8 {CHX} 6162 616263 - -"), "8 0 -");
    s.is(&format!("writechange 8 {CHX} 6162 6162 - -"), "12 0 -");
    s.is(&format!("writechange 8 {CHX} 6162 6162 5A*512 -"), "9 0 -");
}

fn slips(s: &mut Sheet) {
    let chg = change(8, &CH, P, Q);
    let f = hex(&filler());
    s.title("R-SLIP-1: a change with A.9's second key");
    let h: [u8; 16] = array(H);
    let hq: [u8; 16] = array(HQ);
    let key: [u8; 7] = hq[..7].try_into().unwrap();
    let second = reference::des::encrypt(&key, &h[8..].try_into().unwrap());
    assert_eq!(hex(&second), "D14243A8B2D2B1BE");
    s.expire(H, L);
    s.bad_change(&with(&chg, &[(528, &second)]), Fault::OldHash);
    s.title("R-SLIP-2: a change whose response is made from the old hash");
    s.expire(H, L);
    s.bad_change(&with(&chg, &[(1092, &bytes(NR))]), Fault::Response);
    s.title("R-SLIP-3: RC4 started anew for the length");
    let mut length = 14u32.to_le_bytes();
    rc4(&h, &mut length).unwrap();
    assert_eq!(hex(&length), "CE5A8EBA");
    s.expire(H, L);
    s.bad_change(&with(&chg, &[(516, &length)]), Fault::Over);
    let sealed = s.ask(&format!("seal {H} {} {f}", hex(Q)));
    assert!(sealed.ends_with("AE36AB02"));
    s.title("R-SLIP-4: LM right, NT wrong, flag 1");
    s.account(H, L, "0000");
    s.open7_lm();
    s.failure(&resp(7, LR, BAD, 1, b"u"), "691", 1);
}

fn table_of_twelve(s: &mut Sheet) {
    s.title("the table of twelve: a to l");
    s.account(H, "-", "0000");
    s.open(255, "E802030405060708", "1", "-");
    let answer = s.failure(&resp(255, Z24, Z24, 1, b"u"), "691", 1);
    assert_eq!(
        answer.conversation,
        "0 FF02030405060708 0 no 255 response -"
    );
    s.open(7, "E902030405060708", "1", "-");
    let answer = s.failure(&resp(7, Z24, Z24, 1, b"u"), "691", 1);
    assert_eq!(
        answer.conversation,
        "8 0002030405060708 0 no 255 response -"
    );
    s.is("expand FFFFFFFFFFFFFF", "FEFEFEFEFEFEFEFE");
    s.is("expand 01000000000000", "0080000000000000");
    s.places();
    s.begins(
        "open 7 0102030405060708 - - AA*17",
        "0 13 0107000D080102030405060708AAAAAAAA ",
    );
    s.open(9, CHX, "-", "-");
    let answer = s.failure(&resp(9, Z24, BAD, 1, b"u"), "691", 1);
    assert_eq!(hex(answer.reply()), "04090011453D36393120523D3120563D32");
    s.open7();
    let mut packet = bytes("0207003631");
    packet.resize(54, 0);
    s.refused(&packet, B, "6");
    let mut packet = bytes("0207013731");
    packet.resize(311, 0);
    s.refused(&packet, B, "6");
    for (length, expected) in [(514u32, "over"), (7, "odd")] {
        let mut block = [0u8; 516];
        block[512..].copy_from_slice(&length.to_le_bytes());
        rc4(&array::<16>(H), &mut block).unwrap();
        s.is(&format!("unseal {H} {}", hex(&block)), expected);
    }
    s.is(
        &format!("failure {}", text("E=648 R=0 V=3 extra")),
        "648 0 - 3 change2",
    );
    s.is(&format!("failure {}", text("R=1 V=2")), "refused 11");
}

/// Our peer against our box, each packet taken from what was written before.
struct Peer {
    /// What the next packet is written from, and what the last one was.
    turn: String,
    last: String,
    /// The last packet.
    sent: Vec<u8>,
}

impl Peer {
    /// Opens, and has the peer read the Challenge.
    fn meet(s: &mut Sheet, id: u8, r: &str) -> Peer {
        s.places();
        let result = s.ask(&format!("open {id} {CHX} {r} - {B}"));
        let buffer = result.split(' ').nth(2).unwrap();
        let turn = s.ask(&format!("challenge {}", &buffer[..26]));
        assert_eq!(turn, format!("{id} {CHX}"));
        Peer {
            turn,
            last: String::new(),
            sent: Vec::new(),
        }
    }

    /// Writes a packet, hands it to the box, reads the reply.
    fn send(&mut self, s: &mut Sheet, command: &str, verdict: &str) -> Stepped {
        let result = s.ask(command);
        let words: Vec<&str> = result.split(' ').collect();
        assert_eq!(words[0], "0");
        let size: usize = words[1].parse().unwrap();
        self.sent = bytes(&words[2][..2 * size]);
        let answer = s.step(&self.sent, B);
        let id = self.turn.split(' ').next().unwrap().to_string();
        let reply = hex(answer.reply());
        s.is(&format!("reply {id} {reply}"), verdict);
        self.last = s.ask(&format!("turn {} {reply}", self.turn));
        std::mem::swap(&mut self.turn, &mut self.last);
        answer
    }

    /// Sends the last packet again, as a peer does that missed the reply, and reads the reply.
    fn again(&mut self, s: &mut Sheet, verdict: &str) {
        let answer = s.step(&self.sent, B);
        assert_eq!(
            (answer.repeated.as_str(), answer.record.as_str()),
            ("1", "-")
        );
        let id = self.last.split(' ').next().unwrap().to_string();
        let reply = hex(answer.reply());
        s.is(&format!("reply {id} {reply}"), verdict);
        s.is(&format!("turn {} {reply}", self.last), &self.turn);
    }

    fn respond(&mut self, s: &mut Sheet, password: &[u8], verdict: &str) -> Stepped {
        let command = format!(
            "writeresponse {} {} {} AA*64",
            self.turn,
            hex(password),
            text("DOM\\user")
        );
        self.send(s, &command, verdict)
    }

    fn change_1(&mut self, s: &mut Sheet, old: &[u8], new: &[u8], verdict: &str) -> Stepped {
        let passwords = format!("{} {}", hex(old), hex(new));
        let command = format!("writechange1 {} {passwords} AA*72", self.turn);
        self.send(s, &command, verdict)
    }

    fn change(&mut self, s: &mut Sheet, old: &[u8], new: &[u8], verdict: &str) -> Stepped {
        let command = format!(
            "writechange {} {} {} {} AA*1118",
            self.turn,
            hex(old),
            hex(new),
            hex(&filler())
        );
        self.send(s, &command, verdict)
    }
}

fn exchanges(s: &mut Sheet) {
    let retry = "failure 691 1 - 2 retry";
    let end = "failure 691 0 - 2 end";
    let renew = "failure 648 0 - 2 change2";
    s.title("R-DEM-3, RFC 2433 B.1.1: successful authentication");
    s.account(H, L, "0000");
    let mut peer = Peer::meet(s, 7, "-");
    peer.respond(s, P, "success");
    s.title("RFC 2433 B.1.2: failed authentication with no retry allowed");
    let mut peer = Peer::meet(s, 7, "0");
    peer.respond(s, BADPW, end);
    s.title("RFC 2433 B.1.3: successful authentication after retry");
    let mut peer = Peer::meet(s, 255, "-");
    peer.respond(s, BADPW, retry);
    assert_eq!(peer.turn, format!("0 {CH23}"));
    peer.respond(s, P, "success");
    s.title("RFC 2433 B.1.4: failed hack attack with 3 attempts allowed");
    let mut peer = Peer::meet(s, 7, "2");
    peer.respond(s, b"", retry);
    peer.respond(s, BADPW, retry);
    assert_eq!(peer.turn, "9 3E2DB5DF085D3041");
    peer.respond(s, Q, end);
    s.refused(&resp(10, Z24, NR, 1, b"u"), B, "1");
    s.title("RFC 2433 B.1.5: successful authentication with password change");
    s.account(H, L, "0001");
    let mut peer = Peer::meet(s, 7, "-");
    peer.respond(s, P, renew);
    assert_eq!(peer.turn, format!("8 {CHX}"));
    let answer = peer.change(s, P, Q, "success");
    assert_eq!(answer.record, format!("{HQ}/-/0000/0"));
    s.note("the record handed out lets the new password in, and the old one not");
    s.is("relend", "");
    let mut peer = Peer::meet(s, 7, "-");
    peer.respond(s, Q, "success");
    s.is("relend", "");
    let mut peer = Peer::meet(s, 7, "0");
    peer.respond(s, P, end);
    s.title("RFC 2433 B.1.6: successful authentication with retry and password change");
    s.account(H, L, "0001");
    let mut peer = Peer::meet(s, 254, "1");
    peer.respond(s, BADPW, retry);
    s.refused(&bytes("010203"), B, "3");
    peer.respond(s, P, renew);
    assert_eq!(peer.turn, format!("0 {CH23}"));
    let longest = vec![0x41; 512];
    let answer = peer.change(s, P, &longest, "success");
    assert_eq!(answer.conversation, format!("0 {CH23} 0 no 255 ended -"));
    s.is("relend", "");
    let mut peer = Peer::meet(s, 1, "0");
    peer.respond(s, &longest, "success");
    s.title("a change with the wrong old password: 709, no record, nothing relent");
    s.account(H, L, "0001");
    let mut peer = Peer::meet(s, 7, "7");
    peer.respond(s, P, renew);
    let answer = peer.change(s, BADPW, Q, "failure 709 0 - 2 end");
    assert_eq!((answer.fault.as_str(), answer.record.as_str()), ("3", "-"));
    s.is("relend", "");
    let mut peer = Peer::meet(s, 7, "0");
    peer.respond(s, P, renew);
    s.title("each reason, read by the peer");
    for (marks, verdict) in [
        ("1111", "failure 647 0 - 2 end"),
        ("0111", "failure 646 0 - 2 end"),
        ("0011", "failure 649 0 - 2 end"),
        ("0001", "failure 648 0 - 2 change2"),
        ("0000", "success"),
    ] {
        s.account(H, "-", marks);
        let mut peer = Peer::meet(s, 7, "-");
        peer.respond(s, P, verdict);
    }
}

fn damaged(s: &mut Sheet) {
    let good = resp(7, Z24, NR, 1, b"DOM\\u");
    s.title("a Response with one bit changed, octet by octet");
    s.account(H, L, "0000");
    for place in [0, 1, 2, 3, 4, 5, 28, 29, 36, 37, 44, 45, 52, 53, 54, 58] {
        for bit in [0x01, 0x80] {
            s.open7_lm();
            let packet = with(&good, &[(place, &[good[place] ^ bit])]);
            let answer = s.step(&packet, B);
            let expected = match (place, bit) {
                (0, _) => "4",
                (1, _) => "5",
                (2, _) => "3",
                (3, 1) => "0",
                (3, _) => "3",
                (4, _) => "6",
                (53, 0x80) => "7",
                _ => "0",
            };
            assert_eq!(answer.refusal, expected, "{place} {bit}");
            s.ask(&format!("name {} {}", hex(&packet), text("HOME")));
        }
    }
    s.title("a change with one bit changed, field by field");
    let chg = change(8, &CH, P, Q);
    for (place, fault) in [
        (4, None),
        (501, None),
        (502, Some(Fault::OldHash)),
        (515, Some(Fault::OldHash)),
        // the length 0E 00 00 00 becomes 1E 00 00 00, which is 30, and then 0E 00 00 10
        (516, Some(Fault::OldHash)),
        (519, Some(Fault::Over)),
        (520, Some(Fault::OldHash)),
        (535, Some(Fault::OldHash)),
        (536, None),
        (1091, None),
        (1092, Some(Fault::Response)),
        (1115, Some(Fault::Response)),
    ] {
        s.expire(H, L);
        let packet = with(&chg, &[(place, &[chg[place] ^ 0x10])]);
        match fault {
            None => s.success(&packet),
            Some(fault) => s.bad_change(&packet, fault),
        };
    }
    s.title("a whole packet cut short at each of its first octets, for each reader");
    s.open7();
    for size in 0..8 {
        s.refused(&good[..size], B, "3");
    }
    let failure = bytes(&format!("04090011{E691R1}"));
    for size in 0..=17 {
        let part = hex(&failure[..size]);
        s.is(
            &format!("reply 9 {part}"),
            if size < 17 {
                "refused 3"
            } else {
                "failure 691 1 - 2 retry"
            },
        );
    }
    s.title("a Failure cut short by its Length");
    for size in 4..=17u8 {
        let packet = with(&failure, &[(3, &[size])]);
        s.ask(&format!("reply 9 {}", hex(&packet)));
        s.ask(&format!("turn 9 {CHX} {}", hex(&packet)));
    }
}

fn octet_strings(s: &mut Sheet) {
    s.title("the octet strings: none, zero times, once");
    s.is("md4 00*0", "31D6CFE0D16AE931B73C59D7E0C089C0");
    s.is("rc4 01 00*1", "06");
}

/// Request 2026-01: what a packet draws that has the code and the identifier last answered.
fn repeats(s: &mut Sheet) {
    let good = resp(7, Z24, NR, 1, b"u");
    let bad = resp(7, Z24, BAD, 1, b"u");
    let bad8 = resp(8, Z24, BAD, 1, b"u");
    let right8 = resp(8, Z24, NR23, 1, b"u");
    let chg = change(8, &CH, P, Q);
    let four = bytes("02070004");
    let retry7 = format!("04070011{E691R1}");
    let expired7 = format!("04070011{E648}");

    s.title("CR01-1, -6: after Success the same reply octets; those behind them stay");
    s.account(H, L, "0000");
    s.open7();
    s.success(&good);
    s.repeats(&four, "AA*17", "03070004", "0");
    s.repeats(&good, "AA*17", "03070004", "0");
    for buffer in ["AA*18", B, "AA*40"] {
        s.repeats(&good, buffer, "03070004", "0");
    }
    s.note("the record passed has no effect: another, none, a disabled one");
    s.account("11*16", "22*16", "0000");
    s.repeats(&good, B, "03070004", "0");
    s.is("account -", "");
    s.repeats(&good, B, "03070004", "0");
    s.account(H, L, "1111");
    s.repeats(&good, B, "03070004", "0");
    s.note("after each other end: 647, 646, 649, 691 with no retry left");
    for (marks, packet, reason) in [
        ("1000", &good, "647"),
        ("0100", &good, "646"),
        ("0010", &good, "649"),
        ("0000", &bad, "691"),
    ] {
        s.account(H, L, marks);
        s.open(7, CHX, "0", "-");
        s.failure(packet, reason, 0);
        s.account(H, L, "0000");
        let reply = format!("04070011{}", text(&format!("E={reason} R=0 V=2")));
        s.repeats(&good, B, &reply, reason);
        s.repeats(&four, B, &reply, reason);
    }

    s.title("CR01-2: both the code and the identifier last answered");
    s.account(H, L, "0001");
    s.open7();
    s.failure(&good, "648", 0);
    s.refused(&with(&chg, &[(1, &[7])]), B, "5");
    s.refused(&bytes("06070004"), B, "5");
    s.refused(&bytes("02080004"), B, "4");
    s.repeats(&good, B, &expired7, "648");
    s.note("a Response again while a change is awaited, which is then accepted");
    s.repeats(&four, B, &expired7, "648");
    s.repeats(&bad, B, &expired7, "648");
    assert_eq!(s.success(&chg).record, format!("{HQ}/-/0000/0"));

    s.title("CR01-3, -4, -6: between tries; whatever its other contents, it is not judged");
    s.account(H, L, "0000");
    s.open(7, CHX, "1", "-");
    let answer = s.failure(&bad, "691", 1);
    assert_eq!(answer.conversation, format!("8 {CH23} 0 no 255 response -"));
    s.repeats(&bad, B, &retry7, "691");
    s.note("the right password under the old identifier, to either challenge");
    s.repeats(&good, B, &retry7, "691");
    s.repeats(&resp(7, Z24, NR23, 1, b"u"), B, &retry7, "691");
    s.note("Lengths 4, 5, 54 and 311, size 48, flag 2, octets after Length 4");
    for packet in [
        four.clone(),
        bytes("0207000531"),
        resp(7, Z24, NR, 1, b""),
        resp(7, Z24, NR, 1, &[b'u'; 257]),
        with(&good, &[(4, &[48])]),
        with(&good, &[(53, &[2])]),
        with(&good, &[(3, &[4])]),
    ] {
        s.repeats(&packet, B, &retry7, "691");
    }
    s.note("the awaited identifier is still 8, and a try is left");
    s.success(&right8);

    s.title("CR01-5: an accepted change again hands out no record");
    s.expire(H, L);
    assert_eq!(s.success(&chg).record, format!("{HQ}/-/0000/0"));
    s.repeats(&chg, B, "03080004", "0");
    s.repeats(&bytes("06080004"), "AA*17", "03080004", "0");
    s.note("the Response before it is no longer kept; and relend finds none: still expired");
    s.refused(&good, B, "1");
    s.repeats(&chg, B, "03080004", "0");
    s.is("relend", "");
    s.open7();
    s.failure(&good, "648", 0);
    s.note("after 709: the right change, and one of another password, draw 709 again");
    s.expire(H, L);
    s.bad_change(&change(8, &CH, BADPW, Q), Fault::Over);
    for packet in [&chg, &change(8, &CH, P, P), &bytes("06080004")] {
        s.repeats(packet, B, &format!("04080011{E709}"), "709");
    }

    s.title("CR01-7: only the last answer");
    s.account(H, L, "0000");
    s.open7();
    s.failure(&bad, "691", 1);
    s.failure(&bad8, "691", 1);
    s.refused(&bad, B, "5");
    s.refused(&four, B, "5");
    s.repeats(&bad8, B, &format!("04080011{E691R1}"), "691");
    s.note("and after the end");
    s.failure(&resp(9, Z24, BAD, 1, b"u"), "691", 0);
    s.refused(&bad, B, "1");
    s.refused(&bad8, B, "1");
    s.repeats(&bytes("02090004"), B, &format!("04090011{E691R0}"), "691");
    s.refused(&bytes("020A0004"), B, "1");
    s.note("a refused packet is no answer: the one before it is still the last");
    s.open7();
    s.failure(&bad, "691", 1);
    s.refused(&with(&bad8, &[(53, &[9])]), B, "7");
    s.repeats(&bad, B, &retry7, "691");
    s.note("while a change is awaited: 4, as the code comes before the identifier");
    s.account(H, L, "0001");
    s.open7();
    s.failure(&bad, "691", 1);
    s.failure(&right8, "648", 0);
    s.refused(&bad, B, "4");
    s.refused(&four, B, "4");
    s.repeats(&right8, B, &format!("04080011{E648}"), "648");
    s.account(H, L, "0000");

    s.title("CR01-8: none at the opening; the Challenge is no answer");
    s.open7();
    s.refused(&resp(6, Z24, NR, 1, b"u"), B, "5");
    s.refused(&bytes("01070004"), B, "4");
    s.refused(&four, B, "6");
    s.refused(&bytes("00000004"), B, "4");
    s.success(&good);
    s.note("a new opening has none, under the identifier of the one before too");
    s.open7();
    s.refused(&four, B, "6");
    s.open(0, CHX, "-", "-");
    s.refused(&bytes("02000004"), B, "6");
    s.note("nor has a refused one, with identifier 0");
    s.places();
    s.is(
        &format!("open 7 {CHX} 8 - {B}"),
        &format!("13 0 {} {NOTHING} {}", "AA".repeat(20), unspent()),
    );
    for packet in ["00000004", "02000004", "06000004"] {
        s.refused(&bytes(packet), B, "1");
    }

    s.title("CR01-9: 2 and 3 first, then the repeat, then 1, then 4 to 7");
    s.note("between tries");
    s.open7();
    s.failure(&bad, "691", 1);
    s.refused(&bad, "AA*16", "2");
    s.refused(&bytes("020700"), "AA*16", "2");
    s.refused(&bytes("020700"), B, "3");
    s.refused(&bytes("02070003"), B, "3");
    s.refused(&bytes("02070005"), B, "3");
    s.repeats(&four, "AA*17", &retry7, "691");
    s.note("after the end, which Success of 4 octets was: room for 17 is asked for all the same");
    s.open7();
    s.success(&good);
    s.refused(&bytes("02070003"), "AA*16", "2");
    for buffer in ["-", "AA*4", "AA*16"] {
        s.refused(&good, buffer, "2");
        s.refused(&resp(8, Z24, NR, 1, b"u"), buffer, "2");
    }
    for packet in [
        "", "02", "0207", "020700", "02070003", "02070005", "0108FFFF",
    ] {
        s.refused(&bytes(packet), B, "3");
    }
    s.refused(&with(&good, &[(2, &[0, 3])]), B, "3");
    s.refused(&good[..54], B, "3");
    s.repeats(&four, "AA*17", "03070004", "0");
    for packet in ["02080004", "01070004", "06080004", "06070004", "FFFF0004"] {
        s.refused(&bytes(packet), B, "1");
    }
    s.note("a change awaited: 2, 3, the repeat, then 4, 5, 6 and 7");
    s.expire(H, L);
    s.refused(&four, "AA*16", "2");
    s.refused(&bytes("02070005"), B, "3");
    s.repeats(&four, B, &expired7, "648");
    s.refused(&bytes("02080004"), B, "4");
    s.refused(&bytes("06090004"), B, "5");
    s.refused(&bytes("06080004"), B, "6");
    s.refused(&with(&chg, &[(1116, &[0, 4])]), B, "7");
    s.repeats(&good, B, &expired7, "648");

    s.title("CR01-10: a hundred repeats of one wrong try: one packet is judged");
    s.account(H, L, "0000");
    s.open(7, CHX, "0", "-");
    let end7 = format!("04070011{E691R0}");
    let before = s.judged;
    s.failure(&bad, "691", 0);
    for n in 0..100 {
        let packet = if n % 10 == 0 { &bad } else { &four };
        s.repeats(packet, "AA*17", &end7, "691");
    }
    s.repeats(&good, B, &end7, "691");
    s.refused(&right8, B, "1");
    assert_eq!(s.judged - before, 1);

    s.title("CR01-11: a wrong try, a repeat of it, the right one: two are judged");
    s.open(7, CHX, "1", "-");
    let before = s.judged;
    s.failure(&bad, "691", 1);
    s.repeats(&bad, B, &retry7, "691");
    s.success(&right8);
    s.repeats(&right8, B, "03080004", "0");
    s.refused(&bad, B, "1");
    assert_eq!(s.judged - before, 2);
    s.note("with the record expired three; our peer reads each reply again as it read it first");
    s.account(H, L, "0001");
    let mut peer = Peer::meet(s, 7, "1");
    let before = s.judged;
    peer.respond(s, BADPW, "failure 691 1 - 2 retry");
    peer.again(s, "failure 691 1 - 2 retry");
    peer.respond(s, P, "failure 648 0 - 2 change2");
    peer.again(s, "failure 648 0 - 2 change2");
    peer.again(s, "failure 648 0 - 2 change2");
    let answer = peer.change(s, P, Q, "success");
    assert_eq!(answer.record, format!("{HQ}/-/0000/0"));
    peer.again(s, "success");
    assert_eq!(s.judged - before, 3);
    s.title("CR01-2, -7: identifiers 255 and 0");
    s.account(H, L, "0000");
    s.open(255, CHX, "2", "-");
    s.failure(&resp(255, Z24, BAD, 1, b"u"), "691", 1);
    s.repeats(&bytes("02FF0004"), B, &format!("04FF0011{E691R1}"), "691");
    s.failure(&resp(0, Z24, BAD, 1, b"u"), "691", 1);
    s.refused(&bytes("02FF0004"), B, "5");
    s.repeats(&bytes("02000004"), B, &format!("04000011{E691R1}"), "691");
    s.account(H, L, "0001");
    s.open(255, CHX, "0", "no");
    let answer = s.failure(&resp(255, Z24, NR, 1, b"u"), "648", 0);
    assert_eq!(answer.last, "2:255:648/0");
    s.repeats(&bytes("02FF0004"), B, &format!("04FF0011{E648}"), "648");
    assert_eq!(s.success(&change(0, &CH, P, Q)).last, "6:0:success");
    s.repeats(&bytes("06000004"), B, "03000004", "0");
    s.refused(&bytes("02000004"), B, "1");
}

/// Entries of a list: C1, its successors by the 23 rule as far as r = 7 goes, and another with its
/// first two.
const C1: &str = "0102030405060708";
const C18: &str = "1802030405060708";
const C2F: &str = "2F02030405060708";
const C46: &str = "4602030405060708";
const C5D: &str = "5D02030405060708";
const C74: &str = "7402030405060708";
const C8B: &str = "8B02030405060708";
const CA2: &str = "A202030405060708";
const D11: &str = "1112131415161718";
const D28: &str = "2812131415161718";
const D3F: &str = "3F12131415161718";
const Z8: &str = "0000000000000000";

/// 256 counts, all 0.
const NO_COUNTS: &str = "00*512";

/// As many counts, 0 but for those of the octets named.
fn counts(size: usize, named: &[(usize, u16)]) -> String {
    let mut counts = vec![0u16; size];
    for (octet, count) in named {
        counts[*octet] = *count;
    }
    counts.iter().map(|count| format!("{count:04X}")).collect()
}

impl Sheet {
    fn list(&mut self, buffer: &str, used: usize, counts: &str) {
        self.is(&format!("list {buffer} {used} {counts}"), "");
    }

    /// An opening that is not refused, and the list afterwards.
    fn spends(&mut self, challenge: &str, r: u8, list: &str) {
        let written = format!("0 13 0107000D08{challenge}AAAAAAAA");
        let opened = format!("7 {challenge} {r} no {} response - -", self.limit);
        self.is(
            &format!("open 7 {challenge} {r} - AA*17"),
            &format!("{written} {opened} {list}"),
        );
    }

    /// An opening that is refused, and the list, which stays.
    fn keeps(&mut self, challenge: &str, r: u8, refusal: u8, list: &str) {
        self.is(
            &format!("open 7 {challenge} {r} - AA*17"),
            &format!("{refusal} 0 {} {NOTHING} {list}", "AA".repeat(17)),
        );
    }
}

fn issued_challenges(s: &mut Sheet) {
    s.title("CR03-1: the entries are the used places; the others are not compared, and stay");
    s.list(&format!("{C1}{Z8}"), 0, NO_COUNTS);
    s.spends(C1, 0, &format!("1 {C1}{Z8} 08:1"));
    s.list(&format!("{D11}{C1}{C1}"), 1, &counts(256, &[(0x18, 1)]));
    s.spends(C1, 0, &format!("2 {D11}{C1}{C1} 08:1,18:1"));
    s.keeps(C1, 0, 16, &format!("2 {D11}{C1}{C1} 08:1,18:1"));
    s.list("EE*32", 0, NO_COUNTS);
    s.spends(C1, 1, &format!("2 {C1}{C18}{} 08:2", "EE".repeat(16)));
    s.note("a place of octets 00 is an entry when it is used");
    s.list("00*16", 1, &counts(256, &[(0, 1)]));
    s.keeps(Z8, 0, 16, &format!("1 {Z8}{Z8} 00:1"));
    s.is("places 2", "");
    s.spends(Z8, 0, &format!("1 {Z8}{Z8} 00:1"));
    s.keeps(Z8, 0, 16, &format!("1 {Z8}{Z8} 00:1"));

    s.title("CR03-2, -4, -5: the challenge and its r successors, in that order, and the counts");
    s.is("places 4", "");
    s.spends(C1, 2, &format!("3 {C1}{C18}{C2F}{Z8} 08:3"));
    s.is("places 4", "");
    s.spends(C1, 0, &format!("1 {C1}{Z8}{Z8}{Z8} 08:1"));
    s.is("places 4", "");
    s.spends(C1, 1, &format!("2 {C1}{C18}{Z8}{Z8} 08:2"));
    s.note("a silent opening has 2 retries");
    s.is("places 4", "");
    let opened = format!("0 13 0107000D08{C1}AAAAAAAA 7 {C1} 2 no 255 response - -");
    s.is(
        &format!("open 7 {C1} - - AA*17"),
        &format!("{opened} 3 {C1}{C18}{C2F}{Z8} 08:3"),
    );
    s.note("the first octet wraps, with no carry");
    s.is("places 3", "");
    s.spends(
        "E902030405060708",
        2,
        "3 E90203040506070800020304050607081702030405060708 08:3",
    );
    s.is("places 3", "");
    s.spends(
        "E9FFFFFFFFFFFFFF",
        1,
        "2 E9FFFFFFFFFFFFFF00FFFFFFFFFFFFFF0000000000000000 FF:2",
    );
    s.is("places 2", "");
    s.spends(
        "FF000000000000FE",
        1,
        "2 FF000000000000FE16000000000000FE FE:2",
    );
    s.note("behind the used ones; each last octet has its count");
    s.is("places 9", "");
    s.spends(D11, 1, &format!("2 {D11}{D28}{} 18:2", Z8.repeat(7)));
    s.spends(
        C1,
        2,
        &format!("5 {D11}{D28}{C1}{C18}{C2F}{} 08:3,18:2", Z8.repeat(4)),
    );
    s.spends(
        "08020304050607FF",
        0,
        &format!(
            "6 {D11}{D28}{C1}{C18}{C2F}08020304050607FF{} 08:3,18:2,FF:1",
            Z8.repeat(3)
        ),
    );
    s.spends(
        "0802030405060700",
        0,
        &format!(
            "7 {D11}{D28}{C1}{C18}{C2F}08020304050607FF0802030405060700{} 00:1,08:3,18:2,FF:1",
            Z8.repeat(2)
        ),
    );
    s.spends(
        D3F,
        1,
        &format!(
            "9 {D11}{D28}{C1}{C18}{C2F}08020304050607FF0802030405060700{D3F}5612131415161718 00:1,08:3,18:4,FF:1"
        ),
    );
    s.note("a list of 128 places");
    s.is("places 128", "");
    s.spends(C1, 2, &format!("3 {C1}{C18}{C2F}{} 08:3", Z8.repeat(125)));

    s.title("CR03-3: each of them is sought in every used place, by all its octets");
    let one = counts(256, &[(8, 1)]);
    let two = counts(256, &[(8, 2)]);
    s.list(&format!("{C18}{Z8}{Z8}"), 1, &one);
    s.keeps(C1, 1, 16, &format!("1 {C18}{Z8}{Z8} 08:1"));
    s.keeps(C18, 0, 16, &format!("1 {C18}{Z8}{Z8} 08:1"));
    s.spends(C1, 0, &format!("2 {C18}{C1}{Z8} 08:2"));
    s.note("the last successor of r 7, which r 6 does not reach");
    s.list(&format!("{CA2}{}", Z8.repeat(8)), 1, &one);
    s.keeps(C1, 7, 16, &format!("1 {CA2}{} 08:1", Z8.repeat(8)));
    s.spends(
        C1,
        6,
        &format!("8 {CA2}{C1}{C18}{C2F}{C46}{C5D}{C74}{C8B}{Z8} 08:8"),
    );
    s.note("a successor past octet FF");
    s.is("places 3", "");
    s.spends(C1, 0, &format!("1 {C1}{Z8}{Z8} 08:1"));
    s.keeps("EA02030405060708", 1, 16, &format!("1 {C1}{Z8}{Z8} 08:1"));
    s.spends(
        "EA02030405060708",
        0,
        &format!("2 {C1}EA02030405060708{Z8} 08:2"),
    );
    s.note("in the first used place, in one between, in the last");
    s.is("places 6", "");
    s.spends(D11, 2, &format!("3 {D11}{D28}{D3F}{Z8}{Z8}{Z8} 18:3"));
    for (challenge, r) in [(D11, 0), (D28, 0), (D3F, 0), (D28, 1)] {
        s.keeps(
            challenge,
            r,
            16,
            &format!("3 {D11}{D28}{D3F}{Z8}{Z8}{Z8} 18:3"),
        );
    }
    s.list(
        &format!("{D11}{C2F}{Z8}{Z8}{Z8}"),
        2,
        &counts(256, &[(8, 1), (0x18, 1)]),
    );
    s.keeps(C1, 2, 16, &format!("2 {D11}{C2F}{Z8}{Z8}{Z8} 08:1,18:1"));
    s.note("entries that differ in the first octet only, in one between, in the last only");
    for near in ["0002030405060708", "0102030405060608", "0102030C05060708"] {
        s.list(&format!("{near}{Z8}"), 1, &one);
        s.spends(C1, 0, &format!("2 {near}{C1} 08:2"));
    }
    s.list(&format!("0102030405060709{Z8}"), 1, &counts(256, &[(9, 1)]));
    s.spends(C1, 0, &format!("2 0102030405060709{C1} 08:1,09:1"));
    s.note("octets that stand across two places, or in another order, are no entry");
    s.list(
        &format!("AAAAAAAA0102030405060708BBBBBB08{Z8}"),
        2,
        &counts(256, &[(4, 1), (8, 1)]),
    );
    s.spends(
        C1,
        0,
        &format!("3 AAAAAAAA0102030405060708BBBBBB08{C1} 04:1,08:2"),
    );
    s.list(&format!("0807060504030201{Z8}"), 1, &counts(256, &[(1, 1)]));
    s.spends(C1, 0, &format!("2 0807060504030201{C1} 01:1,08:1"));
    s.note("the same challenge twice, and openings whose successors meet");
    s.is("places 5", "");
    s.spends(C1, 2, &format!("3 {C1}{C18}{C2F}{Z8}{Z8} 08:3"));
    for challenge in [C1, C18, C2F] {
        s.keeps(challenge, 0, 16, &format!("3 {C1}{C18}{C2F}{Z8}{Z8} 08:3"));
    }
    s.spends(C46, 0, &format!("4 {C1}{C18}{C2F}{C46}{Z8} 08:4"));
    s.note("a list may be lent with an entry twice");
    s.list(&format!("{C1}{C1}{Z8}"), 2, &two);
    s.keeps(C1, 0, 16, &format!("2 {C1}{C1}{Z8} 08:2"));
    s.spends(C18, 0, &format!("3 {C1}{C1}{C18} 08:3"));

    s.title(
        "CR03-6: buffers of 1, 7, 9, 12 and 1,023 octets are not whole places; of 0 octets, 17",
    );
    for size in [1, 7, 9, 12, 1023] {
        s.list(&format!("00*{size}"), 0, NO_COUNTS);
        s.keeps(C1, 0, 24, &format!("0 {} -", "00".repeat(size)));
    }
    s.list(&format!("{C1}00000000"), 1, &one);
    s.keeps(D11, 0, 24, &format!("1 {C1}00000000 08:1"));
    s.keeps(C1, 0, 24, &format!("1 {C1}00000000 08:1"));
    s.list("-", 0, NO_COUNTS);
    s.keeps(C1, 0, 17, "0 - -");
    s.keeps(C1, 7, 17, "0 - -");
    s.is("places 0", "");
    s.keeps(C1, 0, 17, "0 - -");
    s.list("00*1024", 0, NO_COUNTS);
    s.spends(C1, 0, &format!("1 {C1}{} 08:1", Z8.repeat(127)));

    s.title("CR03-7: more used than there are places");
    s.list("00*16", 3, &counts(256, &[(0, 3)]));
    s.keeps(C1, 0, 24, &format!("3 {Z8}{Z8} 00:3"));
    s.list("00*16", 3, &counts(256, &[(0, 2)]));
    s.keeps(C1, 0, 24, &format!("3 {Z8}{Z8} 00:2"));
    s.list("00*16", 999_999_999, NO_COUNTS);
    s.keeps(C1, 0, 24, &format!("999999999 {Z8}{Z8} -"));
    s.list("-", 1, NO_COUNTS);
    s.keeps(C1, 0, 24, "1 - -");
    s.note("as many as there are: 17");
    s.list("00*16", 2, &counts(256, &[(0, 2)]));
    s.keeps(C1, 0, 17, &format!("2 {Z8}{Z8} 00:2"));
    s.title("CR03-7: counts of another number: 255, 257, none, 1, 512; half a count is none");
    let empty = format!("0 {Z8}{Z8} -");
    for size in [510, 514, 0, 1, 2, 1024] {
        s.list("00*16", 0, &format!("00*{size}"));
        s.keeps(C1, 0, 24, &empty);
    }
    s.list(&format!("{C1}{Z8}"), 1, &counts(257, &[(8, 1), (256, 1)]));
    s.keeps(D11, 0, 24, &format!("1 {C1}{Z8} 08:1"));
    s.note("511 octets are 255 counts, 513 are 256");
    s.list("00*16", 0, "00*511");
    s.keeps(C1, 0, 24, &empty);
    s.list("00*16", 0, "00*513");
    s.spends(C1, 0, &format!("1 {C1}{Z8} 08:1"));
    s.title("CR03-7: counts that are not true");
    for (octet, shown) in [(0, "00:1"), (8, "08:1"), (255, "FF:1")] {
        s.list("00*16", 0, &counts(256, &[(octet, 1)]));
        s.keeps(C1, 0, 24, &format!("0 {Z8}{Z8} {shown}"));
    }
    s.note("one too high, one too low, of another octet, of the first octets, 256 too high");
    let held = format!("{C1}{D11}{Z8}");
    for (named, shown) in [
        (&[(8, 2), (0x18, 1)][..], "08:2,18:1"),
        (&[(8, 1)], "08:1"),
        (&[(8, 1), (0x19, 1)], "08:1,19:1"),
        (&[(8, 2)], "08:2"),
        (&[(1, 1), (0x11, 1)], "01:1,11:1"),
        (&[(8, 257), (0x18, 1)], "08:257,18:1"),
        (&[(8, 1), (0x18, 1), (0xFF, 65_535)], "08:1,18:1,FF:65535"),
    ] {
        s.list(&held, 2, &counts(256, named));
        s.keeps(C46, 0, 24, &format!("2 {held} {shown}"));
    }
    s.note("only of an octet that no entry ends in; of the unused places too");
    s.list(&held, 2, &counts(256, &[(8, 1), (0x18, 1), (0xFE, 1)]));
    s.keeps(C46, 0, 24, &format!("2 {held} 08:1,18:1,FE:1"));
    s.list(&held, 2, &counts(256, &[(0, 1), (8, 1), (0x18, 1)]));
    s.keeps(C46, 0, 24, &format!("2 {held} 00:1,08:1,18:1"));
    s.note("the true ones");
    s.list(&held, 2, &counts(256, &[(8, 1), (0x18, 1)]));
    s.spends(C46, 0, &format!("3 {C1}{D11}{C46} 08:2,18:1"));

    s.title("CR03-8: 16, then 17 with fewer than r + 1 places left");
    s.list(&format!("{C1}{Z8}"), 1, &one);
    s.keeps(C1, 1, 16, &format!("1 {C1}{Z8} 08:1"));
    s.keeps(D11, 1, 17, &format!("1 {C1}{Z8} 08:1"));
    s.spends(D11, 0, &format!("2 {C1}{D11} 08:1,18:1"));
    s.note("full: 16 for what is there, 17 for all else");
    s.keeps(C1, 0, 16, &format!("2 {C1}{D11} 08:1,18:1"));
    s.keeps(D11, 7, 16, &format!("2 {C1}{D11} 08:1,18:1"));
    s.keeps("FA12131415161718", 1, 16, &format!("2 {C1}{D11} 08:1,18:1"));
    s.keeps(D28, 0, 17, &format!("2 {C1}{D11} 08:1,18:1"));
    s.note("exactly r + 1 places left, and one fewer");
    s.is("places 4", "");
    s.spends(D11, 0, &format!("1 {D11}{Z8}{Z8}{Z8} 18:1"));
    s.keeps(C1, 3, 17, &format!("1 {D11}{Z8}{Z8}{Z8} 18:1"));
    s.spends(C1, 2, &format!("4 {D11}{C1}{C18}{C2F} 08:3,18:1"));
    s.is("places 7", "");
    s.keeps(C1, 7, 17, &format!("0 {} -", Z8.repeat(7)));
    s.spends(C1, 6, &format!("7 {C1}{C18}{C2F}{C46}{C5D}{C74}{C8B} 08:7"));
    s.is("places 1", "");
    s.keeps(C1, 1, 17, &format!("0 {Z8} -"));
    s.spends(C1, 0, &format!("1 {C1} 08:1"));

    s.title("CR03-9: the order 13, 2, 24, 16, 17");
    let untrue = counts(256, &[(0, 1), (8, 1)]);
    s.list(C1, 1, &untrue);
    let kept = format!("1 {C1} 00:1,08:1");
    let aa16 = "AA".repeat(16);
    s.is(
        &format!("open 7 {C1} 8 - AA*16"),
        &format!("13 0 {aa16} {NOTHING} {kept}"),
    );
    s.is(
        &format!("open 7 {C1} 2 - AA*16"),
        &format!("2 0 {aa16} {NOTHING} {kept}"),
    );
    s.is(
        &format!("open 7 {C1} - - AA*16"),
        &format!("2 0 {aa16} {NOTHING} {kept}"),
    );
    s.keeps(C1, 8, 13, &kept);
    s.keeps(C1, 2, 24, &kept);
    s.keeps(D11, 2, 24, &kept);
    s.list(C1, 1, &one);
    s.keeps(C1, 2, 16, &format!("1 {C1} 08:1"));
    s.keeps(D11, 2, 17, &format!("1 {C1} 08:1"));
    s.is(
        &format!("open 7 {C1} 255 - -"),
        &format!("13 0 - {NOTHING} 1 {C1} 08:1"),
    );
    s.is(
        &format!("open 7 {C1} 0 - -"),
        &format!("2 0 - {NOTHING} 1 {C1} 08:1"),
    );
    s.note("24 before 17: 12 octets, all used and nothing left");
    s.list("00*12", 1, &counts(256, &[(0, 1)]));
    s.keeps(C1, 0, 24, &format!("1 {} 00:1", "00".repeat(12)));

    s.title("CR03-10: a full list stays full until the caller empties it");
    s.is("places 1", "");
    s.spends(C1, 0, &format!("1 {C1} 08:1"));
    for challenge in [D11, D28, D3F, C18, C1] {
        let refusal = if challenge == C1 { 16 } else { 17 };
        s.keeps(challenge, 0, refusal, &format!("1 {C1} 08:1"));
    }
    s.list(C1, 0, NO_COUNTS);
    s.spends(C1, 0, &format!("1 {C1} 08:1"));
    s.note("the counts emptied without the list, the list without the counts: 24");
    s.list(C1, 1, NO_COUNTS);
    s.keeps(D11, 0, 24, &format!("1 {C1} -"));
    s.list(C1, 0, &one);
    s.keeps(D11, 0, 24, &format!("0 {C1} 08:1"));

    s.title(
        "CR03-11: after refusals 24, 13, 2, 16 and 17 all is as it was, and goes on from there",
    );
    let held = format!("{D11}{C46}EEEEEEEEEEEEEEEE");
    s.list(&held, 2, &counts(256, &[(8, 1), (0x18, 2)]));
    for _ in 0..2 {
        s.keeps(C1, 0, 24, &format!("2 {held} 08:1,18:2"));
    }
    s.list(&held, 2, &counts(256, &[(8, 1), (0x18, 1)]));
    let kept = format!("2 {held} 08:1,18:1");
    s.keeps(C1, 8, 13, &kept);
    s.is(
        &format!("open 7 {C1} 0 no AA*16"),
        &format!("2 0 {aa16} {NOTHING} {kept}"),
    );
    s.keeps(C1, 3, 16, &kept);
    s.keeps(C1, 2, 17, &kept);
    s.spends(C1, 0, &format!("3 {D11}{C46}{C1} 08:2,18:1"));
    s.note("a refused opening leaves no conversation");
    s.keeps(C1, 0, 16, &format!("3 {D11}{C46}{C1} 08:2,18:1"));
    s.refused(&resp(7, Z24, NR, 1, b"u"), B, "1");

    s.title("CR03-12: the entries of one opening differ");
    s.is("places 8", "");
    s.spends(
        C1,
        7,
        &format!("8 {C1}{C18}{C2F}{C46}{C5D}{C74}{C8B}{CA2} 08:8"),
    );
    s.is("places 9", "");
    s.spends(
        "F000000000000000",
        7,
        concat!(
            "8 F00000000000000007000000000000001E000000000000003500000000000000",
            "4C0000000000000063000000000000007A000000000000009100000000000000",
            "0000000000000000 00:8"
        ),
    );

    s.title("CR03-14: what may open does, and goes on: a retry, a success; then neither challenge opens again");
    s.account(H, L, "0000");
    s.is("places 4", "");
    let kept = format!("2 {CHX}{CH23}{Z8}{Z8} 41:2");
    s.spends(CHX, 1, &kept);
    let answer = s.failure(&resp(7, Z24, BAD, 1, b"u"), "691", 1);
    assert_eq!(answer.conversation, format!("8 {CH23} 0 no 255 response -"));
    s.success(&resp(8, Z24, NR23, 1, b"u"));
    s.keeps(CHX, 0, 16, &kept);
    s.keeps(CH23, 0, 16, &kept);
    s.note("13, then an opening that is not refused");
    s.keeps(CHX, 9, 13, &kept);
    s.spends(
        "3E2DB5DF085D3041",
        0,
        &format!("3 {CHX}{CH23}3E2DB5DF085D3041{Z8} 41:3"),
    );
}

/// Request 2026-04: what is wrong with a change that draws 709.
fn faults(s: &mut Sheet) {
    let chg = change(8, &CH, P, Q);
    let h: [u8; 16] = array(H);

    s.title("CR04-1: opened lengths 514, 7, 515 (over, not odd), 512, 0, 80000000 hexadecimal");
    let longest = format!("512 {}", "20".repeat(512));
    for (length, held) in [
        (514, "over"),
        (7, "odd"),
        (515, "over"),
        (512, longest.as_str()),
        (0, "0 -"),
        (1 << 31, "over"),
    ] {
        let block = block_with_length(&h, length);
        s.is(&format!("unseal {H} {}", hex(&block)), held);
    }
    s.title("CR04-1, -4: the same in a change; 512 and 0 octets are a password, though another");
    for (length, fault) in [
        (514, Fault::Over),
        (7, Fault::Odd),
        (515, Fault::Over),
        (512, Fault::OldHash),
        (0, Fault::OldHash),
        (1 << 31, Fault::Over),
    ] {
        s.expire(H, L);
        s.bad_change(&change_with_length(length, Q), fault);
    }

    s.title(
        "CR04-2: no NT hash before bit 0 clear; the block opens as odd under a hash of octets 0",
    );
    let odd = block_with_length(&[0; 16], 7);
    for flags in [[0, 0], [0, 1]] {
        s.expire("-", L);
        s.bad_change(&with(&chg, &[(4, &odd), (1116, &flags)]), Fault::NoNtHash);
    }
    s.note("bit 0 clear before over and before odd; bit 1 set makes no difference");
    for (length, flags) in [(514, [0, 0]), (7, [0, 2])] {
        s.expire(H, L);
        let packet = change_with_length(length, Q);
        s.bad_change(&with(&packet, &[(1116, &flags)]), Fault::BitClear);
    }

    s.title(
        "CR04-3, -7: one bit of octet 520 and one of 1092 changed, then only the latter: one reply",
    );
    let (old, response) = ([chg[520] ^ 1], [chg[1092] ^ 1]);
    s.expire(H, L);
    s.bad_change(
        &with(&chg, &[(520, &old), (1092, &response)]),
        Fault::OldHash,
    );
    s.expire(H, L);
    let wrong = with(&chg, &[(1092, &response)]);
    s.bad_change(&wrong, Fault::Response);

    s.title("CR04-5: the same change again: 709 again, and no fault; nor with other contents");
    let e709 = format!("04080011{E709}");
    for packet in [
        &wrong,
        &wrong,
        &change_with_length(7, Q),
        &bytes("06080004"),
    ] {
        s.repeats(packet, B, &e709, "709");
    }

    s.title(
        "CR04-6, -8: no fault is left from before; r + 2 packets are judged, and the user is in",
    );
    s.refused(&with(&chg, &[(1, &[9])]), B, "1");
    s.account(H, L, "0001");
    s.open(7, CHX, "1", "-");
    let before = s.judged;
    s.failure(&resp(7, Z24, BAD, 1, b"u"), "691", 1);
    s.failure(&resp(8, Z24, NR23, 1, b"u"), "648", 0);
    s.note("while a change is awaited: 2 to 7, each with a change that is wrong in all else");
    let bad = with(&change(9, &CH, P, Q), &[(4, &[0; 516]), (1116, &[0, 0])]);
    s.refused(&bad, "AA*16", "2");
    s.refused(&bad[..1117], B, "3");
    s.refused(&with(&bad, &[(0, &[5])]), B, "4");
    s.refused(&with(&bad, &[(1, &[10])]), B, "5");
    s.refused(&with(&bad, &[(2, &[4, 0x5D])]), B, "6");
    s.refused(&with(&bad, &[(1116, &[0, 4])]), B, "7");
    let answer = s.success(&change(9, &array(CH23), P, Q));
    assert_eq!(answer.record, format!("{HQ}/-/0000/0"));
    assert_eq!(s.judged - before, 3);
    s.note("647, 646, 649, and 691 with no retry left");
    for (marks, nt, reason) in [
        ("1000", NR, "647"),
        ("0100", NR, "646"),
        ("0010", NR, "649"),
        ("0000", BAD, "691"),
    ] {
        s.account(H, L, marks);
        s.open(7, CHX, "0", "-");
        s.failure(&resp(7, Z24, nt, 1, b"u"), reason, 0);
    }
}

/// The parts of a change's block that a handset may make wrongly (RFC 2433 A.11, A.12).
struct Block<'a> {
    /// The key of RC4.
    key: &'a [u8; 16],
    /// What stands for the password, and where it begins in the 512 octets.
    octets: &'a [u8],
    place: usize,
    /// The last four octets.
    length: [u8; 4],
}

impl Block<'_> {
    /// The filler with the password over it, and the length, not sealed yet.
    fn clear(&self) -> [u8; 516] {
        let mut block = [0; 516];
        block[..512].copy_from_slice(&filler());
        block[self.place..self.place + self.octets.len()].copy_from_slice(self.octets);
        block[512..].copy_from_slice(&self.length);
        block
    }

    fn sealed(&self) -> [u8; 516] {
        let mut block = self.clear();
        rc4(self.key, &mut block).unwrap();
        block
    }
}

/// The change of such a handset, and what it draws. The last four octets of the block tell that it
/// was made by the rule: by noise of any kind the length is over 512.
fn draw(s: &mut Sheet, rule: &str, why: &str, fields: ChangeFields, fault: Fault) {
    let (_, ends) = BLOCK_ENDS
        .iter()
        .find(|(name, _)| rule.starts_with(name))
        .unwrap_or(&("", "AE36AB02"));
    assert_eq!(hex(&fields.nt_block[512..]), *ends, "{rule}");
    s.title(&format!("2026-04, handset {rule}"));
    s.note(why);
    s.expire(H, L);
    s.bad_change(&packet::change(8, &fields), fault);
}

/// The octets 516 to 519 of each handset's change where they are not those of the right one: the
/// length, encrypted. They were computed by a program apart from this one.
const BLOCK_ENDS: [(&str, &str); 11] = [
    ("a", "F3CDB3F8"),
    ("b", "F3CDB3F8"),
    ("c, odd", "A736AB02"),
    ("c, even", "A436AB02"),
    ("d", "A036AB0C"),
    ("e", "CE5A8EBA"),
    ("f", "0D30DB05"),
    ("h", "B036AB02"),
    ("i, odd", "A736AB02"),
    ("i, even", "A436AB02"),
    ("p", "00000000"),
];

/// Changes of a password `MyPw` that an expired account has, by handsets which follow RFC 2433 but
/// for one rule each. Each fault is said here, and the program asked.
fn faulty_handsets(s: &mut Sheet) {
    let (h, hq, l): ([u8; 16], [u8; 16], [u8; 16]) = (array(H), array(HQ), array(L));
    let hash_of_bad = hashes::nt_hash(BADPW).unwrap();
    let fields = |packet: &[u8]| packet::read_change(&packet::frame(packet).unwrap()).unwrap();
    // the fields of right changes to a password of an odd and of an even number of characters
    let right = fields(&change(8, &CH, P, Q));
    let right_even = fields(&change(8, &CH, P, P));
    let block = Block {
        key: &h,
        octets: Q,
        place: 512 - Q.len(),
        length: [14, 0, 0, 0],
    };
    let block_even = Block {
        key: &h,
        octets: P,
        place: 512 - P.len(),
        length: [8, 0, 0, 0],
    };
    assert_eq!(block.sealed(), right.nt_block);
    assert_eq!(block_even.sealed(), right_even.nt_block);
    let sealed = |block: Block<'_>| ChangeFields {
        nt_block: block.sealed(),
        ..right
    };
    let sealed_even = |block: Block<'_>| ChangeFields {
        nt_block: block.sealed(),
        ..right_even
    };

    draw(
        s,
        "a: the block sealed under the hash of a wrong old password",
        "the length is what RC4 makes of it: over 512 but for a chance of 513 in 4294967296",
        sealed(Block {
            key: &hash_of_bad,
            ..block
        }),
        Fault::Over,
    );
    let wrong_old = fields(&change(8, &CH, BADPW, Q));
    assert_eq!(wrong_old.nt_response, right.nt_response);
    draw(
        s,
        "b: a wrong old password, in the block and in the old hash under the new",
        "as a: the block comes first",
        wrong_old,
        Fault::Over,
    );
    draw(
        s,
        "c, odd: the length in characters, of 7 characters",
        "it is 7",
        sealed(Block {
            length: [7, 0, 0, 0],
            ..block
        }),
        Fault::Odd,
    );
    draw(
        s,
        "c, even: the length in characters, of 4 characters",
        "it is 4, and the password the last two characters",
        sealed_even(Block {
            length: [4, 0, 0, 0],
            ..block_even
        }),
        Fault::OldHash,
    );
    draw(
        s,
        "d: the length with its most significant octet first",
        "it is read as 14 times 16777216",
        sealed(Block {
            length: [0, 0, 0, 14],
            ..block
        }),
        Fault::Over,
    );
    let mut anew = block.sealed();
    anew[512..].copy_from_slice(&block.length);
    rc4(&h, &mut anew[512..]).unwrap();
    draw(
        s,
        "e: RC4 started anew for the length",
        "the length is what the two keystreams make of it: over 512 but for a chance as in a",
        ChangeFields {
            nt_block: anew,
            ..right
        },
        Fault::Over,
    );
    draw(
        s,
        "f: RC4 keyed with the LM hash",
        "as a",
        sealed(Block { key: &l, ..block }),
        Fault::Over,
    );
    draw(
        s,
        "g: the password at the start of the block",
        "the last 14 octets of the filler are read as the password",
        sealed(Block { place: 0, ..block }),
        Fault::OldHash,
    );
    let ended = [Q, &[0, 0]].concat();
    draw(
        s,
        "h: a terminator 00 00 in the block and in the length, the hash made without it",
        "the box hashes 16 octets",
        sealed(Block {
            octets: &ended,
            place: 496,
            length: [16, 0, 0, 0],
            ..block
        }),
        Fault::OldHash,
    );
    draw(
        s,
        "i, odd: characters of one octet in the block, of 7 characters",
        "the length is 7",
        sealed(Block {
            octets: b"MyNewPw",
            place: 505,
            length: [7, 0, 0, 0],
            ..block
        }),
        Fault::Odd,
    );
    draw(
        s,
        "i, even: characters of one octet in the block, of 4 characters",
        "the box hashes 4 octets, which are two characters to it",
        sealed_even(Block {
            octets: b"MyPw",
            place: 508,
            length: [4, 0, 0, 0],
            ..block_even
        }),
        Fault::OldHash,
    );
    let first_key: [u8; 7] = hq[..7].try_into().unwrap();
    let mut old_under_new = right.nt_old_under_new;
    let second_half = reference::des::encrypt(&first_key, &h[8..].try_into().unwrap());
    old_under_new[8..].copy_from_slice(&second_half);
    draw(
        s,
        "j: the second key of A.17 the first again",
        "the second half of the old hash is under another key",
        ChangeFields {
            nt_old_under_new: old_under_new,
            ..right
        },
        Fault::OldHash,
    );
    draw(
        s,
        "k: the new hash under the old one",
        "in place of the old under the new",
        ChangeFields {
            nt_old_under_new: hashes::old_under_new(&hq, &h),
            ..right
        },
        Fault::OldHash,
    );
    draw(
        s,
        "l: the response made from the old hash",
        "it is the one that the Response before had",
        ChangeFields {
            nt_response: array(NR),
            ..right
        },
        Fault::Response,
    );
    s.title("2026-04, handset m: the response to the Challenge's challenge, after a retry");
    s.note("the challenge in force is the one that the retry answered");
    s.account(H, L, "0001");
    s.open7();
    s.failure(&resp(7, Z24, BAD, 1, b"u"), "691", 1);
    s.failure(&resp(8, Z24, NR23, 1, b"u"), "648", 0);
    s.bad_change(&change(9, &CH, P, Q), Fault::Response);
    draw(
        s,
        "n: the flags with bit 0 clear, though the NT fields are sent",
        "nothing else is looked at",
        ChangeFields { flags: 0, ..right },
        Fault::BitClear,
    );
    s.title("2026-04, handset o: the flags' least significant octet first");
    s.note("bit 8 is set: refused with 7 and not judged, so that a right change is still awaited");
    s.expire(H, L);
    let chg = change(8, &CH, P, Q);
    s.refused(&with(&chg, &[(1116, &[1, 0])]), B, "7");
    s.success(&chg);
    draw(
        s,
        "p: the block of octets 0",
        "the length is RC4's own octets 512 to 515: over 512 but for a chance as in a",
        ChangeFields {
            nt_block: [0; 516],
            ..right
        },
        Fault::Over,
    );
    draw(
        s,
        "q: the challenge incremented after 648",
        "a change answers the challenge of the last Response",
        ChangeFields {
            nt_response: hashes::challenge_response(&hq, &array(CH23)),
            ..right
        },
        Fault::Response,
    );

    s.title("2026-04: the terminator of h in the hashes too: no fault, and another password");
    s.note("the record has its hash, and the password without it draws 691");
    s.expire(H, L);
    let answer = s.success(&change(8, &CH, P, &ended));
    let hash = "64DC7FA1F2FD0CA2F86AA447782D79BE";
    assert_eq!(answer.record, format!("{hash}/-/0000/0"));
    s.is("relend", "");
    s.open(7, CHX, "0", "-");
    s.failure(&resp(7, Z24, NQ, 1, b"u"), "691", 0);
}

/// Request 2026-09: the count of invalid Responses in a row, and the limit of the opening.
fn guesses(s: &mut Sheet) {
    counts_of_tries(s);
    at_the_limit(s);
    one_answer_for_all(s);
    what_is_not_counted(s);
    tries_by_lm(s);
    counts_and_changes(s);
    calling_back(s);
    limits(s);
}

/// A right and a wrong try, with the identifiers of a first one and of its retries.
fn tries() -> [(Vec<u8>, Vec<u8>); 3] {
    [(7, NR), (8, NR23), (9, NR46)].map(|(id, right)| {
        let try_with = |response| resp(id, Z24, response, 1, b"u");
        (try_with(right), try_with(BAD))
    })
}

impl Sheet {
    /// Opens, sends one Response, and gives the count of the record handed out.
    fn count_after(&mut self, packet: &[u8], reason: &str) -> String {
        self.open7();
        let answer = match reason {
            "0" => self.success(packet),
            "691" => self.failed(packet, reason, 1),
            _ => self.failure(packet, reason, 0),
        };
        answer.record.rsplit('/').next().unwrap().to_string()
    }
}

fn counts_of_tries(s: &mut Sheet) {
    let [(right, wrong), (right8, wrong8), (right9, wrong9)] = tries();
    s.title("CR09-1, -2: a record made without a count has 0; an invalid Response adds 1");
    s.account(H, "-", "0000");
    assert_eq!(s.count_after(&wrong, "691"), "1");
    s.note("to at most 255, the limit being 255 too");
    for (count, after) in [(1, "2"), (127, "128"), (254, "255"), (255, "255")] {
        s.counted(H, "-", "0000", count);
        assert_eq!(s.count_after(&wrong, "691"), after);
    }
    s.note("in a row: the record handed out is passed on; then the right password sets 0");
    s.counted(H, "-", "0000", 0);
    s.open(7, CHX, "2", "-");
    for (packet, r, count) in [(&wrong, 1, 1), (&wrong8, 1, 2), (&wrong9, 0, 3)] {
        let answer = s.failure(packet, "691", r);
        assert_eq!(answer.record, format!("{H}/-/0000/{count}"));
        s.is("relend", "");
    }
    assert_eq!(s.count_after(&right, "0"), "0");

    s.title(
        "CR09-3: a valid one sets 0, also where 647, 646, 649 or 648 follows; limit 3, count 2",
    );
    s.limit(3);
    for (marks, reason) in [
        ("0000", "0"),
        ("1000", "647"),
        ("0100", "646"),
        ("0010", "649"),
        ("0001", "648"),
        ("1111", "647"),
    ] {
        s.counted(H, L, marks, 2);
        assert_eq!(s.count_after(&right, reason), "0");
    }
    s.note("after a retry too; the record kept is the one handed out");
    s.counted(H, L, "0001", 1);
    s.open7();
    s.failure(&wrong, "691", 1);
    s.is("relend", "");
    let answer = s.failure(&right8, "648", 0);
    assert_eq!(answer.record, format!("{H}/{L}/0001/0"));
    let kept = format!("9 {CH23} 1 no 3 change {H}/{L}/0001/0");
    assert_eq!(answer.conversation, kept);

    s.title("CR09-6: the record lent with only its count changed, whatever it has");
    for (nt, lm, marks) in [(H, L, "1111"), ("-", L, "0110"), ("-", "-", "1001")] {
        s.counted(nt, lm, marks, 1);
        s.open7();
        let answer = s.failure(&wrong, "691", 1);
        assert_eq!(answer.record, format!("{nt}/{lm}/{marks}/2"));
    }
    s.note("another account's record, and its count; none where there was none");
    s.counted("11*16", "-", "0000", 0);
    assert_eq!(s.count_after(&right, "691"), "1");
    s.is("account -", "");
    s.open7();
    for (packet, r) in [(&right, 1), (&wrong8, 1), (&right9, 0)] {
        assert_eq!(s.failure(packet, "691", r).record, "-");
    }
}

/// CR09-4, -5: for a limit and a count, what the right and what a wrong password draws.
fn at_the_limit(s: &mut Sheet) {
    let [(right, wrong), (right8, _), (right9, wrong9)] = tries();
    s.title("CR09-4, -5: at or over the limit a right try draws 691 and leaves the count");
    let table = [
        (
            3,
            &[(2, false), (3, true), (4, true), (254, true), (255, true)][..],
        ),
        (1, &[(0, false), (1, true)]),
        (127, &[(126, false), (128, true)]),
        (128, &[(127, false), (128, true)]),
        (255, &[(254, false), (255, true)]),
    ];
    for (limit, counts) in table {
        s.limit(limit);
        for (count, locked) in counts {
            s.counted(H, "-", "0000", *count);
            let (reason, after) = match locked {
                true => ("691", *count),
                false => ("0", 0),
            };
            assert_eq!(s.count_after(&right, reason), after.to_string());
        }
    }
    s.note("a wrong one adds 1 there as below it");
    s.limit(3);
    for (count, after) in [(2, "3"), (3, "4"), (4, "5"), (254, "255"), (255, "255")] {
        s.counted(H, "-", "0000", count);
        assert_eq!(s.count_after(&wrong, "691"), after);
    }
    s.limit(1);
    for (count, after) in [(0, "1"), (1, "2")] {
        s.counted(H, "-", "0000", count);
        assert_eq!(s.count_after(&wrong, "691"), after);
    }
    s.title("CR09-4: by the retry rule; before any mark is looked at; limit 3, count 3");
    s.limit(3);
    for marks in ["1000", "0100", "0010", "0001", "1111"] {
        s.counted(H, L, marks, 3);
        s.open7();
        let answer = s.locked(&right, 1);
        assert_eq!(answer.conversation, format!("8 {CH23} 1 no 3 response -"));
    }
    s.note("the right password at each retry, and a wrong one at the last");
    s.counted(H, "-", "0001", 3);
    s.open7();
    s.locked(&right, 1);
    s.is("relend", "");
    let answer = s.locked(&right8, 1);
    assert_eq!(answer.conversation, format!("9 {CH46} 0 no 3 response -"));
    s.is("relend", "");
    let answer = s.failure(&wrong9, "691", 0);
    assert_eq!(answer.record, format!("{H}/-/0001/4"));
    assert_eq!(answer.conversation, format!("9 {CH46} 0 no 3 ended -"));
    s.note("the record is asked, not the conversation: one that is not locked gets in");
    s.counted(H, "-", "0000", 3);
    s.open7();
    s.locked(&right, 1);
    s.locked(&right8, 1);
    s.counted(H, "-", "0000", 2);
    s.success(&right9);
}

fn one_answer_for_all(s: &mut Sheet) {
    let [(right, wrong), ..] = tries();
    s.title("CR09-8: no record, a wrong try, and either at the limit: one reply, one conversation");
    for r in ["-", "0"] {
        let left = u8::from(r == "-");
        s.is("account -", "");
        s.open(7, CHX, r, "-");
        let none = s.failure(&right, "691", left);
        for (marks, count, packet) in [("0000", 2, &wrong), ("1111", 3, &wrong)] {
            s.counted(H, L, marks, count);
            s.open(7, CHX, r, "-");
            s.failure(packet, "691", left).answers_as(&none);
        }
        for (marks, count) in [("0000", 3), ("0001", 255)] {
            s.counted(H, L, marks, count);
            s.open(7, CHX, r, "-");
            s.locked(&right, left).answers_as(&none);
        }
    }
}

fn what_is_not_counted(s: &mut Sheet) {
    let [(right, wrong), (right8, wrong8), _] = tries();
    let retry7 = format!("04070011{E691R1}");
    s.title("CR09-12: a wrong try, its repeat: one record, count 1");
    s.counted(H, "-", "0000", 0);
    s.open7();
    assert!(s.failure(&wrong, "691", 1).record.ends_with("/1"));
    s.is("relend", "");
    s.repeats(&wrong, B, &retry7, "691");
    s.note("nor do others that are not judged: relend finds none, and the next wrong try makes 2");
    s.repeats(&right, B, &retry7, "691");
    s.refused(&wrong8, "AA*16", "2");
    s.refused(&wrong8[..54], B, "3");
    s.refused(&bytes("06080004"), B, "4");
    s.refused(&resp(9, Z24, BAD, 1, b"u"), B, "5");
    s.refused(&bytes("02080004"), B, "6");
    s.refused(&resp(8, Z24, BAD, 2, b"u"), B, "7");
    s.is("relend", "");
    assert!(s.failure(&wrong8, "691", 1).record.ends_with("/2"));
    s.note("at the limit a repeat and a refused packet are what they were");
    s.counted(H, "-", "0000", 3);
    s.repeats(&right8, B, &format!("04080011{E691R1}"), "691");
    s.refused(&right, B, "5");
    s.note("after the end: Success again, and refusal 1");
    s.counted(H, "-", "0000", 2);
    s.open7();
    s.success(&right);
    s.counted(H, "-", "0000", 3);
    s.repeats(&right, B, "03070004", "0");
    s.refused(&wrong8, B, "1");
}

fn tries_by_lm(s: &mut Sheet) {
    let right = resp(7, LR, Z24, 0, b"u");
    let right_flag1 = resp(7, LR, Z24, 1, b"u");
    let wrong = resp(7, BAD, NR, 0, b"u");
    s.title("CR09-2 to -5: tries by LM, where LM is allowed; limit 3");
    for (nt, packet) in [(H, &right), ("-", &right_flag1)] {
        s.counted(nt, L, "0000", 2);
        s.open7_lm();
        assert!(s.success(packet).record.ends_with("/0"));
        s.counted(nt, L, "0000", 3);
        s.open7_lm();
        assert!(s.locked(packet, 1).record.ends_with("/3"));
    }
    for (count, after) in [(2, "/3"), (3, "/4")] {
        s.counted(H, L, "0000", count);
        s.open7_lm();
        assert!(s.failure(&wrong, "691", 1).record.ends_with(after));
    }
    s.note("the right LM response beside a wrong NT response, flag 1: no way back, and 1 more");
    s.counted(H, L, "0000", 1);
    s.open7_lm();
    let fallen = s.failure(&resp(7, LR, BAD, 1, b"u"), "691", 1);
    assert!(fallen.record.ends_with("/2"));
    s.title("CR09-2, -5: where LM is off a try by LM is invalid: 1 more, also at the limit");
    for (nt, count, after, packet) in [
        (H, 1, "/2", &right),
        ("-", 2, "/3", &right_flag1),
        (H, 3, "/4", &right),
        ("-", 3, "/4", &right_flag1),
    ] {
        s.counted(nt, L, "0000", count);
        s.open7();
        assert!(s.failure(packet, "691", 1).record.ends_with(after));
    }
    s.note("the right NT response with flag 0 goes to LM, which is off");
    s.counted(H, L, "0000", 0);
    s.open7();
    let by_flag = s.failure(&resp(7, LR, NR, 0, b"u"), "691", 1);
    assert!(by_flag.record.ends_with("/1"));
}

fn counts_and_changes(s: &mut Sheet) {
    let [(right, wrong), _, _] = tries();
    let new = resp(7, Z24, NQ, 1, b"u");
    s.title("CR09-3, -7: 648 keeps count 0; the accepted change hands out count 0");
    s.counted(H, L, "0001", 2);
    s.open7();
    let answer = s.failure(&right, "648", 0);
    let kept = format!("8 {CHX} 2 no 3 change {H}/{L}/0001/0");
    assert_eq!(answer.conversation, kept);
    s.note("the count lent with a change has no effect, at the limit neither");
    s.counted(H, L, "0001", 3);
    let answer = s.success(&change(8, &CH, P, Q));
    assert_eq!(answer.record, format!("{HQ}/-/0000/0"));
    s.title("CR09-13: that record lets the new password in where the limit is 1, and again");
    s.is("relend", "");
    s.limit(1);
    for _ in 0..2 {
        assert_eq!(s.count_after(&new, "0"), "0");
        s.is("relend", "");
    }
    s.note("the old one draws 691 and locks it");
    assert_eq!(s.count_after(&right, "691"), "1");
    s.is("relend", "");
    assert_eq!(s.count_after(&new, "691"), "1");
    s.title("CR09-6, -7: a change that draws 709 hands out none, and leaves the count");
    s.limit(3);
    s.counted(H, "-", "0001", 1);
    s.open7();
    s.failure(&right, "648", 0);
    s.is("relend", "");
    s.bad_change(&change(8, &CH, BADPW, Q), Fault::Over);
    s.is("relend", "");
    assert_eq!(s.count_after(&wrong, "691"), "1");
}

fn calling_back(s: &mut Sheet) {
    let [(right, wrong), (_, wrong8), _] = tries();
    s.title("CR09-2, -4, -5: hanging up and calling back: the retries are fresh, the count is not");
    s.counted(H, "-", "0000", 0);
    s.open7();
    s.failure(&wrong, "691", 1);
    s.is("relend", "");
    s.failure(&wrong8, "691", 1);
    s.is("relend", "");
    assert_eq!(s.count_after(&wrong, "691"), "3");
    for (packet, count) in [(&right, "3"), (&wrong, "4"), (&right, "4")] {
        s.is("relend", "");
        assert_eq!(s.count_after(packet, "691"), count);
    }
    s.note("the keeper of the accounts sets the count to 0");
    s.counted(H, "-", "0000", 0);
    assert_eq!(s.count_after(&right, "0"), "0");
    s.note("in a row: two wrong, the right one, and two more may be wrong before the right one");
    for _ in 0..2 {
        s.is("relend", "");
        assert_eq!(s.count_after(&wrong, "691"), "1");
        s.is("relend", "");
        assert_eq!(s.count_after(&wrong, "691"), "2");
        s.is("relend", "");
        assert_eq!(s.count_after(&right, "0"), "0");
    }

    let retry = "failure 691 1 - 2 retry";
    s.title("CR09-9, -10: our peer, the record last handed out passed in: 0 and 2 are below 3");
    s.counted(H, "-", "0000", 0);
    let mut peer = Peer::meet(s, 7, "2");
    for (password, verdict, count) in [(BADPW, retry, 1), (Q, retry, 2), (P, "success", 0)] {
        let answer = peer.respond(s, password, verdict);
        assert_eq!(answer.record, format!("{H}/-/0000/{count}"));
        s.is("relend", "");
    }
    s.title("CR09-10: but not below 2, and the right password draws 691");
    s.limit(2);
    let mut peer = Peer::meet(s, 7, "2");
    for (password, verdict, count) in [
        (BADPW, retry, 1),
        (Q, retry, 2),
        (P, "failure 691 0 - 2 end", 2),
    ] {
        let answer = peer.respond(s, password, verdict);
        assert_eq!(answer.record, format!("{H}/-/0000/{count}"));
        s.is("relend", "");
    }
}

fn limits(s: &mut Sheet) {
    let [(right, _), ..] = tries();
    s.title("CR09-4: the limit is that of the conversation, whatever others have");
    for (limit, reason, count) in [(3, "691", "3"), (4, "0", "0"), (1, "691", "3")] {
        s.limit(limit);
        s.counted(H, "-", "0000", 3);
        assert_eq!(s.count_after(&right, reason), count);
    }
    s.note("a limit named after the opening is for the next one");
    s.limit(3);
    s.open7();
    s.limit(255);
    let answer = s.locked(&right, 1);
    assert_eq!(answer.conversation, format!("8 {CH23} 1 no 3 response -"));
    s.limit(3);
    s.counted(H, "-", "0000", 2);
    s.open7();
    s.limit(1);
    s.success(&right);

    s.title("CR09-11: limit 0 is refused with 18, before 13, 2, 24, 16 and 17");
    s.limit(0);
    s.is("places 1", "");
    s.keeps(C1, 8, 18, &format!("0 {Z8} -"));
    s.keeps(C1, 0, 18, &format!("0 {Z8} -"));
    s.keeps(C1, 1, 18, &format!("0 {Z8} -"));
    for (r, lm, size) in [("-", "-", 16), ("8", "yes", 16), ("2", "no", 0)] {
        let (buffer, octets) = match size {
            0 => ("-".to_string(), "-".to_string()),
            _ => (format!("AA*{size}"), "AA".repeat(size)),
        };
        s.is(
            &format!("open 7 {C1} {r} {lm} {buffer}"),
            &format!("18 0 {octets} {NOTHING} 0 {Z8} -"),
        );
    }
    s.note("a list of half a place, one with more used than it has, untrue and too few counts");
    for (size, used, counts, shown) in [
        (12, 0, NO_COUNTS, "-"),
        (16, 3, NO_COUNTS, "-"),
        (16, 1, "00*512", "-"),
        (16, 0, "0001", "00:1"),
    ] {
        s.list(&format!("EE*{size}"), used, counts);
        s.keeps(C1, 0, 18, &format!("{used} {} {shown}", "EE".repeat(size)));
    }
    s.note("a challenge spent, and a list that is full; with limits 1 and 255 what they draw");
    s.is("places 1", "");
    s.limit(1);
    let full = format!("1 {C1} 08:1");
    s.spends(C1, 0, &full);
    for (limit, refusals) in [(0, [18, 18, 18]), (1, [13, 16, 17]), (255, [13, 16, 17])] {
        s.limit(limit);
        for ((challenge, r), refusal) in [(C1, 8), (C1, 0), (D11, 0)].into_iter().zip(refusals) {
            s.keeps(challenge, r, refusal, &full);
        }
    }
    s.note("a refused opening leaves no conversation");
    s.limit(0);
    s.keeps(D11, 0, 18, &full);
    s.refused(&right, B, "1");
    s.note("the limit as at the start");
    s.limit(255);
    s.open7();
    s.success(&right);
}

/// Request 2026-10. HC and LC are the hashes of `clientPass`, NC and CR its responses by NT and by
/// LM, which OpenSSL computed as the others; the SHA-256 of each hash's schedules, and the
/// responses under numbers that are no hash's, were computed by a program in Python that reads and
/// writes round keys by the request's text and whose DES agrees with OpenSSL's.
const CLIENT_PASS: &[u8] = b"c\0l\0i\0e\0n\0t\0P\0a\0s\0s\0";
const HC: &str = "44EBBA8D5312B8D611474411F56989AE";
const LC: &str = "76A152936096D7830E2390227404AFD2";
const NC: &str = "54F22AC5AA6C5CBF7E60531821852087D681F1CC9E1BB36E";
const NC23: &str = "816E88B4C7E1D70DE6D61F7B8AF0462D25F989430FEDFB08";
const NC46: &str = "A3403C2AECA82BE89FD9CC97408311234A757F1A519F73BD";
const CR: &str = "EDBAC3D1B2BC24BDA687A4EBDE1F18943F4A329D5C372A8F";
const CR23: &str = "52B319D3F9F9F41A896373629EFCF62387B314D728E514A3";
/// The response under numbers of ones only, and under those of [`any_numbers`].
const ONES: &str = "39241611A0FB157B39241611A0FB157B39241611A0FB157B";
const ANY: &str = "EDE5A99093F02655D725DCE0E9AE80B6BC072A5994D30600";
const ANY23: &str = "84365483BFD5BF6D268995623F2FAF583CA1E0622DF88FB2";

/// The schedules of a hash.
fn keys_of(hash: &str) -> String {
    hex(&Schedules::of(&array(hash)).octets())
}

/// Numbers of no hash, with bits that are not read.
fn any_numbers() -> String {
    let octets: Vec<u8> = (0..384)
        .map(|i| ((167 * i + 41 + 13 * (i / 8)) % 256) as u8)
        .collect();
    hex(&octets)
}

/// The same numbers with each bit set that is not read.
fn with_other_bits(numbers: &str) -> String {
    let octets: Vec<u8> = bytes(numbers).iter().map(|octet| octet | 0xC0).collect();
    hex(&octets)
}

impl Sheet {
    /// A record with schedules, named by a hash or by the numbers.
    fn keyed(&mut self, record: [&str; 3], count: u8, nt_keys: &str, lm_keys: &str) {
        let [nt, lm, marks] = record;
        let words = format!("{nt} {lm} {marks} {count} {nt_keys} {lm_keys}");
        self.is(&format!("account {words}"), "");
    }

    /// The schedules of the record that the last step handed out.
    fn schedules(&mut self, nt: &str, lm: &str) {
        self.is("schedules", &format!("{nt} {lm}"));
    }

    /// The last step handed out no record.
    fn no_schedules(&mut self) {
        self.is("schedules", "-");
    }
}

/// Request 2026-10: the schedules that a record carries.
fn schedules(s: &mut Sheet) {
    schedules_of_hashes(s);
    own_schedules(s);
    anothers_schedules(s);
    anothers_lm_schedules(s);
    schedules_handed_out(s);
    schedules_and_counts(s);
    schedules_and_changes(s);
    numbers_of_no_hash(s);
    absent_hashes(s);
    schedules_from_call_to_call(s);
}

/// Responses by NT and by LM, with the identifiers of a first one and of a retry.
fn nt_try(id: u8, response: &str) -> Vec<u8> {
    resp(id, Z24, response, 1, b"u")
}

fn lm_try(id: u8, response: &str) -> Vec<u8> {
    resp(id, response, Z24, 0, b"u")
}

fn schedules_of_hashes(s: &mut Sheet) {
    for (hash, digest) in [
        (
            H,
            "98c3c3bf59dd640e6c28be0a4e47d994abca5f1c272fcc76a2b9cec0d9823a8e",
        ),
        (
            HC,
            "76ad9cc338b0d5eea7e1336e9fc545a8ff937f8c651f26ae91708bd984f05656",
        ),
        (
            HQ,
            "d2a38e8f54392f9b165c58a256a948f8acd73553790ca4de5568d18fdf05b6d4",
        ),
        (
            L,
            "cb31fdc26228f21c13bd27d27d6eace0993e28f5f7b09686682ebd7c9b14636e",
        ),
        (
            LC,
            "4f6edbe4417d8a141c58a2a136946e5a309c4eb7306e96b00379628504ef6a06",
        ),
    ] {
        assert_eq!(sha256(&bytes(&keys_of(hash))), digest);
    }
    s.title("CR10-4: the hashes of clientPass, whose schedules stand beside another's below");
    s.is(&format!("nthash {}", hex(CLIENT_PASS)), HC);
    s.is(&format!("lmhash {}", text("clientPass")), LC);
    s.title(
        "CR10-1, -3: the schedules of a hash: three keys, sixteen rounds; its response by them",
    );
    s.copied(":keys");
    for (hash, response) in [(H, NR), (HC, NC), (L, LR), (LC, CR)] {
        s.vector(&format!("{hash} {CHX} {} {response}", keys_of(hash)));
    }
    s.vector(&format!("{HQ} {CH23} {} {NQ23}", keys_of(HQ)));
    s.note("octets 14 and 15 and five zeros: the third key alone, in the last sixteen numbers");
    let third = format!("{}{}", "00".repeat(14), &H[28..]);
    let numbers = keys_of(&third);
    assert!(numbers[..512] == "0".repeat(512) && numbers[512..] == keys_of(H)[512..]);
    let response = format!("{}{}", &ZR[..32], &NR[32..]);
    s.vector(&format!("{third} {CHX} {numbers} {response}"));
    s.note("a hash of octets 0 has zeros, and `-` names them");
    s.vector(&format!("00*16 {CHX} - {ZR}"));
    s.vector(&format!("- {CHX} - {ZR}"));
    s.vector(&format!("00*384 {CHX} - {ZR}"));
    s.note("the numbers themselves; of each octet the low six bits are read");
    for (numbers, response) in [(with_other_bits(&keys_of(H)), NR), (any_numbers(), ANY)] {
        s.vector(&format!("{numbers} {CHX} {numbers} {response}"));
    }
    for (octet, response) in [("FF", ONES), ("C0", ZR)] {
        let numbers = octet.repeat(384);
        s.vector(&format!("{octet}*384 {CHX} {numbers} {response}"));
    }
    s.copied(":cases");
}

fn own_schedules(s: &mut Sheet) {
    let (kh, kl) = (&*keys_of(H), &*keys_of(L));
    s.title("CR10-1, -2, O-10a: a record made without schedules has its hashes' own, else zeros");
    for (nt, lm, nt_keys, lm_keys) in [
        (H, "-", kh, "-"),
        (H, L, kh, kl),
        ("-", L, "-", kl),
        ("-", "-", "-", "-"),
        ("00*16", "00*16", "-", "-"),
    ] {
        s.account(nt, lm, "0000");
        s.open7();
        s.failure(&nt_try(7, BAD), "691", 1);
        s.schedules(nt_keys, lm_keys);
    }
    s.title("CR10-2: its own schedules named, by the hash or by the numbers: all as without them");
    for (nt_keys, lm_keys) in [(H, L), (kh, kl)] {
        s.keyed([H, L, "0000"], 0, nt_keys, lm_keys);
        s.open7_lm();
        s.success(&nt_try(7, NR));
        s.open7_lm();
        s.failure(&nt_try(7, NC), "691", 1);
        s.success(&lm_try(8, LR23));
        s.schedules(kh, kl);
    }
    s.note("the word for LM may be missing: its own");
    s.is(&format!("account {H} {L} 0001 2 {H}"), "");
    s.open7();
    let answer = s.failure(&nt_try(7, NR), "648", 0);
    assert_eq!(answer.record, format!("{H}/{L}/0001/0"));
    s.schedules(kh, kl);
}

fn anothers_schedules(s: &mut Sheet) {
    let kc = &*keys_of(HC);
    s.title("CR10-4, -5: R0's hash with clientPass's schedules: clientPass is valid, MyPw is not");
    for named in [HC, kc] {
        s.keyed([H, "-", "0000"], 0, named, "-");
        s.open7();
        let answer = s.success(&nt_try(7, NC));
        assert_eq!(answer.record, format!("{H}/-/0000/0"));
        s.schedules(kc, "-");
        s.is("relend", "");
        s.open7();
        let answer = s.failure(&nt_try(7, NR), "691", 1);
        assert_eq!(answer.record, format!("{H}/-/0000/1"));
        s.schedules(kc, "-");
        s.is("relend", "");
        s.failure(&nt_try(8, NR23), "691", 1);
        s.is("relend", "");
        let answer = s.success(&nt_try(9, NC46));
        assert_eq!(answer.record, format!("{H}/-/0000/0"));
    }
    s.note("the other way round: clientPass's hash with MyPw's schedules");
    s.keyed([HC, "-", "0000"], 0, H, "-");
    s.open7();
    s.failure(&nt_try(7, NC), "691", 1);
    let answer = s.success(&nt_try(8, NR23));
    assert_eq!(answer.record, format!("{HC}/-/0000/0"));
    s.schedules(&keys_of(H), "-");
    s.note("one of the three schedules alone is another's: neither password is valid");
    for third in 0..3 {
        let mut mixed = keys_of(H);
        mixed.replace_range(256 * third..256 * (third + 1), &kc[256 * third..][..256]);
        let mut response = NR.to_string();
        response.replace_range(16 * third..16 * (third + 1), &NC[16 * third..][..16]);
        s.keyed([H, "-", "0000"], 0, &mixed, "-");
        for wrong in [NR, NC] {
            s.open7();
            s.failure(&nt_try(7, wrong), "691", 1);
        }
        s.open7();
        s.success(&nt_try(7, &response));
    }
    s.title("CR10-4: zeros beside a hash: judged by them, not made anew");
    s.keyed([H, L, "0000"], 0, "-", "-");
    s.open7_lm();
    s.failure(&nt_try(7, NR), "691", 1);
    s.failure(&lm_try(8, LR23), "691", 1);
    s.schedules("-", "-");
    s.open7_lm();
    s.success(&nt_try(7, ZR));
    s.schedules("-", "-");
    s.open7_lm();
    s.success(&lm_try(7, ZR));
}

fn anothers_lm_schedules(s: &mut Sheet) {
    let (kh, kc) = (&*keys_of(H), &*keys_of(LC));
    s.title("CR10-4, -5: the same by LM, where LM is allowed");
    for (nt, nt_keys, flag) in [(H, H, 0), ("-", "-", 1), ("-", "-", 0)] {
        let shown = if nt == "-" { "-" } else { kh };
        let lm_try = |id, response| resp(id, response, Z24, flag, b"u");
        s.keyed([nt, L, "0000"], 0, nt_keys, LC);
        s.open7_lm();
        let answer = s.success(&lm_try(7, CR));
        assert_eq!(answer.record, format!("{nt}/{L}/0000/0"));
        s.is("relend", "");
        s.open7_lm();
        let answer = s.failure(&lm_try(7, LR), "691", 1);
        assert_eq!(answer.record, format!("{nt}/{L}/0000/1"));
        s.schedules(shown, kc);
        s.is("relend", "");
        s.success(&lm_try(8, CR23));
        s.note("and where it is not, neither");
        s.open7();
        s.failure(&lm_try(7, CR), "691", 1);
        s.failure(&lm_try(8, LR23), "691", 1);
    }
    s.note("each hash by the schedules beside it: here they are exchanged");
    s.keyed([H, L, "0000"], 0, L, H);
    for (packet, is_right) in [
        (nt_try(7, LR), true),
        (lm_try(7, NR), true),
        (nt_try(7, NR), false),
        (lm_try(7, LR), false),
    ] {
        s.open7_lm();
        match is_right {
            true => s.success(&packet),
            false => s.failure(&packet, "691", 1),
        };
    }
    s.schedules(&keys_of(L), kh);
    s.note("with flag 1 and an NT hash no way to LM, whatever schedules stand there");
    s.keyed([H, L, "0000"], 0, HC, LC);
    s.open7_lm();
    s.failure(&resp(7, CR, NR, 1, b"u"), "691", 1);
    s.success(&resp(8, BAD, NC23, 1, b"u"));
}

fn schedules_handed_out(s: &mut Sheet) {
    let kc = &*keys_of(HC);
    s.title("CR10-5: handed out with the schedules that were lent, whatever the reason is");
    for (marks, reason) in [
        ("1000", "647"),
        ("0100", "646"),
        ("0010", "649"),
        ("0001", "648"),
    ] {
        s.keyed([H, "-", marks], 3, HC, "-");
        s.open7();
        let answer = s.failure(&nt_try(7, NC), reason, 0);
        assert_eq!(answer.record, format!("{H}/-/{marks}/0"));
        s.schedules(kc, "-");
    }
    s.note("nothing for a repeat and a refusal, nor where no record was lent");
    s.keyed([H, "-", "0000"], 0, HC, "-");
    s.open7();
    s.failure(&nt_try(7, NR), "691", 1);
    s.schedules(kc, "-");
    s.repeats(&nt_try(7, NC), B, &format!("04070011{E691R1}"), "691");
    s.no_schedules();
    s.refused(&nt_try(7, NC)[..54], B, "3");
    s.no_schedules();
    s.refused(&nt_try(9, NC), B, "5");
    s.no_schedules();
    s.is("account -", "");
    s.failure(&nt_try(8, NC23), "691", 1);
    s.no_schedules();
    s.note("relend: none was handed out, so the record stays: none");
    s.is("relend", "");
    assert_eq!(s.failure(&nt_try(9, NC46), "691", 0).record, "-");
}

fn schedules_and_counts(s: &mut Sheet) {
    let kc = &*keys_of(HC);
    s.title("CR10-4, CR09-2 to -5: other schedules, and the counts and the limit as ever; limit 3");
    s.limit(3);
    s.keyed([H, "-", "0000"], 0, HC, "-");
    for (packet, reason, count) in [
        (nt_try(7, NR), "691", "1"),
        (nt_try(7, NR), "691", "2"),
        (nt_try(7, NC), "0", "0"),
        (nt_try(7, NR), "691", "1"),
        (nt_try(7, BAD), "691", "2"),
        (nt_try(7, NR), "691", "3"),
        (nt_try(7, NC), "691", "3"),
        (nt_try(7, NR), "691", "4"),
        (nt_try(7, NC), "691", "4"),
    ] {
        assert_eq!(s.count_after(&packet, reason), count);
        s.is("relend", "");
    }
    s.schedules(kc, "-");
    s.note("to at most 255; at the limit by LM too");
    s.keyed([H, "-", "0000"], 255, HC, "-");
    assert_eq!(s.count_after(&nt_try(7, NR), "691"), "255");
    s.keyed([H, L, "0000"], 3, H, LC);
    s.open7_lm();
    assert!(s.locked(&lm_try(7, CR), 1).record.ends_with("/3"));
    s.limit(255);
}

fn schedules_and_changes(s: &mut Sheet) {
    let (kc, kq, klc) = (&*keys_of(HC), &*keys_of(HQ), &*keys_of(LC));
    let kept = |lm: &str| format!("8 {CHX} 2 no 255 change {H}/{lm}/0001/0");
    s.title(
        "CR10-7, -8: R0x with clientPass's schedules: clientPass draws 648, MyPw is the old one",
    );
    s.note("the new record has the schedules of its new hash, and zeros beside no LM hash");
    for (new, hash, keys, lm, lm_keys, shown) in [
        (CLIENT_PASS, HC, kc, "-", "-", "-"),
        (Q, HQ, kq, L, LC, klc),
    ] {
        s.keyed([H, lm, "0001"], 1, HC, lm_keys);
        s.open7();
        let answer = s.failure(&nt_try(7, NC), "648", 0);
        assert_eq!(answer.conversation, kept(lm));
        s.schedules(kc, shown);
        let answer = s.success(&change(8, &CH, P, new));
        assert_eq!(answer.record, format!("{hash}/-/0000/0"));
        s.schedules(keys, "-");
    }
    s.note("the new password gets in with it, and the old one does not, nor clientPass");
    s.is("relend", "");
    s.open7();
    s.failure(&nt_try(7, NR), "691", 1);
    s.failure(&nt_try(8, NC23), "691", 1);
    s.is("relend", "");
    s.open7();
    s.success(&nt_try(7, NQ));
    s.note("MyPw draws 691 before the change");
    s.keyed([H, "-", "0001"], 0, HC, "-");
    s.open7();
    s.failure(&nt_try(7, NR), "691", 1);
    s.note("after a retry: 648, and the challenge in force is the second");
    let answer = s.failure(&nt_try(8, NC23), "648", 0);
    let after = format!("9 {CH23} 1 no 255 change {H}/-/0001/0");
    assert_eq!(answer.conversation, after);
    s.success(&change(9, &array(CH23), P, Q));
    s.schedules(kq, "-");

    s.title("CR10-8: clientPass as the old password draws 709: the block is opened by the hash");
    let expired = |s: &mut Sheet| {
        s.keyed([H, L, "0001"], 0, HC, LC);
        s.open7();
        s.failure(&nt_try(7, NC), "648", 0);
    };
    expired(s);
    s.bad_change(&change(8, &CH, CLIENT_PASS, Q), Fault::Over);
    s.no_schedules();
    s.note("the old hash under the keys that were lent, in place of the new hash's");
    expired(s);
    let right = change(8, &CH, P, Q);
    let under_lent = bytes("541C7CFCF62B50A7AB045A388A154861");
    assert_eq!(hex(&right[520..536]), "71BD6CBA24586C0A1354F1B611CB4CAF");
    s.bad_change(&with(&right, &[(520, &under_lent)]), Fault::OldHash);
    s.no_schedules();
    s.note("the response under the schedules that were lent");
    expired(s);
    assert_eq!(hex(&right[1092..1116]), NQ);
    s.bad_change(&with(&right, &[(1092, &bytes(NC))]), Fault::Response);
    s.note("what is lent with a change has no effect, the schedules neither");
    expired(s);
    s.keyed([HC, LC, "1111"], 9, "FF*384", L);
    let answer = s.success(&right);
    assert_eq!(answer.record, format!("{HQ}/-/0000/0"));
    s.schedules(kq, "-");
    s.note("no NT hash, but schedules beside it: 709");
    s.keyed(["-", L, "0001"], 0, H, L);
    s.open7_lm();
    s.failure(&lm_try(7, LR), "648", 0);
    s.bad_change(&right, Fault::NoNtHash);
}

fn numbers_of_no_hash(s: &mut Sheet) {
    let (own, any) = (keys_of(H), any_numbers());
    let (with_bits, any_with_bits) = (with_other_bits(&own), with_other_bits(&any));
    s.title("O-10c: each bit set that is not read: judged as without, handed out as it was lent");
    s.keyed([H, L, "0000"], 0, &with_bits, &with_other_bits(&keys_of(L)));
    for (packet, is_right) in [
        (nt_try(7, NR), true),
        (lm_try(7, LR), true),
        (nt_try(7, NC), false),
        (lm_try(7, BAD), false),
    ] {
        s.open7_lm();
        match is_right {
            true => s.success(&packet),
            false => s.failure(&packet, "691", 1),
        };
    }
    s.schedules(&with_bits, &with_other_bits(&keys_of(L)));
    s.note("and each bit that is read counts: one of a number's lowest, of each key");
    for (place, response) in [
        (0, "EDF79779B5E91D905BF4D3246791956CA4C351AB409A3D61"),
        (15, "4E8D3CCF9CFC385D5BF4D3246791956CA4C351AB409A3D61"),
        (16, "4E9D3C8F9CFD385D80B6BAED6B293B88A4C351AB409A3D61"),
        (47, "4E9D3C8F9CFD385D5BF4D3246791956CA4D351AB409B3D61"),
    ] {
        let mut octets = bytes(&own);
        octets[8 * place + 7] ^= 1;
        let numbers = hex(&octets);
        s.keyed([H, "-", "0000"], 0, &numbers, "-");
        s.open7();
        s.failure(&nt_try(7, NR), "691", 1);
        s.open7();
        s.success(&nt_try(7, response));
    }
    s.title("CR10-4, O-10c: numbers of no hash, and ones alone");
    s.keyed([H, L, "0000"], 0, &any, &any_with_bits);
    s.open7_lm();
    s.failure(&nt_try(7, NR), "691", 1);
    s.success(&nt_try(8, ANY23));
    s.schedules(&any, &any_with_bits);
    s.open7_lm();
    s.success(&lm_try(7, ANY));
    for octets in ["FF*384", "3F*384"] {
        s.keyed([H, "-", "0000"], 0, octets, "-");
        s.open7();
        s.failure(&nt_try(7, NR), "691", 1);
        s.open7();
        s.success(&nt_try(7, ONES));
    }
    s.schedules(&"3F".repeat(384), "-");
    s.note("nothing in the bits that are read: as zeros, but handed out as they were lent");
    s.keyed([H, "-", "0000"], 0, "C0*384", "-");
    s.open7();
    s.success(&nt_try(7, ZR));
    s.schedules(&"C0".repeat(384), "-");
    s.note("expired: numbers of no hash draw 648, and the record kept has none");
    s.keyed([H, "-", "0001"], 0, &any, "-");
    s.open7();
    let answer = s.failure(&nt_try(7, ANY), "648", 0);
    let kept = format!("8 {CHX} 2 no 255 change {H}/-/0001/0");
    assert_eq!(answer.conversation, kept);
}

fn absent_hashes(s: &mut Sheet) {
    let (kh, kl) = (&*keys_of(H), &*keys_of(L));
    s.title("O-10a: schedules beside an absent hash have no effect, and are handed out as lent");
    s.keyed(["-", "-", "0000"], 0, H, L);
    for packet in [nt_try(7, NR), lm_try(7, LR), resp(7, LR, NR, 1, b"u")] {
        s.open7_lm();
        let answer = s.failure(&packet, "691", 1);
        assert_eq!(answer.record, "-/-/0000/1");
    }
    s.schedules(kh, kl);
    s.note("no NT hash: flag 1 goes to LM, by LM's schedules");
    s.keyed(["-", L, "0000"], 0, H, L);
    s.open7_lm();
    s.failure(&nt_try(7, NR), "691", 1);
    s.success(&resp(8, LR23, NR23, 1, b"u"));
    s.note("no LM hash: flag 0 is never valid");
    s.keyed([H, "-", "0000"], 0, H, L);
    s.open7_lm();
    s.failure(&lm_try(7, LR), "691", 1);
    s.success(&nt_try(8, NR23));
    s.schedules(kh, kl);
    s.note("the response of zeros neither, where nothing is there at all");
    s.account("-", "-", "0000");
    s.open7_lm();
    s.failure(&nt_try(7, ZR), "691", 1);
    s.schedules("-", "-");
    s.open7_lm();
    s.failure(&lm_try(7, ZR), "691", 1);
    s.schedules("-", "-");
}

fn schedules_from_call_to_call(s: &mut Sheet) {
    let (kc, kq) = (&*keys_of(HC), &*keys_of(HQ));
    let retry = "failure 691 1 - 2 retry";
    let renew = "failure 648 0 - 2 change2";
    s.title("CR10-6: our peer with MyPw at the record of CR10-4: the rightful user is not let in");
    s.keyed([H, "-", "0000"], 0, HC, "-");
    let mut peer = Peer::meet(s, 7, "2");
    for (verdict, count) in [(retry, 1), (retry, 2), ("failure 691 0 - 2 end", 3)] {
        let answer = peer.respond(s, P, verdict);
        assert_eq!(answer.record, format!("{H}/-/0000/{count}"));
        s.is("relend", "");
    }
    s.schedules(kc, "-");
    s.title("CR10-6: r + 2 replies that are no repeats cover it too: r is 2, and then refusal 1");
    s.keyed([H, "-", "0001"], 0, HC, "-");
    let mut peer = Peer::meet(s, 7, "2");
    let judged = s.judged;
    for (password, verdict) in [(P, retry), (Q, retry), (CLIENT_PASS, renew)] {
        peer.respond(s, password, verdict);
        s.is("relend", "");
        peer.again(s, verdict);
    }
    peer.change(s, P, Q, "success");
    s.schedules(kq, "-");
    s.is("relend", "");
    peer.again(s, "success");
    s.no_schedules();
    assert_eq!(s.judged - judged, 4);
    s.refused(&nt_try(11, NC), B, "1");
    s.note("the conversation after it: the new password, by the record's own schedules");
    let mut peer = Peer::meet(s, 9, "0");
    let answer = peer.respond(s, Q, "success");
    assert_eq!(answer.record, format!("{HQ}/-/0000/0"));

    s.title(
        "CR10-5: after a conversation that ended, the record goes to the next with what it had",
    );
    s.keyed([H, L, "0000"], 0, HC, LC);
    s.open7_lm();
    s.success(&nt_try(7, NC));
    s.is("relend", "");
    s.refused(&nt_try(8, NC23), B, "1");
    s.no_schedules();
    for (packet, is_right) in [
        (lm_try(7, CR), true),
        (nt_try(7, NR), false),
        (nt_try(7, NC), true),
    ] {
        s.open7_lm();
        match is_right {
            true => s.success(&packet),
            false => s.failure(&packet, "691", 1),
        };
        s.is("relend", "");
    }
    s.schedules(kc, &keys_of(LC));
    s.note("a change that draws 709 leaves it as it was");
    s.keyed([H, "-", "0001"], 0, HC, "-");
    s.open7();
    s.failure(&nt_try(7, NC), "648", 0);
    s.is("relend", "");
    s.bad_change(&change(8, &CH, BADPW, Q), Fault::Over);
    s.is("relend", "");
    s.open7();
    s.failure(&nt_try(7, NR), "691", 1);
    s.failure(&nt_try(8, NC23), "648", 0);
    s.schedules(kc, "-");
    s.title("O-10d: the same hashes read again from the account file have their own schedules");
    s.account(H, "-", "0001");
    s.open7();
    s.failure(&nt_try(7, NC), "691", 1);
    s.failure(&nt_try(8, NR23), "648", 0);
    s.schedules(&keys_of(H), "-");
}

/// A line that is no command draws an error; the stored scripts have none.
#[test]
fn malformed_lines() {
    let mut sheet = Sheet::new();
    for line in [
        "unknown",
        "md4",
        "md4 0",
        "md4 GG",
        "md4 0a",
        "md4 00 00",
        "md4  00",
        "md4 00*",
        "md4 *3",
        "md4 0000*3",
        "md4 00*x",
        "des 00*7",
        "des 00*8 00*8",
        "undes 00*7 00*7",
        "desthree 00*20 00*8",
        "expand 00*8",
        "dropparity 00*7",
        "response 00*15 00*8",
        "response 00*16 -",
        "seal 00*15 - 00*512",
        "unseal 00*16 00*515",
        "oldnew 00*16 00*17",
        "account",
        "account - -",
        "account - - 000",
        "account - - 00000",
        "account - - 0002",
        "account 00 - 0000",
        "account - - 0000 -",
        "account - - 0000 x",
        "account - - 0000 256",
        "account - - 0000 1 1",
        "account - - 0000 0 00*15",
        "account - - 0000 0 00*17",
        "account - - 0000 0 00*383",
        "account - - 0000 0 - 00*385",
        "account - - 0000 0 - - -",
        "account - - 0000 - - -",
        "schedules now",
        "account - - 1",
        "limit",
        "limit -",
        "limit 256",
        "limit -1",
        "limit 3 3",
        "list",
        "list - 0",
        "list - 0 - -",
        "list 0 0 -",
        "list - x -",
        "list - - -",
        "list - 1000000000 -",
        "list 00*1025 0 00*512",
        "list 00*8 0 00*1025",
        "places",
        "places -",
        "places 129",
        "places 8 8",
        "open 256 0000000000000000 - - AA*20",
        "open 7 00 - - AA*20",
        "open 7 0000000000000000 - maybe AA*20",
        "open 7 0000000000000000 x - AA*20",
        "step 00",
        "relend now",
        "reply 9",
        "reply x 00",
        "turn 9 00 00",
        "writeresponse 7 00*8 - 75",
        "writechange 7 00*8 - - 00*512",
        "writechange1 7 00*8 - -",
        "writechange1 7 00*7 - - AA*72",
        "writechange1 256 00*8 - - AA*72",
        "writechange1 7 00*8 - - 00*512 AA*72",
        "changeversion",
        "changeversion 0",
        "changeversion 3",
        "changeversion 01",
        "changeversion 1 1",
        "underchallenge 00*16",
        "underchallenge 00*15 00*8",
        "underchallenge 00*16 00*7",
        "fromchallenge 00*17 00*8",
        "fromchallenge 00*16 00*9",
        ":unknown",
        "MD4 00",
        " md4 00",
        "md4 00 ",
    ] {
        sheet.is(line, "error");
    }
}

/// R-CHANGE-7, O-8, O-9 and CR09-7: values that no opening makes, a kept record with a count over
/// the limit among them, which is no bar to a change.
#[test]
fn conversations_made_by_hand() {
    use reference::authenticator::{step, Conversation, Last, Reply};
    let kept = Entry {
        nt: Some(array(H)),
        lm: Some(array(L)),
        disabled: true,
        hours: true,
        no_dialin: true,
        expired: true,
        failures: 5,
    };
    let mut conversation = Conversation {
        id: 8,
        challenge: CH,
        retries: 200,
        lm: true,
        limit: 3,
        change: Change::Two,
        phase: Phase::Change(kept),
        last: None,
    };
    let mut buffer = [0xAA; 20];
    let answer = step(&conversation, &change(8, &CH, P, Q), None, &mut buffer);
    let handed = Entry {
        nt: Some(array(HQ)),
        lm: None,
        expired: false,
        failures: 0,
        ..kept
    };
    assert_eq!(
        (answer.refusal, answer.reason, answer.fault, answer.record),
        (0, 0, None, Some(handed.keyed()))
    );
    assert_eq!(
        answer.conversation,
        Conversation {
            phase: Phase::Ended,
            last: Some(Last {
                code: 6,
                id: 8,
                reply: Reply::success(8)
            }),
            ..conversation
        }
    );
    conversation.phase = Phase::Change(Entry::default());
    let answer = step(
        &conversation,
        &change(8, &CH, P, Q),
        Some(&kept.keyed()),
        &mut buffer,
    );
    assert_eq!(
        (answer.refusal, answer.reason, answer.fault, answer.record),
        (0, 709, Some(Fault::NoNtHash), None)
    );
    conversation.phase = Phase::Response;
    let answer = step(
        &conversation,
        &resp(8, Z24, BAD, 1, b"u"),
        None,
        &mut buffer,
    );
    assert_eq!(
        (
            answer.reason,
            answer.conversation.retries,
            answer.conversation.id
        ),
        (691, 199, 9)
    );
}

/// SHA-256, for the one digest that the rules print.
fn sha256(input: &[u8]) -> String {
    let primes: Vec<u64> = (2..312)
        .filter(|n| (2..*n).all(|d| n % d != 0))
        .take(64)
        .collect();
    let fraction =
        |root: fn(f64) -> f64, prime: u64| (root(prime as f64).fract() * 4294967296.0) as u32;
    let k: Vec<u32> = primes.iter().map(|p| fraction(f64::cbrt, *p)).collect();
    let mut state: Vec<u32> = primes[..8]
        .iter()
        .map(|p| fraction(f64::sqrt, *p))
        .collect();
    let mut data = input.to_vec();
    data.push(0x80);
    while data.len() % 64 != 56 {
        data.push(0);
    }
    data.extend_from_slice(&(8 * input.len() as u64).to_be_bytes());
    for block in data.chunks(64) {
        let mut w: Vec<u32> = block
            .chunks(4)
            .map(|c| u32::from_be_bytes(c.try_into().unwrap()))
            .collect();
        for t in 16..64 {
            let (a, b) = (w[t - 15], w[t - 2]);
            let s0 = a.rotate_right(7) ^ a.rotate_right(18) ^ (a >> 3);
            let s1 = b.rotate_right(17) ^ b.rotate_right(19) ^ (b >> 10);
            w.push(
                w[t - 16]
                    .wrapping_add(s0)
                    .wrapping_add(w[t - 7])
                    .wrapping_add(s1),
            );
        }
        let mut v = state.clone();
        for t in 0..64 {
            let s1 = v[4].rotate_right(6) ^ v[4].rotate_right(11) ^ v[4].rotate_right(25);
            let choice = (v[4] & v[5]) ^ (!v[4] & v[6]);
            let t1 = v[7]
                .wrapping_add(s1)
                .wrapping_add(choice)
                .wrapping_add(k[t])
                .wrapping_add(w[t]);
            let s0 = v[0].rotate_right(2) ^ v[0].rotate_right(13) ^ v[0].rotate_right(22);
            let majority = (v[0] & v[1]) ^ (v[0] & v[2]) ^ (v[1] & v[2]);
            v.rotate_right(1);
            v[4] = v[4].wrapping_add(t1);
            v[0] = t1.wrapping_add(s0.wrapping_add(majority));
        }
        for (old, new) in state.iter_mut().zip(v) {
            *old = old.wrapping_add(new);
        }
    }
    state.iter().map(|word| format!("{word:08x}")).collect()
}
