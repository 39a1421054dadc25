//! The numbers of the C header are those of `sys`, of `Refusal`, of `Reason` and of `ChangeFault`,
//! whose words are the header's too; its functions are declared, with as many arguments; and the
//! archive that is linked is of its version.

use mschap::{sys, ChangeFault, Reason, Refusal};

const HEADER: &str = include_str!("../../include/mschap.h");

/// The number that the header defines for a name.
fn defined(name: &str) -> u64 {
    let mut numbers = HEADER.lines().filter_map(|line| {
        let mut words = line.split_whitespace();
        let here = words.next() == Some("#define") && words.next() == Some(name);
        here.then(|| {
            let word = words.next()?.trim_end_matches('u');
            match word.strip_prefix("0x") {
                Some(digits) => u64::from_str_radix(digits, 16).ok(),
                None => word.parse().ok(),
            }
        })?
    });
    numbers.next().unwrap_or_else(|| panic!("no {name}"))
}

/// Every number that the header defines, so that none is left out here.
fn all() -> Vec<String> {
    let names = HEADER.lines().filter_map(|line| {
        let mut words = line.strip_prefix("#define ")?.split_whitespace();
        let name = words.next()?;
        let digit = words
            .next()?
            .starts_with(|first: char| first.is_ascii_digit());
        digit.then(|| name.to_string())
    });
    names.collect()
}

#[test]
fn numbers() {
    let sizes = [
        ("DIGEST_SIZE", sys::DIGEST_SIZE),
        ("HASH_SIZE", sys::HASH_SIZE),
        ("KEY_SIZE", sys::KEY_SIZE),
        ("BLOCK_SIZE", sys::BLOCK_SIZE),
        ("CHALLENGE_SIZE", sys::CHALLENGE_SIZE),
        ("RESPONSE_SIZE", sys::RESPONSE_SIZE),
        ("FILLER_SIZE", sys::FILLER_SIZE),
        ("RECORD_SIZE", sys::RECORD_SIZE),
        ("CONVERSATION_SIZE", sys::CONVERSATION_SIZE),
        ("ANSWER_SIZE", sys::ANSWER_SIZE),
        ("PEER_SIZE", sys::PEER_SIZE),
        ("PASSWORD_SIZE", sys::PASSWORD_SIZE),
        ("LIST_PLACES", sys::LIST_PLACES),
        ("REPLY_SIZE", sys::REPLY_SIZE),
        ("RESPONSE_PACKET", sys::RESPONSE_PACKET),
        ("CHANGE_PACKET", sys::CHANGE_PACKET),
        ("CHANGE_1_PACKET", sys::CHANGE_1_PACKET),
        ("MD4_INPUT_MAX", sys::MD4_INPUT_MAX),
        ("RC4_KEY_MAX", sys::RC4_KEY_MAX),
        ("NT_PASSWORD_MAX", sys::NT_PASSWORD_MAX),
        ("LM_PASSWORD_MAX", sys::LM_PASSWORD_MAX),
        ("TEXT_MAX", sys::TEXT_MAX),
        ("NAME_MAX", sys::NAME_MAX),
        ("STACK_SIZE", sys::STACK_SIZE),
    ]
    .map(|(name, size)| (name, size as u64));
    let numbers = [
        ("VERSION", sys::VERSION),
        ("RECORD_LAYOUT", sys::RECORD_LAYOUT.into()),
        ("CONVERSATION_LAYOUT", sys::CONVERSATION_LAYOUT.into()),
        ("ANSWER_LAYOUT", sys::ANSWER_LAYOUT.into()),
        ("PEER_LAYOUT", sys::PEER_LAYOUT.into()),
        ("PASSWORD_LAYOUT", sys::PASSWORD_LAYOUT.into()),
        ("LIST_LAYOUT", sys::LIST_LAYOUT.into()),
        ("OK", sys::OK),
        ("INVALID", sys::INVALID),
        ("AWAITS_NOTHING", sys::AWAITS_NOTHING),
        ("AWAITS_RESPONSE", sys::AWAITS_RESPONSE),
        ("AWAITS_CHANGE", sys::AWAITS_CHANGE),
        ("AWAITS_CHANGE_1", sys::AWAITS_CHANGE_1),
        ("CALL_NONE", sys::CALL_NONE),
        ("CALL_RESPONSE", sys::CALL_RESPONSE),
        ("CALL_CHANGE", sys::CALL_CHANGE),
        ("CALL_CHANGE_1", sys::CALL_CHANGE_1),
        ("CALL_END", sys::CALL_END),
        ("FOUND", sys::FOUND),
        ("HAS_NT_HASH", sys::HAS_NT_HASH),
        ("HAS_LM_HASH", sys::HAS_LM_HASH),
        ("DISABLED", sys::DISABLED),
        ("HOURS_DENIED", sys::HOURS_DENIED),
        ("DIALIN_DENIED", sys::DIALIN_DENIED),
        ("EXPIRED", sys::EXPIRED),
        ("TERMS", sys::TERMS),
        ("LM_ALLOWED", sys::LM_ALLOWED),
        ("LM_REFUSED", sys::LM_REFUSED),
        ("CHANGE_1", sys::CHANGE_1),
        ("CHANGE_2", sys::CHANGE_2),
        ("ENDED", Refusal::Ended.number()),
        ("REPLY_ROOM", Refusal::ReplyRoom.number()),
        ("FRAME", Refusal::Frame.number()),
        ("CODE", Refusal::Code.number()),
        ("IDENTIFIER", Refusal::Identifier.number()),
        ("SIZE", Refusal::Size.number()),
        ("FLAGS", Refusal::Flags.number()),
        ("INPUT", Refusal::Input.number()),
        ("ROOM", Refusal::Room.number()),
        ("NAME", Refusal::Name.number()),
        ("READING", Refusal::Reading.number()),
        ("FILLER", Refusal::Filler.number()),
        ("RETRIES_RANGE", Refusal::RetriesRange.number()),
        ("BAD_LINE", Refusal::BadLine.number()),
        ("DOUBLED_NAME", Refusal::DoubledName.number()),
        ("SPENT", Refusal::Spent.number()),
        ("LIST_FULL", Refusal::ListFull.number()),
        ("NO_LIMIT", Refusal::NoLimit.number()),
        ("LIST", Refusal::List.number()),
        ("BAD_ARGUMENT", Refusal::BadArgument.number()),
        ("MALFORMED", Refusal::Malformed.number()),
        ("NO_RECORD", Refusal::NoRecord.number()),
        ("NO_ACCOUNT", Refusal::NoAccount.number()),
        ("SUCCESS", Reason::Success.number()),
        (
            "E_RESTRICTED_LOGON_HOURS",
            Reason::RestrictedLogonHours.number(),
        ),
        ("E_ACCT_DISABLED", Reason::AccountDisabled.number()),
        ("E_PASSWD_EXPIRED", Reason::PasswordExpired.number()),
        (
            "E_NO_DIALIN_PERMISSION",
            Reason::NoDialinPermission.number(),
        ),
        (
            "E_AUTHENTICATION_FAILURE",
            Reason::AuthenticationFailure.number(),
        ),
        ("E_CHANGING_PASSWORD", Reason::ChangingPassword.number()),
        ("FAULT_NONE", ChangeFault::NoFault.number()),
        ("FAULT_NO_NT_HASH", ChangeFault::NoNtHash.number()),
        ("FAULT_NO_NT_RESPONSE", ChangeFault::NoNtResponse.number()),
        ("FAULT_LENGTH_OVER", ChangeFault::LengthOver.number()),
        ("FAULT_LENGTH_ODD", ChangeFault::LengthOdd.number()),
        ("FAULT_OLD_HASH_WRONG", ChangeFault::OldHashWrong.number()),
        ("FAULT_RESPONSE_WRONG", ChangeFault::ResponseWrong.number()),
        ("FAULT_LM_NOT_ALLOWED", ChangeFault::LmNotAllowed.number()),
        ("FAULT_LENGTH_OVER_LM", ChangeFault::LengthOverLm.number()),
        ("FAULT_HASH_ABSENT", ChangeFault::HashAbsent.number()),
        ("FAULT_HASH_WRONG", ChangeFault::HashWrong.number()),
    ]
    .map(|(name, number)| (name, u64::from(number)));
    let mut left: Vec<String> = all();
    for (name, number) in sizes.into_iter().chain(numbers) {
        let name = format!("MSCHAP_{name}");
        assert_eq!(defined(&name), number, "{name}");
        left.retain(|other| *other != name);
    }
    assert_eq!(left, Vec::<String>::new(), "not compared");
}

/// The three macros with an argument, which C's preprocessor alone can evaluate: by their words.
#[test]
fn macros() {
    assert!(HEADER.contains("#define MSCHAP_LIST_SIZE(places) (4 + 8 * (places)) "));
    assert_eq!([sys::list_size(0), sys::list_size(300)], [4, 2404]);
    let words = "(n) ((uint32_t)(n) < 254u ? (uint32_t)(n) + 1u : 255u)\n";
    assert!(HEADER.contains(&format!("#define MSCHAP_RETRIES{words}")));
    assert_eq!(
        [0, 7, 253, 254, 300].map(sys::retries),
        [1, 8, 254, 255, 255]
    );
    let words = "(n) ((uint32_t)(n) < 256u ? (uint32_t)(n) << 24 : 0u)\n";
    assert!(HEADER.contains(&format!("#define MSCHAP_LIMIT{words}")));
    assert_eq!(
        [0, 1, 10, 255, 256, 266, u32::MAX].map(sys::limit),
        [0, 1 << 24, 10 << 24, 255 << 24, 0, 0, 0]
    );
}

/// The words of each fault: those that the header's function returns, and those of the script.
#[test]
fn fault_texts() {
    let quoted = |text: &str, quote: char| {
        let mut parts = text.split(quote);
        let words = parts.nth(1).zip(parts.next());
        words.expect("quoted words").0.to_string()
    };
    let (_, body) = HEADER.split_once("*mschap_fault_text(").expect("there");
    let (body, _) = body.split_once("\n}\n").expect("its end");
    let (cases, default) = body.split_once("default:").expect("its default");
    let theirs: Vec<(u64, String)> = cases
        .split("case ")
        .skip(1)
        .map(|case| {
            let (name, rest) = case.split_once(':').expect("a name");
            (defined(name), quoted(rest, '"'))
        })
        .collect();
    let ours = |number| ChangeFault::of(number).to_string();
    let all: Vec<(u64, String)> = (0..11)
        .map(|number| (number.into(), ours(number)))
        .collect();
    assert_eq!(theirs, all);
    for unknown in [11, 12, 100, sys::INVALID] {
        assert_eq!(ours(unknown), quoted(default, '"'));
        assert_eq!(ChangeFault::of(unknown).number(), unknown);
    }

    let script = include_str!("../../examples/bench.py");
    let (_, table) = script.split_once("\nFAULTS = {\n").expect("a table");
    let (table, _) = table.split_once("\n}\n").expect("its end");
    let lines: Vec<String> = all.iter().map(|(n, text)| format!("{n}: {text}")).collect();
    let script: Vec<String> = table
        .lines()
        .map(|line| {
            let line = line.trim().trim_end_matches(',');
            let (number, text) = line.split_once(": ").expect("a number");
            format!("{number}: {}", &text[1..text.len() - 1])
        })
        .collect();
    assert_eq!(script, lines);
}

#[test]
fn versions() {
    assert_eq!(sys::version(), sys::VERSION);
    let [major, minor, patch] = [16, 8, 0].map(|shift| sys::VERSION >> shift & 0xff);
    let text = format!("{major}.{minor}.{patch}");
    assert!(HEADER.contains(&format!("#define MSCHAP_VERSION_TEXT \"{text}\"\n")));
    assert_eq!(env!("CARGO_PKG_VERSION"), text);
}

/// The functions of a text and how many arguments each has.
fn functions<'a>(text: &'a str, before: &[&str]) -> Vec<(&'a str, usize)> {
    let mut found = Vec::new();
    for (at, _) in text.match_indices("mschap_") {
        let declared = before.iter().any(|words| text[..at].ends_with(words));
        if let Some((name, rest)) = text[at..].split_once('(').filter(|_| declared) {
            let arguments = rest.split(')').next().unwrap_or_default();
            let arguments = arguments.trim().trim_end_matches(',');
            let none = arguments.is_empty() || arguments == "void";
            found.push((
                name,
                if none {
                    0
                } else {
                    arguments.split(',').count()
                },
            ));
        }
    }
    found.sort();
    found
}

#[test]
fn functions_are_declared() {
    let theirs = functions(HEADER, &["\nuint32_t ", "\nsize_t "]);
    // what ends a declaration, outside of comments
    let code = HEADER.split("/*").filter_map(|part| part.split_once("*/"));
    let ends: usize = code.map(|(_, code)| code.matches(");\n").count()).sum();
    assert_eq!(theirs.len(), ends, "found");
    let ours = functions(include_str!("../src/sys.rs"), &[" pub fn "]);
    assert_eq!(ours, theirs);
}
