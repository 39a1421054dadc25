//! Wrong sizes and wrong numbers at the C interface: each is answered with 100 before any refusal,
//! and changes nothing; a bad list of issued challenges is refused with 24, and changes nothing
//! either. An empty buffer may have any pointer, the null pointer too. Wrong bytes of the right
//! size are in stored.rs.

mod layout;

use layout::LIST_HEAD;
use mschap::sys;
use std::ptr::{null, null_mut};

const FILL: u8 = 0xA5;

/// Sizes about the right one, without it.
fn others(right: usize) -> impl Iterator<Item = usize> {
    (0..right + 3).filter(move |size| *size != right)
}

/// Passes a buffer of each wrong size: the answer is 100, and the buffer is unchanged.
fn bad_sizes(right: usize, call: impl FnMut(&mut [u8]) -> u32) {
    bad_sizes_of(&vec![FILL; right], call);
}

/// Passes what is valid in each wrong size: cut short, or with bytes 0 behind it.
fn bad_sizes_of(valid: &[u8], mut call: impl FnMut(&mut [u8]) -> u32) {
    for size in others(valid.len()) {
        let mut buffer = valid.to_vec();
        buffer.resize(size, 0);
        let before = buffer.clone();
        let number = call(&mut buffer);
        assert_eq!(number, sys::BAD_ARGUMENT, "size {size} for {}", valid.len());
        assert_eq!(buffer, before, "size {size}");
    }
}

/// A password of two characters.
fn password() -> [u8; sys::PASSWORD_SIZE] {
    layout::password(b"P\0w\0")
}

#[test]
fn ciphers() {
    let challenge = [0; 8];
    bad_sizes(16, |digest| sys::md4(b"abc", digest));
    // 100 comes before the refusal of the input
    bad_sizes(16, |digest| sys::md4(&[0; 4097], digest));
    for des in [sys::des_encrypt, sys::des_decrypt] {
        let mut block = [FILL; 8];
        bad_sizes(7, |key| des(key, &mut block));
        assert_eq!(block, [FILL; 8]);
        bad_sizes(8, |block| des(&[0; 7], block));
    }
    let mut response = [FILL; 24];
    bad_sizes(16, |hash| {
        sys::challenge_response(hash, &challenge, &mut response)
    });
    bad_sizes(8, |value| {
        sys::challenge_response(&[0; 16], value, &mut response)
    });
    assert_eq!(response, [FILL; 24]);
    bad_sizes(24, |out| sys::challenge_response(&[0; 16], &challenge, out));
}

#[test]
fn passwords() {
    bad_sizes(516, |out| sys::make_password(b"a", out));
    bad_sizes(516, |out| sys::make_password_utf16(b"a\0", out));
    // 100 comes before the refusals of the text
    bad_sizes(516, |out| sys::make_password(b"\xff", out));
    bad_sizes(516, |out| sys::make_password(&[b'a'; 257], out));
    bad_sizes(516, |out| sys::make_password_utf16(b"a", out));

    let mut text = [FILL; sys::TEXT_MAX];
    let mut length = usize::MAX;
    bad_sizes_of(&password(), |password| {
        sys::read_password(password, &mut text, &mut length)
    });
    // before that of an unpaired surrogate, and of too little room
    bad_sizes_of(&layout::password(b"\0\xd8"), |password| {
        sys::read_password(password, &mut [], &mut length)
    });
    assert_eq!((text, length), ([FILL; sys::TEXT_MAX], usize::MAX));

    let mut hash = [FILL; 16];
    bad_sizes_of(&password(), |password| sys::nt_hash(password, &mut hash));
    bad_sizes(16, |hash| sys::nt_hash(&password(), hash));
    bad_sizes(16, |hash| sys::lm_hash(b"a", hash));
    bad_sizes(16, |hash| sys::lm_hash(&[0; 15], hash));
    assert_eq!(hash, [FILL; 16]);
}

#[test]
fn records() {
    let (nt, lm) = ([1; 16], [2; 16]);
    let (both, no_nt, no_lm) = (0x7f, 0x7d, 0x7b);
    let mut record = [FILL; 810];
    for (flags, nt, lm) in [
        (both, &nt[..], &lm[..]),
        (no_nt, &[], &lm),
        (no_lm, &nt, &[]),
        (0x79, &[], &[]),
    ] {
        bad_sizes(810, |record| sys::make_record(flags, nt, lm, record));
        bad_sizes_of(nt, |nt| sys::make_record(flags, nt, lm, &mut record));
        bad_sizes_of(lm, |lm| sys::make_record(flags, nt, lm, &mut record));
        // other bits
        for bit in 7..32 {
            let number = sys::make_record(flags | 1 << bit, nt, lm, &mut record);
            assert_eq!(number, sys::BAD_ARGUMENT, "bit {bit}");
        }
    }
    assert_eq!(record, [FILL; 810]);

    // all that can be made reads back
    for flags in 0..0x80 {
        let nt = if flags & sys::HAS_NT_HASH != 0 {
            &nt[..]
        } else {
            &[]
        };
        let lm = if flags & sys::HAS_LM_HASH != 0 {
            &lm[..]
        } else {
            &[]
        };
        assert_eq!(sys::make_record(flags, nt, lm, &mut record), sys::OK);
        let hash = |hash: &[u8]| <[u8; 16]>::try_from(hash).unwrap_or([0; 16]);
        let parts = (flags, hash(nt), hash(lm));
        assert_eq!(layout::record_parts(&record), Some(parts));
        let mut read = (FILL.into(), [FILL; 16], [FILL; 16]);
        let number = sys::read_record(&record, &mut read.0, &mut read.1, &mut read.2);
        assert_eq!((number, read), (sys::OK, parts));
    }

    // a count in place of each other one, and nothing else; none over 255
    assert_eq!(sys::record_failures(&record), 0);
    for before in [0, 1, 127, 128, 254, 255] {
        for after in 0..=255 {
            record[layout::FAILURES_AT] = before;
            let mut expected = record;
            expected[layout::FAILURES_AT] = after;
            let number = sys::set_failures(&mut record, after.into());
            assert_eq!((number, record), (sys::OK, expected));
            assert_eq!(sys::record_failures(&record), after.into());
        }
    }
    for over in [256, 257, 511, 512, 65_536, 1 << 24, sys::INVALID] {
        let before = record;
        let number = sys::set_failures(&mut record, over);
        assert_eq!((number, record), (sys::BAD_ARGUMENT, before), "{over}");
    }
    bad_sizes_of(&record, |record| sys::set_failures(record, 5));
    for size in others(810) {
        let mut bytes = record.to_vec();
        bytes.resize(size, 0);
        assert_eq!(sys::record_failures(&bytes), sys::INVALID, "{size}");
    }

    let (mut flags, mut hash) = (FILL.into(), [FILL; 16]);
    bad_sizes_of(&record, |record| {
        sys::read_record(record, &mut flags, &mut hash, &mut [0; 16])
    });
    bad_sizes(16, |nt| {
        sys::read_record(&record, &mut flags, nt, &mut hash)
    });
    bad_sizes(16, |lm| {
        sys::read_record(&record, &mut flags, &mut hash, lm)
    });
    assert_eq!((flags, hash), (FILL.into(), [FILL; 16]));
}

/// A good line of an account file.
const BOB: &str = "bob:1001:75BA30198E6D1975AAD3B435B51404EE:FC156AF7EDCD6C0EDDE3337D427F4EAC:\
    [U          ]:LCT-000003E8:\n";

#[test]
fn account_files() {
    let doubled = format!("{BOB}{BOB}");
    let damaged = format!("{doubled}junk");
    let bob = layout::record(Some(layout::account(&Default::default())));
    let nobody = layout::record(None);
    // 100 comes before 102, that before the refusals of the file, and those before 103
    for (file, name, number, at) in [
        ("", "bob", 103, None),
        (BOB, "ann", 103, None),
        (BOB, "", 103, None),
        (BOB, "bob", sys::OK, Some(0)),
        (&doubled, "ann", 103, None),
        (&doubled, "bob", 15, Some(0)),
        (&damaged, "bob", 14, Some(doubled.len())),
        (&damaged, "ann", 14, Some(doubled.len())),
    ] {
        let (file, name) = (file.as_bytes(), name.as_bytes());
        let mut offset = usize::MAX;
        bad_sizes(810, |record| {
            sys::find_account(file, name, 5, 5, record, &mut offset)
        });
        let mut after = file.to_vec();
        let mut write = |record: &[u8]| {
            let number = sys::write_account(&mut after, name, record, 5, &mut offset);
            (number, offset, after != file)
        };
        for record in [&bob, &nobody] {
            bad_sizes_of(record, |record| {
                let (number, offset, changed) = write(record);
                assert_eq!((offset, changed), (usize::MAX, false));
                number
            });
        }
        assert_eq!(write(&nobody), (102, usize::MAX, false));
        let offset = at.unwrap_or(usize::MAX);
        assert_eq!(write(&bob), (number, offset, number == sys::OK));
    }
    // a file of any size
    for lines in [0, 1, 2, 1000] {
        let mut counts = [u64::MAX; 5];
        let file = BOB.repeat(lines);
        let number = sys::count_accounts(file.as_bytes(), 2000, 5, &mut counts);
        assert_eq!((number, counts[0]), (sys::OK, lines as u64));
    }
}

/// One opening with this answer, which is not 0: everything that was passed is unchanged.
fn refused(list: &[u8], identifier: u32, terms: u32, size: usize, answer: u32) {
    let mut after = list.to_vec();
    let mut conversation = [FILL; 61];
    let mut reply = vec![FILL; size];
    let number = sys::open(
        identifier,
        terms,
        &[0; 8],
        &mut after,
        &mut conversation,
        &mut reply,
    );
    let what = format!("identifier {identifier}, terms {terms:#x}, reply {size}");
    assert_eq!(number, answer, "{what}, list of {}", list.len());
    assert_eq!(after, list, "{what}");
    assert_eq!(
        (conversation, reply),
        ([FILL; 61], vec![FILL; size]),
        "{what}"
    );
}

/// A list of so many places; what is in them is bytes FILL.
fn list(places: usize, used: u16) -> Vec<u8> {
    layout::list(used, &vec![FILL; places * 8])
}

const TERMS: u32 = sys::TERMS | sys::limit(5) | sys::LM_ALLOWED | sys::retries(2);
/// Terms without retries or a choice about LM.
const LIMITED: u32 = sys::TERMS | sys::limit(1);

#[test]
fn openings() {
    let (fresh, unfit) = (list(3, 0), list(3, 4));
    // 100 comes before the refusals: of the limit, the retries, the reply and the list
    for (passed, terms, size) in [
        (&fresh, TERMS, 17),
        (&unfit, TERMS, 17),
        (&unfit, LIMITED | sys::retries(8), 16),
        (&unfit, sys::TERMS | sys::retries(8), 16),
    ] {
        let mut after = passed.clone();
        let mut open = |challenge: &[u8], conversation: &mut [u8]| {
            let mut reply = vec![FILL; size];
            let number = sys::open(7, terms, challenge, &mut after, conversation, &mut reply);
            assert_eq!((&after, reply), (passed, vec![FILL; size]));
            number
        };
        bad_sizes(8, |challenge| open(challenge, &mut [0; 61]));
        bad_sizes(61, |conversation| open(&[0; 8], conversation));
        for identifier in [256, 257, 0x107, 65_536, sys::TERMS | 7, u32::MAX] {
            refused(passed, identifier, terms, size, sys::BAD_ARGUMENT);
        }
        // what stands where the mark of terms does, and where the choices of LM and the change do
        for mark in (0..=0xff).filter(|mark| *mark != 1) {
            let terms = mark << 16 | terms & 0xff00_ffff;
            refused(passed, 7, terms, size, sys::BAD_ARGUMENT);
        }
        let choices = [0, 1, 2, 4, 5, 6, 8, 9, 10];
        for choice in (0..=0xff).filter(|choice| !choices.contains(choice)) {
            let terms = choice << 8 | terms & 0xffff_00ff;
            refused(passed, 7, terms, size, sys::BAD_ARGUMENT);
        }
    }
    // a refusal leaves all alone too, and these come before that of the list
    for passed in [&fresh, &unfit] {
        for (retries, size, refusal) in [(8, 0, 13), (253, 17, 13), (254, 17, 13), (7, 16, 2)] {
            refused(passed, 7, LIMITED | sys::retries(retries), size, refusal);
            // no limit, which is looked at first: not joined, 0, or over 255
            for limit in [0, sys::limit(0), sys::limit(256), sys::limit(u32::MAX)] {
                let terms = sys::TERMS | limit | sys::retries(retries);
                refused(passed, 7, terms, size, 18);
            }
        }
        refused(passed, 7, LIMITED, 0, 2);
        refused(passed, 7, sys::TERMS, 0, 18);
        refused(passed, 7, sys::TERMS | sys::LM_ALLOWED, 17, 18);
    }
    // every limit that there is
    for limit in 1..=255 {
        let (mut conversation, mut list) = ([FILL; 61], list(3, 0));
        let terms = sys::TERMS | sys::limit(limit);
        let (challenge, mut reply) = ([9; 8], [0; 17]);
        let number = sys::open(
            7,
            terms,
            &challenge,
            &mut list,
            &mut conversation,
            &mut reply,
        );
        assert_eq!(number, sys::OK, "{limit}");
        let opened = layout::to_conversation(&conversation).expect("a conversation");
        assert_eq!(u32::from(opened.limit), limit);
        assert_eq!(u32::from(conversation[layout::LIMIT_AT]), limit);
    }
    // every choice that there is: what the conversation is then
    for lm in [0, sys::LM_ALLOWED, sys::LM_REFUSED] {
        let changes = [0, sys::CHANGE_1, sys::CHANGE_2];
        let counts = [None, Some(0), Some(2), Some(7)];
        for (change, retries) in changes.map(|change| counts.map(|r| (change, r))).concat() {
            let terms = LIMITED | lm | change | retries.map_or(0, sys::retries);
            let mut conversation = [FILL; 61];
            let mut list = list(8, 0);
            let number = sys::open(
                255,
                terms,
                &[9; 8],
                &mut list,
                &mut conversation,
                &mut [0; 17],
            );
            assert_eq!(number, sys::OK, "{terms:#x}");
            let opened = layout::to_conversation(&conversation).expect("a conversation");
            let count = retries.unwrap_or(2);
            assert_eq!((u32::from(opened.retries), opened.id), (count, 255));
            assert_eq!(opened.lm, lm == sys::LM_ALLOWED, "{terms:#x}");
            let version = if change == sys::CHANGE_1 { 1 } else { 2 };
            assert_eq!(conversation[layout::CHANGE_AT], version, "{terms:#x}");
            assert_eq!(sys::list_used(&list), count + 1);
        }
    }
}

#[test]
fn lists() {
    // whole places only, and 4,096 of them at most
    for size in (0..=64).chain(32_756..=32_790).chain([65_536, 65_540]) {
        let mut bytes = vec![FILL; size];
        let whole = size >= 4 && (size - 4) % 8 == 0 && size - 4 <= 32_768;
        let number = sys::make_list(&mut bytes);
        if !whole {
            assert_eq!(number, 24, "{size}");
            assert_eq!(bytes, vec![FILL; size], "{size}");
            assert_eq!(sys::list_used(&bytes), sys::INVALID);
            if size >= LIST_HEAD {
                let bad = layout::list(0, &vec![FILL; size - LIST_HEAD]);
                assert_eq!(sys::list_used(&bad), sys::INVALID);
                refused(&bad, 7, TERMS, 17, 24);
            } else {
                refused(
                    &layout::list(0, &[])[..size],
                    7,
                    TERMS,
                    17,
                    sys::BAD_ARGUMENT,
                );
            }
            continue;
        }
        assert_eq!(number, sys::OK, "{size}");
        assert_eq!(bytes, list((size - 4) / 8, 0), "{size}");
        assert_eq!(sys::list_used(&bytes), 0);
        if size < 28 {
            refused(&bytes, 7, TERMS, 17, 17);
            continue;
        }
        let mut after = bytes.clone();
        let number = sys::open(7, TERMS, &[0; 8], &mut after, &mut [0; 61], &mut [0; 17]);
        assert_eq!((number, sys::list_used(&after)), (sys::OK, 3));
        let (used, places) = layout::to_list(&after).expect("a list");
        assert_eq!(used, 3);
        assert_eq!(places[..8], [0; 8]);
        assert_eq!(places[8..16], [23, 0, 0, 0, 0, 0, 0, 0]);
        assert_eq!(places[16..24], [46, 0, 0, 0, 0, 0, 0, 0]);
        assert_eq!(after[28..], bytes[28..]);
    }
    // more places used than there are
    for used in [4, 5, 255, 256, 4096, 4097, 65_535] {
        refused(&list(3, used), 7, TERMS, 17, 24);
        assert_eq!(sys::list_used(&list(3, used)), sys::INVALID);
    }
    assert_eq!(sys::list_used(&list(4096, 4096)), 4096);
    assert_eq!(sys::list_used(&list(4096, 4097)), sys::INVALID);
    // a challenge that was issued before comes before too few places
    let mut spent = list(2, 2);
    spent[LIST_HEAD..][..8].fill(0);
    refused(&spent, 7, TERMS, 17, 16);
    refused(&list(2, 2), 7, TERMS, 17, 17);
    refused(&list(3, 1), 7, TERMS, 17, 17);
    // a list that was used is made empty
    let mut used = list(5, 4);
    assert_eq!(sys::make_list(&mut used), sys::OK);
    assert_eq!(used, list(5, 0));
}

/// A conversation that awaits a Response, and a Response for it.
fn opened() -> ([u8; 61], Vec<u8>) {
    let (mut conversation, mut reply, mut peer) = ([0; 61], [0; 17], [0; 21]);
    let mut list = list(3, 0);
    let number = sys::open(7, TERMS, &[0; 8], &mut list, &mut conversation, &mut reply);
    assert_eq!(number, sys::OK);
    assert_eq!(sys::read_challenge(&reply, &mut peer), sys::OK);
    let mut packet = vec![0; 55];
    let number = sys::write_response(&mut peer, &layout::password(b""), b"u", &mut packet);
    assert_eq!(number, sys::OK);
    (conversation, packet)
}

/// One step with 100 for its answer, after which each buffer is unchanged.
fn bad_step(conversation: &[u8], record: &[u8], answer: usize) {
    let (_, packet) = opened();
    let mut after = conversation.to_vec();
    let mut reply = [FILL; 17];
    let mut out = vec![FILL; answer];
    let number = sys::step(&mut after, &packet, record, &mut reply, &mut out);
    assert_eq!(number, sys::BAD_ARGUMENT);
    assert_eq!(after, conversation);
    assert_eq!(reply, [FILL; 17]);
    assert_eq!(out, vec![FILL; answer]);
}

#[test]
fn steps() {
    let (mut conversation, packet) = opened();
    let nobody = layout::record(None);
    let resized = |valid: &[u8], size| {
        let mut bytes = valid.to_vec();
        bytes.resize(size, 0);
        bytes
    };
    for size in others(61) {
        bad_step(&resized(&conversation, size), &nobody, 814);
    }
    for size in others(810) {
        bad_step(&conversation, &resized(&nobody, size), 814);
    }
    for size in others(814) {
        bad_step(&conversation, &nobody, size);
    }
    // the right buffers draw an answer: the account is not found
    let mut reply = [FILL; 17];
    let mut answer = [FILL; 814];
    let number = sys::step(&mut conversation, &packet, &nobody, &mut reply, &mut answer);
    // by what it tells: the bytes of a record that there is not have no effect
    let plain = layout::to_answer(&layout::plain_answer(false, 691));
    assert_eq!((number, layout::to_answer(&answer)), (sys::OK, plain));
    assert_eq!(&reply, b"\x04\x07\x00\x11E=691 R=1 V=2");
    // and the same packet again the same reply, and nothing else
    let (mut same, mut again, mut repeated) = (conversation, [FILL; 17], [FILL; 814]);
    let number = sys::step(&mut same, &packet, &nobody, &mut again, &mut repeated);
    assert_eq!(
        (number, repeated),
        (sys::OK, layout::plain_answer(true, 691))
    );
    assert_eq!((same, again), (conversation, reply));
    // which wrong sizes do not get
    for size in others(61) {
        bad_step(&resized(&conversation, size), &nobody, 814);
    }
    for size in others(814) {
        bad_step(&conversation, &nobody, size);
    }

    // the functions that read a value
    let told = [
        sys::conversation_awaits,
        sys::conversation_identifier,
        sys::conversation_retries,
    ];
    assert_eq!(told.map(|tell| tell(&conversation)), [2, 8, 1]);
    for size in others(61) {
        let bytes = resized(&conversation, size);
        assert_eq!(told.map(|tell| tell(&bytes)), [sys::INVALID; 3]);
    }
    let told = [sys::answer_reason, sys::answer_repeated, sys::answer_fault];
    let spoiled = layout::answer(&layout::Told {
        repeated: false,
        reason: 709,
        fault: 6,
        updated: None,
    });
    assert_eq!(told.map(|tell| tell(&answer)), [691, 0, 0]);
    assert_eq!(told.map(|tell| tell(&repeated)), [691, 1, 0]);
    assert_eq!(told.map(|tell| tell(&spoiled)), [709, 0, 6]);
    for size in others(814) {
        for answer in [&answer, &repeated, &spoiled] {
            let bytes = resized(answer, size);
            assert_eq!(told.map(|tell| tell(&bytes)), [sys::INVALID; 3]);
        }
    }
    let account = Default::default();
    let updated = layout::answer(&layout::Told {
        repeated: false,
        reason: 0,
        fault: 0,
        updated: Some(account),
    });
    let mut record = [FILL; 810];
    for answer in [&answer, &updated] {
        bad_sizes(810, |record| sys::answer_record(answer, record));
        bad_sizes_of(answer, |answer| sys::answer_record(answer, &mut record));
    }
    assert_eq!(sys::answer_record(&answer, &mut record), 102);
    assert_eq!(sys::answer_record(&repeated, &mut record), 102);
    assert_eq!(record, [FILL; 810]);
    assert_eq!(sys::answer_record(&updated, &mut record), sys::OK);
    assert_eq!(record, layout::record(Some(layout::account(&account))));
}

/// A peer that sent a packet with the identifier 7.
fn peer() -> [u8; 21] {
    let turn = reference::peer::Turn {
        id: 7,
        challenge: [7; 8],
    };
    layout::peer(Some(&turn), &turn)
}

#[test]
fn peers() {
    let challenge = [1, 7, 0, 13, 8, 1, 2, 3, 4, 5, 6, 7, 8];
    let success = [3, 7, 0, 4];
    let password = password();
    bad_sizes(21, |peer| sys::read_challenge(&challenge, peer));
    bad_sizes(21, |peer| sys::read_challenge(&[], peer));
    let (mut call, mut reason) = (FILL.into(), FILL.into());
    for packet in [&success[..], &[]] {
        bad_sizes_of(&peer(), |peer| {
            sys::read_reply(peer, packet, &mut call, &mut reason)
        });
    }
    assert_eq!((call, reason), (FILL.into(), FILL.into()));
    let mut out = [FILL; 1118];
    // 100 comes before the refusals of name, filler and room
    for (name, filler, room) in [(&b"u"[..], 512, 1118), (b"", 511, 0)] {
        let filler = vec![0; filler];
        let out = &mut out[..room];
        bad_sizes_of(&peer(), |peer| {
            sys::write_response(peer, &password, name, out)
        });
        bad_sizes_of(&peer(), |peer| {
            sys::write_change(peer, &password, &password, &filler, out)
        });
        let mut peer = peer();
        let before = peer;
        bad_sizes_of(&password, |password| {
            sys::write_response(&mut peer, password, name, out)
        });
        bad_sizes_of(&password, |old| {
            sys::write_change(&mut peer, old, &password, &filler, out)
        });
        bad_sizes_of(&password, |new| {
            sys::write_change(&mut peer, &password, new, &filler, out)
        });
        bad_sizes_of(&password, |old| {
            sys::write_change_1(&mut peer, old, &password, out)
        });
        bad_sizes_of(&password, |new| {
            sys::write_change_1(&mut peer, &password, new, out)
        });
        bad_sizes_of(&before, |peer| {
            sys::write_change_1(peer, &password, &password, out)
        });
        assert_eq!(peer, before);
    }
    // a filler of another size is refused by 12, before the room
    for size in [0, 1, 511, 513, 1024] {
        let filler = vec![0; size];
        let mut peer = peer();
        let before = peer;
        for room in [1118, 0] {
            let out = &mut out[..room];
            let number = sys::write_change(&mut peer, &password, &password, &filler, out);
            assert_eq!(number, 12);
        }
        assert_eq!(peer, before);
    }
    // too little room for a version 1 change is refused by 9
    for room in [0, 1, 71] {
        let mut peer = peer();
        let before = peer;
        let number = sys::write_change_1(&mut peer, &password, &password, &mut out[..room]);
        assert_eq!((number, peer), (9, before));
    }
    assert_eq!(out, [FILL; 1118]);
}

#[test]
fn null_with_no_bytes() {
    use sys::raw::*;
    const BAD: u32 = sys::BAD_ARGUMENT;
    let (n, m) = (null(), null_mut());
    let mut hash = [0; 16];
    let mut same = [0; 16];
    let mut buffer = [FILL; 61];
    let mut out = [FILL; 814];
    let mut password = [FILL; 516];
    let (conversation, packet) = opened();
    let mut next = conversation;
    // SAFETY: each pointer is null with size 0, or that of an array with its size or less; each
    // pointer without a size is that of a number.
    unsafe {
        assert_eq!(mschap_make_password(n, 0, m, 0), BAD);
        assert_eq!(mschap_make_password_utf16(n, 0, m, 0), BAD);
        let w = password.as_mut_ptr();
        assert_eq!(mschap_make_password_utf16(n, 0, w, 516), sys::OK);
        assert_eq!(mschap_make_password(n, 0, w, 516), sys::OK);
        let mut length = 9;
        let l: *mut usize = &mut length;
        assert_eq!(mschap_read_password(n, 0, m, 0, l), BAD);
        assert_eq!(*l, 9);
        assert_eq!(mschap_read_password(w, 516, m, 0, l), sys::OK);
        assert_eq!(*l, 0);

        assert_eq!(mschap_md4(n, 0, hash.as_mut_ptr(), 16), sys::OK);
        assert_eq!(mschap_nt_hash(w, 516, same.as_mut_ptr(), 16), sys::OK);
        assert_eq!(hash, same);
        assert_eq!(hash[..4], [0x31, 0xd6, 0xcf, 0xe0]);
        assert_eq!(mschap_lm_hash(n, 0, hash.as_mut_ptr(), 16), sys::OK);
        assert_eq!(hash[..4], [0xaa, 0xd3, 0xb4, 0x35]);
        assert_eq!(mschap_rc4([1].as_ptr(), 1, m, 0), sys::OK);
        assert_eq!(mschap_rc4(n, 0, m, 0), 8);
        assert_eq!(mschap_md4(n, 0, m, 0), BAD);
        assert_eq!(mschap_nt_hash(n, 0, m, 0), BAD);
        assert_eq!(mschap_nt_hash(w, 516, m, 0), BAD);
        assert_eq!(mschap_lm_hash(n, 0, m, 0), BAD);
        assert_eq!(mschap_des_encrypt(n, 0, m, 0), BAD);
        assert_eq!(mschap_des_decrypt(n, 0, m, 0), BAD);
        assert_eq!(mschap_challenge_response(n, 0, n, 0, m, 0), BAD);

        let mut record = [FILL; 810];
        let r = record.as_mut_ptr();
        assert_eq!(mschap_make_record(0, n, 0, n, 0, m, 0), BAD);
        assert_eq!(mschap_make_record(0, n, 0, n, 0, r, 810), sys::OK);
        let mut flags = 9;
        let f: *mut u32 = &mut flags;
        assert_eq!(mschap_read_record(n, 0, f, m, 0, m, 0), BAD);
        assert_eq!(mschap_read_record(r, 810, f, m, 0, m, 0), BAD);
        assert_eq!(*f, 9);
        assert_eq!(mschap_record_failures(n, 0), sys::INVALID);
        assert_eq!(mschap_set_failures(m, 0, 0), BAD);
        assert_eq!(mschap_record_failures(r, 810), 0);

        let mut at = 9;
        let o: *mut usize = &mut at;
        assert_eq!(mschap_find_account(n, 0, n, 0, 5, 5, m, 0, o), BAD);
        assert_eq!(mschap_write_account(m, 0, n, 0, n, 0, 5, o), BAD);
        assert_eq!(mschap_write_account(m, 0, n, 0, r, 810, 5, o), 102);
        assert_eq!(*o, 9);
        assert_eq!(mschap_find_account(n, 0, n, 0, 5, 5, r, 810, o), sys::OK);
        assert_eq!((*o, record), (0, layout::record(None)));
        let (junk, found) = ([b'x'], layout::record(Some([0; 807])));
        let (j, r) = (junk.as_ptr(), found.as_ptr());
        assert_eq!(mschap_write_account(m, 0, j, 1, r, 810, 5, o), 103);
        let mut counts = [9; 5];
        let [a, b, c, d, e] = &mut counts;
        assert_eq!(mschap_count_accounts(n, 0, 5, 5, a, b, c, d, e), sys::OK);
        assert_eq!(counts, [0; 5]);

        assert_eq!(mschap_make_list(m, 0), 24);
        assert_eq!(mschap_list_used(n, 0), sys::INVALID);
        assert_eq!(mschap_open(7, TERMS, n, 0, m, 0, m, 0, m, 0), BAD);
        let challenge = [0; 8];
        let mut list = list(0, 0);
        let (q, c, o) = (challenge.as_ptr(), buffer.as_mut_ptr(), out.as_mut_ptr());
        let full = list.as_mut_ptr();
        // no list, no reply, no place
        assert_eq!(mschap_open(7, TERMS, q, 8, m, 0, c, 61, o, 17), BAD);
        assert_eq!(mschap_open(7, TERMS, q, 8, full, 4, c, 61, m, 0), 2);
        assert_eq!(mschap_open(7, TERMS, q, 8, full, 4, c, 61, o, 17), 17);
        assert_eq!((buffer, out), ([FILL; 61], [FILL; 814]));

        assert_eq!(mschap_step(m, 0, n, 0, n, 0, m, 0, m, 0), BAD);
        let (c, o) = (next.as_mut_ptr(), out.as_mut_ptr());
        let reply = buffer.as_mut_ptr();
        assert_eq!(mschap_step(c, 61, n, 0, r, 810, reply, 17, o, 814), 3);
        let packet = packet.as_ptr();
        assert_eq!(mschap_step(c, 61, packet, 55, r, 810, m, 0, o, 814), 2);
        assert_eq!((next, buffer, out), (conversation, [FILL; 61], [FILL; 814]));
        assert_eq!(mschap_answer_reason(n, 0), sys::INVALID);
        assert_eq!(mschap_answer_repeated(n, 0), sys::INVALID);
        assert_eq!(mschap_answer_fault(n, 0), sys::INVALID);
        assert_eq!(mschap_answer_record(n, 0, m, 0), BAD);
        assert_eq!(mschap_conversation_awaits(n, 0), sys::INVALID);
        assert_eq!(mschap_conversation_identifier(n, 0), sys::INVALID);
        assert_eq!(mschap_conversation_retries(n, 0), sys::INVALID);

        assert_eq!(mschap_packet_length(n, 0), 0);
        assert_eq!(mschap_account_offset(n, 0), 0);
        assert_eq!(mschap_account_length(n, 0), 0);
        assert_eq!(mschap_domain_offset(n, 0), 0);
        assert_eq!(mschap_domain_length(n, 0), 0);

        assert_eq!(mschap_read_challenge(n, 0, m, 0), BAD);
        let mut peer = peer();
        let before = peer;
        let (mut call, mut reason) = (9, 9);
        let (a, b): (*mut u32, *mut u64) = (&mut call, &mut reason);
        assert_eq!(mschap_read_reply(m, 0, n, 0, a, b), BAD);
        assert_eq!(mschap_read_challenge(n, 0, buffer.as_mut_ptr(), 21), 3);
        let p = peer.as_mut_ptr();
        assert_eq!(mschap_read_reply(p, 21, n, 0, a, b), 3);
        assert_eq!((*a, *b, buffer), (9, 9, [FILL; 61]));
        assert_eq!(mschap_write_response(m, 0, n, 0, n, 0, m, 0), BAD);
        assert_eq!(mschap_write_response(p, 21, n, 0, n, 0, m, 0), BAD);
        assert_eq!(mschap_write_response(p, 21, w, 516, n, 0, m, 0), 10);
        let name = [b'u'];
        let u = name.as_ptr();
        assert_eq!(mschap_write_response(p, 21, w, 516, u, 1, m, 0), 9);
        assert_eq!(mschap_write_change(m, 0, n, 0, n, 0, n, 0, m, 0), BAD);
        assert_eq!(mschap_write_change(p, 21, w, 516, n, 0, n, 0, m, 0), BAD);
        assert_eq!(mschap_write_change(p, 21, w, 516, w, 516, n, 0, m, 0), 12);
        let filler = [0; 512];
        let q = filler.as_ptr();
        assert_eq!(mschap_write_change(p, 21, w, 516, w, 516, q, 512, m, 0), 9);
        assert_eq!(mschap_write_change_1(m, 0, n, 0, n, 0, m, 0), BAD);
        assert_eq!(mschap_write_change_1(p, 21, w, 516, n, 0, m, 0), BAD);
        assert_eq!(mschap_write_change_1(p, 21, w, 516, w, 516, m, 0), 9);
        assert_eq!(peer, before);
    }
}
