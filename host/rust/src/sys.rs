//! The archive's functions: as C declares them in `raw`, and over slices.
//!
//! A slice is a pointer and a size that fit each other, a reference points to one number, and
//! nothing that may be written overlaps another. That is all the archive asks of its caller, so the
//! functions over slices are safe. They return the number of the C interface; `mschap.h` says what
//! each one does. Here every value is bytes: the types around this module tell them apart.

/// The version of the interface that is declared here: major, minor and patch, a byte each.
pub const VERSION: u32 = 0x000900;

/// The version of a record's layout: with the round keys of both hashes, since 0.8.0.
pub const RECORD_LAYOUT: u8 = 3;
/// The version of a conversation's layout: with the version of its change, since 0.9.0.
pub const CONVERSATION_LAYOUT: u8 = 4;
/// The version of an answer's layout: with the record's round keys, since 0.8.0.
pub const ANSWER_LAYOUT: u8 = 5;
/// The version of a peer's layout.
pub const PEER_LAYOUT: u8 = 1;
/// The version of a password's layout.
pub const PASSWORD_LAYOUT: u8 = 1;
/// The version of a list's layout.
pub const LIST_LAYOUT: u8 = 1;

/// Done.
pub const OK: u32 = 0;
/// A line of an account file is of another form.
pub const BAD_LINE: u32 = 14;
/// The name is on two lines of an account file, or more.
pub const DOUBLED_NAME: u32 = 15;
/// A value or a buffer of another size, kind or version, bytes that no value has, or a number that
/// is none.
pub const BAD_ARGUMENT: u32 = 100;
/// The answer has no record to be stored, or the record is that of no account, or has no hash of
/// the kind that was asked for.
pub const NO_RECORD: u32 = 102;
/// The name is on no line of the account file.
pub const NO_ACCOUNT: u32 = 103;
/// What a function that returns a value returns instead, if it was passed an invalid one.
pub const INVALID: u32 = 0xffff_ffff;

/// What a conversation awaits: nothing, it has ended.
pub const AWAITS_NOTHING: u32 = 0;
/// What a conversation awaits: a Response.
pub const AWAITS_RESPONSE: u32 = 2;
/// What a conversation awaits: a version 2 change of the password.
pub const AWAITS_CHANGE: u32 = 6;
/// What a conversation awaits: a version 1 change of the password.
pub const AWAITS_CHANGE_1: u32 = 5;

/// What a reply calls for: nothing, as it is Success.
pub const CALL_NONE: u32 = 0;
/// What a reply calls for: another Response.
pub const CALL_RESPONSE: u32 = 1;
/// What a reply calls for: a version 2 change of the password.
pub const CALL_CHANGE: u32 = 2;
/// What a reply calls for: a version 1 change of the password.
pub const CALL_CHANGE_1: u32 = 3;
/// What a reply calls for: the end.
pub const CALL_END: u32 = 4;

/// A record's flag: there is such an account.
pub const FOUND: u32 = 0x01;
/// A record's flag: it has an NT hash.
pub const HAS_NT_HASH: u32 = 0x02;
/// A record's flag: it has an LM hash.
pub const HAS_LM_HASH: u32 = 0x04;
/// A record's flag: the account is disabled.
pub const DISABLED: u32 = 0x08;
/// A record's flag: the hours do not allow a logon.
pub const HOURS_DENIED: u32 = 0x10;
/// A record's flag: there is no permission to dial in.
pub const DIALIN_DENIED: u32 = 0x20;
/// A record's flag: the password has expired.
pub const EXPIRED: u32 = 0x40;

/// The terms of a conversation, to which at least a [`limit`] is joined.
pub const TERMS: u32 = 0x10000;
/// To be joined to the terms: a response by LM is judged. Without it none is valid.
pub const LM_ALLOWED: u32 = 0x100;
/// To be joined to the terms: a response by LM is never valid; the default.
pub const LM_REFUSED: u32 = 0x200;
/// To be joined to the terms: a version 1 change is awaited after an expired password.
pub const CHANGE_1: u32 = 0x400;
/// To be joined to the terms: a version 2 change is; the default.
pub const CHANGE_2: u32 = 0x800;

/// To be joined to the terms: how many invalid Responses in a row lock an account, 1 to 255. Any
/// other count is as if nothing were joined, which is refused with 18.
pub const fn limit(count: u32) -> u32 {
    if count < 256 {
        count << 24
    } else {
        0
    }
}

/// To be joined to the terms: how often a wrong password may be tried again.
pub const fn retries(count: u32) -> u32 {
    if count < 254 {
        count + 1
    } else {
        255
    }
}

/// Bytes of an MD4 digest.
pub const DIGEST_SIZE: usize = 16;
/// Bytes of a password hash.
pub const HASH_SIZE: usize = 16;
/// Bytes of a DES key.
pub const KEY_SIZE: usize = 7;
/// Bytes of a DES block.
pub const BLOCK_SIZE: usize = 8;
/// Bytes of a challenge.
pub const CHALLENGE_SIZE: usize = 8;
/// Bytes of a response.
pub const RESPONSE_SIZE: usize = 24;
/// Bytes of a filler.
pub const FILLER_SIZE: usize = 512;
/// Bytes of a record.
pub const RECORD_SIZE: usize = 810;
/// Bytes of a conversation.
pub const CONVERSATION_SIZE: usize = 61;
/// Bytes of a step's answer.
pub const ANSWER_SIZE: usize = 814;
/// Bytes of a peer.
pub const PEER_SIZE: usize = 21;
/// Bytes of a password.
pub const PASSWORD_SIZE: usize = 516;
/// The most places of a list of issued challenges.
pub const LIST_PLACES: usize = 4096;
/// Bytes of the authenticator's longest packet.
pub const REPLY_SIZE: usize = 17;
/// Bytes of the longest Response.
pub const RESPONSE_PACKET: usize = 310;
/// Bytes of every version 2 change.
pub const CHANGE_PACKET: usize = 1118;
/// Bytes of every version 1 change.
pub const CHANGE_1_PACKET: usize = 72;
/// Bytes of the longest input of MD4.
pub const MD4_INPUT_MAX: usize = 4096;
/// Bytes of the longest key of RC4.
pub const RC4_KEY_MAX: usize = 256;
/// Bytes of the longest password in characters of 16 bits.
pub const NT_PASSWORD_MAX: usize = 512;
/// Bytes of the longest LM password.
pub const LM_PASSWORD_MAX: usize = 14;
/// Bytes of the longest password in UTF-8.
pub const TEXT_MAX: usize = 768;
/// Bytes of the longest name.
pub const NAME_MAX: usize = 256;
/// Bytes of stack that any call of the library may take, with room for the loader and a signal's
/// handler.
pub const STACK_SIZE: usize = 12288;

/// Bytes of a list of so many places.
pub const fn list_size(places: usize) -> usize {
    4 + CHALLENGE_SIZE * places
}

/// The C interface itself. Each pointer goes with the size behind it.
pub mod raw {
    extern "C" {
        /// The version of the archive that is linked.
        pub fn mschap_version() -> u32;
        /// Makes a password of a text in UTF-8.
        pub fn mschap_make_password(
            text: *const u8,
            text_size: usize,
            password: *mut u8,
            password_size: usize,
        ) -> u32;
        /// Makes a password of characters in 16 bits, the least significant byte first.
        pub fn mschap_make_password_utf16(
            characters: *const u8,
            characters_size: usize,
            password: *mut u8,
            password_size: usize,
        ) -> u32;
        /// The text of a password in UTF-8, at the front of text, and its length.
        pub fn mschap_read_password(
            password: *const u8,
            password_size: usize,
            text: *mut u8,
            text_size: usize,
            length: *mut usize,
        ) -> u32;
        /// The NT hash of a password, into hash.
        pub fn mschap_nt_hash(
            password: *const u8,
            password_size: usize,
            hash: *mut u8,
            hash_size: usize,
        ) -> u32;
        /// The LM hash of a password in an OEM code page, into hash.
        pub fn mschap_lm_hash(
            password: *const u8,
            password_size: usize,
            hash: *mut u8,
            hash_size: usize,
        ) -> u32;
        /// Makes a record of flags and hashes.
        pub fn mschap_make_record(
            flags: u32,
            nt_hash: *const u8,
            nt_hash_size: usize,
            lm_hash: *const u8,
            lm_hash_size: usize,
            record: *mut u8,
            record_size: usize,
        ) -> u32;
        /// The flags and the hashes of a record.
        pub fn mschap_read_record(
            record: *const u8,
            record_size: usize,
            flags: *mut u32,
            nt_hash: *mut u8,
            nt_hash_size: usize,
            lm_hash: *mut u8,
            lm_hash_size: usize,
        ) -> u32;
        /// A record's count of failures; [`INVALID`](super::INVALID) for an invalid record.
        pub fn mschap_record_failures(record: *const u8, record_size: usize) -> u32;
        /// Sets a record's count of failures, in place.
        pub fn mschap_set_failures(record: *mut u8, record_size: usize, failures: u32) -> u32;
        /// The response of a record's NT or LM hash to a challenge, by the round keys that the
        /// record carries.
        pub fn mschap_record_response(
            record: *const u8,
            record_size: usize,
            hash: u32,
            challenge: *const u8,
            challenge_size: usize,
            response: *mut u8,
            response_size: usize,
        ) -> u32;
        /// Looks an account up in an account file: its record, and where its line starts.
        pub fn mschap_find_account(
            file: *const u8,
            file_size: usize,
            name: *const u8,
            name_size: usize,
            now: u32,
            max_age: u32,
            record: *mut u8,
            record_size: usize,
            offset: *mut usize,
        ) -> u32;
        /// Writes a changed record into its line of an account file, in place.
        pub fn mschap_write_account(
            file: *mut u8,
            file_size: usize,
            name: *const u8,
            name_size: usize,
            record: *const u8,
            record_size: usize,
            now: u32,
            offset: *mut usize,
        ) -> u32;
        /// Counts the lines and the accounts of an account file.
        pub fn mschap_count_accounts(
            file: *const u8,
            file_size: usize,
            now: u32,
            max_age: u32,
            lines: *mut u64,
            bad: *mut u64,
            disabled: *mut u64,
            expired: *mut u64,
            no_nt: *mut u64,
        ) -> u32;
        /// Makes list an empty list of issued challenges.
        pub fn mschap_make_list(list: *mut u8, list_size: usize) -> u32;
        /// How many places of a list are used; [`INVALID`](super::INVALID) for no list.
        pub fn mschap_list_used(list: *const u8, list_size: usize) -> u32;
        /// Opens a conversation, adds its challenges to list, and writes its Challenge into reply.
        pub fn mschap_open(
            identifier: u32,
            terms: u32,
            challenge: *const u8,
            challenge_size: usize,
            list: *mut u8,
            list_size: usize,
            conversation: *mut u8,
            conversation_size: usize,
            reply: *mut u8,
            reply_size: usize,
        ) -> u32;
        /// One step of a conversation.
        pub fn mschap_step(
            conversation: *mut u8,
            conversation_size: usize,
            packet: *const u8,
            packet_size: usize,
            record: *const u8,
            record_size: usize,
            reply: *mut u8,
            reply_size: usize,
            answer: *mut u8,
            answer_size: usize,
        ) -> u32;
        /// The reason of a step's reply; [`INVALID`](super::INVALID) for an invalid answer.
        pub fn mschap_answer_reason(answer: *const u8, answer_size: usize) -> u32;
        /// 1 if a step's reply was the last one again, else 0; [`INVALID`](super::INVALID) for an
        /// invalid answer.
        pub fn mschap_answer_repeated(answer: *const u8, answer_size: usize) -> u32;
        /// What is wrong with a change that was judged, 0 if nothing; [`INVALID`](super::INVALID)
        /// for an invalid answer.
        pub fn mschap_answer_fault(answer: *const u8, answer_size: usize) -> u32;
        /// The record that a step gives, after a judged Response or an accepted change.
        pub fn mschap_answer_record(
            answer: *const u8,
            answer_size: usize,
            record: *mut u8,
            record_size: usize,
        ) -> u32;
        /// What a conversation awaits; [`INVALID`](super::INVALID) for an invalid one.
        pub fn mschap_conversation_awaits(conversation: *const u8, conversation_size: usize)
            -> u32;
        /// The awaited identifier; [`INVALID`](super::INVALID) for an invalid conversation.
        pub fn mschap_conversation_identifier(
            conversation: *const u8,
            conversation_size: usize,
        ) -> u32;
        /// The retries that are left; [`INVALID`](super::INVALID) for an invalid conversation.
        pub fn mschap_conversation_retries(
            conversation: *const u8,
            conversation_size: usize,
        ) -> u32;
        /// The length of a packet; 0 for bytes that are none.
        pub fn mschap_packet_length(packet: *const u8, packet_size: usize) -> usize;
        /// Where the account is in a Response; 0 if the packet is refused as one.
        pub fn mschap_account_offset(packet: *const u8, packet_size: usize) -> usize;
        /// The length of the account there, in bytes.
        pub fn mschap_account_length(packet: *const u8, packet_size: usize) -> usize;
        /// Where the domain is in a Response; 0 if it is not in the packet.
        pub fn mschap_domain_offset(packet: *const u8, packet_size: usize) -> usize;
        /// The length of the domain there, in bytes.
        pub fn mschap_domain_length(packet: *const u8, packet_size: usize) -> usize;
        /// Reads a Challenge, and writes the peer that is to answer it.
        pub fn mschap_read_challenge(
            packet: *const u8,
            packet_size: usize,
            peer: *mut u8,
            peer_size: usize,
        ) -> u32;
        /// Reads a reply: what it calls for, the reason, and the peer for the next packet.
        pub fn mschap_read_reply(
            peer: *mut u8,
            peer_size: usize,
            packet: *const u8,
            packet_size: usize,
            call: *mut u32,
            reason: *mut u64,
        ) -> u32;
        /// Writes the peer's Response into out.
        pub fn mschap_write_response(
            peer: *mut u8,
            peer_size: usize,
            password: *const u8,
            password_size: usize,
            name: *const u8,
            name_size: usize,
            out: *mut u8,
            out_size: usize,
        ) -> u32;
        /// Writes the peer's version 2 change into out.
        pub fn mschap_write_change(
            peer: *mut u8,
            peer_size: usize,
            old_password: *const u8,
            old_password_size: usize,
            new_password: *const u8,
            new_password_size: usize,
            filler: *const u8,
            filler_size: usize,
            out: *mut u8,
            out_size: usize,
        ) -> u32;
        /// Writes the peer's version 1 change into out.
        pub fn mschap_write_change_1(
            peer: *mut u8,
            peer_size: usize,
            old_password: *const u8,
            old_password_size: usize,
            new_password: *const u8,
            new_password_size: usize,
            out: *mut u8,
            out_size: usize,
        ) -> u32;
        /// The MD4 digest of input, into digest.
        pub fn mschap_md4(
            input: *const u8,
            input_size: usize,
            digest: *mut u8,
            digest_size: usize,
        ) -> u32;
        /// RC4 over bytes in place.
        pub fn mschap_rc4(
            key: *const u8,
            key_size: usize,
            bytes: *mut u8,
            bytes_size: usize,
        ) -> u32;
        /// DES of a block in place, under a key of 7 bytes.
        pub fn mschap_des_encrypt(
            key: *const u8,
            key_size: usize,
            block: *mut u8,
            block_size: usize,
        ) -> u32;
        /// The inverse of `des_encrypt`.
        pub fn mschap_des_decrypt(
            key: *const u8,
            key_size: usize,
            block: *mut u8,
            block_size: usize,
        ) -> u32;
        /// The response of a hash to a challenge, into response.
        pub fn mschap_challenge_response(
            hash: *const u8,
            hash_size: usize,
            challenge: *const u8,
            challenge_size: usize,
            response: *mut u8,
            response_size: usize,
        ) -> u32;
    }
}

/// The version of the archive that is linked.
pub fn version() -> u32 {
    // SAFETY: nothing is passed.
    unsafe { raw::mschap_version() }
}

/// Makes a password of a text in UTF-8.
pub fn make_password(text: &[u8], password: &mut [u8]) -> u32 {
    // SAFETY: slices, as said above.
    unsafe {
        raw::mschap_make_password(
            text.as_ptr(),
            text.len(),
            password.as_mut_ptr(),
            password.len(),
        )
    }
}

/// Makes a password of characters in 16 bits, the least significant byte first.
pub fn make_password_utf16(characters: &[u8], password: &mut [u8]) -> u32 {
    // SAFETY: slices, as said above.
    unsafe {
        raw::mschap_make_password_utf16(
            characters.as_ptr(),
            characters.len(),
            password.as_mut_ptr(),
            password.len(),
        )
    }
}

/// The text of a password in UTF-8, at the front of text, and its length.
pub fn read_password(password: &[u8], text: &mut [u8], length: &mut usize) -> u32 {
    // SAFETY: slices and references, as said above.
    unsafe {
        raw::mschap_read_password(
            password.as_ptr(),
            password.len(),
            text.as_mut_ptr(),
            text.len(),
            length,
        )
    }
}

/// The NT hash of a password, into hash.
pub fn nt_hash(password: &[u8], hash: &mut [u8]) -> u32 {
    // SAFETY: slices, as said above.
    unsafe {
        raw::mschap_nt_hash(
            password.as_ptr(),
            password.len(),
            hash.as_mut_ptr(),
            hash.len(),
        )
    }
}

/// The LM hash of a password in an OEM code page, into hash.
pub fn lm_hash(password: &[u8], hash: &mut [u8]) -> u32 {
    // SAFETY: slices, as said above.
    unsafe {
        raw::mschap_lm_hash(
            password.as_ptr(),
            password.len(),
            hash.as_mut_ptr(),
            hash.len(),
        )
    }
}

/// Makes a record of flags and hashes.
pub fn make_record(flags: u32, nt_hash: &[u8], lm_hash: &[u8], record: &mut [u8]) -> u32 {
    // SAFETY: slices, as said above.
    unsafe {
        raw::mschap_make_record(
            flags,
            nt_hash.as_ptr(),
            nt_hash.len(),
            lm_hash.as_ptr(),
            lm_hash.len(),
            record.as_mut_ptr(),
            record.len(),
        )
    }
}

/// The flags and the hashes of a record.
pub fn read_record(record: &[u8], flags: &mut u32, nt_hash: &mut [u8], lm_hash: &mut [u8]) -> u32 {
    // SAFETY: slices and references, as said above.
    unsafe {
        raw::mschap_read_record(
            record.as_ptr(),
            record.len(),
            flags,
            nt_hash.as_mut_ptr(),
            nt_hash.len(),
            lm_hash.as_mut_ptr(),
            lm_hash.len(),
        )
    }
}

/// A record's count of failures; [`INVALID`] for an invalid record.
pub fn record_failures(record: &[u8]) -> u32 {
    // SAFETY: slices, as said above.
    unsafe { raw::mschap_record_failures(record.as_ptr(), record.len()) }
}

/// Sets a record's count of failures, in place.
pub fn set_failures(record: &mut [u8], failures: u32) -> u32 {
    // SAFETY: slices, as said above.
    unsafe { raw::mschap_set_failures(record.as_mut_ptr(), record.len(), failures) }
}

/// The response of a record's hash, [`HAS_NT_HASH`] or [`HAS_LM_HASH`], to a challenge, by the
/// round keys that the record carries.
pub fn record_response(record: &[u8], hash: u32, challenge: &[u8], response: &mut [u8]) -> u32 {
    // SAFETY: slices, as said above.
    unsafe {
        raw::mschap_record_response(
            record.as_ptr(),
            record.len(),
            hash,
            challenge.as_ptr(),
            challenge.len(),
            response.as_mut_ptr(),
            response.len(),
        )
    }
}

/// Looks an account up in an account file: its record, and where its line starts.
pub fn find_account(
    file: &[u8],
    name: &[u8],
    now: u32,
    max_age: u32,
    record: &mut [u8],
    offset: &mut usize,
) -> u32 {
    // SAFETY: slices and references, as said above.
    unsafe {
        raw::mschap_find_account(
            file.as_ptr(),
            file.len(),
            name.as_ptr(),
            name.len(),
            now,
            max_age,
            record.as_mut_ptr(),
            record.len(),
            offset,
        )
    }
}

/// Writes a changed record into its line of an account file, in place.
pub fn write_account(
    file: &mut [u8],
    name: &[u8],
    record: &[u8],
    now: u32,
    offset: &mut usize,
) -> u32 {
    // SAFETY: slices and references, as said above.
    unsafe {
        raw::mschap_write_account(
            file.as_mut_ptr(),
            file.len(),
            name.as_ptr(),
            name.len(),
            record.as_ptr(),
            record.len(),
            now,
            offset,
        )
    }
}

/// Counts in an account file: lines, those of another form, and the accounts that are disabled,
/// that have expired, and that have no NT hash.
pub fn count_accounts(file: &[u8], now: u32, max_age: u32, counts: &mut [u64; 5]) -> u32 {
    let [lines, bad, disabled, expired, no_nt] = counts;
    // SAFETY: slices and references, as said above.
    unsafe {
        raw::mschap_count_accounts(
            file.as_ptr(),
            file.len(),
            now,
            max_age,
            lines,
            bad,
            disabled,
            expired,
            no_nt,
        )
    }
}

/// Makes list an empty list of issued challenges.
pub fn make_list(list: &mut [u8]) -> u32 {
    // SAFETY: slices, as said above.
    unsafe { raw::mschap_make_list(list.as_mut_ptr(), list.len()) }
}

/// How many places of a list are used; [`INVALID`] for no list.
pub fn list_used(list: &[u8]) -> u32 {
    // SAFETY: slices, as said above.
    unsafe { raw::mschap_list_used(list.as_ptr(), list.len()) }
}

/// Opens a conversation, adds its challenges to list, and writes its Challenge into reply.
pub fn open(
    identifier: u32,
    terms: u32,
    challenge: &[u8],
    list: &mut [u8],
    conversation: &mut [u8],
    reply: &mut [u8],
) -> u32 {
    // SAFETY: slices, as said above.
    unsafe {
        raw::mschap_open(
            identifier,
            terms,
            challenge.as_ptr(),
            challenge.len(),
            list.as_mut_ptr(),
            list.len(),
            conversation.as_mut_ptr(),
            conversation.len(),
            reply.as_mut_ptr(),
            reply.len(),
        )
    }
}

/// One step of a conversation.
pub fn step(
    conversation: &mut [u8],
    packet: &[u8],
    record: &[u8],
    reply: &mut [u8],
    answer: &mut [u8],
) -> u32 {
    // SAFETY: slices, as said above.
    unsafe {
        raw::mschap_step(
            conversation.as_mut_ptr(),
            conversation.len(),
            packet.as_ptr(),
            packet.len(),
            record.as_ptr(),
            record.len(),
            reply.as_mut_ptr(),
            reply.len(),
            answer.as_mut_ptr(),
            answer.len(),
        )
    }
}

/// The reason of a step's reply; [`INVALID`] for an invalid answer.
pub fn answer_reason(answer: &[u8]) -> u32 {
    // SAFETY: slices, as said above.
    unsafe { raw::mschap_answer_reason(answer.as_ptr(), answer.len()) }
}

/// 1 if a step's reply was the last one again, else 0; [`INVALID`] for an invalid answer.
pub fn answer_repeated(answer: &[u8]) -> u32 {
    // SAFETY: slices, as said above.
    unsafe { raw::mschap_answer_repeated(answer.as_ptr(), answer.len()) }
}

/// What is wrong with a change that was judged, 0 if nothing; [`INVALID`] for an invalid answer.
pub fn answer_fault(answer: &[u8]) -> u32 {
    // SAFETY: slices, as said above.
    unsafe { raw::mschap_answer_fault(answer.as_ptr(), answer.len()) }
}

/// The record that a step gives, after a judged Response or an accepted change of the password.
pub fn answer_record(answer: &[u8], record: &mut [u8]) -> u32 {
    // SAFETY: slices, as said above.
    unsafe {
        raw::mschap_answer_record(
            answer.as_ptr(),
            answer.len(),
            record.as_mut_ptr(),
            record.len(),
        )
    }
}

/// What a conversation awaits; [`INVALID`] for an invalid one.
pub fn conversation_awaits(conversation: &[u8]) -> u32 {
    // SAFETY: slices, as said above.
    unsafe { raw::mschap_conversation_awaits(conversation.as_ptr(), conversation.len()) }
}

/// The awaited identifier; [`INVALID`] for an invalid conversation.
pub fn conversation_identifier(conversation: &[u8]) -> u32 {
    // SAFETY: slices, as said above.
    unsafe { raw::mschap_conversation_identifier(conversation.as_ptr(), conversation.len()) }
}

/// The retries that are left; [`INVALID`] for an invalid conversation.
pub fn conversation_retries(conversation: &[u8]) -> u32 {
    // SAFETY: slices, as said above.
    unsafe { raw::mschap_conversation_retries(conversation.as_ptr(), conversation.len()) }
}

/// The length of a packet; 0 for bytes that are none.
pub fn packet_length(packet: &[u8]) -> usize {
    // SAFETY: slices, as said above.
    unsafe { raw::mschap_packet_length(packet.as_ptr(), packet.len()) }
}

/// Where the account is in a Response; 0 if the packet is refused as one.
pub fn account_offset(packet: &[u8]) -> usize {
    // SAFETY: slices, as said above.
    unsafe { raw::mschap_account_offset(packet.as_ptr(), packet.len()) }
}

/// The length of the account there, in bytes.
pub fn account_length(packet: &[u8]) -> usize {
    // SAFETY: slices, as said above.
    unsafe { raw::mschap_account_length(packet.as_ptr(), packet.len()) }
}

/// Where the domain is in a Response; 0 if it is not in the packet.
pub fn domain_offset(packet: &[u8]) -> usize {
    // SAFETY: slices, as said above.
    unsafe { raw::mschap_domain_offset(packet.as_ptr(), packet.len()) }
}

/// The length of the domain there, in bytes.
pub fn domain_length(packet: &[u8]) -> usize {
    // SAFETY: slices, as said above.
    unsafe { raw::mschap_domain_length(packet.as_ptr(), packet.len()) }
}

/// Reads a Challenge, and writes the peer that is to answer it.
pub fn read_challenge(packet: &[u8], peer: &mut [u8]) -> u32 {
    // SAFETY: slices, as said above.
    unsafe {
        raw::mschap_read_challenge(packet.as_ptr(), packet.len(), peer.as_mut_ptr(), peer.len())
    }
}

/// Reads a reply: what it calls for, the reason, and the peer for the next packet.
pub fn read_reply(peer: &mut [u8], packet: &[u8], call: &mut u32, reason: &mut u64) -> u32 {
    // SAFETY: slices and references, as said above.
    unsafe {
        raw::mschap_read_reply(
            peer.as_mut_ptr(),
            peer.len(),
            packet.as_ptr(),
            packet.len(),
            call,
            reason,
        )
    }
}

/// Writes the peer's Response into out.
pub fn write_response(peer: &mut [u8], password: &[u8], name: &[u8], out: &mut [u8]) -> u32 {
    // SAFETY: slices, as said above.
    unsafe {
        raw::mschap_write_response(
            peer.as_mut_ptr(),
            peer.len(),
            password.as_ptr(),
            password.len(),
            name.as_ptr(),
            name.len(),
            out.as_mut_ptr(),
            out.len(),
        )
    }
}

/// Writes the peer's version 2 change into out.
pub fn write_change(
    peer: &mut [u8],
    old_password: &[u8],
    new_password: &[u8],
    filler: &[u8],
    out: &mut [u8],
) -> u32 {
    // SAFETY: slices, as said above.
    unsafe {
        raw::mschap_write_change(
            peer.as_mut_ptr(),
            peer.len(),
            old_password.as_ptr(),
            old_password.len(),
            new_password.as_ptr(),
            new_password.len(),
            filler.as_ptr(),
            filler.len(),
            out.as_mut_ptr(),
            out.len(),
        )
    }
}

/// Writes the peer's version 1 change into out.
pub fn write_change_1(
    peer: &mut [u8],
    old_password: &[u8],
    new_password: &[u8],
    out: &mut [u8],
) -> u32 {
    // SAFETY: slices, as said above.
    unsafe {
        raw::mschap_write_change_1(
            peer.as_mut_ptr(),
            peer.len(),
            old_password.as_ptr(),
            old_password.len(),
            new_password.as_ptr(),
            new_password.len(),
            out.as_mut_ptr(),
            out.len(),
        )
    }
}

/// The MD4 digest of input, into digest.
pub fn md4(input: &[u8], digest: &mut [u8]) -> u32 {
    // SAFETY: slices, as said above.
    unsafe {
        raw::mschap_md4(
            input.as_ptr(),
            input.len(),
            digest.as_mut_ptr(),
            digest.len(),
        )
    }
}

/// RC4 over bytes in place.
pub fn rc4(key: &[u8], bytes: &mut [u8]) -> u32 {
    // SAFETY: slices, as said above.
    unsafe { raw::mschap_rc4(key.as_ptr(), key.len(), bytes.as_mut_ptr(), bytes.len()) }
}

/// DES of a block in place, under a key of 7 bytes.
pub fn des_encrypt(key: &[u8], block: &mut [u8]) -> u32 {
    // SAFETY: slices, as said above.
    unsafe { raw::mschap_des_encrypt(key.as_ptr(), key.len(), block.as_mut_ptr(), block.len()) }
}

/// The inverse of `des_encrypt`.
pub fn des_decrypt(key: &[u8], block: &mut [u8]) -> u32 {
    // SAFETY: slices, as said above.
    unsafe { raw::mschap_des_decrypt(key.as_ptr(), key.len(), block.as_mut_ptr(), block.len()) }
}

/// The response of a hash to a challenge, into response.
pub fn challenge_response(hash: &[u8], challenge: &[u8], response: &mut [u8]) -> u32 {
    // SAFETY: slices, as said above.
    unsafe {
        raw::mschap_challenge_response(
            hash.as_ptr(),
            hash.len(),
            challenge.as_ptr(),
            challenge.len(),
            response.as_mut_ptr(),
            response.len(),
        )
    }
}
