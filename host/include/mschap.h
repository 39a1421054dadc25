/*
 * mschap.h: MS-CHAP version 1 (RFC 2433) for C, over a library whose every function is proved
 * against its promise.
 *
 * QUICK START: the authenticator, over the bytes of an account file (see ACCOUNT FILES) and counts
 * of failures by name (see LOCKOUT)
 *
 *     static uint8_t list[MSCHAP_LIST_SIZE(300)];         // for 100 conversations, see mschap_open
 *     mschap_conversation talk;  mschap_record record, after, again;  mschap_answer answer;
 *     uint8_t reply[MSCHAP_REPLY_SIZE], challenge[MSCHAP_CHALLENGE_SIZE], name[MSCHAP_NAME_MAX];
 *     size_t name_size = 0, offset;  uint32_t awaited, number, fault;
 *
 *     mschap_make_list(list, sizeof list);                // once
 *     getrandom(challenge, sizeof challenge, 0);          // unpredictable: from a CSPRNG
 *     mschap_open(1, MSCHAP_TERMS | MSCHAP_LIMIT(10),     // for old phones see OLD PHONES
 *                 challenge, sizeof challenge, list, sizeof list,
 *                 &talk, sizeof talk, reply, sizeof reply);
 *     send(reply, mschap_packet_length(reply, sizeof reply));
 *     while ((size = receive(packet)) != 0) {             // each packet, while the link is up
 *         lock_and_read(&file, &file_size);               // one step at a time, and the counts too
 *         awaited = mschap_conversation_awaits(&talk, sizeof talk);
 *         if (awaited == MSCHAP_AWAITS_RESPONSE) {
 *             name_size = mschap_account_length(packet, size);    // a change has no name: keep it
 *             memcpy(name, packet + mschap_account_offset(packet, size), name_size);
 *             if (mschap_find_account(file, file_size, name, name_size, time(NULL), max_age,
 *                                     &record, sizeof record, &offset) != MSCHAP_OK)
 *                 hang_up();                              // correct the file at that offset
 *             mschap_set_failures(&record, sizeof record, count_of(name, name_size));
 *         }
 *         number = mschap_step(&talk, sizeof talk, packet, size, &record, sizeof record,
 *                              reply, sizeof reply, &answer, sizeof answer);
 *         if (number == MSCHAP_OK
 *             && mschap_answer_record(&answer, sizeof answer, &after, sizeof after) == MSCHAP_OK) {
 *             if (awaited != MSCHAP_AWAITS_RESPONSE       // a change: the new password is written,
 *                 && (mschap_find_account(file, file_size, name, name_size, time(NULL), max_age,
 *                                         &again, sizeof again, &offset) != MSCHAP_OK
 *                     || memcmp(&again, &record, sizeof again) != 0   // if nobody wrote since
 *                     || mschap_write_account(file, file_size, name, name_size, &after,
 *                                             sizeof after, time(NULL), &offset) != MSCHAP_OK))
 *                 hang_up();                              // and note why
 *             record = after;             // before a change its count is 0, as that of again
 *             keep_count(name, name_size, mschap_record_failures(&after, sizeof after));
 *         }
 *         store_and_unlock(file, file_size);              // and the counts: before the reply
 *         if (number != MSCHAP_OK)
 *             continue;                                   // refused: nothing has changed
 *         send(reply, mschap_packet_length(reply, sizeof reply));
 *         if (mschap_answer_repeated(&answer, sizeof answer))
 *             continue;                                   // the peer had missed the last reply
 *         if ((fault = mschap_answer_fault(&answer, sizeof answer)) != MSCHAP_FAULT_NONE)
 *             note(mschap_fault_text(fault));             // why a change failed: for the log alone
 *         if (mschap_conversation_awaits(&talk, sizeof talk) == MSCHAP_AWAITS_NOTHING)
 *             decide(mschap_answer_reason(&answer, sizeof answer) == MSCHAP_SUCCESS); // in or not
 *     }
 *
 * hang_up() stores nothing, releases the lock, hangs up and does not return.
 * Check each return value. examples/authenticator.c and examples/peer.c are whole programs. Where
 * accounts are kept in another way, mschap_make_record makes the record that a step takes, of the
 * hash that mschap_make_password and mschap_nt_hash make of a password in UTF-8; and what a step
 * gives, count, round keys and all, is stored in its place (see ROUND KEYS).
 *
 * OLD PHONES
 *   A phone that answers by LM alone is let in only by a conversation that asks for LM:
 *       mschap_open(1, MSCHAP_TERMS | MSCHAP_LIMIT(10) | MSCHAP_LM_ALLOWED, challenge, ..
 *   So is any phone whose account has an LM hash and no NT hash. Either way the account needs an LM
 *   hash, which a version 2 change of the password removes. LM is off in every other conversation.
 *   Up to 0.4.0 MSCHAP_TERMS alone allowed LM: an upgrade without MSCHAP_LM_ALLOWED locks those
 *   phones out, and their right password draws MSCHAP_E_AUTHENTICATION_FAILURE, as a wrong one
 *   does. Ask for it on the benches that have such phones and nowhere else: RFC 2433 (section 6)
 *   deprecates LM, and where it is allowed an account with both hashes is as weak as its LM hash.
 *
 * VERSION 1 CHANGES
 *   A handset that knows only the older Change Password packet, code 5, changes an expired password
 *   in a conversation that is opened for it:
 *       mschap_open(1, MSCHAP_TERMS | MSCHAP_LIMIT(10) | MSCHAP_CHANGE_1, challenge, ..
 *   Every Failure of that conversation says V=1, which calls for the packet, and after
 *   MSCHAP_E_PASSWD_EXPIRED it awaits MSCHAP_AWAITS_CHANGE_1: code 6 is then refused with
 *   MSCHAP_CODE, as code 5 is in every other conversation, whose Failures say V=2. So have a line
 *   of their own for such handsets: one that knows code 6 alone cannot change its password there.
 *   The packet has the old and the new NT and LM hash, each encrypted under the challenge, and the
 *   length of the new password. Where bit 0 of its flags is set, the old NT hash is compared, and
 *   the record gets the new NT hash and, if the length is at most 14, the new LM hash too, whether
 *   LM is allowed or not; else none. Where it is clear, which needs MSCHAP_LM_ALLOWED and such a
 *   length, the old LM hash is compared, and the record gets the new LM hash and no NT hash.
 *   RFC 2433 (section 9) deprecates the packet: peers SHOULD NOT send it. The challenge is sent in
 *   the clear, so whoever listens on the line decrypts the old and the new hash, which is as good
 *   as the password. Ask for it on the benches that have such handsets, where nobody else listens,
 *   and nowhere else. Our peer writes it by mschap_write_change_1, only where a reply calls for it.
 *
 * LOCKOUT
 *   The retries of a conversation stop no guesser: to hang up and call back gives fresh ones. So a
 *   record counts how many Responses in a row were judged invalid, in whatever conversations, and
 *   each opening sets a limit, MSCHAP_TERMS | MSCHAP_LIMIT(n), n from 1 to 255. There is none by
 *   default: an opening without a limit is refused with MSCHAP_NO_LIMIT.
 *   The count is 0 in a record that is newly made or found in an account file. Below the limit an
 *   invalid Response adds 1, and a valid one sets the count to 0, also where the account is
 *   disabled, barred or expired. At the limit or over it the account is locked: every Response
 *   draws MSCHAP_E_AUTHENTICATION_FAILURE, whatever it says. There an invalid one still adds 1, to
 *   at most 255, and a valid one leaves the count as it is. An accepted change of the password sets
 *   it to 0, also where others have locked the account since its owner was asked for the change.
 *   Responses by LM count as others do, also where LM is off, so that none is valid.
 *   So there are at most n guesses at a password, on all lines together, until its owner logs on or
 *   the account is unlocked.
 *
 *   The library remembers nothing: the count is worth what the caller does with it.
 *   - After EVERY judged Response, take the record that mschap_answer_record gives, store it before
 *     the reply is sent, and pass it with the next packet that names that account, in whatever
 *     conversation. Else the count is lost, and nothing stops a guesser.
 *   - Make one step at a time for one account: read its record, make the step and store the record
 *     under one lock. Two steps that are passed the same copy count one failure, so that a guesser
 *     on many lines at once would have many guesses for one.
 *   - Store it also where it is as it was. A right guess at a locked account leaves the count, and
 *     a wrong one moves it: where only what is new is stored, the right one is answered sooner, and
 *     the guesser knows the password. Store something, for the same time, also where there was no
 *     record: else the time tells which accounts there are.
 *   - Counts that are in memory alone are 0 again after a restart, and each restart gives a guesser
 *     n guesses more: store them on disk, if that matters.
 *
 *   An account file has no place for the count: a caller who looks the account up anew for each
 *   Response, and does no more, has NO lockout. Keep the counts beside the file: after
 *   mschap_find_account pass the one that was kept to mschap_set_failures, and after the step keep
 *   what mschap_record_failures tells of the record. Keep them by the name that was looked up, and
 *   not by the packet's, which may have any domain before its backslash. A name on no line draws no
 *   record: so there are never more counts than accounts, whatever names are tried.
 *
 *   mschap_answer_record gives records of two kinds. What the conversation awaited before the step
 *   tells which one it is:
 *       MSCHAP_AWAITS_RESPONSE  the record that was passed, with its new count and no other change
 *       MSCHAP_AWAITS_CHANGE    the record of an accepted change: the new hash, and the count 0
 *       MSCHAP_AWAITS_CHANGE_1  the same, with one new hash or both
 *   Only the second is for mschap_write_account, which sets the time of the last change too: with
 *   the first, a password would be as new as the last Response, and never expire.
 *
 *   To unlock an account, its keeper sets its count to 0 (mschap_set_failures), or makes its record
 *   anew, as for a new password. No time unlocks it: the library has no clock. A program that has
 *   one may set counts to 0 by it, and so give a guesser n guesses a day, for instance.
 *
 *   A locked account is answered as an unknown one is, and the step takes the same time: nobody
 *   learns by it that there is such an account, or that it is locked. But anybody can lock an
 *   account by guessing, and so keep its owner out: choose a limit that is not reached by mistyping
 *   or for fun; on a closed bench 10, for instance. Conversations may have different limits.
 *   The count is a secret, as the hashes are: at the limit wrong guesses alone move it, so that it
 *   tells whether a guess was right. Let nobody else read it, and log that an account is locked,
 *   but not its count.
 *
 * ACCOUNT FILES
 *   mschap_find_account, mschap_write_account and mschap_count_accounts take a file in the layout
 *   of Samba's smbpasswd(5) whole, read or memory-mapped; nobody else may change its bytes during
 *   the call. A line ends at a line feed or at the file's end, and one that begins with # is
 *   skipped. Any other has six fields, each closed by a colon, of any bytes but colon and line
 *   feed:
 *       name              1 to MSCHAP_NAME_MAX bytes, upper and lower case being different
 *       uid               1 to 10 digits, which are not used
 *       LM hash, NT hash  32 hexadecimal digits of either case each; none, if the 32 bytes begin
 *                         with X or NO PASSWORD
 *       flags             [, 11 of them, ]: a D among them disables the account
 *       last change       LCT- and 8 hexadecimal digits: the time in seconds, as now is
 *   and behind the sixth colon anything, as the CR of a line end of Windows.
 *
 *   A password has expired if its last change is more than max_age before now, unless X is among
 *   the flags, the last change is 0, or it is later than now. So one that is changed at time 0
 *   never expires: set the clock first.
 *
 *   No other flag is read. With N, where Samba asks for no password, the NT hash decides as ever;
 *   and whom Samba has locked out (L), or a machine (W), is let in as any other: to keep them out,
 *   set D. Neither are hours, dial-in and the count of LOCKOUT in the file: in the record the flags
 *   of the first two are clear, and the count is 0. Samba's `lanman auth` is not known here: LM is
 *   off unless the terms of the conversation allow it.
 *
 *   One line of another form, an empty one too, refuses the whole file, whatever name is looked
 *   up: the damaged line could be the account's own. A hash of 32 *, by which Samba marks one that
 *   is not to be used, is another form: write 32 X. The offset is where the first such line starts.
 *   At a shell, with it for OFFSET,
 *       head -c OFFSET FILE | wc -l
 *   counts the lines before it, and acctsum, a program of this project, prints `bad 1` for it alone
 *   until each of its fields is correct:
 *       { echo 0 0; tail -c +$((OFFSET + 1)) FILE | head -n 1; } | acctsum
 *
 *   mschap_write_account writes into the caller's bytes and nowhere else; so do not map the file
 *   shared. To store them so that no crash loses a change, and no change undoes another that was
 *   made under the same lock: take a lock that all your programs take, read the file again, look
 *   the account up again and compare its record (memcmp) with the one that its Response gave, write
 *   the account, write the bytes to a new file in the same folder (with the owner and mode of the
 *   old one; if the name is a symbolic link, in the folder of its target), fsync it, rename it to
 *   the file's name, fsync the folder, release the lock, and only then send the reply.
 *   If the two records differ, the account was changed after the Response, as by an administrator
 *   who reset the password: store nothing, send no reply and hang up. Compare them with the same
 *   count of failures: the one that was looked up has 0, and so has the one that its Response gave,
 *   since a change follows a valid one. So set no count before: other conversations may have
 *   counted failures meanwhile, and that is no reason to lose a change.
 *   Samba's programs (smbpasswd, pdbedit, smbd) know nothing of that lock and write in place: see
 *   that none of them writes at the same time. A hash is as good as its password: let nobody but
 *   the authenticator read the file, or the new one.
 *
 * ROUND KEYS
 *   A response is three blocks of DES, each under a part of the hash, and to make the round keys of
 *   the three takes about as long as the blocks. So since 0.8.0 a record holds them too: behind its
 *   first 42 bytes those of the NT hash and then those of the LM hash, three times 16 of 8 bytes
 *   each, the least significant byte first. mschap_make_record, mschap_find_account and an accepted
 *   change make them, in less than a microsecond for each hash, and a step that judges a Response
 *   makes none. Beside a hash that is not there they are 0. A program keeps and passes records as
 *   before, and need not know of this. It gains most where it keeps records: one that looks the
 *   account up in its file for each Response, or makes its record anew, has them made each time.
 *
 *   A Response is judged by the round keys that the record carries, and mschap_record_response goes
 *   by them too; a change of the password goes by the hash. In each record that this library makes
 *   the two belong together, and so they do in each that a step gives for such a one. But any bytes
 *   are valid as round keys, and it is not checked whose they are. So whoever can write a record
 *   can set them, and get in by a password of his own while its hash is the owner's, as if he had
 *   written the hash: let nobody else write where records are stored. Such a record comes back from
 *   a step with the round keys that it had. Written into an account file and found there again it
 *   has the hash's own, so that then another password gets in than before.
 *   The round keys are as secret as the hash: they are all that a response needs, and the hash can
 *   be worked out from them. Let nobody else read them.
 *
 * LINKING
 *   `make lib` writes libmschap.a, libmschap.so, this header and mschap.pc below target/mschap, for
 *   x86-64 Linux; `make install PREFIX=/usr/local` copies them. Then
 *       cc program.c $(pkg-config --cflags --libs mschap)
 *   links the archive, which needs no library but C's, and may be linked into a shared one.
 *   libmschap.so is for programs that load it when they run, as examples/bench.py does.
 *
 * BUFFERS
 *   A buffer is passed as a pointer and, right behind it, its size in bytes, which is sizeof for
 *   every type below. A const buffer is only read; any other is read or written as said at the
 *   function. No two buffers of a call may overlap, unless both are const. An empty buffer may have
 *   any pointer, NULL too. A pointer without a size (flags, length, call, reason, offset, lines and
 *   the other counts) is never NULL, and neither a buffer of the call nor another such pointer
 *   overlaps what it points to.
 *
 * VALUES
 *   Accounts, conversations and so on are passed as values of the types below: bytes that only this
 *   library makes and reads. They hold no pointer, so they may be copied, stored and read again.
 *   Each begins with its kind and the version of that kind's layout, MSCHAP_RECORD_LAYOUT and so
 *   on; one of another kind or version, of another size or with bytes that no value has is refused
 *   with MSCHAP_BAD_ARGUMENT. Conversations have a new layout and size since 0.9.0, and records and
 *   answers since 0.8.0: those that were stored before are refused. Open such a conversation again,
 *   and make such a record again of what is known of the account (the library that stored it tells
 *   what is in it: mschap_read_record and mschap_record_failures). The others are as 0.2.0 stored
 *   them.
 *   Bytes are not signed: store values where nobody else writes (for records see ROUND KEYS too).
 *   Records, answers, passwords and a conversation that awaits a change, which keeps hashes and no
 *   round keys, hold secrets: store these where nobody else reads, too.
 *   Arguments that are exchanged by mistake are refused, or are no C: GCC 14 says so by default,
 *   and other compilers with -Werror=incompatible-pointer-types. Of these alone an exchange is not
 *   found, as they are numbers alike: now and max_age, and the five counts of accounts.
 *
 * WHAT A FUNCTION RETURNS
 *   MSCHAP_OK (0), or the number of the first thing that is wrong, by the macros below.
 *   MSCHAP_BAD_ARGUMENT comes before any other. On every return but MSCHAP_OK, every buffer is
 *   unchanged, and so is whatever a pointer without a size points to, unless the function says
 *   otherwise.
 *   A function that returns a value instead, as mschap_conversation_awaits, says so.
 *
 * STATE
 *   Nothing is allocated and there is no state in the library: all that a conversation or a peer
 *   knows is in the value that the caller keeps, how often an account has failed is in its record,
 *   and which challenges were issued is in the list that the caller passes. So calls on different
 *   buffers may be made at the same time, and a conversation or a peer may be stored and continued
 *   later. Do not continue a conversation from two copies: each would take an answer to the same
 *   challenge. Before the reply of a step is sent, store the record that it gives, and then the
 *   conversation that it leaves. After a crash between the two the packet is judged again; in the
 *   other order its reply would be repeated, and a failure or a new password lost, since a repeat
 *   gives no record. Secrets that pass through are left on the stack; the library does not wipe
 *   them.
 *
 * STACK
 *   Provide MSCHAP_STACK_SIZE bytes of stack for any call, whatever its input is. That is at least
 *   4 KiB more than any function takes: a test measures each on its worst inputs, and the comment
 *   of each has its figure. The rest is for others: where memcpy and memset are bound at their
 *   first call, the loader runs there and takes about 3 KiB (none where the program is linked with
 *   -z now), and a signal's handler may run there.
 */
#ifndef MSCHAP_H
#define MSCHAP_H

#include <stddef.h>
#include <stdint.h>

#ifdef __cplusplus
extern "C" {
#endif

/* ---- versions */

#define MSCHAP_VERSION 0x000900      /* of this interface: major, minor, patch, a byte each */
#define MSCHAP_VERSION_TEXT "0.9.0"

/* of the layout of each kind of value */
#define MSCHAP_RECORD_LAYOUT 3       /* since 0.8.0, with the round keys of both hashes */
#define MSCHAP_CONVERSATION_LAYOUT 4 /* since 0.9.0, with the version of its change */
#define MSCHAP_ANSWER_LAYOUT 5       /* since 0.8.0, with the record's round keys */
#define MSCHAP_PEER_LAYOUT 1
#define MSCHAP_PASSWORD_LAYOUT 1
#define MSCHAP_LIST_LAYOUT 1

/* ---- what a function returns; 1 and 4 to 7 of a step are for a packet that is no repeat */

#define MSCHAP_OK 0
#define MSCHAP_ENDED 1           /* the conversation has ended */
#define MSCHAP_REPLY_ROOM 2      /* the reply buffer is under MSCHAP_REPLY_SIZE bytes */
#define MSCHAP_FRAME 3           /* a packet under 4 bytes, its Length under 4 or over its size */
#define MSCHAP_CODE 4            /* another code than the awaited one */
#define MSCHAP_IDENTIFIER 5      /* another identifier than the awaited one */
#define MSCHAP_SIZE 6            /* wrong sizes within the packet */
#define MSCHAP_FLAGS 7           /* a flag or flags of the packet out of range */
#define MSCHAP_INPUT 8           /* a password, key or input of a length that is not accepted */
#define MSCHAP_ROOM 9            /* the buffer is too small for what is to be written */
#define MSCHAP_NAME 10           /* a name that is empty or over MSCHAP_NAME_MAX bytes */
#define MSCHAP_READING 11        /* no Challenge, Success or Failure, or one that cannot be read */
#define MSCHAP_FILLER 12         /* a filler that is not MSCHAP_FILLER_SIZE bytes */
#define MSCHAP_RETRIES_RANGE 13  /* over 7 retries */
#define MSCHAP_BAD_LINE 14       /* a line of an account file is of another form */
#define MSCHAP_DOUBLED_NAME 15   /* the name is on two lines of an account file, or more */
#define MSCHAP_SPENT 16          /* the challenge or one of its successors was issued before */
#define MSCHAP_LIST_FULL 17      /* too few places left in the list of issued challenges */
#define MSCHAP_NO_LIMIT 18       /* terms without MSCHAP_LIMIT(n), or with n not from 1 to 255 */
#define MSCHAP_LIST 24           /* a bad list: its size, or more places used than it has */
#define MSCHAP_BAD_ARGUMENT 100  /* a value or buffer of another size, kind or version than the
                                    function takes, bytes that no value has, or a number (terms,
                                    identifier, flags) that is none */
#define MSCHAP_MALFORMED 101     /* text that is not UTF-8, or characters that are not UTF-16 */
#define MSCHAP_NO_RECORD 102     /* the answer has no record to be stored, or the record is that of
                                    no account, or has no hash of the kind that was asked for */
#define MSCHAP_NO_ACCOUNT 103    /* the name is on no line of the account file */

/* What a function that returns a value returns instead, if it was passed an invalid one. */
#define MSCHAP_INVALID 0xffffffffu

/* ---- the reasons of a Failure (RFC 2433, section 8); MSCHAP_SUCCESS stands for Success */

#define MSCHAP_SUCCESS 0
#define MSCHAP_E_RESTRICTED_LOGON_HOURS 646
#define MSCHAP_E_ACCT_DISABLED 647
#define MSCHAP_E_PASSWD_EXPIRED 648
#define MSCHAP_E_NO_DIALIN_PERMISSION 649
#define MSCHAP_E_AUTHENTICATION_FAILURE 691
#define MSCHAP_E_CHANGING_PASSWORD 709

/* ---- what is wrong with a change of the password that drew MSCHAP_E_CHANGING_PASSWORD: the first
        that holds, in this order, of a version 2 change 1 to 6 and of a version 1 change 7 to 10.
        For the log, and never for the peer (see mschap_answer_fault).
        Later versions may have further numbers: take one that is not here for an unknown fault. */

#define MSCHAP_FAULT_NONE 0            /* with every other answer, a repeat of that Failure too */
#define MSCHAP_FAULT_NO_NT_HASH 1      /* the account has no NT hash */
#define MSCHAP_FAULT_NO_NT_RESPONSE 2  /* bit 0 of the packet's flags is clear: the peer does not
                                          ask for its NT response (RFC 2433, section 10) */
#define MSCHAP_FAULT_LENGTH_OVER 3     /* the block of the new password, opened by the old hash, has
                                          a length over 512: mostly the old password is mistyped */
#define MSCHAP_FAULT_LENGTH_ODD 4      /* that length is odd */
#define MSCHAP_FAULT_OLD_HASH_WRONG 5  /* the old hash under the new one is not the one sent: not a
                                          mistyped old password, since the block could be opened */
#define MSCHAP_FAULT_RESPONSE_WRONG 6  /* the response to the challenge is not the new password's */
#define MSCHAP_FAULT_LM_NOT_ALLOWED 7  /* bit 0 of the packet's flags is clear, so that it is a
                                          change by LM, and the conversation has no
                                          MSCHAP_LM_ALLOWED */
#define MSCHAP_FAULT_LENGTH_OVER_LM 8  /* bit 0 is clear, and the packet says that the new password
                                          has over 14 bytes: no LM hash is made of such a one */
#define MSCHAP_FAULT_HASH_ABSENT 9     /* the account has no NT hash, or no LM hash where bit 0 is
                                          clear */
#define MSCHAP_FAULT_HASH_WRONG 10     /* that hash under the challenge is not the one sent: mostly
                                          the old password is mistyped */

/* ---- what a conversation awaits */

#define MSCHAP_AWAITS_NOTHING 0  /* it has ended */
#define MSCHAP_AWAITS_RESPONSE 2
#define MSCHAP_AWAITS_CHANGE 6    /* a version 2 change of the password */
#define MSCHAP_AWAITS_CHANGE_1 5  /* a version 1 change (see VERSION 1 CHANGES) */

/* ---- what a reply calls for */

#define MSCHAP_CALL_NONE 0       /* Success: the peer is in */
#define MSCHAP_CALL_RESPONSE 1   /* another Response: mschap_write_response */
#define MSCHAP_CALL_CHANGE 2     /* a new password: mschap_write_change */
#define MSCHAP_CALL_CHANGE_1 3   /* a new password, by a version 1 change, which whoever listens
                                    can decrypt: mschap_write_change_1 */
#define MSCHAP_CALL_END 4        /* hang up */

/* ---- the flags of a record */

#define MSCHAP_FOUND 0x01          /* there is such an account; else the others have no effect */
#define MSCHAP_HAS_NT_HASH 0x02
#define MSCHAP_HAS_LM_HASH 0x04
#define MSCHAP_DISABLED 0x08       /* nobody may log on */
#define MSCHAP_HOURS_DENIED 0x10   /* the hours do not allow a logon */
#define MSCHAP_DIALIN_DENIED 0x20  /* there is no permission to dial in */
#define MSCHAP_EXPIRED 0x40        /* the password has expired: it must be changed */

/* ---- the terms of a conversation: MSCHAP_TERMS joined by | with MSCHAP_LIMIT(n) and, where a
        default is not what is wanted, with MSCHAP_RETRIES(n), one of the two choices about LM and
        one of the two changes; each at most once */

#define MSCHAP_TERMS 0x10000u
/* how many invalid Responses in a row lock an account, 1 to 255; no default (see LOCKOUT) */
#define MSCHAP_LIMIT(n) ((uint32_t)(n) < 256u ? (uint32_t)(n) << 24 : 0u)
/* how often a wrong password may be tried again, 0 to 7; the default is 2 */
#define MSCHAP_RETRIES(n) ((uint32_t)(n) < 254u ? (uint32_t)(n) + 1u : 255u)
#define MSCHAP_LM_ALLOWED 0x100u  /* a response by LM is judged (see OLD PHONES) */
#define MSCHAP_LM_REFUSED 0x200u  /* it is never valid; the default since 0.5.0 */
#define MSCHAP_CHANGE_1 0x400u    /* a version 1 change is awaited after an expired password: for
                                     handsets that know only code 5 (see VERSION 1 CHANGES) */
#define MSCHAP_CHANGE_2 0x800u    /* a version 2 change is; the default */

/* ---- sizes, in bytes */

#define MSCHAP_DIGEST_SIZE 16
#define MSCHAP_HASH_SIZE 16
#define MSCHAP_KEY_SIZE 7
#define MSCHAP_BLOCK_SIZE 8
#define MSCHAP_CHALLENGE_SIZE 8
#define MSCHAP_RESPONSE_SIZE 24
#define MSCHAP_FILLER_SIZE 512
#define MSCHAP_RECORD_SIZE 810
#define MSCHAP_CONVERSATION_SIZE 61
#define MSCHAP_ANSWER_SIZE 814
#define MSCHAP_PEER_SIZE 21
#define MSCHAP_PASSWORD_SIZE 516
#define MSCHAP_LIST_PLACES 4096                        /* the most places of a list */
#define MSCHAP_LIST_SIZE(places) (4 + 8 * (places))    /* a list of so many places */
#define MSCHAP_REPLY_SIZE 17                           /* the longest packet of the authenticator */
#define MSCHAP_RESPONSE_PACKET 310                     /* the longest Response */
#define MSCHAP_CHANGE_PACKET 1118                      /* every version 2 change */
#define MSCHAP_CHANGE_1_PACKET 72                      /* every version 1 change */

/* ---- the longest inputs, in bytes */

#define MSCHAP_MD4_INPUT_MAX 4096
#define MSCHAP_RC4_KEY_MAX 256
#define MSCHAP_NT_PASSWORD_MAX 512                     /* 256 characters of 16 bits */
#define MSCHAP_LM_PASSWORD_MAX 14
#define MSCHAP_TEXT_MAX 768                            /* the longest password, in UTF-8 */
#define MSCHAP_NAME_MAX 256

/* ---- the size of the stack to provide, in bytes (see STACK) */

#define MSCHAP_STACK_SIZE 12288

/* ---- values (see VALUES), and arrays that have types of their own so that a compiler tells them
        apart: what is in those four is the caller's to read and write */

typedef struct { uint8_t bytes[MSCHAP_RECORD_SIZE]; } mschap_record;
typedef struct { uint8_t bytes[MSCHAP_CONVERSATION_SIZE]; } mschap_conversation;
typedef struct { uint8_t bytes[MSCHAP_ANSWER_SIZE]; } mschap_answer;
typedef struct { uint8_t bytes[MSCHAP_PEER_SIZE]; } mschap_peer;
typedef struct { uint8_t bytes[MSCHAP_PASSWORD_SIZE]; } mschap_password;
typedef struct { mschap_password password; } mschap_new_password;

typedef struct { uint8_t bytes[MSCHAP_HASH_SIZE]; } mschap_nthash;
typedef struct { uint8_t bytes[MSCHAP_HASH_SIZE]; } mschap_lmhash;
typedef struct { uint8_t bytes[MSCHAP_DIGEST_SIZE]; } mschap_digest;
typedef struct { uint8_t bytes[MSCHAP_RC4_KEY_MAX]; } mschap_rc4_key;

/* Returns the version of the archive that is linked: MSCHAP_VERSION of its header.
   Stack: 0 bytes. */
uint32_t mschap_version(void);

/* ---- passwords */

/* Makes a password of a text in UTF-8, as people type it: its characters in 16 bits each, two for
   a character beyond U+FFFF (RFC 3629, RFC 2781). Bytes are taken as they are: a program that
   wants one form of composed letters normalises it before, to NFC for instance.
   Returns MSCHAP_OK; MSCHAP_BAD_ARGUMENT unless password is MSCHAP_PASSWORD_SIZE bytes;
   MSCHAP_MALFORMED if text is not UTF-8; MSCHAP_INPUT if it has over 256 characters of 16 bits.
   Stack: 1,696 bytes. */
uint32_t mschap_make_password(const uint8_t *text, size_t text_size,
                              mschap_password *password, size_t password_size);

/* The same of characters that are in 16 bits already, the least significant byte first, with no
   terminator; any characters, unpaired surrogates too.
   Returns MSCHAP_OK; MSCHAP_BAD_ARGUMENT unless password is MSCHAP_PASSWORD_SIZE bytes;
   MSCHAP_INPUT for an odd number of bytes or over MSCHAP_NT_PASSWORD_MAX.
   Stack: 576 bytes. */
uint32_t mschap_make_password_utf16(const uint8_t *characters, size_t characters_size,
                                    mschap_password *password, size_t password_size);

/* The inverse of mschap_make_password: the password in UTF-8 at the front of text, and its length
   in bytes in *length. The bytes behind it are unchanged.
   Returns MSCHAP_OK; MSCHAP_BAD_ARGUMENT for an invalid password; MSCHAP_MALFORMED if a surrogate
   has no partner; MSCHAP_ROOM if text is too small (MSCHAP_TEXT_MAX bytes are enough for any).
   Stack: 1,696 bytes. */
uint32_t mschap_read_password(const mschap_password *password, size_t password_size,
                              uint8_t *text, size_t text_size, size_t *length);

/* NtPasswordHash() of RFC 2433, A.6, of a password.
   Returns MSCHAP_OK; MSCHAP_BAD_ARGUMENT for an invalid password, or unless hash is
   MSCHAP_HASH_SIZE bytes.
   Stack: 912 bytes. */
uint32_t mschap_nt_hash(const mschap_password *password, size_t password_size,
                        mschap_nthash *hash, size_t hash_size);

/* LmPasswordHash() of RFC 2433, A.2, of a password of at most MSCHAP_LM_PASSWORD_MAX bytes in the
   OEM code page of the account's owner (for instance 437 or 850), which is the caller's to know:
   convert the text to that code page first, to upper case where it has letters beyond a to z, and
   make no LM hash of a password that has a character outside it. Here a to z count as A to Z, and
   no other byte is changed. For a password of ASCII alone its bytes will do.
   It counts only in conversations that ask for LM (see OLD PHONES): an account whose handset
   answers by NT needs none.
   Returns MSCHAP_OK; MSCHAP_BAD_ARGUMENT unless hash is MSCHAP_HASH_SIZE bytes; MSCHAP_INPUT for a
   longer password.
   Stack: 216 bytes. */
uint32_t mschap_lm_hash(const uint8_t *password, size_t password_size,
                        mschap_lmhash *hash, size_t hash_size);

/* ---- records: what the lookup of a name found */

/* Makes a record of flags (MSCHAP_FOUND and so on, joined by |) and hashes. A hash is passed if
   and only if its flag says so; else pass NULL and 0. A name that is not known has the record of
   no flags: mschap_make_record(0, NULL, 0, NULL, 0, &record, sizeof record).
   Makes the round keys of each hash too (see ROUND KEYS); beside a hash that is not passed they are
   0.
   Its count of failures is 0. So if a record is made again of what was read of it, with another
   flag for instance, set its count again too, unless the account is to be unlocked. Its round keys
   are then those of the hashes, whatever they were before.
   Returns MSCHAP_OK; MSCHAP_BAD_ARGUMENT for another bit in flags, a hash that is not
   MSCHAP_HASH_SIZE bytes, one without its flag or a flag without its hash, or unless record is
   MSCHAP_RECORD_SIZE bytes.
   Stack: 3,464 bytes. */
uint32_t mschap_make_record(uint32_t flags,
                            const mschap_nthash *nt_hash, size_t nt_hash_size,
                            const mschap_lmhash *lm_hash, size_t lm_hash_size,
                            mschap_record *record, size_t record_size);

/* Reads a record: the inverse of mschap_make_record. The bytes of a hash whose flag is not set have
   no meaning. The count of failures is told by mschap_record_failures, and of the round keys
   nothing: what they answer is told by mschap_record_response.
   Returns MSCHAP_OK; MSCHAP_BAD_ARGUMENT for an invalid record, or unless both hashes are
   MSCHAP_HASH_SIZE bytes.
   Stack: 304 bytes. */
uint32_t mschap_read_record(const mschap_record *record, size_t record_size,
                            uint32_t *flags,
                            mschap_nthash *nt_hash, size_t nt_hash_size,
                            mschap_lmhash *lm_hash, size_t lm_hash_size);

/* Returns a record's count of failures, 0 to 255: how many Responses in a row were judged invalid
   (see LOCKOUT; in the record of no account it has no effect); MSCHAP_INVALID for an invalid
   record.
   Stack: 240 bytes. */
uint32_t mschap_record_failures(const mschap_record *record, size_t record_size);

/* Sets a record's count of failures, 0 to 255, in place (see LOCKOUT): to the one that was kept,
   after mschap_find_account, or to 0, which unlocks the account. No other byte of the record
   changes.
   Returns MSCHAP_OK; MSCHAP_BAD_ARGUMENT for an invalid record, or for failures over 255.
   Stack: 304 bytes. */
uint32_t mschap_set_failures(mschap_record *record, size_t record_size, uint32_t failures);

/* The response (MSCHAP_RESPONSE_SIZE bytes) of a record's hash to a challenge
   (MSCHAP_CHALLENGE_SIZE), by the round keys that the record carries (see ROUND KEYS), for those
   who judge elsewhere than in a step. hash says which one: MSCHAP_HAS_NT_HASH or
   MSCHAP_HAS_LM_HASH. In a record that this library made it is what mschap_challenge_response gives
   of that hash, without the time that it takes to make the round keys. No other flag has a part in
   it, nor has the count of failures: to judge by these is then the caller's, and so are the lockout
   and whether LM is allowed. Compare the response in a time that does not tell where it is wrong.
   Returns MSCHAP_OK; MSCHAP_BAD_ARGUMENT for an invalid record, another hash than one of these two,
   or another size; MSCHAP_NO_RECORD if the record has no such hash.
   Stack: 288 bytes. */
uint32_t mschap_record_response(const mschap_record *record, size_t record_size, uint32_t hash,
                                const uint8_t *challenge, size_t challenge_size,
                                uint8_t *response, size_t response_size);

/* ---- account files (see ACCOUNT FILES): now is the present time, and max_age how old a password
        may be, both in seconds */

/* Looks an account up by the exact bytes of its name, in one pass over the whole file. Writes the
   record, with the count of failures 0 (the file has none: set it before the step, see LOCKOUT) and
   the round keys of its hashes, and into *offset where the name's line starts. For a name on no
   line that is the record of no account, without MSCHAP_FOUND, and 0.
   The time grows with the file. It does not tell where the line is, nor how much of a name is
   right. But it tells how many names in the file have as many bytes as the one sought, since the
   bytes are compared only where the lengths are equal (see host/timing.c); and a name on a line
   takes longer than one on none, by about a microsecond at most, since the round keys of each hash
   on that line are made.
   Returns MSCHAP_OK; MSCHAP_BAD_ARGUMENT unless record is MSCHAP_RECORD_SIZE bytes;
   MSCHAP_BAD_LINE for a line of another form, of any name, even behind the name's line; else
   MSCHAP_DOUBLED_NAME. With these two *offset is where the first such line starts; record is
   unchanged.
   Stack: 4,344 bytes. */
uint32_t mschap_find_account(const uint8_t *file, size_t file_size,
                             const uint8_t *name, size_t name_size,
                             uint32_t now, uint32_t max_age,
                             mschap_record *record, size_t record_size,
                             size_t *offset);

/* Writes a changed record, as mschap_answer_record gives it after an accepted change, into its
   line, in place: both hashes, in digits of upper case or, where there is none, as 32 X, and now as
   the last change. Every other byte of the file stays, the flags of the line too, whatever those of
   the record are; its count of failures and its round keys are not written. Writes into *offset
   where the line starts.
   How to store the file: see ACCOUNT FILES. Do not pass the record of a judged Response, of which
   the count alone is to be kept (see LOCKOUT): the new time would keep its password from expiring.
   Returns MSCHAP_OK; MSCHAP_BAD_ARGUMENT for an invalid record; MSCHAP_NO_RECORD for the record of
   no account; MSCHAP_BAD_LINE; MSCHAP_DOUBLED_NAME; MSCHAP_NO_ACCOUNT for a name on no line.
   With MSCHAP_BAD_LINE and MSCHAP_DOUBLED_NAME *offset is as for mschap_find_account.
   Stack: 680 bytes. */
uint32_t mschap_write_account(uint8_t *file, size_t file_size,
                              const uint8_t *name, size_t name_size,
                              const mschap_record *record, size_t record_size,
                              uint32_t now, size_t *offset);

/* Counts the lines of a file that are not skipped; how many of them are of another form; and the
   accounts that are disabled, that have expired, and that have no NT hash: one account may count in
   all three. A name on two lines counts twice.
   Returns MSCHAP_OK, whatever is in the file.
   Stack: 344 bytes. */
uint32_t mschap_count_accounts(const uint8_t *file, size_t file_size,
                               uint32_t now, uint32_t max_age,
                               uint64_t *lines, uint64_t *bad, uint64_t *disabled,
                               uint64_t *expired, uint64_t *no_nt);

/* ---- the authenticator */

/* Makes list an empty list of issued challenges, of as many places as fit: MSCHAP_LIST_SIZE(n)
   bytes for n places. To empty a list, make it again: from then on a challenge may be issued that
   was issued before.
   Returns MSCHAP_OK; MSCHAP_LIST unless list is whole places, at most MSCHAP_LIST_PLACES.
   Stack: 0 bytes. */
uint32_t mschap_make_list(uint8_t *list, size_t list_size);

/* Returns how many places of a list are used, 0 to MSCHAP_LIST_PLACES; MSCHAP_INVALID if list is
   no list, or a bad one.
   Stack: 0 bytes. */
uint32_t mschap_list_used(const uint8_t *list, size_t list_size);

/* Opens a conversation with an identifier, 0 to 255, terms (MSCHAP_TERMS, MSCHAP_LIMIT(n) and what
   else is joined to them) and a challenge of MSCHAP_CHALLENGE_SIZE bytes, which must be
   unpredictable: from a CSPRNG. Writes the conversation and, at the front of reply, the Challenge
   to send; the bytes behind it are unchanged. The terms hold to the end of the conversation: no
   packet allows LM in one that was opened without MSCHAP_LM_ALLOWED, none moves the limit, and
   none makes it take the other change.

   The list of issued challenges keeps a Response that was recorded at one authenticator from being
   accepted by another: pass the same list for all that know the same accounts, one opening at a
   time. A conversation with r retries may use its challenge and r successors: the first byte of
   each is that of the one before plus 23, modulo 256, and the other seven are the same. If one of
   these r + 1 is in the list, the opening is refused; else they are added. So each opening takes r
   + 1 places, and its time grows with the used ones. If the list is kept over a restart, store it
   before the Challenge is sent.

   Returns MSCHAP_OK; or the first of these that applies: MSCHAP_BAD_ARGUMENT for another
   identifier or other terms, for a challenge or a conversation of another size, or if list is no
   list; MSCHAP_NO_LIMIT; MSCHAP_RETRIES_RANGE; MSCHAP_REPLY_ROOM; MSCHAP_LIST; MSCHAP_SPENT;
   MSCHAP_LIST_FULL.
   Stack: 2,032 bytes. */
uint32_t mschap_open(uint32_t identifier, uint32_t terms,
                     const uint8_t *challenge, size_t challenge_size,
                     uint8_t *list, size_t list_size,
                     mschap_conversation *conversation, size_t conversation_size,
                     uint8_t *reply, size_t reply_size);

/* One step of a conversation: packet was received, and record is what the lookup of its name found,
   with the count of failures that it had last (mschap_account_offset and the three functions below
   it tell where the parts of the name are, mschap_find_account looks an account up in a file, and
   LOCKOUT says how its count is kept).
   Writes the next conversation over this one; at the front of reply the Success or Failure to
   send; and the answer, which tells the reason, whether the reply is a repeat, what is wrong with
   a change that is not accepted, and which record is to be stored.

   A repeat is a packet with the code and the identifier of the packet that was answered last,
   whatever else is in it: the peer has missed the reply (RFC 1994). It draws the same reply
   again, between two tries and after the end alike. It is not judged: record is ignored (it must
   be valid, and any will do), the conversation stays as it was, and there is no record to be
   stored and no fault. mschap_answer_repeated tells it. The conversation itself keeps the last
   reply, and no earlier one, so a program needs no memory of its own for that: it keeps the
   conversation as long as the link is up, and passes every CHAP packet to mschap_step, also when
   nothing is awaited.

   A change of the password has no name. While one is awaited, record is ignored (it must be valid,
   and any will do): the account is the one whose Response drew MSCHAP_E_PASSWD_EXPIRED. So
   remember with the conversation whose it is: its record is the one that mschap_answer_record
   gives after an accepted change. Its count of failures has no part in that: the Response was
   valid, and a change that is not accepted is no failure.

   Returns MSCHAP_OK if there is a reply to send, Success or Failure: the packet was judged, or is
   a repeat. Else the packet is refused: send no reply; the conversation goes on as if it had not
   come. Returns then the first of these that applies: MSCHAP_REPLY_ROOM; MSCHAP_FRAME; and, unless
   the packet is a repeat, MSCHAP_ENDED; MSCHAP_CODE; MSCHAP_IDENTIFIER; MSCHAP_SIZE; MSCHAP_FLAGS.
   Returns MSCHAP_BAD_ARGUMENT for an invalid conversation or record, or an answer of another size.
   Stack: 4,776 bytes. */
uint32_t mschap_step(mschap_conversation *conversation, size_t conversation_size,
                     const uint8_t *packet, size_t packet_size,
                     const mschap_record *record, size_t record_size,
                     uint8_t *reply, size_t reply_size,
                     mschap_answer *answer, size_t answer_size);

/* Returns the reason that a step's reply gives: MSCHAP_SUCCESS, or the Failure's, one of
   MSCHAP_E_.. (a repeat has the reason of the reply that it repeats); MSCHAP_INVALID for an invalid
   answer.
   Stack: 272 bytes. */
uint32_t mschap_answer_reason(const mschap_answer *answer, size_t answer_size);

/* Returns whether a step's reply was the last one again: 1 for a repeat, which was not judged, so
   that nothing is to be stored or decided; 0 if the packet was judged; MSCHAP_INVALID for an
   invalid answer.
   Stack: 272 bytes. */
uint32_t mschap_answer_repeated(const mschap_answer *answer, size_t answer_size);

/* Returns what is wrong with a change of the password that was judged and drew
   MSCHAP_E_CHANGING_PASSWORD, one of MSCHAP_FAULT_..; MSCHAP_FAULT_NONE with every other answer, a
   repeat of that Failure too; MSCHAP_INVALID for an invalid answer.

   Call it for each step that returned MSCHAP_OK, after the reply is sent. A step that refused its
   packet has written no answer: what is there is still an earlier one. A repeat has none since it
   was not judged: the fault is in the log already, with the Failure that it repeats.

   It is for the log and the support desk: docs/SUPPORT.md says what each one points to, and
   mschap_fault_text has its words. Never send it to the peer, nor let what is sent, or when, depend
   on it: the Failure is the same for all of them, so that nobody learns by trying how near a guess
   was.
   Stack: 272 bytes. */
uint32_t mschap_answer_fault(const mschap_answer *answer, size_t answer_size);

/* The record that a step gives, to be stored in the place of the account's: after every judged
   Response for which there was an account, the record that was passed with its new count of
   failures, and its round keys as they were; after an accepted change of the password, the new one,
   with those of each new hash. LOCKOUT says what is done with each: of the first an account file
   gets nothing, and the second is for mschap_write_account.
   Returns MSCHAP_OK, with the record; MSCHAP_NO_RECORD if there is none, after a Response for which
   there was no account, a change that was not accepted, and a repeat, whose record was given when
   it was judged; MSCHAP_BAD_ARGUMENT for an invalid answer, or unless record is MSCHAP_RECORD_SIZE
   bytes.
   Stack: 384 bytes. */
uint32_t mschap_answer_record(const mschap_answer *answer, size_t answer_size,
                              mschap_record *record, size_t record_size);

/* Returns what a conversation awaits, by the code of the packet: MSCHAP_AWAITS_RESPONSE,
   MSCHAP_AWAITS_CHANGE, MSCHAP_AWAITS_CHANGE_1 or MSCHAP_AWAITS_NOTHING; MSCHAP_INVALID for an
   invalid conversation.
   Stack: 320 bytes. */
uint32_t mschap_conversation_awaits(const mschap_conversation *conversation,
                                    size_t conversation_size);

/* Returns the identifier of the packet that is awaited, 0 to 255 (of the last one, if none is);
   MSCHAP_INVALID for an invalid conversation.
   Stack: 320 bytes. */
uint32_t mschap_conversation_identifier(const mschap_conversation *conversation,
                                        size_t conversation_size);

/* Returns how many retries are left; MSCHAP_INVALID for an invalid conversation.
   Stack: 320 bytes. */
uint32_t mschap_conversation_retries(const mschap_conversation *conversation,
                                     size_t conversation_size);

/* ---- packets */

/* Returns the length of a packet, which is its own Length field: the bytes to send of a buffer
   that this library has written a packet into. 0 if it is no packet (as MSCHAP_FRAME).
   Stack: 0 bytes. */
size_t mschap_packet_length(const uint8_t *packet, size_t packet_size);

/* Where the account is in a Response: what follows the first backslash of its name or, if there is
   none, the whole name.
   Returns its offset in packet; 0 if the packet is refused as a Response (by MSCHAP_FRAME,
   MSCHAP_CODE, MSCHAP_SIZE or MSCHAP_FLAGS, in any conversation).
   Stack: 0 bytes. */
size_t mschap_account_offset(const uint8_t *packet, size_t packet_size);

/* The length of the account at that offset, in bytes.
   Returns 0 to MSCHAP_NAME_MAX; 0 if the packet is refused as a Response. Offset and length
   together are at most packet_size.
   Stack: 0 bytes. */
size_t mschap_account_length(const uint8_t *packet, size_t packet_size);

/* Where the domain is in a Response: what precedes the first backslash of its name.
   Returns its offset in packet; 0 if the domain is not in the packet. Then either the packet is
   refused as a Response, and mschap_account_offset returns 0 too, or the name has no backslash,
   and the caller takes the home domain. A leading backslash has the empty domain before it: an
   offset, and the length 0.
   Stack: 0 bytes. */
size_t mschap_domain_offset(const uint8_t *packet, size_t packet_size);

/* The length of the domain at that offset, in bytes.
   Returns 0 to 255; 0 if the domain is not in the packet. Offset and length together are at most
   packet_size.
   Stack: 0 bytes. */
size_t mschap_domain_length(const uint8_t *packet, size_t packet_size);

/* ---- the peer

   Keep one mschap_peer, and pass it to each call: mschap_read_challenge writes it, and the others
   change it. A packet that was written counts as sent: send exactly what was written, and to send
   it again send the same bytes again. */

/* Reads a Challenge, and writes the peer that is to answer it: its next packet is a Response with
   the Challenge's identifier. Call it for each new Challenge.
   Returns MSCHAP_OK; MSCHAP_BAD_ARGUMENT unless peer is MSCHAP_PEER_SIZE bytes; MSCHAP_FRAME;
   MSCHAP_READING for another kind of packet, one that is cut short, or a challenge that is not
   MSCHAP_CHALLENGE_SIZE bytes.
   Stack: 48 bytes. */
uint32_t mschap_read_challenge(const uint8_t *packet, size_t packet_size,
                               mschap_peer *peer, size_t peer_size);

/* Reads the reply to the packet that the peer wrote last: a Success or a Failure. Writes what it
   calls for, MSCHAP_CALL_NONE and so on, into *call, and the reason, MSCHAP_SUCCESS or the
   Failure's (any number; the known ones are MSCHAP_E_..), into *reason, and readies the peer for
   its next packet, which is written only if *call is MSCHAP_CALL_RESPONSE, MSCHAP_CALL_CHANGE or
   MSCHAP_CALL_CHANGE_1. A reply that comes twice may be read twice: it says the same, and gives the
   same peer. A packet that is refused changes nothing; so an old reply, which is refused by
   MSCHAP_IDENTIFIER, does no harm.
   Returns MSCHAP_OK; MSCHAP_BAD_ARGUMENT for an invalid peer; MSCHAP_FRAME; MSCHAP_IDENTIFIER for
   another identifier than that of the packet that was written last, or if none was written;
   MSCHAP_READING for another kind of packet, or a message that cannot be read.
   Stack: 768 bytes. */
uint32_t mschap_read_reply(mschap_peer *peer, size_t peer_size,
                           const uint8_t *packet, size_t packet_size,
                           uint32_t *call, uint64_t *reason);

/* Writes the peer's Response by a password, with a name of 1 to MSCHAP_NAME_MAX bytes, at the
   front of out. The packet is 54 bytes longer than its name; the bytes behind it are unchanged.
   Returns MSCHAP_OK; MSCHAP_BAD_ARGUMENT for an invalid peer or password; MSCHAP_NAME; MSCHAP_ROOM
   if out is too small.
   Stack: 1,000 bytes. */
uint32_t mschap_write_response(mschap_peer *peer, size_t peer_size,
                               const mschap_password *password, size_t password_size,
                               const uint8_t *name, size_t name_size,
                               uint8_t *out, size_t out_size);

/* Writes the peer's version 2 change from an old to a new password, at the front of out:
   MSCHAP_CHANGE_PACKET bytes; those behind it are unchanged. The new password has a type of its
   own, so that the two cannot be exchanged: make it by mschap_make_password into its field.
   filler, MSCHAP_FILLER_SIZE bytes, fills the block that hides the new password's length; it must
   be unpredictable: from a CSPRNG.
   Returns MSCHAP_OK; MSCHAP_BAD_ARGUMENT for an invalid peer or password; MSCHAP_FILLER;
   MSCHAP_ROOM if out is too small.
   Stack: 2,960 bytes. */
uint32_t mschap_write_change(mschap_peer *peer, size_t peer_size,
                             const mschap_password *old_password, size_t old_password_size,
                             const mschap_new_password *new_password, size_t new_password_size,
                             const uint8_t *filler, size_t filler_size,
                             uint8_t *out, size_t out_size);

/* Writes the peer's version 1 change from an old to a new password, at the front of out:
   MSCHAP_CHANGE_1_PACKET bytes; those behind it are unchanged. It has both NT hashes, each
   encrypted under the challenge, bit 0 of the flags set, zeros for the LM hashes and 65535 for the
   password's length, so that no LM hash is taken from it. No filler hides anything: whoever has
   heard the Challenge decrypts both hashes (see VERSION 1 CHANGES). A program that would rather
   give up takes MSCHAP_CALL_CHANGE_1 for MSCHAP_CALL_END.
   Returns MSCHAP_OK; MSCHAP_BAD_ARGUMENT for an invalid peer or password; MSCHAP_ROOM if out is too
   small.
   Stack: 1,680 bytes. */
uint32_t mschap_write_change_1(mschap_peer *peer, size_t peer_size,
                               const mschap_password *old_password, size_t old_password_size,
                               const mschap_new_password *new_password, size_t new_password_size,
                               uint8_t *out, size_t out_size);

/* ---- ciphers, hashes and the challenge response, for those who need the parts */

/* The MD4 digest (RFC 1320) of at most MSCHAP_MD4_INPUT_MAX bytes.
   Returns MSCHAP_OK; MSCHAP_BAD_ARGUMENT unless digest is MSCHAP_DIGEST_SIZE bytes; MSCHAP_INPUT
   for more bytes.
   Stack: 528 bytes. */
uint32_t mschap_md4(const uint8_t *input, size_t input_size,
                    mschap_digest *digest, size_t digest_size);

/* RC4 over bytes in place, from the start of the stream of a key: the first key_size bytes of it,
   1 to MSCHAP_RC4_KEY_MAX. The key has a type of its own, so that the two cannot be exchanged.
   Returns MSCHAP_OK; MSCHAP_INPUT for another key_size.
   Stack: 320 bytes. */
uint32_t mschap_rc4(const mschap_rc4_key *key, size_t key_size,
                    uint8_t *bytes, size_t bytes_size);

/* DES of a block (MSCHAP_BLOCK_SIZE bytes) in place, under a key of 56 bits: MSCHAP_KEY_SIZE
   bytes, without parity.
   Returns MSCHAP_OK; MSCHAP_BAD_ARGUMENT for another size.
   Stack: 88 bytes. */
uint32_t mschap_des_encrypt(const uint8_t *key, size_t key_size,
                            uint8_t *block, size_t block_size);

/* The inverse of mschap_des_encrypt.
   Returns MSCHAP_OK; MSCHAP_BAD_ARGUMENT for another size.
   Stack: 88 bytes. */
uint32_t mschap_des_decrypt(const uint8_t *key, size_t key_size,
                            uint8_t *block, size_t block_size);

/* ChallengeResponse() of RFC 2433, A.7: the response (MSCHAP_RESPONSE_SIZE bytes) of a hash, NT or
   LM (MSCHAP_HASH_SIZE), to a challenge (MSCHAP_CHALLENGE_SIZE).
   Returns MSCHAP_OK; MSCHAP_BAD_ARGUMENT for another size.
   Stack: 216 bytes. */
uint32_t mschap_challenge_response(const uint8_t *hash, size_t hash_size,
                                   const uint8_t *challenge, size_t challenge_size,
                                   uint8_t *response, size_t response_size);

/* ---- words */

/* Returns words for a log, by a number that mschap_answer_fault returned; "unknown fault" for one
   that is not among MSCHAP_FAULT_.. above. They say what was found; what it points to is in
   docs/SUPPORT.md. The function is in this header alone, and in neither library. */
static inline const char *mschap_fault_text(uint32_t fault)
{
    switch (fault) {
    case MSCHAP_FAULT_NONE:
        return "no fault";
    case MSCHAP_FAULT_NO_NT_HASH:
        return "the account has no NT hash";
    case MSCHAP_FAULT_NO_NT_RESPONSE:
        return "the packet does not ask for its NT response (flag bit 0 is clear)";
    case MSCHAP_FAULT_LENGTH_OVER:
        return "the length in the password block is over 512 (mostly a wrong old password)";
    case MSCHAP_FAULT_LENGTH_ODD:
        return "the length in the password block is odd";
    case MSCHAP_FAULT_OLD_HASH_WRONG:
        return "the password block opened, but the old hash under the new one is not the one sent";
    case MSCHAP_FAULT_RESPONSE_WRONG:
        return "the response to the challenge is not the new password's";
    case MSCHAP_FAULT_LM_NOT_ALLOWED:
        return "the packet asks for LM alone (flag bit 0 is clear), and LM is not allowed";
    case MSCHAP_FAULT_LENGTH_OVER_LM:
        return "the packet asks for LM alone, and the password's length is over 14";
    case MSCHAP_FAULT_HASH_ABSENT:
        return "the account has not the hash that the packet asks for";
    case MSCHAP_FAULT_HASH_WRONG:
        return "the old hash under the challenge is not the one sent (mostly a wrong old password)";
    default:
        return "unknown fault";
    }
}

#ifdef __cplusplus
}
#endif

#endif
