#!/usr/bin/env python3
"""MS-CHAP version 1 on a bench: both ends in one program, to be watched and changed.

    bench.py [LIBRARY]

An authenticator challenges, and a peer answers with a mistyped password, then with the right one,
which has expired. In the change its owner mistypes the old password, so that all is done again;
then both talk with the new password. The peer misses the last reply of each conversation, and gets
it again. Then somebody guesses, hangs up and calls back, until the account is locked: the right
password fails too, until its keeper unlocks it. At the end comes an old phone, which answers by LM
alone: an authenticator that was not asked for LM turns it away, and one that was lets it in. Each
packet is printed with what it means. LIBRARY is libmschap.so; without it, the one beside this
script or in ../lib. Nothing but the standard library of Python 3 is needed.

Change it and see: try a password of your own, allow no retry (RETRIES), set another limit (LIMIT),
send other packets again.
"""
import ctypes
import os
import secrets
import struct
import sys

# From mschap.h; the sizes are bytes.
MSCHAP_OK = 0
MSCHAP_SUCCESS = 0
MSCHAP_FAULT_NONE = 0
MSCHAP_AWAITS_NOTHING = 0
MSCHAP_AWAITS_CHANGE = 6
MSCHAP_CALL_NONE = 0
MSCHAP_CALL_RESPONSE = 1
MSCHAP_CALL_CHANGE = 2
MSCHAP_FOUND = 0x01
MSCHAP_HAS_NT_HASH = 0x02
MSCHAP_HAS_LM_HASH = 0x04
MSCHAP_EXPIRED = 0x40
MSCHAP_TERMS = 0x10000
MSCHAP_LM_ALLOWED = 0x100
MSCHAP_HASH_SIZE = 16
MSCHAP_CHALLENGE_SIZE = 8
MSCHAP_RESPONSE_SIZE = 24
MSCHAP_FILLER_SIZE = 512
MSCHAP_RECORD_SIZE = 810
MSCHAP_CONVERSATION_SIZE = 61
MSCHAP_ANSWER_SIZE = 814
MSCHAP_PEER_SIZE = 21
MSCHAP_PASSWORD_SIZE = 516
MSCHAP_REPLY_SIZE = 17
MSCHAP_CHANGE_PACKET = 1118

RETRIES = 2
LIMIT = 5  # invalid Responses in a row that lock an account, over all conversations
NAME = 'DOM\\Jürgen'.encode()

REASONS = {
    MSCHAP_SUCCESS: 'Success',
    646: 'the hours do not allow a logon',
    647: 'the account is disabled',
    648: 'the password has expired',
    649: 'no permission to dial in',
    691: 'wrong name or password',
    709: 'the change of the password is not accepted',
}

# What is wrong with such a change: the words of mschap_fault_text, which is in the header alone.
FAULTS = {
    0: 'no fault',
    1: 'the account has no NT hash',
    2: 'the packet does not ask for its NT response (flag bit 0 is clear)',
    3: 'the length in the password block is over 512 (mostly a wrong old password)',
    4: 'the length in the password block is odd',
    5: 'the password block opened, but the old hash under the new one is not the one sent',
    6: "the response to the challenge is not the new password's",
    7: 'the packet asks for LM alone (flag bit 0 is clear), and LM is not allowed',
    8: "the packet asks for LM alone, and the password's length is over 14",
    9: 'the account has not the hash that the packet asks for',
    10: 'the old hash under the challenge is not the one sent (mostly a wrong old password)',
}


def load():
    """The library that was named, or the one that lies beside this script."""
    here = os.path.dirname(os.path.abspath(__file__))
    beside = [os.path.join(here, place, 'libmschap.so') for place in ('.', '../lib', '../../lib')]
    for path in sys.argv[1:] or beside:
        if os.path.exists(path):
            return ctypes.CDLL(os.path.abspath(path))
    sys.exit('bench.py: no libmschap.so; pass its path')


def argument(value):
    """How C takes it: a buffer with its size, a number whose address is passed, or a number."""
    if isinstance(value, bytes):
        return [value, ctypes.c_size_t(len(value))]
    if isinstance(value, ctypes.Array):
        return [value, ctypes.c_size_t(len(value))]
    if isinstance(value, int):
        return [ctypes.c_uint32(value)]
    return [ctypes.byref(value)]


def call(name, *values):
    """Calls mschap_NAME, and gives what it returns."""
    function = getattr(LIBRARY, 'mschap_' + name)
    function.restype = ctypes.c_size_t if name.endswith(('_length', '_offset')) else ctypes.c_uint32
    return function(*[part for value in values for part in argument(value)])


def must(name, *values):
    number = call(name, *values)
    if number != MSCHAP_OK:
        sys.exit(f'bench.py: mschap_{name} refuses with {number}')


def room(size):
    return ctypes.create_string_buffer(size)


def packet_in(buffer):
    """The packet at the front of a buffer, which ends at its own Length."""
    return buffer.raw[:call('packet_length', buffer)]


def password_of(text):
    password = room(MSCHAP_PASSWORD_SIZE)
    must('make_password', text.encode(), password)
    return password


def meaning(packet):
    """What a packet says, by RFC 2433: code, identifier, Length and, behind them, its data."""
    code, identifier, length = struct.unpack('>BBH', packet[:4])
    data = packet[4:]
    head = f'identifier {identifier}, {length} bytes'
    if code == 1:
        return f'Challenge, {head}: {data[1:1 + data[0]].hex(" ")}'
    if code == 2:
        lm, nt, flag, name = struct.unpack(f'x24s24sB{len(data) - 50}s', data)
        by = 'NT' if flag else 'LM'
        return f'Response, {head}: by {by} {(nt if flag else lm).hex()}, name {name.decode()}'
    if code == 3:
        return f'Success, {head}'
    if code == 4:
        reason = int(data.split()[0].split(b'=')[1])
        return f'Failure, {head}: "{data.decode()}", {REASONS.get(reason, "unknown")}'
    return f'change of the password, {head}: the new password under the old hash, and back'


def show(who, packet):
    shown = packet[:96]
    print(f'{who:14} {meaning(packet)}')
    for start in range(0, len(shown), 16):
        print(f'{"":14}   {shown[start:start + 16].hex(" ")}')
    if shown != packet:
        print(f'{"":14}   .. and {len(packet) - len(shown)} bytes more')


def nt_hash_of(text):
    digest = room(MSCHAP_HASH_SIZE)
    must('nt_hash', password_of(text), digest)
    return digest


def lm_hash_of(text):
    digest = room(MSCHAP_HASH_SIZE)
    must('lm_hash', text.encode('ascii'), digest)
    return digest


class Authenticator:
    """It knows one account, whose record counts its failures, and keeps the list of the challenges
    that it has issued."""

    def __init__(self):
        self.issued = room(4 + 8 * 300)  # MSCHAP_LIST_SIZE(300)
        must('make_list', self.issued)

    def knows(self, flags, nt_hash, lm_hash):
        self.record = room(MSCHAP_RECORD_SIZE)
        must('make_record', MSCHAP_FOUND | flags, nt_hash, lm_hash, self.record)

    def open(self, asks_for=0):
        self.talk = room(MSCHAP_CONVERSATION_SIZE)
        reply = room(MSCHAP_REPLY_SIZE)
        # MSCHAP_LIMIT(LIMIT) and MSCHAP_RETRIES(RETRIES)
        terms = MSCHAP_TERMS | LIMIT << 24 | (RETRIES + 1) | asks_for
        identifier = secrets.randbelow(256)
        challenge = secrets.token_bytes(MSCHAP_CHALLENGE_SIZE)
        must('open', identifier, terms, challenge, self.issued, self.talk, reply)
        show('authenticator', packet_in(reply))
        return packet_in(reply)

    def judge(self, packet):
        reply, answer = room(MSCHAP_REPLY_SIZE), room(MSCHAP_ANSWER_SIZE)
        awaited = call('conversation_awaits', self.talk)
        number = call('step', self.talk, packet, self.record, reply, answer)
        if number != MSCHAP_OK:
            print(f'authenticator  refuses the packet with {number}: no reply, nothing has changed')
            return None
        if call('answer_record', answer, self.record) == MSCHAP_OK:
            self.stores(awaited)  # before the reply is sent
        show('authenticator', packet_in(reply))
        fault = call('answer_fault', answer)  # none in a repeat
        if fault != MSCHAP_FAULT_NONE:
            print(f'authenticator  notes for its log alone: {FAULTS.get(fault, "unknown fault")}')
        if call('answer_repeated', answer):
            print('authenticator  has judged nothing: this is its last reply again')
            return packet_in(reply)
        if call('conversation_awaits', self.talk) == MSCHAP_AWAITS_NOTHING:
            print(f'authenticator  is done: {REASONS[call("answer_reason", answer)]}')
        return packet_in(reply)


    def stores(self, awaited):
        """The record that a step gave takes the place of the one before. After a Response nothing
        but its count is new. A real program keeps the count as secret as the hashes."""
        if awaited == MSCHAP_AWAITS_CHANGE:
            print('authenticator  stores the account with its new password')
            return
        failures = call('record_failures', self.record)
        locked = ': the account is locked' if failures >= LIMIT else ''
        print(f'authenticator  stores how often it has failed in a row, {failures}{locked}')

    def unlock(self):
        print('keeper         unlocks the account')
        must('set_failures', self.record, 0)


class Peer:
    def __init__(self, challenge):
        self.peer = room(MSCHAP_PEER_SIZE)
        must('read_challenge', challenge, self.peer)

    def respond(self, password):
        out = room(MSCHAP_CHANGE_PACKET)
        must('write_response', self.peer, password, NAME, out)
        show('peer', packet_in(out))
        return packet_in(out)

    def change(self, old, new):
        out = room(MSCHAP_CHANGE_PACKET)
        must('write_change', self.peer, old, new, secrets.token_bytes(MSCHAP_FILLER_SIZE), out)
        show('peer', packet_in(out))
        return packet_in(out)

    def read(self, reply):
        calls_for, reason = ctypes.c_uint32(), ctypes.c_uint64()
        must('read_reply', self.peer, reply, calls_for, reason)
        return calls_for.value


def converse(authenticator, tries, old, new):
    """A peer answers with each password in turn. Where it has expired, it changes it from old to
    new."""
    peer = Peer(authenticator.open())
    sent = []
    for text in tries:
        print(f'peer           answers with the password "{text}"')
        sent.append(peer.respond(password_of(text)))
        calls_for = peer.read(authenticator.judge(sent[-1]))
        if calls_for != MSCHAP_CALL_RESPONSE:
            break
    if calls_for == MSCHAP_CALL_CHANGE:
        authenticator.judge(sent[0])  # not the last one: refused
        print(f'peer           changes the password from "{old}" to "{new}"')
        sent.append(peer.change(password_of(old), password_of(new)))
        calls_for = peer.read(authenticator.judge(sent[-1]))
    print('peer           has missed the reply, and sends the same packet again')
    calls_for = peer.read(authenticator.judge(sent[-1]))
    print('peer          ', 'is in' if calls_for == MSCHAP_CALL_NONE else 'is not let in')
    return calls_for == MSCHAP_CALL_NONE


def old_phone(authenticator, text, asks_for):
    """It answers by LM alone, as our peer never does: so its Response is put together here."""
    challenge = authenticator.open(asks_for)
    response = room(MSCHAP_RESPONSE_SIZE)
    must('challenge_response', lm_hash_of(text), challenge[5:], response)
    head = (2, challenge[1], 54 + len(NAME), 49)  # code, identifier, Length, size
    packet = struct.pack('>BBHB24s24sB', *head, response.raw, bytes(24), 0) + NAME
    print(f'old phone      answers with the password "{text}", by LM alone')
    show('old phone', packet)
    success = authenticator.judge(packet)[0] == 3
    print('old phone     ', 'is in' if success else 'is not let in')
    return success


def main():
    version = call('version')
    print(f'libmschap {version >> 16}.{version >> 8 & 255}.{version & 255}')
    authenticator = Authenticator()
    authenticator.knows(MSCHAP_HAS_NT_HASH | MSCHAP_EXPIRED, nt_hash_of('Grün 1'), b'')
    print('\n-- a mistyped password, then the right one, which has expired; mistyped in the change')
    typo = converse(authenticator, ['grün 1', 'Grün 1'], 'grün 1', 'Blau 🔑')
    print('\n-- all of it again, with the right one in the change')
    first = converse(authenticator, ['grün 1', 'Grün 1'], 'Grün 1', 'Blau 🔑')
    print('\n-- again, with the new password')
    second = converse(authenticator, ['Blau 🔑'], None, None)
    print('\n-- and with the old one, until there is no retry left')
    third = converse(authenticator, ['Grün 1'] * (RETRIES + 1), None, None)
    print('\n-- somebody goes on guessing, and hangs up after each try')
    failures = call('record_failures', authenticator.record)
    guessed = [converse(authenticator, [f'Gelb {guess}'], None, None)
               for guess in range(failures, LIMIT)]
    print('\n-- and hits upon the right one, but the account is locked')
    guessed.append(converse(authenticator, ['Blau 🔑'], None, None))
    authenticator.unlock()
    print('\n-- the same password, once the account is unlocked')
    fourth = converse(authenticator, ['Blau 🔑'], None, None)
    print('\n-- an old phone with the right password, where nobody asked for LM')
    authenticator.knows(MSCHAP_HAS_LM_HASH, b'', lm_hash_of('GREEN 1'))
    unasked = old_phone(authenticator, 'Green 1', 0)
    print('\n-- and on a bench that asks for it')
    asked = old_phone(authenticator, 'Green 1', MSCHAP_LM_ALLOWED)
    used = call('list_used', authenticator.issued)
    print(f'\nplaces used in the list of issued challenges: {used}')
    let_in = [typo, first, second, third, any(guessed), fourth, unasked, asked]
    sys.exit(0 if let_in == [False, True, True, False, False, True, False, True] else 1)


LIBRARY = load()
if __name__ == '__main__':
    main()
