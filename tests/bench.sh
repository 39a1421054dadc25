#!/bin/sh
# Compiles host/bench.c against the archive that `make lib` wrote, and runs it: a table
# of times, next to OpenSSL's where its headers are installed, and below it the two ratios that are
# aimed at, the response by kept schedules over OpenSSL's with its own kept, and a judged Response
# over OpenSSL's challenge response; and one of the times over an account file, next to those of awk
# and, where it is installed, Python. Exit status 1 where two differ in an octet or in a count, or a
# call is not answered as it should be; not where a ratio is missed, since others may be at work.
set -eu
cd "$(dirname "$0")/.."
archive=${1:-target/staticlib/libmschap.a}
cc=${CC:-cc}
mkdir -p target/bench

# What is asked of libcrypto is compiled and linked, since a build of it may have headers and yet
# lack a cipher.
cat > target/bench/probe.c <<'END'
#include <openssl/des.h>
#include <openssl/md4.h>
#include <openssl/rc4.h>
int main(void)
{
    static unsigned char octets[16];
    static DES_cblock block;
    DES_key_schedule schedule;
    RC4_KEY stream;
    MD4(octets, sizeof octets, octets);
    DES_set_key_unchecked(&block, &schedule);
    DES_ecb_encrypt(&block, &block, &schedule, DES_ENCRYPT);
    RC4_set_key(&stream, sizeof octets, octets);
    RC4(&stream, sizeof octets, octets, octets);
    return 0;
}
END
openssl=
crypto=
if $cc -w target/bench/probe.c -o target/bench/probe -lcrypto 2> /dev/null; then
    openssl='-DHAVE_OPENSSL -Wno-deprecated-declarations'
    crypto=-lcrypto
fi

# shellcheck disable=SC2086
$cc -std=c11 -O2 -Wall -Wextra -Werror -pedantic $openssl -I host/include host/bench.c "$archive" \
    $crypto -o target/bench/bench

# The same counts by scripts, which test the form of each line as the library does.
cat > target/bench/count.awk <<'AWK'
function is_hash(field) {
    return length(field) == 32 && (field ~ /^(X|NO PASSWORD)/ || field !~ /[^0-9A-Fa-f]/)
}
BEGIN {
    present = sprintf("%08X", now)
    oldest = sprintf("%08X", now - age)
}
/^#/ { next }
{ lines++ }
NF < 7 || $1 == "" || length($1) > 256 || $2 !~ /^[0-9]+$/ || length($2) > 10 \
    || !is_hash($3) || !is_hash($4) || $5 !~ /^\[...........\]$/ \
    || length($6) != 12 || $6 !~ /^LCT-/ || substr($6, 5) ~ /[^0-9A-Fa-f]/ {
    bad++
    next
}
{
    changed = toupper(substr($6, 5))
    disabled += $5 ~ /D/
    expired += $5 !~ /X/ && changed != "00000000" && changed <= present && changed < oldest
    none += $4 ~ /^[XN]/
}
END { print lines + 0, bad + 0, disabled + 0, expired + 0, none + 0 }
AWK
cat > target/bench/count.py <<'PYTHON'
import sys

DIGITS = frozenset(b'0123456789ABCDEFabcdef')


def is_hash(field):
    return len(field) == 32 and (
        field.startswith((b'X', b'NO PASSWORD')) or DIGITS.issuperset(field))


def is_line(fields):
    if len(fields) < 7:
        return False
    name, uid, lm, nt, flags, changed, _ = fields
    return (1 <= len(name) <= 256 and uid.isdigit() and len(uid) <= 10
            and is_hash(lm) and is_hash(nt)
            and len(flags) == 13 and flags.startswith(b'[') and flags.endswith(b']')
            and len(changed) == 12 and changed.startswith(b'LCT-')
            and DIGITS.issuperset(changed[4:]))


def main(path, now, age):
    lines = bad = disabled = expired = none = 0
    with open(path, 'rb') as file:
        rows = file.read().split(b'\n')
    if rows[-1] == b'':
        rows.pop()
    for row in rows:
        if row.startswith(b'#'):
            continue
        lines += 1
        fields = row.split(b':', 6)
        if not is_line(fields):
            bad += 1
            continue
        changed = int(fields[5][4:], 16)
        disabled += b'D' in fields[4]
        expired += b'X' not in fields[4] and 0 < changed <= now and now - changed > age
        none += fields[3].startswith((b'X', b'N'))
    print(lines, bad, disabled, expired, none)


main(sys.argv[1], int(sys.argv[2]), int(sys.argv[3]))
PYTHON
# the times are those of bench.c
now=$(sed -n 's/^#define PRESENT \([0-9]*\)u .*/\1/p' host/bench.c)
age=$((90 * 24 * 3600))
file=target/bench/accounts
set -- "$file" "awk -F: ($(basename "$(readlink -f "$(command -v awk)")"))" \
    "LC_ALL=C awk -F: -v now=$now -v age=$age -f target/bench/count.awk $file" \
    'LC_ALL=C awk "BEGIN { exit }"'
if command -v python3 > /dev/null; then
    # itself, and not a script that looks for it
    python=$(python3 -c 'import sys; print(sys.executable)')
    set -- "$@" "Python's split" "$python target/bench/count.py $file $now $age" "$python -c ''"
fi
exec target/bench/bench "$@"
