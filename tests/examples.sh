#!/bin/sh
# The examples in host/ and host/examples do what they say: the one in one program prints the same
# each time; authenticator and peer talk through pipes, over some runs that share the files of a
# folder, and a change of a password changes its own bytes of the account file alone, undoes nobody
# else's change, and lets nobody else read the file; guessers who hang up and call back are stopped,
# however many call at once, until the account is unlocked; and the script in Python, where that is
# installed, plays both ends. Run in the repository, once `make lib` has written target/mschap.
set -eu
folder=target/mschap
scratch=$(mktemp -d)
trap 'rm -rf "$scratch"' EXIT
fail() {
    echo "examples: $1"
    for log in "$scratch"/*.log; do
        [ -f "$log" ] && sed "s|^|    ${log##*/}: |" "$log"
    done
    exit 1
}
compile() {
    ${CC:-cc} -Wall -Wextra -Werror -std=c99 -pedantic -I "$folder/include" "$1" \
        "$folder/lib/libmschap.a" -o "$2"
}
run=
if command -v valgrind > /dev/null; then
    run='valgrind --quiet --error-exitcode=9'
fi

compile host/example.c "$scratch/example"
$run "$scratch/example" > "$scratch/example.log" || fail 'host/example.c ends in an error'
diff host/example.txt "$scratch/example.log" || fail 'host/example.c prints something else'
echo "examples: host/example.c prints what it should (${run:-without valgrind})"

for program in authenticator peer; do
    compile "host/examples/$program.c" "$scratch/$program"
    if grep -nE '\.bytes|\+ [0-9]+[,;)]|\[[0-9]+\] (!|=)?=|, [1-9][0-9]{2,}[,)]' \
        "host/examples/$program.c"; then
        fail "$program.c has an offset or a number of its own"
    fi
done
# the authenticator for handsets that know only version 1 changes
${CC:-cc} -Wall -Wextra -Werror -std=c99 -pedantic -DCHANGE=MSCHAP_CHANGE_1 -I "$folder/include" \
    host/examples/authenticator.c "$folder/lib/libmschap.a" -o "$scratch/authenticator_1"
mkfifo "$scratch/to" "$scratch/from" "$scratch/held"

# what the log has of a mistyped old password
over='the length in the password block is over 512 (mostly a wrong old password)'

fault="3, $over" box=authenticator
# One conversation: how many places are used then, the exit status of both, the reasons that the
# authenticator gives and the words of the peer, and the peer's arguments. Where its first one is
# --lossy, each reply is lost once, and the authenticator gives it again. A 709 is that of a
# mistyped old password: the authenticator notes the fault when it judges and not again, and the
# peer hears nothing of it.
converse() {
    used=$1 status=$2 reasons=$3 words=$4
    shift 4
    rm -f "$scratch"/*.log
    # shellcheck disable=SC2086
    $run "$scratch/$box" "$scratch/accounts" \
        < "$scratch/to" > "$scratch/from" 2> "$scratch/authenticator.log" &
    authenticator=$!
    peer_status=0
    # shellcheck disable=SC2086
    $run "$scratch/peer" "$@" > "$scratch/to" < "$scratch/from" 2> "$scratch/peer.log" \
        || peer_status=$?
    own_status=0
    wait $authenticator || own_status=$?
    [ "$own_status $peer_status" = "$status $status" ] \
        || fail "exit status $own_status and $peer_status, and not $status"
    if [ "$1" = --lossy ]; then
        given=$(printf '%s\n' $reasons | sed 's/.*/reason: &\nreason: &, again/')
    else
        given=$(printf '%s\n' $reasons | sed 's/^/reason: /')
    fi
    { echo "places used: $used" && echo "$given"; } \
        | sed "s/^reason: 709\$/&\nfault: $fault/" > "$scratch/expected"
    diff "$scratch/expected" "$scratch/authenticator.log" || fail 'the authenticator says otherwise'
    { printf '%s\n' $reasons | sed 's/^/reason: /' && echo "$words"; } > "$scratch/expected"
    grep -v -e 'the password has expired, and is changed' -e '^no reply: sent again$' \
        "$scratch/peer.log" > "$scratch/said" || :
    diff "$scratch/expected" "$scratch/said" || fail 'the peer says otherwise'
}

# An account, and its password.
add() {
    $run "$scratch/authenticator" "$scratch/accounts" "$1" "$2" 2> "$scratch/add.log"
}
# A field of the account's line, as cut counts them.
accounts=$scratch/accounts/smbpasswd
field() {
    LC_ALL=C sed -n '/^J.*rgen:/p' "$1" | cut -d : -f "$2"
}
# Who may read a file.
access() {
    stat -c '%a %u:%g' "$1"
}
# A copy of the file, and when it was made.
keep() {
    cp "$accounts" "$scratch/kept"
    since=$(date +%s)
}
# Since then the account has another NT hash, the one of an account with that password, and its last
# change was meanwhile; every other byte of the file is as it was.
changed() {
    for copy in kept accounts/smbpasswd; do
        LC_ALL=C sed -E '/^J.*rgen:/s/(:[0-9X]*:)[0-9A-F]{32}(:[^:]*:LCT-)[0-9A-F]{8}:/\1\2:/' \
            "$scratch/$copy" > "$scratch/${copy##*/}.rest"
    done
    cmp "$scratch/kept.rest" "$scratch/smbpasswd.rest" || fail 'other bytes of the file are changed'
    if cmp -s "$scratch/kept" "$scratch/kept.rest"; then
        fail 'no account in the file'
    fi
    rm -rf "$scratch/other"
    mkdir "$scratch/other"
    "$scratch/authenticator" "$scratch/other" 'Jürgen' "$1"
    [ "$(stat -c %a "$scratch/other/smbpasswd")" = 600 ] || fail 'others can read a new file'
    [ "$(field "$accounts" 4)" = "$(field "$scratch/other/smbpasswd" 4)" ] \
        && [ "$(field "$accounts" 4)" != "$(field "$scratch/kept" 4)" ] \
        || fail "the NT hash is not that of $1"
    last=$(field "$accounts" 6)
    [ $((0x${last#LCT-})) -ge "$since" ] && [ $((0x${last#LCT-})) -le "$(date +%s)" ] \
        || fail "the last change is $last"
}
mkdir "$scratch/accounts"
# what another program wrote, with no end of the last line
none=XXXXXXXXXXXXXXXXXXXXXXXXXXXXXXXX
printf '# ours\nann:7:%s:%s:[D   X      ]:LCT-0000abcd:more: text\r\n' \
    $none 0123456789abcdef0123456789abcdef > "$accounts"
printf 'zoe:8:NO PASSWORD%s:%s:[NU         ]:LCT-00000000:' "${none%???????????}" $none \
    >> "$accounts"
# a group may read it; and it may be another's, where we may give it away
chmod 640 "$accounts"
[ "$(id -u)" -ne 0 ] || chown 1234:5678 "$accounts"
access=$(access "$accounts")
keep
add 'Jürgen' 'Grün 1'
hash=$(field "$accounts" 4)
printf '\nJürgen:1003:%s:%s:[U          ]:LCT-00000001:\n' $none "$hash" \
    | cat "$scratch/kept" - | cmp - "$accounts" || fail 'the account is not added as it should be'
keep
converse 3 0 '691 648 0' in 'DOM\Jürgen' 'Blaugrün 🔑' 'grün 1' 'Grün 1'
grep -q 'is changed' "$scratch/peer.log" || fail 'the password was not changed'
changed 'Blaugrün 🔑'
keep
converse 6 0 0 in 'Jürgen' unused 'Blaugrün 🔑'
converse 9 1 '691 691 691' 'not let in' 'DOM\Jürgen' unused 'Grün 1' 'Grün 1' 'Grün 1'
converse 12 1 '691 691 691' 'not let in' 'nobody' unused 'Grün 1' 'Grün 1' 'Grün 1'
# The phone that missed each reply, Success too; then one whose password has expired, first with the
# old password mistyped in the change, which leaves the account as it was.
converse 15 0 '691 0' in --lossy 'Jürgen' unused 'Grün 1' 'Blaugrün 🔑'
cmp "$scratch/kept" "$accounts" || fail 'the file is changed without a change of a password'
add 'Jürgen' 'Grün 1'
[ "$(field "$accounts" 4,6)" = "$hash:LCT-00000001" ] || fail 'the old password is not set again'
keep
converse 18 1 '648 709' 'not let in' --lossy --old 'grün 1' 'Jürgen' 'Blaugrün 🔑' 'Grün 1'
cmp "$scratch/kept" "$accounts" || fail 'the file is changed by a change that is not accepted'
converse 21 0 '691 648 0' in --lossy 'Jürgen' 'Blaugrün 🔑' 'grün 1' 'Grün 1'
[ "$(grep -c '^no reply: sent again$' "$scratch/peer.log")" = 3 ] || fail 'no packet was sent again'
changed 'Blaugrün 🔑'
converse 24 0 0 in 'Jürgen' unused 'Blaugrün 🔑'

# The list is stored before the Challenge is sent: where nothing can be sent, it has grown.
status=0
"$scratch/authenticator" "$scratch/accounts" < /dev/null > /dev/full 2> "$scratch/full.log" \
    || status=$?
[ $status -eq 2 ] || fail "exit status $status where nothing can be sent"
converse 30 0 0 in 'Jürgen' unused 'Blaugrün 🔑'
[ "$(access "$accounts")" = "$access" ] || fail 'the changed file has another owner or mode'

# The same by a version 1 change, with the old password mistyped and then right; what it gives is
# good for the other authenticator too.
box=authenticator_1
fault='10, the old hash under the challenge is not the one sent (mostly a wrong old password)'
add 'Jürgen' 'Grün 1'
keep
converse 33 1 '648 709' 'not let in' --lossy --old 'grün 1' 'Jürgen' 'Blaugrün 🔑' 'Grün 1'
cmp "$scratch/kept" "$accounts" || fail 'the file is changed by a change that is not accepted'
converse 36 0 '691 648 0' in --lossy 'Jürgen' 'Blaugrün 🔑' 'grün 1' 'Grün 1'
changed 'Blaugrün 🔑'
converse 39 0 0 in 'Jürgen' unused 'Blaugrün 🔑'
box=authenticator fault="3, $over"
converse 42 0 0 in 'Jürgen' unused 'Blaugrün 🔑'

# What a crash left, and others can read or have open, is not the file that the accounts go to.
leftover() {
    printf left > "$1/new"
    chmod 644 "$1/new"
    exec 3< "$1/new"
    "$scratch/authenticator" "$1" 'Jürgen' 'Grün 1'
    [ "$(cat <&3)" = left ] || fail 'who has the leftover file open can read the accounts'
    exec 3<&-
    [ "$(access "$1/smbpasswd")" = "$2" ] || fail 'the leftover file gives its owner or mode'
}
leftover "$scratch/accounts" "$access"
mkdir "$scratch/fresh"
leftover "$scratch/fresh" "600 $(id -u):$(id -g)"

# Accounts that are added at the same time are all there, each with a good line.
mkdir "$scratch/many"
adding=
number=0
while [ $number -lt 20 ]; do
    number=$((number + 1))
    "$scratch/authenticator" "$scratch/many" "user$number" 'Grün 1' 2>> "$scratch/many.log" &
    adding="$adding $!"
done
for process in $adding; do
    wait "$process" || fail 'an account is not added while others are'
done
line="user[0-9]+:[0-9]+:$none:$hash:\[U {10}\]:LCT-00000001:"
[ "$(wc -l < "$scratch/many/smbpasswd")" -eq 20 ] \
    && [ "$(grep -cxE "$line" "$scratch/many/smbpasswd")" -eq 20 ] \
    && [ "$(cut -d : -f 1 "$scratch/many/smbpasswd" | sort -u | wc -l)" -eq 20 ] \
    && [ "$(cut -d : -f 2 "$scratch/many/smbpasswd" | sort -u | wc -l)" -eq 20 ] \
    || fail '20 accounts that are added at the same time do not give 20 good lines'

# A conversation in which a command runs between the 648 and the change: the peer's Response (2
# bytes of length, 54 and the name) is passed on at once, and its change only when the command has
# ended. The first byte of the change comes after the 648 has. Then the exit status of both, and a
# word in the authenticator's log. The copy of the file is the one that the command leaves.
cp "$accounts" "$scratch/expired"
response=$((2 + 54 + $(printf 'Jürgen' | wc -c)))
meanwhile() {
    status=$1 word=$2
    shift 2
    rm -f "$scratch"/*.log
    cat "$scratch/expired" > "$accounts"
    keep
    # shellcheck disable=SC2086
    $run "$scratch/authenticator" "$scratch/accounts" \
        < "$scratch/to" > "$scratch/from" 2> "$scratch/authenticator.log" &
    authenticator=$!
    {
        dd bs=1 count="$response"
        dd bs=1 count=1 of="$scratch/byte"
        "$@" < /dev/null > /dev/null
        keep
        cat "$scratch/byte" -
    } < "$scratch/held" > "$scratch/to" 2> "$scratch/held.log" &
    holder=$!
    peer_status=0
    "$scratch/peer" 'Jürgen' 'Blaugrün 🔑' 'Grün 1' > "$scratch/held" < "$scratch/from" \
        2> "$scratch/peer.log" || peer_status=$?
    own_status=0
    wait $authenticator || own_status=$?
    wait $holder || :
    if cmp -s "$scratch/kept" "$scratch/expired"; then
        fail 'nothing is changed between the 648 and the change'
    fi
    [ "$own_status $peer_status" = "$status $status" ] \
        && grep -q '^reason: 648$' "$scratch/peer.log" \
        && grep -q "$word" "$scratch/authenticator.log" \
        || fail "exit status $own_status and $peer_status, and not $status with '$word'"
}
edit() {
    LC_ALL=C sed "$1" "$accounts" > "$scratch/edited"
    cat "$scratch/edited" > "$accounts"
}
# A password that is set again, an account that is disabled, one that need not be changed any more,
# and one that is removed stay so, and the peer hears no Success.
stays() {
    meanwhile 2 '^the account was changed after its Response' "$@"
    cmp "$scratch/kept" "$accounts" || fail 'a change of a password undoes another change'
    if grep -q '^reason: 0$' "$scratch/peer.log"; then
        fail 'the peer is told of a change that is not stored'
    fi
}
stays "$scratch/authenticator" "$scratch/accounts" 'Jürgen' 'Neu 2'
stays edit '/^J.*rgen:/s/U          /UD         /'
stays edit '/^J.*rgen:/s/U          /UX         /'
stays edit '/^J.*rgen:/d'
# The change of another account is kept, and so is this one.
meanwhile 0 '^reason: 0$' edit '/^ann:/s/0123456789/9876543210/'
changed 'Blaugrün 🔑'
meanwhile 0 '^reason: 0$' "$scratch/authenticator" "$scratch/accounts" anew 'Grün 1'
changed 'Blaugrün 🔑'
# So is one during which others fail with the account's name; it sets their count to 0.
counts=$scratch/accounts/failures
has_count() {
    line=$(LC_ALL=C grep -a '^... J.*rgen$' "$counts")
    [ "$line" = "$1 Jürgen" ] || fail "the count is not $1 but '$line'"
}
others_fail() {
    edit '/^ann:/s/LCT-0000abcd/LCT-0000abce/'
    sed 's/^... Jürgen$/007 Jürgen/' "$counts" > "$scratch/edited"
    cat "$scratch/edited" > "$counts"
    has_count 007
}
meanwhile 0 '^reason: 0$' others_fail
changed 'Blaugrün 🔑'
has_count 000

# A conversation: the exit status of the authenticator, and the reasons that it gives; one with an !
# behind it is that of an account which is locked then. A peer without further passwords hangs up.
calls() {
    status=$1 reasons=$2
    shift 2
    "$scratch/authenticator" "$scratch/accounts" < "$scratch/to" > "$scratch/from" \
        2> "$scratch/authenticator.log" &
    authenticator=$!
    "$scratch/peer" "$@" > "$scratch/to" < "$scratch/from" 2> "$scratch/peer.log" || :
    own_status=0
    wait $authenticator || own_status=$?
    [ "$own_status" -eq "$status" ] || fail "exit status $own_status, and not $status"
    printf '%s\n' $reasons | sed 's/.*/reason: &/; s/!$/\nthe account is locked/' \
        > "$scratch/expected"
    sed -e 1d -e '/, again$/d' -e '/^the other end has hung up$/d' "$scratch/authenticator.log" \
        | diff "$scratch/expected" - || fail 'the authenticator says otherwise'
    # of the lock the peer hears nothing
    printf '%s\n' $reasons | sed 's/.*/reason: &/; s/!$//' > "$scratch/expected"
    grep '^reason' "$scratch/peer.log" | diff "$scratch/expected" - || fail 'the peer hears more'
}
# Which file it is: it is another one, once it was stored anew.
stored() {
    stat -c %i "$counts"
}
# With every Response the counts are stored anew, also where they stay as they are.
stores() {
    before=$(stored)
    "$@"
    [ "$(stored)" != "$before" ] || fail "nothing is stored by: $*"
}

# A guesser who calls again and again, each time to an authenticator that was started anew, has as
# many tries as the limit says; then the right password fails too, wherever it comes from, and the
# reply is the same. A repeat counts for nothing, and a domain makes no other account.
[ "$(sed -nE 's/^#define LIMIT ([0-9]+) .*/\1/p' host/examples/authenticator.c)" = 10 ] \
    || fail 'the limit is another one than this test is made for'
right='Blaugrün 🔑'
calls 1 '691 691 691' 'Jürgen' unused a b c
has_count 003
calls 2 691 --lossy 'DOM\Jürgen' unused d
has_count 004
calls 1 '691 691 691' 'other\Jürgen' unused e f g
calls 2 '691 691' 'Jürgen' unused h i
has_count 009
# one below the limit: the owner gets in, and the guesser begins anew
calls 0 0 'Jürgen' unused "$right"
has_count 000
for call in 1 2 3; do
    calls 1 '691 691 691' 'Jürgen' unused a b c
done
stores calls 2 691! 'Jürgen' unused d
has_count 010
stores calls 2 691! 'Jürgen' unused "$right"
has_count 010
stores calls 1 '691! 691! 691!' 'DOM\Jürgen' unused "$right" "$right" "$right"
has_count 010
stores calls 1 '691! 691! 691!' 'Jürgen' unused "$right" a "$right"
has_count 011
# no other account is locked, and a name that there is not is not counted, though it takes as long
add zora 'Grün 1'
calls 0 '648 0' zora 'Neu 3' 'Grün 1'
stores calls 1 '691 691 691' nobody unused a b c
if grep -a nobody "$counts"; then
    fail 'a name is counted that no account has'
fi
# The keeper of the accounts unlocks it.
status=0
$run "$scratch/authenticator" "$scratch/accounts" nobody 2> "$scratch/unlock.log" || status=$?
[ $status -eq 2 ] && grep -q '^no account of that name has failed$' "$scratch/unlock.log" \
    || fail "exit status $status where a name is unlocked that has not failed"
has_count 011
$run "$scratch/authenticator" "$scratch/accounts" 'Jürgen'
has_count 000
calls 0 '691 0' 'Jürgen' unused a "$right"
has_count 000

# Guessers who call at the same time are all counted: 6 of them, with 3 tries each.
callers=
for caller in 1 2 3 4 5 6; do
    mkfifo "$scratch/to$caller" "$scratch/from$caller"
    "$scratch/authenticator" "$scratch/accounts" \
        < "$scratch/to$caller" > "$scratch/from$caller" 2> "$scratch/caller$caller.log" &
    callers="$callers $!"
    "$scratch/peer" 'Jürgen' unused a b c > "$scratch/to$caller" < "$scratch/from$caller" \
        2> /dev/null &
    callers="$callers $!"
done
for process in $callers; do
    status=0
    wait "$process" || status=$?
    [ $status -eq 1 ] || fail "exit status $status where guessers call at the same time"
done
has_count 018
rm "$scratch"/caller*.log
# A new password unlocks the account too.
add 'Jürgen' 'Grün 1'
has_count 000
calls 0 '691 648 0' 'Jürgen' "$right" a 'Grün 1'
has_count 000

[ ! -e "$scratch/accounts/new" ] || fail 'a temporary file is left'
files=$(find "$scratch/accounts" -type f | wc -l)
[ "$files" -eq 4 ] || fail "there are $files files, and not list, lock, accounts and counts"
[ "$(access "$accounts")" = "$access" ] || fail 'the changed file has another owner or mode'
for file in issued failures; do
    [ "$(stat -c %a "$scratch/accounts/$file")" = 600 ] || fail "others can read the file $file"
done

# A damaged account file serves nobody, even behind the account's own line, and names the place; nor
# do damaged counts, a symbolic link, which a new file would replace, and a list that is of another
# version.
refused() {
    "$scratch/authenticator" "$scratch/accounts" < "$scratch/to" > "$scratch/from" \
        2> "$scratch/authenticator.log" &
    authenticator=$!
    "$scratch/peer" 'Jürgen' unused 'Blaugrün 🔑' > "$scratch/to" < "$scratch/from" \
        2> "$scratch/peer.log" || :
    own_status=0
    wait $authenticator || own_status=$?
    [ "$own_status" -eq 2 ] && grep -q "$1" "$scratch/authenticator.log" \
        || fail "exit status $own_status, and not a word of '$1'"
}
keep
printf 'junk\n' >> "$accounts"
refused "^smbpasswd: a malformed line at offset $(wc -c < "$scratch/kept")\$"
for name in 'Jürgen' other; do
    status=0
    add "$name" 'Grün 1' || status=$?
    [ $status -eq 2 ] && grep -q 'a malformed line at' "$scratch/add.log" \
        || fail "exit status $status where an account is added to a damaged file"
done
{ cat "$scratch/kept" && LC_ALL=C sed -n '/^J.*rgen:/p' "$scratch/kept"; } > "$accounts"
first=$(LC_ALL=C grep -ab '^J.*rgen:' "$scratch/kept" | cut -d : -f 1)
refused "^smbpasswd: the name is on two lines, first at offset $first\$"
cp "$scratch/kept" "$accounts"
cp "$counts" "$scratch/counted"
for line in junk '3 Jürgen' '0003 Jürgen' '00x Jürgen' '003:Jürgen' '' 003; do
    { cat "$scratch/counted" && echo "$line"; } > "$counts"
    refused '^failures: a malformed line$'
done
printf '003 Jürgen' > "$counts"
refused '^failures: a malformed line$'
printf '256 Jürgen\n' > "$counts"
refused '^failures: a count over 255$'
cp "$scratch/counted" "$counts"
cp "$scratch/kept" "$scratch/elsewhere"
ln -sf "$scratch/elsewhere" "$accounts"
refused '^smbpasswd is a symbolic link'
status=0
add 'Jürgen' 'Grün 1' || status=$?
[ $status -eq 2 ] && grep -q '^smbpasswd is a symbolic link' "$scratch/add.log" \
    && [ -L "$accounts" ] && cmp "$scratch/kept" "$scratch/elsewhere" \
    || fail "exit status $status where the account file is a symbolic link"
rm "$accounts"
refused '^smbpasswd cannot be read$'
for name in '' '#Jürgen' 'Jür:gen'; do
    status=0
    add "$name" 'Grün 1' || status=$?
    [ $status -eq 2 ] && [ ! -e "$accounts" ] || fail "the name '$name' leaves a file"
done
cp "$scratch/kept" "$accounts"
for name in '' '#Jürgen' 'Jür:gen'; do
    status=0
    add "$name" 'Grün 1' || status=$?
    [ $status -eq 2 ] && cmp "$scratch/kept" "$accounts" || fail "the name '$name' is not refused"
done
printf '\002' | dd of="$scratch/accounts/issued" bs=1 seek=1 conv=notrunc 2> /dev/null
refused 'the list is none'
echo "examples: authenticator and peer talk, and go on after a restart (${run:-without valgrind})"

# The numbers in the script are the header's.
script=host/examples/bench.py
sed -nE 's/^(MSCHAP_[A-Z0-9_]+) = (.*)$/\1 \2/p' "$script" > "$scratch/numbers"
[ -s "$scratch/numbers" ] || fail "$script has no numbers of the header"
while read -r name number; do
    grep -qE "^#define $name ${number}u?( |$)" "$folder/include/mschap.h" \
        || fail "$name is not $number in the header"
done < "$scratch/numbers"
if ! command -v python3 > /dev/null; then
    echo "examples: $script skipped, as python3 is not installed"
    exit 0
fi
rm -f "$scratch"/*.log
PYTHONIOENCODING=utf-8 python3 "$script" "$folder/lib/libmschap.so" > "$scratch/bench.log" \
    || fail "$script ends in an error"
for line in \
    'Failure, identifier [0-9]*, 17 bytes: "E=691 R=1 V=2"' \
    'Failure, identifier [0-9]*, 17 bytes: "E=648 R=0 V=2"' \
    'authenticator  refuses the packet with 4' \
    'authenticator  has judged nothing: this is its last reply again' \
    'change of the password, identifier [0-9]*, 1118 bytes' \
    'authenticator  stores the account with its new password' \
    'Failure, identifier [0-9]*, 17 bytes: "E=709 R=0 V=2"' \
    "authenticator  notes for its log alone: $over\$" \
    'authenticator  stores how often it has failed in a row, 4$' \
    'authenticator  stores how often it has failed in a row, 5: the account is locked$' \
    'keeper         unlocks the account' \
    'Failure, identifier [0-9]*, 17 bytes: "E=691 R=0 V=2"' \
    'Response, identifier [0-9]*, [0-9]* bytes: by LM [0-9a-f]*, name DOM' \
    'places used in the list of issued challenges: 30'; do
    grep -q "$line" "$scratch/bench.log" || fail "$script does not print: $line"
done
[ "$(grep -c '^peer *is in$' "$scratch/bench.log")" = 3 ] || fail "$script: not let in 3 times"
# locked by the fifth failure, and for the right password
[ "$(grep -c 'in a row, 5: the account is locked$' "$scratch/bench.log")" = 2 ] \
    || fail "$script: the account is not locked for two Responses"
# the phone that answers by LM alone: turned away, and let in where LM is asked for
[ "$(grep '^old phone *is ' "$scratch/bench.log" | tr -s ' ' | tr '\n' ,)" \
    = 'old phone is not let in,old phone is in,' ] || fail "$script: the old phone fares otherwise"
[ "$(grep -c 'its last reply again$' "$scratch/bench.log")" = 8 ] \
    || fail "$script: not each last reply is given again"
[ "$(grep -c 'stores the account' "$scratch/bench.log")" = 1 ] || fail "$script stores it twice"
[ "$(grep -c 'notes for its log' "$scratch/bench.log")" = 1 ] || fail "$script notes it twice"
[ "$(grep 'E=709' "$scratch/bench.log" | uniq -d | wc -l)" -eq 1 ] \
    || fail "$script: the failed change again draws another reply"
cp "$script" "$folder/lib/libmschap.so" "$scratch"
(cd / && python3 "$scratch/bench.py" > /dev/null) || fail "$script: no library found beside it"
echo "examples: $script plays both ends"
