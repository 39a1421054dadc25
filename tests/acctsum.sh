#!/bin/sh
# Runs acctsum on inputs and compares what it prints (document 02, request 2026-02).
# Usage: acctsum.sh PROGRAM [REFERENCE]. With the independent program, its answers to Samba's files
# and to drawn ones are compared too. Prints the first difference and exits 1, or one line with the
# count.
here() {
    case $1 in
        /*) echo "$1" ;;
        *) echo "./$1" ;;
    esac
}
program=$(here "$1")
reference=${2:+$(here "$2")}
folder=$(dirname "$0")/smbpasswd
work=$(mktemp -d)
trap 'rm -rf "$work"' EXIT
count=0

# the name of a case; its input stands in the file input, and what is expected in the file wanted
check() {
    "$program" < "$work/input" > "$work/printed" 2> "$work/errors"
    compare "$1" $?
}

# the name of a case, and the exit status of the program, whose output stands in the file printed
compare() {
    if [ "$2" -ge 126 ] || [ -s "$work/errors" ] || ! cmp -s "$work/wanted" "$work/printed"; then
        printf 'acctsum: %s\nexpected:\n' "$1"
        cat "$work/wanted"
        printf 'printed, with exit status %s:\n' "$2"
        cat "$work/printed" "$work/errors"
        exit 1
    fi
    count=$((count + 1))
}

# what went wrong outside the program
broken() {
    echo "acctsum: broken: $1"
    exit 1
}

# the five numbers expected, or `refused`
want() {
    if [ "$1" = refused ]; then
        printf 'refused 14\n'
    else
        printf 'lines %d\nbad %d\ndisabled %d\nexpired %d\nno-nt %d\n' "$@"
    fi > "$work/wanted"
}

# the input as a printf format, and what is expected
same() {
    input=$1
    printf -- "$input" > "$work/input" || broken "$input"
    shift
    want "$@"
    check "$input"
}

# as many of an octet
octets() {
    head -c "$1" /dev/zero | tr '\0' "$2"
}

lm=75BA30198E6D1975AAD3B435B51404EE
nt=FC156AF7EDCD6C0EDDE3337D427F4EAC
none=XXXXXXXXXXXXXXXXXXXXXXXXXXXXXXXX
flags='[U          ]'
lct=LCT-000003E8
# a good line of 102 octets, whose time is 1000, and one that counts wherever an account can
l1="bob:1001:$lm:$nt:$flags:$lct:"
all="bob:1001:$lm:$none:[U    D     ]:$lct:"

# CR02-21, written out
printf '5 5\n' > "$work/input"
printf 'lines 0\nbad 0\ndisabled 0\nexpired 0\nno-nt 0\n' > "$work/wanted"
check 'an empty file'

# CR02-23: the first line
for line in '5 5\n' '5 5' '0 0\n' '4294967295 1\n' '1 4294967295\n' '4294967295 4294967295' \
    '00000000000000000000000000000005 0005\n' "$(octets 60000 0)5 $(octets 5000 0)5\n"; do
    same "$line" 0 0 0 0 0
done
for line in '4294967296 1\n' '1 4294967296\n' '42949672950 1\n' '18446744073709551621 1\n' \
    '1 18446744073709551621\n' '99999999999999999999999999999999 1\n' "$(octets 65000 9) 1\n" \
    '5  5\n' '5 5\r\n' '' '\n' ' ' '5\n' '5 \n' ' 5\n' ' 5 5\n' '5 5 \n' '5 5 5\n' '5\t5\n' \
    '5,5\n' '+5 5\n' '5 +5\n' '-5 5\n' '5 -5\n' '0x5 5\n' '5 A\n' '5.0 5\n' '5 5\000\n' \
    '\0005 5\n' '#\n5 5\n' '\n5 5\n' 'lines 0\n'; do
    same "$line" refused
    same "$line$l1\n" refused
done

# CR02-1 to -8: lines of the right form
for line in "$l1" "$l1\r" "${l1}x:y\r" "$l1\000\377:::: #" \
    "a b\000\r\377[]#:0000000000:$lm:$nt:$flags:LCT-00000000:" \
    "$(octets 256 n):9999999999:$lm:$nt:$flags:$lct:" \
    "bob:1:75ba30198E6D1975AAd3b435b51404ee:fc156af7EDCD6c0edDE3337d427f4EaC:$flags:$lct:" \
    "bob:1:$lm:$nt:[[]U]     ][]:LCT-0a0B0c0D:"; do
    same "5 5\n$line" 1 0 0 0 0
    same "5 5\n$l1\n$line\n#\n$l1" 3 0 0 0 0
done
# and of another form
for line in "${l1%:}" junk '' ' #x' '\r' ':' ':::::::' "${l1%LCT*}" \
    ":1001:$lm:$nt:$flags:$lct:" "$(octets 257 n):1001:$lm:$nt:$flags:$lct:" \
    "bob::$lm:$nt:$flags:$lct:" "bob:12345678901:$lm:$nt:$flags:$lct:" \
    "bob:1a:$lm:$nt:$flags:$lct:" "bob:-1:$lm:$nt:$flags:$lct:" \
    "bob:1001:${lm%E}:$nt:$flags:$lct:" "bob:1001:${lm}0:$nt:$flags:$lct:" \
    "bob:1001:$lm:${nt%C}:$flags:$lct:" "bob:1001:$lm:${nt}0:$flags:$lct:" \
    "bob:1001:$lm:${nt%C}G:$flags:$lct:" "bob:1001:${lm%E}g:$nt:$flags:$lct:" \
    "bob:1001:$lm:$(octets 32 x):$flags:$lct:" "bob:1001:$lm:$(octets 32 '*'):$flags:$lct:" \
    "bob:1001:$lm:NO PASSWORD:$flags:$lct:" "bob:1001:$lm:X:$flags:$lct:" \
    "bob:1001:$lm:no password$(octets 21 X):$flags:$lct:" \
    "bob:1001:NO PASSWORd$(octets 21 X):$nt:$flags:$lct:" \
    "bob:1001:$lm:${none}X:$flags:$lct:" "bob:1001:$lm:0${none%X}:$flags:$lct:" \
    "bob:1001:$lm:$nt:[U]:$lct:" "bob:1001:$lm:$nt:[U           ]:$lct:" \
    "bob:1001:$lm:$nt:]U          [:$lct:" "bob:1001:$lm:$nt:[U     :    ]:$lct:" \
    "bob:1001:$lm:$nt:[U         ] :$lct:" "bob:1001:$lm:$nt: [U         ]:$lct:" \
    "bob:1001:$lm:$nt:$flags:LCT-00003E8:" "bob:1001:$lm:$nt:$flags:LCT-0000003E8:" \
    "bob:1001:$lm:$nt:$flags:lct-000003E8:" "bob:1001:$lm:$nt:$flags:LCT-0000x3E8:" \
    "bob:1001:$lm:$nt:$flags:000003E8:" "bob:1001:$lm:$nt:$flags:$lct\n:"; do
    case $line in
        # the one that a line end cuts in two
        *'\n'*) same "5 5\n$line" 2 2 0 0 0 ;;
        *)
            same "5 5\n$line\n" 1 1 0 0 0
            same "5 5\n$l1\n$line\n#\n$l1" 3 1 0 0 0
            ;;
    esac
done
# CR02-5: no NT hash; an LM hash is not asked for
same "5 5\nbob:1001:$none:$nt:$flags:$lct:" 1 0 0 0 0
for field in "$none" "X$(octets 31 '?')" "X$(octets 15 '?')\000\r$(octets 14 '#')" \
    "NO PASSWORD$(octets 21 X)" "NO PASSWORD$(octets 21 '?')"; do
    same "5 5\nbob:1001:$lm:$field:$flags:$lct:" 1 0 0 0 1
    same "5 5\nbob:1001:$field:$field:$flags:$lct:" 1 0 0 0 1
done
# CR02-9: lines that begin with #
same "5 5\n#x\n$l1" 1 0 0 0 0
same "5 5\n#$l1" 0 0 0 0 0
same '5 5\n#\n#x\n#' 0 0 0 0 0
same '5 5\n #x' 1 1 0 0 0
# CR02-10: where a line ends
same "5 5\n$l1\n" 1 0 0 0 0
same "5 5\n$l1" 1 0 0 0 0
same '5 5\n\n' 1 1 0 0 0
same "5 5\n\n\n$l1\n\n" 4 3 0 0 0
same "5 5\n$l1\r$l1" 1 0 0 0 0
same "5 5\n$l1\r\n$l1\r\n" 2 0 0 0 0
# CR02-6, -11: D and only D
same "5 5\nbob:1001:$lm:$nt:[??????????D]:$lct:" 1 0 1 0 0
same "5 5\nbob:1001:$lm:$nt:[U        D ]:$lct:" 1 0 1 0 0
same "5 5\nbob:1001:$lm:$nt:[DDDDDDDDDDD]:$lct:" 1 0 1 0 0
same "5 5\nD:1001:$lm:$nt:[UdXLNWIS\000\r#]:$lct:D[D]" 1 0 0 0 0
# CR02-13 to -15: the age
same "1100 100\n$l1" 1 0 0 0 0
same "1100 99\n$l1" 1 0 0 1 0
same "1000 0\n$l1" 1 0 0 0 0
same "1001 0\n$l1" 1 0 0 1 0
same "999 0\n$l1" 1 0 0 0 0
same "0 0\n$l1" 1 0 0 0 0
same "4294967295 0\nbob:1001:$lm:$nt:$flags:LCT-00000000:" 1 0 0 0 0
same "4294967295 4294967293\nbob:1001:$lm:$nt:$flags:LCT-00000001:" 1 0 0 1 0
same "4294967295 4294967294\nbob:1001:$lm:$nt:$flags:LCT-00000001:" 1 0 0 0 0
same "4294967294 0\nbob:1001:$lm:$nt:$flags:LCT-ffffffff:" 1 0 0 0 0
same "2147483648 0\nbob:1001:$lm:$nt:$flags:LCT-7fffffff:" 1 0 0 1 0
same "2147483647 0\nbob:1001:$lm:$nt:$flags:LCT-80000000:" 1 0 0 0 0
# each of the 11 places
for place in 0 1 2 3 4 5 6 7 8 9 10; do
    before=$(octets $place U)
    behind=$(octets $((10 - place)) U)
    same "1100 99\nbob:1001:$lm:$nt:[${before}X$behind]:$lct:" 1 0 0 0 0
    same "1100 99\nbob:1001:$lm:$nt:[${before}x$behind]:$lct:" 1 0 0 1 0
    same "1100 99\nbob:1001:$lm:$nt:[${before}D$behind]:$lct:" 1 0 1 1 0
done
same "1100 99\nX:1001:$none:$none:$flags:$lct:X[X]" 1 0 0 1 1
# CR02-22, -24: what counts where; a name on two lines counts twice
same '5 5\njunk\n' 1 1 0 0 0
same "1100 99\n${all%:}" 1 1 0 0 0
same "1100 99\n$all" 1 0 1 1 1
same "1100 99\n$all\n$all\n" 2 0 2 2 2
same "1100 99\n$all\njunk\n#\n$l1\n\n$all\n" 5 2 2 3 2

# CR02-20: 64 KiB in all. The last of the 65,536 octets closes the last line's sixth field.
full=$work/full
{ printf '5 5\n'; octets 65429 '#'; printf '\n%s' "$l1"; } > "$full"
[ "$(wc -c < "$full")" -eq 65536 ] || broken 'not 65,536 octets'
cp "$full" "$work/input"
want 1 0 0 0 0
check '65,536 octets'
head -c 65535 "$full" > "$work/input"
want 1 1 0 0 0
check '65,535 octets, the last line cut short'
{ printf '5 5\n'; octets 65532 '\n'; } > "$work/input"
want 65532 65532 0 0 0
check '65,532 empty lines'
{ printf '1001 0\n'; yes "$all" | head -n 600; } > "$work/input"
want 600 0 600 600 600
check '600 lines'
want refused
for more in '\n' 'x' '\000' "\n$l1"; do
    { cat "$full"; printf "$more"; } > "$work/input"
    check "65,536 octets and $more"
done
octets 65537 '\n' > "$work/input"
check '65,537 line ends'
cat "$full" "$full" > "$work/input"
check 'twice 65,536 octets'
{ printf '5 5\n'; octets 3000000 '#'; } > "$work/input"
check '3,000,004 octets'

# the pieces, as printf formats, with a pause behind each
pieces() {
    for piece; do
        printf "$piece"
        sleep 0.1
    done
}

# the name of a case whose input comes through a pipe; what is expected stands in the file wanted
piped() {
    "$program" > "$work/printed" 2> "$work/errors"
    echo $? > "$work/status"
}
in_pieces() {
    compare "$1" "$(cat "$work/status")"
}

want 1 0 0 1 0
pieces '11' "00 99\n$l1" | piped
in_pieces 'a number in two pieces'
pieces '1100 99' "\n$l1" | piped
in_pieces 'a pause before the first line end'
pieces '1100 99\n' "$l1" | piped
in_pieces 'a pause behind the first line'
pieces "1100 99\nbob:1001:$lm:" "$nt:$flags:$lct:" | piped
in_pieces 'a line in two pieces'
pieces "1100 99\n$l1" '' | piped
in_pieces 'a pause before the end'
want 2 2 0 0 0
pieces 5 ' ' 5 '\n' j '\n' ' ' | piped
in_pieces 'an octet at a time'
want 1 0 0 0 0
{ cat "$full"; sleep 0.2; } | piped
in_pieces '65,536 octets and a pause'
{ head -c 30000 "$full"; sleep 0.2; tail -c +30001 "$full"; } | piped
in_pieces '65,536 octets in two pieces'
want refused
pieces 429496729 '6 1\n' | piped
in_pieces 'a number that grows past 32 bits'
{ cat "$full"; sleep 0.2; printf '\n'; } 2> "$work/broken" | piped
in_pieces '65,536 octets, a pause and one more'

# the name of a file that Samba's tools wrote, its first line, and what is expected
samba() {
    { printf '%s\n' "$2"; cat "$folder/$1"; } > "$work/input" || broken "$1"
    name="Samba's $1, $2"
    shift 2
    want "$@"
    check "$name"
}
samba bench.smbpasswd '1794795341 0' 5 0 1 0 0
samba bench.smbpasswd '1794795342 0' 5 0 1 5 0
samba bench.smbpasswd '1794795342 1' 5 0 1 0 0
samba old.smbpasswd '1794795342 0' 10 0 0 9 0
samba byhand.smbpasswd '1794795342 0' 4 0 0 2 2
samba byhand.after-change-of-bob '1794795342 0' 4 0 0 1 2

# the name of a case, for which the independent program says what is expected
as_reference() {
    "$reference" acctsum < "$work/input" > "$work/wanted" || broken "$reference acctsum, $1"
    check "$1"
}
if [ -n "$reference" ]; then
    for file in "$folder"/*; do
        for times in '0 0' '1794795341 0' '1794795342 0' '4294967295 2500000000' '5'; do
            { printf '%s\n' "$times"; cat "$file"; } > "$work/input" || broken "$file"
            as_reference "$file, $times"
        done
    done
    seed=1
    while [ $seed -le 200 ]; do
        "$reference" samples $seed > "$work/input" || broken "$reference samples $seed"
        as_reference "reference samples $seed"
        seed=$((seed + 1))
    done
fi

echo "acctsum: $count cases agree"
