#!/bin/sh
# Runs showfail on messages and compares what it prints (document 01, "What the peer reads").
# Usage: showfail.sh PROGRAM. Prints the first difference and exits 1, or one line with the count.
program=$1
case $program in
    /*) ;;
    *) program=./$program ;;
esac
count=0

# the message as a printf format, and the lines expected
same() {
    check "$1" "$2" "$(printf "$1" | "$program"; echo .)"
}

# the name of a case, the lines expected, and what was printed, with a dot after it that keeps the
# last line end
check() {
    expected=$(printf "$2."; echo)
    if [ "$3" != "$expected" ]; then
        printf 'showfail: %s\nexpected:\n%s\nprinted:\n%s\n' "$1" "$expected" "$3"
        exit 1
    fi
    count=$((count + 1))
}

spaces() {
    printf "%${1}s" ''
}

same 'E=691 R=1 V=2' 'E 691\nR 1\nC -\nV 2\n'
# a line end is part of the message
same 'E=691 R=1 V=2\n' 'E 691\nR 1\nC -\nV 1\n'
same 'E=691 C=00aBcdef01234567' 'E 691\nR 0\nC 00ABCDEF01234567\nV 1\n'
same 'E=691 R=1 C=0123456789abcdef V=3' 'E 691\nR 1\nC 0123456789ABCDEF\nV 3\n'
same "E=691 $(spaces 247)R=1" 'E 691\nR 1\nC -\nV 1\n'
same "E=691 $(spaces 248)R=1" 'refused 11\n'
same '' 'refused 11\n'
same 'R=1 V=2' 'refused 11\n'
same '\000 E=691 \377\000 R=1 x\377' 'E 691\nR 1\nC -\nV 1\n'
same 'E=691\000 E=648' 'E 648\nR 0\nC -\nV 1\n'
same 'E=0000000691' 'E 691\nR 0\nC -\nV 1\n'
same 'E=00000000691' 'refused 11\n'
same 'E=9999999999' 'E 9999999999\nR 0\nC -\nV 1\n'
same 'E=691 R=12' 'E 691\nR 0\nC -\nV 1\n'
same 'E=648 R=0 V=3 extra' 'E 648\nR 0\nC -\nV 3\n'
same '  E=691   R=1 ' 'E 691\nR 1\nC -\nV 1\n'
# a pipe that delivers the message in two pieces
check 'two pieces' 'E 691\nR 1\nC -\nV 2\n' "$({ printf 'E=691 '; sleep 0.2; printf 'R=1 V=2'; } | "$program"; echo .)"

# a field of each kind and text up to 256 octets, with a stack of 32 KiB: under 16 not even true
# starts
long="E=691 R=1 V=2 C=0123456789abcdef$(spaces 224)"
check 'a stack of 32 KiB' 'E 691\nR 1\nC 0123456789ABCDEF\nV 2\n' \
    "$(printf "$long" | (ulimit -s 32; exec "$program"); echo .)"

echo "showfail: $count cases agree"
