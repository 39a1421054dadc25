#!/bin/sh
# A Response that is not valid takes the same instructions in whatever way it is not: a wrong
# response, no record, no hash, LM off, or a locked account, at which the right response is no more
# valid than a wrong one; and whatever round keys the record carries, those of its hashes, another's
# or bytes that no hash has. So do the functions through which the count of failures goes, whatever
# the count is: it tells whether a guess at a locked account was right; and those that make round
# keys or answer by them, whatever the hashes or the round keys are. A change that is not accepted
# takes the same but for 8, whatever its fault is: it comes from who knew the old password, and a
# branch of the compiler's is let pass. So does a version 1 change but for 16: where the hash is
# absent, the compiler leaves out the last comparison. Those with bit 0 of the flags set are
# compared with one another, and so are those with it clear, as it is sent in clear. A lookup in an
# account file takes the same wherever the name's line is, and for names of one length that are on
# no line, however much of them is right. host/timing.c makes one call for each way, and callgrind
# counts the instructions within the function. Calls with the same reply, or that find or do not
# find, are compared.
# Run in the repository. Argument: the archive, if not the one that `make lib` writes.
set -eu
archive=${1:-target/staticlib/libmschap.a}
program=target/host-timing
${CC:-cc} -Wall -Wextra -Werror -std=c99 -pedantic -I host/include host/timing.c "$archive" \
    -o "$program"
functions='mschap_step mschap_find_account'
functions="$functions mschap_answer_record mschap_record_failures mschap_set_failures"
functions="$functions mschap_make_record mschap_record_response"
if ! command -v valgrind > /dev/null; then
    for function in $functions; do
        "$program" $function > /dev/null
    done
    echo 'timing: skipped, as valgrind is not installed: no instructions were counted'
    exit 0
fi

# A part of callgrind's output for each call, in order. The names of the C library are bound before,
# since binding one at its first use would be counted.
parts=$(mktemp -d)
trap 'rm -rf "$parts"' EXIT
for function in $functions; do
    LD_BIND_NOW=1 valgrind --quiet --tool=callgrind --callgrind-out-file="$parts/$function" \
        --toggle-collect=$function --dump-after=$function "$program" $function > "$parts/ways"
    call=0
    while read -r reply way; do
        call=$((call + 1))
        echo "$reply $(sed -n 's/^summary: //p' "$parts/$function.$call") $way"
    done < "$parts/ways"
done > "$parts/counts"

awk '
    $2 !~ /^[1-9][0-9]*$/ { bad = 1 }
    !($1 in calls) { least[$1] = most[$1] = $2; group[++groups] = $1 }
    $2 < least[$1] { least[$1] = $2 }
    $2 > most[$1] { most[$1] = $2 }
    { calls[$1]++; line[NR] = $0 }
    END {
        allowed["709"] = 8
        allowed["709-NT"] = allowed["709-LM"] = 16
        if (!("R=1" in calls) || !("R=0" in calls) || !("709" in calls)) bad = 1
        if (!("709-NT" in calls) || !("709-LM" in calls)) bad = 1
        if (!("found" in calls) || !("none" in calls)) bad = 1
        if (!("handed" in calls) || !("told" in calls) || !("set" in calls)) bad = 1
        if (!("made" in calls) || !("by-NT" in calls) || !("by-LM" in calls)) bad = 1
        for (i = 1; i <= groups; i++)
            if (most[group[i]] - least[group[i]] > allowed[group[i]] + 0) bad = 1
        for (i = 1; bad && i <= NR; i++) print "timing: " line[i]
        if (bad) print "timing: the instructions differ between calls with the same reply"
        for (i = 1; !bad && i <= groups; i++) {
            reply = group[i]
            range = least[reply] == most[reply] ? most[reply] : least[reply] " to " most[reply]
            print "timing: " reply ": " calls[reply] " calls, " range " instructions each"
        }
        exit bad
    }
' "$parts/counts"
