#!/bin/sh
# The stack of every function of the header: host/stack.c measures it on the worst inputs, and makes
# the same calls where there is little of it. The comment of each function ends in its stack, N
# bytes: what was measured is at most N, and at most 64 less, so that N is true; and N is held to
# what the header tells a caller to provide. Run in the repository, once `make lib` has
# written the archive. With the argument `measured` it prints what was measured, and compares
# nothing.
set -eu
archive=target/staticlib/libmschap.a
header=host/include/mschap.h
program=target/host-stack

# -z now: else the loader binds memcpy and memset at their first call, on the stack that is
# measured. -O2: so that the function that does nothing touches nothing.
${CC:-cc} -O2 -Wall -Wextra -Werror -std=c99 -pedantic -I host/include host/stack.c "$archive" \
    -pthread -Wl,-z,now -o "$program"
"$program" > "$program.measured" || {
    echo "stack: host/stack.c ended with status $?; it had written"
    head -n 40 "$program.measured"
    exit 1
}
if [ "${1:-}" = measured ]; then
    cat "$program.measured"
    exit 0
fi

# A line `NAME N` for each function; N is - if the last line of its comment does not say it.
awk '
    /^\/\*/ || /^   / || /^ \*/ { said = "-" }
    match($0, /Stack: [0-9,]+ bytes\. \*\/$/) {
        said = substr($0, RSTART + 7, RLENGTH - 17)
        gsub(",", "", said)
    }
    /^(uint32_t|size_t) mschap_[a-z0-9_]+\(/ {
        sub(/\(.*/, "", $2)
        print $2, said
        said = "-"
    }
' "$header" > "$program.header"
provided=$(sed -nE 's/^#define MSCHAP_STACK_SIZE ([0-9]+).*/\1/p' "$header")

# At least 4 KiB of what a caller is told to provide are left for others than the library.
awk -v provided="$provided" '
    function fail(words) { print "stack: " words; failed = 1 }
    FILENAME ~ /\.header$/ { said[$1] = $2; next }
    { measured[$1] = $2 }
    END {
        for (f in said) {
            n++
            if (!(f in measured))
                fail("host/stack.c does not measure " f)
            else if (said[f] == "-")
                fail("the comment of " f " does not end in its stack; measured: " measured[f])
            else if (measured[f] > said[f] || measured[f] + 64 < said[f])
                fail(f " takes " measured[f] " bytes, and its comment says " said[f])
            if (said[f] + 0 > most)
                most = said[f] + 0
        }
        if (n < 40)
            fail("only " n + 0 " functions were found in the header")
        if (provided < most + 4096)
            fail("MSCHAP_STACK_SIZE is " provided ", and " most " and 4 KiB are needed")
        if (!failed)
            print "stack: " n " functions as their comments say; the most is " most " bytes"
        exit failed
    }' "$program.header" "$program.measured"
