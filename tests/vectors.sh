#!/bin/sh
# The expected output of the programs `vectors` and `vectors_one` is what the independent program
# writes for the same scripts. All print what they compute in place of a published value, so the
# lines of published.txt must come out as they stand. Argument: the independent program.
set -eu
published=crates/vectors/data/published.txt
made=$(mktemp)
trap 'rm -f "$made"' EXIT

# The expected output of the program named first, from the scripts named behind it.
agree() {
    name=$1
    shift
    "$reference" "$@" > "$made"
    if ! cmp -s "$made" "crates/$name/stdout"; then
        echo "$name: crates/$name/stdout is not what the independent program writes;" \
            "the first difference:"
        diff "$made" "crates/$name/stdout" | head -n 4
        exit 1
    fi
    echo "$name: $(wc -l < "$made") expected lines agree with the independent program"
}

reference=$1
agree vectors "$published" crates/vectors/data/cases.txt
agree vectors_one crates/vectors_one/data/cases.txt

if ! head -n "$(wc -l < "$published")" crates/vectors/stdout | cmp -s - "$published"; then
    echo "vectors: a published value (>) is not what is computed (<); the first difference:"
    head -n "$(wc -l < "$published")" crates/vectors/stdout | diff - "$published" | head -n 4
    exit 1
fi
awk '
    /^#/ || /^$/ { next }
    /^:/ { kind = $0; next }
    { compared[kind]++ }
    END {
        printf "vectors: the published values of %d MD4, %d RC4 and %d DES lines ",
            compared[":md4"], compared[":rc4"], compared[":des"]
        print "are those computed"
        if (!compared[":md4"] || !compared[":rc4"] || !compared[":des"]) {
            print "vectors: a kind is missing"
            exit 1
        }
    }
' "$published"
