#!/bin/sh
# Two arguments of a call exchanged by mistake are found: for every function of the header and every
# pair of its arguments (a buffer together with its size, a number, or a pointer to one), the call
# with the two exchanged cannot be compiled or, if it can, is refused at run time and leaves all
# memory as it was; but for those numbers of which the header says otherwise. So are calls in which
# the sizes of two buffers alone are exchanged, where the memory of both is large enough for either,
# and the sizes are those that the header names (larger ones may be right for both: no call can
# tell). Compiled as C99 with -pedantic-errors, where a pointer to another type is an error; no
# argument is const, so that no qualifier helps. At the end the same is tried with a header whose
# two hashes have one type, which must be found out. Run in the repository, once `make lib`
# has written the archive.
set -eu
archive=target/staticlib/libmschap.a
work=target/exchange
cc=${CC:-cc}
rm -rf "$work"
mkdir -p "$work"

# A part for each function and pair: the arguments as they are declared, without const, the right
# call, and the exchanged one. Beside it the file `pairs`: FUNCTION PAIR NAME WHAT.
generate() {
    awk -v calls="$work/calls.h" -v pairs="$work/pairs" '
        /^(uint32_t|size_t) mschap_[a-z0-9_]+\(/ { text = ""; open = 1 }
        open { text = text $0 }
        open && /\);$/ { open = 0; declaration(text) }

        # the arguments of a call, with groups i and j exchanged, or their sizes alone
        function arguments(i, j, sizes,    k, g, out) {
            for (k = 1; k <= n; k++) {
                g = sizes ? k : k == i ? j : k == j ? i : k
                out = out (k > 1 ? ", " : "") name[g]
                if (kind[g] == "buffer") {
                    if (sizes)
                        g = k == i ? j : k == j ? i : k
                    out = out ", " name[g] "_size"
                }
            }
            return out
        }
        function pair(i, j, sizes,    what) {
            number++
            what = name[i] " and " name[j] (sizes ? ", sizes alone" : "")
            printf "#if PAIR == %d\n#define WHAT \"%s\"\n", number, what > calls
            printf "#define TURNS %d\n", sizes ? 3 : 6 > calls
            printf "static int differs(void) { return %s; }\n", \
                sizes ? name[i] "_size != " name[j] "_size" : "1" > calls
            printf "static uint32_t exchanged(void) { return %s(%s); }\n#endif\n", \
                function_name, arguments(i, j, sizes) > calls
            print functions, number, function_name, what > pairs
        }
        function declaration(text,    parts, count, k, i, j, type, words) {
            gsub(/[ \t]+/, " ", text)
            function_name = text
            sub(/\(.*/, "", function_name)
            sub(/.* /, "", function_name)
            sub(/^[^(]*\(/, "", text)
            sub(/\);$/, "", text)
            count = split(text, parts, / ?, ?/)
            n = 0
            for (k = 1; k <= count && text != "void"; k++) {
                n++
                words = parts[k]
                sub(/^const /, "", words)
                name[n] = words
                sub(/.*[ *]/, "", name[n])
                type[n] = words
                sub(/[a-z0-9_]+$/, "", type[n])
                kind[n] = words ~ /\*/ ? "pointer" : "number"
                if (k < count && parts[k + 1] == "size_t " name[n] "_size") {
                    kind[n] = "buffer"
                    k++
                }
            }
            functions++
            print functions, 0, function_name, n " arguments" > pairs
            if (n < 2)
                return
            printf "#if FUNCTION == %d\n#define NAME \"%s\"\n", functions, function_name > calls
            for (i = 1; i <= n; i++) {
                printf "static %s%s;\n", type[i], name[i] > calls
                if (kind[i] == "buffer")
                    printf "static size_t %s_size;\n", name[i] > calls
            }
            printf "static void take(void)\n{\n" > calls
            for (i = 1; i <= n; i++) {
                if (kind[i] == "number")
                    printf "    %s = number[%d];\n", name[i], i - 1 > calls
                else
                    printf "    %s = (void *)&memory[%d];\n", name[i], i - 1 > calls
                if (kind[i] == "buffer")
                    printf "    %s_size = size[%d];\n", name[i], i - 1 > calls
            }
            printf "}\nstatic uint32_t right(void) { return %s(%s); }\n", \
                function_name, arguments(0, 0, 0) > calls
            printf "#if PAIR == 0\n#define WHAT \"nothing\"\n#define TURNS 6\n" > calls
            printf "static int differs(void) { return 0; }\n" > calls
            printf "static uint32_t exchanged(void) { return right(); }\n#endif\n" > calls
            number = 0
            for (i = 1; i <= n; i++)
                for (j = i + 1; j <= n; j++) {
                    pair(i, j, 0)
                    if (kind[i] == "buffer" && kind[j] == "buffer")
                        pair(i, j, 1)
                }
            printf "#endif\n" > calls
        }
    ' "$1"
}

# compile FUNCTION PAIR FOLDER-OF-THE-HEADER
compile() {
    $cc -std=c99 -pedantic-errors -Wall -Wextra -Werror=incompatible-pointer-types \
        -Werror=int-conversion -DFUNCTION="$1" -DPAIR="$2" -I "$3" -I "$work" host/exchange.c \
        "$archive" -o "$work/program" 2> "$work/errors"
}

# The numbers alike of which the header says that their exchange is not found: it is accepted.
is_alike() {
    case $1:$2 in
        *:'now and max_age' | mschap_count_accounts:*) ;;
        *) return 1 ;;
    esac
    ! "$work/program" > "$work/accepted" && grep -q ': accepted$' "$work/accepted"
}

# All pairs of the header in a folder. Says how many there are; exit status 1 if one is accepted.
all() {
    generate "$1/mschap.h"
    functions=0 pairs=0 types=0 refused=0 alike=0 sizes=0 same=0
    while read -r function pair name what; do
        if [ "$pair" -eq 0 ]; then
            functions=$((functions + 1))
            case $what in [01]' '*) continue ;; esac
            compile "$function" 0 "$1" && "$work/program" || {
                cat "$work/errors"
                echo "exchange: $name cannot be called as it is declared"
                return 1
            }
            continue
        fi
        case $what in
            *', sizes alone')
                compile "$function" "$pair" "$1" || {
                    cat "$work/errors"
                    return 1
                }
                status=0
                "$work/program" || status=$?
                case $status in
                    0) sizes=$((sizes + 1)) ;;
                    3) same=$((same + 1)) ;;
                    *) return 1 ;;
                esac
                continue
                ;;
        esac
        pairs=$((pairs + 1))
        if compile "$function" "$pair" "$1"; then
            if is_alike "$name" "$what"; then
                alike=$((alike + 1))
                continue
            fi
            "$work/program" || return 1
            refused=$((refused + 1))
        elif grep -Eq 'incompatible|makes (integer|pointer)' "$work/errors"; then
            types=$((types + 1))
        else
            cat "$work/errors"
            echo "exchange: $name, $what: no error about types"
            return 1
        fi
    done < "$work/pairs"
    [ "$functions" -ge 40 ] && [ "$pairs" -gt "$functions" ] && [ "$sizes" -gt "$same" ] || {
        echo "exchange: only $functions functions and $pairs pairs were found"
        return 1
    }
    # the two times of two functions, and two of five counts
    [ "$alike" -eq 12 ] && grep -q 'as they are numbers alike: now and max_age' "$1/mschap.h" || {
        echo "exchange: $alike pairs are numbers alike, or the header does not say so"
        return 1
    }
    echo "exchange: $pairs pairs of $functions functions:" \
        "$types cannot be compiled, $refused are refused, $alike are numbers alike"
    echo "exchange: sizes alone: $sizes are refused, $same are the same size"
}

all host/include

mkdir "$work/include"
sed 's/^typedef struct {.*} mschap_lmhash;$/typedef mschap_nthash mschap_lmhash;/' \
    host/include/mschap.h > "$work/include/mschap.h"
if all "$work/include" > "$work/found"; then
    echo 'exchange: two hashes of one type are not found out'
    exit 1
fi
grep -q 'mschap_make_record, nt_hash and lm_hash: accepted' "$work/found" || {
    cat "$work/found"
    exit 1
}
echo 'exchange: with one type for both hashes, their exchange is found out'
