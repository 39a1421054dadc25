#!/bin/sh
# The archive of `mschap` as others link it: it has no writable data, the header's quick start does
# what it should, the benchmark compiles, and every function of the header answers bad lengths and
# null pointers as it should, under valgrind where that is installed. Run in the repository, once
# `make lib` has written the archive.
set -eu
archive=target/staticlib/libmschap.a
header=host/include/mschap.h
lengths=target/host-bad-lengths
run=
if command -v valgrind > /dev/null; then
    run='valgrind --quiet --error-exitcode=1'
fi

if nm "$archive" | grep -E ' [BbCDdGgSs] '; then
    echo 'host: the archive has writable data'
    exit 1
fi
echo 'host: no writable data'

# The lines of the quick start as they stand, among what they leave to the program.
quick=target/host-quick-start.c
{
    cat <<'END'
#include <mschap.h>
#include <string.h>
#include <sys/random.h>
#include <time.h>
extern uint8_t *file;
extern size_t file_size;
extern uint32_t max_age;
extern uint8_t packet[MSCHAP_CHANGE_PACKET];
size_t receive(uint8_t *into);
void send(const uint8_t *bytes, size_t bytes_size);
void lock_and_read(uint8_t **bytes, size_t *bytes_size);
void store_and_unlock(const uint8_t *bytes, size_t bytes_size);
uint32_t count_of(const uint8_t *owner, size_t owner_size);
void keep_count(const uint8_t *owner, size_t owner_size, uint32_t count);
void hang_up(void);
void note(const char *words);
void decide(int in);
void quick_start(void);
void quick_start(void)
{
    size_t size;
END
    sed -n '/^ \* QUICK START/,/^ \* hang_up/s/^ \*     //p' "$header"
    echo '}'
} > "$quick"
[ "$(grep -c mschap_ "$quick")" -ge 15 ] || { echo 'host: no quick start in the header'; exit 1; }
${CC:-cc} -std=c99 -Wall -Wextra -Werror -pedantic -D_DEFAULT_SOURCE -Wno-unused-result \
    -I host/include -c "$quick" -o "$quick.o"
${CC:-cc} -std=c99 -Wall -Wextra -Werror -pedantic -I host/include host/quick_start.c "$quick.o" \
    "$archive" -o target/host-quick-start
$run target/host-quick-start

# make test does not run the benchmark, but it follows the header.
${CC:-cc} -std=c11 -O2 -Wall -Wextra -Werror -pedantic -I host/include host/bench.c "$archive" \
    -o target/host-bench
echo 'host: the benchmark compiles'

for name in $(sed -nE 's/^(uint32_t|size_t) (mschap_[a-z0-9_]+)\(.*/\2/p' "$header"); do
    grep -q "$name(" host/bad_lengths.c || {
        echo "host: bad_lengths.c does not call $name"
        exit 1
    }
done
${CC:-cc} -Wall -Wextra -Werror -std=c99 -pedantic -I host/include host/bad_lengths.c "$archive" \
    -o "$lengths"
$run "$lengths"
