# make test   everything: the independent program, the gate `rt ci`, which refuses what is not laid
#             out and proves all crates, the cases of showfail and acctsum, and the library as C and
#             Rust link it
# make demo   a box and a peer talk: each packet as a line, with what it means
# make bench  times of the library, next to OpenSSL's where its headers are installed
# make lib    the library for C below target/mschap: archive, shared library, header, mschap.pc
# make install PREFIX=/usr/local DESTDIR=    copies what `make lib` wrote

.PHONY: test demo bench reference showfail acctsum lib install host expected

PREFIX = /usr/local

test: reference
	sh tests/gate.sh

# Run at once, with no proof: what `rt try` writes must be what the file 'stdout' has. Then the
# proof, which takes some minutes the first time; rt's own lines are shown when it is done.
demo:
	@echo 'First the demonstration, run with no proof: some seconds.'
	@mkdir -p target
	@cd crates/demo && rt try > ../../target/demo.stdout
	@cat target/demo.stdout
	@cmp target/demo.stdout crates/demo/stdout
	@echo
	@echo 'That was the demonstration. Now the proof of its program and of the crates beneath it, a'
	@echo 'line for each crate: some minutes the first time. It changes nothing above.'
	@cd crates/demo && rt check > ../../target/demo.log 2>&1 || \
	    { tail -n 20 ../../target/demo.log; exit 1; }
	@sed -n '/^rt: /p; /^logic=/p' target/demo.log

# The independent second program: its own tests, and that the expected output of `vectors` and of
# `vectors_one` is what it writes.
reference:
	cargo test --quiet --release --offline --manifest-path reference/Cargo.toml
	cargo build --quiet --release --offline --manifest-path reference/Cargo.toml
	sh tests/vectors.sh reference/target/release/reference

# Showfail's cases alone; in `make test` they run on the program that the gate built.
showfail:
	sh tests/program.sh showfail
	sh tests/showfail.sh target/bin/showfail

# Acctsum's cases alone, each compared with the independent program too.
acctsum:
	sh tests/program.sh acctsum
	cargo build --quiet --release --offline --manifest-path reference/Cargo.toml
	sh tests/acctsum.sh target/bin/acctsum reference/target/release/reference

lib:
	sh host/archive.sh
	sh host/lib.sh

# Proves and compiles nothing, so that it may run as another user than `make lib`.
install:
	@test -f target/mschap/lib/libmschap.a || { echo 'install: run make lib first'; exit 1; }
	install -d "$(DESTDIR)$(PREFIX)/include" "$(DESTDIR)$(PREFIX)/lib/pkgconfig"
	install -m 644 target/mschap/include/mschap.h "$(DESTDIR)$(PREFIX)/include"
	install -m 644 target/mschap/lib/libmschap.a "$(DESTDIR)$(PREFIX)/lib"
	install -m 755 target/mschap/lib/libmschap.so.* "$(DESTDIR)$(PREFIX)/lib"
	cp -Pf target/mschap/lib/libmschap.so "$(DESTDIR)$(PREFIX)/lib"
	sed 's|^prefix=.*|prefix=$(PREFIX)|' target/mschap/lib/pkgconfig/mschap.pc \
	    > "$(DESTDIR)$(PREFIX)/lib/pkgconfig/mschap.pc"

# The library for C: bad lengths, exchanged arguments, the examples, a copy that is installed, the
# stack of each function, what the time of a step tells, and through the Rust wrapper the comparison
# with the independent program.
host: lib
	sh tests/host.sh
	sh tests/exchange.sh
	sh tests/examples.sh
	sh tests/install.sh
	sh tests/stack.sh
	sh tests/timing.sh
	cargo test --quiet --release --offline --manifest-path host/rust/Cargo.toml

bench:
	sh host/archive.sh
	sh tests/bench.sh target/staticlib/libmschap.a

# Makes the expected output of `vectors` and of `vectors_one` anew, by the independent program alone.
expected:
	cargo build --quiet --release --offline --manifest-path reference/Cargo.toml
	reference/target/release/reference crates/vectors/data/published.txt crates/vectors/data/cases.txt > crates/vectors/stdout
	reference/target/release/reference crates/vectors_one/data/cases.txt > crates/vectors_one/stdout
