# make test is the test command: it installs what it needs, runs every part, and ends with one line 'N passed, M failed'.
# make quick is its quick form, for the hours of work; it says what it leaves out.
# make demo proves a sample plan with a real solver, from nothing.
.PHONY: test quick wrong-programs demo host tools install bench proofs reference clean

# The library that the host links; LIB=... takes another.
LIB = target/staticlib/libleskofar.a

PREFIX = /usr/local
DESTDIR =
VERSION = 0.1.0

CC = cc
CFLAGS = -O2
HOST_FLAGS = -std=c11 -pthread -Wall -Wextra -Werror -pedantic -D_POSIX_C_SOURCE=200809L -Iinclude
TEST_FLAGS = -std=c11 -Wall -Wextra -Werror -pedantic
SANITIZERS = -fsanitize=address,undefined -fno-sanitize-recover=all -fno-omit-frame-pointer
HOST = target/host/leskofar
HOST_SOURCES = $(sort $(wildcard host/*.c))
HOST_NEEDS = $(HOST_SOURCES) $(wildcard host/*.h) include/leskofar.h $(LIB)

test:
	@scripts/test.sh

quick:
	@scripts/quick.sh

# More wrong programs that the prover must refuse; CRATES='a b' tries those of some crates.
wrong-programs:
	@scripts/wrong-programs.sh $(CRATES)

demo:
	@scripts/demo.sh

host: $(HOST)

$(HOST): $(HOST_NEEDS)
	@mkdir -p $(@D)
	$(CC) $(HOST_FLAGS) $(CFLAGS) $(LDFLAGS) $(HOST_SOURCES) $(LIB) -o $@

# The same with every misuse of memory and every undefined step found out.
target/host/leskofar-sanitized: $(HOST_NEEDS)
	@mkdir -p $(@D)
	$(CC) $(HOST_FLAGS) -O1 -g $(SANITIZERS) $(LDFLAGS) $(HOST_SOURCES) $(LIB) -o $@

# The same on a system that gives no random bits.
target/host/leskofar-unrandom: $(HOST_NEEDS) tests/no_random.c
	@mkdir -p $(@D)
	$(CC) $(HOST_FLAGS) $(CFLAGS) $(LDFLAGS) $(HOST_SOURCES) tests/no_random.c $(LIB) -o $@

# What the host's tests need: a driver that ends hosts by signals, and a writer of the deepest books.
target/host/kills: tests/kills.c tests/processes.h
	@mkdir -p $(@D)
	$(CC) $(TEST_FLAGS) $(CFLAGS) $< -o $@

target/host/deepest: tests/deepest.c tests/nests.h tests/made_book.h
	@mkdir -p $(@D)
	$(CC) $(TEST_FLAGS) $(CFLAGS) $< -o $@

# rt says itself what is unchanged.
target/staticlib/libleskofar.a: $(wildcard crates/*/src/*.rt) crates.txt
	scripts/static-library.sh

# The tools for readable plans.
tools:
	cargo build --quiet --offline --release --manifest-path reference/Cargo.toml

install: $(HOST)
	install -d $(DESTDIR)$(PREFIX)/bin $(DESTDIR)$(PREFIX)/include $(DESTDIR)$(PREFIX)/lib/pkgconfig $(DESTDIR)$(PREFIX)/share/man/man1
	install -m 755 $(HOST) $(DESTDIR)$(PREFIX)/bin/leskofar
	install -m 644 include/leskofar.h $(DESTDIR)$(PREFIX)/include/leskofar.h
	install -m 644 $(LIB) $(DESTDIR)$(PREFIX)/lib/libleskofar.a
	install -m 644 host/leskofar.1 $(DESTDIR)$(PREFIX)/share/man/man1/leskofar.1
	sed -e 's|@PREFIX@|$(PREFIX)|' -e 's|@VERSION@|$(VERSION)|' host/leskofar.pc.in > $(DESTDIR)$(PREFIX)/lib/pkgconfig/leskofar.pc

# Speed, as ratios to the reference in one run.
bench:
	scripts/static-library.sh
	cargo run --quiet --offline --release --manifest-path compare/Cargo.toml -- bench

# The quick loop while proving: every crate, over what earlier checks kept, no must-fail edits.
proofs:
	rt all check

reference:
	cd reference && cargo test --offline --release

clean:
	rm -rf target crates/*/out reference/target compare/target
