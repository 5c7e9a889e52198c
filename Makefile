# Pistrovelle. `make` proves and builds; `make demo` then shows the command on the examples; `make test` is the gate.
PREFIX ?= /usr/local
DESTDIR ?=
CFLAGS ?= -O2

VERSION := $(shell sed -n 's/^\#define PISTROVELLE_VERSION "\(.*\)"/\1/p' include/pistrovelle.h)
PROVED := $(shell find $(wildcard crates/*/src crates/*/specs crates/*/proofs) -name '*.rt' -o -name '*.antt')
OBJECTS := $(patsubst tools/%.c,build/tools/%.o,$(wildcard tools/*.c))
STRICT := -std=c11 -D_XOPEN_SOURCE=700 -Wall -Wextra -pedantic -Iinclude

.PHONY: all prove demo test edits fuzz guided bench install clean

all:
	@$(MAKE) --no-print-directory prove
	@$(MAKE) --no-print-directory build/pistrovelle

# How many crates are proved at a time: one for each processor, and for each 4 GB that are free.
JOBS ?= $(shell awk -v most="$$(nproc)" '/^MemAvailable:/ { n = int($$2 / 4000000) } END { print n < 1 ? 1 : n < most ? n : most }' /proc/meminfo)

# Proves every crate. The gate runs the programs too.
prove:
	rt all check --jobs $(JOBS)

# The archive: `engine_c`, a static library over the crates below it, which are proved first where they are not.
# It is for x86-64, and so is what links it: elsewhere tools/x86-64 finds a cross compiler and an emulator.
build/libpistrovelle.a: crates.txt $(PROVED)
	cd crates/engine_c && rt all check --jobs $(JOBS) && rt lib
	@mkdir -p build
	cp crates/engine_c/out/libengine_c.a $@

# The program that summarizes. The gate has made it already; else it is proved, built and run on no input.
crates/summary/out/summary: crates.txt $(PROVED)
	cd crates/summary && rt all check --jobs $(JOBS) && rt run </dev/null
	@touch $@

build/tools/%.o: tools/%.c $(wildcard tools/*.h) include/pistrovelle.h
	@mkdir -p build/tools
	@tools/x86-64 need
	tools/x86-64 cc $(STRICT) $(CFLAGS) -c $< -o $@

build/pistrovelle: $(OBJECTS) build/libpistrovelle.a
	tools/x86-64 cc $(CFLAGS) $(LDFLAGS) $(OBJECTS) build/libpistrovelle.a -o $@

demo: all
	@tools/demo

test:
	@tests/gate

# Wrong programs beside those that the gate tries.
edits:
	@tests/edits/run

# The archive against the independent implementation: N texts from SEED on, or for so many SECONDS by what they cover.
fuzz:
	@N=$(N) SEED=$(SEED) tests/fuzz

guided:
	@SECONDS_LONG=$(SECONDS) tests/guided/run

# Speed, beside the independent reader and writer and RTKLIB.
bench:
	@bench/run

install: build/pistrovelle
	install -d $(DESTDIR)$(PREFIX)/bin $(DESTDIR)$(PREFIX)/include $(DESTDIR)$(PREFIX)/lib/pkgconfig $(DESTDIR)$(PREFIX)/share/man/man1
	install -m 755 build/pistrovelle $(DESTDIR)$(PREFIX)/bin/pistrovelle
	install -m 644 include/pistrovelle.h $(DESTDIR)$(PREFIX)/include/pistrovelle.h
	install -m 644 build/libpistrovelle.a $(DESTDIR)$(PREFIX)/lib/libpistrovelle.a
	sed -e 's|@PREFIX@|$(PREFIX)|' -e 's|@VERSION@|$(VERSION)|' tools/pistrovelle.pc.in > $(DESTDIR)$(PREFIX)/lib/pkgconfig/pistrovelle.pc
	install -m 644 man/pistrovelle.1 $(DESTDIR)$(PREFIX)/share/man/man1/pistrovelle.1

clean:
	rm -rf build crates/*/out
