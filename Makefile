# all        the static library, the command eremothyn, the program crontab_firings, and the examples
# example    the same, then runs one
# install    installs the library, the header, the programs, the manual and the examples under PREFIX, below DESTDIR
# uninstall  removes what install installed
# dist       the same tree as a tarball in target/dist, with checksums
# deb        the same as a Debian package, there too
# test       the gate: every proof, every must-fail edit, every test
# bench      the benchmarks
# soak       compares random calls with the reference program for HOURS, and resumes where the last run ended.
#            SEED=.. starts another; with ROUND=.. too, it runs one round again
# figures    draws docs/crates.svg and prints the size of each crate
# format     formats all code: Rattle, Rust and C
# clean      removes what was built, and what rt keeps

PREFIX ?= /usr/local
LIBDIR ?= $(PREFIX)/lib
# What pkg-config answers.
PC_PREFIX ?= $(PREFIX)
PC_LIBDIR ?= $(LIBDIR)
CC ?= cc
CFLAGS ?= -O2 -Wall -Wextra
INSTALL ?= install

LIBRARY := target/staticlib/liberemothyn.a
TEST_CALLS := target/staticlib/libtest_calls.a
SOURCES := crates.txt $(shell find crates -name out -prune -o \( -name '*.rt' -o -name '*.antt' \) -print)
COMMAND := target/c/eremothyn
COMMAND_SOURCES := $(wildcard programs/*.c programs/*/*.c)
LISTER := target/bin/crontab_firings
HEADER := include/eremothyn.h
VERSION := $(shell sed -n '/EREMOTHYN_VERSION/s/.*"\(.*\)".*/\1/p' $(HEADER))
FUNCTIONS := $(shell sed -n '/^uint64_t\|^static inline/s/.*\(eremothyn_[a-z_]*\).*/\1/p' $(HEADER))
PAGES_1 := $(wildcard packaging/*.1)
PAGES_3 := target/man/eremothyn.3 $(FUNCTIONS:%=target/man/%.3)
PAGES_5 := $(wildcard packaging/*.5)
EXAMPLES := daemon.c site_daemon.c date.c table_file.h log.h observatory.crontab system.crontab two_sites.crontab over_midnight.crontab night.crontab night_changed.crontab \
  broken.crontab

# Packed files have the time of the commit.
export SOURCE_DATE_EPOCH ?= $(shell git log -1 --format=%ct 2> /dev/null || echo 0)
DIST := eremothyn-$(VERSION)-x86_64-linux
SOAK_STATE ?= tests/target/soak.state

LIB := $(DESTDIR)$(LIBDIR)
INCLUDE := $(DESTDIR)$(PREFIX)/include
BIN := $(DESTDIR)$(PREFIX)/bin
MAN := $(DESTDIR)$(PREFIX)/share/man
DOC := $(DESTDIR)$(PREFIX)/share/doc/eremothyn

# Expanded where it is used, so $@ is that rule's target.
COMPILE = mkdir -p $(@D) && $(CC) -std=c99 $(CPPFLAGS) $(CFLAGS) -Iinclude $(LDFLAGS) -o $@

.PHONY: all example install uninstall dist deb test bench soak figures format clean

all: $(LIBRARY) $(COMMAND) $(LISTER) target/c/daemon target/c/site_daemon target/c/date

target/staticlib/lib%.a: $(SOURCES)
	@.ci/needs rt
	cd crates/$* && rt lib
	mkdir -p $(@D)
	cp crates/$*/out/lib$*.a $@

# A program in Rattle: proved and linked, which rt does only to run it. So it is run here, on the crate's own input.
target/bin/%: $(SOURCES) | $(LIBRARY)
	@.ci/needs rt
	cd crates/$* && ../../.ci/run-program
	mkdir -p $(@D)
	cp crates/$*/out/$* $@

$(COMMAND): $(COMMAND_SOURCES) $(wildcard programs/*/*.h) $(HEADER) $(LIBRARY)
	$(COMPILE) -Iprograms $(COMMAND_SOURCES) $(LIBRARY)

target/c/%: examples/%.c examples/table_file.h examples/log.h $(HEADER) $(LIBRARY)
	$(COMPILE) $< $(LIBRARY)

# The clock starts in 1970. After the time job has run, it is right.
example: all
	target/c/daemon examples/observatory.crontab 1 1970-01-01T00:00 1970-01-01T00:08 2026-11-15T21:30 2026-11-15T21:30

# `man` finds the page by the name of each function.
$(PAGES_3): packaging/eremothyn.3 $(HEADER)
	mkdir -p $(@D)
	cp packaging/eremothyn.3 target/man/
	for f in $(FUNCTIONS); do echo '.so man3/eremothyn.3' > target/man/$$f.3; done

install: $(LIBRARY) $(COMMAND) $(LISTER) $(PAGES_3)
	sed -e 's|@PREFIX@|$(PC_PREFIX)|' -e 's|@LIBDIR@|$(PC_LIBDIR)|' -e 's|@VERSION@|$(VERSION)|' packaging/eremothyn.pc.in > target/eremothyn.pc
	$(INSTALL) -d "$(LIB)/pkgconfig" "$(INCLUDE)" "$(BIN)" "$(MAN)/man1" "$(MAN)/man3" "$(MAN)/man5" "$(DOC)/examples"
	$(INSTALL) -m 644 $(LIBRARY) "$(LIB)/"
	$(INSTALL) -m 644 target/eremothyn.pc "$(LIB)/pkgconfig/"
	$(INSTALL) -m 644 $(HEADER) "$(INCLUDE)/"
	$(INSTALL) -m 755 $(COMMAND) $(LISTER) "$(BIN)/"
	$(INSTALL) -m 644 $(PAGES_1) "$(MAN)/man1/"
	$(INSTALL) -m 644 $(PAGES_3) "$(MAN)/man3/"
	$(INSTALL) -m 644 $(PAGES_5) "$(MAN)/man5/"
	$(INSTALL) -m 644 $(EXAMPLES:%=examples/%) "$(DOC)/examples/"
	sed 's|@LIBC@|'"$$(packaging/libc.sh $(COMMAND) $(LISTER))"'|' packaging/README > target/README
	$(INSTALL) -m 644 target/README docs/DAEMON.md docs/GUARANTEES.md packaging/changelog packaging/copyright "$(DOC)/"

uninstall:
	rm -f "$(LIB)/liberemothyn.a" "$(LIB)/pkgconfig/eremothyn.pc" "$(INCLUDE)/eremothyn.h"
	rm -f "$(BIN)/eremothyn" "$(BIN)/crontab_firings"
	for page in $(notdir $(PAGES_1)); do rm -f "$(MAN)/man1/$$page"; done
	for page in $(notdir $(PAGES_3)); do rm -f "$(MAN)/man3/$$page"; done
	for page in $(notdir $(PAGES_5)); do rm -f "$(MAN)/man5/$$page"; done
	rm -rf "$(DOC)"

# Can be unpacked anywhere: its pkg-config file finds its own folder.
dist:
	rm -rf target/dist/$(DIST)
	$(MAKE) install DESTDIR=target/dist/$(DIST) PREFIX= PC_PREFIX='$$$${pcfiledir}/../..' PC_LIBDIR='$$$${prefix}/lib'
	packaging/dist.sh $(DIST)

deb:
	rm -rf target/deb
	$(MAKE) install DESTDIR=target/deb PREFIX=/usr LIBDIR=/usr/lib/x86_64-linux-gnu
	packaging/deb.sh $(VERSION)

test:
	.ci/run

bench: $(LIBRARY) $(TEST_CALLS) $(LISTER)
	cargo run --offline --release --manifest-path tests/Cargo.toml -p bench

soak: $(LIBRARY)
	@test -n "$(HOURS)$(ROUND)" || { echo "for how long? make soak HOURS=24, or HOURS=0.5"; exit 1; }
	cargo run --offline --release --manifest-path tests/Cargo.toml -p soak -- $(SOAK_STATE) "$(or $(HOURS),0)" "$(SEED)" "$(ROUND)"

figures:
	awk -f docs/picture.awk crates.txt > docs/crates.svg
	docs/figures.sh

format:
	for crate in crates/*/; do (cd "$$crate" && rt fmt) || exit; done
	cargo fmt --all --manifest-path tests/Cargo.toml
	find include programs examples tests/c/programs -name '*.[ch]' -exec clang-format -i {} +

clean:
	rm -rf target tests/target crates/*/out
