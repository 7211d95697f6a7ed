# krbls: build, run, test and measure. Needs the Rattle toolchain's `rt`, and python3. `make` lists the targets.
.PHONY: help run needs try test build prove library install uninstall dist gate proofs edits fuzz bench clean
.DEFAULT_GOAL := help

# Where `make install` puts the program.
PREFIX := /usr/local
DESTDIR :=

# Lists the targets: a line that begins with `##` has one, how long it takes on four processors, and what it does.
help:
	@printf '%-20s  %-11s %s\n' 'make ..' takes what
	@sed -n 's/^## /make /p' Makefile

# Lists a real stream by bin/krbls, or else by the program as it stands, which is compiled first if it is not there.
## run             a minute    lists a real stream: unproved, or by bin/krbls, once that is there
run: needs
	@program=bin/krbls; \
	if ! test -x bin/krbls; then $(MAKE) --no-print-directory bin/krbls-unproved && program=bin/krbls-unproved && \
		echo 'By bin/krbls-unproved, the program as it stands, of which nothing is proved yet (make build):'; \
	elif test -n "$$(find $(SOURCES) -newer bin/krbls)"; then echo 'By bin/krbls, which is proved, and older than the sources (make build):'; \
	else echo 'By bin/krbls, which is proved:'; fi && \
	$$program stream < examples/morning.stream

# The program as it stands, with no proof.
SOURCES := crates.txt $(shell find crates/*/src -type f 2> /dev/null)
bin/krbls-unproved: $(SOURCES) | needs
	@echo 'Compiles krbls as it stands, with no proof, which takes a minute ..'
	@tools/unproved && touch $@

# Says what is missing, before anything is proved.
needs:
	@command -v rt > /dev/null || { echo "krbls: no rt: it comes with Rattle's kit, in the folder bin of the kit" >&2; exit 1; }
	@command -v python3 > /dev/null || { echo 'krbls: no python3: the build and the tests need it' >&2; exit 1; }
	@test -w . || { echo "krbls: cannot write in $$PWD: a build leaves its files here" >&2; exit 1; }

## try FILE=a.pcap a minute    lists a file of one's own, unproved; with COMMAND=capture, as a capture
COMMAND := list
try: needs
	@test -r "$(FILE)" || { echo 'krbls: make try FILE=.. (COMMAND=stream, message, keytab, ccache or capture; list if it is left out)' >&2; exit 1; }
	@$(MAKE) --no-print-directory bin/krbls-unproved && bin/krbls-unproved $(COMMAND) "$(FILE)"

# What a change has to pass before anything is proved: `tests/run/without-proofs NAME..` runs parts of it.
## test            5 minutes   every test that needs no proof
test: needs
	@tests/run/without-proofs

# Proves all that the program uses, compiles it, and leaves it at bin/krbls: the crates side by side, and if something was built
# here before, only what has changed since.
## build           30 minutes  proves what the program calls, and leaves it at bin/krbls; later only what changed
build: needs
	@tools/program

# A crate and those above it, with their edits, by `rt ci`.
## prove CRATE=x   a part      proves x and the crates above it, and tries their edits: as much of the gate as these are
prove: needs
	@tools/prove $(CRATE)

# Builds the C library at bin/libkrbls.a and bin/libkrbls.so, of what `make build` proved.
## library         2 minutes   after make build: the C library, bin/libkrbls.a and bin/libkrbls.so
library:
	@test -x bin/krbls || $(MAKE) --no-print-directory build
	c/build

# Puts the program that `make build` left under $(DESTDIR)$(PREFIX), with all that belongs to it, and the C library if `make library`
# left it: tools/install says what.
## install         seconds     bin/krbls, its pages and completions under PREFIX, /usr/local; make uninstall removes them
install:
	@test -x bin/krbls || { echo 'make build first' >&2; exit 1; }
	DESTDIR="$(DESTDIR)" PREFIX="$(PREFIX)" tools/install

# Takes the same away.
uninstall:
	DESTDIR="$(DESTDIR)" PREFIX="$(PREFIX)" tools/install --remove

# One archive for machines without Rattle: `make install` in it needs neither rt nor python3.
## dist            seconds     after make build: bin/krbls-VERSION-PLATFORM.tar.gz, all that make install puts, and its SHA-256
dist:
	@tools/dist

# All: proofs, edits, and the tests of the proved program and library, made-up input among them.
## gate            2 hours     everything: proofs, edits, tests of the proved program and library, made-up input
gate: needs
	@tests/run/all

# `rt ci` alone, and the processor minutes of each of its parts.
## proofs          2 hours     of that the proofs and edits alone, and the processor minutes of each crate
proofs: needs
	mkdir -p bin
	tools/minutes bin/minutes tools/gate
	cat bin/minutes

## edits           hours       the must-fail edits that the gate leaves out; tools/edits CRATE.. tries those of some crates
edits:
	tools/edits

# The programs that `make gate` or `make build` left, or else built anew.
bin/krbls: $(SOURCES) | needs
	@tools/program

crates/krb_damage/out/krb_damage: $(SOURCES) | needs
	@tools/side-by-side krb_damage
	cd crates/krb_damage && rt run < stdin > /dev/null

# More than `make gate` tries: 100000 made-up streams, each change of the messages of krb_damage and what it counts, and
# the marks of 2000 made-up messages.
## fuzz            30 minutes  after make gate: a hundred thousand made-up inputs, and damaged ones
fuzz: bin/krbls crates/krb_damage/out/krb_damage
	tests/run/damage | diff crates/krb_damage/stdout -
	tests/run/fuzz damage
	tests/run/scanner-marks
	tests/run/fuzz 100000 1

# Octets per second: of the listing of streams, of a keytab, of a cache and of captures, of messages as JSON and back, and of
# messages judged, scanned, parsed and encoded; memory, of what costs most of it; and nanoseconds, of what costs most of them.
## bench           10 minutes  after make gate: octets per second, beside other programs, and memory
bench: bin/krbls crates/krb_damage/out/krb_damage
	bench/stream
	bench/keytab
	bench/ccache
	bench/capture
	bench/decode
	bench/memory
	bench/worst

## clean           seconds     removes bin/, and what rt keeps in crates/*/out
clean:
	rm -rf bin crates/*/out
