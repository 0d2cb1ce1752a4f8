SHELL := /bin/bash

.DEFAULT_GOAL := run
.PHONY: toolchain run day printer kitchen library install dist test edits groups compare match width layout linking examples bench figures stack guarantees

# The toolchain that the crates are proved with is the one that the file TOOLCHAIN names: whoever takes another changes it there.
toolchain:
	@command -v rt >/dev/null || { echo "'rt', the command of the Rattle toolchain, is not found" >&2; exit 1; }
	@[ "$$(rt version)" = "$$(cat TOOLCHAIN)" ] \
	    || { echo "TOOLCHAIN names '$$(cat TOOLCHAIN)', and rt is '$$(rt version)'" >&2; exit 1; }

# What is taken from a folder by CEPHLOUK_LIBRARIES needs none.
library test edits compare match width layout linking examples bench stack: $(if $(CEPHLOUK_LIBRARIES),,toolchain)

# A day of plan A of document 01, printed by the day printer.
run: printer
	@target/bin/printer < crates/printer/stdin

# A day written by a person, told by the command; make day DAY=monday.plan takes another one.
DAY := examples/breakfast.plan
day: kitchen
	@kitchen/target/release/cephlouk run "$(DAY)"

# The day printer, proved and built: target/bin/printer. `rt run` builds it, and runs it on plan A. It tells each crate that it has proved
# as it goes, on standard error, and nothing where no crate has changed since.
printer: toolchain
	@mkdir -p target/bin
	@[ -z "$$(find crates crates.txt -name out -prune -o -newer target/bin/printer -print -quit 2>&1)" ] \
	    || echo "Proving what has changed of the day printer and the crates under it: some minutes." >&2
	@set -o pipefail; \
	    (cd crates/printer && rt run <stdin 2>&1 >/dev/null) | tee target/printer.log | { grep --line-buffered '^crate ' >&2; true; } \
	    && cp crates/printer/out/printer target/bin/printer \
	    || { cat target/printer.log >&2; exit 1; }

# The command for planners and kitchens: kitchen/target/release/cephlouk.
kitchen:
	@cargo build --quiet --release --offline --manifest-path kitchen/Cargo.toml

# The archive for C, C++ and Rust, proved and written: target/staticlib/libcephlouk.a, or the one in the folder that CEPHLOUK_LIBRARIES names.
library:
	@./cephlouk/libraries

# All that an embedder in C or C++ needs, below PREFIX: the header, the archive, a pkg-config file and the licence.
PREFIX := /usr/local
VERSION := $(shell sed -n 's/^version = "\(.*\)"/\1/p' cephlouk/Cargo.toml)
install: library
	install -D -m 644 include/cephlouk.h "$(DESTDIR)$(PREFIX)/include/cephlouk.h"
	install -D -m 644 "$(or $(CEPHLOUK_LIBRARIES),target/staticlib)/libcephlouk.a" "$(DESTDIR)$(PREFIX)/lib/libcephlouk.a"
	install -D -m 644 LICENSE "$(DESTDIR)$(PREFIX)/share/licenses/cephlouk/LICENSE"
	install -d "$(DESTDIR)$(PREFIX)/lib/pkgconfig"
	sed 's/@VERSION@/$(VERSION)/' include/cephlouk.pc.in >"$(DESTDIR)$(PREFIX)/lib/pkgconfig/cephlouk.pc"

# The same as a folder and as a file to hand on.
DIST := cephlouk-$(VERSION)
dist: library
	rm -rf "target/dist/$(DIST)"
	@$(MAKE) --no-print-directory install DESTDIR= PREFIX="target/dist/$(DIST)"
	tar -C target/dist --owner=0 --group=0 --sort=name -czf "target/dist/$(DIST)-x86_64-linux.tar.gz" "$(DIST)"

# Every check: what .ci/run does.
test:
	./.ci/run

# Every must-fail edit by itself, those that the gate has no time for too.
edits:
	./compare/edits

# The must-fail edits that share a check of the gate, written from the single ones.
groups:
	./compare/groups

# The tools, the day printer and the command beside the peer's, on many lists, streams and texts; the printer on stored streams.
compare:
	./compare/run
	./compare/stored
	./compare/printer
	./compare/command
	./compare/keep
	./compare/fuzz

# The command function beside the peer's, on a million askings of plans that are kept.
match:
	./compare/match

# That no number of fullness is wider than 32 bits.
width:
	./compare/width

# That no layout has changed while the number of the library has not.
layout:
	./compare/layout

# That a program and a library of different numbers do not link, and that what make dist makes is enough to link with.
linking:
	./compare/linking
	./compare/dist

# The examples in C, C++ and Rust, compiled with warnings as errors, run and compared.
examples:
	./compare/examples

# Commands, why a step is not starting, a plan written out, an order found and fullness, timed beside the peer's, to
# docs/generated/performance.md.
bench:
	@./compare/bench

# Figures 10, 11 and 15 of the report, drawn anew, to target/figures.
figures:
	@./compare/figures

# How much stack each exported function takes.
stack:
	./compare/stack

# What the crates promise, written to docs/generated/: statements, functions with their contracts, and wrong edits.
guarantees:
	@./compare/guarantees
