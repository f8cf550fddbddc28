# What is run by hand. The gate is .ci/run.
CARGO := ./cargo
export INDRAVECK_HOST := $(shell uname -m)

.PHONY: help library archive archive-check tool crates test test-c install install-tool uninstall long-test more-edits bench count fmt fmt-check

help:
	@echo "make tool          builds ./indraveck over the library that is kept in lib/; needs no prover"
	@echo "make library       the library that C and Rust link, as target/staticlib/libindraveck.a: proved anew if crates/ was changed"
	@echo "make archive       proves the library and keeps it in lib/"
	@echo "make archive-check proves the library and compares it with the one in lib/"
	@echo "make install       header, library and pkg-config file, below PREFIX (/usr/local); install-tool: the tool; uninstall: takes all away"
	@echo "make test          the tool on real ports; the library beside the independent model on 20,000 random histories, 4,000 recordings, 20,000 exchanges and the systematic ones"
	@echo "make long-test     the same with a million histories, 200,000 recordings and a million exchanges"
	@echo "make more-edits    the wrong versions that the gate leaves out for time"
	@echo "make bench         measures both in one run and prints the ratios; the blank check by itself too"
	@echo "make count         counts the instructions that both execute"

LIBRARY := target/staticlib/libindraveck.a

# ./archive decides: the one that is kept, if it was made from the sources as they stand.
library:
	@./archive use

archive:
	./archive keep

archive-check:
	./archive compare

# cargo install asks for the crates that the tool is built of and not for those of the tests.
tool: library
	@rm -rf rust/target/tool
	@PATH="$$PATH:$(CURDIR)/rust/target/tool/bin" $(CARGO) install --offline --path tool --root "$(CURDIR)/rust/target/tool" --no-track

# Those from Debian that the tool and the tests are built of: they need no proved library.
crates:
	$(CARGO) build --offline --release -p indraveck-evidence --no-default-features
	$(CARGO) build --offline --release -p clap:4.0.32 -p nix -p memmap2

ifeq ($(shell uname -m),x86_64)
CC_X86 := gcc
RUN_X86 :=
else
CC_X86 := x86_64-linux-gnu-gcc
RUN_X86 := qemu-x86_64
endif
C_FLAGS := -std=c99 -pedantic -Wall -Wextra -Werror -O1

test: library test-c
	$(CARGO) test --offline --release

test-c: library
	./setup
	$(CC_X86) $(C_FLAGS) -Iinclude tests/c/calls.c $(LIBRARY) -o target/calls
	$(RUN_X86) target/calls
	$(CC_X86) $(C_FLAGS) -Iinclude tests/c/host.c $(LIBRARY) -o target/host
	$(RUN_X86) target/host
	CC="$(CC_X86) $(C_FLAGS)" RUN="$(RUN_X86)" tests/c/installed

VERSION := $(shell sed -n 's/.*define INDRAVECK_VERSION "\(.*\)"/\1/p' include/indraveck.h)
PREFIX ?= /usr/local
INCLUDEDIR := $(PREFIX)/include
LIBDIR := $(PREFIX)/lib
BINDIR := $(PREFIX)/bin
TOOL := rust/target/x86_64-unknown-linux-gnu/release/indraveck

install: library
	install -d "$(DESTDIR)$(INCLUDEDIR)" "$(DESTDIR)$(LIBDIR)/pkgconfig"
	install -m 644 include/indraveck.h "$(DESTDIR)$(INCLUDEDIR)/indraveck.h"
	install -m 644 $(LIBRARY) "$(DESTDIR)$(LIBDIR)/libindraveck.a"
	sed -e 's|@VERSION@|$(VERSION)|' -e 's|@PREFIX@|$(PREFIX)|' -e 's|@INCLUDEDIR@|$(INCLUDEDIR)|' -e 's|@LIBDIR@|$(LIBDIR)|' lib/indraveck.pc.in >"$(DESTDIR)$(LIBDIR)/pkgconfig/indraveck.pc"
	chmod 644 "$(DESTDIR)$(LIBDIR)/pkgconfig/indraveck.pc"

# a program for x86-64
install-tool: tool
	install -d "$(DESTDIR)$(BINDIR)"
	install -m 755 $(TOOL) "$(DESTDIR)$(BINDIR)/indraveck"

uninstall:
	rm -f "$(DESTDIR)$(INCLUDEDIR)/indraveck.h" "$(DESTDIR)$(LIBDIR)/libindraveck.a" "$(DESTDIR)$(LIBDIR)/pkgconfig/indraveck.pc" "$(DESTDIR)$(BINDIR)/indraveck"

long-test: library
	HISTORIES=1000000 RECORDINGS=200000 EXCHANGES=1000000 $(CARGO) test --offline --release -p indraveck-evidence --test histories --test recordings --test exchanges -- --nocapture

more-edits:
	./more-edits

# exports the blank check alone, for the benchmarks
PROVED := crates.txt $(shell find crates \( -path '*/must-fail*' -o -path 'crates/*/out' \) -prune -o -type f \( -name '*.rt' -o -name '*.antt' \) -print)
target/staticlib/libinterface_blank.a: $(PROVED)
	cd crates/interface_blank_c && rt lib
	mkdir -p target/staticlib
	cp crates/interface_blank_c/out/libinterface_blank_c.a $@

bench: library target/staticlib/libinterface_blank.a
	$(CARGO) bench --offline -p indraveck-benchmarks

count: library target/staticlib/libinterface_blank.a
	rust/benchmarks/count/run

RUST_FILES = $(shell find rust -name '*.rs' -not -path '*/target/*')

fmt:
	for crate in crates/*/; do (cd $$crate && rt fmt) || exit 1; done
	/usr/bin/rustfmt --edition 2021 $(RUST_FILES)

fmt-check:
	/usr/bin/rustfmt --edition 2021 --check $(RUST_FILES)
