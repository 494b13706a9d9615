# `make test` is the gate: .ci/run runs nothing else, and its last line is rt's own 'N passed, 0 failed'.
.DEFAULT_GOAL := help
.PHONY: help test demo host examples soak memcheck bench setup archive own clean

# The archive is for x86-64. On another processor the host's programs are cross-built and emulated.
X86 := x86_64-unknown-linux-gnu
BUILD := host/target/c
CFLAGS := -std=c11 -Wall -Wextra -Werror -O2 -Iinclude
ARCHIVE := target/staticlib/libhusk.a
HOST := --manifest-path host/Cargo.toml --locked
MACHINE := $(shell uname -m)
ifeq ($(MACHINE),x86_64)
CARGO := cargo
CC := gcc
RUN :=
else
CARGO := RUSTC=/usr/bin/rustc cargo
CC := x86_64-linux-gnu-gcc
RUN := qemu-x86_64
export CARGO_TARGET_X86_64_UNKNOWN_LINUX_GNU_LINKER := x86_64-linux-gnu-gcc
export CARGO_TARGET_X86_64_UNKNOWN_LINUX_GNU_RUNNER := qemu-x86_64
endif
CARGO_FLAGS := $(HOST) --target $(X86)

# Soak, memcheck and bench want no emulator: times would say nothing, and valgrind can't look inside. On
# AArch64 they took the same module compiled for that processor (tools/native.sh), which today's kit can't make.
OWN_FLAGS := $(HOST) --release --target $(MACHINE)-unknown-linux-gnu
OWN_BIN := host/target/$(MACHINE)-unknown-linux-gnu/release
VALGRIND := valgrind -q --error-exitcode=1
ifeq ($(MACHINE),aarch64)
OWN_CARGO := HUSK_LIB=$(CURDIR)/target/native cargo
OWN_ARCHIVE := target/native/libhusk.a
OWN_MAKE := tools/native.sh
else
OWN_CARGO := cargo
OWN_ARCHIVE := $(ARCHIVE)
OWN_MAKE := true
endif

help:
	@echo 'make demo      a bay of sixteen boards of which nine hang; prints the sheet'
	@echo 'make test      prove everything, run the host tests: the gate'
	@echo 'make soak      compare with the reference: CALLS=100000000, or as many as SECONDS=.. allow'
	@echo 'make memcheck  the C example and a short comparison under valgrind'
	@echo 'make bench     time the calls beside their peers; see docs/PERFORMANCE.md'
	@echo 'make clean     forget what was built'

test:
	$(MAKE) --no-print-directory host
	tools/gate.sh

# A bay of sixteen boards, with real records. It takes a few seconds under an emulator.
demo: archive
	@$(CARGO) run -q $(CARGO_FLAGS) -p demo

# The host's tests, over the archive of the proved functions; the reference's own need no archive.
host: archive
	cargo test -q --tests $(HOST) -p reference
	$(CARGO) test -q --tests $(CARGO_FLAGS) --workspace --exclude reference
	$(MAKE) --no-print-directory examples

examples:
	mkdir -p $(BUILD)
	$(CC) $(CFLAGS) examples/c/layout.c $(ARCHIVE) -o $(BUILD)/layout && $(RUN) $(BUILD)/layout
	$(CC) $(CFLAGS) examples/c/bay.c $(ARCHIVE) -o $(BUILD)/bay && $(RUN) $(BUILD)/bay
	CC='$(CC)' RUN='$(RUN)' CARGO='$(CARGO)' TARGET=$(X86) tools/guide.sh

CALLS ?= 100000000
SECONDS ?= 86400
soak: own
	$(OWN_CARGO) run -q $(OWN_FLAGS) -p compare --bin soak -- $(CALLS) $(SECONDS)

# The C programs and a short comparison under valgrind, and the test that sets each buffer against a page
# that may not be touched.
memcheck: own
	mkdir -p $(BUILD)/own
	for p in bay layout; do gcc $(CFLAGS) -g examples/c/$$p.c $(OWN_ARCHIVE) -o $(BUILD)/own/$$p && $(VALGRIND) $(BUILD)/own/$$p || exit 1; done
	$(OWN_CARGO) test -q $(OWN_FLAGS) -p compare --test guarded
	$(OWN_CARGO) build -q $(OWN_FLAGS) -p compare --bin soak
	$(VALGRIND) $(OWN_BIN)/soak 20000

# Not a test: it prints times, and only a look at them says whether they are good.
bench: own
	$(OWN_CARGO) run -q $(OWN_FLAGS) -p bench

setup:
	tools/setup.sh

archive: setup
	cd crates/husk && rt lib
	mkdir -p $(dir $(ARCHIVE))
	cp crates/husk/out/libhusk.a $(ARCHIVE)

# The archive for the processor that this machine has.
own: archive
	tools/setup.sh own
	$(OWN_MAKE)

clean:
	rm -rf target host/target
