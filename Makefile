# `make run` builds the main job and runs it on a shipped example, or on FILE=your.filter; `make test` is the gate.
FILE ?= examples/k.filter
PREFIX ?= /usr/local
TIME ?= 600
ARCHIVE := target/lib/libpierhollow.a

.PHONY: run test lib programs tool install bench instructions soak

run:
	@.ci/programs reduce
	@.ci/run-bin target/bin/reduce <"$(FILE)"

test:
	@.ci/run

# The archive for C, target/lib/libpierhollow.a; include/pierhollow.h goes with it.
lib:
	@.ci/lib

programs:
	@.ci/programs reduce shrink trace

# The command pierhollow, in C over the archive: for x86-64 as that is, elsewhere by Debian's cross compiler.
X86_64_CC := $(if $(filter x86_64,$(shell uname -m)),gcc,x86_64-linux-gnu-gcc -static)

tool: lib
	@$(MAKE) --no-print-directory target/bin/pierhollow

target/bin/pierhollow: $(wildcard tool/*.c tool/*.h) include/pierhollow.h $(ARCHIVE)
	@mkdir -p target/bin
	$(X86_64_CC) -std=c99 -D_POSIX_C_SOURCE=200809L -O2 -Wall -Wextra -Werror -pedantic -Iinclude tool/*.c $(ARCHIVE) -o $@

# Programs and archive are x86-64; PREFIX and DESTDIR say where they go.
install: lib programs tool
	install -d "$(DESTDIR)$(PREFIX)/bin" "$(DESTDIR)$(PREFIX)/lib" "$(DESTDIR)$(PREFIX)/include" "$(DESTDIR)$(PREFIX)/share/man/man1"
	install -m 755 target/bin/pierhollow target/bin/reduce target/bin/shrink target/bin/trace "$(DESTDIR)$(PREFIX)/bin"
	install -m 644 $(ARCHIVE) "$(DESTDIR)$(PREFIX)/lib"
	install -m 644 include/pierhollow.h "$(DESTDIR)$(PREFIX)/include"
	install -m 644 man/pierhollow.1 man/reduce.1 man/shrink.1 man/trace.1 "$(DESTDIR)$(PREFIX)/share/man/man1"

# The library against plain C: ratios, growth, stack and sizes.
bench: lib
	@bench/run

# The same ratios by x86-64 instructions, which Arm can count too.
instructions: lib
	@bench/instructions

# Every file of three bytes through both programs as a pocket file, then random cases for TIME seconds.
soak:
	@.ci/programs answers
	@cargo run --release --offline --quiet --manifest-path second/Cargo.toml --bin soak -- $(TIME)
