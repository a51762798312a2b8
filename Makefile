# make        prove and build everything; programs stand in target/bin, the library in target/lib
# make list   prove and build the listing program alone: target/bin/list
# make seal-a the same, and list Seal A
# make why    prove and build the program that says why a seal is refused, alone: target/bin/say_why
# make features  prove and build the program that walks over the features of a seal, alone: target/bin/features
# make lib    prove and build the library for C and Rust alone: target/lib/libfenderrope.a
#             (does nothing where nothing changed)
# make checker  the same, and build the program over it: target/bin/fenderrope-check
# make test   the gate: looks for its tools; proves everything from nothing, tries the must-fail edits, runs the
#             programs; then the tests in C and Rust, of the programs and of the installing, on what was proved
# make face   the C tests alone, in C and C++, with each compiler that is there
# make rust   the Rust tests alone; GATE_INPUTS says how many inputs the differential test has
# make difference  the differential test at its full size (FR_INPUTS, FR_SEED in the environment change it)
# make peers  end to end with openssl, zint and dmtxread (on an x86-64 machine)
# make fuzz   fuzz the library for FUZZ_SECONDS (needs clang, on an x86-64 machine)
# make fmt    lay out every .rt and .antt file
# make bench  instructions and nanoseconds of each call beside C written for speed and plain Rust (on an x86-64 machine)
# make vectors  reckon the files of cases anew from document 01 (needs python3)
# make install    put what was made under PREFIX (below DESTDIR): programs, library, header, pkg-config file, man pages,
#                 docs with their pictures, examples
# make uninstall  remove what make install put there
# make clean  remove what was made
# What rt prints stands in target/log/make-*: its last line is shown, and all of it where it fails. The gate's rt ci
# prints as it goes. What rt makes itself stands in crates/NAME/out, and is copied from there to target.
# All that is built is for x86-64, and so is the kit. What stands after tests/x86 is run on another machine too, by a
# toolchain that is laid there once, or is named as not run.

VERSION := 0.8.0
PREFIX ?= /usr/local
FUZZ_SECONDS ?= 60

RT := $(shell command -v rt 2>/dev/null)
LIST := target/bin/list
WHY := target/bin/say_why
FEATURES := target/bin/features
LIB := target/lib/libfenderrope.a
MADE := target/lib/made
CHECKER := target/bin/fenderrope-check
STRICT := -std=c11 -O2 -Wall -Wextra -Wpedantic -Werror
CALLS := $(shell sed -n 's/^fr_[a-z]* \(fr_[a-z0-9_]*\).*/\1/p' include/fenderrope.h)
TO = $(DESTDIR)$(PREFIX)
DOC = $(TO)/share/doc/fenderrope
MAN = $(TO)/share/man

# Runs a command of the kit, with what it prints in target/log/make-NAME. Shows its last line, or all of it where it
# fails, and keeps its status: $(call logged,NAME,COMMAND)
logged = mkdir -p target/log && echo "$(2): what it prints is in target/log/make-$(1)" && \
	{ $(2) >target/log/make-$(1) 2>&1 || { status=$$?; cat target/log/make-$(1) >&2; exit $$status; }; } && \
	tail -n 1 target/log/make-$(1)

# Whether a file stands, no source is younger than it, and the kit is the one that it was made with; its stamp says the
# last two: $(call unchanged,FILE,STAMP)
unchanged = test -f $(1) && rt version | cmp -s - $(2) && \
	test -z "$$(find crates/*/src crates/*/specs crates/*/proofs crates.txt -newer $(2) | head -n 1)"

# Makes a file by a command of the kit, unless it is unchanged. The stamp is as old as the beginning of the work, so that
# a source that changes meanwhile is younger: $(call built,NAME,FILE,STAMP,COMMAND,WHAT IT MAKES)
built = { $(call unchanged,$(2),$(3)); } || { mkdir -p $(dir $(2)) && rt version >$(3).new && $(call logged,$(1),$(4)) && \
	{ cmp -s $(5) $(2) || cp $(5) $(2); } && mv $(3).new $(3); }

# Proves and builds a program and runs it on its own input, and it must print what it must: $(call program,NAME,FILE,CRATE)
program = $(call built,$(1),$(2),$(2).made,(cd crates/$(3) && rt run <stdin | cmp - stdout),crates/$(3)/out/$(3))

.PHONY: all base list seal-a why features lib checker test face rust difference peers fuzz fmt bench vectors
.PHONY: install uninstall clean kit native $(CHECKER)
.NOTPARALLEL:

all: kit
	@$(call logged,all,rt all check)
	@$(MAKE) --no-print-directory base checker

# What the gate's tests stand on.
base: list why features lib

list: kit
	@$(call program,list,$(LIST),list)

seal-a: list
	@tests/x86 sh -c '$${FR_RUN:+"$$FR_RUN"} $(LIST)' <examples/seal-a

why: kit
	@$(call program,why,$(WHY),say_why)

features: kit
	@$(call program,features,$(FEATURES),features)

lib: kit
	@$(call built,lib,$(LIB),$(MADE),(cd crates/capi_c && rt lib),crates/capi_c/out/libcapi_c.a)

checker: lib
	@mkdir -p target/bin
	@tests/x86 $(MAKE) -s $(CHECKER)

$(CHECKER):
	@$(CC) $(STRICT) $(CFLAGS) -Iinclude programs/check.c $(LIB) $(LDFLAGS) -o $(CHECKER)

test:
	@tests/tools
	@$(MAKE) --no-print-directory kit
	@tests/gate

face: lib
	@tests/x86 tests/face

rust: lib
	@tests/x86 tests/rust

difference: lib
	@tests/x86 tests/rust difference

peers: native lib
	@peers/run

fuzz: native lib
	@FUZZ_SECONDS=$(FUZZ_SECONDS) fuzz/run

fmt: kit
	@for crate in crates/*/; do (cd "$$crate" && rt fmt) || exit; done

bench: native lib
	@bench/run

vectors:
	@python3 -B vectors/all_cases.py crates/vectors

# Builds nothing, so that it can be run by another user than the one who built. Each call has a page that leads to the
# library's. The pictures stand where README's links look for them.
install:
	@test -f $(LIST) || { echo "missing: $(LIST); run make list" >&2; exit 1; }
	@test -f $(WHY) || { echo "missing: $(WHY); run make why" >&2; exit 1; }
	@test -f $(FEATURES) || { echo "missing: $(FEATURES); run make features" >&2; exit 1; }
	@test -f $(LIB) || { echo "missing: $(LIB); run make lib" >&2; exit 1; }
	@test -f $(CHECKER) || { echo "missing: $(CHECKER); run make checker" >&2; exit 1; }
	install -d "$(TO)/bin" "$(TO)/include" "$(TO)/lib/pkgconfig" "$(MAN)/man1" "$(MAN)/man3"
	install -d "$(DOC)/docs" "$(DOC)/examples"
	install -m 755 $(LIST) "$(TO)/bin/fenderrope-list"
	install -m 755 $(WHY) "$(TO)/bin/fenderrope-why"
	install -m 755 $(FEATURES) "$(TO)/bin/fenderrope-features"
	install -m 755 $(CHECKER) "$(TO)/bin/fenderrope-check"
	install -m 644 include/fenderrope.h "$(TO)/include/fenderrope.h"
	install -m 644 $(LIB) "$(TO)/lib/libfenderrope.a"
	sed -e 's|@PREFIX@|$(PREFIX)|' -e 's|@VERSION@|$(VERSION)|' fenderrope.pc.in >"$(TO)/lib/pkgconfig/fenderrope.pc"
	chmod 644 "$(TO)/lib/pkgconfig/fenderrope.pc"
	install -m 644 man/*.1 "$(MAN)/man1"
	install -m 644 man/fenderrope.3 "$(MAN)/man3"
	for call in $(CALLS); do echo '.so man3/fenderrope.3' >"$(MAN)/man3/$$call.3" || exit; done
	chmod 644 $(CALLS:%="$(MAN)/man3/%.3")
	install -m 644 README.md docs/*.md "$(DOC)"
	install -m 644 docs/*.svg "$(DOC)/docs"
	install -m 644 examples/*.c examples/seal-* "$(DOC)/examples"

uninstall:
	rm -f "$(TO)/bin/fenderrope-list" "$(TO)/bin/fenderrope-why" "$(TO)/bin/fenderrope-features"
	rm -f "$(TO)/bin/fenderrope-check"
	rm -f "$(TO)/include/fenderrope.h" "$(TO)/lib/libfenderrope.a" "$(TO)/lib/pkgconfig/fenderrope.pc"
	rm -f "$(MAN)/man1/fenderrope-list.1" "$(MAN)/man1/fenderrope-why.1" "$(MAN)/man1/fenderrope-features.1"
	rm -f "$(MAN)/man1/fenderrope-check.1"
	rm -f "$(MAN)/man3/fenderrope.3"
	rm -f $(CALLS:%="$(MAN)/man3/%.3")
	rm -rf "$(DOC)"

clean:
	@rm -rf target crates/*/out

kit:
	@test -n "$(RT)" || \
		{ echo "missing: rt, the command of the Rattle kit; put the kit's bin folder on the PATH" >&2; exit 1; }
	@rt version | cmp -s - kit.txt || \
		echo "warning: the kit is '$$(rt version)', and this was proved with '$$(cat kit.txt)' (kit.txt)" >&2

native:
	@test "$$(uname -m)" = x86_64 || \
		{ echo "make peers, make fuzz and make bench need an x86-64 machine; this one is $$(uname -m)" >&2; exit 1; }
