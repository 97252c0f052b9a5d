# make             builds all, lists the logins of the example safe, and says how to have talc alone
# make library     proves the library: target/staticlib/libtalcfeather.a
# make talc        builds the program alone
# make install     puts library, header, pkg-config file, program, man pages and what shells need to
#                  complete talc's words into PREFIX
# make uninstall   removes these files from there
# make clean       removes all that was built here
# make test        proves all, tries it as it is linked, and ends with the verdict
# make bench       times the proved code beside other libraries (docs/BENCHMARKS.md)
# make agree       compares the lower layers with libgcrypt and nettle, where they are there
#
# What has not changed since it was built is neither proved nor built again. make test proves what
# no make test on this machine has proved, of the same files, and runs every test. PREFIX is
# /usr/local if not given. DESTDIR goes before every folder; BINDIR, LIBDIR, INCLUDEDIR, MANDIR,
# PKGCONFIGDIR and SHAREDIR can be given by themselves.
#
# All need rt (the Rattle toolchain), cargo, gcc and make, and no network; on a machine that isn't
# x86-64, also what tools/elsewhere says. make test needs pkg-config too.

PREFIX ?= /usr/local
BINDIR ?= $(PREFIX)/bin
LIBDIR ?= $(PREFIX)/lib
INCLUDEDIR ?= $(PREFIX)/include
MANDIR ?= $(PREFIX)/share/man
SHAREDIR ?= $(PREFIX)/share
PKGCONFIGDIR ?= $(LIBDIR)/pkgconfig

LIBRARY := target/staticlib/libtalcfeather.a
PROBE := target/staticlib/libprobe.a
PAGES := target/pages/talc.1 target/pages/talcfeather.3
COMPLETION := target/completion/bash target/completion/zsh target/completion/fish
BASH := $(SHAREDIR)/bash-completion/completions
ZSH := $(SHAREDIR)/zsh/site-functions
FISH := $(SHAREDIR)/fish/vendor_completions.d
PROGRAM := rust/target/release/talc
TALC := $(PROGRAM)
MEASURED := library probe
FOREIGN := :

# The library is for x86-64: another machine runs it under an emulator, and measures what the same
# modules come to when they are compiled for it.
ifneq ($(shell uname -m),x86_64)
ELSEWHERE := ../tools/elsewhere
PROGRAM := rust/target/x86_64-unknown-linux-gnu/release/talc
TALC := qemu-x86_64 $(PROGRAM)
MEASURED := native
FOREIGN := echo "talc and the library are for x86-64: on this machine, qemu-x86_64 runs them."
endif

logins: library talc $(PAGES)
	$(TALC) list examples/floor.psafe3 --passphrase-file examples/floor.passphrase
	@echo
	@echo "talc alone is built by make talc. It needs no other file; to install it:"
	@echo "    install $(PROGRAM) $(BINDIR)"

library: $(LIBRARY)

probe: $(PROBE)

talc: $(PROGRAM)

# What fails leaves nothing that the next make takes for good.
.DELETE_ON_ERROR:

# rt and cargo take all processors by themselves, and of two rts one waits for the other.
.NOTPARALLEL:

# None of make's own rules is used, and to look through them for every file takes half a second.
MAKEFLAGS += --no-builtin-rules

# The program that is built here has the archive that was proved here, and is where it should be.
unexport TALCFEATHER_ARCHIVE CARGO_BUILD_TARGET

# What is changed while it is being proved is older than the archive, and not in it.
.SECONDEXPANSION:
$(LIBRARY) $(PROBE): target/staticlib/lib%.a: $$(call sources,$$*)
	@mkdir -p target && touch target/began
	tools/archive $*
	@changed=$$(find $$(tools/sources $*) -prune -newer target/began) && [ -z "$$changed" ] || \
		{ echo "make again: while it was proved, these changed: $$changed" >&2; exit 1; }

sources = $(shell tools/sources $(1))$(if $(filter-out 0,$(.SHELLSTATUS)),$(error no sources))

# Cargo does not touch a program that it finds as it should be, and make would ask it again.
$(PROGRAM): $(LIBRARY) $(shell find rust/src rust/talc/src) rust/build.rs rust/link.rs \
		rust/Cargo.toml rust/Cargo.lock rust/talc/Cargo.toml
	cd rust && $(ELSEWHERE) cargo build --offline --release --quiet --target-dir target -p talc
	@touch -c $@

target/pages/talc.1: rust/talc/src/help.txt rust/talc/Cargo.toml
target/pages/talcfeather.3: include/talcfeather.h
$(PAGES): tools/man $(wildcard tools/pages/*)
	@mkdir -p $(@D)
	tools/man $(basename $(@F)) >$@

$(COMPLETION): $(PROGRAM)
	@mkdir -p $(@D)
	$(TALC) completion $(@F) >$@

# It has the folders in it, and they may be others each time.
target/talcfeather.pc: always
	@mkdir -p target && rm -f $@
	@tools/pc $(call path,$(PREFIX)) $(call path,$(LIBDIR)) $(call path,$(INCLUDEDIR)) >$@

always:

# A path as one word of the shell, whatever is in it; and one to install to.
path = '$(subst ','\'',$(1))'
to = $(call path,$(DESTDIR)$(1))

install: $(LIBRARY) $(PROGRAM) $(PAGES) $(COMPLETION) target/talcfeather.pc
	install -d $(call to,$(BINDIR)) $(call to,$(LIBDIR)) $(call to,$(INCLUDEDIR)) \
		$(call to,$(PKGCONFIGDIR)) $(call to,$(MANDIR)/man1) $(call to,$(MANDIR)/man3) \
		$(call to,$(BASH)) $(call to,$(ZSH)) $(call to,$(FISH))
	install -m 755 $(PROGRAM) $(call to,$(BINDIR)/talc)
	install -m 644 $(LIBRARY) $(call to,$(LIBDIR)/libtalcfeather.a)
	install -m 644 include/talcfeather.h $(call to,$(INCLUDEDIR)/talcfeather.h)
	install -m 644 target/talcfeather.pc $(call to,$(PKGCONFIGDIR)/talcfeather.pc)
	install -m 644 target/pages/talc.1 $(call to,$(MANDIR)/man1/talc.1)
	install -m 644 target/pages/talcfeather.3 $(call to,$(MANDIR)/man3/talcfeather.3)
	install -m 644 target/completion/bash $(call to,$(BASH)/talc)
	install -m 644 target/completion/zsh $(call to,$(ZSH)/_talc)
	install -m 644 target/completion/fish $(call to,$(FISH)/talc.fish)
	@$(FOREIGN)

uninstall:
	rm -f $(call to,$(BINDIR)/talc) $(call to,$(LIBDIR)/libtalcfeather.a) \
		$(call to,$(INCLUDEDIR)/talcfeather.h) $(call to,$(PKGCONFIGDIR)/talcfeather.pc) \
		$(call to,$(MANDIR)/man1/talc.1) $(call to,$(MANDIR)/man3/talcfeather.3) \
		$(call to,$(BASH)/talc) $(call to,$(ZSH)/_talc) $(call to,$(FISH)/talc.fish)

clean:
	rm -rf target rust/target crates/*/out

test:
	@tools/test

native:
	tools/native talcfeather probe

bench agree: $(MEASURED)
	@$(MAKE) --no-print-directory -C bench $@

.PHONY: logins library probe talc always install uninstall clean test native bench agree
