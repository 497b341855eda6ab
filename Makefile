.PHONY: help demo test prove edits archives tool stub boot boot-grub bench install uninstall deb clean distclean

# CC, CPPFLAGS, CFLAGS, LDFLAGS and LDLIBS are the user's; they come behind the flags that the tool needs.
CFLAGS ?= -O2
# Where 'make install' puts things, below DESTDIR.
PREFIX = /usr/local
BINDIR = $(PREFIX)/bin
INCLUDEDIR = $(PREFIX)/include
LIBDIR = $(PREFIX)/lib
PKGCONFIGDIR = $(LIBDIR)/pkgconfig
MANDIR = $(PREFIX)/share/man
COMPLETIONDIR = $(PREFIX)/share/bash-completion/completions
VERSION = $(shell sed -n 's/^.define RUNNELPIN_VERSION "\(.*\)"$$/\1/p' include/runnelpin.h)

help: ## print this
	@sed -n 's/^\([a-z-]*\):.*## /make \1: /p' Makefile

demo: ## the main job step by step, from the build to a refused image
	@tools/demo

test: ## all proofs, the gate's must-fail edits, Rust tests, comparisons; ends in 'N passed, M failed'
	@tools/test

prove: ## prove what has changed since it was last proved, and run the Rattle programs
	@rt all test

edits: ## every edit that makes the code wrong, the gate's and edits/; SINCE=REVISION: of the crates changed since
	@SINCE='$(SINCE)' tools/edits $(EDITS)

archives: build/librunnelpin.a ## build/libNAME.a of each crate that exports calls, for C or Rust to link

# One run makes them all. A folder is newer when a file in it came or went; crates/NAME is, whenever rt makes its out/.
build/librunnelpin.a: crates.txt $(shell find crates/*/src crates/*/specs crates/*/proofs)
	@tools/archives

tool: build/runnelpin ## build/runnelpin, the command-line tool; 'man ./docs/runnelpin.1' is its manual

TOOL_PARTS = build/librunnelpin.a include/runnelpin.h $(wildcard tool/*.[ch] common/*.[ch])
TOOL = $(CC) -std=c99 -pthread -Wall -Wextra -Werror -Iinclude -Icommon $(CPPFLAGS) $(CFLAGS) $(WATCH) -o $@ \
    $(filter %.c, $(TOOL_PARTS)) $(LDFLAGS) build/librunnelpin.a $(LDLIBS)

build/runnelpin: $(TOOL_PARTS)
	@$(TOOL)

# The same with other flags, in a file of its own: the tests' is ended by an address or an overflow that C leaves
# undefined.
build/runnelpin-%: $(TOOL_PARTS)
	@$(TOOL)

build/runnelpin-watched: WATCH = -O1 -g -fsanitize=address,undefined -fno-sanitize-recover=all

# One list of files serves both.
install uninstall:
	@VERSION='$(VERSION)' DESTDIR='$(DESTDIR)' PREFIX='$(PREFIX)' BINDIR='$(BINDIR)' INCLUDEDIR='$(INCLUDEDIR)' \
	    LIBDIR='$(LIBDIR)' PKGCONFIGDIR='$(PKGCONFIGDIR)' MANDIR='$(MANDIR)' COMPLETIONDIR='$(COMPLETIONDIR)' \
	    tools/install $@

install: tool ## tool, header, archive and manuals, into PREFIX (/usr/local) below DESTDIR
uninstall: ## remove what install has put there, given the same PREFIX and DESTDIR

deb: tool ## build/runnelpin_VERSION_amd64.deb, a Debian package
	@VERSION='$(VERSION)' tools/package

clean: ## remove build/, but not the proofs in crates/NAME/out/, which take minutes to make again
	@rm -rf build

distclean: clean ## remove the proofs too
	@rm -rf crates/*/out

stub: tool ## the example boot stub, built and run, and the stack that each call needs
	@tools/stub && tools/stack

boot: tool ## a machine in an emulator, booted by the proved loader; DAMAGED=yes: how it refuses a damaged image
	@DAMAGED='$(DAMAGED)' tools/boot

boot-grub: tool ## the same from an ISO with GRUB
	@DAMAGED='$(DAMAGED)' tools/boot grub

# An older archive is one whose calls have the same parameters, with its libprobe.a beside it.
bench: archives ## the library's speed against plain Rust, and OpenSSL if there; OLD=FOLDER/librunnelpin.a: against that
	@cd tests && OLD='$(abspath $(OLD))' cargo run --quiet --release -p compare $(if $(OLD),--features old) --bin bench
