# Builds and installs what others link or run:
#
#     make                              the proved library, the hub for C, the rail's program
#     make install PREFIX=/usr/local    headers, archives, pkg-config files and the program; DESTDIR goes before PREFIX
#
# Whatever is missing on this machine is named, with the command that installs it. The library is made for this machine.

PREFIX = /usr/local
DESTDIR =
version := $(shell sed -nE 's/^version = "(.*)"$$/\1/p' host/Cargo.toml)
built = $${CARGO_TARGET_DIR:-$(1)}/release

SHELL = /bin/bash

.PHONY: all install

all:
	./rail --build
	. host/toolchain && cargo build --release --quiet --manifest-path host/c/Cargo.toml

install: all
	install -d "$(DESTDIR)$(PREFIX)/include" "$(DESTDIR)$(PREFIX)/lib/pkgconfig" "$(DESTDIR)$(PREFIX)/bin"
	install -m 644 include/oilwhisper.h include/oilwhisper_host.h "$(DESTDIR)$(PREFIX)/include"
	install -m 644 target/staticlib/liboilwhisper.a "$(DESTDIR)$(PREFIX)/lib"
	install -m 644 "$(call built,host/c/target)/liboilwhisper_host.a" "$(DESTDIR)$(PREFIX)/lib"
	install -m 755 "$(call built,host/target)/rail" "$(DESTDIR)$(PREFIX)/bin"
	for name in oilwhisper oilwhisper_host; do \
	  sed 's|@PREFIX@|$(PREFIX)|; s|@VERSION@|$(version)|' host/c/$$name.pc.in >"$(DESTDIR)$(PREFIX)/lib/pkgconfig/$$name.pc" || exit; \
	done
