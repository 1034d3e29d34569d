# Installs what `.ci/run` has built: the program accrun with its man page and its completion for bash, fish and zsh, the
# library for C, C++ and Rust (docs/C.md), and the library for programs of gcc (docs/GOACC.md).
#
#   make install PREFIX=FOLDER      all three; DESTDIR=ROOT puts them below a root that they are packed from
#   make install-c PREFIX=FOLDER    the library for C, C++ and Rust alone

PREFIX = /usr/local
CC = gcc
ACCRUN = crates/accrun/out/accrun
ARCHIVE = crates/lamwiest_c/out/liblamwiest_c.a
SHARED = goacc/out/liblamwiest_acc.so
SONAME = liblamwiest.so.0
prefix = $(abspath $(PREFIX))
root = $(DESTDIR)$(prefix)
version = $(word 2,$(shell $(ACCRUN) --version))
# That of the library for C, from the number in its header.
c_version = $(shell awk '$$2 == "LW_VERSION" { printf "%d.%d.%d", $$3 / 1000000, $$3 / 1000 % 1000, $$3 % 1000 }' include/lamwiest.h)
fill = sed 's|@PREFIX@|$(prefix)|; s|@VERSION@|$(1)|'

install: install-accrun install-c install-acc

install-accrun: $(ACCRUN)
	install -D $(ACCRUN) $(root)/bin/accrun
	install -d $(root)/share/man/man1
	$(ACCRUN) --help | awk -f share/man.awk >$(root)/share/man/man1/accrun.1
	chmod 644 $(root)/share/man/man1/accrun.1
	install -D -m 644 share/accrun.bash $(root)/share/bash-completion/completions/accrun
	install -D -m 644 share/accrun.fish $(root)/share/fish/vendor_completions.d/accrun.fish
	install -D -m 644 share/accrun.zsh $(root)/share/zsh/site-functions/_accrun

install-c: $(ARCHIVE)
	$(MAKE) -s -C c CC=$(CC)
	install -D -m 644 include/lamwiest.h $(root)/include/lamwiest.h
	install -D -m 644 include/lamwiest.hpp $(root)/include/lamwiest.hpp
	install -D -m 644 c/out/liblamwiest.a $(root)/lib/liblamwiest.a
	install -D c/out/$(SONAME) $(root)/lib/liblamwiest.so.$(c_version)
	ln -sf liblamwiest.so.$(c_version) $(root)/lib/$(SONAME)
	ln -sf $(SONAME) $(root)/lib/liblamwiest.so
	install -d $(root)/lib/pkgconfig $(root)/lib/cmake/lamwiest
	$(call fill,$(c_version)) share/lamwiest.pc >$(root)/lib/pkgconfig/lamwiest.pc
	install -m 644 share/lamwiest-config.cmake $(root)/lib/cmake/lamwiest
	$(call fill,$(c_version)) share/lamwiest-config-version.cmake >$(root)/lib/cmake/lamwiest/lamwiest-config-version.cmake
	chmod 644 $(root)/lib/pkgconfig/lamwiest.pc $(root)/lib/cmake/lamwiest/lamwiest-config-version.cmake
	install -D -m 644 rust/Cargo.toml $(root)/share/lamwiest/rust/Cargo.toml
	install -m 644 rust/build.rs $(root)/share/lamwiest/rust
	install -D -m 644 -t $(root)/share/lamwiest/rust/src rust/src/lib.rs rust/src/raw.rs

install-acc: $(SHARED)
	install -D $(SHARED) $(root)/lib/liblamwiest_acc.so
	install -d $(root)/lib/pkgconfig
	$(call fill,$(version)) share/lamwiest_acc.pc >$(root)/lib/pkgconfig/lamwiest_acc.pc
	chmod 644 $(root)/lib/pkgconfig/lamwiest_acc.pc

$(ACCRUN) $(ARCHIVE) $(SHARED):
	@echo "$@ is not there: .ci/run builds it" >&2 && false

.PHONY: install install-accrun install-c install-acc
