# Builds, installs and tests the library and the command `sidluqethe`. GNU make.
#
#   make                            prove and build the library, then build the command: rust/target/release/sidluqethe
#   make install PREFIX=/usr/local  install both, with the header, the pkg-config file and the manual page (DESTDIR= goes in front;
#                                   BINDIR=, LIBDIR=, INCLUDEDIR= and MANDIR= are whole paths in the place of PREFIX/bin, /lib,
#                                   /include and /share/man)
#   make uninstall PREFIX=...       remove what install wrote; takes the same variables
#   make check                      the whole gate, .ci/run
#   make clean                      remove what was built, the proofs too
#
# ARCHIVE=DIR/libsidluqethe.a takes an archive that is already built, and proves nothing.

PREFIX = /usr/local
DESTDIR =
ARCHIVE =
CARGO = cargo
INSTALL = install

prefix := $(abspath $(PREFIX))
BINDIR = $(prefix)/bin
LIBDIR = $(prefix)/lib
INCLUDEDIR = $(prefix)/include
MANDIR = $(prefix)/share/man

part = $(shell sed -n 's/^.define SIDLUQETHE_VERSION_$(1) //p' include/sidluqethe.h)
interface := $(call part,MAJOR).$(call part,MINOR)
version := $(interface).$(call part,PATCH)

archive := $(or $(ARCHIVE),target/staticlib/libsidluqethe.a)
shared := target/libsidluqethe.so.$(version)
command := rust/target/release/sidluqethe
manual := $(wildcard docs/sidluqethe.1)

all: $(archive) $(shared) $(command)
	@echo "built: $(command), $(archive), $(shared)"

ifeq ($(ARCHIVE),)
$(archive): crates.txt $(shell find crates -name out -prune -o \( -name '*.rt' -o -name '*.antt' \) -print)
	tools/archive
else ifneq ($(notdir $(ARCHIVE)),libsidluqethe.a)
$(error ARCHIVE names a file libsidluqethe.a)
endif

# Which archive the rest was built from: written anew only where that changes.
target/archive-used: FORCE
	@mkdir -p $(@D)
	@echo $(archive) | cmp -s - $@ || echo $(archive) >$@

$(shared): $(archive) target/archive-used packaging/sidluqethe.map Makefile
	$(CC) $(LDFLAGS) -shared -Wl,-soname,libsidluqethe.so.$(interface) -Wl,--version-script=packaging/sidluqethe.map \
	    -Wl,-z,defs -Wl,-z,text -Wl,-z,relro -Wl,-z,now -o $@ -Wl,--whole-archive $(archive) -Wl,--no-whole-archive

$(command): $(archive) target/archive-used $(wildcard rust/Cargo.* rust/*.rs) $(shell find rust/src -type f)
	folder=$$(cd $(dir $(archive)) && pwd) && cd rust && \
	    SIDLUQETHE_LIB_DIR="$$folder" CARGO_TARGET_DIR=target $(CARGO) build --release --offline
	touch -c $@

install: all
	$(INSTALL) -d $(addprefix $(DESTDIR),$(BINDIR) $(LIBDIR)/pkgconfig $(INCLUDEDIR) $(if $(manual),$(MANDIR)/man1))
	$(INSTALL) -m 755 $(command) $(DESTDIR)$(BINDIR)/sidluqethe
	$(INSTALL) -m 644 include/sidluqethe.h $(DESTDIR)$(INCLUDEDIR)/sidluqethe.h
	$(INSTALL) -m 644 $(archive) $(DESTDIR)$(LIBDIR)/libsidluqethe.a
	$(INSTALL) -m 755 $(shared) $(DESTDIR)$(LIBDIR)/libsidluqethe.so.$(version)
	ln -sf libsidluqethe.so.$(version) $(DESTDIR)$(LIBDIR)/libsidluqethe.so.$(interface)
	ln -sf libsidluqethe.so.$(interface) $(DESTDIR)$(LIBDIR)/libsidluqethe.so
	sed -e 's|@PREFIX@|$(prefix)|' -e 's|@LIBDIR@|$(LIBDIR)|' -e 's|@INCLUDEDIR@|$(INCLUDEDIR)|' -e 's|@VERSION@|$(version)|' \
	    packaging/sidluqethe.pc.in >$(DESTDIR)$(LIBDIR)/pkgconfig/sidluqethe.pc
	chmod 644 $(DESTDIR)$(LIBDIR)/pkgconfig/sidluqethe.pc
	$(if $(manual),$(INSTALL) -m 644 $(manual) $(DESTDIR)$(MANDIR)/man1/sidluqethe.1)

libraries = libsidluqethe.a libsidluqethe.so libsidluqethe.so.$(interface) libsidluqethe.so.$(version) pkgconfig/sidluqethe.pc
uninstall:
	rm -f $(addprefix $(DESTDIR)$(LIBDIR)/,$(libraries)) $(DESTDIR)$(BINDIR)/sidluqethe $(DESTDIR)$(INCLUDEDIR)/sidluqethe.h \
	    $(DESTDIR)$(MANDIR)/man1/sidluqethe.1

check:
	.ci/run

clean:
	rm -rf target rust/target crates/*/out

FORCE:
.PHONY: all install uninstall check clean FORCE
