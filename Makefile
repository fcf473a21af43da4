# Installs the proved library and the command, or packs them for Debian.
#
#   make                        builds all that is installed, into target/install
#   make install PREFIX=/usr    installs it (DESTDIR=FOLDER: below that folder)
#   make uninstall PREFIX=/usr  removes it again
#   make dist                   writes a package for Debian and a command that needs no other file, into target/dist
#
# `tools/archive` writes the archive, and must have run before.

PREFIX ?= /usr/local
DESTDIR ?=
CC ?= cc
CARGO ?= cargo
LIBDIR ?= $(PREFIX)/lib
# Who the package for Debian names.
MAINTAINER ?= Drifthusk <drifthusk@localhost>

VERSION := $(shell sed -n 's/^.define XNB_VERSION "\(.*\)"/\1/p' crates/builder/xnb.h)
# A program that is linked with one library of this number runs with every other.
SONAME := libxnb.so.0
SHARED := libxnb.so.$(VERSION)
ARCHIVE := target/staticlib/libbuilder.a
BUILD := target/install
DIST := target/dist
COMMAND := rust/target/release/asset-builder
# Where the command is built with all that it needs inside it.
HOST := $(shell rustc --print host-tuple 2> /dev/null || rustc -vV | sed -n 's/^host: //p')
ALONE := rust/target/$(HOST)/release/asset-builder
# The architecture as Debian calls it.
ARCH := $(shell dpkg --print-architecture 2> /dev/null)

FILES := $(BUILD)/libxnb.a $(BUILD)/$(SHARED) $(BUILD)/xnb.pc $(BUILD)/asset-builder $(BUILD)/asset-builder.1 \
	$(BUILD)/completions

.PHONY: all install uninstall dist command alone $(BUILD)/xnb.pc
all: $(FILES)

$(ARCHIVE):
	@echo "$(ARCHIVE) is not there: build it with \`tools/archive\`." >&2; exit 1

$(BUILD):
	mkdir -p $@

$(BUILD)/libxnb.a: $(ARCHIVE) | $(BUILD)
	cp $< $@

$(BUILD)/$(SHARED): $(ARCHIVE) | $(BUILD)
	$(CC) -shared -Wl,-soname,$(SONAME) -Wl,--whole-archive $< -Wl,--no-whole-archive -Wl,-z,defs -o $@

# It names PREFIX, which may be another than before.
$(BUILD)/xnb.pc: | $(BUILD)
	printf '%s\n' 'prefix=$(PREFIX)' 'libdir=$(LIBDIR)' 'includedir=$${prefix}/include' '' 'Name: xnb' \
		'Description: A proved loader of XNB files' 'Version: $(VERSION)' 'Libs: -L$${libdir} -lxnb' \
		'Cflags: -I$${includedir}' > $@

command: $(ARCHIVE)
	cd rust && $(CARGO) build --release --offline --package asset-builder

$(BUILD)/asset-builder: command | $(BUILD)
	cp $(COMMAND) $@

$(BUILD)/asset-builder.1: $(BUILD)/asset-builder
	$< man > $@

$(BUILD)/completions: $(BUILD)/asset-builder
	mkdir -p $@
	$< completions bash > $@/asset-builder
	$< completions zsh > $@/_asset-builder
	$< completions fish > $@/asset-builder.fish

install: all
	install -d $(DESTDIR)$(LIBDIR)/pkgconfig $(DESTDIR)$(PREFIX)/include $(DESTDIR)$(PREFIX)/bin \
		$(DESTDIR)$(PREFIX)/share/man/man1 $(DESTDIR)$(PREFIX)/share/doc/xnb \
		$(DESTDIR)$(PREFIX)/share/bash-completion/completions \
		$(DESTDIR)$(PREFIX)/share/zsh/vendor-completions $(DESTDIR)$(PREFIX)/share/fish/vendor_completions.d
	install -m 644 $(BUILD)/libxnb.a $(DESTDIR)$(LIBDIR)
	install -m 755 $(BUILD)/$(SHARED) $(DESTDIR)$(LIBDIR)
	ln -sf $(SHARED) $(DESTDIR)$(LIBDIR)/$(SONAME)
	ln -sf $(SONAME) $(DESTDIR)$(LIBDIR)/libxnb.so
	install -m 644 $(BUILD)/xnb.pc $(DESTDIR)$(LIBDIR)/pkgconfig
	install -m 644 crates/builder/xnb.h $(DESTDIR)$(PREFIX)/include
	install -m 755 $(BUILD)/asset-builder $(DESTDIR)$(PREFIX)/bin
	install -m 644 $(BUILD)/asset-builder.1 $(DESTDIR)$(PREFIX)/share/man/man1
	cat LICENSE-MIT LICENSE-APACHE > $(DESTDIR)$(PREFIX)/share/doc/xnb/copyright
	install -m 644 $(BUILD)/completions/asset-builder $(DESTDIR)$(PREFIX)/share/bash-completion/completions
	install -m 644 $(BUILD)/completions/_asset-builder $(DESTDIR)$(PREFIX)/share/zsh/vendor-completions
	install -m 644 $(BUILD)/completions/asset-builder.fish $(DESTDIR)$(PREFIX)/share/fish/vendor_completions.d

uninstall:
	rm -f $(DESTDIR)$(LIBDIR)/libxnb.a $(DESTDIR)$(LIBDIR)/$(SHARED) $(DESTDIR)$(LIBDIR)/$(SONAME) \
		$(DESTDIR)$(LIBDIR)/libxnb.so $(DESTDIR)$(LIBDIR)/pkgconfig/xnb.pc $(DESTDIR)$(PREFIX)/include/xnb.h \
		$(DESTDIR)$(PREFIX)/bin/asset-builder $(DESTDIR)$(PREFIX)/share/man/man1/asset-builder.1 \
		$(DESTDIR)$(PREFIX)/share/bash-completion/completions/asset-builder \
		$(DESTDIR)$(PREFIX)/share/zsh/vendor-completions/_asset-builder \
		$(DESTDIR)$(PREFIX)/share/fish/vendor_completions.d/asset-builder.fish \
		$(DESTDIR)$(PREFIX)/share/doc/xnb/copyright

# The command with all that it needs inside it.
alone: $(ARCHIVE)
	cd rust && RUSTFLAGS='-C target-feature=+crt-static' $(CARGO) build --release --offline --package asset-builder --target $(HOST)

dist: alone
	$(MAKE) PREFIX=/usr all
	rm -rf $(DIST)
	mkdir -p $(DIST)/tree/DEBIAN
	cp $(ALONE) $(DIST)/asset-builder
	$(MAKE) PREFIX=/usr DESTDIR=$(CURDIR)/$(DIST)/tree install
	install -m 755 $(ALONE) $(DIST)/tree/usr/bin/asset-builder
	printf '%s\n' 'Package: xnb' 'Version: $(VERSION)' 'Architecture: $(ARCH)' 'Section: utils' 'Priority: optional' \
		'Depends: libc6' 'Maintainer: $(MAINTAINER)' \
		'Description: A proved loader of XNB files' \
		' The library libxnb with its C header, and the command asset-builder.' > $(DIST)/tree/DEBIAN/control
	dpkg-deb --root-owner-group --build $(DIST)/tree $(DIST)/xnb_$(VERSION)_$(ARCH).deb
	rm -rf $(DIST)/tree
