# Installs gixcfg and the library for C by GNU's names of targets and directories. It asks for no kit: an archive of a release has this file as
# its Makefile.
#
#     make install [PREFIX=/usr/local] [DESTDIR=DIRECTORY]        the program
#     make install-lib [PREFIX=/usr/local] [DESTDIR=DIRECTORY]    the library, in an archive for x86_64
#     make uninstall [PREFIX=..] [DESTDIR=..]                  both; with what they were given
#
# The program is not stripped, unless by install-strip: as it was linked, its sum is the one in dist/SHA256SUMS, by which anybody can
# tell of which sources it is, and a strip takes only a few hundredths off it.

PROGRAM = gixcfg
LIBRARY = lib

PREFIX ?= /usr/local
prefix = $(PREFIX)
exec_prefix = $(prefix)
bindir = $(exec_prefix)/bin
libdir = $(exec_prefix)/lib
pkgconfigdir = $(libdir)/pkgconfig
includedir = $(prefix)/include
datarootdir = $(prefix)/share
datadir = $(datarootdir)
mandir = $(datarootdir)/man
man1dir = $(mandir)/man1
man3dir = $(mandir)/man3
docdir = $(datarootdir)/doc/gixcfg
libdocdir = $(datarootdir)/doc/libgix_config
hostdir = $(datadir)/gix_config
bashcompletiondir = $(datadir)/bash-completion/completions
zshcompletiondir = $(datadir)/zsh/site-functions
fishcompletiondir = $(datadir)/fish/vendor_completions.d

INSTALL = install
INSTALL_PROGRAM = $(INSTALL)
INSTALL_DATA = $(INSTALL) -m 644

licences = LICENSE-MIT LICENSE-APACHE dist/copyright

# The shared library by its soname, which programs ask for as they start, and by the name that they are linked with.
soname = libgix_config.so.0
linkname = libgix_config.so
archives = libgix_config.a libgix_config_c.a

# What a program compiles as a part of it.
host = gix_config_disk.h gix_config_disk.c

.PHONY: all lib install install-strip install-lib uninstall

all:

lib:

# (with quotes, since a directory's name may have spaces)
install: all
	$(INSTALL) -d "$(DESTDIR)$(bindir)" "$(DESTDIR)$(man1dir)" "$(DESTDIR)$(docdir)" "$(DESTDIR)$(bashcompletiondir)" \
		"$(DESTDIR)$(zshcompletiondir)" "$(DESTDIR)$(fishcompletiondir)"
	$(INSTALL_PROGRAM) "$(PROGRAM)" "$(DESTDIR)$(bindir)/gixcfg"
	$(INSTALL_DATA) docs/gixcfg.1 "$(DESTDIR)$(man1dir)/gixcfg.1"
	$(INSTALL_DATA) completions/gixcfg.bash "$(DESTDIR)$(bashcompletiondir)/gixcfg"
	$(INSTALL_DATA) completions/_gixcfg "$(DESTDIR)$(zshcompletiondir)/_gixcfg"
	$(INSTALL_DATA) completions/gixcfg.fish "$(DESTDIR)$(fishcompletiondir)/gixcfg.fish"
	$(INSTALL_DATA) $(licences) "$(DESTDIR)$(docdir)"

install-strip:
	$(MAKE) INSTALL_PROGRAM="$(INSTALL_PROGRAM) -s" install

# (with quotes in the file for pkg-config, too)
install-lib: lib
	$(INSTALL) -d "$(DESTDIR)$(includedir)" "$(DESTDIR)$(pkgconfigdir)" "$(DESTDIR)$(man3dir)" "$(DESTDIR)$(libdocdir)" \
		"$(DESTDIR)$(hostdir)"
	$(INSTALL_DATA) "$(LIBRARY)/gix_config.h" "$(DESTDIR)$(includedir)/gix_config.h"
	$(INSTALL_DATA) "$(LIBRARY)/$(soname)" "$(DESTDIR)$(libdir)/$(soname)"
	ln -sf $(soname) "$(DESTDIR)$(libdir)/$(linkname)"
	for file in $(archives); do $(INSTALL_DATA) "$(LIBRARY)/$$file" "$(DESTDIR)$(libdir)/$$file" || exit; done
	for file in $(host); do $(INSTALL_DATA) "$(LIBRARY)/$$file" "$(DESTDIR)$(hostdir)/$$file" || exit; done
	$(INSTALL_DATA) "$(LIBRARY)/gix_config.pc" "$(DESTDIR)$(pkgconfigdir)/gix_config.pc"
	sed -i -e 's|^prefix=.*|prefix=$(prefix)\nexec_prefix=$(exec_prefix)\nlibdir=$(libdir)\nincludedir=$(includedir)|' \
		-e 's|-I$${prefix}|-I"$${includedir}"|' -e 's|-L$${prefix}|-L"$${libdir}"|' "$(DESTDIR)$(pkgconfigdir)/gix_config.pc"
	$(INSTALL_DATA) "$(LIBRARY)/gix_config.3" "$(DESTDIR)$(man3dir)/gix_config.3"
	$(INSTALL_DATA) $(licences) "$(DESTDIR)$(libdocdir)"

# Of the directories only those that are gixcfg's and the library's alone are removed: others may have stood there before.
uninstall:
	rm -f "$(DESTDIR)$(bindir)/gixcfg" "$(DESTDIR)$(man1dir)/gixcfg.1" "$(DESTDIR)$(bashcompletiondir)/gixcfg" \
		"$(DESTDIR)$(zshcompletiondir)/_gixcfg" "$(DESTDIR)$(fishcompletiondir)/gixcfg.fish"
	rm -f "$(DESTDIR)$(includedir)/gix_config.h" "$(DESTDIR)$(pkgconfigdir)/gix_config.pc" "$(DESTDIR)$(man3dir)/gix_config.3"
	for file in $(soname) $(linkname) $(archives); do rm -f "$(DESTDIR)$(libdir)/$$file"; done
	for directory in "$(DESTDIR)$(docdir)" "$(DESTDIR)$(libdocdir)" "$(DESTDIR)$(hostdir)"; do \
		for file in $(notdir $(licences)) $(host); do rm -f "$$directory/$$file"; done; \
		[ ! -d "$$directory" ] || rmdir "$$directory" 2>/dev/null || true; \
	done
