# GNU's targets over the project's own commands; `make help` lists them. dist/install.mk has those that install.

.PHONY: build check prove docs dist clean help
.DEFAULT_GOAL = all

include dist/install.mk

PROGRAM = crates/gixcfg/out/gixcfg
LIBRARY = out/lib

all: build

# (the launcher sees for itself whether the program is there and newer than its sources)
build:
	./gixcfg --build

check:
	./test

prove:
	./prove

# (the library for C, proved as the program is, unless it is there and newer than its sources: docs/c.md)
lib:
	tools/c_library

# (the references of calls, of sources alone: nothing is built; out/docs/index.html leads to each)
docs:
	tools/reference

dist: build lib
	tools/dist $(DIST)

# (with the proved libraries, so the next build proves all anew)
clean:
	rm -rf crates/*/out out

help:
	@echo 'make              proves and builds the program ($(PROGRAM))'
	@echo 'make check        the tests of a fresh clone, some minutes: ./test'
	@echo 'make prove        the whole gate: ./prove'
	@echo 'make docs         the references of calls for Rattle, C, Python and Rust, in out/docs, in some 20 seconds'
	@echo 'make lib          proves and builds the library for C, in out/lib, in about 70 minutes, or some twelve minutes after make; docs/c.md'
	@echo 'make install      the program, its manual, completions and licences, below PREFIX (/usr/local) and DESTDIR; builds first'
	@echo 'make install-lib  the library for C, its header, pkg-config file, manual and licences, there too; make lib first, in its time'
	@echo 'make uninstall    removes just what these two put there'
	@echo 'make dist         archives and Debian packages of both, in the directory DIST (outside the repository); docs/releases.md'
	@echo 'make clean        removes what was built'
