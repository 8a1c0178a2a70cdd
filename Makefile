# Builds, installs and tests the library.
#
#   make                                target/lib: libtavitrozy.a, libtavitrozy.so.0.7.0 with its links, tavitrozy.pc
#   make install PREFIX=.. [DESTDIR=..] header, libraries, pkg-config file, licence and documents
#   make uninstall PREFIX=.. [DESTDIR=..]
#   make examples                       target/examples: the C and C++ programs of examples/
#   make test                           builds programs against an installed tree and runs them
#
# The first build proves the library (needs rt, the Rattle toolchain). With TAVITROZY_ARCHIVE=path that archive is taken instead.

VERSION = 0.7.0
# Before 1.0 a minor version may change a struct, so a program loads its own alone.
SOVERSION = $(basename $(VERSION))
PREFIX ?= /usr/local
LIBDIR ?= $(PREFIX)/lib
INCLUDEDIR ?= $(PREFIX)/include
DOCDIR ?= $(PREFIX)/share/doc/tavitrozy
CC ?= cc
CXX ?= c++
CFLAGS ?= -O2
CXXFLAGS ?= -O2
INSTALL ?= install

SHELL = /bin/bash
.SHELLFLAGS = -eu -o pipefail -c
.DELETE_ON_ERROR:
.SUFFIXES:
.PHONY: all examples install uninstall test clean force

lib = target/lib
static = $(lib)/libtavitrozy.a
shared = $(lib)/libtavitrozy.so.$(VERSION)
soname = libtavitrozy.so.$(SOVERSION)
links = $(lib)/$(soname) $(lib)/libtavitrozy.so

all: $(static) $(shared) $(links) $(lib)/tavitrozy.pc

# ---- the archive: proved here, or handed over

ifdef TAVITROZY_ARCHIVE
archive = $(TAVITROZY_ARCHIVE)
else
archive = target/staticlib/libtavitrozy.a
proved = $(shell find crates \( -path crates/cases -o -name out \) -prune -o \( -path '*/src/*' -o -path '*/specs/*' -o -path '*/proofs/*' \) -type f -print)

$(archive): crates.txt $(proved)
	@packaging/prove && touch $@
endif

# Copied only where it differs, so that nothing is linked again for nothing.
$(static): $(archive) force
	@mkdir -p $(lib)
	@cmp -s $< $@ || { cp $< $@ && echo "$@"; }

# ---- what is made of it

$(shared): $(static) packaging/tavitrozy.map Makefile
	@$(CC) -shared -o $@ -Wl,-soname,$(soname) -Wl,--version-script=packaging/tavitrozy.map -Wl,-z,defs -Wl,-z,relro -Wl,-z,now -Wl,-z,noexecstack \
	  -Wl,--whole-archive $(static) -Wl,--no-whole-archive $(LDFLAGS)
	@echo "$@"

$(links): $(shared)
	@ln -sf $(notdir $(shared)) $@

# A folder under the prefix is written by it.
from_prefix = $(patsubst $(abspath $(PREFIX))/%,$${prefix}/%,$(abspath $(1)))
filled_in = sed -e 's|@PREFIX@|$(abspath $(PREFIX))|' -e 's|@LIBDIR@|$(call from_prefix,$(LIBDIR))|' -e 's|@INCLUDEDIR@|$(call from_prefix,$(INCLUDEDIR))|' \
  -e 's|@VERSION@|$(VERSION)|' packaging/tavitrozy.pc.in

$(lib)/tavitrozy.pc: packaging/tavitrozy.pc.in Makefile
	@mkdir -p $(lib)
	@$(filled_in) >$@

# ---- examples

programs = $(addprefix target/examples/,sheet_c sheet_cpp preview_c hinge_c figure)
warnings = -Wall -Wextra -pedantic -Wconversion

examples: all $(programs)

target/examples/sheet_c: examples/sheet.c
target/examples/preview_c: examples/preview.c
target/examples/hinge_c: examples/hinge.c
target/examples/figure: examples/figure.c
target/examples/sheet_cpp: examples/sheet.cpp
$(programs): $(static) include/tavitrozy.h
	@mkdir -p target/examples
	@$(if $(filter %.cpp,$^),$(CXX) -std=c++17 $(CXXFLAGS),$(CC) -std=c11 $(CFLAGS)) $(warnings) -Iinclude $(filter examples/%,$^) $(static) -lm -o $@
	@echo "$@"

# ---- where it goes

to = $(DESTDIR)$(abspath $(1))
documents = LICENSE NOTICE $(wildcard docs/VALUE-CLIPS.md docs/READING-A-TRACK.md docs/*.svg)

install: all
	@$(INSTALL) -d $(call to,$(INCLUDEDIR)) $(call to,$(LIBDIR))/pkgconfig $(call to,$(DOCDIR))
	@$(INSTALL) -m 644 include/tavitrozy.h $(call to,$(INCLUDEDIR))
	@$(INSTALL) -m 644 $(static) $(call to,$(LIBDIR))
	@$(INSTALL) -m 755 $(shared) $(call to,$(LIBDIR))
	@ln -sf $(notdir $(shared)) $(call to,$(LIBDIR))/$(soname)
	@ln -sf $(notdir $(shared)) $(call to,$(LIBDIR))/libtavitrozy.so
	@$(filled_in) >$(call to,$(LIBDIR))/pkgconfig/tavitrozy.pc
	@$(INSTALL) -m 644 $(documents) $(call to,$(DOCDIR))
	@echo "installed under $(DESTDIR)$(abspath $(PREFIX))"

uninstall:
	@rm -f $(call to,$(INCLUDEDIR))/tavitrozy.h $(call to,$(LIBDIR))/libtavitrozy.a $(call to,$(LIBDIR))/pkgconfig/tavitrozy.pc
	@rm -f $(addprefix $(call to,$(LIBDIR))/,$(notdir $(shared) $(links)))
	@rm -f $(addprefix $(call to,$(DOCDIR))/,$(notdir $(documents)))
	@rmdir $(call to,$(DOCDIR)) 2>/dev/null || true

# ---- tests

test: all
	@tests/run

# The proofs and the archive stay: they take minutes.
clean:
	rm -rf $(lib) target/installed-test target/tests target/examples
