# The library for C and Rust hosts on x86-64 Linux. `make` proves and builds it and needs the Rattle
# toolchain; `make install` needs it only where a source has changed since (c/library looks), and never
# installs an archive of other sources. `make check` builds and runs the C programs as well.
.POSIX:

PREFIX = /usr/local
LIBDIR = $(PREFIX)/lib
INCLUDEDIR = $(PREFIX)/include

ARCHIVE = target/staticlib/libhart.a
INSTALLED_ARCHIVE = $(DESTDIR)$(LIBDIR)/libhart.a
INSTALLED_HEADER = $(DESTDIR)$(INCLUDEDIR)/hart.h
INSTALLED_FLAGS = $(DESTDIR)$(LIBDIR)/pkgconfig/hart.pc

all:
	c/library

check:
	c/run

# POSIX make has no way to name all files of some folders, so the sources are no prerequisites in its eyes.
$(ARCHIVE): sources
	c/library --if-changed

sources:

install: $(ARCHIVE)
	mkdir -p "$(DESTDIR)$(LIBDIR)/pkgconfig" "$(DESTDIR)$(INCLUDEDIR)"
	install -m 644 $(ARCHIVE) "$(INSTALLED_ARCHIVE)"
	install -m 644 include/hart.h "$(INSTALLED_HEADER)"
	printf '%s\n' 'prefix=$(PREFIX)' 'libdir=$(LIBDIR)' 'includedir=$(INCLUDEDIR)' | \
		cat - c/hart.pc.in >"$(INSTALLED_FLAGS)"
	chmod 644 "$(INSTALLED_FLAGS)"

uninstall:
	rm -f "$(INSTALLED_ARCHIVE)" "$(INSTALLED_HEADER)" "$(INSTALLED_FLAGS)"

.PHONY: all check install sources uninstall
