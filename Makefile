# The C library's way into a system: header, archive and pkg-config file.
#   make install PREFIX=/usr/local DESTDIR=
#   make uninstall PREFIX=/usr/local DESTDIR=
# Without the archive, or with one that is older than the sources, tools/prove proves the library and makes it. INCLUDEDIR, LIBDIR and PKGCONFIGDIR
# may be set too; those below PREFIX stand in the pkg-config file as ${prefix}/.., so that it can be used from another prefix.

PREFIX ?= /usr/local
INCLUDEDIR ?= $(PREFIX)/include
LIBDIR ?= $(PREFIX)/lib
PKGCONFIGDIR ?= $(LIBDIR)/pkgconfig
# The header says it. The dot stands for the number sign, with which a comment would begin here.
VERSION := $(shell sed -n 's/^.define GUFHRANDI_VERSION "\(.*\)"$$/\1/p' include/gufhrandi.h)

ARCHIVE = target/staticlib/libgufhrandi.a

all: $(ARCHIVE)

$(ARCHIVE): crates.txt $(shell find crates -path 'crates/*/out' -prune -o -type f -print)
	tools/prove gufhrandi_c

install: $(ARCHIVE)
	install -d "$(DESTDIR)$(INCLUDEDIR)" "$(DESTDIR)$(LIBDIR)" "$(DESTDIR)$(PKGCONFIGDIR)"
	install -m 644 include/gufhrandi.h "$(DESTDIR)$(INCLUDEDIR)/gufhrandi.h"
	install -m 644 $(ARCHIVE) "$(DESTDIR)$(LIBDIR)/libgufhrandi.a"
	by_prefix() { case "$$1" in "$(PREFIX)"/*) echo "\$${prefix}$${1#"$(PREFIX)"}" ;; *) echo "$$1" ;; esac; }; \
	sed -e "s|@PREFIX@|$(PREFIX)|" -e "s|@VERSION@|$(VERSION)|" -e "s|@INCLUDEDIR@|$$(by_prefix "$(INCLUDEDIR)")|" \
	    -e "s|@LIBDIR@|$$(by_prefix "$(LIBDIR)")|" gufhrandi.pc.in >"$(DESTDIR)$(PKGCONFIGDIR)/gufhrandi.pc"
	chmod 644 "$(DESTDIR)$(PKGCONFIGDIR)/gufhrandi.pc"

uninstall:
	rm -f "$(DESTDIR)$(INCLUDEDIR)/gufhrandi.h" "$(DESTDIR)$(LIBDIR)/libgufhrandi.a" \
	    "$(DESTDIR)$(PKGCONFIGDIR)/gufhrandi.pc"

.PHONY: all install uninstall
