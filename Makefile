# make install [PREFIX=/usr/local] [DESTDIR=]     puts the program, man page, completions, licence and sums in place
# make uninstall [PREFIX=/usr/local] [DESTDIR=]   takes them away again
# make install-library, make uninstall-library    the same for the header and the library of ./release --library
#
# The program is the one in dist/, or what ./build made where a source was changed; nothing is built here. It lies in
# lib/vrepl/vrepl, and bin/vrepl, a script, starts it with large pages (share/vrepl).
PREFIX = /usr/local
DESTDIR =
LIBDIR = lib
PLACES = bin/vrepl lib/vrepl/vrepl share/man/man1/vrepl.1 share/bash-completion/completions/vrepl share/zsh/site-functions/_vrepl share/doc/vrepl/LICENSE share/doc/vrepl/SOURCES

all:
	@sed -n '/^#/!q; s/^# \{0,1\}//p' Makefile

# Each file is written beside its place and named at last, so that a program that runs isn't written over.
install:
	@set -e; umask 022; program=$$(scripts/program); \
	put() { \
	    place='$(DESTDIR)$(PREFIX)'/$$2; \
	    mkdir -p -- "$${place%/*}"; cp -- "$$1" "$$place.new"; chmod "$$3" -- "$$place.new"; mv -f -- "$$place.new" "$$place"; \
	}; \
	put "$$program" lib/vrepl/vrepl 755; \
	put share/vrepl bin/vrepl 755; \
	for page in $(filter share/man/% share/bash% share/zsh%,$(PLACES)); do put "$$page" "$$page" 644; done; \
	put LICENSE share/doc/vrepl/LICENSE 644; \
	case $$program in dist/*) put dist/SOURCES share/doc/vrepl/SOURCES 644 ;; *) put "$$program.sources" share/doc/vrepl/SOURCES 644 ;; esac; \
	echo "installed $$program as $(DESTDIR)$(PREFIX)/bin/vrepl, with its man page, completions and licence"

uninstall:
	@set -e; for place in $(PLACES); do rm -f -- '$(DESTDIR)$(PREFIX)'/"$$place"; done; \
	for folder in share/doc/vrepl lib/vrepl; do [ ! -d '$(DESTDIR)$(PREFIX)'/"$$folder" ] || rmdir -- '$(DESTDIR)$(PREFIX)'/"$$folder"; done

install-library:
	@set -e; umask 022; \
	[ "$$(cat out/library/SOURCES 2>/dev/null)" = "$$(scripts/sources --library)" ] || { \
	    echo 'there is no library of these sources: ./release --library makes one' >&2; exit 1; \
	}; \
	put() { \
	    place='$(DESTDIR)$(PREFIX)'/$$2; \
	    mkdir -p -- "$${place%/*}"; cp -- "$$1" "$$place.new"; chmod 644 -- "$$place.new"; mv -f -- "$$place.new" "$$place"; \
	}; \
	put include/vrepl.h include/vrepl.h; \
	for name in libvrepl.a libvrepl.so; do put out/library/$$name $(LIBDIR)/$$name; done; \
	echo "installed the library in $(DESTDIR)$(PREFIX)/$(LIBDIR), and its header"

uninstall-library:
	@rm -f -- '$(DESTDIR)$(PREFIX)/include/vrepl.h' '$(DESTDIR)$(PREFIX)/$(LIBDIR)/libvrepl.a' '$(DESTDIR)$(PREFIX)/$(LIBDIR)/libvrepl.so'

.PHONY: all install uninstall install-library uninstall-library
