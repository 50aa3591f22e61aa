# The commands of README.md under the usual names. `rt` proves what it builds, and does nothing again that has not changed.
#   make                    the program target/bin/supertab and the library target/staticlib/libsupertab_c.a
#   make test               all proofs, the edits, and all tests
#   make install PREFIX=    program, library, header and manual; DESTDIR is put in front, for packages
PREFIX = /usr/local
DESTDIR =

all:
	tools/build

test:
	bash .ci/run

install: all
	install -d $(DESTDIR)$(PREFIX)/bin $(DESTDIR)$(PREFIX)/lib $(DESTDIR)$(PREFIX)/include $(DESTDIR)$(PREFIX)/share/man/man1
	install -m 755 target/bin/supertab $(DESTDIR)$(PREFIX)/bin/supertab
	install -m 644 target/staticlib/libsupertab_c.a $(DESTDIR)$(PREFIX)/lib/libsupertab_c.a
	install -m 644 include/supertab.h $(DESTDIR)$(PREFIX)/include/supertab.h
	install -m 644 man/supertab.1 $(DESTDIR)$(PREFIX)/share/man/man1/supertab.1

uninstall:
	rm -f $(DESTDIR)$(PREFIX)/bin/supertab $(DESTDIR)$(PREFIX)/lib/libsupertab_c.a
	rm -f $(DESTDIR)$(PREFIX)/include/supertab.h $(DESTDIR)$(PREFIX)/share/man/man1/supertab.1

.PHONY: all test install uninstall
