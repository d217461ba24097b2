# make: the proved program. make lib: the library for C. make check: proofs, edits, tests and programs.
# make install PREFIX=DIR: program, manual page, library, headers and the pkg-config file. make install-lib: the last three.
PREFIX ?= /usr/local
PROGRAM = crates/dwtool/out/dwtool
MANUAL = man/dwtool.1
EXPORTS = crates/dwtool_c/out/libdwtool_c.a
LIBRARY = crates/dwtool_c/out/libdwtool.a
# what the exports call for memory, over malloc, realloc and free
HEAP = $(dir $(shell rt doc))c/liblibc_c.a

# Proves and links the program, and lets it read itself.
all:
	cd crates/dwtool && rt run -- units out/dwtool

# Proves the exports, and makes one archive of them and of what they call for memory.
lib:
	cd crates/dwtool_c && rt lib
	rm -f $(LIBRARY)
	printf 'create %s\naddlib %s\naddlib %s\nsave\nend\n' $(LIBRARY) $(EXPORTS) $(HEAP) | ar -M

check:
	bash .ci/run

install: all install-lib
	install -D $(PROGRAM) $(DESTDIR)$(PREFIX)/bin/dwtool
	install -D -m 644 $(MANUAL) $(DESTDIR)$(PREFIX)/share/man/man1/dwtool.1

install-lib: lib
	install -D -m 644 $(LIBRARY) $(DESTDIR)$(PREFIX)/lib/libdwtool.a
	install -D -m 644 include/dwtool.h $(DESTDIR)$(PREFIX)/include/dwtool.h
	install -D -m 644 include/dwtool_file.h $(DESTDIR)$(PREFIX)/include/dwtool_file.h
	mkdir -p $(DESTDIR)$(PREFIX)/lib/pkgconfig
	sed 's|@PREFIX@|$(PREFIX)|' include/dwtool.pc.in > $(DESTDIR)$(PREFIX)/lib/pkgconfig/dwtool.pc

.PHONY: all lib check install install-lib
