# make            builds the library and the command-line program, and says where they are
# make example    tries the program on an example module
# make listing FILE=..   the listing's line of a file
# make test       the library and the listing against the reference, deliberate faults, the header, the command line and installing;
#                 also make check and make tests. ./test proves everything first
# make install    library, header, pkg-config file, program and manual pages, below PREFIX (/usr/local); LIBDIR (PREFIX/lib) and
#                 DESTDIR, which goes in front of every name, as packagers know them
# make bench      the library's times against the reference's and memcpy's
# make clean      removes what was built, but for the library

.PHONY: all example listing test check tests install bench compilers clean

include names.mk

all:
	$(MAKE) --no-print-directory -C cli
	@echo 'the library: target/staticlib/libfiddlemarsh.a, with include/fiddlemarsh.h'
	@echo 'the command-line program: cli/build/fiddlemarsh'

example: all
	$(MAKE) --no-print-directory -C cli example

listing:
	@[ -n "$$FILE" ] || { echo 'which file? make listing FILE=song.xm' >&2; exit 2; }
	@$(MAKE) --silent -C cli listing-program </dev/null
	@$(MAKE) --silent -C cli listing <"$$FILE"

test check tests:
	$(MAKE) --no-print-directory -C tests test

# Where things go, for the shell to read.
BASE = "$$DESTDIR$$PREFIX"
LIB = "$${LIBDIR:-$$PREFIX/lib}"

install: all
	install -d $(BASE)/bin $(BASE)/include $(BASE)/share/man/man1 $(BASE)/share/man/man3 "$$DESTDIR"$(LIB)/pkgconfig
	install -m 644 include/fiddlemarsh.h $(BASE)/include
	install -m 644 target/staticlib/libfiddlemarsh.a "$$DESTDIR"$(LIB)
	install -m 755 cli/build/fiddlemarsh $(BASE)/bin
	install -m 644 man/fiddlemarsh.1 $(BASE)/share/man/man1
	install -m 644 man/fiddlemarsh.3 $(BASE)/share/man/man3
	{ printf 'prefix=%s\nlibdir=%s\nincludedir=$${prefix}/include\n\n' "$$PREFIX" $(LIB) && \
		printf 'Name: fiddlemarsh\nDescription: checks, unpacks, packs, presses and converts FastTracker II modules\n' && \
		sed -n 's/^#define FIDDLEMARSH_VERSION "\(.*\)"$$/Version: \1/p' include/fiddlemarsh.h && \
		printf 'Cflags: -I"$${includedir}"\nLibs: -L"$${libdir}" -lfiddlemarsh\n'; } >"$$DESTDIR"$(LIB)/pkgconfig/fiddlemarsh.pc

bench:
	$(MAKE) --no-print-directory -C bench run

compilers:
	$(MAKE) --no-print-directory -C cli compilers

clean:
	rm -rf cli/build tests/build bench/build
